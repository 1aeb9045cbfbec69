"""Proves and builds every crate, and shows how far it is: the first half of `make run`.

Usage: python3 -B -m tests.gate.run

`rt all test` proves what has changed since it was last proved, builds the programs and runs them. The exit status is 0
only if that of `rt` is 0 and its last line says that every crate is ok.
"""

import re
import sys

from tests import ROOT
from tests.gate import rt_progress
from tests.gate.progress import duration, on_standard_output
from tests.gate.steps import excerpt, failures_of, last_of

NAME = "rt all test"
ALL_OK = re.compile(r"(\d+) of (\d+) crates ok")


def are_all_ok(line):
    found = ALL_OK.fullmatch(line)
    return found is not None and found.group(1) == found.group(2) != "0"


def run(folder):
    """Proves the crates of a folder; whether all are proved."""
    with on_standard_output() as progress:
        crates = len(rt_progress.crates_in(folder))
        progress.print(f"Proving {crates} crates; see README.md for how long a first run takes.")
        (lines, status, seconds), _ = rt_progress.run_rt(NAME, NAME.split(), folder, progress, rt_progress.AllWatch)
        is_proved = status == 0 and are_all_ok(last_of(lines))
        if is_proved:
            progress.print(f"{last_of(lines)}, {duration(seconds)}")
        else:
            progress.print(f"{NAME} FAILED: exit status {status}, {duration(seconds)}", *excerpt(NAME, failures_of(lines)))
    return is_proved


if __name__ == "__main__":
    try:
        sys.exit(0 if run(ROOT) else 1)
    except KeyboardInterrupt:
        sys.exit("interrupted")
