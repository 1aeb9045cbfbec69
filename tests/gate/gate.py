"""The gate: every step must exit with status 0 and close with a tally that counts no failure.

Usage: python3 -B -m tests.gate.gate

The steps are `rt ci` (every listed crate proved, must-fail edits refused, programs built by two compilers and run; a
crate that is not listed fails it, and so does a file that `rt fmt` would lay out otherwise) and the tests. `rt ci` runs
as it is, with no names, at the top, with nothing copied, deleted or left out before. It passes must-fail edits that
can't be applied or read, and counts them on its line `rt: ok`; here each of them is a failure. A line is printed for
each crate, edit, program and test as `rt` or the test tells of it; all that they say is in logs below out/logs. After
the steps comes where the time went. The last line printed is 'N passed, M failed' over all steps; the exit status is 0
only if M is 0.
"""

import concurrent.futures
import itertools
import re
import sys
from typing import NamedTuple

from tests import ROOT
from tests.gate import rt_progress, tally, times
from tests.gate.edits import STEP
from tests.gate.progress import duration, on_standard_output
from tests.gate.steps import end_of, excerpt, failures_of, last_of, log_name, run_step

MODULE = [sys.executable, "-B", "-m"]
TALLY = re.compile(r"(\d+) passed, (\d+) failed")
BAD_EDITS = re.compile(r"rt: ok;.*, (\d+) bad\b")
CONSOLE, HANDHELD = (f"crates/{name}/out/{name}" for name in ("console", "handheld"))  # the programs that `rt ci` built

PROOFS = (STEP, ["rt", "ci"])
# Two at once, the longest first
TESTS = (
    ("the console's answers compared with the model's", [*MODULE, "tests.comparison.console", CONSOLE]),
    ("programs that forge a controller or a sheet", [*MODULE, "tests.outsider.outsider"]),
    ("a program with a session of its own", [*MODULE, "tests.outsider.session"]),
    ("the arithmetic's answers compared with the model's", [*MODULE, "tests.comparison.arithmetic", CONSOLE]),
    ("kept sheets compared with the model's", [*MODULE, "tests.comparison.kept_sheets", CONSOLE]),
    ("the hand-held terminal's answers compared with the model's", [*MODULE, "tests.comparison.handheld", HANDHELD]),
    ("must-fail edits that show nothing", [*MODULE, "tests.gate.edits"]),
    ("the gate's own tests", [*MODULE, "tests.gate.gate_test"]),
    ("the model's calls that the rules are proved to give", [*MODULE, "tests.statements.calls"]),
    ("the table of roots", [*MODULE, "tests.roots.table"]),
    ("the look-up of a root, as compiled", [*MODULE, "tests.roots.lookup"]),
    ("the tests of the look-up's check", [*MODULE, "tests.roots.lookup_test"]),
    ("layout", [*MODULE, "tests.repository.layout"]),
    ("names", [*MODULE, "tests.repository.names"]),
    ("the tests of layout and names", [*MODULE, "tests.repository.repository_test"]),
    ("names in the documents", [*MODULE, "tests.repository.docs"]),
    ("the recorded sessions of two dryers", [*MODULE, "demo.record", "--check"]),
)
# Timed, and so alone
SPEED = (
    ("the console's speed", [*MODULE, "tests.comparison.speed", CONSOLE]),
)


class Result(NamedTuple):
    """What came of a step."""
    name: str
    passed: int
    failed: int
    trouble: str    # what is wrong besides the failures that it counts, or nothing
    seconds: float
    lines: list
    crates: tuple = ()  # of `rt`, as they were proved


def counts_of(last, status):
    """Counts of passed and failed: a step with no tally, an empty one or a bad exit status has failed at least once."""
    counts = TALLY.fullmatch(last)
    if counts is None:
        return 0, 1, "no tally on its last line"
    passed, failed = map(int, counts.groups())
    if failed == 0 and status != 0:
        return passed, 1, f"exit status {status}"
    if failed == 0 and passed == 0:
        return 0, 1, "nothing was tested"
    return passed, failed, ""


def result_of(name, lines, status, seconds):
    return Result(name, *counts_of(last_of(lines), status), seconds, lines)


def with_bad_edits(result):
    """The result of `rt ci`, in which each must-fail edit that can't be applied or read is a failure."""
    bad = sum(int(found.group(1)) for found in map(BAD_EDITS.match, result.lines) if found)
    trouble = "; ".join(filter(None, (result.trouble, f"must-fail edits: {bad} bad" if bad else "")))
    return result._replace(failed=result.failed + bad, trouble=trouble)


def told(result, choose):
    """The counts and the time of a step, and where it failed the lines of its log that are chosen."""
    failed = f", {result.failed} FAILED" if result.failed else ""
    trouble = f" ({result.trouble})" if result.trouble else ""
    line = f"{result.name}, {result.passed} passed{failed}{trouble}, {duration(result.seconds)}"
    return [line, *(excerpt(result.name, choose(result.lines)) if result.failed else [])]


def run_proofs(step, folder, progress):
    """The result of `rt ci`, whose crates, edits and programs are shown as it tells of them."""
    name, command = step
    ended, crates = rt_progress.run_rt(name, command, folder, progress)
    result = with_bad_edits(result_of(name, *ended))._replace(crates=tuple(crates))
    progress.print(*told(result, failures_of))
    return result


def run_tests(groups, folder, progress):
    """The results of all tests, the later ones too when one fails; a group comes with how many of it run at once."""
    numbers, total = itertools.count(1), sum(len(steps) for steps, _ in groups)

    def run_test(name, command):
        progress.start("testing", name)
        result = result_of(name, *run_step(name, command, folder))
        with progress.lock:  # so that the numbers come in their order
            line, *more = told(result, end_of)
            progress.end("testing", name, f"tested {next(numbers)} of {total}: {line}", *more)
        return result

    results = []
    for steps, at_once in groups:
        with concurrent.futures.ThreadPoolExecutor(at_once) as pool:
            runs = [pool.submit(run_test, *step) for step in steps]
            try:
                results += [run.result() for run in runs]
            finally:
                pool.shutdown(cancel_futures=True)  # after an interruption no other test begins
    return results


def intent(folder, tests):
    """What will be done, in a line for a person."""
    crates, edits, programs = map(len, (find(folder) for find in (rt_progress.crates_in, rt_progress.edits_in, rt_progress.programs_in)))
    return (f"Proving {crates} crates, trying {edits} must-fail edits, running {programs} programs, then {tests} tests; "
            "see README.md for how long.")


def gate(proofs, groups, folder):
    """Runs `rt` and the tests; prints the times and closes with the tally."""
    with on_standard_output() as progress:
        progress.print(intent(folder, sum(len(steps) for steps, _ in groups)))
        results = [run_proofs(proofs, folder, progress), *run_tests(groups, folder, progress)]
        crates = [crate for result in results for crate in result.crates]
        progress.print("", *times.table([(result.name, result.seconds) for result in results], crates))
        progress.print(*(f"FAILED: {result.name}; {log_name(result.name)}" for result in results if result.failed))
    return tally.close(sum(result.passed for result in results), sum(result.failed for result in results))


if __name__ == "__main__":
    try:
        sys.exit(gate(PROOFS, ((TESTS, 2), (SPEED, 1)), ROOT))
    except KeyboardInterrupt:
        sys.exit("interrupted")
