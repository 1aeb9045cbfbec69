"""Every must-fail edit is refused for what it says, and not for the form that it gives the text.

Usage: python3 -B -m tests.gate.edits

`rt ci` has a line for each edit in its log. An edit that is refused only because a proof names something that isn't
there any more would be refused with the right value too, so it shows nothing; `rt` says so, and passes it. One that is
refused by a limit of the prover alone, or a bad one, which can't be applied or read, shows nothing either. The last
line printed is 'N passed, M failed', one count for each edit.
"""

import re
import sys

from tests import ROOT
from tests.gate import tally
from tests.gate.steps import log_name

STEP = "proofs"  # the gate's step that runs `rt ci`
EDIT = re.compile(r"rt: must-fail (\w+/[\w.-]+)\.edit: (.*)")
REFUSED = "refused, as it must be"
FORM, LIMIT = "(only because a proof file names", "(only by a limit"


def verdicts_in(log):
    """What `rt` says of each edit, by the edit's name."""
    lines = log.read_text(encoding="utf-8", errors="replace").splitlines() if log.is_file() else []
    return dict(found.groups() for found in map(EDIT.match, lines) if found)


def fault_of(verdict):
    """What is wrong with an edit, by what `rt` said of it; an empty text if nothing is."""
    if verdict is None:
        return "wasn't tried"
    if not verdict.startswith(REFUSED):
        return f"wasn't refused by the check: {verdict[:300]}"
    if verdict.startswith(f"{REFUSED} {LIMIT}"):
        return f"is refused by a limit of the prover alone: {verdict[:300]}"
    return f"is refused for its form: {verdict[:300]}" if verdict.startswith(f"{REFUSED} {FORM}") else ""


def edits_in(root):
    """Each edit of a repository, by its crate and its name."""
    return [f"{path.parent.parent.name}/{path.stem}" for path in sorted(root.glob("crates/*/must-fail/*.edit"))]


def faults_in(root):
    """What is wrong with each edit, by its name."""
    verdicts = verdicts_in(root / log_name(STEP))
    return {name: fault_of(verdicts.get(name)) for name in edits_in(root)}


def main():
    faults = faults_in(ROOT)
    return tally.report([f"{name} {fault}" for name, fault in faults.items() if fault], len(faults), "every edit shows something")


if __name__ == "__main__":
    sys.exit(main())
