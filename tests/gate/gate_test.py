"""Tests of the gate itself: each way in which a step can fail must fail the gate, and the times stand before the tally.

Usage: python3 -B -m tests.gate.gate_test

What a person sees of a run is tested too, by `tests/gate/progress_test.py`. The last line printed is 'N passed, M
failed'.
"""

import pathlib
import subprocess
import sys
import tempfile

from tests.gate import edits, gate, progress_test, steps, tally, times
from tests.gate.stand_in import printed_by, proofs_of, results_of, untimed, write

PASSES = ("a step", ["sh", "-c", "echo 3 passed, 0 failed"])
# A crate with one function, and an edit of it that is wrong
CRATE = """#![tactic(auto)]

ghost use Rattle.std.specs.Prelude.{{◌≡◌}};

pub fn {name}(x: u8) -> u8
    ensures {{ result ≡ x }}
{{
    x
}}
"""
EDIT = "file: src/lib.rt\nold:     x\nnew:     0\n"


def counts(steps, at_once=1):
    """How many the gate counts as passed and as failed in these steps."""
    with tempfile.TemporaryDirectory() as folder:
        results, _ = printed_by(results_of, steps, pathlib.Path(folder), at_once)
    return sum(result.passed for result in results), sum(result.failed for result in results)


def outcome(script):
    """The counts of one step that runs this shell script."""
    return counts([("step", ["sh", "-c", script])])


def two_at_once(first, second):
    """The counts of two steps that run at once."""
    return counts([("first", ["sh", "-c", first]), ("second", ["sh", "-c", second])], at_once=2)


def rt_fails_what_it_must():
    """`rt ci` itself over a repository with a crate that crates.txt does not list, over the same with it listed, over
    one with a must-fail edit that has no place, and over one with a file that isn't laid out.
    """
    with tempfile.TemporaryDirectory() as folder:
        root = pathlib.Path(folder)
        subprocess.run(["git", "init", "-q", folder], check=True)
        write(root, {f"crates/{name}/src/lib.rt": CRATE.format(name=name) for name in ("listed", "unlisted")})
        write(root, {"crates/listed/must-fail/wrong.edit": EDIT})
        found = []
        for changes in ({"crates.txt": "listed:\n"}, {"crates.txt": "listed:\nunlisted:\n"},
                        {"crates/listed/must-fail/lost.edit": EDIT.replace("    x", "    y")},
                        {"crates/unlisted/src/lib.rt": CRATE.format(name="unlisted").replace("    x\n", "  x\n")}):
            write(root, changes)
            result, printed = printed_by(proofs_of, root)
            found.append((result.passed, result.failed, untimed(printed)))
    unlisted, listed, bad, unformatted = found
    lines = [line.replace("kept", "proved") for line in listed[2][:3]]
    return (unlisted[:2] == (0, 1) and listed[:2] == (3, 0) and bad[:2] == (3, 1) and unformatted[:2] == (2, 1)
            and sorted(line.split(": ")[0] for line in lines) == ["proved 1 of 2", "proved 2 of 2", "refused 1 of 1"]
            and {line.split(": ")[1] for line in lines} == {"listed, at N s", "unlisted, at N s", "listed/wrong"}
            and any(line.startswith("BAD EDIT: listed/lost, ") for line in bad[2])
            and any(line.startswith("NOT PROVED: unlisted") for line in unformatted[2]))


def closes_with_the_tally():
    """The exit status and the last line of a gate that passes, and of one that fails; the times come before."""
    fails = ("another step", ["sh", "-c", "echo 1 passed, 2 failed; exit 1"])
    with tempfile.TemporaryDirectory() as folder:
        status, printed = printed_by(gate.gate, PASSES, (((PASSES,), 1), ((PASSES, PASSES), 2)), pathlib.Path(folder))
        bad_status, bad_printed = printed_by(gate.gate, PASSES, (((fails,), 2),), pathlib.Path(folder))
    lines = printed.splitlines()
    after = lines[lines.index("== steps, seconds, the longest first"):]
    return (status == 0 and lines[-1] == "12 passed, 0 failed" and not any("passed" in line for line in after[:-1])
            and bad_status == 1 and bad_printed.endswith("\nFAILED: another step; out/logs/another-step.log\n4 passed, 2 failed\n"))


def longest_stands_first():
    lines = times.table([("short", 1.4), ("long", 90.6)], [("integers", 12), ("outputs", 40.2)])
    return [line.split("  ")[-1] for line in lines if line.startswith(" ")] == ["long", "short", "outputs", "integers"]


def edits_of_form():
    """Which edits are found to show nothing, by what `rt` said of them; one of them wasn't tried."""
    verdicts = {
        "value": "refused, as it must be: ./proofs/f/Answers.antt:46:5: error: `returns`: the goal does not follow",
        "limit": "refused, as it must be (only by a limit of the prover, which gave no verdict): antt ran out of steps",
        "alone": "refused, as it must be",
        "renamed": "refused, as it must be (only because a proof file names what the edit took away): P.antt:1:2: error: no `y`",
        "lost": "BAD EDIT: an 'old:' text is in src/lib.rt 0 times, and not once",
        "passes": "NOT REFUSED: the crate is still proved with this edit",
        "killed": "NOT TRIED: its check was killed, most likely for memory",
    }
    with tempfile.TemporaryDirectory() as folder:
        root = pathlib.Path(folder)
        untried = {name for name, fault in edits.faults_in(root).items() if fault}
        write(root, {f"crates/terms/must-fail/{name}.edit": EDIT for name in [*verdicts, "untried"]})
        without = {name for name, fault in edits.faults_in(root).items() if fault}
        lines = (f"rt: must-fail terms/{name}.edit: {words}\n" for name, words in verdicts.items())
        write(root, {steps.log_name(edits.STEP): "".join(lines)})
        found = {name for name, fault in edits.faults_in(root).items() if fault}
    names = {f"terms/{name}" for name in [*verdicts, "untried"]}
    return not untried and without == names and found == names - {"terms/value", "terms/alone"}


CASES = (
    ("a step that passes", lambda: outcome("echo 3 passed, 0 failed") == (3, 0)),
    ("blank lines after a tally", lambda: outcome("echo 3 passed, 0 failed; echo") == (3, 0)),
    ("a failure counted", lambda: outcome("echo 3 passed, 2 failed; exit 1") == (3, 2)),
    ("a failure counted, and exit status 0", lambda: outcome("echo 3 passed, 2 failed") == (3, 2)),
    ("a tally, and a bad exit status", lambda: outcome("echo 3 passed, 0 failed; exit 1") == (3, 1)),
    ("no tally", lambda: outcome("echo done") == (0, 1)),
    ("no output", lambda: outcome("true") == (0, 1)),
    ("a tally that is not the last line", lambda: outcome("echo 3 passed, 0 failed; echo done") == (0, 1)),
    ("a tally of nothing", lambda: outcome("echo 0 passed, 0 failed") == (0, 1)),
    ("a command that is not there", lambda: counts([("step", ["no-such-command-at-all"])]) == (0, 1)),
    ("two at once that pass", lambda: two_at_once("sleep 0.1; echo 3 passed, 0 failed", "echo 4 passed, 0 failed") == (7, 0)),
    ("one of two at once that fails", lambda: two_at_once("echo 3 passed, 0 failed", "echo 4 passed, 1 failed; exit 1") == (7, 1)),
    ("the tally after the times", closes_with_the_tally),
    ("the longest first", longest_stands_first),
    ("edits that show nothing", edits_of_form),
    ("repositories that rt must fail", rt_fails_what_it_must),
    *progress_test.CASES,
)


def main():
    passed = failed = 0
    for name, holds in CASES:
        right = holds()
        passed, failed = passed + right, failed + (not right)
        print(("ok    " if right else "WRONG ") + name)
    return tally.close(passed, failed)


if __name__ == "__main__":
    sys.exit(main())
