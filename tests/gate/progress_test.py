"""Tests of what a person sees of a run: the lines of `rt` and of the tests as they end, their logs, and what runs now.

They are among the gate's own tests (`tests/gate/gate_test.py`). `rt` is a stand-in here (`tests/gate/stand_in.py`).
"""

import io
import pathlib
import tempfile

from tests.gate import gate, progress, run, stand_in, steps
from tests.gate.stand_in import ALL_OK, OK, PROVED, RAN, REFUSED, printing

START = "Proving 3 crates; see README.md for how long a first run takes."
# It ends only once another crate's line was printed, and is then proved
WAITS = """echo 'rt: quick proved'
turns=0
while [ ! -e seen ] && [ $turns -lt 50 ]; do sleep 0.1; turns=$((turns + 1)); done
[ -e seen ] && echo 'rt: slow proved'
echo '2 passed, 0 failed'
"""
SLEEPS = ("a step", ["sh", "-c", "sleep 0.8; echo 3 passed, 0 failed"])
PROVED_LINES = ["proved 1 of 3: quick, at N s", "proved 2 of 3: slow, at N s", "proved 3 of 3: program, at N s"]
REFUSED_LINES = ["refused 1 of 2: quick/turned", "refused 2 of 2: slow/lost"]
RAN_LINES = ["ran 1 of 2: program", "ran 2 of 2: program, built by Rattle's own compiler"]


class Watched(io.StringIO):
    """An output that makes a file when it is given a text."""

    def __init__(self, text, file):
        super().__init__()
        self.text, self.file = text, file

    def write(self, text):
        if self.text in text:
            self.file.touch()
        return super().write(text)


def script(name, text):
    return name, ["sh", "-c", text]


def each_has_a_line():
    """All crates, edits and programs, with their counts, and the log has all that `rt` prints."""
    with stand_in.repository(printing(PROVED + REFUSED + RAN + OK)) as root:
        result, printed = stand_in.printed_by(stand_in.proofs_of, root)
        log = (root / steps.log_name("proofs")).read_text()
    return (result.failed == 0 and log == "".join(result.lines) == PROVED + REFUSED + RAN + OK
            and [crate.name for crate in result.crates] == ["quick", "slow", "program"]
            and stand_in.untimed(printed) == [*PROVED_LINES, *REFUSED_LINES, *RAN_LINES, "proofs, 5 passed, N s"])


def line_comes_at_the_end():
    """A crate's line comes when `rt` tells of it, not when all have ended that run beside it."""
    with stand_in.repository(WAITS) as root:
        result, printed = stand_in.printed_by(stand_in.proofs_of, root, stream=Watched("quick", root / "seen"))
        return result.failed == 0 and "proved 2 of 3: slow" in printed


def kept_crates_count():
    """What an earlier run proved is told and counted too."""
    kept = ["rt: quick is kept: an earlier run on this machine proved the same files over the same libraries\n",
            "rt: quick: 1 of its 1 must-fail edits were tried by an earlier run on this machine, and nothing has changed\n"]
    with stand_in.repository(printing("".join(kept) + PROVED[PROVED.index("== slow"):] + REFUSED + RAN + OK)) as root:
        result, printed = stand_in.printed_by(stand_in.proofs_of, root)
    return result.failed == 0 and stand_in.untimed(printed) == [
        "kept 1 of 3: quick, at N s", *PROVED_LINES[1:], *REFUSED_LINES, *RAN_LINES, "proofs, 5 passed, N s"]


def failing_crate_is_named():
    """What isn't proved, what depends on it, and the errors; the log is named and has all."""
    error = "src/lib.rt:1:1: error: the goal does not follow"
    lines = ["rt: quick proved", "== slow", error, "rt: slow NOT PROVED", "rt: program NOT PROVED: its library slow failed",
             "rt: FAILED: slow program", "1 passed, 2 failed"]
    with stand_in.repository(printing("\n".join(lines) + "\n", 1)) as root:
        result, printed = stand_in.printed_by(stand_in.proofs_of, root)
    return (result.passed, result.failed) == (1, 2) and stand_in.untimed(printed) == [
        PROVED_LINES[0], "NOT PROVED: slow, at N s", "NOT PROVED: program, its library slow failed, at N s",
        "proofs, 1 passed, 2 FAILED, N s", f"    | {error}", "    | rt: slow NOT PROVED",
        "    | rt: program NOT PROVED: its library slow failed", "    | rt: FAILED: slow program",
        "    the whole log: out/logs/proofs.log"]


def refusal_of_the_whole_is_told():
    """Where `rt` refuses the repository before it proves anything, what it prints is there."""
    cause = "rt: crates.txt: missing is no line of this file and no library of the kit"
    with stand_in.repository(printing(f"{cause}\n0 passed, 1 failed\n", 2)) as root:
        result, printed = stand_in.printed_by(stand_in.proofs_of, root)
    return result.failed == 1 and stand_in.untimed(printed) == [
        "proofs, 0 passed, 1 FAILED, N s", f"    | {cause}", "    the whole log: out/logs/proofs.log"]


def failing_edits_and_runs_are_named():
    """An edit that isn't refused, one that can't be made, tests that fail, and a program that writes something else."""
    differs = "what the program wrote, out/stdout, is not what its file stdout has: they differ first at byte 1, line 1"
    lines = ["rt: must-fail quick/turned.edit: NOT REFUSED: the crate is still proved with this edit",
             "rt: must-fail slow/lost.edit: BAD EDIT: an 'old:' text is in src/lib.rt 0 times, and not once",
             "rt: slow: its tests FAILED", f"rt: program: {differs}", "rt: note: bad must-fail edits, as told above: 1.",
             "rt: FAILED: quick/turned.edit slow (tests) program (run)", "3 passed, 3 failed"]
    with stand_in.repository(printing(PROVED + "\n".join(lines) + "\n", 1)) as root:
        result, printed = stand_in.printed_by(stand_in.proofs_of, root)
    return result.failed == 3 and stand_in.untimed(printed) == [
        *PROVED_LINES, "NOT REFUSED: quick/turned, the crate is still proved with this edit",
        "BAD EDIT: slow/lost, an 'old:' text is in src/lib.rt 0 times, and not once", "FAILED: the tests of slow",
        "RUN FAILED: program, wrote, out/stdout, is not what its file stdout has: they differ first at byte 1, line 1",
        "proofs, 3 passed, 3 FAILED, N s", *(f"    | {line}" for line in lines[:-1]), "    the whole log: out/logs/proofs.log"]


def bad_edits_fail():
    """`rt ci` passes an edit that can't be applied or read; the gate doesn't, and names it."""
    bad = "rt: must-fail slow/lost.edit: BAD EDIT: an 'old:' text is in src/lib.rt 0 times, and not once"
    ok = OK.replace("2 refused", "1 refused, 1 bad").replace("5 passed", "4 passed")
    with stand_in.repository(printing(f"{PROVED}{REFUSED.splitlines()[0]}\n{bad}\n{ok}")) as root:
        result, printed = stand_in.printed_by(stand_in.proofs_of, root)
    return ((result.passed, result.failed) == (4, 1) and f"    | {bad}\n    | {ok.splitlines()[0]}" in printed
            and "proofs, 4 passed, 1 FAILED (must-fail edits: 1 bad), N s" in stand_in.untimed(printed))


def verdict_is_that_of_rt():
    """`make run` goes on only if `rt` ends with status 0 and says at last that all crates are ok."""
    some = ALL_OK.replace("program: ok\n3 of", "program: failed (1)\n2 of")
    verdicts = []
    for text, status in ((ALL_OK, 0), (ALL_OK, 1), ("", 0), (some, 0), (some, 1), ("0 of 0 crates ok\n", 0)):
        with stand_in.repository(printing(text, status)) as root:
            is_proved, printed = stand_in.printed_by(run.run, root)
        verdicts.append(is_proved)
        shows = stand_in.untimed(printed)
        ended = [f"ended {number} of 3: {name}, at N s" for number, name in enumerate(("quick", "slow", "program"), 1)]
        if (text, status) == (ALL_OK, 0) and shows != [START, *ended, "3 of 3 crates ok, N s"]:
            return False
        if text == some and (shows[4] != "FAILED: program, failed (1)" or f"rt all test FAILED: exit status {status}, N s" not in shows):
            return False
    return verdicts == [True, False, False, False, False, False]


def tests_are_numbered_as_they_end():
    """The first to end is number 1; one that fails shows its last lines, and its log has all of them."""
    first, second = script("first's", "sleep 1; echo 3 passed, 0 failed"), script("second", "seq 40; echo 0 passed, 2 failed; exit 1")
    with tempfile.TemporaryDirectory() as folder:
        root = pathlib.Path(folder)
        _, printed = stand_in.printed_by(stand_in.results_of, (first, second), root, 2)
        log = (root / "out" / "logs" / "second.log").read_text()
        has_log = (root / "out" / "logs" / "firsts.log").read_text() == "3 passed, 0 failed\n"
    return has_log and log.splitlines() == [*map(str, range(1, 41)), "0 passed, 2 failed"] and stand_in.untimed(printed) == [
        "tested 1 of 2: second, 0 passed, 2 FAILED, N s", *(f"    | {number}" for number in range(12, 41)), "    | 0 passed, 2 failed",
        "    the whole log: out/logs/second.log", "tested 2 of 2: first's, 3 passed, N s"]


def silent_step_has_an_empty_log():
    """The log is that of this run."""
    with tempfile.TemporaryDirectory() as folder:
        root = pathlib.Path(folder)
        for text in ("echo 1 passed, 0 failed", "true"):
            stand_in.printed_by(stand_in.results_of, (script("step", text),), root)
        return (root / steps.log_name("step")).read_text() == ""


def failures_are_told_apart():
    """Which lines of `rt` tell of failures: those of errors, and those of its own that don't say that all is right."""
    kept = "; done in this run: 0 of the 3 proofs; the others are kept"
    right = [*PROVED.splitlines(), *REFUSED.splitlines(), *RAN.splitlines(), *OK.splitlines(), *ALL_OK.splitlines(),
             "rt: slow is kept: an earlier run on this machine proved the same files over the same libraries",
             "rt: slow: 2 of its 2 must-fail edits were tried by an earlier run on this machine", "rt: slow: its tests are proved",
             "rt: slow: its tests passed", f"rt: ok; handles allowed: none; must-fail edits: 2 refused, 1 of them only by a limit{kept}",
             "rt: note: slow is not kept", "rt: slow: another run on this machine is proving the same; waiting for it",
             "rt: quick: begins with what a check kept in crates/quick", "rt: nothing has changed since the last proved build"]
    wrong = ["src/lib.rt:8:5: error[private-field]: field `x` is private", "P.antt:46:5: error: `returns`: the goal does not follow",
             "rt: slow NOT PROVED", "rt: slow: its tests are NOT PROVED", "rt: slow: its tests FAILED", "rt: FAILED: slow",
             "rt: must-fail slow/lost.edit: NOT REFUSED: it is still proved", "rt: must-fail slow/lost.edit: BAD EDIT: it changes nothing",
             "rt: must-fail slow/lost.edit: NOT TRIED: run this again", "rt: note: bad must-fail edits, as told above: 1.",
             f"rt: ok; handles allowed: none; must-fail edits: 1 refused, 1 bad{kept}", "rt: run rt fmt in the crate's folder",
             "rt: program: the program ended with status 1, and not 0", "rt: program was not run: setpriv failed here",
             "rt: warning: 1 of the 1 must-fail edits of slow are bad", "rt: the disk is full", "rt: no check reads notes.rt"]
    return steps.failures_of(right + wrong) == wrong


def excerpts_are_short():
    """Many failures are counted and long lines are cut; where no line tells of a failure the last ones do."""
    many = steps.failures_of([f"rt: name{number} NOT PROVED (1 s)\n" for number in range(34)])
    none = steps.failures_of([f"line {number}\n" for number in range(34)])
    long = steps.excerpt("step", ["x" * 1000])
    return (len(many) == steps.MOST_LINES + 1 and many[-1] == "and 4 such lines more" and none[0] == "line 4\n"
            and len(none) == steps.MOST_LINES and len(long[0]) < 220)


def no_terminal_no_redrawing():
    """Nothing is redrawn where the output is no terminal, is recorded, or can't be erased, though time goes by."""
    with tempfile.TemporaryDirectory() as folder:
        root = pathlib.Path(folder)
        _, printed = stand_in.printed_by(stand_in.results_of, (SLEEPS,), root)
        others = [stand_in.printed_on_terminal(stand_in.results_of, (SLEEPS,), root, **variables)
                  for variables in ({"CI": "true"}, {"TERM": "dumb"})]
    lines = ["tested 1 of 1: a step, 3 passed, N s"]
    return all("\r" not in each and "now" not in each and stand_in.untimed(each) == lines for each in (printed, *others))


def terminal_shows_what_runs_now():
    """What runs now comes with its time, is redrawn, and is gone in the end: the lines of what has ended stay."""
    script = f"{printing(PROVED).replace('exit 0', 'sleep 2')}{printing(REFUSED + RAN + OK)}"
    with stand_in.repository(script) as root:
        printed = stand_in.printed_on_terminal(stand_in.proofs_of, root)
        tested = stand_in.printed_on_terminal(stand_in.results_of, (SLEEPS,), root)
    while_trying, after = printed.split("refused 1 of 2")
    return (all(f"\r\x1b[K  now trying the edits of quick ({seconds} s), slow ({seconds} s); " in while_trying for seconds in (0, 1))
            and "now" not in after and "\r\x1b[K  now testing a step (0 s); 0 s so far\r\x1b[K" in tested
            and stand_in.untimed("\n".join(stand_in.visible(printed))) == [
                *PROVED_LINES, *REFUSED_LINES, *RAN_LINES, "proofs, 5 passed, N s"]
            and stand_in.untimed("\n".join(stand_in.visible(tested))) == ["tested 1 of 1: a step, 3 passed, N s"])


def line_fits_the_terminal():
    """What runs now is one line of the terminal; the time so far stays."""
    running = {("proving", "controller"): 100, ("proving", "commands"): 82}
    return (progress.status_line(running, 112, -18, 100) == "  now proving controller (12 s), commands (30 s); 2 min 10 s so far"
            and progress.status_line(running, 112, -18, 40) == "  now proving con...; 2 min 10 s so far"
            and progress.status_line({}, 112, 100, 40) == "  12 s so far")


def logs_are_apart():
    names = [name for name, _ in (gate.PROOFS, *gate.TESTS, *gate.SPEED)]
    return len({steps.log_name(name) for name in names}) == len(names) == 19


CASES = (
    ("a line for each crate, edit and program", each_has_a_line),
    ("the line of a crate while another runs", line_comes_at_the_end),
    ("crates of an earlier run", kept_crates_count),
    ("a crate that isn't proved", failing_crate_is_named),
    ("a repository that rt refuses", refusal_of_the_whole_is_told),
    ("edits and runs that fail", failing_edits_and_runs_are_named),
    ("bad edits that rt passes", bad_edits_fail),
    ("the verdict of rt", verdict_is_that_of_rt),
    ("the numbers and the logs of tests", tests_are_numbered_as_they_end),
    ("the log of a step that says nothing", silent_step_has_an_empty_log),
    ("lines that tell of failures", failures_are_told_apart),
    ("short excerpts", excerpts_are_short),
    ("no terminal", no_terminal_no_redrawing),
    ("a terminal", terminal_shows_what_runs_now),
    ("a narrow terminal", line_fits_the_terminal),
    ("a log for each step", logs_are_apart),
)
