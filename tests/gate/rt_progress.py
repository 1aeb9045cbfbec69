"""How far `rt` is, by the lines that it prints: one for each crate once it is proved, one for each must-fail edit and
for each program's run at the end.

They are for a person to see how far it is. The verdict is `rt`'s own, its exit status and its last line.
"""

import re
import time
from typing import NamedTuple

from tests.gate.progress import duration
from tests.gate.steps import run_step

MOST_COLUMNS = 160  # of what `rt` says of a failure
CRATE = re.compile(r"rt: (\w+) (proved|is kept|NOT PROVED)\b(.*)")
TESTS = re.compile(r"rt: (\w+): its tests (are NOT PROVED|FAILED)\b(.*)")
TRYING = re.compile(r"rt: (\w+): trying its must-fail edits \((\d+)\)")
EDIT = re.compile(r"rt: must-fail (\w+)/([\w.-]+)\.edit: (refused|NOT REFUSED|BAD EDIT|NOT TRIED)\b(.*)")
RUN = re.compile(r"rt: (\w+) ran\b(?: \((built by [^)]*)\))?")
RUN_FAILED = re.compile(r"rt: (\w+)(?: \((built by [^)]*)\))?(?:: (?:what )?the program| was not run)\b(.*)")
BUILDS = 2  # of each program, which `rt ci` runs one after the other
# `rt all` prints what it has of a crate when it has ended, below a line with the crate's name, and closes with these
SECTION, SUMMARY = re.compile(r"== (\w+)$"), re.compile(r"(\w+): (ok|failed|not run)\b(.*)")


def crates_in(root):
    """The names that crates.txt lists; none where there is no such file."""
    listed = root / "crates.txt"
    lines = listed.read_text(encoding="utf-8").splitlines() if listed.is_file() else []
    return [line.split(":")[0].split()[0] for line in lines if ":" in line.split("#")[0]]


def programs_in(root):
    return [name for name in crates_in(root) if (root / "crates" / name / "src" / "main.rt").is_file()]


def edits_in(root):
    """The must-fail edits of the crates that are listed, by crate and name."""
    return [f"{name}/{path.stem}" for name in crates_in(root) for path in sorted((root / "crates" / name / "must-fail").glob("*.edit"))]


def cut(words):
    """What `rt` says besides, as far as it can be read."""
    words = words.strip(" :")
    return words if len(words) <= MOST_COLUMNS else words[:MOST_COLUMNS] + " ..."


def told(*parts):
    return ", ".join(part for part in parts if part)


class Ended(NamedTuple):
    """A crate that is proved, and the seconds from the start of `rt` until then."""
    name: str
    seconds: float


class Watch:
    """What `rt ci` has ended so far, by its lines, with the time at which it told so."""

    def __init__(self, root, progress):
        self.progress, self.began = progress, time.monotonic()
        self.totals = {"crates": len(crates_in(root)), "edits": len(edits_in(root)), "runs": BUILDS * len(programs_in(root))}
        self.counts = dict.fromkeys(self.totals, 0)
        self.ended, self.trying = [], []

    def number(self, kind):
        self.counts[kind] += 1
        return f"{self.counts[kind]} of {self.totals[kind]}"

    def hear(self, line):
        """A line that `rt` prints: what it tells is shown, if it is of a crate, an edit or a program."""
        for pattern, tell in ((CRATE, self.crate), (TESTS, self.tests), (TRYING, self.begun), (EDIT, self.edit), (RUN, self.run),
                              (RUN_FAILED, self.run_failed)):
            found = pattern.match(line)
            if found:
                tell(*found.groups())
                return

    def crate(self, name, verdict, words):
        seconds = time.monotonic() - self.began
        at = f"at {duration(seconds)}"
        if verdict == "NOT PROVED":
            self.progress.print(f"NOT PROVED: {told(name, cut(words), at)}")
            return
        self.ended.append(Ended(name, seconds))
        self.progress.print(f"{verdict.split()[-1]} {self.number('crates')}: {name}, {at}")

    def tests(self, name, verdict, words):
        self.progress.print(f"{verdict.removeprefix('are ')}: {told(f'the tests of {name}', cut(words))}")

    def begun(self, name, _):
        """`rt` tells that it tries a crate's edits, and what came of them when all edits of all crates have ended."""
        self.trying.append(name)
        self.progress.start("trying the edits of", name)

    def edit(self, crate, edit, verdict, words):
        self.all_tried()
        label = f"{crate}/{edit}"
        self.progress.print(f"refused {self.number('edits')}: {label}" if verdict == "refused" else f"{verdict}: {told(label, cut(words))}")

    def run(self, name, build):
        self.all_tried()
        self.progress.print(f"ran {self.number('runs')}: {told(name, build)}")

    def run_failed(self, name, build, words):
        self.all_tried()
        self.progress.print(f"RUN FAILED: {told(name, build, cut(words))}")

    def all_tried(self):
        while self.trying:
            self.progress.end("trying the edits of", self.trying.pop())


class AllWatch(Watch):
    """The same for `rt all`, which tells of a crate by what stands below its name, and of all at the end."""

    def hear(self, line):
        section, summed = SECTION.match(line), SUMMARY.match(line)
        if section and section.group(1) != "summary":
            at = f"at {duration(time.monotonic() - self.began)}"
            self.progress.print(f"ended {self.number('crates')}: {section.group(1)}, {at}")
        elif summed and summed.group(2) != "ok":
            self.progress.print(f"FAILED: {summed.group(1)}, {summed.group(2)}{summed.group(3)}")


def run_rt(name, command, folder, progress, kind=Watch):
    """Runs `rt` as a step; each crate, edit and program is shown as `rt` tells of it. With what a step gives come the
    crates as they ended.
    """
    watch = kind(folder, progress)
    try:
        ended = run_step(name, command, folder, watch.hear)
    finally:
        watch.all_tried()
    return ended, watch.ended
