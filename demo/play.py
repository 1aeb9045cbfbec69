"""Plays a session through the console and shows what came of it.

Usage: python3 -B -m demo.play SESSION CONSOLE

A session is a file of calls; text behind a # is a comment and heads the calls that follow. Shown of each part are its
first and its last scan, those at which the mode or one of the notes below changed, and the answers of other calls.
Scans are numbered as they are accepted, so that the numbers are those of the drying sheet, which comes behind the
session.
"""

import sys

from demo.console import play, scan_answer
from demo.sheet import show

NOTES = (("MD", 9, 1, "probe open too long"), ("MD", 8, 1, "memory fault"), ("DS", 3, 0, "battery low"), ("DS", 1, 0, "low alarm"),
         ("DS", 0, 0, "high alarm"))
BAR = 40


def read_session(path):
    """Each call with the comment that stands on its line, or none."""
    for line in open(path, encoding="utf-8"):
        call, _, comment = line.partition("#")
        if call.strip():
            yield call.strip(), comment.strip()


def is_set(word, bit):
    return word >> bit & 1


def standing(answer):
    """The mode and what DS and MD report beside it, in words."""
    notes = [text for word, bit, level, text in NOTES if is_set(getattr(answer, word), bit) == level]
    return answer.mode, ", ".join(notes)


def row(number, call, answer):
    """One scan: its number, what the probe read and PV, the mode, the output and a bar of it."""
    mode, notes = standing(answer)
    probe = "open" if int(call.split()[6]) & 1 else f"{int(call.split()[2]) / 100:.2f} %"
    bar = "#" * round(answer.OP * BAR / 9999)
    return f"  {number:5}  {probe:>8}  {answer.PV:4}  {mode:<13}  {answer.OP / 100:6.2f} %  {bar:<20}  {notes}".rstrip()


def rows(part):
    """The scans of one part that are worth a line."""
    before = None
    for place, (number, call, line) in enumerate(part):
        if not line.startswith("scan"):
            yield f"  {number:5}  {line}"
            continue
        answer = scan_answer(line)
        now = standing(answer)
        if place in (0, len(part) - 1) or now != before:
            yield row(number, call, answer)
        before = now


def parts(calls, answers):
    """The session cut where a comment stands."""
    part, title, number = [], "", 0
    for (call, comment), answer in zip(calls, answers, strict=True):
        if comment and part:
            yield title, part
            part = []
        title = comment or title
        number += answer.startswith("scan")
        part.append((number, call, answer))
    yield title, part


def main():
    session, console = sys.argv[1:]
    calls = list(read_session(session))
    answers, sheet = play([call for call, _ in calls], console)
    print(f"\n{session}: {len(calls)} calls\n\n   scan     probe    PV  mode              OP")
    for title, part in parts(calls, answers):
        print(f"\n{title}")
        print("\n".join(rows(part)))
    show("The drying sheet of this lot", {"the console's numbers": sheet}, "%")


if __name__ == "__main__":
    main()
