"""Plays two dryers through two runs of the console, the leading one's PV feeding channel 2 of the following one, and
shows both side by side.

Usage: python3 -B -m demo.feed LEADING FOLLOWING CONSOLE

LEADING and FOLLOWING are sessions in the form that demo/play.py reads, with equally many scans. The PV that a scan of
the leading dryer answers, turned back into a sample by that dryer's range, becomes sample 2 of the following dryer's
scan before it is played, and must be the one recorded. A line is shown for each scan behind which SP and SL are read in
both sessions. Behind them it is told of each drop-out of Remote or Ratio whether the setpoint stayed; then come the
drying sheets of both.
"""

import itertools
import sys
import textwrap
from typing import NamedTuple

from demo.console import ScanAnswer, play, scan_answer
from demo.play import read_session
from demo.sheet import show as show_sheets

NUMBERS = {1: "1H", 2: "1L", 20: "SL", 21: "RS", 29: "SP"}
WIDTH = 98  # of a printed line
HEAD = "  mode          PV     SP     SL       OP"


class Scan(NamedTuple):
    """What one scan answered and the reads behind it showed; what came before it, in words."""
    answer: ScanAnswer
    read: dict
    notes: list


def scans_of(calls, answers):
    """The scans of a session; what is read before the first goes with the first."""
    scans, notes, read = [], [], {}
    for (call, comment), answer in zip(calls, answers, strict=True):
        word, *numbers = call.split()
        notes += [comment] if comment else []
        if word == "read":
            (scans[-1].read if scans else read)[NUMBERS[int(numbers[0])]] = int(answer.removeprefix("value "))
        elif word == "write" and answer != "ok":
            notes.append(f"{call}: {answer}")
        elif word == "scan":
            scans.append(Scan(scan_answer(answer), {} if scans else read, notes))
            notes = []
    return scans


def fed(calls, leading):
    """The following dryer's calls with sample 2 made of the leading dryer's PV, and how many aren't as recorded."""
    high, low = leading[0].read["1H"], leading[0].read["1L"]
    number, different, played = 0, 0, []
    for call, comment in calls:
        word, *numbers = call.split()
        if word == "scan":
            sample = round((leading[number].answer.PV - low) * 10000 / (high - low))
            different += numbers[2] != str(sample)
            numbers[2] = str(sample)
            number += 1
        played.append((" ".join([word, *numbers]), comment))
    return played, different


def row(scan):
    PV, SP, SL = (f"{value / 10:7.1f}" for value in (scan.answer.PV, scan.read["SP"], scan.read["SL"]))
    return f"  {scan.answer.mode:<9}{PV}{SP}{SL}{scan.answer.OP / 100:7.2f} %"


def show(leading, following):
    """The scans that both sessions show, side by side, with what came before them."""
    print(f"\n         {'leading dryer':<43}following dryer\n  scan {HEAD:<43}{HEAD}")
    notes = []
    for number, (first, second) in enumerate(zip(leading, following, strict=True), 1):
        notes += [f"  leading: {note}" for note in first.notes] + [f"  following: {note}" for note in second.notes]
        if all(name in scan.read for scan in (first, second) for name in ("SP", "SL")):
            if notes:
                print("", *(textwrap.fill(note, WIDTH, subsequent_indent="      ") for note in notes), sep="\n")
            print(f"  {number:4} {row(first):<43}{row(second)}")
            notes = []


def drop_outs(scans):
    """What became of the setpoint, in words, at each scan that fell back from Remote or Ratio."""
    for number, (before, now) in enumerate(itertools.pairwise(scans), 2):
        if now.answer.mode != "Fall-back" or before.answer.mode not in ("Remote", "Ratio"):
            continue
        (SP_before, SP), lower = (scan.read["SP"] / 10 for scan in (before, now)), (now.read["SP"] - now.read["SL"]) / 10
        moved = f"stays at {SP:.1f} degrees" if SP == SP_before else f"moves from {SP_before:.1f} to {SP:.1f} degrees"
        local = f"though SL is {abs(lower):.1f} degrees {'lower' if lower > 0 else 'higher'}" if lower else "and SL is equal to it"
        yield f"Scan {number}: {before.answer.mode} drops out, and the setpoint of the following dryer {moved}, {local}."


def main():
    leading_session, following_session, console = sys.argv[1:]
    calls = list(read_session(leading_session))
    answers, leading_sheet = play([call for call, _ in calls], console)
    leading = scans_of(calls, answers)
    calls, different = fed(list(read_session(following_session)), leading)
    if different:
        print(f"{different} samples of channel 2 were recorded otherwise than the leading dryer's PV gives them")
        return 1
    answers, following_sheet = play([call for call, _ in calls], console)
    following = scans_of(calls, answers)
    show(leading, following)
    print(f"\n{len(following)} scans: sample 2 of the following dryer is the leading dryer's PV, as recorded, in each.")
    print(*(textwrap.fill(told, WIDTH, subsequent_indent="    ") for told in drop_outs(following)), sep="\n")
    show_sheets("The drying sheets of both lots", {"leading dryer": leading_sheet, "following dryer": following_sheet}, "degrees")
    return 0


if __name__ == "__main__":
    sys.exit(main())
