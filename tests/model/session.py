"""What the console keeps beside its controller: a drying sheet, the answer that the last accepted scan had, and sixteen
numbers that a sheet can be begun with.

None of them is part of the controller: starts and restarts leave all.  The arithmetic lines ask and keep nothing.
"""

from tests.model import arithmetic
from tests.model.kept_sheets import PLACES, faults_of, numbers_in
from tests.model.lines import MODE_WORDS
from tests.model.sheet import Answer, Sheet
from tests.model.words import MODES

SHEET_CALLS = ("sheet-new", "sheet-last", "sheet-feed", "sheet", "sheet-number", "sheet-kept")
SESSION_CALLS = (*SHEET_CALLS, *arithmetic.WORDS)  # those that leave the controller


class Session:
    """Before the first sheet-new the sheet is empty; before the first sheet-number all numbers are 0."""

    def __init__(self):
        self.sheet, self.last, self.numbers = Sheet(), None, [0] * PLACES

    def follow(self, answer):
        """The answer that the controller gave to a call: a refused scan's isn't the last of an accepted one."""
        if answer[0] == "scan":
            _, _, DS, OP, _, mode, PV = answer
            self.last = Answer(mode, PV, DS, OP)

    def make(self, call):
        """A call that leaves the controller, given as its word and what follows it: the answer."""
        word, *given = call
        if word in arithmetic.WORDS:
            return (arithmetic.answer_to(word, given),)
        if word == "sheet":
            return sheet_answer(self.sheet.numbers())
        if word in ("sheet-last", "sheet-feed"):
            answer = self.last if word == "sheet-last" else Answer(*given)
            return (self.sheet.enter(answer) if answer else "error",)
        if word == "sheet-number":
            self.numbers[given[0]] = given[1]
        elif word == "sheet-kept" and any(True for _ in faults_of(self.numbers)):
            return ("refused",)
        else:
            self.sheet = Sheet(numbers_in(self.numbers)) if word == "sheet-kept" else Sheet()
        return ("ok",)


def sheet_answer(numbers):
    """The answer that shows a sheet: each number behind its name."""
    extremes = (f"{extreme.PV}@{extreme.number}" if extreme else "none" for extreme in (numbers.greatest, numbers.least))
    return ("sheet", f"scans={numbers.scans}", *(f"{MODE_WORDS[mode]}={count}" for mode, count in zip(MODES, numbers.modes, strict=True)),
            *map("=".join, zip(("max", "min"), extremes)), f"alarms={numbers.alarms}", f"sumpv={numbers.sum_of_PV}",
            f"sumop={numbers.sum_of_OP}")
