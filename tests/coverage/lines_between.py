"""What the lists with arithmetic lines and kept sheets between other calls have met, and how often each thing must be
met at least.
"""

from tests.coverage.coverage import Coverage
from tests.lists.line_forms import line_errors_of, other_forms_of
from tests.lists.lines_between import NEW_WORDS
from tests.model.arithmetic import WORDS
from tests.model.kept_sheets import SCANS
from tests.model.sheet import MOST_SCANS
from tests.model.words import AUTOMATIC, mode_of

ARITHMETIC, REFUSED = "an arithmetic line", ("scan", "restart", "write", "sheet-kept")
NEW_CALLS = (ARITHMETIC, "sheet-number", "sheet-kept", "a refused sheet-kept")
OTHER_CALLS = ("fresh", "scan", "a refused scan", "write", "access", "read", "restart", "a refused restart", "save", "clock", "line",
               "sheet-new", "sheet-last", "sheet-feed", "sheet")
LEAVING = (*OTHER_CALLS, ARITHMETIC, "sheet-kept")  # calls that leave the sixteen numbers, and after which they can be a sheet's
# One right after another; the same numbers can't be a sheet's and no sheet's
PAIRS = {pair for new in NEW_CALLS for other in (*OTHER_CALLS, *NEW_CALLS) for pair in ((new, other), (other, new))
         if set(pair) != {"sheet-kept", "a refused sheet-kept"}}


def least_counts():
    """The least count of each thing, by name."""
    least = {"arithmetic lines": 3500, "sheet-number": 4000, "sheet-kept taken": 2000, "sheet-kept refused": 600, "calls": 20000}
    least.update({word: 400 for word in WORDS})
    least.update({f"{later} right after {earlier}": 4 for earlier, later in sorted(PAIRS)})
    least.update({f"an output moved by the terms right after {new}": 40 for new in NEW_CALLS})
    least.update({f"numbers given, then {call}, then the sheet begun": 40 for call in LEAVING})
    least.update({f"an answer of a scan entered after {what}": 300 for what in ("kept numbers", "no kept number")})
    least.update({f"the {end} PV is {whose}, looked at": 200 for end in ("greatest", "least")
                  for whose in ("a kept one", "an entered one")})
    least.update({f"{what} by {how}": 10 for what in ("the last scan taken", "full") for how in ("sheet-last", "sheet-feed")})
    least.update({"looked at when full": 20, "a refused sheet-kept, then looked at": 50})
    least.update({f"line: {kind} of {word}": 20 for word in NEW_WORDS for kind in (*line_errors_of(word), *other_forms_of(word))})
    return least


def name_of(call, answer):
    """What a call is counted as."""
    if call[0] in WORDS:
        return ARITHMETIC
    return f"a refused {call[0]}" if answer[0] == "refused" and call[0] in REFUSED else call[0]


class BetweenCoverage(Coverage):
    title, least_counts = "lines between", staticmethod(least_counts)

    def __init__(self):
        """What came before the present call, and which calls came since the last number was given."""
        super().__init__()
        self.previous, self.since = None, set()

    def lines(self, entries):
        """What came before a list isn't known."""
        super().lines(entries)
        self.previous, self.since = None, set()

    def call(self, call, before, after, answer, pair):
        name, word = name_of(call, answer), call[0]
        self.count("calls", *[f"{name} right after {self.previous}"] * (name in NEW_CALLS or self.previous in NEW_CALLS))
        if word in WORDS:
            self.count("arithmetic lines", word)
        elif word == "sheet-number":
            self.count("sheet-number")
        elif word == "sheet-kept":
            self.kept(answer, pair.session.numbers)
        elif word in ("sheet-last", "sheet-feed"):
            self.entered(word, answer, pair.session.sheet)
        elif word == "sheet":
            self.looked_at(pair.session.sheet)
        elif answer[0] == "scan" and mode_of(after[0]) in AUTOMATIC and after[0].output != before[0].output:
            self.count(f"an output moved by the terms right after {self.previous}")
        self.previous, self.since = name, set() if word == "sheet-number" else self.since | {name}

    def kept(self, answer, numbers):
        """A sheet begun with the numbers, or not."""
        self.count(f"sheet-kept {'taken' if answer == ('ok',) else 'refused'}")
        if answer == ("ok",) and numbers[SCANS]:
            self.count(*(f"numbers given, then {call}, then the sheet begun" for call in self.since))

    def entered(self, word, answer, sheet):
        scans = sheet.beginning.scans + len(sheet.entered)
        if word == "sheet-last" and answer == ("ok",):
            self.count(f"an answer of a scan entered after {'kept numbers' if sheet.beginning.scans else 'no kept number'}")
        if answer == ("full",) or answer == ("ok",) and scans == MOST_SCANS:
            self.count(f"{'full' if answer == ('full',) else 'the last scan taken'} by {word}")

    def looked_at(self, sheet):
        """The sheet is shown: whether its extremes are those that it began with, where it has kept and entered ones."""
        beginning, now = sheet.beginning, sheet.numbers()
        if beginning.scans and sheet.entered:
            self.count(*(f"the {end} PV is {'a kept one' if getattr(now, end) == getattr(beginning, end) else 'an entered one'}, looked at"
                         for end in ("greatest", "least")))
        self.count(*["looked at when full"] * (now.scans == MOST_SCANS),
                   *["a refused sheet-kept, then looked at"] * (self.previous == "a refused sheet-kept"))
