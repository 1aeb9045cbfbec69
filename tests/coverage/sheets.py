"""What the lists with drying sheets have met, and how often each thing must be met at least."""

from tests.coverage.coverage import Coverage
from tests.lists.line_forms import line_errors_of, other_forms_of
from tests.model.lines import VALUE, WORD
from tests.model.session import SHEET_CALLS
from tests.model.sheet import EMPTY
from tests.model.words import MODES

ENTERING = ("sheet-last", "sheet-feed")
ALARMS = ("both alarms", "the low alarm alone", "the high alarm alone", "no alarm")  # by the two lowest bits of DS
BATTERY, CAUSE = 0x08, 0x04  # bits of DS that are no alarms
BEFORE_ANY = ("at the very beginning", "a refused scan", "fresh", "restart", "sheet-kept")
OF_NUMBERS = ("sheet-number", "sheet-kept")  # whose other forms stand in the lists with lines between other calls
PV_ENDS, PVS_BEYOND = (*VALUE, -32769, -32768, 32767, 32768), (VALUE[0] - 1, VALUE[1] + 1)
FED_ENDS = (("PV", PV_ENDS), ("DS", WORD), ("OP", WORD))


def least_counts():
    """The least count of each thing, by name."""
    least = {"entered": 150000, "entered by sheet-last": 40000, "entered by sheet-feed": 100000, "sheet": 15000, "sheet-new": 1500}
    least.update({f"{mode} by {how}": 400 if mode == "Forced Manual" else 2000 for mode in MODES for how in ENTERING})
    least.update({f"{alarm} by {how}": 1000 for alarm in ALARMS for how in ENTERING})
    least.update({f"{alarm} in {mode}": 40 for alarm in ALARMS for mode in MODES})
    least.update({f"{fact}, no alarm, by {how}": 300 for fact in ("battery low", "a cause") for how in ENTERING})
    least.update({f"{event} by {how}": 500 for event in ("a greater PV", "a lesser PV", "the greatest PV again", "the least PV again")
                  for how in ENTERING})
    least.update({f"{event}, looked at before and behind": 200 for event in ("the greatest PV again", "the least PV again")})
    least.update({f"PV {sign} by {how}": 500 if sign == "at zero" else 2000 for sign in ("below zero", "at zero", "above zero")
                  for how in ENTERING})
    least.update({f"{name} {end} by sheet-feed": 200 for name, ends in FED_ENDS for end in ends})
    least.update({f"PV {PV}, no call": 16 for PV in PVS_BEYOND})
    least.update({"electrical output other than OP, entered": 5000, "an open scan, entered": 1000})
    least.update({f"looked at with {scans} scans": 100 for scans in (0, 1, 2)})
    least.update({f"looked at with {what}": 500 for what in ("every PV below zero", "every PV above zero", "PVs of both signs")})
    least.update({"looked at with 500 scans or more": 8, "looked at with 65536 scans or more": 4})
    least.update({f"looked at with the {end} behind number {number}": 2 if number == 65536 else 10 for end in ("greatest", "least")
                  for number in (256, 65536)})
    least.update({f"sheet-new on {what}": 60 for what in ("an empty sheet", "a sheet with scans")})
    least.update({"sheet-kept on an empty sheet": 1, "sheet-kept on a sheet with scans": 8})
    least.update({f"sheet-last before any accepted scan, behind {what}": 4 if what in BEFORE_ANY[:2] else 1 for what in BEFORE_ANY})
    least.update({f"sheet-last right behind {what}": 20 for what in ("a refused scan", "fresh", "restart", "a refused restart", "write",
                                                                      "read", "sheet-new", "sheet-feed", "sheet")})
    least.update({"the same answer entered again": 1000, "fresh looked past, scans in the sheet": 10,
                  "restart looked past, scans in the sheet": 30})
    least.update({f"line: {kind} of {word}": 20 for word in SHEET_CALLS
                  for kind in (*line_errors_of(word), *(other_forms_of(word) if word not in OF_NUMBERS else ()))})
    return least


class SheetCoverage(Coverage):
    title, least_counts = "sheets", staticmethod(least_counts)

    def __init__(self):
        """What is known so far: the PVs entered in the sheet in hand, and what came before the present call."""
        super().__init__()
        self.greatest = self.least = None
        self.numbers = {}  # where the extremes came first
        self.scans, self.previous, self.is_looked_at, self.again = 0, BEFORE_ANY[0], False, set()
        self.is_used, self.facts = False, []  # of the last accepted scan's answer: whether it was entered; what it shows

    def lines(self, entries):
        """A list begins behind some other list, by whose scans the last answer may be another."""
        super().lines(entries)
        beyond = (entry.line.split()[2] for entry in entries if (entry.kind, entry.word) == ("number beyond its type", "sheet-feed"))
        self.counts.update(f"PV {PV}, no call" for PV in beyond)
        self.is_used, self.facts, self.previous = False, [], self.previous if self.previous == BEFORE_ANY[0] else None

    def call(self, call, before, after, answer, pair):
        word = call[0]
        if word == "sheet-last":
            self.count(f"sheet-last before any accepted scan, behind {self.previous}" if pair.session.last is None
                       else f"sheet-last right behind {self.previous}")
            self.counts["the same answer entered again"] += self.is_used
            self.is_used = True
        if word in ENTERING and answer == ("ok",):
            self.entered(word, pair.session.sheet.entered[-1])
        elif word in ("sheet-new", "sheet-kept"):
            assert pair.session.sheet.beginning == EMPTY  # begun with numbers that are all 0
            self.count(word, f"{word} on {'a sheet with scans' if self.scans else 'an empty sheet'}")
            self.greatest, self.least, self.scans, self.is_looked_at, self.again = None, None, 0, False, set()
        elif word == "sheet":
            self.looked_at()
        elif answer[0] == "scan":
            facts = (("electrical output other than OP", answer[3] != answer[4]), ("an open scan", after[0].open_count))
            self.is_used, self.facts = False, [f"{fact}, entered" for fact, is_present in facts if is_present]
        self.previous = f"a refused {word}" if answer[0] == "refused" and word in ("scan", "restart") else word

    def entered(self, how, answer):
        """One answer entered; how often the extremes came again since the sheet was last looked at."""
        names = ["entered", f"entered by {how}", f"{answer.mode} by {how}", f"{ALARMS[answer.DS & 3]} by {how}",
                 f"{ALARMS[answer.DS & 3]} in {answer.mode}",
                 f"PV {'below' if answer.PV < 0 else 'above' if answer.PV > 0 else 'at'} zero by {how}"]
        names += [f"{fact}, no alarm, by {how}" for fact, bit in (("battery low", BATTERY), ("a cause", CAUSE))
                  if answer.DS & 3 == 3 and not answer.DS & bit]
        if self.scans:
            events = {"a greater PV": answer.PV > self.greatest, "a lesser PV": answer.PV < self.least,
                      "the greatest PV again": answer.PV == self.greatest, "the least PV again": answer.PV == self.least}
            names += [f"{event} by {how}" for event, is_present in events.items() if is_present]
            self.again = {event for event in ("the greatest PV again", "the least PV again")
                          if self.is_looked_at and (events[event] or event in self.again)
                          and not events["a greater PV" if "greatest" in event else "a lesser PV"]}
        if how == "sheet-feed":
            names += [f"{name} {getattr(answer, name)} by sheet-feed" for name, ends in FED_ENDS if getattr(answer, name) in ends]
        self.count(*names, *(self.facts if how == "sheet-last" else []))
        self.scans += 1
        if self.scans == 1 or answer.PV > self.greatest:
            self.greatest, self.numbers["greatest"] = answer.PV, self.scans
        if self.scans == 1 or answer.PV < self.least:
            self.least, self.numbers["least"] = answer.PV, self.scans

    def looked_at(self):
        """The sheet is shown: with how many scans, with PVs of which sign, behind what."""
        names = ["sheet", f"looked at with {self.scans} scans", *(f"{event}, looked at before and behind" for event in self.again)]
        names += [f"looked at with {most} scans or more" for most in (500, 65536) if self.scans >= most]
        if self.scans:
            names += [f"looked at with the {end} behind number {number}" for end, at in self.numbers.items() for number in (256, 65536)
                      if at > number]
            signs = (("every PV below zero", self.greatest < 0), ("every PV above zero", self.least > 0),
                     ("PVs of both signs", self.least < 0 < self.greatest))
            names += [f"looked at with {what}" for what, is_present in signs if is_present]
            names += [f"{self.previous} looked past, scans in the sheet"] if self.previous in ("fresh", "restart") else []
        self.count(*names)
        self.is_looked_at, self.again = True, set()
