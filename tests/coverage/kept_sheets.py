"""What the lists with kept sheets have met, and how often each thing must be met at least."""

from tests.coverage.coverage import Coverage
from tests.model.kept_sheets import SCANS, SUM_OF_PV, faults_of, numbers_in, stretches
from tests.model.sheet import MOST_SCANS

ALONE = ("a count of more than 32 bits", "a PV of more than 32 bits", "modes that don't add up", "more alarms than scans",
         "sum of OP too small", "sum of OP too great", "a number beyond the scans", "the greatest less than the least",
         "one PV alone, not first in scan 1", "one PV alone, another sum", "two PVs in one scan", "no PV for a scan before both",
         "sum of PV too small", "sum of PV too great", "no extreme", "an extreme of no scan", "a sum of no PV")
RARE = ("an extreme of no scan", "a sum of no PV")
MANY = 1000  # scans of a sheet for which nobody counts out the lists
ABOUT_THE_SUM = ("one below the least", "the least", "the greatest", "one above the greatest")


def least_counts():
    """The least count of each thing, by name."""
    least = {"kept": 55000, "taken": 2500, "refused": 50000, "sheet": 3000, "fed": 1500, "error": 80}
    least.update({f"refused for {fault} alone": 3 if fault in RARE else 20 for fault in ALONE})
    least.update({f"many scans, sum of PV {where}": 30 for where in ABOUT_THE_SUM})
    least.update({f"{scans} scans, {answer}": 50 for scans in (MOST_SCANS, MOST_SCANS - 1, 1 << 31) for answer in ("taken", "refused")})
    least.update({"right but for more than 32 bits": 20, "modes that add up in 32 bits alone": 20})
    least.update({"the last scan taken": 80, "full": 400, "a greater PV when full": 40, "a lesser PV when full": 40,
                  "a greater PV last": 10, "a lesser PV last": 10, "looked at when full": 300, "refused, then looked at": 500})
    return least


class KeptCoverage(Coverage):
    title, least_counts = "kept sheets", staticmethod(least_counts)

    def __init__(self):
        super().__init__()
        self.is_full, self.was_refused = False, False

    def call(self, call, session, answer):
        """One call with the session after it and its answer."""
        word = call[0]
        if word == "sheet-kept":
            self.kept(session.numbers, answer)
        elif word == "sheet-feed":
            self.fed(call, session, answer)
        elif word == "sheet":
            self.count("sheet", *["looked at when full"] * self.is_full, *["refused, then looked at"] * self.was_refused)
        self.was_refused = answer == ("refused",)

    def kept(self, given, answer):
        """A sheet to be begun with these numbers."""
        how, faults = "taken" if answer == ("ok",) else "refused", list(faults_of(given))
        self.count("kept", how, f"{given[SCANS]} scans, {how}", *([f"refused for {faults[0]} alone"] if len(faults) == 1 else []))
        self.is_full = self.is_full and how == "refused"
        self.counts["right but for more than 32 bits"] += sum(given[1:9]) == given[SCANS] > MOST_SCANS
        self.counts["modes that add up in 32 bits alone"] += sum(given[1:9]) == given[SCANS] + (1 << 32)
        if given[SCANS] >= MANY and set(faults) <= {"sum of PV too small", "sum of PV too great"}:
            self.counts.update(about_the_sum(numbers_in(given), given[SUM_OF_PV]))

    def fed(self, call, session, answer):
        """Where the extremes stood before is told from the numbers that the sheet began with."""
        beginning, entered = session.sheet.beginning, session.sheet.entered
        earlier = [each.PV for each in (entered if answer == ("full",) else entered[:-1])]
        earlier += [extreme.PV for extreme in (beginning.greatest, beginning.least) if extreme]
        is_last = answer == ("ok",) and beginning.scans + len(entered) == MOST_SCANS
        names = ["fed", *(["full"] if answer == ("full",) else []), *(["the last scan taken"] if is_last else [])]
        if is_last or answer == ("full",):
            when = "last" if is_last else "when full"
            names += [f"a greater PV {when}"] * (call[2] > max(earlier)) + [f"a lesser PV {when}"] * (call[2] < min(earlier))
        self.count(*names)
        self.is_full = answer == ("full",) or is_last


def about_the_sum(numbers, total):
    """Whether a sum of PV stands at an end of what can be, or just beyond."""
    if numbers.greatest.PV > numbers.least.PV:
        low, high = (sum(part[0] * part[end] for part in stretches(numbers)) for end in (1, 2))
        yield from (f"many scans, sum of PV {where}" for where, end in zip(ABOUT_THE_SUM, (low - 1, low, high, high + 1), strict=True)
                    if total == end)
