"""The drying sheet of document 02, request 1: what a list of answers gives.

Made from document 02 and our decisions on its wording, never from the code.  A sheet is the list of the answers entered
in it; its numbers are told from that list whenever they are asked for.  A list of 4,294,967,295 answers is too long for
that, so a sheet may also begin with the numbers of answers that aren't listed.
"""

import collections
from typing import NamedTuple

from tests.model.words import MODES

MOST_SCANS = 4_294_967_295  # "A sheet holds up to 4,294,967,295 scans"
ALARM_BITS = 0x01, 0x02     # of DS: "1 for low alarm .., 0 for high", 0 where there is an alarm


class Answer(NamedTuple):
    """What a sheet takes of a scan's answer."""
    mode: str
    PV: int
    DS: int
    OP: int


class Extreme(NamedTuple):
    """"the greatest and least PV with the number of the scan where each came first"."""
    PV: int
    number: int


class Numbers(NamedTuple):
    """What a sheet holds."""
    scans: int
    modes: tuple      # how many scans in each of the eight modes, in the order of MODES
    greatest: object  # an extreme; "none on an empty sheet"
    least: object
    alarms: int
    sum_of_PV: int
    sum_of_OP: int


EMPTY = Numbers(0, (0,) * len(MODES), None, None, 0, 0, 0)


def has_alarm(DS):
    """"scans with either alarm or both"."""
    return not all(DS & bit for bit in ALARM_BITS)


def first_extreme(choose, PVs):
    """Answers are "numbered from 1"; a later equal PV doesn't count."""
    return Extreme(choose(PVs), PVs.index(choose(PVs)) + 1) if PVs else None


def numbers_of(answers):
    """"all it holds equals what the list of answers taken gives"."""
    modes, PVs = collections.Counter(answer.mode for answer in answers), [answer.PV for answer in answers]
    return Numbers(len(answers), tuple(modes[mode] for mode in MODES), first_extreme(max, PVs), first_extreme(min, PVs),
                   sum(has_alarm(answer.DS) for answer in answers), sum(PVs), sum(answer.OP for answer in answers))


def joined(earlier, later):
    """The numbers of two lists of answers together, one behind the other, told from those of each."""
    if not earlier.scans or not later.scans:
        return earlier if earlier.scans else later
    greatest, least = ((Extreme(each.PV, earlier.scans + each.number)) for each in (later.greatest, later.least))
    return Numbers(earlier.scans + later.scans, tuple(map(sum, zip(earlier.modes, later.modes, strict=True))),
                   greatest if greatest.PV > earlier.greatest.PV else earlier.greatest,
                   least if least.PV < earlier.least.PV else earlier.least,
                   earlier.alarms + later.alarms, earlier.sum_of_PV + later.sum_of_PV, earlier.sum_of_OP + later.sum_of_OP)


class Sheet:
    """The numbers that it began with, and the answers entered since.

    What the first so many of them give is kept when it has been told, so that a long sheet isn't told from its first
    answer on whenever it is asked for.
    """

    def __init__(self, beginning=EMPTY):
        self.beginning, self.entered = beginning, []
        self.told, self.many = beginning, 0

    def enter(self, answer):
        """"the next one leaves it as it was and says full"."""
        if self.beginning.scans + len(self.entered) == MOST_SCANS:
            return "full"
        self.entered.append(answer)
        return "ok"

    def numbers(self):
        self.told = joined(self.told, numbers_of(self.entered[self.many:]))
        self.many = len(self.entered)
        return self.told
