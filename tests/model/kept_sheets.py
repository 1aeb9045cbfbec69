"""Sheets that begin with the sixteen numbers of a kept one, as sheet-number and sheet-kept give them.

A kept sheet is one that some list of answers gives, of at most 4,294,967,295, with any mode, any PV of 32 bits and any
DS and OP of 16 bits.  Whether there is such a list is told here by what may stand at each place of it.
"""

from tests.model.lines import PLACE, VALUE, WORD
from tests.model.sheet import MOST_SCANS, Extreme, Numbers

# The places of the sixteen numbers: scans, the eight modes, greatest PV and its number, least PV and its number, scans
# with an alarm, the sums of PV and OP
PLACES = PLACE[1] + 1
SCANS, MODES_AT, GREATEST, LEAST, ALARMS, SUM_OF_PV, SUM_OF_OP = 0, range(1, 9), 9, 11, 13, 14, 15
NUMBERS_AT = (GREATEST + 1, LEAST + 1)
COUNTS = (SCANS, *MODES_AT, *NUMBERS_AT, ALARMS)  # of 32 bits without a sign


def numbers_in(given):
    """The sixteen numbers as a sheet's; an extreme whose number is 0 is none."""
    greatest, least = (Extreme(*given[place:place + 2]) if given[place + 1] else None for place in (GREATEST, LEAST))
    return Numbers(given[SCANS], tuple(given[place] for place in MODES_AT), greatest, least, given[ALARMS], given[SUM_OF_PV],
                   given[SUM_OF_OP])


def given_by(numbers):
    """The sixteen numbers of a sheet, by their places."""
    extremes = (part for extreme in (numbers.greatest, numbers.least) for part in (extreme or (0, 0)))
    return [numbers.scans, *numbers.modes, *extremes, numbers.alarms, numbers.sum_of_PV, numbers.sum_of_OP]


def stretches(numbers):
    """How many places each part of a list has, with the least and the greatest PV that may stand there.

    Before the first greatest all are less, before the first least all are greater.
    """
    (most, at_most), (least, at_least) = numbers.greatest, numbers.least
    first, second = sorted((at_most, at_least))
    yield 1, most, most
    yield 1, least, least
    yield first - 1, least + 1, most - 1
    yield second - first - 1, *((least + 1, most) if at_most < at_least else (least, most - 1))
    yield numbers.scans - second, least, most


def faults_of_PV(numbers):
    """Why no list has these extremes and this sum of PV."""
    greatest, least = numbers.greatest, numbers.least
    if not (1 <= greatest.number <= numbers.scans and 1 <= least.number <= numbers.scans):
        yield "a number beyond the scans"
    elif greatest.PV < least.PV:
        yield "the greatest less than the least"
    elif greatest.PV == least.PV:
        yield from ["one PV alone, not first in scan 1"] if greatest.number != 1 or least.number != 1 else []
        yield from ["one PV alone, another sum"] if numbers.sum_of_PV != numbers.scans * least.PV else []
    elif greatest.number == least.number:
        yield "two PVs in one scan"
    else:
        parts = [part for part in stretches(numbers) if part[0]]
        yield from ["no PV for a scan before both"] if any(low > high for _, low, high in parts) else []
        yield from ["sum of PV too small"] if numbers.sum_of_PV < sum(count * low for count, low, _ in parts) else []
        yield from ["sum of PV too great"] if numbers.sum_of_PV > sum(count * high for count, _, high in parts) else []


def faults_of(given):
    """Why no list of answers gives these sixteen numbers; nothing if one does."""
    if any(not 0 <= given[place] <= MOST_SCANS for place in COUNTS):
        yield "a count of more than 32 bits"
        return
    numbers = numbers_in(given)
    if any(extreme and not VALUE[0] <= extreme.PV <= VALUE[1] for extreme in (numbers.greatest, numbers.least)):
        yield "a PV of more than 32 bits"
    if sum(numbers.modes) != numbers.scans:
        yield "modes that don't add up"
    if numbers.alarms > numbers.scans:
        yield "more alarms than scans"
    if not 0 <= numbers.sum_of_OP <= numbers.scans * WORD[1]:
        yield f"sum of OP too {'small' if numbers.sum_of_OP < 0 else 'great'}"
    extremes = (numbers.greatest is not None) + (numbers.least is not None)
    if numbers.scans and extremes == 2:
        yield from faults_of_PV(numbers)
    elif numbers.scans:
        yield "no extreme"
    elif extremes or numbers.sum_of_PV:
        yield "an extreme of no scan" if extremes else "a sum of no PV"
