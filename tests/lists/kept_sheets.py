"""Lists of lines for the console's sheet, drawn from a seed: sheets begun with kept numbers, right and wrong, and fed
until they are full and beyond.
"""

import itertools

from tests.lists.sheets import ALARMS as ALARM_BITS
from tests.lists.sheets import KEPT, LOOK, OPS
from tests.model.kept_sheets import (ALARMS, COUNTS, GREATEST, LEAST, MODES_AT, PLACES, SCANS, SUM_OF_OP, SUM_OF_PV, given_by, numbers_in,
                                     stretches)
from tests.model.lines import VALUE, line_of
from tests.model.sheet import MOST_SCANS, Answer, numbers_of
from tests.model.words import MODES

# All lists of up to so many of these PVs are counted out; so the sheets that they give are known one by one.
FEW_PVS, MOST_OF_FEW = (-2, -1, 0, 1), 6
MANY_SCANS = (1, 2, 3, 4, 5, 10, 1000, 65535, 65536, (1 << 31) - 1, 1 << 31, MOST_SCANS - 1, MOST_SCANS)
PV_ENDS = (VALUE[0], VALUE[0] + 1, -1, 0, 1, VALUE[1] - 1, VALUE[1])
GREATEST_SUM = 10 ** 18 - 1  # that a line can have
# Words that aren't the console's with what would make a call of them, and other texts nearly like a call
NO_LINES = ("", " ", "kept", "kept 0", "kept kept", "number 0 0", "number 0 1", "number 15 -1", "number", "feed hold 0 0 0",
            "feed hold 2147483647 65535 65535", "feed", "new", "full", "empty",
            *(line.replace("@", "sheet-") for line in (
                "@kept 0", "@kept @kept", "@Kept", "@keep", "@kep", "@number", "@number 0", "@number 0 0 0", "@number 16 0", "@number -1 0",
                "@number x 0", "@number 0 x", "@number 0 +1", "@number 0 1234567890123456789", "@number 0 -1234567890123456789",
                "@number 256 1", "@number 4294967296 1", "@number 18446744073709551616 1", "@Number 0 1", "@numbers 0 1", "@number 0 1.0",
                "@feed", "@feed hold", "@feed hold 0 0", "@feed hold 0 0 0 0", "@feed Hold 0 0 0", "@feed forced-manual 0 0 0",
                "@feed 0 0 0 0", "@feed hold 2147483648 0 0", "@feed hold -2147483649 0 0", "@feed hold 4294967296 0 0",
                "@feed hold 0 -1 0", "@feed hold 0 65536 0", "@feed hold 0 0 -1", "@feed hold 0 0 65536", "@feed hold x 0 0",
                "@Feed hold 0 0 0", "@feeds hold 0 0 0", "@number\t0 1", "@kept\t", "\t@kept", "@", "-@kept")),
            "Sheet-kept", "SHEET-KEPT", "sheet kept", "sheetkept", "sheet_kept", "Sheet-number 0 1", "sheet number 0 1", "sheetnumber 0 1",
            "sheet 0", "Sheet", "sheets")
OTHER_FORMS = ("  sheet-kept  ", " sheet-number   0  0 ", "sheet-number 00 -0", "sheet-number 000000000000000014 -000000000000000000",
               "  sheet ", "sheet-feed  hold -0 000 00 ")


def given_by_few():
    """Scans, extremes with their numbers and sum of PV of every list of few PVs."""
    for scans in range(1, MOST_OF_FEW + 1):
        for PVs in itertools.product(FEW_PVS, repeat=scans):
            most, least = max(PVs), min(PVs)
            yield scans, most, PVs.index(most) + 1, least, PVs.index(least) + 1, sum(PVs)


def about_few():
    """The same six numbers of every kind, those of no list too: all of these PVs, every number of a scan and every sum
    from just below to just above what can be.
    """
    for scans in range(1, MOST_OF_FEW + 1):
        sums = range(scans * FEW_PVS[0] - 1, scans * FEW_PVS[-1] + 2)
        yield from itertools.product((scans,), FEW_PVS, range(scans + 2), FEW_PVS, range(scans + 2), sums)


class KeptSource:
    """Draws numbers and answers; what has been given for each place is known, so that only changes are calls.

    At the beginning of an input all are 0; where a list comes after others, none is known.
    """

    def __init__(self, generator, number=0):
        self.generator, self.given = generator, [number] * PLACES

    def numbers(self, given):
        """The calls that give these sixteen numbers."""
        for place, (number, wanted) in enumerate(zip(self.given, given, strict=True)):
            if number != wanted:
                yield "sheet-number", place, wanted
        self.given = list(given)

    def kept(self, given):
        yield from self.numbers(given)
        yield KEPT

    def feed(self, PVs):
        """An answer with one of these PVs."""
        generator = self.generator
        return Answer(generator.choice(MODES), generator.choice(PVs), generator.getrandbits(14) << 2 | generator.choice(ALARM_BITS),
                      generator.choice((*OPS, generator.getrandbits(16))))

    def drawn(self, scans):
        """Numbers of a sheet with so many scans, most of them at an end of what can be."""
        generator = self.generator
        modes = self.modes(scans)
        alarms = generator.choice((0, 1, scans - 1, scans, generator.randint(0, scans)))
        sum_of_OP = generator.choice((0, 1, scans * 65535 - 1, scans * 65535, generator.randint(0, scans * 65535)))
        least, most = self.two_PVs(scans)
        at_most, at_least = self.two_places(scans, most - least)
        given = [scans, *modes, most, at_most, least, at_least, alarms, 0, sum_of_OP]
        given[SUM_OF_PV] = generator.choice(self.sums(given))
        return given

    def modes(self, scans):
        """So many scans shared out among the eight modes: all in one, or in several."""
        generator = self.generator
        cuts = sorted(generator.choice((0, scans, generator.randint(0, scans))) for _ in MODES[1:])
        return [high - low for low, high in zip([0, *cuts], [*cuts, scans], strict=True)]

    def two_PVs(self, scans):
        """The least and the greatest PV: equal, one apart, two or far apart, as far as a line can have the sum."""
        generator, end = self.generator, min(VALUE[1], GREATEST_SUM // scans - 2)
        first = generator.choice((-end, end - 3, 0, -1, -2, generator.randint(-end, end - 3), *(PV_ENDS[:2] if end == VALUE[1] else ())))
        second = generator.choice((0, 1, 1, 2, 2, 3, generator.randint(0, end - first), end - first)) + first
        return first, min(second, end)

    def two_places(self, scans, distance):
        """The numbers of the greatest and the least, mostly as they may be."""
        generator = self.generator
        if distance == 0 or scans == 1:
            return 1, 1
        places = [1, generator.choice((2, scans, max(2, scans - 1), generator.randint(2, scans)))]
        if distance > 1 and scans > 2 and generator.random() < 0.5:
            places = generator.sample(sorted({2, 3, scans - 1, scans, generator.randint(2, scans)} - {1}), 2)
        return generator.sample(places, 2)

    def sums(self, given):
        """The least and the greatest sum of PV that can be, and some between."""
        numbers = numbers_in(given)
        parts = [part for part in stretches(numbers) if part[0] > 0]
        if numbers.greatest.PV == numbers.least.PV or given[SCANS] == 1:
            return [given[SCANS] * given[LEAST]]
        low, high = (sum(part[0] * part[end] for part in parts) for end in (1, 2))
        return [low, high, low, high, *([self.generator.randint(low, high)] if low <= high else [])]


# Kinds of list ------------------------------------------------------------------

def few(source):
    """Every sheet of few PVs and all about them."""
    for scans, most, at_most, least, at_least, total in about_few():
        yield from source.kept([scans, *[0] * 4, scans, *[0] * 3, most, at_most, least, at_least, 0, total, 0])
    yield LOOK


def about_the_edges(source):
    """Kept sheets, and each of their numbers one more and one less; what is refused leaves the sheet in hand."""
    generator = source.generator
    for scans in MANY_SCANS * 12:
        given = source.drawn(scans)
        yield from (*source.kept(given), LOOK)
        for place, change in itertools.product(generator.sample(range(PLACES), PLACES), (1, -1)):
            yield from source.kept([number + change * (at == place) for at, number in enumerate(given)])
            yield from [LOOK] if generator.random() < 0.3 else []
        yield from (*source.kept(given), LOOK)


def two_changed(source):
    """Kept sheets with two or more of their numbers changed at once, so that one condition stands and another falls."""
    generator = source.generator
    pairs = ((SCANS, MODES_AT[4]), (GREATEST + 1, LEAST + 1), (GREATEST, LEAST), (GREATEST, SUM_OF_PV), (LEAST, SUM_OF_PV),
             (GREATEST + 1, SUM_OF_PV), (LEAST + 1, SUM_OF_PV), (MODES_AT[0], MODES_AT[7]), (SCANS, ALARMS), (SUM_OF_OP, SUM_OF_PV))
    for scans in MANY_SCANS * 8:
        given = source.drawn(scans)
        for pair in pairs:
            changed = list(given)
            for place in pair:
                changed[place] += generator.choice((-2, -1, 1, 2))
            yield from source.kept(changed)
        yield LOOK


def beyond_their_types(source):
    """Numbers that come out right if only 32 bits are kept, and those at the ends of 32 bits."""
    generator = source.generator
    for scans in MANY_SCANS * 2:
        given = source.drawn(scans)
        for place, change in itertools.product(range(PLACES), (1 << 32, -1 << 32)):
            yield from source.kept([number + change * (at == place) for at, number in enumerate(given)])
        first, second = generator.sample(MODES_AT, 2)  # the modes add up to so many scans in 32 bits alone
        modes = [{first: MOST_SCANS, second: scans + 1}.get(at, 0) for at in MODES_AT]
        yield from source.kept([scans, *modes, *given[GREATEST:]])
        yield from source.kept(source.drawn(MOST_SCANS + generator.choice((1, 2, scans))))  # right but for their types
        for place in (*COUNTS, GREATEST, LEAST):
            beyond = generator.choice((-1, MOST_SCANS, MOST_SCANS + 1, *VALUE, VALUE[0] - 1, VALUE[1] + 1, GREATEST_SUM, -GREATEST_SUM))
            yield from source.kept([beyond if at == place else number for at, number in enumerate(given)])
        yield from (*source.kept(given), LOOK)


def of_no_scan(source):
    """The empty sheet, each of its numbers changed; the PV beside a number 0 isn't looked at."""
    yield from (*source.kept([0] * PLACES), LOOK)
    for place, number in itertools.product(range(PLACES), (1, -1, 7, 1 << 32, -GREATEST_SUM)):
        yield from (*source.kept([number * (at == place) for at in range(PLACES)]), LOOK)
    for PV, number in itertools.product((0, 1, -1), (1, 2, MOST_SCANS)):
        yield from source.kept([*[0] * GREATEST, PV, number, PV, number, 0, 0, 0])
    for place in (GREATEST + 1, LEAST + 1):  # a sheet with scans and an extreme missing
        yield from (*source.kept([1, *[0] * 7, 1, *(int(at == place) for at in range(GREATEST, ALARMS)), 0, 0, 0]), LOOK)


def to_the_end(source):
    """Sheets that begin near the end, fed until they are full and beyond, with extremes of either kind."""
    generator = source.generator
    for place in range(120):
        given = source.drawn(MOST_SCANS - place % 10)
        yield from (*source.kept(given), LOOK)
        beyond = [given[GREATEST], given[LEAST], max(VALUE[0], given[LEAST] - 1), min(VALUE[1], given[GREATEST] + 1)]
        for _ in range(place % 10 + 4):
            yield ("sheet-feed", *source.feed(generator.choice((beyond, PV_ENDS))))
            yield from [LOOK] if generator.random() < 0.7 else []
        yield LOOK


def kept_again(source):
    """A sheet made by feeding, its numbers kept again, and fed on."""
    generator = source.generator
    for _ in range(150):
        PVs = generator.choice((PV_ENDS, (5, 6), (-3, -2, -1), range(-4, 5), [generator.randint(*VALUE) for _ in range(4)]))
        answers = [source.feed(PVs) for _ in range(generator.choice((0, 1, 2, 3, 8, 30)))]
        yield from source.kept([0] * PLACES)
        yield from (("sheet-feed", *answer) for answer in answers)
        yield LOOK
        yield from (*source.kept(given_by(numbers_of(answers))), LOOK)
        yield from (("sheet-feed", *source.feed(PVs)) for _ in range(generator.choice((0, 1, 5))))
        yield LOOK


def no_lines(source):
    """Lines that are no call, and other forms of calls; the sheet in hand and the numbers stay."""
    yield from (*source.kept(source.drawn(5)), LOOK)
    for line in (*NO_LINES, *source.generator.sample(NO_LINES, len(NO_LINES))):
        yield from (line, LOOK)
    yield KEPT
    yield from OTHER_FORMS
    yield LOOK


KINDS = (few, about_the_edges, two_changed, beyond_their_types, of_no_scan, to_the_end, kept_again, no_lines)


def all_lists(generator):
    """Pairs of a list's kind and its lines, which are calls or no calls; each is an input of its own."""
    return [(kind.__name__, [each if isinstance(each, str) else line_of(each) for each in kind(KeptSource(generator))]) for kind in KINDS]
