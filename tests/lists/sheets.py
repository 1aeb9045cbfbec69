"""Call lists with drying sheets, drawn from a seed: the answers of scans in every mode entered, and answers fed with
values of all kinds; sheets begun anew, and looked at again and again.  The lists are in the form of
tests/lists/entries.py.
"""

import itertools

from tests.lists import scans as scan_lists
from tests.lists.entries import Entry, entries, switch_word
from tests.lists.image_source import with_right_sum, with_values
from tests.lists.line_errors import LINE_ERRORS
from tests.lists.line_forms import line_errors_of
from tests.lists.restarts import RestartSource
from tests.lists.scan_source import HELD, MODES_ASKED
from tests.model import loop
from tests.model.formulas import limit
from tests.model.kept_sheets import PLACES
from tests.model.lines import VALUE, line_of
from tests.model.session import SHEET_CALLS
from tests.model.state import Stored
from tests.model.words import MODES

NEW, LAST, LOOK, KEPT = ("sheet-new",), ("sheet-last",), ("sheet",), ("sheet-kept",)
# The ends of 32 bits, and those of 16, which the controller's own PVs don't leave
PV_ENDS = (VALUE[0], VALUE[0] + 1, -32769, -32768, -1, 0, 1, 32767, 32768, VALUE[1] - 1, VALUE[1])
BEYOND = (VALUE[0] - 1, VALUE[1] + 1, -1 << 32, (1 << 32) - 1, 1 << 32, 1 - 10 ** 18, 10 ** 18 - 1)
OPS = (0, 1, 9998, 9999, 10000, 65534, 65535)
ALARMS = (0, 1, 2, 3)  # the two lowest bits of DS: both alarms, the low one, the high one, none
# Of the long sheet: so many scans, and the numbers behind which it is looked at.  65,536 is the first that 16 bits
# can't hold, and with so many answers that have great OPs their sum is more than 32 bits can hold.
LONG, LOOKED_AT = 66_000, (1, 2, 255, 256, 257, 300, 32767, 32768, 65534, 65535, 65536, 65537, 65538, 65539, 65600, 66_000)


class SheetSource(RestartSource):
    """Draws calls on the sheet between other calls."""

    def entering(self, calls, new_share):
        """The calls, with the answers of most scans entered, some of them more than once; looked at often.

        A new sheet is begun in such a share of cases.  What is no scan leaves the answer that was last.
        """
        generator = self.generator
        for call in calls:
            yield call
            if call[0] == "scan":
                yield from [LAST] * generator.choice((*[1] * 14, 0, 2, 3))
            elif generator.random() < 0.15:
                yield LAST
            if generator.random() < 0.15:
                yield LOOK
            if generator.random() < new_share:
                yield NEW
                yield from generator.choice(([], [LOOK], [LAST], [LOOK, LAST, LOOK]))

    def fed(self, PVs, modes):
        """An answer with one of these PVs and modes; alarms of each kind, whatever else DS shows."""
        generator = self.generator
        others = generator.choice((0, 0x3FFF, 0x2FF7, generator.getrandbits(14)))
        return ("sheet-feed", generator.choice(modes), generator.choice(PVs), others << 2 | generator.choice(ALARMS),
                generator.choice((*OPS, generator.randint(0, 9999), generator.getrandbits(16))))

    def sheet_call(self, word):
        """A call on the sheet with drawn numbers."""
        if word == "sheet-number":
            return word, self.generator.randrange(PLACES), self.generator.choice((0, 1, -1, *BEYOND))
        return self.fed(PV_ENDS, MODES) if word == "sheet-feed" else (word,)

    def few_PVs(self):
        """PVs to choose from, few enough for extremes to come again: of either sign alone, of both, about the ends."""
        generator = self.generator
        low, high = generator.choice(((VALUE[0], -1), (1, VALUE[1]), VALUE, (-32769, 32768), (-2, 2), (-9999, 9999)))
        drawn = [generator.randint(low, high) for _ in range(generator.choice((1, 2, 3, 6)))]
        within = [limit(*VALUE, PV) for PV in (*drawn, max(drawn) - 1, min(drawn) + 1)]
        return generator.choice((drawn, drawn, within, PV_ENDS, range(VALUE[0], VALUE[1] + 1)))

    def another_state(self):
        """Drawn parameters, with alarms and a range of channel 1 to match; the output within its limits."""
        yield "restart", with_right_sum(with_values(self.drawn(), fault=0, request=self.generator.randrange(3)))


# Kinds of list: the calls that follow a fresh start ---------------------------

def scans_in_every_mode(source):
    """Stretches in every mode with drawn parameters, each by itself and one behind the other in one sheet."""
    generator = source.generator
    for _ in range(5):
        yield from source.another_state()
        for asked in generator.sample(MODES_ASKED, len(MODES_ASKED)):
            yield from source.stretch(asked, generator.choice((1, 2, 5, 12)))


def scans_under_a_cause(source):
    """Forced Manual by the memory fault and by open scans; Manual, Hold and Track beside it."""
    generator = source.generator
    for _ in range(4):
        yield "restart", source.faulty()
        yield from (source.scan(source.pins(generator.choice(("Manual", "Manual", "Hold", "Track"))), generator.choice(HELD),
                                generator.random() < 0.1) for _ in range(12))
        yield from source.another_state()
        yield from source.stretch("Manual", 3)
    yield from itertools.islice(scan_lists.open_run(source), 100)


def few_samples(source):
    """Scans with few samples of channel 1, so that the greatest and the least PV come again, in a wide range."""
    generator = source.generator
    for _ in range(4):
        yield from source.another_state()
        samples = [generator.choice((0, 10000, generator.randint(0, 10000))) for _ in range(generator.choice((1, 2, 3)))]
        for _ in range(40):
            word, pins, _, *others = source.enter(generator.choice(MODES_ASKED))
            yield (word, pins, generator.choice(samples), *others)


def calls_between(source):
    """Refused scans, fresh starts, restarts and other calls between the scans, so that what was last is older."""
    generator = source.generator
    for _ in range(60):
        yield from source.stretch(generator.choice(MODES_ASKED), generator.choice((1, 1, 3)))
        yield from generator.choice((
            lambda: [source.refused_scan()] * 2, lambda: [("fresh", switch_word(generator))], source.another_state,
            lambda: [("restart", source.unacceptable())], source.writes, source.reads, lambda: [("save", 137)]))()


# Each with its number of lists, and the share of calls behind which a new sheet is begun
SCANNED = ((scans_in_every_mode, 120, 0.01), (scans_under_a_cause, 60, 0.03), (few_samples, 60, 0.03), (calls_between, 40, 0.02),
           (scans_in_every_mode, 8, 0))
FED_LISTS = 80


def fed_sheets(source):
    """Sheets of answers that are fed: of no answer, of one, of few and of many; one mode alone in some."""
    generator = source.generator
    for _ in range(12):
        yield NEW
        PVs, modes = source.few_PVs(), generator.choice((MODES, MODES, generator.sample(MODES, 2), generator.sample(MODES, 1)))
        for _ in range(generator.choice((0, 1, 2, 3, 10, 40, 100, 200, 300))):
            yield source.fed(PVs, modes)
            yield from [LOOK] if generator.random() < 0.25 else [LAST] if generator.random() < 0.02 else []
        yield LOOK


def long_sheet():
    """One sheet with so many answers that 16 bits can't count them, nor 32 add up what they show.

    Extremes come behind the 256th answer and behind the 65,536th, so that their numbers are great too.
    """
    PVs = {257: VALUE[1] - 1, 300: VALUE[1] - 3, 65_537: VALUE[1], 65_539: VALUE[0]}
    yield NEW
    for number in range(1, LONG + 1):
        yield "sheet-feed", "Fall-back", PVs.get(number, VALUE[1] - 2), 0, 65535
        yield from [LOOK] if number in LOOKED_AT else []


def no_calls(source):
    """Each line error of each call on the sheet, and PVs beyond 32 bits; then the sheet shows that nothing has changed,
    and the numbers, which were all 0, do when a sheet is begun with them.
    """
    generator = source.generator
    fed = source.fed(PV_ENDS, MODES)
    yield from (Entry(line_of(call), "call", call[0]) for call in (NEW, *(("sheet-number", place, 0) for place in range(PLACES)), fed))
    errors = [(word, kind) for word in SHEET_CALLS for kind in line_errors_of(word)] * 6
    lines = [Entry(LINE_ERRORS[kind](generator, source.sheet_call(word)), kind, word) for word, kind in errors]
    lines += [Entry(line_of((*source.fed(BEYOND, MODES)[:2], PV, *fed[3:])), "number beyond its type", "sheet-feed") for PV in BEYOND] * 4
    for line in generator.sample(lines, len(lines)):
        yield line
        if generator.random() < 0.5:
            yield Entry(line_of(LOOK), "call", "sheet")
    yield from (Entry(line_of(call), "call", call[0]) for call in (KEPT, LOOK))


def scanned(generator, kind, number, new_share):
    """One list of a kind, begun with a new sheet and a fresh start with a drawn switch word."""
    source = SheetSource(generator, number)
    calls = source.following(itertools.chain([("fresh", switch_word(generator))], kind(source)))
    return list(entries(source, itertools.chain([NEW], source.entering(calls, new_share))))


def fed(generator, number):
    source = SheetSource(generator, number)
    return list(entries(source, fed_sheets(source)))


def all_lists(generator):
    """Pairs of a list's kind and the list."""
    return [*(("no_calls", list(no_calls(SheetSource(generator)))) for _ in range(4)),
            *((kind.__name__, scanned(generator, kind, number, new_share)) for kind, count, new_share in SCANNED
              for number in range(count)),
            *(("fed_sheets", fed(generator, number)) for number in range(FED_LISTS)),
            ("long_sheet", [Entry(line_of(call), "call", call[0]) for call in long_sheet()])]


def first_list(generator, number):
    """A list for the beginning of an input, where the sheet is empty, no scan has been accepted and the sixteen numbers
    are 0.

    A fresh start with SW 0 or a restart stands in some; both leave what the program begins with.  A sheet begun with
    the sixteen numbers is empty.
    """
    source = SheetSource(generator)
    source.controller = loop.fresh(0, Stored)
    begins = [[], [KEPT], [("fresh", 0)], [("restart", source.image())]][number % 4]
    calls = [LAST, LOOK, source.refused_scan(), LAST, *begins, LAST, LOOK, source.fed(PV_ENDS, MODES), LAST, LOOK, KEPT, LOOK]
    return "first_sheet", [Entry(line_of(call), "call", call[0]) for call in source.clock.timed(calls)]
