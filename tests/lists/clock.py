"""Call lists for the clock of document 02, request 2, drawn from a seed: readings at each edge of what is ordinary,
gaps in every mode, on open scans and between automatic ones, readings behind every other kind of call, and the ends of
64 bits.  The lists are in the form of tests/lists/entries.py.
"""

import itertools

from tests.lists.entries import POWER_FAIL, RATIO, entries, switch_word
from tests.lists.host_clock import MOST, ROOM, USUAL
from tests.lists.image_source import WIDE, with_right_sum, with_values
from tests.lists.restarts import RestartSource
from tests.lists.scan_source import HELD, MODES_ASKED, RAISE, SP, A
from tests.lists.write_source import WRITABLE
from tests.model.formulas import limit
from tests.model.table import NUMBER

BALANCE_OFF = 0x0080  # S1.1
ASK = ("clock",)
EDGES = (29, 30, 42, 43)
NEAR = (*EDGES, 0, 1, 28, 31, USUAL, 41, 44, -1, -29, -30, -36, -43)
# Ordinary, too short or too long if only so many low bits are kept
BITS = (8, 16, 31, 32, 63)
FAR = (*(sign * (1 << bits) + each for bits in BITS for sign in (1, -1) for each in (*EDGES, 0, USUAL)), 72, 1000, MOST, -1000, -MOST)
READINGS = (0, 0, 1, 29, 43, MOST, MOST - 1, MOST - 29, MOST - 30, (1 << 32) - 1, 1 << 32, 1 << 63)
SHOWING = ("MD", "MD", "DS", "OP", "SP")
REFUSED_WRITES = ((NUMBER["SL"], 20000), (NUMBER["PV"], 0), (NUMBER["XP"], 0), (NUMBER["MD"], 0), (33, 0))
# Of automatic scans one behind the other: a gap shows in the first of them, and by D in the second and the third
SERIES = ((43,), (42,), (43, USUAL, USUAL), (42, USUAL, USUAL), (43, 43, USUAL), (44, 43, 43, 30, 42), (30, 29, 42), (36, 43, 29, 30),
          (1 << 32, 30), ((1 << 32) + 36, 42), (5000, 31, 41), (0, 43, 0, 36), (-1, 42, -1, 43))


class ClockSource(RestartSource):
    """Draws scans with readings of their own, by the controller as it stands, and asks for its clock."""

    samples = (5000, 5000, 5000)

    def any_reading(self):
        generator = self.generator
        return generator.choice((*READINGS, generator.getrandbits(64), generator.getrandbits(64), generator.getrandbits(32)))

    def at(self, scan, milliseconds):
        """The scan so many milliseconds after the last accepted one, within 64 bits.

        Where there is none it begins with a reading that leaves room for many.
        """
        last = self.controller.clock
        return (*scan, self.clock.beginning() if last is None else limit(0, MOST, last + milliseconds))

    def any_distance(self):
        """One near or far; far before in place of far after where few readings would be left behind it."""
        distance = self.generator.choice((USUAL, self.generator.choice(NEAR), self.generator.choice(NEAR), self.generator.choice(FAR)))
        return distance if (self.controller.clock or 0) + distance < MOST - ROOM else -distance

    def small(self, scan):
        """The scan with samples that are near those of the last one, so that most terms aren't limited."""
        self.samples = [limit(2000, 8000, sample + self.generator.randint(-40, 40)) for sample in self.samples]
        word, pins, _, _, _, buttons, sensors = scan
        return (word, pins, *self.samples, buttons, sensors)

    def any_write(self):
        """A write of any parameter, most often with a value that is accepted."""
        name = self.generator.choice(WRITABLE)
        return "write", NUMBER[name], self.value(name)

    def asks(self, share):
        if self.generator.random() < share:
            yield ASK

    def tuned(self):
        """A restart that leaves the output in the middle, and parameters by which PV and SP change it little."""
        draw = self.generator.randint
        wide = {**WIDE, "channel_1H": draw(800, 2000), "channel_1L": -draw(0, 800), "channel_3H": draw(1, 5), "channel_3L": -draw(0, 5)}
        return "restart", self.drawn(**wide, SL=draw(-100, 300), RS=draw(80, 120), RB=draw(-50, 50), IC=0, OP=draw(4000, 6000), fault=0,
                                     XP=draw(600, 3000), TI=draw(1, 200), TD=draw(1, 9), request=0)

    def automatic(self, asked, milliseconds, held=None):
        """A scan in an automatic mode with small changes of the samples."""
        buttons = self.generator.choice((0, 0, SP | RAISE, *HELD)) if held is None else held
        return self.at(self.small(self.scan(self.pins(asked), buttons, False)), milliseconds)

    def entered(self, asked, milliseconds, is_open=False):
        return self.at(self.small(self.enter(asked, is_open)), milliseconds)


# Kinds of list: the calls that follow a fresh start ---------------------------

def edges_in_modes(source):
    """Each edge, and what is near and far, in every mode; the clock asked for."""
    generator = source.generator
    yield source.tuned()
    for asked in generator.sample(MODES_ASKED * 3, 3 * len(MODES_ASKED)):
        yield source.entered(asked, USUAL)
        for milliseconds in (*generator.sample(EDGES, 4), source.any_distance()):
            yield source.at(source.small(source.stay(asked, generator.choice(HELD))), milliseconds)
            yield from source.asks(0.4)


def automatic_gaps(source):
    """Gaps between automatic scans with all three terms, the output set by Track in between; SL written in some."""
    generator = source.generator
    yield source.tuned()
    for series in generator.sample(SERIES * 3, 3 * len(SERIES)):
        asked = generator.choice(("Auto", "Remote", "Fall-back"))
        yield source.entered("Track", USUAL)
        yield source.at(source.small(source.enter(asked, held=0)), USUAL)
        yield from (source.automatic(asked, USUAL) for _ in range(generator.choice((0, 1, 2, 2))))
        if generator.random() < 0.3:
            yield "write", NUMBER["SL"], limit(-9999, 9999, source.controller.parameters.SL + generator.randint(-9, 9))
        for milliseconds in series:
            yield source.automatic(asked, milliseconds)
            yield from source.asks(0.1)


def gaps_before_automatic_scans(source):
    """A gap in every mode, and on a change of mode; then automatic scans show what it left remembered."""
    generator = source.generator
    yield source.tuned()
    for asked in generator.sample(MODES_ASKED * 4, 4 * len(MODES_ASKED)):
        after = generator.choice(("Auto", "Remote", "Fall-back"))
        yield source.entered("Track", USUAL)
        yield from (source.entered(asked, USUAL) for _ in range(generator.choice((0, 1, 2))))
        yield source.entered(asked, generator.choice((43, 43, 44, 42, 1 << 32)), generator.random() < 0.1)
        yield source.at(source.small(source.enter(after, held=0)), generator.choice((USUAL, 30, 42)))
        yield from (source.automatic(after, USUAL) for _ in range(generator.choice((0, 1, 2))))
        yield from source.asks(0.1)


def gaps_under_the_fault(source):
    """The memory fault: a gap in Forced Manual; the fault cleared, automatic scans show what is remembered."""
    generator = source.generator
    for _ in range(12):
        word, image = source.tuned()
        yield word, with_right_sum(with_values(image, fault=1))
        yield from (source.entered("Manual", USUAL) for _ in range(generator.choice((1, 2, 3))))
        yield source.entered(generator.choice(("Manual", "Auto", "Remote")), generator.choice((42, 43, 43, 43, 100)))
        yield "write", NUMBER["MD"], 0x2000
        yield source.at(source.small(source.scan(0x80, A, False)), generator.choice((30, USUAL, 42)))
        yield from (source.automatic("Auto", USUAL) for _ in range(2))
        yield from source.asks(0.3)


def open_runs_with_gaps(source):
    """Open runs from every mode: gaps, and scans to be refused, about the 84th, 85th and 86th open scan."""
    generator, asked = source.generator, MODES_ASKED[source.number % 6]
    yield source.tuned()
    yield source.entered("Track", USUAL)
    yield source.at(source.enter(asked, held=0), USUAL)
    share, gap_at = generator.choice((0, 0.03, 0.3)), generator.choice((1, 83, 84, 84, 85, 85, 85, 86))
    for place in range(1, generator.randint(86, 89)):
        if generator.random() < (0.3 if place > 82 else 0.02):
            yield source.at(source.scan(source.pins(asked), 0, True), generator.choice((29, 0, -1)))
        held = generator.choice((0, RAISE)) if place > 82 else 0
        milliseconds = generator.choice((43, 43, 44, 3000)) if place == gap_at or generator.random() < share else USUAL
        yield source.at(source.scan(source.pins(asked), held, True), milliseconds)
        yield from source.asks(0.3 if place > 82 else 0.02)
    yield source.entered(generator.choice(("Auto", "Remote")), generator.choice((USUAL, 43)))
    yield from (source.automatic("Auto", USUAL) for _ in range(2))


def other_call(source):
    """A call of any kind that may stand between two scans, accepted or refused."""
    generator = source.generator
    return generator.choice((
        lambda: ("fresh", switch_word(generator)), source.tuned, lambda: ("restart", source.image()),
        lambda: ("restart", source.with_wrong_sum(source.image())), lambda: ("restart", generator.choice((b"", source.image()[:-1]))),
        lambda: ("restart", b"\0" + source.image()[1:]), lambda: ("restart", with_right_sum(with_values(source.image(), request=3))),
        *[source.any_write] * 6, lambda: ("write", *generator.choice(REFUSED_WRITES)), lambda: ("write", NUMBER["MD"], 0x2000),
        *[lambda: ("read", NUMBER[generator.choice(SHOWING)])] * 2, lambda: ("save", 137), lambda: ("save", 136),
        *(lambda number=number: source.at(source.refused_scan(number), source.any_distance()) for number in (1, 2, 3)),
        *[lambda: source.at(source.scan(source.pins("Auto"), 0, False), generator.choice((29, 29, 28, 0, -1)))] * 4))()


def behind_other_calls(source):
    """Every kind of call, one or more, between scans at the edges; the clock asked for before and behind."""
    generator = source.generator
    yield source.tuned()
    for _ in range(100):
        yield source.entered(generator.choice(MODES_ASKED), generator.choice((USUAL, USUAL, 43)))
        for _ in range(generator.choice((1, 1, 2))):
            yield other_call(source)
            yield from source.asks(0.5)
        following = source.small(source.stay("Auto", 0))
        if source.controller.clock is None and generator.random() < 0.5:
            yield (*following, source.any_reading())
        else:
            yield source.at(following, generator.choice((*EDGES, *EDGES, source.any_distance())))
        yield from source.asks(0.3)


def refused_together(source):
    """1, 2 and 3, alone and together, with readings that are taken and such that would be refused."""
    generator = source.generator
    for _ in range(40):
        yield source.entered(generator.choice(MODES_ASKED), USUAL)
        for _ in range(3):
            yield source.at(source.refused_scan(*generator.sample((1, 2, 3), generator.choice((1, 1, 2, 3)))), source.any_distance())
        yield source.at(source.stay("Manual", 0), generator.choice(EDGES))
        yield from source.asks(0.3)


def ends_of_64_bits(source):
    """The last milliseconds of 64 bits, where every further reading is refused, and readings about 0.

    Only a start or an accepted restart goes on from there.
    """
    generator = source.generator
    for _ in range(12):
        yield generator.choice((("fresh", switch_word(generator)), source.tuned(), source.tuned()))
        first = generator.choice((MOST, MOST - 29, MOST - 30, MOST - generator.randint(0, 60), MOST - 100, 0, generator.randint(0, 40)))
        yield (*source.enter("Track"), first)
        for _ in range(generator.randint(2, 6)):
            last = source.controller.clock
            about = (last + generator.choice((*EDGES, USUAL)), MOST, MOST - generator.randint(0, 40), 0, generator.randint(0, 80),
                     last + generator.choice((*EDGES, USUAL)) - MOST - 1, last - 1)
            yield (*source.small(source.enter("Auto")), limit(0, MOST, generator.choice(about)))
            yield from source.asks(0.4)


def anything(source):
    """Scans at any distance, in any mode, with other calls between."""
    generator = source.generator
    yield source.tuned()
    for _ in range(150):
        asked = generator.choice(MODES_ASKED)
        yield source.at(source.small(source.stay(asked, generator.choice(HELD), generator.random() < 0.1)), source.any_distance())
        yield from source.asks(0.1)
        if generator.random() < 0.1:
            yield other_call(source)


# Each with its number of lists
KINDS = ((edges_in_modes, 60), (automatic_gaps, 60), (gaps_before_automatic_scans, 60), (gaps_under_the_fault, 24),
         (open_runs_with_gaps, 120), (behind_other_calls, 30), (refused_together, 24), (ends_of_64_bits, 60), (anything, 30))


def call_list(generator, kind, number):
    """One list; S1.1, S2.1 and S2.5 each way in turn, S2.5 OFF where the request is to outlast a restart."""
    SW = switch_word(generator) & ~(BALANCE_OFF | RATIO | POWER_FAIL)
    SW |= (BALANCE_OFF if number % 2 else 0) | (RATIO if number // 2 % 2 else 0)
    if kind is open_runs_with_gaps:
        SW |= POWER_FAIL if number // 6 % 3 else 0
    source = ClockSource(generator, number)
    return list(entries(source, source.following(itertools.chain([("fresh", SW)], kind(source)))))


def all_lists(generator):
    """Pairs of a list's kind and the list."""
    return [(kind.__name__, call_list(generator, kind, number)) for kind, count in KINDS for number in range(count)]
