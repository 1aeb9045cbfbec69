"""Call lists with saves and restarts in every mode and state, drawn from a seed: at once and later, under other switch
words, with the memory fault, in open runs and between automatic scans.  The lists are in the form of
tests/lists/entries.py.
"""

import itertools

from tests.lists import scans as scan_lists
from tests.lists.entries import INVERSION, POWER_FAIL, entries, switch_word
from tests.lists.image_source import ImageSource, values_in, with_right_sum, with_values
from tests.lists.images import any_image, lengths_changed
from tests.lists.parameters import draw_parameters, writes_of
from tests.lists.scan_source import HELD, LOWER, MODES_ASKED, RAISE
from tests.lists.write_source import WRITABLE
from tests.model.formulas import scale
from tests.model.table import NUMBER

MINUTES = 0x0100  # S2.8
MD_WORDS = (0x2000, 0x2100, 0x1000, 0x1100, 0x0800, 0x0900, 0x2010, 0x2110, 0x1010, 0x0810, 0x3000, 0x0000)


class RestartSource(ImageSource):
    """Draws restarts in every mode, and what shows their effect."""

    def stays(self, asked, is_open=False):
        """A few scans in a mode."""
        yield self.enter(asked, is_open)
        yield from (self.stay(asked, self.generator.choice(HELD), is_open) for _ in range(self.generator.choice((0, 1, 3))))

    def scans_behind(self):
        """What a restart brought shows in scans: no button pressed, Raise or Lower, or the Remote pin; Auto too."""
        generator = self.generator
        for _ in range(generator.choice((1, 1, 2, 4))):
            asked, held = generator.choice(("Manual", "Remote", "Remote", "Hold", "Track")), generator.choice((0, 0, RAISE, LOWER, *HELD))
            yield self.scan(self.pins(asked), held, generator.random() < 0.1)
        yield from self.reads("MD", "OP", "SP")

    def writes(self, *names):
        name = self.generator.choice(names or WRITABLE)
        yield from self.write(name, self.value(name))

    def saves(self, share):
        """A save in such a share of cases, into enough bytes or too few."""
        if self.generator.random() < share:
            yield "save", self.generator.choice((136, 137, self.generator.randint(0, 300)))

    def unacceptable(self):
        """Bytes that a restart refuses."""
        generator, image = self.generator, self.image()
        illegal = with_values(image, **generator.choice(({"request": 3}, {"fault": 1, "request": 2}, {"XP": 0}, {"OP": 10000})))
        return generator.choice((image[:-1], image + b"\0", b"", b"\0" + image[1:], image[:2] + b"\1" + image[3:],
                                 *[with_right_sum(illegal)] * 4))

    def faulty(self):
        """An image that brings the memory fault: a fault of 1, or a wrong sumcheck."""
        image = with_values(self.generator.choice((self.image, self.drawn))(), request=0, fault=1)
        return self.generator.choice((with_right_sum(image), self.with_wrong_sum(image), self.with_wrong_sum(self.drawn())))


# Kinds of list: the calls that follow a fresh start ---------------------------

def saved_in_modes(source):
    """Saved in every mode, restarted at once and in another mode, and the image saved again."""
    generator = source.generator
    for asked in generator.sample(MODES_ASKED * 3, 3 * len(MODES_ASKED)):
        yield from source.stays(asked, generator.random() < 0.1)
        yield "save", 137
        image = source.image()
        if generator.random() < 0.5:
            yield from source.stays(generator.choice(MODES_ASKED))
            yield from source.writes()
        if generator.random() < 0.3:
            yield "restart", source.unacceptable()
            yield from source.reads("MD", "DS")
        yield "restart", image
        yield from source.reads_of_all()
        yield from source.scans_behind()


def under_other_switches(source):
    """Saved in every mode, restarted after a fresh start with another switch word: S2.5 and S2.2 in turn each way."""
    generator = source.generator
    for place, asked in enumerate(generator.sample(MODES_ASKED * 3, 3 * len(MODES_ASKED))):
        yield from source.stays(asked)
        yield "save", 137
        image = source.image()
        SW = switch_word(generator) & ~(POWER_FAIL | INVERSION) | (POWER_FAIL if place & 1 else 0) | (INVERSION if place & 2
                                                                                                                 else 0)
        yield "fresh", SW
        yield from source.stays(generator.choice(MODES_ASKED))
        yield "restart", image
        yield from source.reads_of_all()
        yield from source.scans_behind()
        if generator.random() < 0.3:
            yield "restart", source.drawn()


def with_the_fault(source):
    """The memory fault brought in every mode; what may come while it stands; restarts that end it."""
    generator = source.generator
    for asked in generator.sample(MODES_ASKED * 4, 4 * len(MODES_ASKED)):
        yield from source.stays(generator.choice(MODES_ASKED))
        yield "restart", source.faulty()
        yield from source.reads("MD", "DS", "OP")
        yield from under_the_fault(source, asked)
        yield from source.reads("MD", "DS")
        if generator.random() < 0.4:
            yield "restart", generator.choice((source.drawn(), source.image(), with_right_sum(with_values(source.image(), fault=0))))
            yield from source.reads_of_all()


def under_the_fault(source, asked):
    """Scans, writes of MD that clear the fault or not, saves and refused restarts."""
    generator = source.generator
    for _ in range(generator.choice((0, 1, 2, 5))):
        yield from generator.choice((
            lambda: source.stays(asked, generator.random() < 0.2), lambda: source.write("MD", generator.choice(MD_WORDS)),
            lambda: [("restart", source.unacceptable())], lambda: [("save", 137)], lambda: source.writes("HO", "LO", "SL")))()


def open_scans(source, asked, number):
    """So many open scans, saves among them, most about the 85th; another mode for some."""
    generator = source.generator
    for place in range(1, number + 1):
        yield source.scan(source.pins(asked) if generator.random() < 0.9 else 0x80, generator.choice((0, 0, RAISE)), True)
        yield from source.saves(0.3 if place > 82 else 0.04)
        yield from source.reads("MD", "OP") if place > 82 and generator.random() < 0.3 else ()


def fault_and_open_runs(source):
    """The open cause and the memory fault together and one after the other.

    Restarts before the 84th, 85th and 86th open scan begin the count anew.
    """
    generator, asked = source.generator, MODES_ASKED[source.number % 6]
    yield "restart", source.drawn(fault=0, request=generator.randrange(3))
    yield source.enter(asked, held=0)
    yield from open_scans(source, asked, (83, 84, 85, 86, 100)[source.number % 5])
    yield "read", NUMBER["MD"]
    image = generator.choice((source.image, source.drawn, source.faulty, source.unacceptable))()
    yield "restart", with_right_sum(with_values(image, request=1, fault=0)) if source.number % 3 == 0 and len(image) == 137 else image
    yield from source.reads("MD", "DS")
    yield from open_scans(source, asked, generator.choice((3, 85, 87)))
    yield from source.write("MD", generator.choice(MD_WORDS))
    yield from source.stays(generator.choice(MODES_ASKED))


def between_automatic_scans(source):
    """Restarts between automatic scans: what was remembered is forgotten, the output is OP.

    A refused restart forgets nothing.
    """
    generator = source.generator
    terms = {"XP": generator.randint(200, 3000), "TI": generator.choice((0, generator.randint(1, 300))),
             "TD": generator.choice((0, generator.randint(1, 40)))}
    yield "restart", source.drawn(HO=9999, LO=0, OP=5000, **terms)
    for _ in range(16):
        asked = generator.choice(("Auto", "Remote", "Fall-back"))
        yield source.enter(asked, held=0)
        yield from (source.scan(source.pins(asked), generator.choice(HELD), generator.random() < 0.05)
                    for _ in range(generator.choice((0, 1, 2, 5))))
        yield from source.saves(0.7)
        yield from (source.scan(source.pins(asked), 0, False) for _ in range(generator.choice((0, 1))))
        yield "save", generator.choice((137, 200))
        image = source.image()
        OP = generator.choice((values_in(image)["OP"], generator.randint(3000, 7000)))
        decoded = with_right_sum(with_values(image, OP=OP, request={"Auto": 1}.get(asked, 2), fault=0))
        yield "restart", source.unacceptable() if generator.random() < 0.3 else decoded
        yield from (source.scan(source.pins(asked), generator.choice((0, 0, *HELD)), False) for _ in range(generator.choice((1, 2, 4))))
        yield from source.reads("OP", "PV", "SP", "ER")


def single_steps(source):
    """The output that a restart leaves, to the step: an integral term of one step of 1/65,536, up or down, is all that
    the next scan adds.

    3,600,000 / (9999 x 19998 x TI) units are one step with TI 1180, in minutes 60,000 / (9999 x 19998 x TI) with TI 20.
    """
    generator = source.generator
    for _ in range(12):
        sample = generator.randint(100, 9900)
        SL = scale(-9999, 9999, sample) + generator.choice((-1, 1))
        slow = {"XP": 9999, "channel_1H": 9999, "channel_1L": -9999, "TI": 20 if source.controller.SW & MINUTES else 1180, "TD": 0, "IC": 0}
        limits = {"HS": 9999, "LS": -9999, "HO": 9999, "LO": 0, "SL": SL, "OP": generator.randint(0, 9999)}
        yield "restart", source.drawn(**slow, **limits, request=generator.choice((1, 2)), fault=0, user_bits=4)
        yield from [("scan", 0x80, sample, generator.randint(0, 10000), generator.randint(0, 10000), 0, 0),
                    ("read", NUMBER["OP"])] * generator.choice((1, 1, 2))
        if generator.random() < 0.3:
            yield "restart", source.unacceptable()
            yield "scan", 0x80, sample, 0, 0, 0, 0


def after_writes(source):
    """Drawn parameters written, saved, changed by other writes, and brought back."""
    generator = source.generator
    yield from writes_of(draw_parameters(generator), "M", generator.getrandbits(2), generator.random() < 0.3, source.number)
    for _ in range(6):
        yield "save", generator.choice((137, 300))
        image = source.image()
        yield from source.new_parameters()
        yield from source.write("DS", generator.choice((0, 0x40, 0x80, 0xC0)))
        yield from source.write("MD", generator.choice(MD_WORDS))
        yield from source.stays(generator.choice(MODES_ASKED))
        yield "restart", image
        yield from source.reads_of_all()
        yield from source.writes()
        yield from source.scans_behind()


def mixed(source):
    """Everything without any order, images of the last few saves among it."""
    generator, kept = source.generator, [source.drawn()]
    others = (any_image(source), lengths_changed(source), scan_lists.anything(source))
    for _ in range(150):
        kept = [source.image(), *kept][:4] if generator.random() < 0.2 else kept
        yield from generator.choice((
            lambda: [next(others[0])], lambda: [next(others[1])], lambda: [next(others[2])],
            lambda: [source.enter(generator.choice(MODES_ASKED))], source.reads,
            source.writes, lambda: [("restart", generator.choice(kept))], source.reads_of_all,
            lambda: [("restart", source.faulty())], lambda: source.write("MD", generator.choice(MD_WORDS))))()


# Each with its number of lists
KINDS = ((saved_in_modes, 24), (under_other_switches, 24), (with_the_fault, 24), (fault_and_open_runs, 72), (between_automatic_scans, 30),
         (single_steps, 12),
         (after_writes, 12), (mixed, 30))


def call_list(generator, kind, number):
    """One list; S2.5 and S2.2 each way in turn.

    S2.5 is ON in every second list, or in every third between automatic scans, where it would end them all.
    """
    SW = switch_word(generator) & ~(POWER_FAIL | INVERSION)
    is_power_fail = number % 3 == 2 if kind in (between_automatic_scans, single_steps) else number % 2
    source = RestartSource(generator, number)
    start = [("fresh", SW | (POWER_FAIL if is_power_fail else 0) | (INVERSION if number // 2 % 2 else 0))]
    if generator.random() < 0.6:
        start.append(("restart", source.drawn()))
    return list(entries(source, source.following(itertools.chain(start, kind(source)))))


def all_lists(generator):
    """Pairs of a list's kind and the list."""
    return [(kind.__name__, call_list(generator, kind, number)) for kind, count in KINDS for number in range(count)]
