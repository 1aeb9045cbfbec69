"""Draws writes and reads for the lists, besides scans."""

from tests.lists.parameters import draw_parameters
from tests.lists.scan_source import Operator
from tests.lists.writers import named
from tests.model import loop
from tests.model.state import Stored
from tests.model.table import NAMES, NUMBER, READ_ONLY, in_an_accepted_order, range_of

WRITABLE = NAMES[:READ_ONLY[0] - 1]
# What a write may change besides, or shows besides
BESIDE = {"HS": ("SL", "SP"), "LS": ("SL", "SP"), "HR": ("RS",), "LR": ("RS",), "HO": ("OP",), "LO": ("OP",), "MD": ("DS",), "DS": ("MD",),
          "channel_1H": ("PV",), "channel_1L": ("PV",), "SL": ("SP",)}
INT32_ENDS = (-1 << 31, (-1 << 31) + 1, (1 << 31) - 2, (1 << 31) - 1)
OUTSIDE = (0, 33, 34, 35, 64, 127, 128, 255, 256, 10 ** 17, 1 << 31, 1 << 32, 1 << 53, (1 << 53) + 1, 1 << 59, 10 ** 18 - 1, -1, -32,
           -(1 << 31), 1 - 10 ** 18)
WRAPS = (1 << 5, 1 << 6, 1 << 8, 1 << 16, 1 << 31, 1 << 32, -1 << 8, -1 << 16, -1 << 32, 1 << 58)


class Writer(Operator):
    """Draws writes and reads too.

    Follows the controller's state in the model, so as to draw values about the ends that stand.
    """

    controller = None

    def following(self, calls):
        """The calls, with the clock's readings and with writers, each made in the model before the next is drawn."""
        for call in named(self.generator, self.clock.timed(calls), lambda: self.controller.pins):
            self.controller, _ = loop.make(self.controller, call, Stored)
            self.clock.last = self.controller.clock
            yield call

    def reads(self, *names):
        """Reads of these, of some drawn others, now and then of all 32 and of a number outside."""
        generator = self.generator
        chosen = generator.sample(NAMES, 32) if generator.random() < 0.01 else (*names,
                                                                                *generator.sample(NAMES, generator.choice((0, 0, 1, 2))))
        yield from (("read", NUMBER[name]) for name in chosen)
        if generator.random() < 0.02:
            yield "read", self.outside()

    def outside(self):
        """A number outside 1..32, many of them such that only low bits make a number of them."""
        generator = self.generator
        return generator.choice((0, 33, generator.choice(OUTSIDE), generator.choice(OUTSIDE),
                                 generator.choice(WRAPS) + generator.randint(1, 32),
                                 -generator.randint(1, 32)))

    def write(self, name, value):
        yield "write", NUMBER[name], value
        yield from self.reads(name, *BESIDE.get(name, ()))

    def ends(self, name):
        """The ends of the range that stands, and a value within."""
        least, greatest = range_of(self.controller.parameters, NUMBER[name])
        return least, greatest, self.generator.randint(least, greatest)

    def values(self, name):
        """At each end of the range, just inside and just beyond, far beyond, and right if only the low 8 or 16 bits are
        kept.
        """
        least, greatest, inside = self.ends(name)
        wrapped = [inside + 65536, inside - 65536, inside + 256 * self.generator.choice((-1, 1, 40, 79)), inside + (1 << 24),
                   inside - (1 << 30)]
        return [least - 1, least, least + 1, greatest - 1, greatest, greatest + 1, inside, self.generator.choice(INT32_ENDS), *wrapped]

    def value(self, name):
        """One of these, or a value within the range."""
        if self.generator.random() < 0.7:
            return self.ends(name)[2]
        return self.generator.choice(self.values(name))

    def new_parameters(self):
        """Other parameters, in an order in which each write is accepted, but perhaps that of SL."""
        parameters = draw_parameters(self.generator)
        names = self.generator.sample(parameters._fields, len(parameters))
        for number, value in in_an_accepted_order(self.controller.parameters, parameters._asdict(), names):
            yield "write", number, value
        yield from self.reads(*names[:3])

    def opened(self, asked):
        """85 open scans: the open cause stands as long as no scan comes that isn't open."""
        yield from (self.stay(asked, 0, True) for _ in range(85))
