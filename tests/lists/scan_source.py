"""Draws scans for the lists: the samples, and the pins and buttons that bring or keep a mode."""

from tests.lists.host_clock import HostClock
from tests.model.formulas import limit

LOWER, RAISE, SP, R, A, M = 0x80, 0x40, 0x08, 0x04, 0x02, 0x01
HELD = (0, 0, RAISE, LOWER, SP, SP | RAISE, SP | LOWER, RAISE | LOWER, SP | RAISE | LOWER)

# Step 3: the pins that bring a mode, those that may stand beside them, its request button, and those that are overruled
# by it or wait.
ASKED = {"Hold": (0x00, 0x7F, 0, M | A | R), "Track": (0xC0, 0x3F, 0, M | A | R), "Manual": (0x80, 0x3F, M, A | R),
         "Auto": (0x80, 0x3F, A, R), "Remote": (0xA0, 0x1F, R, 0), "Fall-back": (0x80, 0x1F, R, 0)}  # Remote is Ratio with S2.1 ON
MODES_ASKED = tuple(ASKED)

ENDS = (0, 1, 4, 5, 6, 4994, 4995, 4999, 5000, 5001, 9994, 9995, 9998, 9999, 10000)
TOO_GREAT = (10001, 10002, 16384, 32767, 32768, 65535)


def channel(generator):
    """One channel's samples without end: steady, wandering, jumping, at the ends of the range and about halves."""
    sample = generator.randint(0, 10000)
    while True:
        manner = generator.choice(("steady", "wandering", "wandering", "wandering", "jumping", "ends"))
        step = 1 << generator.randint(2, 11)
        for _ in range(generator.randint(1, 50)):
            if manner == "wandering":
                sample = limit(0, 10000, sample + generator.randint(-step, step))
            elif manner == "jumping":
                sample = generator.randint(0, 10000)
            elif manner == "ends":
                sample = generator.choice(ENDS)
            yield sample


class Operator:
    """Draws scans: the samples, the pins and buttons that bring or keep a mode, now and then a low battery.

    They have no reading yet; the clock supplies it when their order stands.
    """

    def __init__(self, generator, number=0):
        self.generator, self.number = generator, number  # the number of the list among those of its kind
        self.channels = [channel(generator) for _ in range(3)]
        self.clock = HostClock(generator)

    def scan(self, pins, buttons, is_open):
        battery_low = 2 if self.generator.random() < 0.05 else 0
        return ("scan", pins, *map(next, self.channels), buttons, battery_low | is_open)

    def pins(self, asked):
        needed, allowed, _, _ = ASKED[asked]
        return needed | allowed & self.generator.getrandbits(8)

    def enter(self, asked, is_open=False, held=None):
        """A scan with the mode's own request button; "the first pressed of M, A, R" may have others beside it."""
        _, _, needed, allowed = ASKED[asked]
        buttons = needed | allowed & self.generator.choice((0, self.generator.getrandbits(3)))
        return self.scan(self.pins(asked), buttons | (self.generator.choice(HELD) if held is None else held), is_open)

    def stay(self, asked, held, is_open=False):
        """A scan in the mode already entered: in Hold and Track the request may change all the same."""
        if self.generator.random() < 0.2:
            return self.enter(asked, is_open, held)
        return self.scan(self.pins(asked), held, is_open)

    def stretch(self, asked, length):
        """A run in one mode with one hand on the buttons; in some, single open scans."""
        held, open_share = self.generator.choice(HELD), self.generator.choice((0, 0, 0, 0.15))
        yield self.enter(asked)
        for _ in range(length - 1):
            yield self.stay(asked, held, self.generator.random() < open_share)

    def released(self, asked):
        """In some cases a scan without any request button, so that a request made earlier shows.

        Then Remote, which shows SL.
        """
        if self.generator.random() < 0.4:
            yield self.scan(self.pins(asked), self.generator.choice(HELD), False)
            yield self.enter("Remote")

    def refused_scan(self, *causes):
        """A scan to be refused, for one cause or several, drawn or given, whatever else it brings."""
        generator = self.generator
        _, pins, *samples, buttons, sensors = self.scan(generator.getrandbits(8), generator.getrandbits(8) & 0xCF, generator.getrandbits(1))
        causes = causes or generator.choice(((1,), (1,), (2,), (2,), (3,), (3,), (1, 2), (1, 3), (2, 3), (1, 2, 3)))
        if 1 in causes:
            for place in generator.sample(range(3), generator.choice((1, 1, 1, 2, 3))):
                samples[place] = generator.choice((*TOO_GREAT, generator.randint(10001, 65535)))
        if 2 in causes:
            buttons |= generator.choice((0x10, 0x20, 0x30))
        if 3 in causes:
            sensors |= generator.choice((1 << generator.randint(2, 7), generator.randint(4, 255)))
        return ("scan", pins, *samples, buttons, sensors)
