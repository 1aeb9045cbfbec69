"""Supplies the milliseconds that each scan of a list carries: the one place where ordinary readings are drawn.

The other modules of tests/lists draw scans of six numbers; the reading is put behind them when their order stands.
"""

from tests.model.lines import READING

MOST = READING[1]
ORDINARY = (30, 42)  # "From 30 to 42 ms is an ordinary scan"
USUAL = 36
# What the readings of a list may begin with: at 0, about ends of fewer bits, and in the upper half; none of the lists
# has so many scans that it comes to the end of 64 bits
ROOM = 1 << 20
BEGINNINGS = (0, 1, 36, (1 << 16) - 400, (1 << 31) - 400, (1 << 32) - 400, (1 << 32) - 4000, (1 << 53) - 400, (1 << 63) - 400, MOST - ROOM)


def is_refused(scan):
    """Whether the scan's own six numbers are refused, by 1, 2 or 3, whatever its reading is."""
    _, _, *samples, buttons, sensors = scan[:7]
    return max(samples) > 10000 or bool(buttons & 0x30) or bool(sensors & 0xFC)


class HostClock:
    """The host's clock: ordinary readings, each after that of the last scan that isn't refused.

    A fresh start is followed by any reading.  A restart is, too, if it is accepted: lists that follow the controller in
    the model set the last reading to the controller's.  Others have no restarts.
    """

    def __init__(self, generator):
        self.generator, self.last = generator, None

    def timed(self, calls):
        """The calls, each scan of six numbers with its reading."""
        for call in calls:
            if call[0] == "fresh":
                self.last = None
            if call[0] == "scan" and len(call) == 7:
                call = self.with_reading(call)
            yield call

    def with_reading(self, scan):
        """That of a refused scan may be any, most often one about the last, and isn't the last then."""
        generator = self.generator
        if is_refused(scan):
            return (*scan, self.beginning() if self.last is None else self.about_the_last())
        if self.last is None:
            self.last = self.beginning()
        else:
            self.last += generator.choice((USUAL, USUAL, *ORDINARY, generator.randint(*ORDINARY)))
        return (*scan, self.last)

    def about_the_last(self):
        near = min(max(0, self.last + self.generator.randint(-60, 60)), MOST)
        return near if self.generator.random() < 0.8 else self.generator.getrandbits(64)

    def beginning(self):
        """A reading with room for many more behind it."""
        return self.generator.choice((*BEGINNINGS, self.generator.getrandbits(20), self.generator.getrandbits(63)))


def at_usual_steps(calls, beginning=1_000_000):
    """The calls with readings that nothing is drawn for: so many, and 36 ms more for each scan that isn't refused."""
    reading = beginning
    for call in calls:
        if call[0] != "scan" or len(call) != 7:
            yield call
            continue
        yield (*call, reading)
        reading += 0 if is_refused(call) else USUAL
