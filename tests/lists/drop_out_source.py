"""Draws a Remote scan and what comes behind it, for the lists of document 02, request 7."""

from tests.lists.image_source import ImageSource
from tests.lists.parameters import draw_parameters, writes_of
from tests.lists.ratio_halves import range_about, sample_of
from tests.lists.scan_source import ENDS, LOWER, RAISE, SP
from tests.model.formulas import limit
from tests.model.table import NUMBER, in_an_accepted_order

READS = (("read", NUMBER["SP"]), ("read", NUMBER["SL"]))
OPEN = ((False, False),) * 7 + ((True, False), (False, True), (True, True))  # in the first scan and in the second
PRESSED = (*[0] * 9, *[SP] * 4, RAISE, LOWER, SP | RAISE, SP | LOWER, RAISE | LOWER, SP | RAISE | LOWER)
GAPS = (13, 14, 20, 100, 1000)  # so many milliseconds more than an ordinary interval
IN_AUTO, IN_REMOTE, MEASURED_POWER = 0x1000, 0x0800, 0x0010  # bits of MD


# Ranges and limits ----------------------------------------------------------------

def drawn_ranges(generator):
    """Limits near to each other and far, and ranges of channels 1 and 3 whose samples give all that lies about them.

    Some ranges of channel 1 lie within the limits, or over one of them alone.
    """
    draw = generator.randint
    width = generator.choice((draw(0, 5), draw(6, 60), draw(61, 400), draw(61, 3000), draw(401, 3000)))
    beyond = generator.choice((2, 30, 400, 3000))
    LS = draw(beyond - 9999, 9999 - beyond - width)
    channel_1H, channel_1L = range_about(generator, LS - beyond, LS + width + beyond)
    if generator.random() < 0.15:
        channel_1L = draw(LS - 2, LS + width)
        channel_1H = min(9999, channel_1L + draw(1, width + 2))
    far = generator.choice((3, 40, 40, 300, 5000))
    channel_3H, channel_3L = range_about(generator, -draw(0, far), draw(1, far))
    return {"HS": LS + width, "LS": LS, "channel_1H": channel_1H, "channel_1L": channel_1L, "channel_3H": channel_3H,
            "channel_3L": channel_3L}


def ratio_ranges(generator):
    """Besides, channel 2 by a range of its own, with a ratio near 1."""
    ranges = drawn_ranges(generator)
    channel_2H, channel_2L = range_about(generator, ranges["LS"], ranges["HS"])
    LR, HR, RS = generator.randint(1, 50), generator.randint(300, 9999), generator.choice((100, generator.randint(60, 200)))
    return {**ranges, "channel_2H": channel_2H, "channel_2L": channel_2L, "LR": LR, "HR": HR, "RS": RS, "RB": generator.randint(-3, 3)}


# Scans --------------------------------------------------------------------------

class Station(ImageSource):
    """Draws the calls of one list, and follows the ranges and limits that are written between its scans.

    Third is the sample of channel 3 that the last Remote or Ratio scan had.
    """

    def __init__(self, generator, number, draw_ranges=drawn_ranges):
        super().__init__(generator, number)
        self.draw_ranges, ranges = draw_ranges, draw_ranges(generator)
        parameters = draw_parameters(generator)._replace(**ranges, SL=generator.randint(ranges["LS"], ranges["HS"]))
        self.parameters = parameters._replace(RS=limit(parameters.LR, parameters.HR, parameters.RS))
        self.measured_power, self.is_requested, self.third = False, False, 0

    def beginning(self):
        """Writes behind a fresh start; MD bit 4 in some."""
        self.measured_power = self.generator.random() < 0.15
        yield from writes_of(self.parameters, "M", self.generator.getrandbits(2), self.measured_power, self.number)

    def ranged(self, share=0.1):
        """Other ranges and limits; in such a share MD bit 4 is set, and most often cleared the next time.

        The request is Auto then.
        """
        ranges = self.draw_ranges(self.generator)
        yield from (("write", number, value) for number, value in in_an_accepted_order(self.parameters, ranges, [*ranges]))
        self.parameters = self.parameters._replace(**ranges)
        if self.generator.random() < (0.7 if self.measured_power else share):
            self.measured_power, self.is_requested = not self.measured_power, False
            yield "write", NUMBER["MD"], IN_AUTO | MEASURED_POWER * self.measured_power

    def trim(self):
        """Zero, small, or any that the range gives; above zero and below."""
        generator, least, greatest = self.generator, self.parameters.channel_3L, self.parameters.channel_3H
        draw = generator.randint
        return limit(least, greatest, generator.choice((0, draw(-3, 3), draw(-20, 20), draw(-20, 20), draw(least, greatest))))

    def reading_2(self, trim):
        """Channel 2 in Remote: SP, or SP less the trim, is at an end of LS..HS, about it, beyond, or within."""
        generator, LS, HS = self.generator, self.parameters.LS, self.parameters.HS
        least, greatest = self.parameters.channel_1L, self.parameters.channel_1H
        ends = LS, HS, LS - 1, HS + 1, LS - trim, HS - trim, LS - trim - 1, HS - trim + 1
        both_within = max(LS, LS - trim), min(HS, HS - trim)
        inside = generator.randint(*(both_within if both_within[0] <= both_within[1] else (LS, HS)))
        return limit(least, greatest, generator.choice((*ends, *[inside] * 8, generator.randint(least, greatest))))

    def remote(self, is_open=False):
        """A Remote scan, or one in Ratio with S2.1 ON."""
        generator, parameters, trim = self.generator, self.parameters, self.trim()
        held, draw = generator.choice(PRESSED), self.stay if self.is_requested else self.wanting
        self.third = sample_of(generator, parameters.channel_3H, parameters.channel_3L, trim)
        if self.draw_ranges is ratio_ranges:
            second = sample_of(generator, parameters.channel_2H, parameters.channel_2L, generator.randint(parameters.LS, parameters.HS))
        else:
            second = sample_of(generator, parameters.channel_1H, parameters.channel_1L, self.reading_2(trim))
        self.is_requested = True
        return with_samples(draw("Remote", held, is_open), second, self.third)

    def wanting(self, asked, held, is_open):
        return self.enter(asked, is_open, held)

    def third_again(self):
        """The same sample of channel 3, one next to it, which may read the same or not, one that reads the same, or
        another.
        """
        generator, third = self.generator, self.third
        if generator.random() < 0.7:
            return third
        return limit(0, 10000, generator.choice((third - 1, third + 1, third + generator.randint(-40, 40), generator.randint(0, 10000),
                                                 generator.choice(ENDS))))

    def fall_back(self, is_open=False, pressed=None):
        """With a sample of channel 2 of its own; R may be pressed again."""
        held = self.generator.choice(PRESSED) if pressed is None else pressed
        scan = (self.stay if self.is_requested else self.wanting)("Fall-back", held, is_open)
        self.is_requested = True
        return with_samples(scan, scan[3], self.third_again())

    def instead(self, asked):
        """A scan in another mode, with its own request button; in Track channel 3 is the preset."""
        self.is_requested = False
        scan = self.enter(asked, self.generator.random() < 0.1, self.generator.choice(PRESSED))
        return with_samples(scan, scan[3], self.third_again())

    def gap(self):
        """In some cases the next scan comes behind a gap."""
        if self.generator.random() < 0.1 and self.clock.last is not None:
            self.clock.last += self.generator.choice(GAPS)

    def pair(self, are_read=True):
        """A Remote scan, or one in Ratio, and a Fall-back scan straight after it."""
        first, second = self.generator.choice(OPEN)
        self.gap()
        yield self.remote(first)
        yield from READS if are_read else ()
        if are_read and self.generator.random() < 0.06:
            yield "read", NUMBER[self.generator.choice(("ER", "MP"))]
        self.gap()
        yield self.fall_back(second)
        yield from READS
        if self.generator.random() < 0.03:
            yield "read", NUMBER[self.generator.choice(("ER", "MP", "OP", "PV"))]

    def stay_on(self, most):
        """More scans in Fall-back: SL stays but for SP with Raise or Lower."""
        for _ in range(self.generator.randint(1, most)):
            yield self.fall_back(self.generator.random() < 0.1)
            yield from READS


def with_samples(scan, second, third):
    word, pins, first, _, _, buttons, sensors = scan
    return word, pins, first, second, third, buttons, sensors
