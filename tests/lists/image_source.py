"""Draws images, saves and restarts for the lists.

The images are those of the controller as it stands, and others with other values, tags, lengths and sumchecks.
"""

from tests.lists.parameters import draw_parameters
from tests.lists.write_source import Writer
from tests.model.images import IMAGE_BYTES, LAYOUT, LENGTHS, image_of, sumcheck
from tests.model.lines import MOST_BYTES
from tests.model.loop import save
from tests.model.state import Parameters, Stored
from tests.model.table import NUMBER

FIELDS = (*Parameters._fields, "OP", "request", "fault", "user_bits", "sumcheck")
SIZE = dict(zip(FIELDS, LENGTHS, strict=True))
FIELD_AT = {name: sum(3 + size for size in LENGTHS[:field]) for field, name in enumerate(FIELDS)}
OTHER_READS = ("MD", "DS", "OP", "SP", "PV", "ER", "MP", "SW")  # with a saved image they are all that can be read
WIDE = {"channel_1H": 9999, "channel_1L": -9999, "channel_2H": 9999, "channel_2L": -9999, "channel_3H": 9999, "channel_3L": -9999,
        "HR": 9999, "LR": 1, "HS": 9999, "LS": -9999, "HA": 9999, "LA": -9999, "HO": 9999, "LO": 0}  # every pair as far apart as it can be


def values_in(image):
    """The values of an image by name; parameters have their sign."""
    return dict(zip(FIELDS, LAYOUT.unpack(image)[2::3], strict=True))


def with_right_sum(image):
    return image[:-2] + sumcheck(LAYOUT.unpack(image)[2:-1:3]).to_bytes(2, "big")


def with_values(image, **values):
    """Other values; only their low bytes are kept.  The sumcheck stays."""
    changed = bytearray(image)
    for name, value in values.items():
        place, size = FIELD_AT[name] + 3, SIZE[name]
        changed[place:place + size] = (value % (1 << 8 * size)).to_bytes(size, "big")
    return bytes(changed)


def with_byte(image, place, byte):
    return image[:place] + bytes((byte,)) + image[place + 1:]


class ImageSource(Writer):
    """Draws images and the calls with them, besides scans, writes and reads."""

    def image(self):
        """What a save would give now."""
        return save(self.controller, IMAGE_BYTES, Stored)[1][1]

    def drawn(self, **values):
        """A sound image with drawn values."""
        generator = self.generator
        parameters = draw_parameters(generator)
        fault = int(generator.random() < 0.1)
        OP = generator.choice((parameters.LO, parameters.HO, generator.randint(0, 9999), generator.randint(parameters.LO, parameters.HO)))
        image = image_of((*parameters, OP, 0 if fault else generator.randrange(3), fault, generator.randrange(8)))
        return with_right_sum(with_values(image, **values)) if values else image

    def wide(self):
        """A sound image whose pairs are as far apart as can be, so that a value is legal or not by its range alone; SL
        and RS have limits of their own.
        """
        generator = self.generator
        limits = {"HS": generator.randint(1, 5000), "LS": -generator.randint(0, 5000), "HR": generator.randint(5000, 9998),
                  "LR": generator.randint(2, 4000)}
        limits = generator.choice(({}, limits))
        drawn = self.drawn(**WIDE, **{"SL": 0, "RS": 4500, "OP": generator.randint(0, 9999)})
        return with_right_sum(with_values(drawn, **limits))

    def based(self):
        """A drawn state, and the image of it: saved into 300 bytes, so that it is known for the one that changes start
        from.
        """
        yield "restart", self.drawn()
        yield "save", MOST_BYTES

    def with_wrong_sum(self, image):
        """The image with another sumcheck."""
        right = values_in(with_right_sum(image))["sumcheck"]
        return with_values(image, sumcheck=right + self.generator.choice((1, -1, 256, 32768, self.generator.randint(1, 65535))))

    def restarts(self, image, share=0.8):
        """The image with its sumcheck right and with a wrong one, in any order, each followed by reads in such a share
        of cases.
        """
        for each in self.generator.sample((with_right_sum(image), self.with_wrong_sum(image)), 2):
            yield from self.restart(each, share)

    def restart(self, image, share=0.8):
        yield "restart", image
        if self.generator.random() < share:
            yield "save", IMAGE_BYTES
            yield from (("read", NUMBER[name]) for name in self.generator.sample(OTHER_READS, self.generator.choice((0, 1, 1, 2))))

    def reads_of_all(self):
        """All that can be read: now and then by each number, else an image and what isn't in it."""
        generator = self.generator
        yield "save", generator.choice((IMAGE_BYTES, generator.randint(IMAGE_BYTES, 300)))
        numbers = range(1, 33) if generator.random() < 0.1 else [NUMBER[name] for name in OTHER_READS]
        yield from (("read", number) for number in generator.sample(numbers, len(numbers)))
