"""Call lists with restarts from images that were changed, drawn from a seed: every byte, every field, every pair, every
tag and length, wrong sumchecks, every number of bytes.  The lists are in the form of tests/lists/entries.py.
"""

import functools
import itertools
import operator

from tests.lists.entries import INVERSION, POWER_FAIL, Entry, entries, switch_word
from tests.lists.image_source import (FIELDS, FIELD_AT, SIZE, ImageSource, values_in, with_byte, with_right_sum,
                                      with_values)
from tests.lists.line_errors import NO_BYTES, with_wrong_text
from tests.model.images import IMAGE_BYTES, LENGTHS, TAGS
from tests.model.lines import MOST_BYTES, line_of, text_of
from tests.model.state import Parameters
from tests.model.table import NUMBER, PAIRS, range_of

DEFAULTS = Parameters._field_defaults
SUMCHECK_AT = FIELD_AT["sumcheck"] + 3
# Far from the ends, among them right ones if read otherwise
FAR = (0, 1, -1, 2, 0x7FFF, -0x8000, -0x7FFF, 0x7FFE, 255, 256, -256, 128, -128, 10000, -10000, 10001)
LIMITED = {"HS": "SL", "HR": "RS"}
OF_ONE_BYTE = {"request": (0, 1, 2, 3, 4, 127, 128, 254, 255), "fault": (0, 1, 2, 3, 128, 255),
               "user_bits": (*range(10), 15, 16, 32, 64, 128, 247, 248, 255)}


# Kinds of list: the calls that follow a fresh start ---------------------------

def bytes_changed(source):
    """Every byte of a saved image changed; another image now and then."""
    generator = source.generator
    yield from source.based()
    base = source.image()
    for place in generator.sample(range(IMAGE_BYTES), IMAGE_BYTES):
        if generator.random() < 0.1:
            yield from source.based()
            base = source.image()
        yield from byte_changed(source, base, place)


def byte_changed(source, base, place):
    """One bit changed (another in each list), all bits changed, and the byte drawn anew.

    The sumcheck as it was, and right.
    """
    for change in (1 << source.number % 8, 255, source.generator.randint(1, 255)):
        changed = with_byte(base, place, base[place] ^ change)
        yield from source.restart(changed, 0.5)
        if place < SUMCHECK_AT:
            yield from source.restart(with_right_sum(changed), 0.5)


def about_its_ends(name, image, generator):
    """Values of a field at each end of its range, just inside and just beyond, and far away."""
    values = values_in(image)
    if name in OF_ONE_BYTE:
        return OF_ONE_BYTE[name]
    if name == "sumcheck":
        return tuple(values[name] + difference for difference in (1, -1, 2, -2, 255, 256, -256, 257, 4096, 32767, 32768, -32767))
    if name == "OP":
        ends = (values["LO"], values["HO"], 0, 9999)
    else:
        ends = range_of(Parameters(*itertools.islice(values.values(), 23)), NUMBER[name])
    return (*(end + distance for end in ends for distance in (-1, 0, 1)), *generator.sample(FAR, len(FAR)))


def fields_changed(source):
    """Every field in images with wide pairs and in others."""
    for name in source.generator.sample(FIELDS, len(FIELDS)):
        yield from field_changed(source, source.wide() if source.number % 2 else source.drawn(), name)


def field_changed(source, base, name):
    """A field at and about the ends of its range and far beyond; the sumcheck right and wrong."""
    for value in about_its_ends(name, base, source.generator):
        changed = with_values(base, **{name: value})
        yield from source.restart(changed) if name == "sumcheck" else source.restarts(changed)


def small_fields(source):
    """Request and fault together, and every 44h, with the sumcheck right and wrong; S2.5 and S2.2 ON and OFF."""
    base = source.drawn()
    both = [{"request": request, "fault": fault} for request in (*OF_ONE_BYTE["request"][:5], 255) for fault in OF_ONE_BYTE["fault"]]
    for values in (*both, *({"user_bits": user_bits} for user_bits in source.generator.sample(range(256), 40))):
        yield from source.restarts(with_values(base, **values))


def pair_values(pair, generator):
    """The higher end and the lower: in order, equal and out of order, each end out of its range, the other about the
    default that stands for it.
    """
    high, low = pair
    least, greatest = range_of(Parameters(), NUMBER[high])
    level, other = generator.randint(least + 2, greatest - 2), generator.randint(least, greatest)
    within = [(level, level + distance) for distance in (-1, 0, 1, 2)] + [(least, greatest), (greatest, least), (least, least),
                                                                          (greatest, greatest)]
    within += [(level, other), (other, level), (least, least + 1), (greatest - 1, greatest), (DEFAULTS[low], DEFAULTS[high])]
    beyond = (greatest + 1, least - 1, generator.choice(FAR[4:8]))
    return (*within, *((far, DEFAULTS[high] + distance) for far in beyond for distance in (-1, 0, 1)), *((far, other) for far in beyond),
            *((DEFAULTS[low] + distance, far) for far in beyond for distance in (-1, 0, 1)), *((other, far) for far in beyond),
            (beyond[0], beyond[1]))


def pairs_changed(source):
    """Every pair, in images with wide pairs and in others."""
    for pair in source.generator.sample(PAIRS, len(PAIRS)):
        yield from pair_changed(source, source.generator.choice((source.wide, source.drawn))(), pair)


def pair_changed(source, base, pair):
    """A pair in order, equal and out of order, and with ends out of their range.

    The sumcheck right and wrong; SL or RS at the ends in half of the cases.
    """
    generator = source.generator
    for high, low in pair_values(pair, generator):
        changed = with_values(base, **dict(zip(pair, (high, low), strict=True)))
        if pair[0] in LIMITED and low <= high and generator.random() < 0.5:
            changed = with_values(changed, **{LIMITED[pair[0]]: generator.choice((low, high))})
        yield from source.restarts(changed)


def several_pairs(source):
    """Several pairs out of order or out of range at once: each is repaired by itself."""
    generator = source.generator
    for _ in range(40):
        pairs = generator.sample(PAIRS, generator.randint(2, 7))
        values = {name: value for pair in pairs for name, value in zip(pair, generator.choice(pair_values(pair, generator)), strict=True)}
        yield from source.restarts(with_values(source.drawn(), **values))


def setpoints_changed(source):
    """SL and RS about the image's own limits, which stand as drawn, or are in order, equal, out of order or out of
    range.
    """
    generator = source.generator
    for limited, pair in (("SL", ("HS", "LS")), ("RS", ("HR", "LR"))) * 3:
        base = source.drawn()
        limits = [{}, *(dict(zip(pair, ends, strict=True)) for ends in generator.sample(pair_values(pair, generator), 6))]
        yield from itertools.chain.from_iterable(setpoint_changed(source, with_values(base, **each), limited, pair) for each in limits)


def setpoint_changed(source, base, limited, pair):
    """SL or RS about its limits as the image has them and about their defaults, and far away.

    The sumcheck right and wrong.
    """
    generator, decoded = source.generator, values_in(base)
    ends = (decoded[pair[0]], decoded[pair[1]], DEFAULTS[pair[0]], DEFAULTS[pair[1]])
    about = sorted({end + distance for end in ends for distance in (-1, 0, 1)})
    for value in generator.sample(about, 6) + generator.sample(FAR, 3):
        yield from source.restarts(with_values(base, **{limited: value}))


def wrong_sums(image):
    """Sumchecks that other rules would give; where one is right by chance it stays among them."""
    values = [value % (1 << 8 * SIZE[name]) for name, value in values_in(image).items()][:-1]
    right, heads = sum(values), (sum(TAGS[:-1]), sum(LENGTHS[:-1]))
    by_bytes = sum(byte for name in FIELDS[:-1] for byte in image[FIELD_AT[name] + 3:FIELD_AT[name] + 3 + SIZE[name]])
    swapped = right % 256 * 256 + right // 256 % 256
    return (right + heads[0], right + heads[1], right + sum(heads), sum(image[:-5]), sum(image[:-2]), by_bytes,
            functools.reduce(operator.xor, values),
            -right, ~right, swapped, right % 65535, right + right // 65536, right - values[-1], right - values[0], sum(values[:23]),
            sum(values[:24]),
            right + TAGS[-1], right + TAGS[-1] + 2, 0, 0xFFFF, right - 2 * sum(value for value in values if value > 32767),
            sum(value % 256 for value in values),
            2 * right, right ^ 0x8000, right ^ 1, right ^ 0x80)


def sums_changed(source):
    """Sound images but for a sumcheck that another rule would give."""
    for _ in range(16):
        image = source.drawn()
        wrong = source.generator.sample(wrong_sums(image), 12)
        yield from itertools.chain.from_iterable(source.restart(with_values(image, sumcheck=each), 0.4) for each in wrong)
        yield from source.restart(image, 1)


def wrong_heads(base, field, generator):
    """The image with one tag or one length wrong, in many ways."""
    at, tag, length = FIELD_AT[FIELDS[field]], TAGS[field], LENGTHS[field]
    tags = {0, tag ^ 1, tag + 1, tag - 1, tag | 0x80, tag ^ 0x40, 0xFF, TAGS[field - 1], generator.randrange(256)} - {tag}
    lengths = {(0, 0), (0, 3 - length), (0, 3), (1, length), (length, 0), (0x80, length), (255, 255), (0, length + 128)}
    return [with_byte(base, at, other) for other in sorted(tags)] + [with_byte(with_byte(base, at + 1, high), at + 2, low)
                                                                     for high, low in sorted(lengths)]


def exchanged(base, name, other):
    """The image with two fields of the same size exchanged."""
    (low, high), size = sorted((FIELD_AT[name], FIELD_AT[other])), 3 + SIZE[name]
    return base[:low] + base[high:high + size] + base[low + size:high] + base[low:low + size] + base[high + size:]


def heads_changed(source):
    """Every tag and every length wrong, with a right or wrong sumcheck or an illegal value; and fields exchanged."""
    generator = source.generator
    for field in generator.sample(range(len(FIELDS)), len(FIELDS)):
        base, name = source.drawn(), FIELDS[field]
        changed = [generator.choice((each, with_right_sum(each), source.with_wrong_sum(each), with_right_sum(with_values(each, request=3))))
                   for each in wrong_heads(base, field, generator)]
        other = generator.choice([each for each in FIELDS if SIZE[each] == SIZE[name] and each != name])
        yield from itertools.chain.from_iterable(source.restart(each, 0.2) for each in (*changed, exchanged(base, name, other)))
        if generator.random() < 0.3:
            yield from source.restart(base, 1)


def lengths_changed(source):
    """Every number of bytes from 0 to 300: parts of an image, more than an image, and drawn bytes; and every length of
    a buffer for saving.
    """
    generator = source.generator
    image, other = source.drawn(), source.drawn()
    yield from source.restart(source.drawn(), 1)
    for number in generator.sample(range(MOST_BYTES + 1), MOST_BYTES + 1):
        drawn = bytes(generator.getrandbits(8) for _ in range(number))
        longer = (image + generator.choice((bytes(300), image * 2, drawn)))[:number]
        behind = (generator.choice((bytes(300), image * 2)) + image)[-number:] if number else b""
        yield from source.restart(longer, 0.1)
        yield from source.restart(generator.choice((drawn, behind)), 0.1)
        yield "save", number
        if generator.random() < 0.1:
            yield from source.restart(other, 0.5)


def any_image(source):
    """Images with a few drawn values, with all values drawn, and drawn bytes; the sumcheck right or wrong."""
    generator = source.generator
    for _ in range(150):
        base = generator.choice((source.drawn, source.wide))()
        names = generator.sample(FIELDS[:-1], generator.choice((1, 1, 2, 3, 8, 27)))
        changed = with_values(base, **{name: generator.choice(about_its_ends(name, base, generator)) for name in names})
        if generator.random() < 0.1:
            changed = with_values(base, **{name: generator.getrandbits(16) for name in FIELDS})
        yield from source.restart(generator.choice((with_right_sum(changed), source.with_wrong_sum(changed))))
        if generator.random() < 0.05:
            yield from source.restart(bytes(generator.getrandbits(8) for _ in range(IMAGE_BYTES)), 1)


# Each with its number of lists
KINDS = ((bytes_changed, 8), (fields_changed, 6), (small_fields, 8), (pairs_changed, 8), (several_pairs, 8), (setpoints_changed, 8),
         (sums_changed, 8),
         (heads_changed, 6), (lengths_changed, 3), (any_image, 16))


def call_list(generator, kind, number):
    """One list; S2.5 and S2.2 stand each way in turn."""
    SW = switch_word(generator) & ~(POWER_FAIL | INVERSION)
    SW |= (POWER_FAIL if number // 2 % 2 else 0) | (INVERSION if number // 2 % 4 in (1, 2) else 0)
    source = ImageSource(generator, number)
    calls = source.following(itertools.chain([("fresh", SW)], kind(source)))
    return list(entries(source, calls))


def no_image(generator):
    """Every text that isn't bytes, in every place; then a save shows that nothing has changed."""
    image, other = (ImageSource(generator).drawn() for _ in range(2))
    yield from (Entry(line_of(call), "call", call[0]) for call in (("fresh", generator.getrandbits(16)), ("restart", other)))
    for wrong in NO_BYTES:
        texts = with_wrong_text(text_of(image), wrong, 2 * generator.randrange(IMAGE_BYTES))
        yield from (Entry(f"restart {text}", "no bytes", "restart") for text in texts)
        yield Entry("save 137", "call", "save")


def all_lists(generator):
    """Pairs of a list's kind and the list."""
    lists = [(kind.__name__, call_list(generator, kind, number)) for kind, count in KINDS for number in range(count)]
    return [*lists, ("no_image", list(no_image(generator)))]
