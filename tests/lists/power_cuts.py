"""Power cuts while an image is saved over an older one: the newer bytes stand before the cut, the older ones behind it,
for a cut at every byte.

A restart from such a mixture is refused, or brings the memory fault, or gives what the older or the newer image gives,
unless the values before the cut have moved by amounts that add up to a multiple of 65,536: then the sumcheck, which is
all that document 01 has against it, is right.  Such cases are counted.  The lists are in the form of
tests/lists/entries.py.  In them the older and the newer image are those saved into 137 bytes, in turn.
"""

from tests.lists.entries import entries, switch_word
from tests.lists.image_source import values_in, with_right_sum, with_values
from tests.lists.restarts import RestartSource
from tests.lists.scan_source import HELD, MODES_ASKED, SP, A, M
from tests.model.images import IMAGE_BYTES
from tests.model.table import NUMBER

MORE_BYTES = 300  # of the buffer for saves that are neither the older nor the newer image
# Of the cases that aren't drawn, see exact_example: one mixture that the sum doesn't see
OLDER, NEWER = {"SL": 500, "RS": 100}, {"SL": 510, "RS": 90}


def mixture(older, newer, cut):
    """The newer image up to the cut, the older behind it."""
    return newer[:cut] + older[cut:]


# What happens between the two saves -------------------------------------------

def scans(source):
    """Scans in one mode, or in several."""
    for _ in range(source.generator.choice((1, 1, 3))):
        yield from source.stretch(source.generator.choice(MODES_ASKED), source.generator.randint(1, 12))


def one_write(source):
    yield from source.writes()


def many_writes(source):
    yield from source.new_parameters()
    yield from source.write("DS", source.generator.choice((0, 0x40, 0x80, 0xC0)))
    yield from scans(source)


def by_hand(source):
    """The setpoint moved by its buttons, and the request: small amounts of either sign."""
    generator = source.generator
    for _ in range(generator.randint(1, 6)):
        yield source.scan(0x80, SP | generator.choice((0x40, 0x80)) | generator.choice((0, M, A)), False)
    yield from source.write("DS", generator.choice((0, 0x40, 0x80, 0xC0)))


def amounts_that_add_up_to_nothing(source):
    """SL and RS moved by the same amount, one up and one down, and what stands behind them changed too."""
    generator, parameters = source.generator, source.controller.parameters
    amount = min(generator.randint(1, 300), parameters.HS - parameters.SL, parameters.RS - parameters.LR)
    yield from (("write", NUMBER[name], value) for name, value in (("SL", parameters.SL + amount), ("RS", parameters.RS - amount)))
    yield from source.write("DS", 0x40 if generator.random() < 0.5 else 0x80)
    yield source.scan(0x80, generator.choice((0x40, *HELD)), False)


def limit_below_the_setpoint(source):
    """HS moved down and XP up by the same amount: before SL, which follows HS, is written down, SL is out of the
    image's own limits.
    """
    generator, parameters = source.generator, source.controller.parameters
    amount = min(generator.randint(1, 300), parameters.HS - parameters.LS, 9999 - parameters.XP)
    yield from (("write", NUMBER[name], value) for name, value in (("HS", parameters.HS - amount), ("XP", parameters.XP + amount)))


BETWEEN = (scans, one_write, many_writes, by_hand, amounts_that_add_up_to_nothing, limit_below_the_setpoint)


# The lists ----------------------------------------------------------------------

def cuts(source, between):
    """Both images, each restarted from, then every mixture of the two; each is followed by a save and a read of MD."""
    yield "save", IMAGE_BYTES
    older = source.image()
    yield from between
    if source.image() == older:
        yield "write", NUMBER["DS"], (source.controller.user_bits ^ 1) << 6
    yield "save", IMAGE_BYTES
    newer = source.image()
    for each in (older, newer, *(mixture(older, newer, cut) for cut in range(IMAGE_BYTES + 1))):
        yield from (("restart", each), ("save", MORE_BYTES), ("read", NUMBER["MD"]))


def drawn_cuts(source):
    """A drawn state, and one way of coming from the older image to the newer.

    S2.6, which would move SL or keep it from being written, is OFF in some.
    """
    between = BETWEEN[source.number % len(BETWEEN)]
    yield "fresh", switch_word(source.generator) & ~(0x0400 if between in BETWEEN[3:] else 0)
    image = with_values(source.drawn(), fault=int(source.number % 7 == 6), request=0)
    yield "restart", with_right_sum(with_values(image, SL=values_in(image)["HS" if between is limit_below_the_setpoint else "SL"]))
    yield from cuts(source, between(source))


def exact_example(source):
    """SL goes up by 10 and RS down by 10, then the output goes up: cut behind RS, the image is sound, and neither the
    older nor the newer.
    """
    yield "fresh", 0
    yield from (("write", NUMBER[name], value) for name, value in OLDER.items())
    changes = [("write", NUMBER[name], value) for name, value in NEWER.items()]
    yield from cuts(source, [*changes, ("scan", 0x80, 0, 0, 0, 0x40, 0)])


KINDS = ((drawn_cuts, 96), (exact_example, 1))


def call_list(generator, kind, number):
    source = RestartSource(generator, number)
    return list(entries(source, source.following(kind(source))))


def all_lists(generator):
    """Pairs of a list's kind and the list."""
    return [(kind.__name__, call_list(generator, kind, number)) for kind, count in KINDS for number in range(count)]
