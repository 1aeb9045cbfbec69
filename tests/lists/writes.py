"""Call lists with writes and reads, drawn from a seed: every parameter at its ends, every pair, every refusal, every
effect of a write, every MD word.

The lists are in the form of tests/lists/entries.py.
"""

import random

from tests.lists import scans as scan_lists
from tests.lists.entries import POWER_FAIL, RATIO, entries, switch_word
from tests.lists.parameters import draw_parameters, near_or_far, writes_of
from tests.lists.scan_source import HELD, MODES_ASKED
from tests.lists.write_source import INT32_ENDS, WRITABLE, Writer
from tests.model.formulas import limit
from tests.model.state import Stored
from tests.model.table import NUMBER, PAIRS, READ_ONLY, partner_of, range_of

SETPOINT_TRACKS = 0x0400  # S2.6
MD_WORDS = random.Random(6360).sample(range(65536), 65536)
MD_LISTS = 48


# Kinds of list: the calls that follow a fresh start and the writes of drawn parameters ---------

def range_ends(writer):
    """Every parameter at and about the ends of its range; another mode now and then."""
    for name in writer.generator.sample(WRITABLE, len(WRITABLE)):
        yield writer.enter(writer.generator.choice(MODES_ASKED))
        for place in writer.generator.sample(range(13), 13):
            yield from writer.write(name, writer.values(name)[place])


def pairs(writer):
    """Both ends of every pair about the stored partner, in order, equal and out of order; the partner moved too."""
    generator = writer.generator
    for pair in generator.sample(PAIRS * 2, 2 * len(PAIRS)):
        yield from writer.new_parameters()
        for name in generator.choice((pair, pair[::-1])):
            for distance in generator.sample(range(-2, 3), 5):
                yield from writer.write(name, getattr(writer.controller.parameters, partner_of(name)) + distance)
                yield "read", NUMBER[partner_of(name)]


def limits_moved(writer):
    """SL about LS and HS, RS about LR and HR, and these limits about SL and RS, in every mode; then a scan shows SP.

    The open cause stands in every fourth list.
    """
    generator, is_open = writer.generator, writer.number % 4 == 3
    if is_open:
        yield from writer.opened("Fall-back")
    for _ in range(12):
        asked, held = generator.choice(MODES_ASKED), generator.choice(HELD)
        yield writer.enter(asked, is_open)
        for high, low, limited in (("HS", "LS", "SL"), ("HR", "LR", "RS")):
            least, greatest, inside = writer.ends(limited)
            yield from writer.write(limited, generator.choice((least - 1, least, inside, greatest, greatest + 1)))
            for name in generator.choice(((high, low), (low, high))):
                about = getattr(writer.controller.parameters, limited) + generator.choice((-1, 0, 1, generator.randint(-500, 500)))
                yield from writer.write(name, generator.choice((about, about, writer.value(name))))
        yield writer.stay(asked, held, is_open)
        yield from writer.reads("SP", "SL", "RS")
        if generator.random() < 0.3:
            yield from writer.new_parameters()


def output_limits(writer):
    """HO and LO about the output in every mode, the output first set by Track, then often with a fraction.

    The open cause in every fourth list.
    """
    generator, is_open = writer.generator, writer.number % 4 == 3
    if is_open:
        yield from writer.opened("Auto")
    yield from (("write", NUMBER[name], value) for name, value in (("XP", generator.randint(500, 9999)), ("TI", generator.randint(1, 99))))
    for asked in generator.sample(MODES_ASKED * 3, 3 * len(MODES_ASKED)):
        yield from (("write", NUMBER[name], value) for name, value in (("LO", 0), ("HO", 9999)))
        yield writer.enter("Track", is_open)
        yield from (writer.enter(asked, is_open, generator.choice((0, 0x40, 0x80))) for _ in range(generator.choice((1, 1, 3))))
        for name in generator.choice((("HO", "LO"), ("LO", "HO"), ("HO", "HO"), ("LO", "LO"))):
            OP = Stored.whole_units(writer.controller.output)
            yield from writer.write(name, limit(-1, 10000, OP + generator.choice((-1, 0, 1, 1, generator.randint(-3000, 3000)))))
        yield from (writer.stay(asked, 0, is_open) for _ in range(generator.choice((1, 1, 4))))
        yield from writer.reads("OP")


def setpoint_by_mode(writer):
    """SL and RS written in every mode, S2.6 ON in every second list, the open cause standing in every fourth."""
    generator, is_open = writer.generator, writer.number % 4 > 1
    if is_open:
        yield from writer.opened("Manual")
    for asked in generator.sample(MODES_ASKED * 4, 4 * len(MODES_ASKED)):
        yield writer.enter(asked, is_open)
        for name in ("SL", "SL", "RS"):
            yield from writer.write(name, writer.value(name))
        yield writer.stay(asked, generator.choice(HELD), is_open)
        yield from writer.reads("SL", "SP")


def words_of_MD(writer):
    """A share of all 65,536 words, each followed by reads of MD and DS: in every mode, with and without the open cause,
    Remote pin 0 and 1.
    """
    asked, is_open = MODES_ASKED[writer.number % 6], writer.number // 6 % 2 == 1
    if is_open:
        yield from writer.opened(asked)
    for place, word in enumerate(MD_WORDS[writer.number::MD_LISTS]):
        if place % 20 == 15:  # a request that waits in Hold or Track shows
            yield writer.scan(writer.pins(writer.generator.choice(("Remote", "Fall-back"))), 0, is_open)
        elif place % 5 == 0:
            yield writer.enter(asked, is_open)
        yield "write", NUMBER["MD"], word
        yield from (("read", NUMBER["MD"]), ("read", NUMBER["DS"]))


def words_of_DS(writer):
    """User bits alone and together, all other bits beside them, in every mode.

    MD words beyond 16 bits too, in every third list with the open cause.
    """
    generator, is_open = writer.generator, writer.number % 3 == 2
    if is_open:
        yield from writer.opened("Auto")
    special = (0, 0x40, 0x80, 0xC0, 0xFFFF, 0xFF3F, 0xFFBF, 0xFF7F, 0x20, 0x100, 65535, 65536, 65536 + 0xC0, -1, -64, *INT32_ENDS)
    for word in generator.sample((*special, *(generator.getrandbits(16) for _ in range(60))), len(special) + 60):
        if generator.random() < 0.2:
            yield writer.enter(generator.choice(MODES_ASKED), is_open)
        yield from writer.write("DS", word)
        if generator.random() < 0.4:
            yield from writer.write("MD", (word & 0xFFFF) + generator.choice((-65536, 65536, 1 << 20)))


def read_only(writer):
    """Numbers 26 to 32, and those outside 1..32, written with values of all kinds."""
    generator = writer.generator
    for _ in range(60):
        if generator.random() < 0.3:
            yield writer.enter(generator.choice(MODES_ASKED))
        number = generator.choice((generator.choice(READ_ONLY), writer.outside()))
        yield "write", number, generator.choice((0, 1, -1, 0x2000, 50, 65536, 0x3608, *INT32_ENDS, generator.randint(-9999, 9999),
                                                 generator.getrandbits(16)))
        yield "read", number
        yield from writer.reads("SP", "PV")


def open_writes(writer):
    """Open runs with writes, accepted and refused, before the 84th, 85th and 86th open scan.

    MD most often before the 85th.
    """
    generator = writer.generator
    asked = MODES_ASKED[writer.number % 6]
    yield writer.enter("Track")
    yield writer.enter(asked, held=0)
    for place in range(1, generator.randint(86, 89)):
        share = {84: 0.4, 85: 0.9, 86: 0.6}.get(place, 0.03)
        while generator.random() < share:
            name = generator.choice(("MD", "MD", generator.choice(WRITABLE)))
            yield from writer.write(name, generator.choice((0x1000, 0x1000, 0x1010, 0x2000, 0x2010, 0x0800, 0x1800)) if name == "MD"
                                    else writer.value(name))
            share /= 2
        yield writer.scan(writer.pins(asked) if generator.random() < 0.97 else generator.getrandbits(8), generator.choice((0, 0x40, 0x80)),
                          True)
    yield from writer.reads("MD", "OP")
    yield from writer.stretch(generator.choice(MODES_ASKED), 3)


def between_automatic_scans(writer):
    """Ranges, IC, XP, TI, TD, limits, SL, RS and RB written between automatic scans.

    What is remembered isn't scaled anew.
    """
    generator = writer.generator
    names = ("channel_1H", "channel_1L", "channel_2H", "channel_2L", "channel_3H", "channel_3L", "IC", "XP", "TI", "TD", "SL", "RS", "RB",
             "HS", "LS", "HR", "LR", "HA", "LA", "HD", "LD")
    for _ in range(10):
        yield writer.enter("Track", held=0)
        asked = generator.choice(("Auto", "Remote", "Remote", "Fall-back"))
        yield writer.enter(asked, held=0)
        for _ in range(generator.randint(4, 14)):
            name = generator.choice(names)
            least, greatest = range_of(writer.controller.parameters, NUMBER[name])
            yield from writer.write(name, near_or_far(generator, least, greatest))
            yield from (writer.stay(asked, generator.choice(HELD)) for _ in range(generator.choice((1, 1, 2))))
            yield from writer.reads("PV", "SP", "ER")


def power_and_trim(writer):
    """MD bit 4 and the user bits written before scans in every mode; MP, SP, MD and DS read before and behind."""
    generator = writer.generator
    for name, value in (("channel_3L", -generator.randint(0, 900)), ("channel_3H", generator.randint(1, 900))):
        yield "write", NUMBER[name], value
    for _ in range(30):
        asked = generator.choice(MODES_ASKED)
        yield writer.enter(asked)
        for name, words in (("MD", (0x2010, 0x1010, 0x0810, 0x2000, 0x1000, 0x0800)), ("DS", (0, 0x40, 0x80, 0xC0))):
            yield from writer.write(name, generator.choice(words) | generator.choice((0, 0x0100, 0x0020)))
        yield from (("read", NUMBER[name]) for name in ("MP", "SP"))
        yield writer.scan(writer.pins(asked), generator.choice((0, 0, *HELD)), generator.random() < 0.1)
        yield from writer.reads("MP", "SP", "MD", "DS")


def mixed(writer):
    """Scans, writes and reads without any order."""
    generator = writer.generator
    for _ in range(150):
        for _ in range(generator.choice((0, 1, 1, 2, 3))):
            yield from generator.choice((lambda: [next(scan_lists.anything(writer))], lambda: [writer.enter(generator.choice(MODES_ASKED))],
                                         writer.reads))()
        name = generator.choice(WRITABLE)
        yield from writer.write(name, writer.value(name))


# Each with its number of lists
KINDS = ((range_ends, 16), (pairs, 16), (limits_moved, 40), (output_limits, 36), (setpoint_by_mode, 24), (words_of_MD, MD_LISTS),
         (words_of_DS, 12),
         (read_only, 16), (open_writes, 96), (between_automatic_scans, 30), (power_and_trim, 24), (mixed, 40))


def call_list(generator, kind, number):
    """One list: a fresh start, in most cases writes of drawn parameters, and the kind's calls.

    S2.1, S2.5 and S2.6 each way where they matter.
    """
    SW = switch_word(generator)
    if kind is words_of_MD:
        SW = SW & ~RATIO | (RATIO if number // 12 % 2 else 0)
    if kind is setpoint_by_mode:
        SW = SW & ~SETPOINT_TRACKS | (SETPOINT_TRACKS if number & 1 else 0)
    if kind is open_writes:
        SW = SW & ~POWER_FAIL | (POWER_FAIL if number % 4 else 0)
    writer = Writer(generator, number)
    drawn = [] if generator.random() < 0.2 else writes_of(draw_parameters(generator), "M", generator.getrandbits(2),
                                                          generator.random() < 0.3, number)
    calls = writer.following(call for part in ([("fresh", SW)], drawn, kind(writer)) for call in part)
    return list(entries(writer, calls))


def all_lists(generator):
    """Pairs of a list's kind and the list."""
    return [(kind.__name__, call_list(generator, kind, number)) for kind, count in KINDS for number in range(count)]
