"""Call lists for document 02, request 7, "No jump when Remote drops out", drawn from a seed: a Remote scan and a
Fall-back scan straight after it, with SP less the trim within LS..HS, at their ends and beyond; drop-outs to other
modes and from Ratio; writes between, calls between that change nothing, and images of Remote that are restarted.

SP and SL are read behind each scan.  The lists are in the form of tests/lists/entries.py.
"""

import itertools

from tests.lists.drop_out_source import (IN_AUTO, IN_REMOTE, MEASURED_POWER, READS, Station, drawn_ranges,
                                         ratio_ranges)
from tests.lists.entries import POWER_FAIL, RATIO, completed, entries, switch_word
from tests.lists.scan_source import SP, R
from tests.lists.writers import ENGINEER
from tests.model.formulas import limit
from tests.model.images import IMAGE_BYTES
from tests.model.rights import WRITERS
from tests.model.table import NUMBER

LISTS, STRETCHES, A_STRETCH = 96, 11, 20  # so many lists; in each so many stretches with ranges of their own, of so many pairs
OTHER_LISTS = {"to_other_modes": 24, "written_between": 30, "asked_between": 20, "restarted": 16, "from_ratio": 24}
MODES_INSTEAD = ("Auto", "Manual", "Hold", "Track")
WRITTEN = ("SL", "SL", "MD bit 4", "MD bit 4", "MD bit 4", "LS", "LS", "HS", "HS", "channel_3H", "channel_3L", "DS")


# Kinds of list: the calls that follow a fresh start ---------------------------------

def straight(station):
    """Pairs one after another: a few with nothing at all between, some with more Fall-back or Remote scans around."""
    for _ in range(STRETCHES):
        for _ in range(A_STRETCH):
            yield from station.pair()
            if station.generator.random() < 0.06:
                yield from station.stay_on(4)
            if station.generator.random() < 0.06:
                yield from station.pair(are_read=False)
            if station.generator.random() < 0.06:
                yield station.remote()
        yield from station.ranged()


def to_other_modes(station):
    """Remote drops out to Auto, Manual, Hold or Track, and in some cases to Fall-back only then."""
    for asked in station.generator.sample(MODES_INSTEAD * 12, 48):
        yield station.remote(station.generator.random() < 0.1)
        yield from READS
        yield station.instead(asked)
        yield from READS
        if station.generator.random() < 0.3:
            yield from station.stay_on(2)
        if station.generator.random() < 0.15:
            yield from station.ranged()


def written_between(station):
    """An accepted write between the Remote scan and the Fall-back scan."""
    generator = station.generator
    for name in generator.sample(WRITTEN * 4, 4 * len(WRITTEN)):
        yield station.remote()
        yield from READS
        yield from written(station, name)
        yield from READS if generator.random() < 0.3 else ()
        yield station.fall_back(pressed=generator.choice((0, 0, SP, R)))
        yield from READS
        yield from station.ranged(0.4)


def written(station, name):
    """One write; SL can't be written in Remote, so Auto is requested first."""
    generator, parameters = station.generator, station.parameters
    power = MEASURED_POWER * station.measured_power
    if name == "SL":
        yield "write", NUMBER["MD"], IN_AUTO | power
        yield "write", NUMBER["SL"], generator.randint(parameters.LS, parameters.HS)
        station.is_requested = False
    elif name == "MD bit 4":
        station.measured_power = not station.measured_power
        yield "write", NUMBER["MD"], IN_REMOTE | power ^ MEASURED_POWER
    elif name == "DS":
        yield "write", NUMBER["DS"], generator.getrandbits(8)
    else:
        value = moved(generator, parameters, name)
        yield "write", NUMBER[name], value
        station.parameters = parameters._replace(**{name: value})


def moved(generator, parameters, name):
    """Another end of a range, about where it was, and in order; of LS and HS often one between the two."""
    least, greatest = {"HS": (parameters.LS, 9999), "LS": (-9999, parameters.HS), "channel_3H": (parameters.channel_3L + 1, 9999),
                       "channel_3L": (-9999, parameters.channel_3H - 1)}[name]
    far, was = generator.randint(2, 300), getattr(parameters, name)
    between = generator.randint(parameters.LS, parameters.HS) if name in ("HS", "LS") else was - far
    return limit(least, greatest, generator.choice((was - 1, was + 1, was + far, between, between)))


def asked_between(station):
    """Calls between that change nothing: questions, and calls that are refused."""
    generator = station.generator
    for _ in range(40):
        yield station.remote()
        yield from generator.choice((READS, READS, ()))
        for _ in range(generator.choice((1, 1, 2, 4))):
            yield from idle(station)
        yield station.fall_back()
        yield from READS
        if generator.random() < 0.1:
            yield from station.ranged()


def idle(station):
    """One such call; a refused scan may have any pins, samples and readings."""
    generator, parameters = station.generator, station.parameters
    writer = generator.choice(WRITERS)
    yield generator.choice((
        ("write", NUMBER["SL"], parameters.LS), ("write", "computer", NUMBER["SL"], parameters.HS),
        ("write", ENGINEER, NUMBER["channel_3H"], parameters.channel_3L),
        ("write", ENGINEER, NUMBER["HS"], 10000), ("write", "operator", NUMBER["LS"], parameters.HS), ("write", ENGINEER, NUMBER["SP"], 5),
        ("write", NUMBER["MD"], 0x3000), ("save", IMAGE_BYTES), ("save", IMAGE_BYTES - 1), ("read", NUMBER["SL"]), ("read", 33), ("clock",),
        ("restart", b""), ("restart", station.image()[:-1]), ("access", writer, generator.randint(0, 33)),
        ("line", writer, b"SP", 12), ("line", writer, b"SL", 9), ("line", writer, b"sl>5", 12), ("line", ENGINEER, b"HS>10000", 12),
        station.refused_scan(), station.refused_scan(), early(station)))


def early(station):
    """A scan in Fall-back that comes too early: 16."""
    return (*station.scan(station.pins("Fall-back"), R, False), max(0, station.clock.last - station.generator.choice((0, 1, 500))))


def restarted(station):
    """An image saved behind a Remote scan and restarted, at once or behind more scans: SL is in it; SP becomes SL."""
    generator = station.generator
    for _ in range(30):
        yield station.remote(generator.random() < 0.1)
        yield from READS
        yield "save", IMAGE_BYTES
        image, third = station.image(), station.third
        if generator.random() < 0.4:
            yield station.instead(generator.choice(MODES_INSTEAD))
            yield station.remote()
        yield "restart", image
        yield from READS
        station.third, station.is_requested = third, not station.controller.SW & POWER_FAIL  # which makes the request Manual
        yield station.fall_back(pressed=generator.choice((0, 0, SP)))
        yield from READS
        if generator.random() < 0.3:
            yield from station.ranged()


def from_ratio(station):
    """Ratio with a trim drops out to every other mode, most often to Fall-back, where S2.1 leaves no trim."""
    generator = station.generator
    for asked in generator.sample(MODES_INSTEAD * 5 + ("Fall-back",) * 40, 60):
        if asked == "Fall-back":
            yield from station.pair(generator.random() < 0.9)
        else:
            yield from (station.remote(generator.random() < 0.1), *READS, station.instead(asked), *READS)
        if generator.random() < 0.1:
            yield from station.ranged()


def call_list(generator, kind, number):
    """One list; S2.1 is ON where Ratio drops out."""
    is_ratio = kind is from_ratio
    SW = switch_word(generator) & ~RATIO | (RATIO if is_ratio else 0)
    station = Station(generator, number, ratio_ranges if is_ratio else drawn_ranges)
    calls = itertools.chain([("fresh", SW)], station.beginning(), kind(station))
    return list(entries(station, completed(station, calls) if kind is straight else station.following(calls)))


def all_lists(generator):
    """Pairs of a list's kind and the list."""
    others = {each.__name__: each for each in (to_other_modes, written_between, asked_between, restarted, from_ratio)}
    return [*(("drop-outs", call_list(generator, straight, number)) for number in range(LISTS)),
            *((f"drop-outs, {name}", call_list(generator, others[name], number)) for name, count in OTHER_LISTS.items()
              for number in range(count))]
