"""Call lists for controllers with other parameters than the defaults, drawn from a seed and written right after a fresh
start.

With such parameters the terms are really rounded, and the claim's bound has something to bound.
"""

import itertools
import random

from tests.lists import scans as scan_lists
from tests.lists.entries import POWER_FAIL, completed, entries, switch_word
from tests.lists.scan_source import HELD, MODES_ASKED, Operator
from tests.model.formulas import limit
from tests.model.state import Parameters
from tests.model.table import NUMBER, assert_legal, in_an_accepted_order

ENOUGH_LISTS = 112


def near_or_far(generator, low, high):
    """A number of the range: anywhere, or with fewer digits."""
    number = generator.choice((generator.randint(low, high), generator.randint(-1, 1) * (1 << generator.randint(0, 13))))
    return limit(low, high, number)


def pair_of(generator, low, high, least_distance):
    """Two ends of a range in order, the higher first, as the table has them."""
    while True:
        ends = sorted((near_or_far(generator, low, high), near_or_far(generator, low, high)), reverse=True)
        if ends[0] - ends[1] >= least_distance:
            return ends


def draw_parameters(generator):
    """Parameters 1 to 23 within "ranges and pairs above": L < H for the channels, L <= H for the others.

    XP and the range of channel 1 are mostly great, TI and TD often small, so that most terms aren't limited.
    """
    draw = generator.randint
    channels = [*pair_of(generator, -9999, 9999, generator.choice((1, 500, 2000))), *pair_of(generator, -9999, 9999, 1),
                *generator.choice((pair_of(generator, -9999, 9999, 1), (draw(1, 40), draw(-40, 0))))]
    HR, LR = generator.choice((pair_of(generator, 1, 9999, 0), (9999, 1)))
    HS, LS = generator.choice((pair_of(generator, -9999, 9999, 0), (9999, -9999), (9999, -9999), (channels[0], channels[1])))
    HA, LA = generator.choice((pair_of(generator, -9999, 9999, 0), (channels[0] - 1, channels[1]), (channels[0], channels[1] + 1)))
    HO, LO = generator.choice((pair_of(generator, 0, 9999, 0), (9999, 0), (draw(6000, 9999), draw(0, 4000))))
    XP = generator.choice((near_or_far(generator, 1, 9999), draw(500, 9999), draw(500, 9999)))
    TI = generator.choice((0, near_or_far(generator, 0, 9999), draw(1, 100), draw(1, 9999)))
    TD = generator.choice((0, near_or_far(generator, 0, 9999), draw(1, 3), draw(1, 9)))
    return Parameters(*channels, HR, LR, HS, LS, HA, LA, near_or_far(generator, 0, 9999), near_or_far(generator, 0, 9999), HO, LO,
                      XP, TI, TD, generator.choice((LS, HS, draw(LS, HS))), generator.choice((LR, HR, draw(LR, HR))),
                      generator.choice((0, draw(-50, 50), near_or_far(generator, -9999, 9999))),
                      generator.choice((0, 0, 1)))


def writes_of(parameters, request, user_bits, measured_power, order=0):
    """Writes right after a fresh start, each accepted, that leave these parameters, request (M or A), user bits and MD
    bit 4.

    They come in an order drawn from the number given; SL is written in Auto, where S2.6 doesn't forbid it.
    """
    assert_legal(parameters)
    names = random.Random(order).sample(parameters._fields, len(parameters))
    yield "write", NUMBER["MD"], 0x1000
    for number, value in in_an_accepted_order(Parameters(), parameters._asdict(), names):
        yield "write", number, value
    yield "write", NUMBER["DS"], user_bits << 6
    yield "write", NUMBER["MD"], {"M": 0x2000, "A": 0x1000}[request] | measured_power << 4


def small_steps(operator):
    """Track to a middle output, then automatic scans with small changes: most terms are neither zero nor limited."""
    generator = operator.generator
    while True:
        samples = [generator.randint(2000, 8000) for _ in range(3)]
        step, asked = generator.choice((1, 3, 10, 40)), generator.choice(("Auto", "Remote", "Fall-back"))
        held = generator.choice(HELD)
        scans = [*[operator.enter("Track", held=0)] * 2, operator.enter(asked, held=0),
                 *[operator.scan(operator.pins(asked), held, 0)] * 25]
        for word, pins, _, _, _, buttons, sensors in scans:
            samples = [limit(0, 10000, sample + generator.randint(-step, step)) for sample in samples]
            yield (word, pins, *samples, buttons, sensors)


def quick_and_long(operator):
    while True:
        yield from operator.stretch(operator.generator.choice(MODES_ASKED), operator.generator.choice((1, 2, 3, 5, 30)))


def open_runs(operator):
    """Open runs one after the other, entered in turn from every mode."""
    while True:
        operator.number += 1
        yield from scan_lists.open_run(operator)


def with_refused_scans(operator, scans):
    for scan in scans:
        if operator.generator.random() < 0.02:
            yield operator.refused_scan()
        yield scan


def parameter_list(generator, number):
    """The calls: a fresh start, writes, then scans; S2.5 is ON in most open runs."""
    operator = Operator(generator, number)
    kind, length = ((small_steps, 170), (quick_and_long, 170), (small_steps, 170), (open_runs, 400))[number % 4]
    SW = switch_word(generator)
    if kind is open_runs and generator.random() < 0.6:
        SW |= POWER_FAIL
    scans = list(itertools.islice(with_refused_scans(operator, kind(operator)), length))
    writes = writes_of(draw_parameters(generator), "M", generator.getrandbits(2), generator.random() < 0.2, number)
    return [("fresh", SW), *writes, *scans]


def all_calls(generator):
    """The calls of each list."""
    return [parameter_list(generator, number) for number in range(ENOUGH_LISTS)]


def all_lists(generator):
    """Pairs of a list's kind and the list, in the form of tests/lists/entries.py."""
    lists = ((Operator(generator), calls) for calls in all_calls(generator))
    return [("drawn parameters", list(entries(operator, completed(operator, calls)))) for operator, calls in lists]
