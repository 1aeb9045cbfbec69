"""Calls of the model, written down as statements about the rules, which the checker proves.

Usage: python3 -B -m tests.statements.calls [--write]

The rules and the claims about them were written by the same people; a misreading of the documents that stands in both
is contradicted by a model made apart.  The calls are a dozen, chosen among drawn ones by misreadings of the documents
that no figure shows: each shows some that none of the others does.  crates/worked/specs/ModelCalls.antt states of each
that the rules give the model's whole next state, answer and bytes.  Without --write the test fails if that file isn't
what the model gives.  The last line printed is 'N passed, M failed', one count for each statement.
"""

import itertools
import random
import sys

from tests import ROOT
from tests.gate import tally
from tests.lists import parameters as parameter_lists
from tests.lists.host_clock import HostClock
from tests.lists.image_source import WIDE, ImageSource, values_in, with_values
from tests.lists.writers import ENGINEER, by, by_the_engineer
from tests.model import loop
from tests.model.state import OPEN_CAUSE, Stored
from tests.model.table import NAMES, NUMBER, partner_of, range_of
from tests.model.words import S2_2, S2_5
from tests.statements.text import HEAD, statement

FILE = ROOT / "crates/worked/specs/ModelCalls.antt"
SEED = 6360
# The calls, each by its kind and its number among those drawn: what it is, and after the colon misreadings that it
# alone shows
KEPT = {
    "scan": {
        3520: "Ratio after a gap: earlier PV and SP forgotten after the terms, or PV alone; RS + trim not limited; SP not limited",
        8792: "85th open scan after Remote, S2.5 ON: minimum told by the mode of this scan, Forced, in place of the one just before",
        9848: "Fall-back, S1.1 OFF: c1 with the previous SP; the sum of the terms rounded, not each; the request Auto for good",
        16408: "Track, S2.6 and S2.2 ON: the trim counted; the output limited, or inverted; SL becomes PV without limits",
        19212: "Hold, open, S2.6 ON: the output limited; SP kept, or without trim; SL becomes 1L, or is moved by hand",
        19908: "the memory fault, A pressed, S2.6 ON: A leaves Forced Manual; the request stays; SL becomes PV less the trim",
        22484: "Remote, S1.1 OFF: c1 with the present SP; channel 2 by 2L, 2H; the output limited after each term",
    },
    "write": {1509: "LS in Ratio: SL limited by the next scan only, or not in this mode; SP limited at once"},
    "write under the fault": {10: "MD bit 12 with bit 8 zero: 11, since a cause stood before; the fault cleared and the request Auto"},
    "restart": {
        0: "S2.5 ON, the fault standing before: the image's request kept; the fault kept; MD bit 4 zero; OP below LO illegal",
        1: "a wrong sumcheck: HO and LO kept; SL and RS by default, not limited; a pair judged before the ranges",
    },
    "save": {0: "in Hold under the open cause: 43h 1 for this cause; SP in place of SL; bytes past the 137 zeroed"},
}

AFTER_A_GAP = (3520, 8792, 19212)  # scans that are stated 43 ms after the one before, not as they were drawn


# The calls drawn, as the state before and the call ------------------------------------

def scans():
    """Scans of the lists with drawn parameters, some once more with the memory fault standing before them.

    Refused scans aren't among them.
    """
    generator, clock, number = random.Random(SEED), HostClock(random.Random(SEED)), itertools.count()
    for calls in parameter_lists.all_calls(generator):
        controller = None  # each list begins with a fresh start
        for call in by_the_engineer(clock.timed(calls)):
            after, answer = loop.make(controller, call, Stored)
            if call[0] == "scan":
                befores = (controller, controller._replace(memory_fault=True)) if generator.random() < 0.01 else (controller,)
                drawn = ((before, call) for before in befores if answer[0] == "scan")
                yield from (after_a_gap(*each) if next(number) in AFTER_A_GAP else each for each in drawn)
            controller = after


def after_a_gap(before, call):
    """The scan, one millisecond later after the one before it than is ordinary."""
    return before, (*call[:-1], before.clock + 43)


def drawn_state(generator):
    """A controller with drawn parameters, pins, request, open count and output, as scans and writes may leave it.

    A cause leaves the request Manual.
    """
    parameters, opens = parameter_lists.draw_parameters(generator), generator.choice((0, 0, 0, 84, OPEN_CAUSE))
    pv, sp = generator.randint(-9999, 9999), generator.randint(-9999, 9999)
    return loop.fresh(generator.getrandbits(16), Stored)._replace(
        parameters=parameters, request="M" if opens == OPEN_CAUSE else generator.choice("MAR"), user_bits=generator.getrandbits(2),
        measured_power=generator.random() < 0.5, open_count=opens, pins=generator.choice((0x00, 0x20, 0x80, 0xA0, 0xA5, 0xC0, 0xE0)),
        buttons=generator.getrandbits(8) & 0xCF, output=generator.randint(0, 9999 * 65536), PV=pv, SP=sp, ER=pv - sp,
        MP=generator.randint(-9999, 9999), battery_low=generator.random() < 0.5, low_alarm=generator.random() < 0.5,
        high_alarm=generator.random() < 0.5, previous_PV=pv, previous_SP=sp, PV_before_previous=generator.choice((None, sp)),
        clock=36 * (10_000 + pv))


def drawn_writes():
    """The engineer's writes of every number in drawn states, with values about the ends of what is acceptable, without
    end.
    """
    generator = random.Random(SEED)
    while True:
        before, number = drawn_state(generator), generator.randint(0, 34)
        if not 1 <= number < NUMBER["SW"]:
            yield before, ("write", ENGINEER, number, generator.randint(-9999, 9999))
            continue
        partner = partner_of(NAMES[number - 1])
        about = [*range_of(before.parameters, number), *([getattr(before.parameters, partner)] if partner else [])]
        bits = generator.choice((0x2000, 0x1000, 0x0800)) | generator.getrandbits(16) & 0xC7FF
        value = generator.choice([generator.choice(about) + generator.randint(-1, 1),
                                  bits if number == NUMBER["MD"] else generator.randint(0, 9999)])
        yield before, ("write", ENGINEER, number, value)


def writes_under_the_fault():
    """MD with each bit of the request, and bit 8, and all other bits; with and without an open cause."""
    others = ((0, OPEN_CAUSE), (0xC6FF, 0))
    for bits, fault, (other, opens), pins in itertools.product((0x2000, 0x1000, 0x0800), (0, 0x0100), others, (0x80, 0xA0)):
        before = loop.fresh(0, Stored)._replace(memory_fault=True, open_count=opens, pins=pins)
        yield before, by(ENGINEER, ("write", NUMBER["MD"], bits | fault | other))


def restarts():
    """Of drawn states, by images with wide pairs, middling values and those given; S2.2 is ON, S2.5 as given.

    The memory fault stands before the first.  In the second 2L is above 2H only when 2H has taken its default.
    """
    generator = random.Random(SEED)
    source = ImageSource(generator)
    usual = {**WIDE, "HS": 700, "HO": 6000, "LO": 3000}
    powered = {"LA": -5000, "LS": -500, "SL": 0, "RS": 50, "OP": 2999, "request": 2, "fault": 0, "user_bits": 5}
    broken = {"channel_1H": 300, "channel_1L": 301, "channel_2H": 10000, "channel_2L": 1500, "channel_3H": -10000, "channel_3L": -5,
              "HR": 300, "LR": 301, "LS": -10000, "HA": 400, "LA": 400, "HD": -1, "XP": 0, "TI": 10000, "IC": 2,
              "SL": 701, "RS": 0, "OP": 4000, "request": 1, "fault": 0, "user_bits": 13}
    for switches, fault, values, wrong in ((S2_5 | S2_2, True, powered, 0), (S2_2, False, broken, 256)):
        state, image = drawn_state(generator), source.drawn(**{**usual, **values})
        yield (state._replace(SW=state.SW & ~S2_5 | switches, memory_fault=fault, request="M", pins=0xB5, open_count=84),
               ("restart", with_values(image, sumcheck=values_in(image)["sumcheck"] + wrong)))


def saves():
    """Into 140 bytes, in Hold under the open cause, with S2.2 ON."""
    state = drawn_state(random.Random(SEED))
    yield state._replace(SW=state.SW | S2_2, pins=0, request="M", open_count=OPEN_CAUSE, user_bits=2, measured_power=True), ("save", 140)


# The statements ---------------------------------------------------------------------

def statements():
    """Each statement that is kept, with what it shows."""
    drawn = {"scan": scans, "write": drawn_writes, "write under the fault": writes_under_the_fault, "restart": restarts, "save": saves}
    for kind, kept in KEPT.items():
        for number, call in enumerate(itertools.islice(drawn[kind](), max(kept) + 1)):
            if number in kept:
                yield f"{kind}: {kept[number]}", statement(*call)


def main():
    texts = [f"-- {words}\n    {'∷ ' if place else ''}{text}" for place, (words, text) in enumerate(statements())]
    body = "\n    ".join([*texts, "∷ []"])
    wanted = f"{HEAD}\nunfoldable pub model_calls : List (Type 0)\nmodel_calls =\n    {body}\n"
    if "--write" in sys.argv:
        FILE.write_text(wanted, encoding="utf-8")
    same = "".join(FILE.read_text(encoding="utf-8").split()) == "".join(wanted.split())  # the kit lays lines out anew
    print(f"{len(texts)} calls")
    return tally.close(len(texts) if same else 0, 0 if same else len(texts))


if __name__ == "__main__":
    sys.exit(main())
