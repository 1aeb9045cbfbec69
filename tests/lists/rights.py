"""Call lists for document 02, request 6, "Who may turn what", drawn from a seed: every writer with every number, by
writes, by lines and by questions for access, right behind all that brings, takes or leaves the Computer pin; refusals
that apply at once; the memory fault; what others may write, in every mode.  Behind what is refused, images, reads and
scans show that nothing changed.  The lists are in the form of tests/lists/entries.py.
"""

import itertools

from tests.lists.entries import POWER_FAIL, RATIO, Entry, entries, switch_word
from tests.lists.image_source import WIDE
from tests.lists.line_errors import NO_WRITERS
from tests.lists.line_parts import with_text
from tests.lists.restarts import MINUTES
from tests.lists.rights_source import EVENTS, OTHERS_MAY, WAYS, RightsSource, with_pin
from tests.lists.scan_source import HELD, MODES_ASKED
from tests.lists.writers import by
from tests.lists.writes import SETPOINT_TRACKS
from tests.model.formulas import scale
from tests.model.rights import WRITERS
from tests.model.table import NUMBER

INVERSE_OUTPUT = 0x1000  # S2.4
A_BURST, BURST_LISTS = 9, 40  # so many tries behind an event; all of them shared out among so many lists
# What several refusals apply to, by the state; some of it typed with a short buffer too, and what can't be typed
TRIED = (("SL", 501), ("SL", -501), ("SL", 7), ("RS", 0), ("RS", 50), ("RB", 10000), ("RB", 12), ("MD", 0), *[("MD", 0x0800)] * 3,
         ("MD", 0x1000), *[("MD", 0x1800)] * 2, ("MD", 0x1010), ("MD", 0x2000), ("DS", 0x40), ("DS", 0xC0), ("XP", 0), ("XP", 50),
         ("LA", 10000), ("LA", 201), ("LA", 150), ("HA", 99), ("channel_1L", 9999), ("channel_1L", 10000), ("channel_1L", 5), ("HS", 600),
         ("HO", 5000), ("TI", 3), ("PV", 99999), ("OP", 1), ("SW", 1), ("II", 0), ("MP", 0))
TYPED_SHORT = (("SL", 7), ("MD", 0x0800), ("MD", 0x1000))
WRITTEN_ONLY = ((NUMBER["MD"], 65536 + 0x1000), (NUMBER["MD"], -1), (NUMBER["DS"], 65536), (0, 5), (33, 5), (-20, 5), (276, 5))
NO_LINES = (b"", b"x", b"xp", b"xp>5", b"sl>5", b"QQ>1", b"QQ>x", b"XP>", b"XP>+5", b"XP 5", b"SL>+5", b"SL>5 ", b"MD>1", b"MD>10000",
            b"PV>x", b"SW>1", b"RB>", b"1L>-")
MD_WORDS = (0x2000, 0x1000, 0x0800, 0x2010, 0x1010, 0x2100, 0x1100, 0x0900, 0x2110, 0x3000)


# Kinds of list: the calls that follow a fresh start ---------------------------

def behind_events(source):
    """Its share of all tries, right behind their events: every way, writer and number behind every event."""
    yield source.tuned()
    for event, tries in source.bursts:
        yield from source.event(event)
        for way, writer, number in tries:
            yield from source.tried(source.trial(way, writer, number))
        yield from source.looks()
        if source.generator.random() < 0.05:
            yield source.tuned()


def between_calls(source):
    """The computer, and the others, right behind every other kind of call, the pin at 0 and at 1."""
    generator = source.generator
    yield source.tuned()
    for pin, writer in generator.sample([*itertools.product((0, 1), WRITERS)] * 12, 72):
        yield source.pinned(pin)
        for _ in range(4):
            yield generator.choice((
                ("write", "engineer", *generator.choice(((NUMBER["XP"], 77), (NUMBER["XP"], 0), (NUMBER["PV"], 1)))),
                ("read", generator.randint(1, 32)), ("read", generator.choice((0, 33, -1))), ("save", 137), ("save", 136), ("clock",),
                by("engineer", source.line(b"TD>3")), by("engineer", source.line(b"td>3")),
                by(generator.choice(WRITERS), source.line(b"XP")), ("access", generator.choice(WRITERS), generator.randint(0, 33))))
            number = generator.choice((17, 20, 21, 22, 24, 25, 30, generator.randint(1, 32)))
            yield from source.tried(source.trial(generator.choice([*WAYS]), writer, number), 0.3)


def every_pin_byte(source):
    """The computer with each of the 256 pin bytes: only one pin counts."""
    generator = source.generator
    for pins in generator.sample(range(256), 256):
        yield source.scan(pins, generator.choice(HELD), False)
        yield source.trial("access", "computer", NUMBER[generator.choice(OTHERS_MAY["computer"])])
        yield from source.tried(source.trial(generator.choice(("write", "line")), "computer", NUMBER[generator.choice(("RB", "RS", "DS"))]))


def together(source):
    """What several refusals apply to, by each writer with each pin, in several modes; the open cause in every second
    list.
    """
    generator, is_open = source.generator, source.number % 2 == 1
    yield "restart", source.drawn(**{**WIDE, "HS": 500, "LS": -500, "LA": 100, "HA": 200}, SL=0, IC=0, fault=0, request=0)
    if is_open:
        yield from source.opened("Manual")
    rounds = [*itertools.product(("Remote", "Remote", "Fall-back", "Hold"), (0, 0, 1), ("operator", "computer")),
              *itertools.product(("Remote", "Manual"), (0, 1), ("engineer",))]
    for asked, pin, writer in generator.sample(rounds, len(rounds)):
        yield source.pinned(pin, asked, is_open)
        for name, value in generator.sample(TRIED, len(TRIED)):
            length = generator.choice((12, 12, 9, 8, generator.randint(0, 8)))
            way = generator.choice(("write", "line"))
            yield from source.tried(source.trial(way, writer, NUMBER[name], value, length), 0.08)
        yield from (source.trial("line", writer, NUMBER[name], value, generator.choice((8, 0))) for name, value in TYPED_SHORT)
        yield from (("write", writer, *each) for each in generator.sample(WRITTEN_ONLY, 4))
        yield from (by(writer, source.line(line, generator.choice((12, 9, 8, 0)))) for line in generator.sample(NO_LINES, 6))
        yield from (source.trial("reading line", writer, generator.randint(1, 32), None, generator.choice((12, 9, 8))) for _ in range(3))


def under_the_fault(source):
    """The memory fault, and MD written by each writer with each pin: who may clears it, and the computer without its
    pin doesn't.
    """
    generator = source.generator
    for writer, pin in generator.sample([*itertools.product(WRITERS, (0, 1))] * 6, 36):
        yield "restart", source.faulty()
        if generator.random() < 0.8:
            yield source.pinned(pin)
        for _ in range(generator.choice((1, 1, 2))):
            word = generator.choice((0x2000, 0x2000, *MD_WORDS))
            yield from source.tried(source.trial(generator.choice(("write", "line")), writer, NUMBER["MD"], word), 0.3)
            yield from (("read", NUMBER["MD"]), ("read", NUMBER["DS"]))
        yield source.pinned(pin, "Auto")


def about_the_85th(source):
    """Open runs with tries in vain, and others, before the 84th, 85th and 86th open scan: none of them counts."""
    generator, asked = source.generator, MODES_ASKED[source.number % 6]
    yield source.tuned()
    yield source.pinned(0, asked)
    for place in range(1, generator.randint(87, 89)):
        share = {84: 0.95, 85: 0.95, 86: 0.95}.get(place, 0.03)
        while generator.random() < share:
            yield from source.tried(source.trial(generator.choice(("write", "line")), generator.choice(("computer", *WRITERS)),
                                                 generator.choice((NUMBER["MD"], generator.randint(1, 32)))), 0.1)
            share /= 2
        yield with_pin(source.scan(source.pins(asked), 0, True), generator.getrandbits(1))
    yield source.pinned(1, "Auto")


def others_in_modes(source):
    """What the operator and the computer may write, in every mode, and scans that show it; tries in vain between."""
    generator = source.generator
    yield source.tuned()
    for asked in generator.sample(MODES_ASKED * 3, 3 * len(MODES_ASKED)):
        pin = int(generator.random() < 0.8)
        yield from (source.small(with_pin(source.enter(asked, held=0), pin)) for _ in range(2))
        for writer, name in generator.sample([(writer, name) for writer, names in OTHERS_MAY.items() for name in names], 7):
            way = generator.choice(("write", "write", "line"))
            value = source.value(name) if name in ("SL", "RS", "RB") else source.any_value(name)
            yield from source.tried(source.trial(way, writer, NUMBER[name], value), 0.3)
            if generator.random() < 0.5:
                yield from source.tried(source.trial(way, writer, generator.randint(1, 32)), 0.1)
            yield source.small(with_pin(source.stay(asked, generator.choice((0, 0, *HELD))), pin))
            yield "read", NUMBER[generator.choice(("SP", "SL", "RS", "MD", "DS"))]


def single_steps(source):
    """An output at a whole unit, and one a step of 1/65,536 below it: a try that moved it by a step would show in OP.

    The integral term is one step, with TI 1180 or, in minutes, 20, as in tests/lists/restarts.py.
    """
    generator = source.generator
    tries = [(way, writer, number) for way in WAYS for writer in ("operator", "computer") for number in (17, 20, 22, 24, 25, 30)]
    for _ in range(8):
        sample = generator.randint(100, 9900)
        SL = scale(-9999, 9999, sample) + (1 if source.controller.SW & INVERSE_OUTPUT else -1)
        slow = {"XP": 9999, "channel_1H": 9999, "channel_1L": -9999, "TI": 20 if source.controller.SW & MINUTES else 1180, "TD": 0, "IC": 0}
        limits = {"HS": 9999, "LS": -9999, "HO": 9999, "LO": 0, "SL": SL, "OP": generator.randint(1, 9999)}
        yield "restart", source.drawn(**slow, **limits, request=1, fault=0, user_bits=4)
        for _ in range(2):
            for each in generator.sample([each for each in tries if each[1] == "computer" or each[2] in (17, 22, 30)], 6):
                yield from (source.trial(*each), ("read", NUMBER["OP"]))
            yield "scan", 0x80, sample, 0, 0, 0, 0


def mixed(source):
    """Scans, tries of all kinds, restarts and saves without any order."""
    generator, kept = source.generator, [source.drawn(), source.drawn(fault=1, request=0)]
    for _ in range(120):
        kept = [source.image(), *kept][:4] if generator.random() < 0.1 else kept
        way = generator.choice((*WAYS, "write", "line"))
        number = generator.choice((generator.choice([*WAYS[way]]), NUMBER[generator.choice(OTHERS_MAY["computer"])]))
        yield from generator.choice((
            *[lambda: source.tried(source.trial(way, generator.choice(WRITERS), number), 0.3)] * 6,
            lambda: [source.pinned(generator.getrandbits(1), None, generator.random() < 0.1)],
            lambda: [source.pinned(generator.getrandbits(1), "Auto")], lambda: [source.refused_scan()],
            lambda: [("restart", generator.choice((*kept, kept[0][:-1], source.with_wrong_sum(kept[0]))))], lambda: [("save", 137)]))()


# Each with its number of lists
KINDS = ((behind_events, BURST_LISTS), (between_calls, 6), (every_pin_byte, 2), (together, 8), (under_the_fault, 12), (about_the_85th, 30),
         (others_in_modes, 10), (single_steps, 8), (mixed, 12))


def bursts(generator):
    """Every event with all its tries, a few at a time, in drawn order."""
    every = [(way, writer, number) for way, numbers in WAYS.items() for writer in WRITERS for number in numbers]
    found = []
    for event in EVENTS:
        tries = generator.sample(every, len(every))
        found += [(event, tries[start:start + A_BURST]) for start in range(0, len(tries), A_BURST)]
    return generator.sample(found, len(found))


def call_list(generator, kind, number, shared=()):
    """One list; S2.1 each way in turn, S2.5 and S2.6 OFF where they would leave less to be met."""
    SW = switch_word(generator) & ~(RATIO | POWER_FAIL | SETPOINT_TRACKS) | (RATIO if number // 2 % 2 else 0)
    if kind in (about_the_85th, mixed):
        SW |= POWER_FAIL if number % 3 == 0 else 0
    source = RightsSource(generator, number)
    source.bursts = shared
    return list(entries(source, source.following(itertools.chain([("fresh", SW)], kind(source)))))


def no_writers(generator):
    """Each text that is no writer, in each call that has one; a read behind each."""
    calls = (("write", "engineer", NUMBER["SL"], 5), ("access", "engineer", NUMBER["SL"]), ("line", "engineer", b"SL>5", 12))
    lines = [Entry(with_text(call, text), "no writer", call[0]) for call in calls for text in NO_WRITERS]
    read = Entry(f"read {NUMBER['SL']}", "call", "read")
    return [Entry("fresh 0", "call", "fresh"), *(each for line in generator.sample(lines, len(lines)) for each in (line, read))]


def all_lists(generator):
    """Pairs of a list's kind and the list."""
    every = bursts(generator)
    drawn = [(kind.__name__, call_list(generator, kind, number, every[number::BURST_LISTS] if kind is behind_events else ()))
             for kind, count in KINDS for number in range(count)]
    return [*drawn, ("no_writers", no_writers(generator))]
