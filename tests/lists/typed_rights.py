"""Lines typed into the program `handheld` that tell who types, document 02, request 6, and what each may write."""

import itertools

from tests.lists import terminal_forms
from tests.lists.terminal import MNEMONIC_OF
from tests.model.rights import WRITERS
from tests.model.table import NAMES

COMPUTER_PIN = 16
# What is nearly such a line
NO_WHO = ("who", "who ", "who  engineer", "who engineer ", " who engineer", "who engineers", "who Engineer", "who ENGINEER",
          "Who engineer", "WHO engineer", "who\tengineer", "who\0engineer", "who\xa0engineer", "who>engineer", "who=engineer",
          "whoengineer", "who,engineer", "who engineer\r", "who engineer\0", "who engineer\t", "who engineer engineer",
          "who engineer operator", "who operator engineer", "who eng", "who e", "who 1", "who 0", "who -", "who mechanic",
          "who operators", "who operato", "who Operator", "who computers", "who compute", "who Computer", "wh engineer", "ho engineer",
          "whoo engineer", "hwo engineer", "engineer", "operator", "computer", "engineer who", "who who engineer", "who who",
          "XP who engineer", "pins who engineer", "who pins 1", "who:engineer", "who is", "who ngineer", "who rengineer", "MD>who",
          "who XP", "whose engineer", "who engineerÿ", "ÿwho engineer")


def who(writer):
    return b"who " + writer.encode("ascii")


def pins_with(generator, pin):
    """Pins with the Computer pin so, the others drawn."""
    return b"pins %d" % (generator.getrandbits(8) & ~COMPUTER_PIN | COMPUTER_PIN * pin)


def told_apart(generator):
    """Two lines that tell the three writers apart while the Computer pin is at 1: the engineer has both parameters, the
    operator neither, and the computer the second.
    """
    return b"XP>%d" % generator.randint(1, 9999), b"RB>%d" % generator.randint(-9999, 9999)


def who_forms(source):
    """Every byte at each place of the three right lines, in place of another and besides, and what is nearly such a
    line; behind each taken one, and some others, lines that tell who types.
    """
    generator = source.generator
    lines = [each.encode("latin-1") for each in NO_WHO * 6]
    lines += [line for writer in WRITERS for line in terminal_forms.changed_bytes(who(writer))]
    yield b"pins 144"
    for place, line in enumerate(generator.sample(lines, len(lines))):
        if b"\n" in line:
            continue
        yield line
        if line in map(who, WRITERS) or generator.random() < 0.1:
            yield from told_apart(generator)
        if place % 40 == 0:
            yield who(generator.choice(WRITERS))
            yield pins_with(generator, 1)


def every_right(source):
    """Each writer with each mnemonic, read and written, with the Computer pin at 0 and at 1, in drawn order; what was
    written by one without the right is read behind it.
    """
    generator, writer, pin = source.generator, "operator", 0
    combinations = [*itertools.product(WRITERS, NAMES, ("read", "written"), (0, 1))]
    for next_writer, name, way, next_pin in generator.sample(combinations, len(combinations)):
        if next_pin != pin:
            yield pins_with(generator, next_pin)
        if next_writer != writer:
            yield who(next_writer)
        writer, pin = next_writer, next_pin
        yield MNEMONIC_OF[name] if way == "read" else source.typed(name, source.any_value(name))[1]
        if way == "written" and generator.random() < 0.5:
            yield MNEMONIC_OF[name]


def before_any_who(source):
    """The operator at the start: each mnemonic, before any line has told who types."""
    generator = source.generator
    for name in generator.sample(NAMES, len(NAMES)):
        yield MNEMONIC_OF[name]
        yield source.typed(name, source.any_value(name))[1]
        if generator.random() < 0.3:
            yield pins_with(generator, generator.getrandbits(1))


def every_pin(source):
    """Each of the 256 pin bytes with each writer: only the computer's right goes by it, and by one pin alone.

    Who types stays when pins come, and pins stay when another types.
    """
    generator = source.generator
    for number, writer in generator.sample([*itertools.product(range(256), WRITERS)], 3 * 256):
        yield from generator.sample((who(writer), b"pins %d" % number), 2)
        yield from generator.choice(((b"RB>%d" % number,), (b"DS>00%02X" % number,), told_apart(generator)))
        yield from generator.choice(((), (), (b"DS",), (b"RB",)))


def by_turns(source):
    """Lines of every kind, the three writers by turns, the Computer pin brought and taken away."""
    generator = source.generator
    for _ in range(1200):
        yield from generator.choice((
            (source.any_line()[1],), (source.any_line()[1],), (source.any_line()[1],), (source.typed("MD", source.any_value("MD"))[1],),
            (source.typed("SL", source.any_value("SL"))[1],), (source.typed("RB", source.any_value("RB"))[1], b"RB"),
            (who(generator.choice(WRITERS)),), (pins_with(generator, generator.getrandbits(1)),), (source.last_reply or b"XP",),
            (generator.choice(NO_WHO).encode("latin-1"),)))


def between_scans(source):
    """Others come between scans in Auto, and the engineer writes between them what makes what is remembered matter."""
    generator = source.generator
    yield from (b"who engineer", b"MD>1000", b"SL>%d" % generator.randint(0, 1000))
    for _ in range(60):
        yield generator.choice((b"1H>%d", b"XP>%d", b"TI>%d")) % generator.randint(300, 3000)
        yield b"pins %d" % generator.randint(128, 191)
        yield from (who(generator.choice(WRITERS)), *generator.choice(((), told_apart(generator))), b"who engineer")
        yield from (b"1H>%d" % generator.randint(300, 3000), b"pins %d" % generator.randint(128, 191), b"OP")
        yield from generator.choice(((), (b"pins 192", b"HO>9000"), (b"who operator", b"OP", b"who engineer")))


KINDS = (who_forms, every_right, every_right, before_any_who, every_pin, by_turns, by_turns, between_scans)
