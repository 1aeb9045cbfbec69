"""Lines as they are typed into the program `handheld`, drawn from a seed: bytes, none of them a newline."""

import itertools

from tests.lists import terminal_forms, typed_rights
from tests.lists.terminal import AUTOMATIC_ASKED, MNEMONIC_OF, TerminalSource
from tests.model.handheld import answer_typed, at_the_start, pins_in
from tests.model.lines import MOST_BYTES
from tests.model.table import NAMES

LISTS, LINES_A_LIST = 4, 1500
LENGTHS = (*range(MOST_BYTES - 3, MOST_BYTES + 12), 511, 512, 513, 600, 699, 700, 701, 1023, 1024, 1025, 4095, 4096, 4097, 5000, 70000)
# How each mode is entered that pins and lines alone can bring: by drawn pins, of which 128 is Hold, 64 Track and 32
# Remote, and by words written to MD.  Forced Manual needs a cause and Ratio S2.1
WITH_REMOTE, WITHOUT_REMOTE = range(160, 192), range(128, 160)
WAYS = {"Hold": (range(128),), "Track": (range(192, 256),), "Manual": (range(128, 192), b"MD>2000"), "Auto": (range(128, 192), b"MD>1000"),
        "Remote": (WITH_REMOTE, b"MD>0800"), "Fall-back": (WITH_REMOTE, b"MD>0800", WITHOUT_REMOTE)}
STAYING = {mode: next(step for step in reversed(way) if isinstance(step, range)) for mode, way in WAYS.items()}
# Behind pins and a blank: numbers about 0 to 255 that aren't among them, or come out right in 8, 16, 32 bits
BEYOND = (256, 257, 300, 384, 511, 512, 999, 1000, 9999, 32768, 65535, 65536, 65664, 99999, 1 << 31, (1 << 32) + 128, 10 ** 17,
          10 ** 18 - 1, -1, -2, -127, -128, -255, -256, -65408, 128 - (1 << 32), 1 - 10 ** 18)
PINS_FORMS = ("0", "1", "7", "007", "128", "255", "0128", "-0", "-00", "-000", "00", "-1", "-128", "-007", "+0", "+1", "--0", "-", "--1",
              "0-", "1-", "1-2", "", " ", "x", "0x80", "80h", "80", "FF", "1.0", "1e2", "1_0", "1,0", "1;", "1 2", "1 1", "128 0", "pins",
              "pins 1", "\xb2", "\xff", "\0", "\r", "1\r", "1\0", "1\t", "1\v", "1\xa0", "\t1", "\xa01", ">1", "1>", "XP", "XP>1", "ok")
NO_PINS = ("pins", "pins\t1", "pins\0001", "pins\xa01", "pins,1", "pins=1", "pins>1", "pins>0001", "pins1", "pins128", "pins-1", "pins\r",
           "pin 1", "pin", "pinss 1", "spins 1", "ins 1", "pns 1", "pisn 1", "Pins 1", "PINS 1", "pINS 1", "pinS 1", "piNs 1", "PIN 1",
           "pi 1", "p 1", "1 pins", "1", "128", "\0pins 1", "\tpins 1", ">pins 1", "scan 1", "XP pins 1", "XPpins 1", "PV pins 128")


def followed(source, lines):
    """The lines, each answered in the model before the next is drawn; the last reply is kept."""
    station = at_the_start()
    source.controller, source.last_reply = station.controller, None
    for line in lines:
        line = line.replace(b"\n", b"")
        station, answer = answer_typed(station, line)
        source.controller, source.last_reply = station.controller, answer if b">" in answer else source.last_reply
        yield line


# Kinds of list ---------------------------------------------------------------

def visit(source):
    """Reads and writes, most of them right, some of them replies sent back."""
    generator = source.generator
    for _ in range(LINES_A_LIST):
        name = generator.choice(NAMES)
        drawn = (MNEMONIC_OF[name], source.typed(name, source.any_value(name))[1], source.typed(name, source.any_value(name))[1],
                 source.any_line()[1], source.last_reply or b"XP")
        yield generator.choice(drawn)


def wrong_forms(source):
    """Every form behind some mnemonics, every byte within and behind a line, nearly mnemonics, and short lines."""
    generator = source.generator
    lines = [line for line, _ in (*terminal_forms.forms(generator), *terminal_forms.beside_mnemonics(generator),
                                  *terminal_forms.short_lines())]
    lines += terminal_forms.changed_bytes(b"RB>-12")
    return generator.sample([line for line in lines if b"\n" not in line], 6000)


def long_lines(source):
    """Lines about the longest that can be passed on, and far longer ones, with a mnemonic, with pins and without; right
    lines between.
    """
    generator = source.generator
    for length in generator.sample(LENGTHS, len(LENGTHS)):
        for start, more in ((b"XP>", b"0"), (b"MD>", b"0"), (b"RB>-5", b"\0"), (b"XP", b" "), (b"xp>", b"0"), (b"", b"0"), (b"PV>1", b"\r"),
                            (b"", b"\xff"), (b"X", b"P"), (b"pins ", b"0"), (b"pins 1", b" "), (b"pins", b" "), (b"pins 1", b"\0")):
            yield start.ljust(length, more)
            yield generator.choice((b"XP", b"MD>1000", b"RB>%d" % length, b"", b"pins %d" % (length % 256), b"DS"))


def pins_line(generator, pins):
    """A line that brings one of these pins, in any of its forms."""
    number = generator.choice(pins)
    digits = b"%0*d" % (generator.choice((1, 1, 1, 3, generator.randint(1, 18))), number)
    return b"pins " + (b"-" if number == 0 and generator.random() < 0.3 else b"") + digits


def pins_forms(source):
    """Every number from 0 to 255 with digits from one to eighteen, and with more; numbers beyond; every byte at each
    place of right lines; what is nearly such a line.  Behind each taken one DS shows the pins.
    """
    generator = source.generator
    texts = [f"{sign}{number:0{digits}}" for number in range(256) for sign in (("", "-") if number < 2 else ("",))
             for digits in (1, generator.randint(4, 17), 18, 19, generator.randint(20, 40))]
    texts += [f"{sign}{'0' * digits}" for digits in range(1, 41) for sign in ("", "-", "+")] + [str(number) for number in BEYOND]
    lines = [f"pins {text}".encode("latin-1") for text in (*texts, *PINS_FORMS * 3, *(f" {text}" for text in PINS_FORMS))]
    lines += [each.encode("latin-1") for each in NO_PINS * 3]
    lines += [line for base in (b"pins 128", b"pins -0", b"pins 7") for line in terminal_forms.changed_bytes(base)]
    for line in generator.sample(lines, len(lines)):
        if b"\n" not in line:
            yield line
            yield from (b"DS",) if pins_in(line) is not None or generator.random() < 0.1 else ()


def entering(generator, mode):
    """The lines by which a mode is entered."""
    return [pins_line(generator, step) if isinstance(step, range) else step for step in WAYS[mode]]


def in_every_mode(source):
    """Lines of every kind in each mode, in drawn order, many of them by which the modes differ."""
    generator = source.generator
    for mode in generator.sample([*WAYS] * 8, 8 * len(WAYS)):
        yield from entering(generator, mode)
        for _ in range(generator.randint(10, 30)):
            yield generator.choice((
                source.any_line()[1], source.any_line()[1], source.typed("MD", source.any_value("MD"))[1], b"MD>0800", b"MD", b"DS",
                source.typed("SL", source.any_value("SL"))[1], source.last_reply or b"SL", pins_line(generator, STAYING[mode])))


def changes_of_mode(source):
    """Pins of every mode in drawn order, and words for MD among them."""
    generator = source.generator
    for _ in range(500):
        yield pins_line(generator, generator.choice((*STAYING.values(), WITH_REMOTE, WITHOUT_REMOTE)))
        yield from generator.choice(((), (b"MD",), (b"DS",), (b"MD>2000",), (b"MD>1000",), (b"MD>0800", b"OP"), (b"MD>0810", b"MP")))


def between_scans(source):
    """Other parameters, then some of them written between scans in Auto, Remote and Fall-back, and what shows them."""
    generator = source.generator
    names = ("channel_1H", "channel_1L", "channel_3L", "IC", "SL", "HS", "LS", "XP", "TI", "TD", "HO", "LO", "HA", "LA")
    for mode in generator.sample(AUTOMATIC_ASKED * 5, 15):
        writes = [call for call in source.new_parameters() if call[0] == "write"]
        yield from (b"%b>%d" % (MNEMONIC_OF[NAMES[number - 1]], value) for _, number, value in writes)
        yield from (*entering(generator, "Track"), *entering(generator, mode))
        for _ in range(generator.randint(4, 12)):
            name = generator.choice(names)
            yield source.typed(name, source.ends(name)[2])[1]
            yield from (pins_line(generator, STAYING[mode]) for _ in range(generator.choice((1, 1, 2, 3))))
            yield from (b"OP", generator.choice((b"PV", b"SP", b"ER", b"MP", b"DS")))


def in_a_row(source):
    """Pins alone, one line behind the other, so that in Auto the output tells how many scans there were."""
    generator = source.generator
    yield from (b"SL>1000", b"XP>5000", b"TI>%d" % generator.randint(80, 200), b"MD>1000", b"pins 128")
    for count in (1, 2, 10, 100, 500, 1000):
        yield from [pins_line(generator, STAYING["Auto"]) for _ in range(count)]
        yield b"OP"
    yield from (b"pins %d" % pins for pins in (*range(256), *generator.choices(range(256), k=300)))
    yield from (b"OP", b"DS", b"MD")


# The engineer's: one line before them tells who types
KINDS = (*[visit] * LISTS, wrong_forms, long_lines, pins_forms, *[in_every_mode] * LISTS, changes_of_mode,
         *[between_scans] * LISTS, in_a_row)


def all_lists(generator):
    """Pairs of a list's kind and its lines."""
    sources = ((kind, TerminalSource(generator)) for kind in KINDS)
    engineers = [(kind.__name__, [*followed(source, itertools.chain([b"who engineer"], kind(source)))]) for kind, source in sources]
    sources = ((kind, TerminalSource(generator)) for kind in typed_rights.KINDS)
    return engineers + [(kind.__name__, [*followed(source, kind(source))]) for kind, source in sources]
