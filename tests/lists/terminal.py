"""Call lists with lines of the hand-held terminal, document 02, request 4: lines of every form, and lines in every mode
and state among scans, writes, restarts and saves, drawn from a seed.  The lists are in the form of
tests/lists/entries.py.
"""

import itertools

from tests.lists import terminal_forms
from tests.lists.clock import EDGES, ClockSource
from tests.lists.entries import POWER_FAIL, RATIO, Entry, entries, switch_word
from tests.lists.host_clock import USUAL
from tests.lists.image_source import WIDE, with_right_sum, with_values
from tests.lists.parameters import near_or_far
from tests.lists.scan_source import HELD, MODES_ASKED, A
from tests.lists.terminal_forms import MNEMONICS, USUAL_BUFFER, WORDS, padded
from tests.lists.writers import ENGINEER, by, named
from tests.lists.writes import SETPOINT_TRACKS
from tests.model import loop
from tests.model.lines import line_of
from tests.model.state import Stored
from tests.model.table import NAMES, NUMBER, READ_ONLY, range_of

MNEMONIC_OF = dict(zip(NAMES, MNEMONICS, strict=True))
DECIMAL_PARAMETERS = NAMES[:NUMBER["IC"]]
AUTOMATIC_ASKED = ("Auto", "Remote", "Fall-back")
MD_TYPED = (0x2000, 0x1000, 0x0800, 0x2010, 0x1010, 0x0810, 0x2100, 0x1100, 0x0900, 0x3000, 0x0000, 0xFFFF)
TWO_BYTE_LISTS, WORD_LISTS, FORM_LISTS, LINES_A_LIST = 16, 48, 8, 4000


class TerminalSource(ClockSource):
    """Draws lines too, most often such as a mechanic types by the controller as it stands."""

    def typed(self, name, value, length=None):
        """A write by a line; most buffers are long enough."""
        generator, mnemonic = self.generator, MNEMONIC_OF[name]
        if mnemonic in WORDS:
            text = b"%04X" % (value & 0xFFFF)
        else:
            value = max(-99999, min(99999, value))
            text = padded(generator, value) if generator.random() < 0.2 else b"%d" % value
        return self.line(mnemonic + b">" + text, length)

    def line(self, text, length=None):
        drawn = self.generator.choice((USUAL_BUFFER, USUAL_BUFFER, 9, 9, 10, 11, self.generator.randint(9, 300)))
        return "line", text, drawn if length is None else length

    def asked(self, name, length=None):
        """A read by a line."""
        return self.line(MNEMONIC_OF[name], length)

    def any_value(self, name):
        """A value to be written by a line: of MD most often one that some state takes."""
        if NUMBER[name] in READ_ONLY:
            return self.generator.choice((0, 1, -1, 0x3608, 9999, 99999, self.generator.randint(-9999, 9999)))
        if name == "MD":
            return self.generator.choice((*MD_TYPED, self.generator.getrandbits(16)))
        return self.generator.getrandbits(16) if name == "DS" else self.value(name)

    def any_line(self):
        """A read, a write that is taken or not, or a line that has no right form."""
        generator, name = self.generator, self.generator.choice(NAMES)
        wrong = generator.choice(MNEMONICS) + generator.choice(terminal_forms.REST).encode("latin-1")
        return generator.choice((
            self.asked(name), self.asked(generator.choice(("MD", "DS", "OP", "SP", "ER"))), *[self.typed(name, self.any_value(name))] * 3,
            self.typed("MD", self.any_value("MD")), self.line(wrong),
            self.line(generator.choice((wrong, MNEMONIC_OF[name], wrong.lower(), generator.randbytes(generator.randint(0, 12)))),
                      generator.randint(0, 12))))

    def reply(self, call):
        """The bytes that the model replies now to a line of one who may make it, or None."""
        answer = loop.make(self.controller, by(ENGINEER, call), Stored)[1]
        return answer[2] if answer[0] == "reply" else None


# Kinds of list: the calls that follow a fresh start ---------------------------

def every_mnemonic(source):
    """Every mnemonic read and written in every mode; MD, DS and what a write limits asked behind it.

    The open cause stands in every fourth list.
    """
    generator, is_open = source.generator, source.number % 4 == 3
    yield source.tuned()
    if is_open:
        yield from source.opened("Manual")
    for asked in generator.sample(MODES_ASKED, len(MODES_ASKED)):
        for name in generator.sample((*NAMES, "MD", "SL", "SL"), len(NAMES) + 3):
            yield source.enter(asked, is_open) if generator.random() < 0.3 else source.asked(name)
            yield source.typed(name, source.any_value(name))
            yield source.asked(generator.choice((name, "MD", "DS", "SL", "RS", "OP", "SP")))
        yield "save", 137


def between_automatic_scans(source):
    """Parameters written by lines between automatic scans, which show them."""
    generator = source.generator
    names = (*DECIMAL_PARAMETERS, "SL", "SL", "RS", "XP", "TI", "TD")
    yield source.tuned()
    for _ in range(12):
        asked = generator.choice(AUTOMATIC_ASKED)
        yield source.enter("Track", held=0)
        yield source.enter(asked, held=0)
        for _ in range(generator.randint(4, 12)):
            name = generator.choice(names)
            least, greatest = range_of(source.controller.parameters, NUMBER[name])
            yield source.typed(name, near_or_far(generator, least, greatest))
            yield from (source.stay(asked, generator.choice(HELD)) for _ in range(generator.choice((1, 1, 2))))
            yield source.asked(generator.choice(("PV", "SP", "ER", "OP", "MP", "DS")))


def between_ratio_scans(source):
    """What the ratio is made of, written by lines between scans in Ratio; HR and LR so that they move RS."""
    generator = source.generator
    for name in generator.sample(("HR", "LR", "RS", "RB", "channel_2H", "channel_2L", "channel_3H", "channel_3L") * 2, 16):
        yield source.tuned()
        yield from (source.small(source.enter("Remote", held=0)) for _ in range(2))
        RS = source.controller.parameters.RS
        values = {"HR": generator.randint(1, RS - 1), "LR": generator.randint(RS + 1, 999), "channel_3L": -generator.randint(6, 500)}
        yield source.typed(name, values.get(name) or generator.randint(RS + 1, 5000))
        yield from (source.small(source.stay("Remote", generator.choice(HELD))) for _ in range(2))
        yield source.asked(generator.choice(("SP", "SL", "RS", "ER")))


def sent_back(source):
    """The reply of each decimal parameter sent back at once, in every mode, with an image before and behind.

    The open cause stands in every fifth list.
    """
    generator, is_open = source.generator, source.number % 5 == 4
    yield "restart", source.drawn(fault=0)
    if is_open:
        yield from source.opened("Auto")
    for asked in generator.sample(MODES_ASKED, len(MODES_ASKED)):
        yield from source.stays(asked, is_open or generator.random() < 0.1)
        for name in generator.sample((*DECIMAL_PARAMETERS, "SL"), len(DECIMAL_PARAMETERS) + 1):
            question = source.typed(name, source.value(name)) if generator.random() < 0.3 else source.asked(name)
            reply = source.reply(question) or source.reply(source.asked(name))
            yield from ((source.asked(name),) if source.reply(question) is None else (question,))
            is_looked_at = generator.random() < 0.2
            yield from (("save", 137), ("read", NUMBER["OP"])) if is_looked_at else ()
            yield source.line(reply)
            yield from (("save", 137), ("read", NUMBER["OP"])) if is_looked_at else ()
            if generator.random() < 0.1:
                yield source.stay(asked, generator.choice(HELD), is_open)


def words_of_MD(source):
    """A share of all 65,536 words written by lines, in every mode, with and without the open cause and the fault."""
    generator, asked, is_open = source.generator, MODES_ASKED[source.number % 6], source.number // 6 % 2 == 1
    if source.number // 24:
        yield "restart", with_right_sum(with_values(source.image(), request=0, fault=1))
    if is_open:
        yield from source.opened(asked)
    for place, line in enumerate(source.words):
        if place % 6 == 0:
            yield source.enter(asked, is_open)
        yield source.line(line)
        if place % 16 == 5:
            yield source.asked("DS")
        if place % 64 == 40 and source.number // 24:
            yield "restart", with_right_sum(with_values(source.image(), request=0, fault=1))


def words_of_DS(source):
    """The same for DS; MD asked for among them."""
    asked = MODES_ASKED[source.number % 6]
    for place, line in enumerate(source.words):
        if place % 32 == 0:
            yield source.enter(asked)
        yield source.line(line)
        if place % 32 == 20:
            yield source.asked("MD")


def buffers(source):
    """Lines of every kind, each with a buffer of 0 to 12 bytes, in states in which each refusal applies."""
    generator = source.generator
    wrong = b"xp", b"X", b"", b"XP>", b"XP ", b"XP>1\r", b"MD>1", b"QQ>1", b"PV>x", b"SW>1", b"mp 1", b"SL>100000"
    yield "restart", source.drawn(**WIDE, SL=0, fault=0, request=0)
    for asked in ("Manual", "Remote", "Hold"):
        yield source.enter(asked, held=0)
        for name in ("SL", "MD", "DS", "XP", "channel_1L", "RB", "OP", "SW", "ER"):
            for length in range(13):
                line = source.asked(name, length) if generator.random() < 0.4 else source.typed(name, source.any_value(name), length)
                yield line
        yield from (source.line(line, length) for line in wrong for length in generator.sample(range(13), 4))
    yield from source.opened("Manual")
    yield from (source.line(b"MD>%04X" % word, length) for word in (0x1000, 0x0800, 0x1800, 0, 0x2000) for length in range(13))
    yield from source.reads("MD", "SL", "XP")


def at_once(source):
    """Lines that several refusals apply to, with buffers long enough and too short."""
    generator = source.generator
    yield "restart", source.drawn(**{**WIDE, "HS": 500, "LS": -500, "LA": 100, "HA": 200}, SL=0, fault=0, request=0)
    for round_number in range(6):
        yield source.enter(generator.choice(("Remote", "Manual", "Auto", "Hold", "Track")), held=0)
        if round_number == 3:
            yield from source.opened("Manual")
        lines = [b"PV>99999", b"OP>-99999", b"SW>FFFF", b"II>0000", b"SL>99999", b"SL>501", b"SL>-501", b"SL>5", b"LA>10000", b"LA>-10000",
                 b"LA>201", b"HA>99", b"HA>-99999", b"1L>9999", b"1L>10000", b"1H>-10000", b"MD>1800", b"MD>0800", b"MD>1000", b"MD>0000",
                 b"MD>3800", b"MD>1900", b"MD>2000", b"XP>0", b"RS>0", b"IC>2", b"XP>100000", b"SL>+5", b"sl>5", b"SL 5", b"Sl>x", b"qq"]
        for line in generator.sample(lines, len(lines)):
            yield source.line(line, generator.choice((USUAL_BUFFER, 9, 8, 0, generator.randint(0, 8))))
        yield from source.reads("SL", "MD", "LA")


def far_errors(source):
    """ER at and about its ends, whose reply has nine bytes; all replies' lengths."""
    generator = source.generator
    for sign in generator.sample((1, -1), 2):
        for distance in (generator.choice((0, 1, 998, 999)), generator.choice((9998, 9999, 10000)), generator.randint(0, 19998)):
            SL = sign * (9999 - min(distance, 19998))
            yield "restart", source.drawn(**{**WIDE, "channel_3H": 1, "channel_3L": 0}, SL=SL, IC=0, fault=0, request=0, user_bits=0)
            yield "scan", 0x80, 0 if sign > 0 else 10000, 0, 0, A, 0
            yield from (source.asked("ER", length) for length in generator.sample(range(13), 13))
            yield from (source.asked(name) for name in ("PV", "SP", "ER", "SL"))


def between_readings(source):
    """Lines between scans at each edge of what is ordinary by the clock, which is asked for behind them."""
    generator = source.generator
    yield source.tuned()
    for _ in range(40):
        yield source.entered(generator.choice(MODES_ASKED), USUAL)
        yield from (source.any_line() for _ in range(generator.choice((1, 1, 2))))
        yield from source.asks(0.5)
        yield source.at(source.small(source.stay(generator.choice(MODES_ASKED), 0)), generator.choice(EDGES))


def mixed(source):
    """Scans, lines, writes, reads, restarts and saves without any order."""
    generator, kept = source.generator, [source.drawn(), source.drawn(fault=1, request=0)]
    for _ in range(220):
        kept = [source.image(), *kept][:4] if generator.random() < 0.1 else kept
        yield from generator.choice((
            *[lambda: [source.any_line()]] * 8, lambda: [source.enter(generator.choice(MODES_ASKED), generator.random() < 0.1)],
            lambda: [source.stay(generator.choice(MODES_ASKED), generator.choice(HELD))], source.reads, source.writes,
            lambda: [("restart", generator.choice(kept))], lambda: [("save", generator.choice((136, 137)))]))()


# Each with its number of lists
KINDS = ((every_mnemonic, 40), (between_automatic_scans, 30), (between_ratio_scans, 12), (sent_back, 30), (words_of_MD, WORD_LISTS),
         (words_of_DS, WORD_LISTS), (buffers, 20), (at_once, 24), (far_errors, 16), (between_readings, 16), (mixed, 60))


def call_list(generator, kind, number, words=()):
    """One list; S2.1, S2.5 and S2.6 each way in turn where they matter."""
    SW = switch_word(generator) & ~(RATIO | POWER_FAIL | SETPOINT_TRACKS)
    SW |= RATIO if kind is between_ratio_scans or number // 2 % 2 else 0
    if kind not in (buffers, far_errors):
        SW |= SETPOINT_TRACKS if number % 3 == 0 else 0
    source = TerminalSource(generator, number)
    source.words = words
    return list(entries(source, source.following(itertools.chain([("fresh", SW)], kind(source)))))


def plain_list(generator, lines):
    """Lines with nothing else among them but now and then an image and a read; each as its plainest line."""
    source = TerminalSource(generator)
    calls = [("fresh", switch_word(generator)), (*source.enter(generator.choice(MODES_ASKED)), 0)]
    for place, (text, length) in enumerate(lines):
        calls.append(("line", text, length))
        if place % 100 == 50:
            calls += [("save", 137), ("read", NUMBER[generator.choice(NAMES)])]
    return [Entry(line_of(call), "call", call[0]) for call in named(generator, calls)]


def plain_lists(generator):
    """Kind and lines of each list that goes by the form alone."""
    yield from (("two_bytes", lines) for lines in terminal_forms.two_bytes(generator, TWO_BYTE_LISTS))
    kinds = {"beside_mnemonics": terminal_forms.beside_mnemonics(generator), "short_lines": terminal_forms.short_lines(),
             "forms": terminal_forms.forms(generator), "changed_bytes": terminal_forms.with_changed_bytes(),
             "long_lines": [*terminal_forms.long_lines(generator)],
             "decimals": [(line, USUAL_BUFFER) for line in terminal_forms.decimals()],
             "padded_decimals": [*terminal_forms.padded_decimals(generator)]}
    for kind, lines in kinds.items():
        generator.shuffle(lines)
        yield from ((kind, lines[start:start + LINES_A_LIST]) for start in range(0, len(lines), LINES_A_LIST))


def all_lists(generator):
    """Pairs of a list's kind and the list."""
    words = {words_of_MD: terminal_forms.words(generator, b"MD"), words_of_DS: terminal_forms.words(generator, b"DS")}
    drawn = [(kind.__name__, call_list(generator, kind, number, words.get(kind, ())[number::WORD_LISTS]))
             for kind, count in KINDS for number in range(count)]
    return drawn + [(kind, plain_list(generator, lines)) for kind, lines in plain_lists(generator)]
