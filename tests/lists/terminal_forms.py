"""Lines of the hand-held terminal whose form is what matters: every two bytes, every form at its edges, every byte at
each place, every length, every decimal and every word.

Each comes as lists of calls for a controller in one state after another (tests/lists/terminal.py makes them).
"""

from tests.model.lines import MOST_BYTES
from tests.model.table import NAMES

MNEMONICS = tuple(name.removeprefix("channel_").encode("ascii") for name in NAMES)
WORDS = (b"MD", b"DS", b"SW", b"II")
USUAL_BUFFER = 12
BUFFERS = (USUAL_BUFFER, USUAL_BUFFER, USUAL_BUFFER, 9, 10, MOST_BYTES, 8, 0)
# What follows a mnemonic.  Decimals: no digits to seven, zeros before, minus; with plus, two signs, none
DECIMALS = ("", "0", "1", "5", "9", "00", "01", "10", "25", "000", "007", "100", "999", "0000", "0001", "0100", "1000", "9999", "00000",
            "00001", "00500", "01000", "09999", "10000", "32767", "32768", "65535", "65536", "99999", "000000", "000001", "000500",
            "100000", "999999", "0000000", "0000005", "1234567", "4294967301", "18446744073709551621")
SIGNED = (*(f"-{each}" for each in DECIMALS), "+", "+0", "+1", "+100", "+0100", "--1", "--", "-+1", "+-1", "1-", "1-2", "1+", "- 1", "-\0")
# Hexadecimals: three digits to five, small letters, what stands beside digits and letters in ASCII
HEXADECIMALS = ("A", "F", "FF", "FFF", "0FF", "FFFF", "1A2B", "ABCD", "00C0", "C0FF", "2000", "1000", "0800", "3000", "8000", "2010",
                "3608", "0FFFF", "1FFFF", "ABCDE", "00000A", "ffff", "Ffff", "fffF", "1a2b", "1A2b", "a000", "000a", "00c0", "000G",
                "G000", "000g", "/000", ":000", "@000", "`000", "000/", "000:", "000@", "000`", "0x10", "10h0", "1000h", "0X00", "00 0",
                " 000", "000 ", "-001", "+001", "-1000", "1.00", "1_00", "1,00", "1e3", "5.0", "0.5")
# Behind the sign, about it, and without it
OTHERS = (">>1", ">>", ">1>", ">1>1", ">1000>", ">XP>1", "=1", "<1", " ", "  ", " >1", "> 1", ">1 ", ">0001 ", "> 0001", "\t>1", ">\t1",
          ">1\t", ">1\r", ">1\n", ">1\0", ">1\v", ">1\f", ">1000\r", ">1000\n", ">1000\0", ">0100\r\n", "\r", "\n", "\0", "\r\n",
          ">\r", ">\n", ">\0", ">\xb2", ">\xb9\xb2\xb3", ">\xa01", ">1\xa0", ">\xff", "\xff", ">\xc2\xb2", "1", "0", "100", "1000",
          "-1", "H", ">H", ">h", ">MD", ">?", "?", ":1", ">1,2", ">1;", ">'1'", ">\"1\"", "\xbe1", "\x8e1", "\x00>1",
          ">1\x00\x00\x00\x00\x00\x00")
REST = tuple(dict.fromkeys(("", *(f">{each}" for each in (*DECIMALS, *SIGNED, *HEXADECIMALS)), *OTHERS)))
# Lines of which each byte is changed for every other, and into which every byte is put
BASES = (b"XP>100", b"MD>1000", b"1H>-999", b"RB>-0", b"DS>00C0", b"SW>0001", b"PV>1", b"HS", b"II", b"RB>12345")


def two_bytes(generator, lists):
    """All 65,536, in drawn order, each as a line by itself."""
    pairs = generator.sample(range(1 << 16), 1 << 16)
    for number in range(lists):
        yield [(pair.to_bytes(2, "big"), generator.choice(BUFFERS)) for pair in pairs[number::lists]]


def near_mnemonics():
    """Two bytes that are nearly a mnemonic: other cases, exchanged, with one bit or one letter off."""
    for mnemonic in MNEMONICS:
        first, second = mnemonic[:1], mnemonic[1:]
        yield from (mnemonic.lower(), first + second.lower(), first.lower() + second, mnemonic[::-1])
        yield from (bytes(byte ^ bit for byte in mnemonic) for bit in (0x80, 0x20, 0x40))
        yield from (bytes((mnemonic[0] + one, mnemonic[1] + other)) for one, other in ((1, 0), (-1, 0), (0, 1), (0, -1)))


def beside_mnemonics(generator):
    """Two bytes that are nearly a mnemonic, and drawn ones, with a value behind them or with what is none."""
    near = [*near_mnemonics()]
    drawn = [generator.getrandbits(16).to_bytes(2, "big") for _ in range(3000)]
    values = (b">1", b">0001", b">100", b">1000", b">-5", b">", b"", b">x", b" ", b">2000", b">00000")
    return [(pair + generator.choice(values), generator.choice(BUFFERS)) for pair in (*near, *near, *near, *drawn)]


def short_lines():
    """No byte, and every byte by itself."""
    return [(b"", length) for length in range(13)] + [(bytes((byte,)), length) for byte in range(256) for length in (USUAL_BUFFER, 8)]


def forms(generator):
    """Every mnemonic with each of what may follow it."""
    return [(mnemonic + rest.encode("latin-1"), generator.choice(BUFFERS) if generator.random() < 0.1 else USUAL_BUFFER)
            for mnemonic in MNEMONICS for rest in REST]


def changed_bytes(base):
    """The line with each of its bytes changed for every other, and every byte put before it, into it and behind it; and
    the line without one of its bytes.
    """
    every = [bytes((byte,)) for byte in range(256)]
    yield from (base[:place] + byte + base[place + 1:] for place in range(len(base)) for byte in every)
    yield from (base[:place] + byte + base[place:] for place in range(len(base) + 1) for byte in every)
    yield from (base[:place] + base[place + 1:] for place in range(len(base)))


def with_changed_bytes():
    return [(line, USUAL_BUFFER) for base in BASES for line in changed_bytes(base)]


def long_lines(generator):
    """Lines of every length from 0 to 300, among them some that begin as a right one does."""
    for length in range(MOST_BYTES + 1):
        mnemonic = generator.choice(MNEMONICS)
        for line in (generator.randbytes(length), b"0" * length, b"XP>".ljust(length, b"0"), b"XP>1".ljust(length, b"\0"),
                     b"MD>1000".ljust(length, generator.choice((b" ", b"0", b"\r"))), mnemonic.ljust(length, b" "),
                     b"RB>-".ljust(length - 1, b"0") + b"5", (b"XP>100" * 50)[:length]):
            yield line[:length], generator.choice((USUAL_BUFFER, USUAL_BUFFER, MOST_BYTES, 8))


def decimals():
    """XP with every decimal up to 99999, RB with each of its range and about its ends, IC and HD with some."""
    yield from (b"XP>%d" % value for value in range(100000))
    yield from (b"RB>%d" % value for value in range(-10100, 10101))
    yield from (b"IC>%d" % value for value in range(-70, 300))
    yield from (b"HD>%d" % value for value in (*range(-300, 300), *range(9700, 10300), *range(65400, 65800), *range(99900, 100000)))


def padded(generator, value):
    """A decimal in another form: zeros to five digits at most, a minus before 0."""
    digits = b"%0*d" % (generator.randint(1, 5), abs(value))
    return (b"-" if value < 0 or value == 0 and generator.random() < 0.5 else b"") + digits


def padded_decimals(generator):
    """RB, TI and others with zeros before their digits, and with a minus before 0."""
    names = (b"RB", b"RB", b"RB", b"TI", b"TD", b"XP", b"IC", b"HA", b"LA", b"SL", b"OP", b"PV")
    size = (9, 99, 999, 9999, 99999)
    for _ in range(6000):
        most = generator.choice(size)
        value = generator.choice((0, generator.randint(-most, most), generator.randint(0, most)))
        yield generator.choice(names) + b">" + padded(generator, value), USUAL_BUFFER


def words(generator, mnemonic):
    """All 65,536 words for one of the mnemonics, in drawn order."""
    return [b"%b>%04X" % (mnemonic, word) for word in generator.sample(range(1 << 16), 1 << 16)]
