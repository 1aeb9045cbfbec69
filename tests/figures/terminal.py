"""Lines of the hand-held terminal worked by hand from document 02, request 4, as lines for the console with the answers
expected.

In the form of tests/figures/manual.py; each begins behind a fresh start with SW 0.
"""

from tests.figures.images import image

REMOTE_PIN_AND_R = "scan 160 0 5000 0 4 0"
FAULT = (f"restart {image(0xAC43, fault=1).hex()}", "ok")
OPEN = ("scan 128 0 0 0 0 1", None)
# A fresh controller's values, one for each mnemonic; pins 80h, Manual: MD 2000h, DS 801Fh
FRESH = ("1H>1000", "1L>0", "2H>1000", "2L>0", "3H>1", "3L>0", "HR>9999", "LR>1", "HS>1000", "LS>0", "HA>9999", "LA>-9999", "HD>9999",
         "LD>9999", "HO>9999", "LO>0", "XP>1000", "TI>0", "TD>0", "SL>0", "RS>100", "RB>0", "IC>0", "MD>2000", "DS>801F", "SW>0000",
         "II>3608", "OP>0", "SP>0", "PV>0", "ER>0", "MP>0")
READ_ONLY = ("SW>0001", "II>3608", "OP>0", "SP>0", "PV>1", "ER>-1", "MP>99999")
NO_VALUES = ("SW>1", "MD>100", "MD>01000", "MD>1a00", "DS>00c0", "MD>-100", "II>", "XP>", "XP>+5", "XP>100000", "XP>000500", "XP>--5",
             "XP>-", "XP> 5", "XP>5 ", "XP ", "XP5", "XP=5", "XP>5\r", "XP>5\n", "XP>5\0", "XP\r", "XP>5>", "XP>>5", "XP>1F4", "PV>+1")
NO_MNEMONICS = ("", "X", "xp", "Xp", "xP>5", "PX", "IF", "1h", "H1", "4H", " XP", ">XP", "XQ>5", "\0XP", "OO>")


def typed(text, answer, length=12, writer="engineer"):
    """The console's line for one that is typed, and the answer: the reply's text, or the refusal's number."""
    expected = f"refused {answer}" if isinstance(answer, int) else f"reply {len(answer)} {of_bytes(answer)}"
    return f"line {writer} {of_bytes(text) or '-'} {length}", expected


def of_bytes(text):
    return text.encode("latin-1").hex().upper()


FIGURES = (
    ("every mnemonic read", [typed(reply[:2], reply) for reply in FRESH]),
    # "the present value": in Hold MD shows Hold whatever is requested
    ("MD>1000 in Hold", (("scan 0 0 0 0 0 0", None), typed("MD>1000", "MD>8000"), typed("MD", "MD>8000"), ("scan 128 0 0 0 0 0", None),
                         typed("MD", "MD>1000"))),
    ("MD and DS show what is present", (typed("MD>D7FF", "MD>1010"), typed("MD>2000", "MD>2000"), typed("DS>FFFF", "DS>80DF"),
                                        typed("DS>0040", "DS>805F"), typed("DS", "DS>805F"))),
    # PV -9999 and SP 9999: ER is -19998, and its reply has nine bytes
    ("a reply of nine bytes", (typed("1L>-9999", "1L>-9999"), typed("HS>9999", "HS>9999"), typed("SL>9999", "SL>9999"),
                               ("scan 128 0 0 0 0 0", None), typed("ER", "ER>-19998", 9), typed("ER", 15, 8), typed("PV", "PV>-9999", 9))),
    ("nine bytes whatever the reply's length", (typed("IC", 15, 8), typed("IC", "IC>0", 9), typed("IC>1", 15, 8), typed("IC", "IC>0"),
                                                typed("IC>1", 15, 0), typed("IC>1", "IC>1", 9))),
    ("read only", [typed(line, 5) for line in READ_ONLY]),
    ("form before meaning", (typed("SW>1", 18), typed("SW>0001", 5), typed("PV>1", 5), typed("XP>99999", 6), typed("XP>-99999", 6),
                             typed("XP>-0", 6), typed("RB>-0", "RB>0"), typed("RB>-00000", "RB>0"), typed("XP>00500", "XP>500"),
                             typed("RB>-0009", "RB>-9"), typed("1L>-00500", "1L>-500"), typed("XP>9999", "XP>9999"),
                             typed("XP", "XP>9999"))),
    ("no value", [typed(line, 18) for line in NO_VALUES] + [typed("XP", "XP>1000"), typed("MD", "MD>2000")]),
    ("no mnemonic", [typed(line, 17) for line in NO_MNEMONICS]),
    ("17 goes first, then 18, 15 and the write's own", (
        typed("xp>", 17, 0), typed("", 17, 0), typed("XP>", 18, 0), typed("SW>1", 18, 8), typed("SW>0001", 15, 8), typed("PV>1", 15, 8),
        typed("XP>0", 15, 8), typed("XP>0", 6, 9), typed("1L>1000", 15, 0), typed("1L>1000", 7, 9), typed("MD>0000", 15, 8),
        typed("MD>0000", 9, 9), typed("MD>0800", 10), typed("MD>1800", 9), typed("1L>99999", 6))),
    ("SL in Remote", ((REMOTE_PIN_AND_R, None), typed("SL", "SL>500"), typed("SL>500", 8), typed("SL>501", 8), typed("SL>1001", 6),
                      typed("SL>5", 15, 8), typed("RS>5", "RS>5"))),
    ("a cause would remain", (FAULT, typed("MD", "MD>2100"), typed("MD>1100", 11), typed("MD>1000", "MD>2000"), *[OPEN] * 85,
                              typed("MD>1000", 11), typed("MD>2010", "MD>2210"))),
    ("a write limits others", (typed("SL>800", "SL>800"), typed("HS>500", "HS>500"), typed("SL", "SL>500"), typed("LS>501", 7),
                               typed("LR>200", "LR>200"), typed("RS", "RS>200"))),
    ("a reply sent back", (typed("RB>-00012", "RB>-12"), typed("RB>-12", "RB>-12"), typed("LA", "LA>-9999"),
                           typed("LA>-9999", "LA>-9999"))),
    ("a refused line leaves all", (("save 137", f"image {image(0xAC42).hex().upper()}"), typed("XP>0", 6), typed("XP>5", 15, 8),
                                   typed("XP>+5", 18), typed("xp>5", 17), ("save 137", f"image {image(0xAC42).hex().upper()}"))),
    ("a line of 300 bytes", (typed("XP>".ljust(300, "0"), 18, 300), typed("xp".ljust(300), 17, 300), typed("XP", "XP>1000", 300))),
)
