"""Who may write what, worked by hand from document 02, request 6, as lines for the console with the answers expected.

In the form of tests/figures/manual.py; each begins behind a fresh start with SW 0.  A fresh controller has pins 80h, so
the Computer pin is at 0; pins 144, 90h, bring it, and 239, EFh, are all others.
"""

from tests.figures.images import image
from tests.figures.terminal import FAULT, OPEN, typed

WRITERS = ("operator", "engineer", "computer")
WITH_PIN, WITHOUT_PIN = ("scan 144 0 0 0 0 0", None), ("scan 128 0 0 0 0 0", None)
ALL_OTHERS = ("scan 239 0 0 0 0 0", None)
RESTART = (f"restart {image(0xAC42).hex()}", "ok")
WRONG_SUM = (f"restart {image(0x0000).hex()}", "ok")
FRESH_IMAGE = ("save 137", f"image {image(0xAC42).hex().upper()}")
# A value that each parameter takes from a fresh controller, by its number; 24 is Auto, 25 both user bits
VALUES = {1: 999, 2: 1, 3: 999, 4: 1, 5: 2, 6: -1, 7: 9998, 8: 2, 9: 999, 10: -1, 11: 9998, 12: -9998, 13: 1, 14: 1, 15: 9998, 16: 1,
          17: 999, 18: 1, 19: 1, 20: 5, 21: 101, 22: -1, 23: 1, 24: 0x1000, 25: 0x00C0}
READ_ONLY = range(26, 33)


def write(writer, number, value, answer):
    """The answer is a refusal's number, or nothing if the write is accepted."""
    return f"write {writer} {number} {value}", f"refused {answer}" if answer else "ok"


def access(writer, number, answer):
    return f"access {writer} {number}", f"refused {answer}" if answer else "ok"


def both(writer, number, value, answer):
    """The question first: it is answered as the write is, if the value is right."""
    return access(writer, number, answer), write(writer, number, value, answer)


def every_number(writer, may, other):
    """Every parameter: those that the writer may write, and the refusal of all others, read-only ones too."""
    return [step for number in (*VALUES, *READ_ONLY)
            for step in both(writer, number, VALUES.get(number, 0), 0 if number in may else other)]


FIGURES = (
    # "The operator may write SL, RS, MD and DS"
    ("the operator", every_number("operator", (20, 21, 24, 25), 20)),
    # "The engineer has every parameter, read-only ones still giving 5"
    ("the engineer", every_number("engineer", VALUES, 5)),
    # "The computer may write SL, RS, RB, MD and DS, only while the stored pin byte .. has the Computer pin at 1"
    ("the computer with its pin", [WITH_PIN, *every_number("computer", (20, 21, 22, 24, 25), 20)]),
    ("the computer without its pin", every_number("computer", (), 19)),
    ("all pins but the computer's", [ALL_OTHERS, *every_number("computer", (), 19)]),
    # "19 .. right after 4", "20 .. right after 19"
    *((f"4 goes before 19 and 20, {writer}", [step for number in (0, 33, -1, -20, 276, 65556) for step in both(writer, number, 5, 4)])
      for writer in WRITERS),
    ("19 goes before 20 and 5", (write("computer", 17, 500, 19), write("computer", 30, 1, 19), write("computer", 17, 0, 19),
                                 write("computer", 20, 1001, 19), write("computer", 24, 0, 19), write("computer", 24, 0x0800, 19),
                                 WITH_PIN, write("computer", 17, 500, 20), write("computer", 30, 1, 20), write("computer", 17, 0, 20),
                                 write("computer", 20, 1001, 6), write("computer", 24, 0, 9), write("computer", 24, 0x0800, 10))),
    ("20 goes before 5, 6 and 7", (write("operator", 30, 1, 20), write("operator", 17, 0, 20), write("operator", 2, 1000, 20),
                                   write("operator", 2, 99999, 20), write("operator", 20, 1001, 6), write("operator", 24, 0x1800, 9),
                                   write("engineer", 30, 1, 5), write("engineer", 17, 0, 6), write("engineer", 2, 1000, 7))),
    ("SL in Remote", (("scan 160 0 5000 0 4 0", None), write("operator", 20, 5, 8), write("computer", 20, 5, 19),
                      ("scan 176 0 5000 0 0 0", None), write("computer", 20, 5, 8), write("computer", 22, 5, 0))),
    ("a cause would remain", ([OPEN] * 85) + [write("operator", 24, 0x1000, 11), write("computer", 24, 0x1000, 19),
                                               write("operator", 24, 0x2000, 0)]),
    # "the stored pin byte, 80h after a start or restart": the last accepted scan's, whatever a refused one had
    ("the pin comes and goes", (write("computer", 22, 1, 19), WITH_PIN, write("computer", 22, 1, 0), WITHOUT_PIN,
                                write("computer", 22, 2, 19), ("scan 16 0 0 0 0 0", None), write("computer", 22, 2, 0), ALL_OTHERS,
                                write("computer", 22, 3, 19), ("read 22", "value 2"))),
    *((f"19 behind {name}", (WITH_PIN, write("computer", 22, 1, 0), step, write("computer", 22, 2, 19)))
      for name, step in (("a fresh start", ("fresh 0", "ok")), ("a restart", RESTART), ("a wrong sumcheck", WRONG_SUM))),
    ("a refused restart leaves the pin", (WITH_PIN, ("restart -", "refused 12"), write("computer", 22, 1, 0))),
    *((f"a refused scan leaves the pin, {number}", (WITHOUT_PIN, (line.format(144), f"refused {number}"), write("computer", 22, 1, 19),
                                                    WITH_PIN, (line.format(128), f"refused {number}"), write("computer", 22, 1, 0)))
      for number, line in ((1, "scan {} 10001 0 0 0 0"), (2, "scan {} 0 0 0 16 0"), (3, "scan {} 0 0 0 0 4"))),
    # 36 ms from scan to scan; the reading of the second is that of the first
    ("a refused scan leaves the pin, 16", (("scan 144 0 0 0 0 0 100", None), ("scan 128 0 0 0 0 0 100", "refused 16"),
                                           write("computer", 22, 1, 0), ("scan 128 0 0 0 0 0 136", None),
                                           ("scan 144 0 0 0 0 0 165", "refused 16"), write("computer", 22, 2, 19))),
    # "Reading stays free"
    ("reading stays free", (("read 17", "value 1000"), *(typed("XP", "XP>1000", 12, writer) for writer in WRITERS),
                            *(typed("PV", "PV>0", 9, writer) for writer in WRITERS))),
    # "Terminal lines carry a writer as well"; the terminal's own refusals go first
    ("lines of the operator", (typed("SL>5", "SL>5", 12, "operator"), typed("XP>5", 20, 12, "operator"), typed("PV>5", 20, 12, "operator"),
                               typed("RB>5", 20, 12, "operator"), typed("XP>", 18, 12, "operator"), typed("xp>5", 17, 12, "operator"),
                               typed("XP>5", 15, 8, "operator"), typed("XP>0", 20, 12, "operator"), typed("SL>1001", 6, 12, "operator"),
                               typed("MD>1000", "MD>1000", 12, "operator"), typed("SW>0001", 20, 12, "operator"))),
    ("lines of the computer", (typed("SL>5", 19, 12, "computer"), typed("XP>5", 19, 12, "computer"), typed("PV>5", 19, 12, "computer"),
                               typed("SL>5", 15, 8, "computer"), typed("SL>", 18, 0, "computer"), typed("sl>5", 17, 0, "computer"),
                               typed("SL", "SL>0", 9, "computer"), WITH_PIN, typed("SL>5", "SL>5", 12, "computer"),
                               typed("RB>-7", "RB>-7", 12, "computer"), typed("XP>5", 20, 12, "computer"),
                               typed("DS>00C0", "DS>90DF", 12, "computer"), typed("OP>5", 20, 12, "computer"))),
    ("lines of the engineer", (typed("XP>5", "XP>5"), typed("PV>5", 5), typed("SW>0001", 5))),
    # "a write by someone without the right changes nothing"
    ("nothing changes", (FRESH_IMAGE, *(write("operator", number, value, 20) for number, value in VALUES.items()
                                        if number not in (20, 21, 24, 25)),
                         *(write("computer", number, value, 19) for number, value in VALUES.items()), FRESH_IMAGE,
                         ("read 24", f"value {0x2000}"), ("read 25", f"value {0x801F}"), ("clock", "clock none"))),
    ("a question changes nothing", (FRESH_IMAGE, *(access("engineer", number, 0) for number in VALUES), FRESH_IMAGE)),
    # The memory fault: cleared by an accepted write of MD, whoever writes
    ("the fault cleared by the operator", (FAULT, write("operator", 24, 0x2000, 0), ("read 24", f"value {0x2000}"))),
    ("the fault cleared by the engineer", (FAULT, write("engineer", 24, 0x2000, 0), ("read 24", f"value {0x2000}"))),
    ("the fault kept, then cleared by the computer", (FAULT, write("computer", 24, 0x2000, 19), ("read 24", f"value {0x2100}"), WITH_PIN,
                                                      write("computer", 24, 0x2000, 0), ("read 24", f"value {0x2000}"))),
)
