"""Whole inputs for the console, each with the whole output expected: ends of input, overlong lines, and input that
comes in pieces.
"""

from tests.figures.images import FRESH
from tests.figures.sheets import EMPTY, sheet
from tests.figures.terminal import typed
from tests.model.lines import LONGEST_LINE, lines_in

# Worked by hand.  SW 0, pins 80h, all else 0: Manual is MD 2000h; DS is 80h, then bits 4, 3, 2, 1, 0: 801Fh; output and
# PV 0.
FIRST_SCAN, SECOND_SCAN = "scan 128 0 0 0 0 0 36", "scan 128 0 0 0 0 0 72"
FIRST_ANSWER = "scan 8192 32799 0 0 manual 0"
IMAGE = FRESH.split()[1]  # a fresh controller's
# The numbers of a sheet with one scan in Auto whose PV is -7, but the number of scans, and the sheet
ONE_SCAN = "".join(f"sheet-number {place} {number}\n" for place, number in ((5, 1), (9, -7), (10, 1), (11, -7), (12, 1), (14, -7)))
ONE_KEPT = sheet(1, "-7@1", "-7@1", sumpv=-7, auto=1)[1]
# The first of the numbers is 2 to the 64th; the third has 21 digits
NO_READINGS = ("18446744073709551616", "99999999999999999999", "000000000000000000000", "", "-0", "-1", "+1", "x", "1 1", "1.0", "none",
               "36ms")
# XP of a fresh controller, asked for in twelve bytes, and what is no such line
XP_LINE, XP_REPLY = typed("XP", "XP>1000")
NO_LINES = tuple(text.replace("@", "engineer") for text in (
    "line", "line @", "line @ 5850", "line @ 12", "line @ -", "line @ - -", "line @ 5850 12 12", "line @ 58 50 12", "line @ 12 5850",
    "line @ 585 12", "line @ 58505 12", "line @ 5850 301", "line @ 5850 -1", "line @ 5850 65548", "line @ 5850 +12", "line @ 5850 12h",
    "line @ 5850 x", "line @ XP 12", "line @ 0x5850 12", "line @ 5850h 12", "line @ -5850 12", "line @ 5850- 12", "line @ 585G 12",
    "line @ 58g0 12", "line @ -- 12", "Line @ 5850 12", "LINE @ 5850 12", "line@ 5850 12", "line @ 5850\t12", "line @ 5850 12\r",
    "line\t@ 5850 12", "line @\t5850 12", "lines @ 5850 12", "lin @ 5850 12", f"line @ {'30' * 301} 12", f"line @ {'30' * 340} 12",
    f"line @ 5850 {'0' * 19}"))
# In place of a writer, or of a blank behind one
NO_WRITERS = ("", "Engineer", "ENGINEER", "engineeR", "engineers", "enginee", "eng", "e", "Operator", "operators", "operato", "Computer",
              "computers", "compute", "mechanic", "engineer,", "engineer\t", "engineer\0", "engineer operator", "engineer engineer", "0",
              "1", "-", "who", "who engineer", "20", "auto")
BY_HAND = (
    ("no input", "", ""),
    ("no newline at the end", "fresh 0", "ok\n"),
    ("a newline at the end", "fresh 0\n", "ok\n"),
    ("one empty line", "\n", "error\n"),
    ("three empty lines", "\n\n\n", "error\nerror\nerror\n"),
    ("one blank", " ", "error\n"),
    ("one NUL", "\0", "error\n"),
    ("one carriage return", "\r", "error\n"),
    ("a carriage return before the newline", "fresh 0\r\n", "error\n"),
    ("a NUL behind a call", "fresh 0\0\nfresh 0\0 5\nfresh 0 \0\n", "error\nerror\nerror\n"),
    ("a tab for a blank", "fresh\t0\n\tfresh 0\nfresh 0\t\n", "error\nerror\nerror\n"),
    ("a byte beyond ASCII", "\xff", "error\n"),
    ("a scan before any fresh", FIRST_SCAN, FIRST_ANSWER + "\n"),
    ("S2.2 ON", f"fresh 16384\n{FIRST_SCAN}", "ok\nscan 8192 32799 0 9999 manual 0\n"),
    ("a fresh start ends Auto", f"scan 128 0 0 0 2 0 9\nfresh 0\n{FIRST_SCAN}\n", f"scan 4098 32831 0 0 auto 0\nok\n{FIRST_ANSWER}\n"),
    ("a word cut by a newline", "fre\nsh 0\n", "error\nerror\n"),
    ("a call after a line with NULs", f"\0\0\0\n{FIRST_SCAN}\n", f"error\n{FIRST_ANSWER}\n"),
    ("the greatest numbers", "fresh 65535\nscan 255 10000 10000 10000 207 3 18446744073709551615\n",
     "ok\nscan 17615 65335 9999 0 track 0\n"),
    ("one beyond the greatest", "fresh 65536\nscan 256 0 0 0 0 0 0\nscan 0 65536 0 0 0 0 0\n"
     "scan 0 0 0 0 0 0 18446744073709551616\nscan 0 65535 0 0 0 0 0\n",
     "error\n" * 4 + "refused 1\n"),
    ("a write and reads", "write engineer 20 5\nread 20\nread 29\n", "ok\nvalue 5\nvalue 0\n"),
    ("a value below zero", "write engineer 22 -5\nread 22\nwrite  engineer 022 -0006 \nread 0022", "ok\nvalue -5\nok\nvalue -6\n"),
    ("a fresh start ends what was written", "write engineer 20 5\nfresh 0\nread 20\n", "ok\nok\nvalue 0\n"),
    ("numbers outside 1 to 32", "write engineer 0 0\nwrite engineer 33 0\nwrite engineer -5 0\nread 0\nread -1\nread 33\n",
     "refused 4\n" * 6),
    ("the farthest numbers", f"read {'9' * 18}\nread -{'9' * 18}\nwrite engineer {'9' * 18} 1\naccess engineer -{'9' * 18}\n"
     f"read {'9' * 19}\nwrite engineer -{'9' * 19} 1\naccess engineer {'9' * 19}\n", "refused 4\n" * 4 + "error\n" * 3),
    ("the ends of 32 bits", "".join(f"write engineer {each}\n" for each in (
        "22 2147483647", "22 2147483648", "22 -2147483648", "22 -2147483649", "0 2147483648")),
     "refused 6\nerror\nrefused 6\nerror\nerror\n"),
    ("no writes and no reads", "write\nread\nwrite engineer\nwrite engineer 20\nwrite 20 5\nwrite engineer 20 5 5\nread 20 5\nread\t20\n"
     "write engineer 20 +5\nWrite engineer 20 5\nwriteengineer 20 5\nwrite engineer20 5\nwrite 20 engineer 5\nread engineer 20\nread 20\n",
     "error\n" * 14 + "value 0\n"),
    # Document 02, request 6; pins 80h at the start, 90h with the Computer pin
    ("each writer before any scan", "".join(f"write {writer} {number} 5\n" for writer in ("operator", "engineer", "computer")
                                            for number in (20, 17, 30, 33)) + "read 20\nread 17\n",
     "ok\nrefused 20\nrefused 20\nrefused 4\nok\nok\nrefused 5\nrefused 4\nrefused 19\nrefused 19\nrefused 19\nrefused 4\n"
     "value 5\nvalue 5\n"),
    ("the computer with its pin", "scan 144 0 0 0 0 0 36\n" + "".join(f"write computer {number} 5\n" for number in (20, 22, 17, 30, 33))
     + "read 20\nread 22\nread 17\n",
     "scan 8192 36895 0 0 manual 0\nok\nok\nrefused 20\nrefused 20\nrefused 4\nvalue 5\nvalue 5\nvalue 1000\n"),
    ("access", "".join(f"access {writer} {number}\n" for writer in ("operator", "engineer", "computer") for number in (20, 17, 30, 33))
     + "  access   operator  0020 \naccess operator -20\naccess operator 276\nread 20\n",
     "ok\nrefused 20\nrefused 20\nrefused 4\nok\nok\nrefused 5\nrefused 4\nrefused 19\nrefused 19\nrefused 19\nrefused 4\n"
     "ok\nrefused 4\nrefused 4\nvalue 0\n"),
    ("no writers", "".join(f"write {writer} 20 5\naccess {writer} 20\nline {writer} 5850 12\n" for writer in NO_WRITERS) + "read 20\n",
     "error\n" * 3 * len(NO_WRITERS) + "value 0\n"),
    ("no questions for access", "access\naccess operator\naccess 20\naccess 20 operator\naccess operator 20 5\naccess operator x\n"
     "access operator +20\naccess operator 20.\nAccess operator 20\nacces operator 20\naccessoperator 20\naccess operator20\n"
     "access\toperator 20\n", "error\n" * 13),
    ("a save, and a restart from it", f"save 137\nwrite engineer 20 5\nrestart {IMAGE}\nread 20\nrestart {IMAGE.lower()}\n",
     f"image {IMAGE}\nok\nok\nvalue 0\nok\n"),
    ("the ends of a buffer's length", "save 136\nsave 0\nsave -0\nsave 300\nsave 0000137\nsave 301\nsave -1\nsave 65673\n",
     "refused 15\n" * 3 + f"image {IMAGE}\n" * 2 + "error\n" * 3),
    ("no bytes, one byte, and too many", f"restart -\nrestart 00\nrestart {IMAGE}00\nrestart {'0' * 600}\nrestart 0{IMAGE[:-1]}\n",
     "refused 12\n" * 4 + "refused 13\n"),
    ("no saves and no restarts",
     f"save\nrestart\nsave 137 137\nsave x\nsave +137\nSave 137\nsave137\nsave -\nrestart {IMAGE} -\nrestart - {IMAGE}\nrestart --\n"
     f"restart {IMAGE[:-1]}\nrestart {IMAGE}0\nrestart 0x{IMAGE}\nrestart {IMAGE}h\nrestart -{IMAGE}\nrestart +{IMAGE}\n"
     f"restart {IMAGE[:40]} {IMAGE[40:]}\n"
     f"restart {IMAGE[:-2]}4g\nrestart {IMAGE[:-2]}:2\nrestart {IMAGE[:-2]}`2\nrestart {IMAGE[:-2]}@2\nrestart {IMAGE[:-2]}/2\n"
     f"Restart {IMAGE}\nrestart{IMAGE}\nread 24\n",
     "error\n" * 25 + "value 8192\n"),
    ("a sheet before any scan",
     "sheet\nsheet-last\nscan 0 10001 0 0 0 0 0\nsheet-last\nfresh 0\nsheet-last\nsheet-feed auto -7 65533 9\nsheet-last\nsheet-new\n"
     f"sheet-last\nsheet\nsheet-feed auto -7 65533 9\nsheet\n{FIRST_SCAN}\nsheet-last\nsheet",
     f"{EMPTY}\nerror\nrefused 1\nerror\nok\nerror\nok\nerror\nok\nerror\n{EMPTY}\nok\n"
     "sheet scans=1 hold=0 track=0 forced=0 manual=0 auto=1 remote=0 ratio=0 fallback=0 max=-7@1 min=-7@1 alarms=1 sumpv=-7 sumop=9\n"
     f"{FIRST_ANSWER}\nok\n"
     "sheet scans=2 hold=0 track=0 forced=0 manual=1 auto=1 remote=0 ratio=0 fallback=0 max=0@2 min=-7@1 alarms=1 sumpv=-7 sumop=9\n"),
    ("sheet-last behind a restart alone", f"restart {IMAGE}\nsheet-last\nrestart -\nsheet-last\n", "ok\nerror\nrefused 12\nerror\n"),
    ("the ends of what is fed", "".join(f"sheet-feed {each}\n" for each in (
        "hold -2147483648 0 0", "fallback 2147483647 65535 65535", "track -0 000 00065535", "hold -32769 3 0", "hold 32768 3 0",
        "hold -2147483649 0 0", "hold 2147483648 0 0", "hold 0 -1 0", "hold 0 65536 0", "hold 0 0 -1", "hold 0 0 65536",
        "hold 4294967296 0 0", "hold -4294967297 0 0", "hold 0 4294967296 0", "hold 0 0 4294967296")) + "sheet\n",
     "ok\n" * 5 + "error\n" * 10 + "sheet scans=5 hold=3 track=1 forced=0 manual=0 auto=0 remote=0 ratio=0 fallback=1 "
     "max=2147483647@2 min=-2147483648@1 alarms=2 sumpv=-2 sumop=131070\n"),
    ("no calls on the sheet",
     "sheet-feed\nsheet-feed hold\nsheet-feed hold 0 0\nsheet-feed hold 0 0 0 0\nsheet-feed 0 0 0\nsheet-feed 0 hold 0 0\n"
     "sheet-feed Hold 0 0 0\nsheet-feed HOLD 0 0 0\nsheet-feed forced-manual 0 0 0\nsheet-feed fall-back 0 0 0\nsheet-feed hold 0 0 x\n"
     "sheet-feed hold +1 0 0\nsheet-feed forced manual 0 0 0\nsheet-new 0\nsheet-last 0\nsheet 0\nsheet new\nsheet last\nsheet-new -\n"
     "sheet sheet\nSheet\nSHEET\nSheet-new\nsheet-New\nsheet-\nsheetnew\nsheet_new\nsheet-last\nsheet\n",
     "error\n" * 28 + f"{EMPTY}\n"),
    ("words that are no line of the console", "number 0 1\nkept\nfeed hold 0 0 0\nnumber\nfeed\nkept 0\nfeed auto -7 65533 9\n"
     "sheet\nsheet-kept\nsheet\n", "error\n" * 7 + f"{EMPTY}\nok\n{EMPTY}\n"),
    ("sheets begun with numbers", f"sheet-kept\nsheet-number 0 1\nsheet-kept\n{ONE_SCAN}sheet-kept\nsheet\nfresh 5\nsheet-new\n"
     f"restart {IMAGE}\nsheet\nsheet-kept\n{FIRST_SCAN}\nsheet-last\nsheet\nsheet-number 14 -8\nsheet-kept\nsheet-number 14 -7\n"
     "sheet-kept\nsheet\n",
     "ok\nok\nrefused\n" + "ok\n" * 7 + f"{ONE_KEPT}\nok\nok\nok\n{EMPTY}\nok\n{FIRST_ANSWER}\nok\n"
     f"{sheet(2, '0@2', '-7@1', sumpv=-7, auto=1, manual=1)[1]}\nok\nrefused\nok\nok\n{ONE_KEPT}\n"),
    ("no places, and no numbers", "".join(f"sheet-number {each}\n" for each in (
        "", "0", "0 0 0", "16 0", "-1 0", "x 0", "0 x", "0 +1", "256 1", "4294967296 1", "0 1234567890123456789")) + "sheet-kept 0\n"
     "sheet-kept -\nSheet-kept\nsheet-Kept\nsheetkept\nsheet-number\t0 1\nsheet-kept\t\nsheet-kept\nsheet\n",
     "error\n" * 18 + f"ok\n{EMPTY}\n"),
    # Each leaves the others: the root of 5 x 10000 is 223, 10,000,000 x 1 / (1000 x 1000) units are 655,360 steps
    ("arithmetic between other calls", f"root 5\n{FIRST_SCAN}\n  root  0005 \nproportional 1000 1000 1\nclock\nsheet-last\n"
     "scale 0 1 5000\nsheet\nread 17\nlimit -5 -5 0\nlimit 5 4 0\nscale 1 1 0\nroot 10001\nroot -1\nroot\nroot 5 5\nRoot 5\n"
     f"ratio 1 0\ninverse 5 150\n{SECOND_SCAN}\nsheet-last\nintegral 1000 1000 10 0 1\nderivative 1000 1000 10 0 0 1\nsheet\n",
     f"223\n{FIRST_ANSWER}\n223\n655360\nclock 36\nok\n1\n{sheet(1, '0@1', '0@1', manual=1)[1]}\nvalue 1000\n-5\n" + "error\n" * 8
     + f"8\n{FIRST_ANSWER}\nok\n23593\n-18204444\n{sheet(2, '0@1', '0@1', manual=2)[1]}\n"),
    ("blanks about calls on the sheet", "  sheet-new  \n   sheet-feed   hold  1   3  1 \n sheet-last \n  sheet \n",
     "ok\nok\nerror\nsheet scans=1 hold=1 track=0 forced=0 manual=0 auto=0 remote=0 ratio=0 fallback=0 "
     "max=1@1 min=1@1 alarms=0 sumpv=1 sumop=1\n"),
    ("the lowest refusal wins", "scan 0 10001 0 0 48 255 0\nscan 0 0 0 0 16 4 0\nscan 0 0 0 0 0 4 0\n",
     "refused 1\nrefused 2\nrefused 3\n"),
    # Document 02, request 2: "16 when the reading is less than 30 ms after the last accepted one or lies before it,
    # tested after 3"; "any reading is taken" at first, which no refused scan and no write changes
    ("1, 2 and 3 go before 16", f"{FIRST_SCAN}\nscan 0 10001 0 0 48 255 35\nscan 0 0 0 0 16 4 36\nscan 0 0 0 0 0 4 65\n"
     "scan 128 0 0 0 0 0 65\nscan 128 0 0 0 0 0 0\nclock\n",
     f"{FIRST_ANSWER}\nrefused 1\nrefused 2\nrefused 3\nrefused 16\nrefused 16\nclock 36\n"),
    ("29 ms, then 30, 42 and 43", f"{FIRST_SCAN}\nscan 128 0 0 0 0 0 65\nscan 128 0 0 0 0 0 66\nscan 128 0 0 0 0 0 108\n"
     "scan 128 0 0 0 0 0 151\nclock\n", f"{FIRST_ANSWER}\nrefused 16\n" + f"{FIRST_ANSWER}\n" * 3 + "clock 151\n"),
    ("the clock before any scan", "clock\nscan 0 10001 0 0 0 0 5\nclock\nwrite engineer 20 5\nclock\n",
     "clock none\nrefused 1\nclock none\nok\nclock none\n"),
    ("the clock behind starts and restarts", f"{FIRST_SCAN}\nclock\nrestart -\nclock\nrestart {IMAGE}\nclock\n{FIRST_SCAN}\nclock\n"
     f"fresh 0\nclock\nscan 128 0 0 0 0 0 0\nclock\n",
     f"{FIRST_ANSWER}\nclock 36\nrefused 12\nclock 36\nok\nclock none\n{FIRST_ANSWER}\nclock 36\nok\nclock none\n"
     f"{FIRST_ANSWER}\nclock 0\n"),
    ("the end of 64 bits", "scan 128 0 0 0 0 0 18446744073709551556\nscan 128 0 0 0 0 0 18446744073709551586\n"
     "scan 128 0 0 0 0 0 18446744073709551615\nscan 128 0 0 0 0 0 0\nscan 128 0 0 0 0 0 20\nclock\n",
     f"{FIRST_ANSWER}\n{FIRST_ANSWER}\n" + "refused 16\n" * 3 + "clock 18446744073709551586\n"),
    ("the forms of a reading", "scan 128 0 0 0 0 0 00000000000000000007\nclock\nscan 128 0 0 0 0 0 18446744073709551615\nclock\n",
     f"{FIRST_ANSWER}\nclock 7\n{FIRST_ANSWER}\nclock 18446744073709551615\n"),
    ("no readings", "".join(f"scan 128 0 0 0 0 0 {reading}\n" for reading in NO_READINGS) + "clock\n",
     "error\n" * len(NO_READINGS) + "clock none\n"),
    ("a line of the terminal, in other forms", f"{XP_LINE}\n  line   operator   5850  0012 \nline computer 5850 12\n"
     "line engineer 58503E30303530 300\nline engineer 58503e3135 9\nline engineer 58503E35 000000000000000009\nread 17\n",
     f"{XP_REPLY}\n" * 3 + "reply 5 58503E3530\nreply 5 58503E3135\nreply 4 58503E35\nvalue 5\n"),
    ("the ends of a reply's buffer", "".join(f"line engineer {each}\n" for each in (
        "5850 300", "5850 9", "5850 8", "5850 0", "5850 -0", "- 0", "- 300")),
     f"{XP_REPLY}\n" * 2 + "refused 15\n" * 3 + "refused 17\n" * 2),
    ("the longest lines of the terminal", f"line engineer {'30' * 300} 12\nline engineer 5850{'00' * 298} 0\n"
     f"line engineer 58503E{'30' * 297} 300\n",
     "refused 17\nrefused 18\nrefused 18\n"),
    ("no lines of the terminal", "".join(f"{line}\n" for line in NO_LINES) + f"{XP_LINE}\n", "error\n" * len(NO_LINES) + f"{XP_REPLY}\n"),
    ("no calls of the clock", "clock 0\nclock none\nclock -\nClock\nCLOCK\nclocks\ncloc\nclock\t\n clock \n",
     "error\n" * 8 + "clock none\n"),
)


def overlong():
    """Lines of exactly the longest length, one byte longer and far longer, alone and between others, with and without a
    last newline.
    """
    for length in (LONGEST_LINE - 1, LONGEST_LINE, LONGEST_LINE + 1, 2 * LONGEST_LINE, 5000, 70000):
        expected = "ok" if length <= LONGEST_LINE else "error"
        missing = " " * (length - len("fresh 0"))
        for name, line in (("behind", "fresh 0" + missing), ("before", missing + "fresh 0"), ("inside", f"fresh {missing}0")):
            yield f"{length} bytes, blanks {name}", f"{line}\n", f"{expected}\n"
            yield f"{length} bytes, blanks {name}, no newline", line, f"{expected}\n"
        yield (f"{length} bytes between scans", f"{FIRST_SCAN}\nfresh 0{missing}\n{SECOND_SCAN}\n",
               f"{FIRST_ANSWER}\n{expected}\n{FIRST_ANSWER}\n")
        yield f"{length} digits and letters", f"{'7' * length}\n{'x' * length}\nfresh 1\n", "error\nerror\nok\n"
    for length in (LONGEST_LINE, LONGEST_LINE + 1):
        expected = "ok" if length <= LONGEST_LINE else "error"
        yield f"a restart of {length} bytes", f"restart {IMAGE.rjust(length - len('restart '))}\n", f"{expected}\n"
    calls = "fresh 0 " * 100  # 800 bytes: what stands behind the 700th byte is no call of its own
    yield "an overlong line of calls", f"{calls}\n{FIRST_SCAN}\n", f"error\n{FIRST_ANSWER}\n"


def cut_short(answers_of):
    """An input that ends after any byte of its last line; of an image after some bytes only."""
    RB = "write engineer 22 -7\n"
    for text in ("fresh 1024\nscan 192 4990 20 5000 4 0 0\nscan 0160  1001 -0 070 66 03  000036", f"{RB}write engineer 0022  -2147483649",
                 f"{RB}write  computer 22  -5 ", f"{RB}access operator  0022 ", f"{RB}read 0022", f"{RB}save  0000000137 ",
                 f"{RB}restart {IMAGE} ",
                 "sheet-feed ratio -7 1 9\nsheet-feed forced  -2147483648 65535 065535 ", f"{ONE_SCAN}sheet-number 0 1\nsheet-kept ",
                 "sheet-feed ratio -7 1 9\n sheet-number  0015  -999999999999999999 ", "root 4\n derivative 1000  1000 0010 0 0  -100 ",
                 "root 4\nlimit -5  5 0009", "sheet-feed ratio -7 1 9\nsheet-last  ",
                 "sheet-feed ratio -7 1 9\nsheet-new ", "sheet-feed ratio -7 1 9\n sheet 0", "scan 128 0 0 0 0 0 9\nclock 9",
                 f"{RB}line engineer 52423E2D30303939 0012 ", f"{RB}line operator 5242  009", f"{RB}line computer -  300"):
        first = text.index("\n") + 1
        lengths = range(first, len(text) + 1)
        for length in lengths if len(lengths) < 100 else (*lengths[:14], *lengths[14:-6:25], *lengths[-6:]):
            yield f"cut after {length} bytes", text[:length], "".join(answer + "\n" for answer in answers_of(lines_in(text[:length])))


def whole(answers_of):
    """Name, the input's text and the output's text of each."""
    return [*BY_HAND, *overlong(), *cut_short(answers_of)]


def in_pieces(lines, answers_of):
    """Inputs that come piece by piece: the size of a piece, the text and the output's text."""
    few = "\n".join(lines[:40])
    many = "\n".join(lines) + "\n"
    for size, text in ((1, few), (2, few), (13, few), (699, many), (700, many), (701, many), (1024, many), (4095, many), (4097, many)):
        yield size, text, "".join(answer + "\n" for answer in answers_of(lines_in(text)))
