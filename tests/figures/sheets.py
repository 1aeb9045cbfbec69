"""Drying sheets worked by hand from document 02, request 1, as lines for the console with the answers expected.

In the form of tests/figures/manual.py; each begins behind a fresh start with SW 0.
"""

from tests.figures.images import image

# The whole line once; elsewhere a function puts it together
EMPTY = ("sheet scans=0 hold=0 track=0 forced=0 manual=0 auto=0 remote=0 ratio=0 fallback=0 "
         "max=none min=none alarms=0 sumpv=0 sumop=0")
MODES = ("hold", "track", "forced", "manual", "auto", "remote", "ratio", "fallback")
NEW, LAST = ("sheet-new", "ok"), ("sheet-last", "ok")


def sheet(scans, greatest, least, alarms=0, sumpv=0, sumop=0, **modes):
    """The line and what it answers; modes that aren't named have no scans."""
    counts = " ".join(f"{mode}={modes.get(mode, 0)}" for mode in MODES)
    return "sheet", f"sheet scans={scans} {counts} max={greatest} min={least} alarms={alarms} sumpv={sumpv} sumop={sumop}"


def fed(mode, *PVs, DS=0xFFFF, OP=0):
    return [(f"sheet-feed {mode} {PV} {DS} {OP}", "ok") for PV in PVs]


def kept(answer, *numbers):
    """The sixteen numbers given, and whether a sheet can be begun with them."""
    return [*((f"sheet-number {place} {number}", "ok") for place, number in enumerate(numbers)), ("sheet-kept", answer)]


def with_sum(answer, sum_of_PV):
    """The same with another sum of PV."""
    return [(f"sheet-number 14 {sum_of_PV}", "ok"), ("sheet-kept", answer)]


def entered(line, answer):
    """A scan, its answer, and the answer entered."""
    return [(line, answer), LAST]


RESTART = (f"restart {image(0xAC42).hex()}", "ok")
FAULT = (f"restart {image(0xAC43, fault=1).hex()}", "ok")
# Three scans in Auto with PVs -7, 9 and 2, one with an alarm, OP 100 each; scans in Hold with PV -7, one less than a
# sheet holds
THREE = 3, *[0] * 4, 3, *[0] * 3, 9, 2, -7, 1, 1, 4, 300
MOST = 4294967294, 4294967294, *[0] * 7, -7, 1, -7, 1, 0, -7 * 4294967294, 0
FIGURES = (
    ("an empty sheet", (NEW, ("sheet", EMPTY))),
    ("one scan", (NEW, *entered("scan 145 5000 0 0 2 0", f"scan {0x1002} {0x913F} 0 0 auto 500"),
                  sheet(1, "500@1", "500@1", auto=1, sumpv=500))),
    # From Manual to Remote c - c1 is 100 + 300, which gives 4000 units; SL is then 500 and stays, as does the output
    ("each mode once", (
        NEW, *entered("scan 0 1000 0 0 0 0", f"scan {0x8000} {0x001F} 0 0 hold 100"),
        *entered("scan 192 2000 0 4000 0 0", f"scan {0x4000} {0xC03F} 4000 4000 track 200"),
        *entered("scan 128 3000 0 0 0 0", f"scan {0x2000} {0x801F} 4000 4000 manual 300"),
        *entered("scan 160 4000 5000 0 4 0", f"scan {0x0C04} {0xA02F} 8000 8000 remote 400"),
        *entered("scan 128 4000 0 0 0 0", f"scan {0x1000} {0x803F} 8000 8000 fallback 400"),
        *entered("scan 128 4000 0 0 2 0", f"scan {0x1002} {0x803F} 8000 8000 auto 400"),
        ("fresh 32768", "ok"), *entered("scan 160 9000 0 0 4 0", f"scan {0x0C04} {0xA02F} 0 0 ratio 900"),
        FAULT, *entered("scan 128 700 0 0 0 0", f"scan {0x2100} {0x801B} 0 0 forced 70"),
        sheet(8, "900@7", "70@8", sumpv=2770, sumop=32000, **dict.fromkeys(MODES, 1)))),
    *((f"{mode} alone", (NEW, *fed(mode, 1, 1, 1), sheet(3, "1@1", "1@1", sumpv=3, **{mode: 3}))) for mode in MODES),
    # "the number of the scan where each came first"
    ("extremes that come again", (NEW, *fed("hold", 5, 7, 7, -3, -3, 7, 5, -3), sheet(8, "7@2", "-3@4", hold=8, sumpv=22))),
    ("every PV below zero", (NEW, *fed("auto", -5, -2, -9), sheet(3, "-2@2", "-9@3", auto=3, sumpv=-16))),
    ("every PV above zero", (NEW, *fed("auto", 5, 9, 2), sheet(3, "9@2", "2@3", auto=3, sumpv=16))),
    ("equal PVs", (NEW, *fed("auto", 0, 0), sheet(2, "0@1", "0@1", auto=2))),
    ("the ends of 16 bits", (NEW, *fed("auto", 32767, -32768), sheet(2, "32767@1", "-32768@2", auto=2, sumpv=-1),
                             *fed("auto", 32768, -32769), sheet(4, "32768@3", "-32769@4", auto=4, sumpv=-2))),
    ("the ends of PV", (NEW, *fed("auto", 2147483647, -2147483648), sheet(2, "2147483647@1", "-2147483648@2", auto=2, sumpv=-1),
                        ("sheet-feed auto 2147483648 65535 0", "error"), ("sheet-feed auto -2147483649 65535 0", "error"),
                        sheet(2, "2147483647@1", "-2147483648@2", auto=2, sumpv=-1))),
    # "scans with either alarm or both": one count; battery low and a cause, FFF3h, are no alarms
    *((f"DS {DS:04X}h", (NEW, *fed("ratio", 0, DS=DS), sheet(1, "0@1", "0@1", alarms, ratio=1)))
      for DS, alarms in ((0x0000, 1), (0x0001, 1), (0x0002, 1), (0x0003, 0), (0xFFFC, 1), (0xFFFD, 1), (0xFFFE, 1), (0xFFFF, 0),
                         (0xFFF3, 0))),
    ("alarms of two scans", (NEW, *fed("ratio", 0, DS=0), *fed("ratio", 0), *fed("ratio", 0, DS=1),
                             sheet(3, "0@1", "0@1", 2, ratio=3))),
    # "the sum of PV and of OP": of OP, not of the electrical output; with S2.2 ON it is 9999
    ("the sum of OP", (NEW, ("fresh 16384", "ok"), *entered("scan 128 0 0 0 64 0", f"scan {0x2040} {0x801F} 12 9987 manual 0"), LAST,
                       sheet(2, "0@1", "0@1", manual=2, sumop=24))),
    ("greatest PVs", (NEW, *fed("hold", *[2147483647] * 3), sheet(3, "2147483647@1", "2147483647@1", hold=3, sumpv=6442450941))),
    ("greatest sums", (NEW, *fed("track", 32767, 32767, OP=65535), sheet(2, "32767@1", "32767@1", track=2, sumpv=65534, sumop=131070))),
    # A refused scan has no answer to enter; nothing of the sheet is in the controller
    ("a refused scan between", (NEW, ("scan 128 50 0 0 0 0", None), ("scan 128 60 0 0 48 0", "refused 2"), LAST,
                                sheet(1, "5@1", "5@1", manual=1, sumpv=5))),
    ("a fresh start between", (NEW, ("scan 128 50 0 0 0 0", None), LAST, ("fresh 7", "ok"), LAST,
                               sheet(2, "5@1", "5@1", manual=2, sumpv=10))),
    ("a restart between", (NEW, ("scan 128 50 0 0 0 0", None), LAST, RESTART, LAST, sheet(2, "5@1", "5@1", manual=2, sumpv=10))),
    ("begun anew", (NEW, *fed("hold", 9, -9, DS=0, OP=1), NEW, ("sheet", EMPTY), *fed("forced", 4),
                    sheet(1, "4@1", "4@1", forced=1, sumpv=4))),
    # A sheet is begun with the sixteen numbers if a list of answers gives them; starts and sheet-new leave them
    ("numbers that are all 0", (*fed("auto", 3), *kept("ok", *[0] * 16), ("sheet", EMPTY))),
    ("kept numbers", (*kept("ok", *THREE), sheet(3, "9@2", "-7@1", 1, 4, 300, auto=3), *fed("hold", 9, -8, 10),
                      sheet(6, "10@6", "-8@5", 1, 15, 300, auto=3, hold=3))),
    ("kept numbers that stay", (*kept("ok", *THREE), NEW, ("sheet", EMPTY), ("fresh 7", "ok"), RESTART, ("root 5", "223"),
                                *fed("hold", 1), ("sheet-kept", "ok"), sheet(3, "9@2", "-7@1", 1, 4, 300, auto=3))),
    # 9 and -7 with a third PV between them add up to -5 at least and 11 at most
    ("kept numbers of no list", (*kept("ok", *THREE), *with_sum("refused", -6), *with_sum("ok", -5), *with_sum("ok", 11),
                                 *with_sum("refused", 12), sheet(3, "9@2", "-7@1", 1, 11, 300, auto=3))),
    ("no place", (*kept("ok", *THREE), ("sheet-number 16 5", "error"), ("sheet-number -1 5", "error"), ("sheet-number 0", "error"),
                  ("sheet-number 0 5 5", "error"), ("sheet-kept 0", "error"), ("number 0 5", "error"), ("sheet-kept", "ok"),
                  sheet(3, "9@2", "-7@1", 1, 4, 300, auto=3))),
    ("a full sheet", (*kept("ok", *MOST), ("scan 128 50 0 0 0 0", None), LAST, ("sheet-last", "full"), ("sheet-feed hold 9 0 0", "full"),
                      sheet(4294967295, "5@4294967295", "-7@1", 0, 5 - 7 * 4294967294, hold=4294967294, manual=1))),
    ("arithmetic between scans", (NEW, ("scan 145 5000 0 0 2 0", f"scan {0x1002} {0x913F} 0 0 auto 500"), ("root 5", "223"),
                                  ("ratio 103 200", "52"), LAST, ("scale 1 1 5000", "error"), ("limit 5 4 0", "error"),
                                  ("limit -9 -9 7", "-9"), ("scan 145 5000 0 0 0 0", f"scan {0x1000} {0x913F} 0 0 auto 500"), LAST,
                                  sheet(2, "500@1", "500@1", auto=2, sumpv=1000))),
)
