"""Images, saves and restarts worked by hand, for each rule of the image; in the form of tests/figures/scans.py.

Every sumcheck is written out as it was worked by hand: AC42h of a fresh image, and what the other values add to it.
With HO 3000 and LO 2000 it is 1387h less, 98BBh.
"""

from tests.figures.scans import LIMITS, RAISE, S2_1, S2_2, S2_4, S2_5, S2_6, UNIT, A, Case, M, R, scan, track

# A fresh image, field by field: tag, length and value; 9999 is 270Fh and -9999 is D8F1h.  The sumcheck: 4 x 03E8h (1H,
# 2H, HS, XP) are 0FA0h; 5 x 270Fh (HR, HA, HD, LD, HO) are C34Bh, with D8F1h (LA) 9C3Ch; 9C3Ch + 0FA0h = ABDCh; with 1
# (3H), 1 (LR) and 64h (RS) AC42h.
FIELDS = {
    "channel_1H": "010002 03E8", "channel_1L": "020002 0000", "channel_2H": "030002 03E8", "channel_2L": "040002 0000",
    "channel_3H": "050002 0001", "channel_3L": "060002 0000", "HR": "070002 270F", "LR": "080002 0001", "HS": "090002 03E8",
    "LS": "0A0002 0000", "HA": "0B0002 270F", "LA": "0C0002 D8F1", "HD": "0D0002 270F", "LD": "0E0002 270F", "HO": "0F0002 270F",
    "LO": "100002 0000", "XP": "110002 03E8", "TI": "120002 0000",
    "TD": "130002 0000", "SL": "140002 0000", "RS": "150002 0064", "RB": "160002 0000", "IC": "170002 0000", "OP": "410002 0000",
    "request": "420001 00", "fault": "430001 00", "user_bits": "440001 00", "sumcheck": "7F0002 AC42"}
FRESH = "image " + "".join(FIELDS.values()).replace(" ", "")


def image(sumcheck, **values):
    """A fresh image with other values, and this sumcheck; a value is a number, or the digits of the whole field."""
    fields = dict(FIELDS)
    for name, value in {**values, "sumcheck": sumcheck}.items():
        head, digits = fields[name].split()
        fields[name] = value if isinstance(value, str) else f"{head} {value % (1 << 4 * len(digits)):0{len(digits)}X}"
    return bytes.fromhex("".join(fields.values()))


def restart(sumcheck, **values):
    return ("restart", image(sumcheck, **values))


def saved(name, SW, set_before, calls, sumcheck, **values):
    return Case("saved: " + name, SW, set_before, [*calls, ("save", 137)], {"answer": f"image {image(sumcheck, **values).hex().upper()}"})


def accepted(name, SW, calls, **expected):
    return Case("restarted: " + name, SW, {}, calls, {"answer": "ok", **expected})


def refused(number, name, call, calls=(), **kept):
    return Case(f"refused {number}: {name}", 0, {}, [*calls, call], {"answer": f"refused {number}", **kept})


def wrong(name, expected, SW=0, **values):
    """A restart with a wrong sumcheck: 0000h is none of the sums."""
    return Case("wrong sumcheck: " + name, SW, {}, [restart(0x0000, **values)], {"answer": "ok", "MD": 0x2100, **expected})


FAULT = restart(0xAC43, fault=1)
IN_AUTO, IN_REMOTE = restart(0xAC43, request=1), restart(0xAC44, request=2)
SL_5 = [("write", 20, 5)]
NOT_RESTORED = {"SL": 5, "MD": 0x2000, "OP": 0}
ALL_WRONG = {"channel_1H": 10000, "channel_1L": -10000, "channel_2H": 0x7FFF, "channel_2L": -0x8000, "channel_3H": 10001,
             "channel_3L": -10001, "HR": 10000, "LR": 0, "HS": 10000, "LS": -10000, "HA": 10000, "LA": -10000, "HD": -1, "LD": -1, "HO": -1,
             "LO": 10000, "XP": 0, "TI": -1, "TD": -1, "RB": 10000, "IC": 2}
DEFAULTS = {"channel_1H": 1000, "channel_1L": 0, "channel_2H": 1000, "channel_2L": 0, "channel_3H": 1, "channel_3L": 0, "HR": 9999, "LR": 1,
            "HS": 1000, "LS": 0, "HA": 9999, "LA": -9999, "HD": 9999, "LD": 9999, "HO": 9999, "LO": 0, "XP": 1000, "TI": 0, "TD": 0,
            "RB": 0, "IC": 0}

CASES = (
    # Save
    Case("saved: a fresh image", 0x1234, {}, [("save", 137)], {"answer": FRESH}),
    Case("saved: into 300 bytes", 0, {}, [("save", 300)], {"answer": FRESH}),
    *(refused(15, f"{length} bytes", ("save", length)) for length in (0, 1, 136)),
    saved("two's complement", 0, {"channel_1L": -500, "LS": -1}, [], 0xAA4D, channel_1L=-500, LS=-1),  # FE0Ch + FFFFh, less 20000h
    saved("request A, user bit 2, bit 4", 0, {"SL": 500, "request": "A", "user_bits": 2, "measured_power": True}, [], 0xAE3D, SL=500,
          request=1, user_bits=6),
    saved("user bit 1", 0, {"user_bits": 1}, [], 0xAC43, user_bits=1), saved("bit 4", 0, {"measured_power": True}, [], 0xAC46, user_bits=4),
    saved("request R in Hold", 0, {}, [scan(0, buttons=R)], 0xAC44, request=2),
    saved("OP in Track", 0, {}, [track(10000)], 0xD352, OP=9999, request=1),
    # 5 x 0.36 units are 1.8
    saved("OP is the floor", 0, {"SL": 1, "TI": 10}, [track(0), *[scan()] * 5], 0xAC4F, SL=1, TI=10, OP=1, request=1),
    saved("the fault", 0, {}, [FAULT, scan(buttons=A)], 0xAC43, fault=1),
    saved("what scans show isn't in it", 0, {}, [scan(0x91, 5000, 5000, 5000, RAISE, 3)], 0xAC4E, OP=12),
    # Restart with a sound image
    accepted("a fresh image", 0, [*SL_5, restart(0xAC42)], SL=0, SP=0, MD=0x2000, DS=0x801F, memory_fault=False),
    accepted("request A", 0, [IN_AUTO], MD=0x1000, DS=0x803F),
    accepted("request R is Fall-back", 0, [scan(0xA0), IN_REMOTE], MD=0x1000, DS=0x803F, request="R"),
    Case("restarted: request R, then the Remote pin", 0, {}, [IN_REMOTE, scan(0xA0)],
         {"MD": 0x0C00, "DS": 0xA02F, "mode": "Remote"}),
    Case("restarted: request R, S2.1 ON, then the Remote pin", S2_1, {}, [IN_REMOTE, scan(0xA0)],
         {"MD": 0x0C00, "SP": 0, "mode": "Ratio"}),
    accepted("in Hold", 0, [scan(0x31, buttons=0xC0), restart(0xAC42)], MD=0x2000, DS=0x801F, pins=0x80, buttons=0),
    accepted("in Track", 0, [track(5000), restart(0xAC42)], MD=0x2000, OP=0),
    accepted("PV is 1L, SP is SL", 0, [scan(0x80, 9000), restart(0xACA6, channel_1L=7, SL=93)], PV=7, SP=93, ER=-86, MP=0, channel_1L=7),
    accepted("MP", 0, [restart(0xAC46, user_bits=4), scan(third=10000), restart(0xAC46, user_bits=4)], MP=0, MD=0x2010),
    accepted("battery and alarms of the scan before", 0, [("write", 11, -9999), scan(0x80, 5000, sensors=2), restart(0xAC42)], DS=0x801F),
    accepted("user bits and bit 4", 0, [restart(0xAC49, user_bits=7)], DS=0x80DF, MD=0x2010, user_bits=3),
    accepted("user bit 1", 0, [restart(0xAC43, user_bits=1)], DS=0x805F),
    accepted("OP", 0, [restart(0xBFCA, OP=5000)], OP=5000, output=5000 * UNIT),
    accepted("OP below LO", 0, [restart(0x9CA3, OP=1000, **LIMITS)], OP=2000),
    accepted("OP above HO", 0, [restart(0xAC43, OP=5000, **LIMITS)], OP=3000),
    accepted("OP at HO", 0, [restart(0xA473, OP=3000, **LIMITS)], OP=3000),
    accepted("a fraction isn't kept", 0, [track(7), restart(0xAC44, OP=1, request=1)], output=UNIT),
    accepted("S2.5 ON", S2_5, [restart(0xA280, OP=2500, request=1, **LIMITS)], OP=2000, MD=0x2000, request="M"),
    accepted("S2.5 and S2.2 ON", S2_5 | S2_2, [restart(0xA281, OP=2500, request=2, **LIMITS)], OP=3000, MD=0x2000),
    accepted("S2.2 ON", S2_2, [restart(0xA27F, OP=2500, **LIMITS)], OP=2500),
    accepted("S2.6 ON", S2_6, [restart(0xAC47, SL=5)], SL=5, SP=5),
    Case("restarted: SW is kept", 0x0ACE, {}, [restart(0xAC42)], {"answer": "ok", "SW": 0x0ACE}),
    # The memory fault
    accepted("fault 1", 0, [FAULT], MD=0x2100, DS=0x801B, HO=9999),
    accepted("fault 1, S2.5 OFF", S2_2, [restart(0xA280, OP=2500, fault=1, **LIMITS)], OP=2500, HO=3000, LO=2000),
    accepted("fault 1, S2.5 ON", S2_5, [restart(0xA280, OP=2500, fault=1, **LIMITS)], OP=2000, MD=0x2100),
    accepted("ends the fault", 0, [FAULT, IN_AUTO], MD=0x1000, DS=0x803F, memory_fault=False),
    Case("a fresh start ends the fault", 0, {}, [FAULT, ("fresh", 0)], {"answer": "ok", "MD": 0x2000}),
    refused(12, "keeps the fault", ("restart", b""), [FAULT], MD=0x2100),
    Case("the fault in a scan", 0, {}, [FAULT, scan(buttons=A)],
         {"MD": 0x2102, "DS": 0x801B, "request": "M", "mode": "Forced Manual"}),
    Case("the fault cleared, then Auto", 0, {}, [FAULT, ("write", 24, 0x2000), scan(buttons=A)],
         {"MD": 0x1002, "DS": 0x803F, "mode": "Auto"}),
    # What is forgotten
    Case("84 open scans before", 0, {}, [*[scan(sensors=1)] * 84, IN_AUTO, scan(sensors=1)],
         {"MD": 0x1000, "open_count": 1, "mode": "Auto"}),
    accepted("85 open scans before", 0, [*[scan(sensors=1)] * 85, IN_AUTO], MD=0x1000, DS=0x803F, open_count=0),
    Case("84 open scans behind", 0, {}, [*[scan(sensors=1)] * 9, IN_AUTO, *[scan(sensors=1)] * 84],
         {"MD": 0x1000, "mode": "Auto"}),
    Case("85 open scans behind", 0, {}, [*[scan(sensors=1)] * 9, IN_AUTO, *[scan(sensors=1)] * 85],
         {"MD": 0x2200, "mode": "Forced Manual"}),
    Case("no earlier PV", 0, {}, [track(0, 900), restart(0xAFFC, TD=10, OP=942, request=2), scan(first=10)], {"OP": 942, "PV": 1}),
    Case("no earlier PV, then one", S2_4, {}, [restart(0xAFFA, OP=951, request=1), scan(first=10), scan(first=20)], {"OP": 961}),
    # Refusals
    *(refused(12, f"{len(each)} bytes", ("restart", each), SL_5, **NOT_RESTORED)
      for each in (b"", image(0xAC42)[:136], image(0xAC42) + b"\0", image(0xAC42) * 2)),
    refused(12, "137 of 138 would be right", ("restart", b"\x01" + image(0xAC42)), SL_5, **NOT_RESTORED),
    refused(13, "tag 1 is 0", restart(0xAC42, channel_1H="000002 03E8"), SL_5, **NOT_RESTORED),
    refused(13, "tag 7Fh is FFh", restart("FF0002 AC42"), SL_5, **NOT_RESTORED),
    refused(13, "length 1 is 1", restart(0xAC42, channel_1H="010001 03E8"), SL_5),
    refused(13, "length 1 is 0102h", restart(0xAC42, channel_1H="010102 03E8"), SL_5),
    refused(13, "length of 42h is 2", restart(0xAC42, request="420002 00"), SL_5),
    refused(13, "two tags exchanged", restart(0xAC42, channel_1H="020002 03E8", channel_1L="010002 0000")),
    refused(13, "and a wrong sumcheck", restart(0x0000, user_bits="450001 00")),
    refused(13, "and an illegal value", restart(0xAC45, request="430001 03")),
    refused(14, "1L at 1H", restart(0xB02A, channel_1L=1000), SL_5, **NOT_RESTORED),
    refused(14, "LS above HS", restart(0xB02B, LS=1001), SL_5, **NOT_RESTORED),
    refused(14, "SL above HS", restart(0xB02B, SL=1001), SL_5, **NOT_RESTORED),
    refused(14, "RS below LR", restart(0xABDE, RS=0), SL_5, **NOT_RESTORED),
    refused(14, "SL below its own LS", restart(0xAD3D, LS=251), SL_5), refused(14, "XP at 0", restart(0xA85A, XP=0), SL_5),
    refused(14, "IC at 2", restart(0xAC44, IC=2)),
    refused(14, "OP at 10000", restart(0xD352, OP=10000), SL_5, **NOT_RESTORED), refused(14, "OP at FFFFh", restart(0xAC41, OP=0xFFFF)),
    refused(14, "request 3", restart(0xAC45, request=3)),
    refused(14, "fault 2", restart(0xAC44, fault=2)), refused(14, "fault 1 with request 1", restart(0xAC44, fault=1, request=1)),
    refused(14, "44h at 8", restart(0xAC4A, user_bits=8)),
    Case("refused 14: S2.5 doesn't help", S2_5, {}, [restart(0xAC45, request=3)], {"answer": "refused 14"}),
    accepted("LS at HS", 0, [restart(0xB412, LS=1000, SL=1000)], SL=1000, LS=1000, ER=-1000),
    # A wrong sumcheck
    wrong("nothing else", {"DS": 0x801B, "HO": 9999, "LO": 0, "OP": 0, "SL": 0, "request": "M", "memory_fault": True}),
    Case("wrong sumcheck: one too high", 0, {}, [restart(0xAC4A, SL=7)], {"answer": "ok", "MD": 0x2100, "SL": 7}),
    wrong("HO, LO and OP", {"HO": 9999, "LO": 0, "OP": 0}, OP=2500, **LIMITS),
    wrong("S2.2 ON", {"HO": 9999, "LO": 0, "OP": 9999}, S2_2, OP=2500, **LIMITS),
    wrong("request and fault bytes", {"request": "M"}, request=200, fault=77), wrong("OP beyond its range", {"OP": 0}, OP=20000),
    wrong("all out of range", DEFAULTS, SL=400, **ALL_WRONG), wrong("SL stays", {"SL": 400}, SL=400, **ALL_WRONG),
    wrong("at the ends", {"channel_1H": 9999, "channel_1L": -9999, "HD": 0, "XP": 1, "RB": -9999, "IC": 1},
          channel_1H=9999, channel_1L=-9999, HD=0, XP=1, RB=-9999, IC=1),
    wrong("a pair out of order", {"channel_2H": 1000, "channel_2L": 0, "channel_1L": 5}, channel_2H=-5, channel_2L=300, channel_1L=5),
    wrong("a channel's pair equal", {"channel_3H": 1, "channel_3L": 0}, channel_3H=8, channel_3L=8),
    wrong("another pair equal", {"HA": 8, "LA": 8}, HA=8, LA=8),
    wrong("out of order by a default", {"HS": 1000, "LS": 0, "SL": 1000}, HS=10000, LS=2000, SL=1500),
    wrong("in order by a default", {"HS": 1000, "LS": -300, "SL": -200}, HS=-10000, LS=-300, SL=-200),
    wrong("SL above HS", {"SL": 300, "SP": 300, "ER": -300}, HS=300, SL=0x7FFF),
    wrong("SL below LS", {"SL": -70, "SP": -70}, LS=-70, SL=-0x8000),
    wrong("RS above HR", {"RS": 50}, HR=50), wrong("RS below LR", {"RS": 120}, LR=120, RS=-1),
    wrong("RS by the defaults", {"RS": 9999}, HR=0, RS=10000),
    wrong("44h at 7", {"DS": 0x80DB, "MD": 0x2110}, user_bits=7), wrong("44h at 8", {"DS": 0x801B, "MD": 0x2100}, user_bits=8),
    wrong("44h at 255", {"DS": 0x801B}, user_bits=255),
    # A power cut: SL goes from 500 to 510, RS from 100 to 90 and OP from 0 to 1234 (sumchecks AE36h and B308h); the
    # newer bytes end behind RS, at 105
    Case("a cut that the sumcheck doesn't show", 0, {}, [("restart",
                                                          image(0xB308, SL=510, RS=90, OP=1234)[:105] + image(0xAE36, SL=500)[105:])],
         {"answer": "ok", "MD": 0x2000, "SL": 510, "RS": 90, "OP": 0}),
    Case("a cut that it shows", 0, {}, [("restart", image(0xB308, SL=510, RS=90, OP=1234)[:100] + image(0xAE36, SL=500)[100:])],
         {"answer": "ok", "MD": 0x2100, "SL": 510, "RS": 100, "OP": 0}),
    Case("wrong sumcheck: Raise", 0, {}, [restart(0, **LIMITS), scan(buttons=RAISE)],
         {"OP": 12, "MD": 0x2140, "mode": "Forced Manual"}),
    Case("wrong sumcheck: M, A and R", 0, {}, [restart(0), scan(0xA0, buttons=M | A | R)],
         {"MD": 0x2507, "mode": "Forced Manual"}),
)
