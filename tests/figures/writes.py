"""Writes worked by hand, for each rule of write; in the form of tests/figures/scans.py."""

from tests.figures.scans import LIMITS, LOWER, RAISE, S2_1, S2_5, S2_6, SP, A, Case, M, R, scan, track
from tests.model.table import NUMBER

OPEN, OPEN_84, OPEN_85 = scan(sensors=1), [scan(sensors=1)] * 84, [scan(sensors=1)] * 85
REMOTE = scan(0xA0, 0, 500, 0, R)  # Remote or Ratio with channel 2 at 50
FAULT = {"memory_fault": True}


def write(name, value):
    return ("write", NUMBER[name], value)


def accepted(name, SW, set_before, calls, **expected):
    return Case("accepted: " + name, SW, set_before, calls, {"answer": "ok", **expected})


def refused(number, name, SW, set_before, calls, **kept):
    return Case(f"refused {number}: {name}", SW, set_before, calls, {"answer": f"refused {number}", **kept})


CASES = (
    # Numbers and ranges
    *(refused(4, f"number {number}", 0, {}, [("write", number, 0)]) for number in (0, 33, -1, -20, 276, 65556, (1 << 32) + 20)),
    *(refused(4, f"reading number {number}", 0, {}, [("read", number)]) for number in (0, 33, -1, 257, (1 << 32) + 20)),
    *(refused(5, name, 0, {}, [write(name, 0)]) for name in ("SW", "II", "OP", "SP", "PV", "ER", "MP")),
    refused(5, "read only goes before out of range", 0, {}, [write("PV", 1 << 30)]),
    refused(6, "SL above HS", 0, {"HS": 500}, [write("SL", 501)], SL=0), accepted("SL at HS", 0, {"HS": 500}, [write("SL", 500)], SL=500),
    refused(6, "RS below LR", 0, {"LR": 50}, [write("RS", 49)], RS=100), accepted("RS at LR", 0, {"LR": 50}, [write("RS", 50)], RS=50),
    refused(6, "HR at 0", 0, {}, [write("HR", 0)], HR=9999), refused(6, "XP at 0", 0, {}, [write("XP", 0)], XP=1000),
    refused(6, "IC at 2", 0, {}, [write("IC", 2)], IC=0), refused(6, "TI below 0", 0, {}, [write("TI", -1)], TI=0),
    refused(6, "MD at 65536 and a request", 0, {}, [write("MD", 65536 + 0x1000)], MD=0x2000),
    refused(6, "DS at -1", 0, {}, [write("DS", -1)], DS=0x801F),
    refused(6, "in 16 bits it would be 5", 0, {}, [write("RB", 65541)], RB=0),
    # Pairs, against the stored partner
    refused(7, "1L at 1H", 0, {}, [write("channel_1L", 1000)], channel_1L=0),
    accepted("1L below 1H", 0, {}, [write("channel_1L", 999)], channel_1L=999),
    refused(7, "3H at 3L", 0, {}, [write("channel_3H", 0)], channel_3H=1), refused(7, "LS above HS", 0, {}, [write("LS", 1001)], LS=0),
    accepted("LS at HS", 0, {}, [write("LS", 1000)], LS=1000, SL=1000, SP=0, ER=0),
    refused(7, "HO below LO", 0, {"LO": 2000}, [write("HO", 1999)], HO=9999),
    accepted("HO at LO", 0, {"LO": 2000}, [write("HO", 2000)], HO=2000),
    refused(6, "out of range goes before the pair", 0, {"HA": 500}, [write("LA", 10000)], LA=-9999),
    # What a write limits
    accepted("HS limits SL", 0, {"SL": 800}, [write("HS", 500)], SL=500, SP=0),
    accepted("HS limits SL in Hold", 0, {"SL": 800}, [scan(0), write("HS", 500)], SL=500, SP=800),
    accepted("HS limits SL in Remote", 0, {}, [REMOTE, write("HS", 20)], SL=20, SP=50, ER=-50),
    accepted("HR limits RS", 0, {}, [write("HR", 50)], RS=50), accepted("LR limits RS", 0, {}, [write("LR", 200)], RS=200),
    accepted("HO limits the output", 0, {}, [track(5000, 0, M), scan(), write("HO", 3000)], OP=3000),
    accepted("LO limits the output", 0, {}, [track(5000, 0, M), scan(), write("LO", 6000)], OP=6000),
    accepted("HO in Track", 0, {}, [track(5000), write("HO", 3000)], OP=5000),
    accepted("HO in Hold", 0, {}, [track(5000), scan(0), write("HO", 3000)], OP=5000),
    Case("HO in Hold, then Manual", 0, {}, [track(5000, 0, M), scan(0), write("HO", 3000), scan()], {"OP": 3000}),
    accepted("LO in Forced Manual", 0, {}, [*OPEN_85, write("LO", 7)], OP=7),
    accepted("HS leaves the output", 0, {}, [track(5000), scan(), write("HS", 0)], OP=5000),
    Case("a fraction above HO is cut", 0, {"SL": 1, "TI": 10}, [track(0), scan(), write("HO", 0), write("HO", 9), scan(), scan()],
         {"output": 2 * 23593, "OP": 0}),
    Case("a fraction below HO stays", 0, {"SL": 1, "TI": 10}, [track(0), scan(), write("HO", 1), write("HO", 9), scan(), scan()],
         {"output": 3 * 23593, "OP": 1}),
    # SL by mode
    refused(8, "SL in Remote", 0, {}, [REMOTE, write("SL", 60)], SL=50),
    refused(8, "SL in Ratio", S2_1, {}, [REMOTE, write("SL", 60)], SL=50),
    refused(8, "SL in Manual, S2.6 ON", S2_6, {}, [write("SL", 5)], SL=0),
    refused(8, "SL in Hold, S2.6 ON", S2_6, {}, [scan(0), write("SL", 5)], SL=0),
    refused(8, "SL in Track, S2.6 ON", S2_6, {}, [track(0), write("SL", 5)]),
    refused(8, "SL in Forced Manual, S2.6 ON", S2_6, {}, [*OPEN_85, write("SL", 5)]),
    accepted("SL in Auto, S2.6 ON", S2_6, {"request": "A"}, [write("SL", 5)], SL=5, SP=0),
    accepted("SL in Hold", 0, {}, [scan(0), write("SL", 5)], SL=5),
    accepted("SL in Fall-back, S2.6 ON", S2_6, {}, [scan(buttons=R), write("SL", 5)], SL=5),
    refused(6, "SL out of range in Remote", 0, {}, [REMOTE, write("SL", -1)]),
    accepted("RS in Ratio", S2_1, {}, [REMOTE, write("RS", 60)], RS=60), accepted("RS in Remote", 0, {}, [REMOTE, write("RS", 60)], RS=60),
    # MD
    refused(9, "0000h", 0, {}, [write("MD", 0)]), refused(9, "1800h", 0, {}, [write("MD", 0x1800)]),  # "Writing 0000h or 1800h to MD: 9"
    refused(10, "right after a start", 0, {}, [write("MD", 0x0800)], MD=0x2000),
    accepted("Remote", 0, {}, [scan(0xA0), write("MD", 0x0800)], MD=0x0C00, DS=0xA02F),
    accepted("a waiting request", 0, {}, [scan(0x20), write("MD", 0x0800)], MD=0x8400, request="R"),
    accepted("Auto after 84", 0, {}, [*OPEN_84, write("MD", 0x1000)], MD=0x1000),
    refused(11, "Auto after 85", 0, {}, [*OPEN_85, write("MD", 0x1010)], MD=0x2200),
    refused(11, "Remote, a cause in Hold", 0, {}, [*[scan(0x20, sensors=1)] * 85, write("MD", 0x0800)], MD=0x8600),
    refused(10, "Remote, a cause", 0, {}, [*OPEN_85, write("MD", 0x0800)]),
    refused(9, "with a cause and the Remote pin 0", 0, {}, [*OPEN_85, write("MD", 0x1800)]),
    accepted("Manual after 85", 0, {}, [*OPEN_85, write("MD", 0x2010)], MD=0x2210, DS=0x801B),
    accepted("bit 8, no fault", 0, {}, [write("MD", 0x1100)], MD=0x1000),
    accepted("all bits that aren't taken", 0, {}, [write("MD", 0xD7EF)], MD=0x1000, DS=0x803F),
    accepted("bits 5 and 4", 0, {}, [write("MD", 0x1030)], MD=0x1010),
    accepted("bit 4 zero again", 0, {"measured_power": True}, [write("MD", 0x2000)], MD=0x2000),
    accepted("buttons stay", 0, {}, [scan(buttons=SP), write("MD", 0x1000)], MD=0x1008),
    accepted("bit 4 waits for MP", 0, {"channel_3H": 100}, [scan(third=5000), write("MD", 0x2010)], MD=0x2010, MP=0, SP=50),
    Case("bit 4 shows in the next scan", 0, {"channel_3H": 100}, [scan(third=5000), write("MD", 0x2010), scan(third=5000)],
         {"MD": 0x2010, "MP": 50, "SP": 0, "mode": "Manual"}),
    Case("Auto written before the 85th", S2_5, LIMITS, [track(2500, 0, M), *OPEN_84, write("MD", 0x1000), OPEN],
         {"OP": 2000, "MD": 0x2200, "mode": "Forced Manual"}),
    Case("Manual written before the 85th", S2_5, LIMITS, [track(2500), *OPEN_84, write("MD", 0x2000), scan(sensors=1, buttons=RAISE)],
         {"OP": 2512}),
    # The memory fault
    accepted("clears the fault, bit 12", 0, FAULT, [write("MD", 0x1010)], MD=0x2010, DS=0x801F, memory_fault=False, request="M"),
    accepted("clears the fault, bit 11", 0, FAULT, [scan(0xA0), write("MD", 0x0800)], MD=0x2400, memory_fault=False, request="M"),
    accepted("clears the fault, bit 13, a cause", 0, FAULT, [*OPEN_85, write("MD", 0x2000)], MD=0x2200, DS=0x801B, memory_fault=False),
    accepted("keeps the fault, bit 13", 0, FAULT, [write("MD", 0x2110)], MD=0x2110, DS=0x801B, memory_fault=True),
    refused(10, "the fault, bit 11, Remote pin 0", 0, FAULT, [write("MD", 0x0800)], MD=0x2100),
    refused(11, "the fault, bits 12 and 8", 0, FAULT, [write("MD", 0x1100)], MD=0x2100),
    refused(11, "the fault and a cause, bit 12", 0, FAULT, [*OPEN_85, write("MD", 0x1000)], MD=0x2300),
    refused(9, "the fault, no request", 0, FAULT, [write("MD", 0)], MD=0x2100),
    # DS, and what terms and alarms take from a write
    accepted("user bit 1", 0, {}, [write("DS", 0x40)], DS=0x805F),
    accepted("user bit 2", 0, {"user_bits": 1}, [write("DS", 0x80)], DS=0x809F),
    accepted("user bits zero", 0, {"user_bits": 3}, [write("DS", 0xFF3F)], DS=0x801F),
    accepted("alarms wait for a scan", 0, {}, [scan(first=5000), write("HA", 100)], DS=0x801F),
    Case("alarm in the next scan", 0, {}, [scan(first=5000), write("HA", 100), scan(first=5000)], {"DS": 0x801E}),
    accepted("a range waits for a scan", 0, {}, [scan(first=5000), write("channel_1H", 2000)], PV=500, ER=500),
    Case("what is remembered isn't scaled anew", 0, {}, [track(0, 1000), write("channel_1H", 500), scan(first=1000)],
         {"PV": 50, "OP": 1000}),  # 50 x 20 units
    Case("XP between scans", 0, {}, [track(5000, 20), write("XP", 500), scan(first=10)], {"OP": 5020}),
    Case("SL in the next scan", 0, {"TI": 10}, [track(0), write("SL", 1), scan(buttons=LOWER | A)], {"SP": 1, "output": 23593}),
)
