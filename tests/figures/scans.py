"""Scans worked by hand: the figures of documents 01 and 02, and others for each rule.

A case gives the switch word, the parameters and other items written after a fresh start, the calls, and what the last
call must leave in the controller or answer.  Outputs are in steps of 1/65,536 units.
"""

from typing import NamedTuple

UNIT = 65536
M, A, R, SP, RAISE, LOWER = 0x01, 0x02, 0x04, 0x08, 0x40, 0x80
S2_1, S2_2, S2_3, S2_4, S2_5, S2_6, S2_8, S1_1 = 0x8000, 0x4000, 0x2000, 0x1000, 0x0800, 0x0400, 0x0100, 0x0080


class Case(NamedTuple):
    name: str
    SW: int
    set_before: dict
    calls: list
    expected: dict


def scan(pins=0x80, first=0, second=0, third=0, buttons=0, sensors=0):
    return ("scan", pins, first, second, third, buttons, sensors)


def track(units, first=0, buttons=A):
    """A scan in Track that sets the output outright."""
    return scan(0xC0, first, 0, units, buttons)


def terms(name, SW, set_before, calls, steps):
    return Case("terms: " + name, SW, set_before, calls, {"output": steps, "OP": steps // UNIT})


def manual(name, set_before, sample, DS):
    """One scan in Manual, for the alarms; PV is a tenth of the sample.

    "3 is 0 for battery low, 2 for a cause, 1 for low alarm .., 0 for high ..".
    """
    return Case("alarm: " + name, 0, set_before, [scan(first=sample)], {"MD": 0x2000, "DS": DS, "mode": "Manual", "PV": sample // 10})


def ratio(name, SW, set_before, calls, setpoint):
    return Case("Ratio: " + name, S2_1 | SW, {"LS": -1000, **set_before}, calls,
                {"SP": setpoint, "SL": setpoint, "MD": 0x0C04, "mode": "Ratio"})


OPEN_IN_AUTO = [track(2500), scan(), *[scan(sensors=1)] * 84]
UP_BY_ONE = [track(5000), track(5000), scan(first=10)]   # PV 0, 0, 1: c - c1 = -1, D = 1
LIMITS = {"HO": 3000, "LO": 2000}
BELOW_ZERO = {"channel_2L": -1000, "channel_2H": 0}

CASES = (
    Case("fresh: electrical output with S2.2 ON", S2_2, {}, [scan()],
         {"MD": 0x2000, "DS": 0x801F, "OP": 0, "electrical": 9999, "mode": "Manual", "PV": 0}),
    # "Worked by hand", and the other sense of each switch
    terms("c - c1 = 1 gives 10 units", 0, {}, [track(5000, 20), scan(first=10)], 5010 * UNIT),
    terms("S2.4 ON", S2_4, {}, [track(5000, 20), scan(first=10)], 4990 * UNIT),
    terms("c = 1, TI 10 gives 23,593", 0, {"SL": 1, "TI": 10}, [track(0), scan()], 23593),
    terms("in minutes 0.006 units", S2_8, {"SL": 1, "TI": 10}, [track(0), scan()], 393),
    terms("D = 1, TD 10 gives -18,204,444", 0, {"TD": 10}, UP_BY_ONE, 5000 * UNIT - 655360 - 18204444),
    terms("in minutes -1,666 2/3 units", S2_8, {"TD": 1}, UP_BY_ONE, 5000 * UNIT - 655360 - 109226667),
    terms("all three with S2.4 ON", S2_4, {"TI": 10, "TD": 10}, UP_BY_ONE, 5000 * UNIT + 655360 + 23593 + 18204444),
    terms("D = 100 gives -10,000 units", 0, {"SL": 1000, "TI": 1, "TD": 10},
          [track(9999), track(9999), scan(first=1000)], (9999 - 1000 + 3240 - 10000) * UNIT),
    terms("nothing remembered", 0, {"TD": 10}, [scan(first=500, buttons=A)], 0),
    terms("one PV remembered", 0, {"TD": 10}, [track(5000, 50), scan(first=60)], 5000 * UNIT - 655360 - 18204444),
    terms("PV 0, 1, 3: D is 1", 0, {"TD": 10}, [track(5000), track(5000, 10), scan(first=30)], 5000 * UNIT - 2 * 655360 - 18204444),
    terms("an open scan forgets", 0, {"TD": 10}, [track(5000), track(5000, 10), scan(sensors=1), scan(first=60)], 5000 * UNIT),
    terms("an open scan isn't remembered", S1_1, {}, [track(5000), scan(sensors=1), scan(first=60), scan(first=50)], 5010 * UNIT),
    terms("a Hold scan is remembered", 0, {}, [track(5000), scan(0, 500, buttons=A), scan(first=490)], 5010 * UNIT),
    terms("W and XP", 0, {"channel_1H": 2000, "channel_1L": -2000, "LS": -2000, "SL": -9, "XP": 500},
          [track(5000, 5000), scan(first=5010)], 5000 * UNIT - 20 * UNIT),
    terms("SP in Auto, S1.1 OFF", 0, {}, [track(5000), scan(buttons=SP | RAISE)], 5000 * UNIT),
    terms("SP in Auto, S1.1 ON", S1_1, {}, [track(5000), scan(buttons=SP | RAISE)], 5010 * UNIT),
    terms("SP in Remote, S1.1 OFF", 0, {}, [track(5000, 0, R), scan(0xA0, 0, 20, 0)], 5020 * UNIT),
    terms("SP in Fall-back, S1.1 OFF", 0, {}, [track(5000, 0, R), scan(buttons=SP | RAISE)], 5000 * UNIT),
    # Alarms: strict comparisons, either from PV or from ER, both may stand
    manual("none at HA", {"HA": 500}, 5000, 0x801F), manual("above HA", {"HA": 500}, 5010, 0x801E),
    manual("none at LA", {"LA": 500}, 5000, 0x801F), manual("below LA", {"LA": 500}, 4990, 0x801D),
    manual("none at HD", {"HD": 10}, 100, 0x801F), manual("above HD", {"HD": 10}, 110, 0x801E),
    manual("none at -LD", {"LD": 10, "SL": 20}, 100, 0x801F), manual("below -LD", {"LD": 10, "SL": 20}, 90, 0x801D),
    Case("alarm: an open scan too", 0, {"channel_1L": 7, "HA": 6}, [scan(sensors=1)], {"DS": 0x801E, "PV": 7}),
    manual("both", {"HA": 500, "LD": 10, "SL": 600}, 5500, 0x801C),
    # Words
    Case("Auto with bit 4 is MD 1010h", 0, {"measured_power": True, "request": "A"}, [scan()],
         {"MD": 0x1010, "DS": 0x803F, "mode": "Auto"}),
    Case("pins 91h in Auto, healthy: DS 913Fh", 0, {"request": "A"}, [scan(0x91)], {"MD": 0x1000, "DS": 0x913F, "mode": "Auto"}),
    Case("user bit 1", 0, {"user_bits": 1}, [scan()], {"DS": 0x805F}),
    Case("user bit 2", 0, {"user_bits": 2}, [scan()], {"DS": 0x809F}),
    Case("battery low", 0, {}, [scan(sensors=2)], {"MD": 0x2000, "DS": 0x8017}),
    Case("Track with request Manual", 0, {}, [scan(0xC0)], {"MD": 0x4000, "DS": 0xC03F, "mode": "Track"}),
    Case("Hold with all else", 0, {}, [scan(0x7F, buttons=0xCF)], {"MD": 0x84CF, "DS": 0x7F1F, "mode": "Hold"}),
    Case("Remote", 0, {}, [scan(0xA0, 3210, buttons=R)], {"MD": 0x0C04, "DS": 0xA02F, "mode": "Remote", "PV": 321}),
    # "MD can't tell Fall-back from Auto"; nor Ratio from Remote
    Case("Fall-back", 0, {}, [scan(0x80, 3210, buttons=R)], {"MD": 0x1004, "DS": 0x803F, "mode": "Fall-back", "PV": 321}),
    Case("Auto, no button pressed", 0, {}, [scan(buttons=A), scan()], {"MD": 0x1000, "mode": "Auto"}),
    Case("Fall-back, no button pressed", 0, {}, [scan(buttons=R), scan()], {"MD": 0x1000, "mode": "Fall-back"}),
    Case("Ratio", S2_1, {}, [scan(0xA0, 3210, buttons=R)], {"MD": 0x0C04, "DS": 0xA02F, "mode": "Ratio", "PV": 321}),
    Case("Fall-back with S2.1 ON", S2_1, {}, [scan(0x80, buttons=R)], {"MD": 0x1004, "mode": "Fall-back"}),
    # Causes: "Open scan 84 isn't a cause, 85 is"; A doesn't leave Forced Manual
    Case("84 open scans", 0, {}, [*[scan(sensors=1)] * 83, scan(sensors=1, buttons=A)],
         {"MD": 0x1002, "DS": 0x803F, "request": "A", "mode": "Auto"}),
    Case("85 open scans", 0, {}, [*[scan(sensors=1)] * 84, scan(sensors=1, buttons=A)],
         {"MD": 0x2202, "DS": 0x801B, "request": "M", "mode": "Forced Manual"}),
    Case("A after 85 open scans", 0, {}, [*[scan(sensors=1)] * 85, scan(buttons=A)], {"MD": 0x1002, "DS": 0x803F, "mode": "Auto"}),
    Case("a cause in Hold", 0, {"request": "A"}, [*[scan(sensors=1)] * 84, scan(0, sensors=1)],
         {"MD": 0x8200, "DS": 0x001B, "request": "M", "mode": "Hold"}),
    Case("the memory fault", 0, {"memory_fault": True}, [scan(buttons=A)],
         {"MD": 0x2102, "DS": 0x801B, "request": "M", "mode": "Forced Manual"}),
    # Output: minimum, limits
    Case("minimum", S2_5, LIMITS, [*OPEN_IN_AUTO, scan(sensors=1, buttons=RAISE)], {"OP": 2000, "electrical": 2000}),
    Case("minimum, S2.2 ON", S2_5 | S2_2, LIMITS, [*OPEN_IN_AUTO, scan(sensors=1)], {"OP": 3000, "electrical": 6999}),
    Case("no minimum, S2.5 OFF", S2_2, LIMITS, [*OPEN_IN_AUTO, scan(sensors=1, buttons=RAISE)], {"OP": 2512, "electrical": 7487}),
    Case("no minimum on the 86th", S2_5, LIMITS, [*OPEN_IN_AUTO, scan(0, sensors=1), scan(sensors=1)], {"OP": 2500}),
    Case("no minimum from Manual", S2_5, LIMITS, [track(2500, 0, M), *[scan(sensors=1)] * 85], {"OP": 2500}),
    Case("Track isn't limited", 0, LIMITS, [track(5000)], {"OP": 5000}),
    Case("Track's greatest", 0, LIMITS, [track(10000)], {"OP": 9999}),
    Case("Hold isn't limited", 0, LIMITS, [track(5000), scan(0)], {"OP": 5000}),
    Case("Manual is limited", 0, LIMITS, [track(5000, 0, M), scan()], {"OP": 3000}),
    Case("automatic and open is limited", 0, LIMITS, [track(100), scan(sensors=1)], {"OP": 2000}),
    Case("the sum is limited, not the terms one by one", 0, {"TI": 1}, [track(9500, 10000), scan(first=9000)], {"OP": 9500 + 1000 - 3240}),
    Case("Raise in Manual", 0, {}, [track(50, 0, M), scan(buttons=RAISE)], {"OP": 62}),
    Case("Lower in Manual", 0, {}, [track(50, 0, M), scan(buttons=LOWER)], {"OP": 38}),
    Case("Raise with SP held in Manual", 0, {"SL": 5}, [track(50, 0, M), scan(buttons=RAISE | SP)], {"OP": 50, "SL": 6}),
    # Scaling, root, setpoint
    Case("halves up", 0, {"channel_1L": -1, "channel_1H": 0}, [scan(first=5000)], {"PV": 0}),
    Case("root", 0, {"IC": 1}, [scan(0xA0, 400, 400, buttons=R)], {"PV": 200, "SP": 40, "ER": 160}),
    Case("open reads 1L", 0, {"channel_1L": -7}, [scan(first=5000, sensors=1)], {"PV": -7, "ER": -7}),
    Case("Remote by 1L, 1H, with trim", 0, {"channel_1L": -500, "channel_1H": 500, "LS": -999}, [scan(0xA0, 0, 2500, 5000, R)],
         {"SP": -249, "SL": -250, "ER": -251}),
    Case("no trim in Track", 0, {"channel_3H": 100}, [track(5000)], {"SP": 0, "MP": 0}),
    Case("no trim with S2.1 ON", S2_1, {"channel_3H": 100}, [scan(third=5000)], {"SP": 0}),
    Case("no trim with MD bit 4", 0, {"channel_3H": 100, "measured_power": True}, [scan(third=5000)], {"SP": 0, "MP": 50}),
    Case("MP in Track", 0, {"channel_3H": 100, "measured_power": True}, [track(5000)], {"SP": 0, "MP": 50, "MD": 0x4012}),
    Case("SP limited, SL not", 0, {"channel_3H": 100, "SL": 990}, [scan(third=5000)], {"SP": 1000, "SL": 990}),
    Case("S2.6: SL becomes PV, limited", S2_6, {"HS": 800}, [scan(first=9000, buttons=SP | LOWER)], {"SL": 800, "SP": 800, "ER": 100}),
    Case("S2.6, open: SL stays", S2_6, {"SL": 5}, [scan(sensors=1, buttons=SP | LOWER)], {"SL": 5}),
    Case("S2.6 in Auto: SL is moved", S2_6, {"SL": 5}, [scan(first=9000, buttons=SP | LOWER | A)], {"SL": 4}),
    Case("Remote: SL isn't moved", 0, {}, [scan(0xA0, 0, 500, 0, R | SP | RAISE)], {"SL": 50, "RS": 100}),
    # Ratio: "q 101 with s 200 is 50, q 103 is 52, and q -101 is -50"; "S2.3 ON, q 5, s 150 gives 8"; RB is added behind
    # the rounding: before it, it would make the other neighbour the even one
    ratio("q 101, s 200", 0, {"RS": 200}, [scan(0xA0, 0, 1010, 0, R)], 50),
    ratio("q 103, s 200", 0, {"RS": 200}, [scan(0xA0, 0, 1030, 0, R)], 52),
    ratio("q -101, s 200", 0, {"RS": 200, **BELOW_ZERO}, [scan(0xA0, 0, 8990, 0, R)], -50),
    ratio("q -103, s 200", 0, {"RS": 200, **BELOW_ZERO}, [scan(0xA0, 0, 8970, 0, R)], -52),
    ratio("q 1, s 200: one half is 0", 0, {"RS": 200}, [scan(0xA0, 0, 10, 0, R)], 0),
    ratio("q -1, s 200: minus one half is 0", 0, {"RS": 200, **BELOW_ZERO}, [scan(0xA0, 0, 9990, 0, R)], 0),
    ratio("q 5, s 150, S2.3 ON", S2_3, {"RS": 150}, [scan(0xA0, 0, 50, 0, R)], 8),
    ratio("q 3, s 150, S2.3 ON", S2_3, {"RS": 150}, [scan(0xA0, 0, 30, 0, R)], 4),
    ratio("q -5, s 150, S2.3 ON", S2_3, {"RS": 150, **BELOW_ZERO}, [scan(0xA0, 0, 9950, 0, R)], -8),
    ratio("q -3, s 150, S2.3 ON", S2_3, {"RS": 150, **BELOW_ZERO}, [scan(0xA0, 0, 9970, 0, R)], -4),
    ratio("RB 1 behind the rounding", 0, {"RS": 200, "RB": 1}, [scan(0xA0, 0, 1010, 0, R)], 51),
    ratio("RB -1 behind the rounding", 0, {"RS": 200, "RB": -1, **BELOW_ZERO}, [scan(0xA0, 0, 8990, 0, R)], -51),
    ratio("RB 1 behind the rounding, S2.3 ON", S2_3, {"RS": 150, "RB": 1}, [scan(0xA0, 0, 50, 0, R)], 9),
    ratio("RB 1 behind the rounding, S2.3 ON, below zero", S2_3, {"RS": 150, "RB": 1, **BELOW_ZERO}, [scan(0xA0, 0, 9970, 0, R)], -3),
    ratio("channel 2 keeps halves up: 2.5 gives q 3", 0, {}, [scan(0xA0, 0, 25, 0, R)], 3),
    ratio("trim inside s", 0, {"RS": 199}, [scan(0xA0, 0, 1010, 5000, R)], 50),
    ratio("s limited to HR", 0, {"RS": 200, "HR": 200, "channel_3H": 9000}, [scan(0xA0, 0, 1010, 5000, R)], 50),
    ratio("s limited to LR", 0, {"RS": 200, "LR": 200, "channel_3L": -9000}, [scan(0xA0, 0, 1010, 0, R)], 50),
    Case("Ratio: SP and Raise move RS", S2_1, {}, [scan(0xA0, 0, 1120, 0, R | SP | RAISE)], {"RS": 112, "SP": 100, "SL": 100}),
    Case("RS limited to HR", S2_1, {"RS": 9995}, [scan(0xA0, buttons=R | SP | RAISE)], {"RS": 9999}),
    Case("RS limited to LR", S2_1, {"RS": 5}, [scan(0xA0, buttons=R | SP | LOWER)], {"RS": 1}),
    Case("SL limited to HS", 0, {"SL": 1000}, [scan(buttons=SP | RAISE)], {"SL": 1000}),
    Case("SL limited to LS", 0, {"SL": 0}, [scan(buttons=SP | LOWER)], {"SL": 0}),
    Case("Fall-back with S2.1 ON: SL is moved", S2_1, {}, [scan(0x80, 0, 1120, 0, R | SP | RAISE)], {"RS": 100, "SP": 1, "SL": 1}),
)
