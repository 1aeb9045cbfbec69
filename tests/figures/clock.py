"""Scans at readings worked by hand, for each sentence of document 02, request 2; in the form of tests/figures/scans.py.

With XP 1000 and W 1000 a change of PV by 1 gives 10 units, 655,360 steps; c = 1 with TI 1 gives 3.6 units; D = 1 with
TD 10 gives -18,204,444 steps, 277 7/9 units.
"""

from tests.figures.images import restart
from tests.figures.scans import LIMITS, RAISE, S1_1, S2_1, S2_5, SP, UNIT, A, Case, M, R, scan, track
from tests.model.table import NUMBER

END = 18_446_744_073_709_551_615  # the greatest of 64 bits
STEP, DERIVATIVE = 655360, 18204444
ALL_TERMS = {"SL": 101, "TI": 1, "TD": 10}  # with PV 1 the integral gives 360 units


def at(reading, call):
    return (*call, reading)


def taken(name, calls, clock):
    return Case("clock, taken: " + name, 0, {}, calls, {"clock": clock, "MD": 0x2000, "mode": "Manual"})


def refused(name, calls, clock, number=16, **kept):
    return Case("clock, refused: " + name, 0, {}, calls, {"answer": f"refused {number}", "clock": clock, **kept})


def output(name, SW, set_before, calls, steps):
    return Case("clock, output: " + name, SW, set_before, calls, {"output": steps, "OP": steps // UNIT, "clock": calls[-1][-1]})


def up_by_one(distance):
    """PV 0, 0 and then 1, so many milliseconds later: c - c1 = -1, D = 1."""
    return [at(1000, track(5000)), at(1036, track(5000)), at(1036 + distance, scan(first=10))]


def before_auto(distance, call, *others):
    """PV 0 and 0 in Track with the request Manual, a scan so many milliseconds later, other calls, and PV 2 in Auto."""
    return [at(1000, track(5000, 0, M)), at(1036, track(5000, 0, M)), at(1036 + distance, call), *others,
            at(1072 + distance, scan(first=20, buttons=A))]


def opened(number, apart=36):
    """So many open scans, the last of them at the number times the milliseconds between them."""
    return [at(apart * place, scan(sensors=1)) for place in range(1, number + 1)]


FIRST = at(1000, scan())
MINIMUM = [at(0, track(2500)), at(30, scan()), *(at(66 + 36 * place, scan(sensors=1)) for place in range(84))]  # the last is at 3054

CASES = (
    # "less than 30 ms after the last accepted one or lies before it"
    *(refused(f"{reading - 1000} ms", [FIRST, at(reading, scan())], 1000) for reading in (1029, 1028, 1001, 1000, 999, 970, 964, 0)),
    *(taken(f"{reading - 1000} ms", [FIRST, at(reading, scan())], reading) for reading in (1030, 1031, 1036, 1042, 1043, 9999, END)),
    # "Until a scan is accepted after a fresh start or a restart, any reading is taken"
    *(taken(f"{reading} at first", [at(reading, scan())], reading) for reading in (0, 7, END)),
    taken("0 behind a fresh start", [FIRST, ("fresh", 0), at(0, scan())], 0),
    taken("7 behind a restart", [FIRST, restart(0xAC42), at(7, scan())], 7),
    Case("clock: none behind a restart", 0, {}, [FIRST, restart(0xAC42)], {"answer": "ok", "clock": None}),
    Case("clock: none behind a restart with a wrong sumcheck", 0, {}, [FIRST, restart(0x0000)], {"answer": "ok", "clock": None}),
    Case("clock: none behind a fresh start", 0, {}, [FIRST, ("fresh", 5)], {"answer": "ok", "clock": None}),
    # A refused restart, a write, a read and a save leave it
    *(refused(f"restart refused {number}", [FIRST, call], 1000, number) for number, call in (
        (12, ("restart", b"")), (13, restart("FF0002 AC42")), (14, restart(0xAC44, IC=2)))),
    *(refused(f"29 ms behind {name}", [FIRST, call, at(1029, scan())], 1000) for name, call in (
        ("a refused restart", ("restart", b"")), ("a write", ("write", NUMBER["SL"], 5)), ("a refused write", ("write", NUMBER["SL"], -1)),
        ("a read", ("read", NUMBER["OP"])), ("a save", ("save", 137)))),
    # So does a refused scan: the next is timed by the last accepted one
    *(taken(f"30 ms behind a scan refused {number}", [FIRST, call, at(1030, scan())], 1030) for number, call in (
        (1, at(1029, scan(first=10001))), (2, at(1036, scan(buttons=0x10))), (3, at(99999, scan(sensors=4))), (16, at(1029, scan())))),
    refused("29 ms behind a scan refused far before", [FIRST, at(0, scan()), at(1029, scan())], 1000),
    # "tested after 3"
    *(refused(f"{number} goes before 16", [FIRST, at(1029, call)], 1000, number) for number, call in (
        (1, scan(first=10001)), (2, scan(buttons=0x20)), (3, scan(sensors=0x80)))),
    # No wrap: from 29 ms before the end of 64 bits on nothing can follow
    taken("30 ms before the end", [at(END - 60, scan()), at(END - 30, scan()), at(END, scan())], END),
    refused("29 ms before the end", [at(END - 29, scan()), at(END, scan())], END - 29),
    *(refused(f"{reading} behind the end", [at(END - 29, scan()), at(reading, scan())], END - 29) for reading in (0, 6, 12, 36)),
    # "From 30 to 42 ms is an ordinary scan"; "After more than 42 ms .. earlier PV and SP are forgotten first"
    *(output(f"{distance} ms: proportional and derivative", 0, {"TD": 10}, up_by_one(distance), 5000 * UNIT - STEP - DERIVATIVE)
      for distance in (30, 36, 42)),
    *(output(f"{distance} ms: neither", 0, {"TD": 10}, up_by_one(distance), 5000 * UNIT) for distance in (43, 1 << 32, (1 << 32) + 36)),
    output("42 ms: three terms", 0, ALL_TERMS, up_by_one(42), 5360 * UNIT - STEP - DERIVATIVE),
    output("43 ms: the integral alone", 0, ALL_TERMS, up_by_one(43), 5360 * UNIT),
    *(output(f"{distance} ms: the terms keep 36 ms", 0, {"SL": 1000, "TI": 1}, [at(0, track(0)), at(distance, scan())], 3600 * UNIT)
      for distance in (30, 42, 43)),
    output("42 ms, SP in Auto, S1.1 ON", S1_1, {}, [at(0, track(5000)), at(42, scan(buttons=SP | RAISE))], 5010 * UNIT),
    output("43 ms, SP in Auto, S1.1 ON", S1_1, {}, [at(0, track(5000)), at(43, scan(buttons=SP | RAISE))], 5000 * UNIT),
    *(output(f"{distance} ms, SP in {mode}", SW, {}, [at(0, track(5000, 0, R)), at(distance, scan(0xA0, 0, 20))], units * UNIT)
      for mode, SW in (("Remote", 0), ("Ratio", S2_1)) for distance, units in ((42, 5020), (43, 5000))),
    output("42 ms in Fall-back", 0, {}, [at(0, track(5000, 0, R)), at(42, scan(first=10))], 4990 * UNIT),
    output("43 ms in Fall-back", 0, {}, [at(0, track(5000, 0, R)), at(43, scan(first=10))], 5000 * UNIT),
    # The scan behind a gap is itself remembered: PV 0, 0, then 1 behind the gap, 2 and 3; D is 2 - 1 and then 3 - 4 + 1
    output("a gap, then one scan", 0, {"TD": 10}, [*up_by_one(43), at(1115, scan(first=20))], 5000 * UNIT - STEP - DERIVATIVE),
    output("a gap, then two", 0, {"TD": 10}, [*up_by_one(43), at(1115, scan(first=20)), at(1151, scan(first=30))],
           5000 * UNIT - 2 * STEP - DERIVATIVE),
    output("two gaps", 0, {"TD": 10}, [*up_by_one(43), at(1122, scan(first=20))], 5000 * UNIT),
    # In every mode: PV 0 and 0, then 1 in the mode, then 2 in Auto; D is 2 - 2 + 0 or, behind a gap, 2 - 1
    *(output(f"{distance} ms in {mode}", 0, {"TD": 10}, before_auto(distance, call), 5000 * UNIT - STEP - more)
      for mode, call in (("Hold", scan(0, 10)), ("Track", track(5000, 10, M)), ("Manual", scan(first=10)))
      for distance, more in ((42, 0), (43, DERIVATIVE))),
    *(output(f"{distance} ms in Forced Manual", 0, {"memory_fault": True},
             [("write", NUMBER["TD"], 10), *before_auto(distance, scan(first=10), ("write", NUMBER["MD"], 0x2000))],
             5000 * UNIT - STEP - more)
      for distance, more in ((42, 0), (43, DERIVATIVE))),
    # "The open count still counts scans", and nothing else is touched
    Case("clock: 84 open scans, 100 ms apart", 0, {}, [*opened(83, 100), at(8400, scan(sensors=1, buttons=A))],
         {"MD": 0x1002, "DS": 0x803F, "open_count": 84, "mode": "Auto"}),
    Case("clock: 85 open scans, 100 ms apart", 0, {}, [*opened(84, 100), at(8500, scan(sensors=1, buttons=A))],
         {"MD": 0x2202, "DS": 0x801B, "open_count": 85, "mode": "Forced Manual"}),
    refused("84 open scans and one refused", [*opened(84), at(3024 + 29, scan(sensors=1))], 3024, open_count=84, MD=0x2000),
    Case("clock: minimum behind a gap", S2_5, LIMITS, [*MINIMUM, at(3097, scan(sensors=1))], {"OP": 2000, "electrical": 2000}),
    Case("clock: an open scan behind a gap isn't remembered", 0, {}, [*up_by_one(36), at(2000, scan(sensors=1))],
         {"previous_PV": None, "PV_before_previous": None, "previous_SP": None, "clock": 2000}),
    Case("clock: behind a gap one scan is remembered", 0, {}, up_by_one(43),
         {"previous_PV": 1, "PV_before_previous": None, "previous_SP": 0, "clock": 1079}),
)
