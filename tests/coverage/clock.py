"""What the lists for the clock have met, and how often each thing must be met at least."""

from tests.coverage.coverage import SWITCHES, Coverage, on
from tests.lists.clock import BITS, EDGES
from tests.lists.host_clock import MOST
from tests.lists.line_forms import line_errors_of, other_forms_of
from tests.lists.write_source import WRITABLE
from tests.model import loop
from tests.model.state import Stored
from tests.model.table import NAMES
from tests.model.words import AUTOMATIC, MODES, mode_of

OTHER_DISTANCES = (0, 1, 28, 31, 36, 41, 44, -1)
# What may stand between two scans, and isn't to move the clock; and what drops it
BETWEEN = ("a scan", "write", "a refused write", "read", "save", "a refused save",
           *(f"restart refused {number}" for number in (12, 13, 14)), *(f"scan refused {number}" for number in (1, 2, 3, 16)))
DROPPED_BY = ("fresh", "restart")
# What a gap forgets, by the outputs that forgetting less would give
LESS = {"nothing": {}, "SP alone": {"previous_SP": None}, "PVs alone": {"previous_PV": None, "PV_before_previous": None},
        "all but the PV before": {"previous_PV": None, "previous_SP": None}}
ENOUGH = 30  # of the outputs that are computed for the count alone, in each run of the program
TOGETHER = ("1 16", "2 16", "3 16", "1 2 16", "1 3 16", "2 3 16", "1 2 3 16")


def least_counts():
    """The least count of each thing, by name."""
    least = {"scans": 50000, "first": 800, "ordinary": 15000, "gap": 6000, "refused 16": 5000, "clock asked": 5000}
    least.update({f"{distance} ms": 250 for distance in (*EDGES, *OTHER_DISTANCES)})
    least.update({f"{distance} ms in {mode}": 30 if mode == "Forced Manual" else 100 for distance in EDGES for mode in MODES})
    least.update({f"right in {bits} bits, {way}": 20 for bits in BITS for way in ("before", "after")})
    least.update({f"{far}": 200 for far in ("after by 32 bits and more", "before by 32 bits and more")})
    least.update({f"{outcome} behind {what}": 12 for what in BETWEEN for outcome in ("ordinary", "gap", "refused 16")})
    least.update({f"{distance} ms behind {what}": 4 for what in BETWEEN for distance in EDGES})
    least.update({f"first behind {what}": 200 for what in DROPPED_BY})
    least.update({f"first behind {what}, {how}": 20 for what in DROPPED_BY
                  for how in ("before the last", "far after", "less than 30 after")})
    least.update({f"{name} written, and the clock unmoved": 3 for name in WRITABLE})
    least.update({f"clock asked behind {what}": 20 for what in (*BETWEEN, *DROPPED_BY)})
    least.update({"clock asked, none": 120})
    least.update({f"refusals {several}": 40 for several in TOGETHER})
    least.update(least_counts_of_gaps())
    least.update({f"reading {reading} {what}": 20 for reading in (0, MOST) for what in ("taken", "refused")})
    least.update({"16 within the last 29 ms": 200, "16 within the last 29 ms, right modulo 64 bits": 20, "taken 30 ms before the end": 8})
    least.update({f"line: {kind} of clock": 4 for kind in (*line_errors_of("clock"), *other_forms_of("clock"))})
    least.update({f"line: {kind} of scan": 40 for kind in (*line_errors_of("scan"), *other_forms_of("scan"))})
    return least


def least_counts_of_gaps():
    """By mode: gaps, and how they show at once or in the scan behind them; and gaps on open scans."""
    yield from ((f"gap in {mode}, S1.1 {position}", 40) for mode in MODES for position in ("ON", "OFF"))
    yield from ((f"gap on a change to {mode}", 5 if mode == "Forced Manual" else 40) for mode in MODES)
    yield from ((f"gap with TI and TD above 0 in {mode}", 100) for mode in AUTOMATIC)
    for mode in AUTOMATIC:
        for less in LESS:
            is_without_SP = less == "PVs alone" and mode in ("Auto", "Fall-back")  # then c1 has the present SP if S1.1 is OFF
            yield from ((f"gap in {mode}, S1.1 {position}, forgetting {less} would show", 20) for position in ("ON", "OFF")
                        if not (is_without_SP and position == "OFF"))
    yield from ((f"gap in {mode} shows in the scan behind it", 30) for mode in MODES)
    yield from ((f"gap in {mode}, open", 20) for mode in MODES)
    yield from ((f"gap at open scan {number}", 10) for number in (1, 83, 84, 85, 86))
    yield from ((f"gap at the 85th, {what}", 3) for what in ("minimum", "S2.5 OFF", "no automatic mode before"))
    yield from ((f"refused 16 with {number} open scans before", 10) for number in (83, 84, 85))
    yield from ((f"{distances} ms one behind the other", 40) for distances in ("43 36 36", "43 43", "42 36 36", "43 29"))


class ClockCoverage(Coverage):
    title, least_counts = "the clock", staticmethod(least_counts)

    def __init__(self):
        """What is known so far: the call before, the last distances, the reading that a start or restart dropped, and
        the controller that would stand if the last scan had been ordinary, with the mode of that scan and its output.
        """
        super().__init__()
        self.previous, self.written, self.distances, self.dropped, self.ordinary, self.open_scans = "fresh", None, (), None, None, (0, 0)

    def call(self, call, before, after, answer, pair):
        if self.written and (call == ("clock",) or answer == ("refused", 16)) and before[0].clock is not None:
            self.count(f"{self.written} written, and the clock unmoved")
        if call == ("clock",):
            self.count("clock asked", f"clock asked behind {self.previous}", *(["clock asked, none"] if answer[1] == "none" else []))
            return
        if call[0] == "scan":
            self.open_scans = before[1].open_count, after[1].open_count  # ours stops at 85
            self.scan(call, before[0], after[0], answer)
        elif call[0] in DROPPED_BY and answer == ("ok",):
            self.distances, self.ordinary = (), None
            self.dropped = self.dropped if before[0].clock is None else before[0].clock
        name = "a scan" if answer[0] == "scan" else call[0]
        if answer[0] == "refused":
            name = f"{name} refused {answer[1]}" if name in ("scan", "restart") else f"a refused {name}"
        self.previous, self.written = name, NAMES[call[2] - 1] if name == "write" else None

    def scan(self, call, before, after, answer):
        """A scan, its distance from the last accepted reading, and what came of it."""
        reading, is_taken = call[-1], answer[0] == "scan"
        self.count("scans", *([f"reading {reading} {'taken' if is_taken else 'refused'}"] if reading in (0, MOST) else []))
        if before.clock is None:
            self.first(reading, is_taken)
        else:
            self.timed(call, reading - before.clock, before, after, answer)
        self.distances = (*self.distances, None if before.clock is None else reading - before.clock)[-3:]

    def first(self, reading, is_taken):
        """The first scan behind a start or a restart: any reading is taken."""
        if not is_taken:
            return
        names = ["first", f"first behind {self.previous}"]
        if self.dropped is not None and self.previous in DROPPED_BY:
            way = reading - self.dropped
            how = "before the last" if way < 0 else "less than 30 after" if way < 30 else "far after"
            names.append(f"first behind {self.previous}, {how}")
        self.count(*names)

    def timed(self, call, distance, before, after, answer):
        outcome = f"refused {answer[1]}" if answer[0] == "refused" else "gap" if distance > 42 else "ordinary"
        names = [outcome, f"{outcome} behind {self.previous}", *far(distance), *refusals(call, distance)]
        if distance in EDGES or distance in OTHER_DISTANCES:
            names += [f"{distance} ms", f"{distance} ms behind {self.previous}", f"{distance} ms in {mode_of(after)}"]
        names += [f"{' '.join(map(str, (*self.distances, distance)[-length:]))} ms one behind the other" for length in (2, 3)]
        if outcome == "refused 16":
            names += [f"refused 16 with {self.open_scans[0]} open scans before", *at_the_end(before.clock, distance)]
        elif answer[0] == "scan":
            names += ["taken 30 ms before the end"] if MOST - before.clock == distance == 30 else []
            names += self.behind_a_gap(call, after)
            names += self.gap(call, before, after) if outcome == "gap" else []
        self.count(*names)

    def behind_a_gap(self, call, after):
        """Whether a gap shows in this scan, behind it: the output moves otherwise than if it had been ordinary."""
        ordinary, self.ordinary = self.ordinary, None
        if ordinary and mode_of(after) in AUTOMATIC:
            was, mode, output = ordinary
            if loop.make(was._replace(clock=call[-1] - 36), call, Stored)[0].output - was.output != after.output - output:
                return [f"gap in {mode} shows in the scan behind it"]
        return []

    def gap(self, call, before, after):
        mode, SW, parameters = mode_of(after), after.SW, after.parameters
        position = f"S1.1 {'ON' if on(SW, SWITCHES['S1.1']) else 'OFF'}"
        names = [f"gap in {mode}, {position}", *([f"gap on a change to {mode}"] if mode != mode_of(before) else [])]
        timely = before._replace(clock=call[-1] - 36)
        self.ordinary = loop.make(timely, call, Stored)[0], mode, after.output
        if after.open_count:
            return names + [f"gap in {mode}, open", f"gap at open scan {self.open_scans[1]}", *at_the_85th(before, after)]
        if mode in AUTOMATIC:
            names += [f"gap with TI and TD above 0 in {mode}"] if parameters.TI and parameters.TD else []
            names += self.less_forgotten(f"gap in {mode}, {position}", call, timely, after)
        return names

    def less_forgotten(self, where, call, timely, after):
        """What would show if less were forgotten; looked into until it is known often enough."""
        for less, forgotten in LESS.items():
            name = f"{where}, forgetting {less} would show"
            if self.counts[name] < ENOUGH and loop.make(timely._replace(**forgotten), call, Stored)[0].output != after.output:
                yield name


def far(distance):
    """Distances that are ordinary only if some low bits alone are kept, and very long ones."""
    way = "after" if distance > 0 else "before"
    if not 30 <= distance <= 42:
        yield from (f"right in {bits} bits, {way}" for bits in BITS if 30 <= distance % (1 << bits) <= 42)
    if abs(distance) >= 1 << 32:
        yield f"{way} by 32 bits and more"


def refusals(call, distance):
    """Several refusals at once, 16 among them."""
    _, _, *samples, buttons, sensors, _ = call
    causes = [cause for cause, present in (("1", max(samples) > 10000), ("2", buttons & 0x30), ("3", sensors & 0xFC)) if present]
    return [f"refusals {' '.join(causes)} 16"] if causes and distance < 30 else []


def at_the_end(clock, distance):
    """Refused where no reading is left that could be taken."""
    if clock > MOST - 30:
        yield "16 within the last 29 ms"
        if 30 <= distance % (MOST + 1) <= 42:
            yield "16 within the last 29 ms, right modulo 64 bits"


def at_the_85th(before, after):
    """"The open count still counts scans", and a gap leaves the mode just before: the 85th goes to minimum."""
    if after.open_count == 85 and before.open_count == 84 and mode_of(after) == "Forced Manual":
        if mode_of(before) not in AUTOMATIC:
            yield "gap at the 85th, no automatic mode before"
        else:
            yield f"gap at the 85th, {'minimum' if on(after.SW, SWITCHES['S2.5']) else 'S2.5 OFF'}"
