"""What the lists with drawn parameters have met, and how often each thing must be met at least."""

from tests.coverage.coverage import SWITCHES, Coverage, on
from tests.model.words import AUTOMATIC, MODES, mode_of

TERMS = [f"{term} {switch}" for term in ("TI", "TD") for switch in ("S2.8 ON", "S2.8 OFF", "S2.4 ON", "S2.4 OFF")]


def least_counts():
    """The least count of each thing, by name."""
    least = {"scans": 20000, "output off the exact one": 4000, "n at least 20, output off": 500, "output off by more than n / 2 steps": 20,
             "refused": 200}
    least.update({f"mode {mode}": 40 if mode == "Forced Manual" else 800 for mode in MODES})
    least.update({f"{term}, automatic": 500 for term in TERMS})
    least.update({"low alarm": 1000, "high alarm": 1000, "both alarms": 200, "no alarm": 500, "measured power": 500, "root": 2000,
                  "output outside its limits in Hold or Track": 200, "output at LO": 500, "output at HO": 500, "minimum": 2})
    return least


class ParameterCoverage(Coverage):
    title, least_counts = "drawn parameters", staticmethod(least_counts)

    def call(self, call, before, after, answer, pair):
        if call[0] == "scan":
            self.counts.update(met(before, after, answer, pair.claim.automatic_scans))


def met(before, after, answer, automatic_scans):
    """What one scan met: the pairs of controllers before and after it, our answer, and the claim's n."""
    stored, exact = after
    yield "scans"
    off = abs(stored.output - 65536 * exact.output)
    if off:
        yield "output off the exact one"
        if 2 * off > automatic_scans:
            yield "output off by more than n / 2 steps"
        if automatic_scans >= 20:
            yield "n at least 20, output off"
    if answer[0] == "refused":
        yield "refused"
    else:
        mode = mode_of(exact)
        yield f"mode {mode}"
        yield {0: "no alarm", 1: "one alarm", 2: "both alarms"}[exact.low_alarm + exact.high_alarm]
        yield from (name for name, present in (("low alarm", exact.low_alarm), ("high alarm", exact.high_alarm),
                                               ("measured power", exact.measured_power), ("root", exact.parameters.IC)) if present)
        if mode in AUTOMATIC and not exact.open_count:
            yield from (f"{term} {switch} {'ON' if on(exact.SW, SWITCHES[switch]) else 'OFF'}, automatic"
                        for term in ("TI", "TD") if getattr(exact.parameters, term) for switch in ("S2.8", "S2.4"))
        yield from met_at_the_limits(before[1], exact, mode)


def met_at_the_limits(before, exact, mode):
    if mode in ("Hold", "Track") and not exact.parameters.LO <= exact.output <= exact.parameters.HO:
        yield "output outside its limits in Hold or Track"
    if exact.output == exact.parameters.LO > 0:
        yield "output at LO"
    if exact.output == exact.parameters.HO < 9999:
        yield "output at HO"
    if exact.open_count == 85 and mode == "Forced Manual" and mode_of(before) in AUTOMATIC and on(exact.SW, 11):
        yield "minimum"
