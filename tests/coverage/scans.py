"""What the lists of scans have met, counted call by call, and how often each thing must be met at least."""

from functools import lru_cache

from tests.coverage.coverage import SWITCHES, Coverage, on
from tests.lists.line_forms import line_errors_of, other_forms_of
from tests.model.words import AUTOMATIC, MODES, mode_of

BUTTONS = {"Lower": 7, "Raise": 6, "SP": 3, "R": 2, "A": 1, "M": 0}
SINGLE_PINS = {pins: f"pin {place} alone at {pins >> place & 1}" for place in range(8) for pins in (1 << place, 255 - (1 << place))}
# One SW has either Remote or Ratio; every other mode may follow every mode.
TRANSITIONS = [(before, after) for before in MODES for after in MODES if {before, after} != {"Remote", "Ratio"}]
AT_THE_85TH = ("minimum, S2.2 ON", "minimum, S2.2 OFF", "automatic before, S2.5 OFF", "S2.5 ON, Manual before",
               "S2.5 ON, Hold or Track before", "S2.5 ON, automatic before, Hold or Track now")


def least_counts():
    """The least count of each thing, by name."""
    least = {"scans": 110000, "scans, accepted": 100000}
    least.update({f"mode {mode}": 1000 if mode == "Forced Manual" else 5000 for mode in MODES})
    least.update({f"{before} to {after}": 5 if "Forced Manual" in (before, after) else 100 for before, after in TRANSITIONS})
    least.update({f"{switch} {position}": 30000 for switch in SWITCHES for position in ("ON", "OFF")})
    least.update({f"{switch} {position} in {mode}": 150 for switch in SWITCHES for position in ("ON", "OFF") for mode in MODES
                  if not (switch == "S2.1" and mode == ("Remote" if position == "ON" else "Ratio"))})
    least.update({f"refused {number}": 500 for number in (1, 2, 3)})
    least.update({f"causes of refusal {causes}": 100 for causes in ("1", "2", "3", "1 2", "1 3", "2 3", "1 2 3")})
    least.update({f"open scan {number}": 100 for number in (84, 85, 86)})
    least.update({f"85th: {name}": 6 for name in AT_THE_85TH})
    least.update({f"refused in an open run, {number} before": 2 for number in (83, 84, 85)})
    least.update({f"button {name} alone": 500 for name in BUTTONS})
    least.update({"two buttons or more": 5000, "battery low": 2000, "open in an automatic mode": 5000})
    least.update({f"pin {place} {name}": 20 for place in range(8) for name in ("alone at 1", "alone at 0")})
    least.update({f"output at {end} in {mode}": 30 if mode == "Forced Manual" else 200 for end in (0, 9999) for mode in MODES})
    least.update({f"sample {channel} at {end}": 200 for channel in (1, 2, 3) for end in (0, 10000)})
    least.update({f"sample {channel} at {end}": 10 for channel in (1, 2, 3) for end in (10001, 65535)})
    least.update({"output moved by the terms": 5000, "SL moved by a button": 2000, "RS moved by a button": 1000, "SL set to PV": 2000})
    least.update({f"{limit} reached": 20 for limit in ("LS", "HS", "LR", "HR")})
    least.update({f"line: {kind} of scan": 100 for kind in (*line_errors_of("scan"), *other_forms_of("scan"))})
    return least


@lru_cache(maxsize=1 << 17)
def switches_in(SW, mode):
    """The position of each switch, by itself and in the mode."""
    positions = [f"{switch} {'ON' if on(SW, place) else 'OFF'}" for switch, place in SWITCHES.items()]
    return (*positions, *(f"{position} in {mode}" for position in positions))


@lru_cache(maxsize=1 << 8)
def pressed_in(buttons):
    pressed = [name for name, place in BUTTONS.items() if on(buttons, place)]
    return [f"button {pressed[0]} alone"] if len(pressed) == 1 else ["two buttons or more"] if pressed else []


class ScanCoverage(Coverage):
    title, least_counts = "scans", staticmethod(least_counts)

    def call(self, call, before, after, answer, pair):
        """The open count is read from the exact controller."""
        if call[0] == "scan":
            self.counts["scans"] += 1
            self.scan_given(call)
            if answer[0] == "refused":
                self.refused(call, before[1], answer[1])
            else:
                self.accepted(before[1], after[1])
                self.moved(before[0], after[0])

    def scan_given(self, call):
        _, pins, *samples, _, _, _ = call
        for place, sample in enumerate(samples, 1):
            if sample in (0, 10000, 10001, 65535):
                self.counts[f"sample {place} at {sample}"] += 1
        if pins in SINGLE_PINS:
            self.counts[SINGLE_PINS[pins]] += 1

    def refused(self, call, before, number):
        _, _, *samples, buttons, sensors, _ = call
        causes = [cause for cause, present in (("1", max(samples) > 10000), ("2", buttons & 0x30), ("3", sensors & 0xFC)) if present]
        self.counts[f"refused {number}"] += 1
        self.counts["causes of refusal " + " ".join(causes)] += 1
        self.counts[f"refused in an open run, {before.open_count} before"] += 1

    def accepted(self, before, after):
        was, mode = mode_of(before), mode_of(after)
        names = ["scans, accepted", f"mode {mode}", f"{was} to {mode}"]
        names += switches_in(after.SW, mode)
        names += pressed_in(after.buttons)
        names += ["battery low"] if after.battery_low else []
        if after.open_count:
            names += [f"open scan {after.open_count}"] + (["open in an automatic mode"] if mode in AUTOMATIC else [])
        if after.open_count == 85:
            names += self.at_the_85th(was, mode, after.SW)
        self.count(*names)

    def at_the_85th(self, was, mode, SW):
        """Step 6: each side of "if the mode just before this scan was automatic and S2.5 is ON, it goes to minimum"."""
        if was in AUTOMATIC:
            if not on(SW, 11):
                return ["85th: automatic before, S2.5 OFF"]
            if mode == "Forced Manual":
                return [f"85th: minimum, S2.2 {'ON' if on(SW, 14) else 'OFF'}"]
            return ["85th: S2.5 ON, automatic before, Hold or Track now"]
        before = "Manual before" if was == "Manual" else "Hold or Track before"
        return [f"85th: S2.5 ON, {before}"] if on(SW, 11) else []

    def moved(self, before, after):
        """What the scan did to the output, SL and RS; the output is that of our own controller, in steps."""
        mode, old, new = mode_of(after), before.parameters, after.parameters
        if after.output in (0, 9999 * 65536):
            self.counts[f"output at {after.output // 65536} in {mode}"] += 1
        if mode in AUTOMATIC and after.output != before.output:
            self.counts["output moved by the terms"] += 1
        if new.RS != old.RS:
            self.counts["RS moved by a button"] += 1
        if new.SL != old.SL and mode not in ("Remote", "Ratio"):
            self.counts["SL set to PV" if on(after.SW, 10) and mode not in AUTOMATIC else "SL moved by a button"] += 1
        if after.buttons & 0xC8 in (0x48, 0x88):
            for name, value in (("LS", new.SL), ("HS", new.SL), ("LR", new.RS), ("HR", new.RS)):
                if value == getattr(new, name):
                    self.counts[f"{name} reached"] += 1
