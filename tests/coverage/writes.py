"""What the lists with writes and reads have met, and how often each thing must be met at least."""

from tests.coverage.coverage import SWITCHES, Coverage, on
from tests.lists.line_forms import line_errors_of, other_forms_of
from tests.model.state import Parameters
from tests.model.table import CHANNEL_PAIRS, NAMES, PAIR_OF, READ_ONLY, partner_of, range_of
from tests.model.words import AUTOMATIC, MODES, mode_of
from tests.model.writes import refusals

WRITABLE = NAMES[:READ_ONLY[0] - 1]
PLACES = ("just below", "at the least", "just above the least", "just below the greatest", "at the greatest", "just above", "far below",
          "far above", "right in 16 bits")
LIMITED_BY = {"HS": "SL", "LS": "SL", "HR": "RS", "LR": "RS"}
TOGETHER = ("6 7", "6 8", "6 9", "6 10", "6 11", "9 10", "9 11", "10 11", "9 10 11")  # refusals that apply at once
BETWEEN_SCANS = ("channel_1H", "channel_1L", "channel_2H", "channel_2L", "channel_3H", "channel_3L", "IC", "XP", "TI", "TD", "SL", "RS",
                 "RB")
NON_AUTOMATIC = [mode for mode in MODES if mode not in AUTOMATIC]


def least_counts():
    """The least count of each thing, by name."""
    least = {"calls": 200000, "write": 90000, "read": 180000, "scan": 35000, "different MD words": 65536}
    least.update({f"refusals {several}": 4 for several in TOGETHER})
    least.update({"engineer accepted": 25000, "operator accepted": 2500, "computer accepted": 1000, "operator refused 20": 300,
                  "computer refused 19": 800, "computer refused 20": 100})
    least.update({f"{name} accepted": 300 for name in WRITABLE})
    least.update({f"{name} refused 6": 70 for name in WRITABLE})
    least.update({f"{name} {place}": 10 for name in WRITABLE for place in PLACES})
    least.update({f"IC {place}": 10 for place in ("right in 8 bits",)})
    least.update({f"{name} refused 5": 25 for name in NAMES[READ_ONLY[0] - 1:]})
    least.update({f"{name} {how} its partner": 12 for name in PAIR_OF
                  for how in ("just in order with", "equal to", "just out of order with")})
    least.update({f"{name} refused 7": 40 for name in PAIR_OF})
    least.update({f"{word} of a number {kind}": 20 for word in ("write", "read")
                  for kind in ("0", "33", "below zero", "right in 8 bits", "beyond 32 bits")})
    least.update({f"{limited} limited by {name}": 100 for name, limited in LIMITED_BY.items()})
    least.update({f"SL limited by {name} in {mode}": 4 for name in ("HS", "LS") for mode in MODES})
    least.update({f"output {'left outside' if mode in ('Hold', 'Track') else 'limited by'} {name} in {mode}": 4 for name in ("HO", "LO")
                  for mode in MODES})
    least.update(least_counts_of_SL_and_MD())
    least.update({f"write with {number} open scans before, {outcome}": 2 for number in (83, 84, 85) for outcome in ("accepted", "refused")})
    least.update({f"MD before the 85th, {what}": 3 for what in ("minimum", "no minimum", "Hold or Track now")})
    least.update({f"bit 4 {bit}, then a scan in {mode}": 5 if mode == "Forced Manual" else 25 for bit in (0, 1) for mode in MODES})
    least.update({f"user bits {bits}, then a scan": 50 for bits in range(4)})
    least.update({f"{mode} written in {waiting}, then in force": 2 for mode in ("Manual", "Auto", "Remote", "Ratio")
                  for waiting in ("Hold", "Track")})
    least.update({f"{name} changed between automatic scans": 20 for name in BETWEEN_SCANS})
    least.update({f"read {name}": 600 for name in NAMES})
    least.update({f"read {name} in {mode}": 100 for name in ("MD", "DS", "OP", "SL") for mode in MODES})
    least.update({"read OP with a fraction": 200, "fraction cut by HO": 10})
    least.update({f"line: {kind} of {word}": 20 for word in ("write", "read") for kind in (*line_errors_of(word), *other_forms_of(word))})
    return least


def least_counts_of_SL_and_MD():
    """By mode: refusal 8 with S2.6 ON and OFF, and what came of the MD words."""
    for mode in MODES:
        for switch in ("ON", "OFF"):
            refused = mode in ("Remote", "Ratio") or switch == "ON" and mode in NON_AUTOMATIC
            yield f"SL {'refused 8' if refused else 'accepted'} in {mode}, S2.6 {switch}", 10
        yield f"MD accepted in {mode}", 300
        yield f"MD refused 9 in {mode}", 300
        if mode not in ("Remote", "Ratio"):
            yield f"MD refused 10 in {mode}", 100
        if mode in ("Hold", "Track", "Forced Manual"):
            yield f"MD refused 11 in {mode}", 100


class WriteCoverage(Coverage):
    title, least_counts = "writes", staticmethod(least_counts)

    def __init__(self):
        super().__init__()
        self.words = set()  # MD words written, accepted or not
        self.forget()

    def join(self, other):
        super().join(other)
        self.words |= other.words
        self.counts["different MD words"] = len(self.words)

    def forget(self):
        """What was written since the last accepted scan."""
        self.changed, self.MD_written_at_84, self.bit_4_written, self.user_bits_written, self.waits_in = set(), False, False, False, None

    def call(self, call, before, after, answer, pair):
        self.count("calls", call[0])
        if call[0] == "fresh":
            self.forget()
        elif call[0] == "write":
            self.written(call, before[1], after[1], answer)
        elif call[0] == "read":
            self.read(call[1], before[0])
        elif answer[0] == "scan":
            self.scanned(before[1], after[1])

    def read(self, number, controller):
        if not 1 <= number <= 32:
            self.counts.update(kinds_of_number("read", number))
            return
        name = NAMES[number - 1]
        self.count(f"read {name}", f"read {name} in {mode_of(controller)}")
        if name == "OP" and controller.output % 65536:
            self.counts["read OP with a fraction"] += 1

    def written(self, call, before, after, answer):
        _, writer, number, value = call
        outcome = "accepted" if answer == ("ok",) else f"refused {answer[1]}"
        if not 1 <= number <= 32:
            self.counts.update(kinds_of_number("write", number))
            return
        name, mode = NAMES[number - 1], mode_of(before)
        names = [f"{name} {outcome}", f"{writer} {outcome}"]
        if number in READ_ONLY:
            self.count(*names)
            return
        if name != "MD" or not 1 < value < 65534:  # most words of MD are of no interest by their place
            names += [f"{name} {place}" for place in places(value, *range_of(before.parameters, number))]
        if name == "SL":
            names.append(f"SL {outcome} in {mode}, S2.6 {'ON' if on(before.SW, SWITCHES['S2.6']) else 'OFF'}")
        if name == "MD":
            self.words.update([value] if 0 <= value <= 65535 else [])
            names.append(f"MD {outcome} in {mode}")
        names += about_partner(name, value, before.parameters)
        if outcome != "accepted":
            names.append("refusals " + " ".join(map(str, refusals(before, writer, number, value))))
        names.append(f"write with {before.open_count} open scans before, {outcome.split()[0]}")
        self.count(*names)
        self.counts["different MD words"] = len(self.words)
        if outcome == "accepted":
            self.accepted(name, mode, before, after)

    def accepted(self, name, mode, before, after):
        """What an accepted write changed, and what may show in the next scan."""
        old, new = before.parameters, after.parameters
        self.changed.update(item for item in BETWEEN_SCANS if getattr(old, item) != getattr(new, item))
        limited = LIMITED_BY.get(name)
        if limited and getattr(old, limited) != getattr(new, limited):
            self.counts.update((f"{limited} limited by {name}", f"{limited} limited by {name} in {mode}"))
        if name in ("HO", "LO"):
            if before.output != after.output:
                self.counts[f"output limited by {name} in {mode}"] += 1
                self.counts["fraction cut by HO"] += 0 < before.output - after.output < 1
            elif not new.LO <= after.output <= new.HO:
                self.counts[f"output left outside {name} in {mode}"] += 1
        if name == "MD":
            self.MD_written_at_84 = before.open_count == 84
            self.bit_4_written = self.bit_4_written or before.measured_power != after.measured_power
            self.waits_in = mode if mode in ("Hold", "Track") and before.request != after.request else None
        self.user_bits_written = self.user_bits_written or before.user_bits != after.user_bits

    def scanned(self, before, after):
        mode, was = mode_of(after), mode_of(before)
        if self.MD_written_at_84 and after.open_count == 85:
            minimum = was in AUTOMATIC and on(after.SW, SWITCHES["S2.5"])
            self.counts["MD before the 85th, " + ("Hold or Track now" if mode != "Forced Manual" else "minimum" if minimum
                                                  else "no minimum")] += 1
        if self.bit_4_written:
            self.counts[f"bit 4 {int(after.measured_power)}, then a scan in {mode}"] += 1
        if self.waits_in and not after.buttons & 0x07 and mode not in ("Hold", "Track", "Forced Manual"):
            self.counts[f"{mode} written in {self.waits_in}, then in force"] += 1
        if self.user_bits_written:
            self.counts[f"user bits {after.user_bits}, then a scan"] += 1
        if was in AUTOMATIC and mode in AUTOMATIC and before.open_count == after.open_count == 0:
            self.counts.update(f"{name} changed between automatic scans" for name in self.changed)
        self.forget()


def kinds_of_number(word, number):
    """What is met by a number outside 1..32."""
    kinds = [str(number)] if number in (0, 33) else []
    kinds += ["below zero"] if number < 0 else []
    kinds += ["right in 8 bits"] if 1 <= number % 256 <= 32 else []
    kinds += ["beyond 32 bits"] if not -1 << 31 <= number < 1 << 31 else []
    return [f"{word} of a number {kind}" for kind in kinds]


def places(value, least, greatest):
    """Where a value lies about the ends of its range."""
    low_bits = {(value + 32768) % 65536 - 32768, value % 65536}
    present = (value == least - 1, value == least, value == least + 1, value == greatest - 1, value == greatest, value == greatest + 1,
               value < -1000000, value > 1000000, not least <= value <= greatest and any(least <= low <= greatest for low in low_bits))
    yield from (place for place, is_present in zip(PLACES, present, strict=True) if is_present)
    if not least <= value <= greatest and least <= value % 256 <= greatest:
        yield "right in 8 bits"


def about_partner(name, value, parameters):
    """Whether a value stands just on one side of the stored partner, or on it; the partner isn't at its default."""
    partner = partner_of(name)
    if partner is None or getattr(parameters, partner) == Parameters._field_defaults[partner]:
        return []
    distance = value - getattr(parameters, partner) if name == PAIR_OF[name][0] else getattr(parameters, partner) - value
    just_in_order, just_out = (1, 0) if PAIR_OF[name] in CHANNEL_PAIRS else (0, -1)
    found = {0: ["equal to"]}.get(distance, [])
    found += ["just in order with"] if distance == just_in_order else ["just out of order with"] if distance == just_out else []
    return [f"{name} {how} its partner" for how in found]
