"""What the lists with saves and restarts have met, and how often each thing must be met at least."""

from functools import lru_cache

from tests.coverage.coverage import SWITCHES, Coverage, on
from tests.lists.line_forms import line_errors_of, other_forms_of
from tests.model.claim import brings_fault
from tests.model.images import IMAGE_BYTES, decode, has_right_sumcheck, is_in_range, refusals
from tests.model.lines import MOST_BYTES
from tests.model.table import NAMES, PAIRS, ROWS, is_in_order, range_of
from tests.model.words import AUTOMATIC, MODES, mode_of

PLACES = ("just below", "at the least", "at the greatest", "just above", "at 8000h", "at 7FFFh", "at FFFFh")
# "L < H": the higher end is never at the least, nor the lower at the greatest
CHANNEL_ENDS = {f"{row.name} at the {'least' if row.name.endswith('H') else 'greatest'}" for row in ROWS if row.name.startswith("channel")}
SETPOINTS = ("SL", "RS")
AT_RESTART = [f"{position}, {sum_}" for position in ("S2.5 ON, S2.2 ON", "S2.5 ON, S2.2 OFF", "S2.5 OFF, S2.2 ON", "S2.5 OFF, S2.2 OFF")
              for sum_ in ("right sumcheck", "wrong sumcheck")]
# What is illegal along with a value, of necessity: its pair, and with limits the setpoint that they limit
WITH = {name: {name, " ".join(pair)} | {"HS": {"SL"}, "HR": {"RS"}}.get(pair[0], set()) for pair in PAIRS
        for name in (*pair, " ".join(pair))}
SMALL = ("OP", "request", "fault", "fault with a request", "user_bits")
PAIR_NAMES = [" ".join(pair) for pair in PAIRS]


def least_counts():
    """The least count of each thing, by name."""
    least = {"calls": 140000, "restart": 36000, "save": 25000, "read": 50000, "scan": 20000, "write": 3000,
             "accepted, right sumcheck": 5000, "accepted, wrong sumcheck": 9000, "refused 12": 1800, "refused 13": 6000, "refused 14": 8000,
             "refused 15": 400, "refusals 13 14": 300}
    least.update({f"{word} of {length} bytes": 2 for word in ("save", "restart") for length in range(MOST_BYTES + 1)})
    least.update({f"byte {place} changed, sumcheck {how}": 12 for place in range(IMAGE_BYTES - 2) for how in ("as it was", "right")})
    least.update({f"byte {place} changed, sumcheck as it was": 12 for place in (IMAGE_BYTES - 2, IMAGE_BYTES - 1)})
    least.update(least_counts_of_fields())
    least.update({f"accepted in {mode}": 30 if mode == "Forced Manual" else 100 for mode in MODES})
    least.update({f"refused in {mode}": 5 if mode == "Forced Manual" else 10 for mode in MODES})
    least.update({f"saved in {mode}": 20 for mode in MODES})
    least.update({f"{switches}": 500 for switches in AT_RESTART})
    least.update({f"OP moved, {switches}": 30 for switches in AT_RESTART if not switches.startswith("S2.5 OFF")
                  or switches.endswith("right sumcheck")})
    least.update({f"{name} read behind a restart": 50 for name in NAMES})
    least.update({f"{mode} in the scan behind a restart": 10 if mode in ("Ratio", "Remote") else 30 for mode in MODES})
    least.update({f"{count} open scans, then a restart": 2 for count in (83, 84, 85)})
    least.update({f"{count} open scans behind a restart": 2 for count in (84, 85, 86)})
    least.update({f"{count} remembered, a restart, an automatic scan": 20 for count in range(3)})
    least.update({f"{count} remembered, a refused restart, an automatic scan": 5 for count in range(3)})
    least.update({f"fault {what}": 20 for what in (
        "brought by 1", "brought by a wrong sumcheck", "brought anew", "ended by a restart", "ended by a fresh start", "cleared by MD",
        "kept by MD", "kept by a refused restart", "kept by a scan", "saved")})
    least.update({f"MD refused {number} with the fault": 5 for number in (9, 10, 11)})
    least.update({f"a saved image restarted from {how}": 50 for how in ("at once", "later", "under another SW")})
    least.update({"saved again the same": 1000, "saved with a fraction": 100})
    least.update({f"44h of {user_bits} {what}": 10 for user_bits in range(8)
                  for what in ("saved", "restored, right sumcheck", "restored, wrong sumcheck")})
    least.update({f"line: {kind} of {word}": 20 for word in ("save", "restart") for kind in (*line_errors_of(word), *other_forms_of(word))})
    return least


def least_counts_of_fields():
    """By field: values at the ends of each range, what is illegal alone, and what a wrong sumcheck makes of it."""
    names = [row.name for row in ROWS]
    yield from ((f"{name} {place}, wrong sumcheck", 8) for name in names for place in PLACES[:6])
    yield from ((f"{name} {place}, sound", 3) for name in names for place in PLACES[1:3] if f"{name} {place}" not in CHANNEL_ENDS)
    yield from ((f"{name} {place}, alone illegal", 3) for name in names for place in (PLACES[0], *PLACES[3:6]))
    yield from ((f"{name} takes its default by its range", 30) for name in names if name not in SETPOINTS)
    yield from ((f"{name} {how}", 10) for name in PAIR_NAMES
                for how in ("alone out of order", "equal, right sumcheck", "equal, wrong sumcheck", "take their defaults by their order"))
    yield from ((f"{name} within its range takes its default by its pair", 8) for pair in PAIRS for name in pair)
    yield from ((f"{name} alone illegal", 20) for name in SMALL)
    yield from ((f"{name} limited {how}", 30) for name in SETPOINTS for how in ("from above", "from below", "by a default"))
    yield from ((f"{name} kept by a wrong sumcheck", 300) for name in (*SETPOINTS, "RB", "XP"))
    yield from ((f"OP {how}", 30) for how in ("limited to LO", "limited to HO", "at LO", "at HO"))
    yield "44h illegal, wrong sumcheck", 100


class ImageCoverage(Coverage):
    title, least_counts = "images", staticmethod(least_counts)

    def __init__(self):
        """What is known so far: the image that changes start from, the images saved, the last restart until a scan
        comes, and the open scans behind it.
        """
        super().__init__()
        self.base, self.saved, self.calls = None, {}, 0
        self.restarted, self.remembered, self.open_since = None, None, 0

    def call(self, call, before, after, answer, pair):
        self.calls += 1
        self.count("calls", call[0])
        {"fresh": self.fresh, "save": self.save, "restart": self.restart, "scan": self.scanned, "write": self.written,
         "read": self.read}[call[0]](
            call, before[0], after[0], answer)

    def fresh(self, call, before, after, answer):
        self.counts["fault ended by a fresh start"] += before.memory_fault
        self.restarted = self.remembered = None

    def read(self, call, before, after, answer):
        if self.restarted and answer[0] == "value":
            self.counts[f"{NAMES[call[1] - 1]} read behind a restart"] += 1

    def written(self, call, before, after, answer):
        if before.memory_fault and call[2] == 24:
            self.counts[f"fault {'kept' if after.memory_fault else 'cleared'} by MD" if answer == ("ok",)
                        else f"MD refused {answer[1]} with the fault"] += 1

    def save(self, call, before, after, answer):
        self.counts[f"save of {call[1]} bytes"] += 1
        if answer[0] == "refused":
            self.counts[f"refused {answer[1]}"] += 1
            return
        user_bits = after.user_bits | after.measured_power << 2
        self.counts.update((f"saved in {mode_of(after)}", f"44h of {user_bits} saved"))
        self.counts["fault saved"] += after.memory_fault
        self.counts["saved with a fraction"] += after.output % 65536 > 0
        self.counts["saved again the same"] += answer[1] == self.restarted
        self.saved[answer[1]] = self.calls, after.SW
        if call[1] == MOST_BYTES:
            self.base = answer[1]

    def scanned(self, call, before, after, answer):
        if answer[0] == "refused":
            return
        self.counts["fault kept by a scan"] += before.memory_fault
        mode = mode_of(after)
        if self.restarted:
            self.counts[f"{mode} in the scan behind a restart"] += 1
        if self.remembered and mode in AUTOMATIC and not after.open_count:
            self.counts[f"{self.remembered}, an automatic scan"] += 1
        self.open_since = self.open_since + 1 if after.open_count and (self.restarted or self.open_since) else 0
        self.counts[f"{self.open_since} open scans behind a restart"] += 1
        self.restarted = self.remembered = None

    def restart(self, call, before, after, answer):
        image, mode = call[1], mode_of(before)
        self.counts[f"restart of {len(image)} bytes"] += 1
        known = sum(value is not None for value in (before.previous_PV, before.PV_before_previous))
        self.remembered = f"{known} remembered, a{'' if answer == ('ok',) else ' refused'} restart"
        if answer[0] == "refused":
            several = "refusals " + " ".join(map(str, refusals(image)))
            self.counts.update((f"refused {answer[1]}", f"refused in {mode}", *([several] if several != f"refusals {answer[1]}" else [])))
            self.counts["fault kept by a refused restart"] += before.memory_fault
        else:
            self.accepted(image, before, after, mode)
        if len(image) == IMAGE_BYTES and answer != ("refused", 12):
            self.counts.update((*changed_byte(self.base, image), *([] if answer == ("refused", 13) else met_by_values(image))))

    def accepted(self, image, before, after, mode):
        decoded = decode(image)
        sum_ = "right sumcheck" if has_right_sumcheck(decoded) else "wrong sumcheck"
        switches = ", ".join(f"{name} {'ON' if on(before.SW, SWITCHES[name]) else 'OFF'}" for name in ("S2.5", "S2.2"))
        names = [f"accepted, {sum_}", f"accepted in {mode}", f"{switches}, {sum_}", f"44h of {decoded.user_bits} restored, {sum_}"]
        names += [f"OP moved, {switches}, {sum_}"] if after.output // 65536 != decoded.OP else []
        names += [f"{before.open_count} open scans, then a restart"]
        if brings_fault(image):
            names += [f"fault brought by {'a wrong sumcheck' if sum_.startswith('wrong') else '1'}",
                      *(["fault brought anew"] if before.memory_fault else [])]
        elif before.memory_fault:
            names.append("fault ended by a restart")
        if image in self.saved:
            when, SW = self.saved[image]
            names.append("a saved image restarted from " + ("under another SW" if SW != before.SW else "at once" if when == self.calls - 1
                                                            else "later"))
        self.count(*names)
        self.counts.update(met_by_repair(decoded, after.parameters) if sum_.startswith("wrong") else ())
        self.restarted, self.open_since = image, 0


def changed_byte(base, image):
    """Whether one byte differs from the image that changes start from, and the sumcheck is as it was or right."""
    if base is None:
        return
    different = [place for place in range(IMAGE_BYTES - 2) if base[place] != image[place]] if base[:-2] != image[:-2] else []
    if len(different) == 1:
        if base[-2:] == image[-2:]:
            yield f"byte {different[0]} changed, sumcheck as it was"
        if has_right_sumcheck(decode(image)):
            yield f"byte {different[0]} changed, sumcheck right"
    elif not different:
        yield from (f"byte {place} changed, sumcheck as it was"
                    for place in (IMAGE_BYTES - 2, IMAGE_BYTES - 1) if base[place] != image[place])


@lru_cache(maxsize=1 << 12)
def illegal_in(decoded):
    """Everything that isn't legal, by name."""
    parameters = decoded.parameters
    names = [row.name for number, row in enumerate(ROWS, 1) if not is_in_range(parameters, number)]
    names += [name for name, pair in zip(PAIR_NAMES, PAIRS, strict=True) if not is_in_order(parameters, pair[0])]
    small = decoded.OP > 9999, decoded.request > 2, decoded.fault > 1, decoded.fault == 1 and decoded.request > 0, decoded.user_bits > 7
    return names + [name for name, present in zip(SMALL, small, strict=True) if present]


def is_alone(name, illegal):
    return name in illegal and set(illegal) <= WITH.get(name, {name})


def places(value, least, greatest):
    """Where a value lies about the ends of its range."""
    if least + 1 < value < greatest and value != -1:
        return []
    present = (value == least - 1, value == least, value == greatest, value == greatest + 1, value == -0x8000, value == 0x7FFF, value == -1)
    return [place for place, is_present in zip(PLACES, present, strict=True) if is_present]


def met_by_values(image):
    """Values about the ends of their ranges: legal, illegal alone, or beside a wrong sumcheck."""
    decoded = decode(image)
    is_right, illegal = has_right_sumcheck(decoded), illegal_in(decoded)
    for number, row in enumerate(ROWS, 1):
        found = places(decoded.parameters[number - 1], *range_of(decoded.parameters, number))
        if not is_right:
            yield from (f"{row.name} {place}, wrong sumcheck" for place in found)
        elif not illegal or is_alone(row.name, illegal):
            yield from (f"{row.name} {place}, {'alone illegal' if illegal else 'sound'}" for place in found)
    yield from met_by_pairs(decoded, is_right, illegal)
    if is_right and len(illegal) == 1:
        yield f"{illegal[0]} alone illegal"
    if is_right and not illegal:
        OP, LO, HO = decoded.OP, decoded.parameters.LO, decoded.parameters.HO
        found = (("limited to LO", OP < LO), ("limited to HO", OP > HO), ("at LO", OP == LO), ("at HO", OP == HO))
        yield from (f"OP {how}" for how, present in found if present)


def met_by_pairs(decoded, is_right, illegal):
    """Pairs alone out of order, and pairs that are equal."""
    for name, (high, low) in zip(PAIR_NAMES, PAIRS, strict=True):
        if is_right and is_alone(name, illegal):
            yield f"{name} alone out of order"
        if getattr(decoded.parameters, high) == getattr(decoded.parameters, low):
            yield f"{name} equal, {'right' if is_right else 'wrong'} sumcheck"


def met_by_repair(decoded, restored):
    """What a wrong sumcheck made of parameters 1 to 23."""
    illegal = illegal_in(decoded)
    yield from (f"{name} take their defaults by their order" for name, pair in zip(PAIR_NAMES, PAIRS, strict=True)
                if name in illegal and not set(pair) & set(illegal))
    for name, was, value in zip(restored._fields, decoded.parameters, restored, strict=True):
        if name in SETPOINTS:
            yield from met_by_limiting(name, was, value, decoded.parameters, restored)
        elif name in illegal:
            yield f"{name} takes its default by its range"
        else:
            yield f"{name} {'kept by a wrong sumcheck' if was == value else 'within its range takes its default by its pair'}"
    if decoded.user_bits > 7:
        yield "44h illegal, wrong sumcheck"


def met_by_limiting(name, was, value, decoded, restored):
    """How SL or RS was limited, and whether by a default that its limit took."""
    yield f"{name} {'kept by a wrong sumcheck' if was == value else 'limited from above' if was > value else 'limited from below'}"
    limits = {"SL": ("LS", "HS"), "RS": ("LR", "HR")}[name]
    if was != value and any(getattr(restored, end) != getattr(decoded, end) and value == getattr(restored, end) for end in limits):
        yield f"{name} limited by a default"
