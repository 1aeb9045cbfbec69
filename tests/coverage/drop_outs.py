"""What the lists for Remote drop-outs have met: pairs of a Remote scan and a Fall-back scan straight after it, with SP
and SL read behind both, where wrong rules would give other values.

SP and SL are told here once more, in whole numbers, and those of both controllers of the model are held against them.
Each wrong rule is counted where it gives another SL, or SP, in Remote, and where its SL gives another SP in Fall-back.
"""

from typing import NamedTuple

from tests.coverage.coverage import Coverage, on
from tests.coverage.drop_out_rules import IN_RATIO, IN_REMOTE, Told, direction, setpoint_after, told
from tests.lists.scan_source import LOWER, RAISE, SP, R
from tests.model.table import NAMES
from tests.model.words import mode_of

SIZES = ("zero", *(f"{size} {side} zero" for size in ("1 to 3", "4 to 99", "100 or more") for side in ("above", "below")))
PLACES = ("within the limits", "at LS", "at HS", "one below LS", "one above HS", "far below LS", "far above HS")
HOW = ("within the limits", "at LS by the limit", "at HS by the limit", "at LS unlimited", "at HS unlimited")
PRESSED = tuple(f"{'SP' if held & SP else ''}{' Raise' if held & RAISE else ''}{' Lower' if held & LOWER else ''}".strip() or "nothing"
                for held in (0, SP, RAISE, LOWER, SP | RAISE, SP | LOWER, RAISE | LOWER, SP | RAISE | LOWER))
CHANNEL_3 = ("the same sample", "another sample that reads the same", "the next sample, reading otherwise", "another reading")
WRITTEN = ("SL", "MD bit 4 set", "MD bit 4 cleared", "LS", "HS", "channel_3H", "channel_3L")
IDLE = (*(f"scan refused {number}" for number in (1, 2, 3, 16)), *(f"write refused {number}" for number in (5, 6, 7, 8, 9, 19, 20)),
        "line refused 17", "line refused 6", "line reply", "save image", "save refused 15", "restart refused 12", "access ok",
        "access refused 20", "clock clock", "read refused 4")
OTHERS = ("Auto", "Manual", "Hold", "Track")
RESTARTED = ("the image restarted", "an older image restarted")
WITHIN = ", SP less trim within the limits, trim not zero"


def least_counts():
    """The least count of each thing, by name."""
    least = {"pairs": 20000, "pairs with nothing between": 700, "pairs with the promise": 6000, "the promise, trim not zero": 3000,
             "pairs with SP less trim beyond the limits, a jump": 1600, "Ratio to Fall-back": 900}
    least.update({f"trim {size}": 800 for size in SIZES})
    least.update({f"SP less trim {place}": 350 for place in PLACES} | {f"SP {how}": 1200 for how in HOW})
    least.update({f"SP {how}, less trim within them, trim not zero": 250 for how in HOW})
    least.update({f"in Remote, {rule}: another SP or SL": 1000 for rule in IN_REMOTE})
    least.update({f"in Fall-back, {rule}: another SP": 150 for rule in IN_REMOTE})
    least.update({f"in Ratio, {rule}: another SL": 300 for rule in IN_RATIO})
    least.update({f"held in Fall-back: {held}{beside}": 250 for held in PRESSED for beside in ("", WITHIN)})
    least.update({f"channel 3: {same}{beside}": 300 for same in CHANNEL_3 for beside in ("", WITHIN)})
    least.update({f"{switch} {level}": 4000 for switch in ("S2.6", "S1.1") for level in ("ON", "OFF")})
    least.update({f"open: {which}": 1300 for which in ("the first", "the second", "both", "neither")})
    least.update({"MD bit 4, channel 3 not zero": 1000, "R pressed again": 2800, "behind a gap": 1300, "at an ordinary interval": 15000,
                  "another channel 1": 12000, "another channel 2": 15000, "Fall-back again, SL stays, trim not zero": 1300,
                  "Fall-back again, SL moved": 80, "Remote again": 15000, "restarted, trim not zero": 150})
    least.update({RESTARTED[0]: 180, RESTARTED[1]: 80})
    least.update({f"{mode} to {other}, trim not zero": 100 if mode == "Remote" else 35 for mode in ("Remote", "Ratio") for other in OTHERS})
    least.update({f"Ratio to Fall-back, trim {side} zero": 180 for side in ("above", "below")})
    least.update({f"written between: {name}": 60 for name in WRITTEN} | {f"written between: {name}, another SP": 5 for name in WRITTEN})
    least.update({f"between: {kind}": 6 for kind in IDLE})
    least.update({f"{writer} writes between": 30 for writer in ("operator", "engineer", "computer")})
    return least


class First(NamedTuple):
    """An accepted scan, as far as it counts for the next."""
    mode: str
    call: tuple
    told: Told


class DropOutCoverage(Coverage):
    title, least_counts = "drop-outs", staticmethod(least_counts)

    def __init__(self):
        """The last accepted scan, what came behind it, and what of SP and SL was read; what the scan has met, which
        counts once both are read behind it.
        """
        super().__init__()
        self.first, self.between, self.read, self.waiting = None, [], set(), []

    def call(self, call, before, after, answer, pair):
        if answer[0] == "scan":
            self.scan(call, before, after)
        elif call[0] == "fresh":
            self.first, self.waiting = None, []
        elif call[0] == "read" and answer[0] == "value":
            self.read.add(NAMES[call[1] - 1])
            if {"SP", "SL"} <= self.read:
                self.count(*self.waiting)
                self.waiting = []
        else:
            self.between += between(call, before[0], after[0], answer)

    def scan(self, call, before, after):
        """Holds the model's SP and SL against those told here, and what this scan met with the one before it."""
        mode = mode_of(after[0])
        right = told(before[0], after[0], call, mode)
        for each in after:
            if (each.SP, each.parameters.SL) != (right.SP, right.SL):
                raise ValueError(f"the model is wrong in {mode}: SP is {each.SP}, SL {each.parameters.SL}, not {right.SP} and {right.SL}")
        first, now = self.first, First(mode, call, right)
        self.waiting = [*met_alone(now)]
        if first:
            written = [name for name in self.between if name.startswith(("written", *RESTARTED))]
            self.waiting += [*self.met_written(first, now, written)] if written else [*self.met(first, now)]
        self.first, self.between, self.read = now, [], set()

    def met(self, first, now):
        """Of two scans with no call between that changes anything."""
        trim = first.told.trim
        if first.mode in ("Remote", "Ratio") and now.mode in OTHERS and trim:
            yield f"{first.mode} to {now.mode}, trim not zero"
        if (first.mode, now.mode) == ("Ratio", "Fall-back"):
            yield from ("Ratio to Fall-back", *([f"Ratio to Fall-back, trim {'above' if trim > 0 else 'below'} zero"] if trim else []))
        if (first.mode, now.mode) == ("Fall-back", "Fall-back") and now.told.trim:
            yield "Fall-back again, SL stays, trim not zero" if first.told.SL == now.told.SL else "Fall-back again, SL moved"
        if (first.mode, now.mode) == ("Fall-back", "Remote"):
            yield "Remote again"
        if (first.mode, now.mode) == ("Remote", "Fall-back"):
            yield from (f"between: {kind}" for kind in self.between)
            if {"SP", "SL"} <= self.read:
                yield "pairs"
            else:
                yield "pairs with other calls between" if self.read or self.between else "pairs with nothing between"
            yield from met_in_pair(first, now)

    def met_written(self, first, now, written):
        """Of a Remote scan and a Fall-back scan with a write, or a restart from its image, between."""
        if (first.mode, now.mode) != ("Remote", "Fall-back"):
            return
        yield from (name for name in self.between if name.endswith("writes between"))
        is_promised = is_within(first.told) and first.call[4] == now.call[4] and not direction(now.call[5])
        for name in written:
            yield name
            if is_promised and now.told.SP != first.told.SP:
                yield f"{name}, another SP"
            if name in RESTARTED and first.told.trim:
                yield "restarted, trim not zero"


def between(call, before, after, answer):
    """What came between two scans: an accepted write by its name and its writer, a restart, else the kind of call and
    answer.
    """
    if call[0] == "write" and answer == ("ok",):
        name = NAMES[call[2] - 1]
        if name == "MD":
            changed = before.measured_power != after.measured_power
            name = f"MD bit 4 {'set' if after.measured_power else 'cleared'}" if changed else "MD"
        return [f"written between: {name}", f"{call[1]} writes between"]
    if call[0] == "restart" and answer == ("ok",):
        return [RESTARTED[after.parameters != before.parameters]]
    return [f"{call[0]} {' '.join(map(str, answer[:2])) if answer[0] == 'refused' else answer[0]}"]


def is_within(first):
    return first.LS <= first.SP - first.trim <= first.HS


def met_alone(now):
    """What a scan in Remote or Ratio alone tells apart."""
    for rules, mode, what in ((IN_REMOTE, "Remote", "another SP or SL"), (IN_RATIO, "Ratio", "another SL")):
        if now.mode == mode:
            yield from (f"in {mode}, {name}: {what}" for name, rule in rules.items() if rule(now.told) != (now.told.SP, now.told.SL))


def met_in_pair(first, now):
    """Of a Remote scan and a Fall-back scan straight after it."""
    right, trim, held = first.told, first.told.trim, now.call[5]
    beside = is_within(right) and trim != 0
    is_promised = is_within(right) and right.third == now.told.third and not held & (RAISE | LOWER)
    yield from ["pairs with the promise"] * is_promised + ["the promise, trim not zero"] * (is_promised and trim != 0)
    if not is_within(right) and now.told.SP != right.SP:
        yield "pairs with SP less trim beyond the limits, a jump"
    yield from (f"in Fall-back, {name}: another SP" for name, rule in IN_REMOTE.items()
                if setpoint_after(rule(right)[1], now.told, held) != now.told.SP)
    yield from (f"trim {size_of(trim)}", f"SP less trim {place_of(right)}", f"SP {how(right)}")
    yield from [f"SP {how(right)}, less trim within them, trim not zero"] * beside
    pressed = " ".join(name for name, button in (("SP", SP), ("Raise", RAISE), ("Lower", LOWER)) if held & button) or "nothing"
    for name in (f"held in Fall-back: {pressed}", f"channel 3: {channel_3(first, now)}"):
        yield from (name, *[name + WITHIN] * beside)
    yield from met_beside(first, now)


def met_beside(first, now):
    """Switches, open scans, buttons, the clock and the other channels."""
    SW, opens = now.told.SW, (first.call[6] & 1, now.call[6] & 1)
    yield from (f"{switch} {'ON' if on(SW, place) else 'OFF'}" for switch, place in (("S2.6", 10), ("S1.1", 7)))
    yield "open: " + {(0, 0): "neither", (1, 0): "the first", (0, 1): "the second", (1, 1): "both"}[opens]
    yield "behind a gap" if now.call[7] - first.call[7] > 42 else "at an ordinary interval"
    yield from (name for name, is_met in (
        ("MD bit 4, channel 3 not zero", first.told.measured_power and first.told.third != 0), ("R pressed again", now.call[5] & R),
        ("another channel 1", first.call[2] != now.call[2]), ("another channel 2", first.call[3] != now.call[3])) if is_met)


def size_of(trim):
    if trim == 0:
        return "zero"
    size = "1 to 3" if abs(trim) <= 3 else "4 to 99" if abs(trim) <= 99 else "100 or more"
    return f"{size} {'above' if trim > 0 else 'below'} zero"


def place_of(right):
    """Where SP less the trim lies."""
    place = right.SP - right.trim
    for end, distance in (("below LS", right.LS - place), ("above HS", place - right.HS)):
        if distance > 0:
            return f"{'one' if distance == 1 else 'a few' if distance < 10 else 'far'} {end}"
    return "at LS" if place == right.LS else "at HS" if place == right.HS else "within the limits"


def how(right):
    """Whether SP was limited."""
    wanted = right.second + right.trim
    for end, limit, is_beyond in (("LS", right.LS, wanted < right.LS), ("HS", right.HS, wanted > right.HS)):
        if is_beyond or wanted == limit:
            return f"at {end} by the limit" if is_beyond else f"at {end} unlimited"
    return "within the limits"


def channel_3(first, now):
    if first.call[4] == now.call[4]:
        return "the same sample"
    if first.told.third == now.told.third:
        return "another sample that reads the same"
    return "the next sample, reading otherwise" if abs(first.call[4] - now.call[4]) == 1 else "another reading"
