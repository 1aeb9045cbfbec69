"""SP and SL of a scan, told once more from documents 01 and 02, in whole numbers, and by wrong rules."""

from typing import NamedTuple

from tests.coverage.coverage import on
from tests.lists.scan_source import LOWER, RAISE, SP

AUTOMATIC = ("Auto", "Remote", "Ratio", "Fall-back")


class Told(NamedTuple):
    """What a scan had, and the SP and SL that the documents give it."""
    SW: int
    LS: int
    HS: int
    second: int           # channel 2 by 1L, 1H
    third: int            # channel 3 by 3L, 3H
    trim: int
    measured_power: bool
    is_open: bool
    SL_before: int
    SP: int
    SL: int


def scaled(low, high, sample):
    """The quotient nearest, halves up."""
    return low + (sample * (high - low) + 5000) // 10000


def within(told, number):
    """Limited to LS..HS."""
    return min(max(number, told.LS), told.HS)


def direction(buttons):
    """What SP with Raise or with Lower adds to SL."""
    return (bool(buttons & RAISE) - bool(buttons & LOWER)) if buttons & SP else 0


def told(before, after, call, mode):
    """Of an accepted scan with these controllers before and behind it; SP of Ratio is taken as it is."""
    earlier, buttons, is_open = before.parameters, call[5], bool(call[6] & 1)
    third = scaled(earlier.channel_3L, earlier.channel_3H, call[4])
    trim = 0 if before.measured_power or mode == "Track" else third
    found = Told(before.SW, earlier.LS, earlier.HS, scaled(earlier.channel_1L, earlier.channel_1H, call[3]), third, trim,
                 before.measured_power, is_open, earlier.SL, after.SP, 0)
    if mode == "Ratio":
        return found._replace(SL=after.SP)
    if mode == "Remote":
        SP_now = within(found, found.second + trim)
        return found._replace(SP=SP_now, SL=within(found, SP_now - trim))
    SL = earlier.SL
    if on(before.SW, 10) and mode not in AUTOMATIC:
        SL = SL if is_open else within(found, after.PV)
    elif direction(buttons):
        SL = within(found, SL + direction(buttons))
    return found._replace(SP=within(found, SL if on(before.SW, 15) else SL + trim), SL=SL)


def setpoint_after(SL, now, buttons):
    """SP in Fall-back with S2.1 OFF, if SL had been this one before it."""
    SL = within(now, SL + direction(buttons)) if direction(buttons) else SL
    return within(now, SL + now.trim)


# Wrong rules: each gives the SP and SL that it has in place of the right ones ------------

def as_told(SL):
    """A rule that has another SL alone."""
    return lambda told: (told.SP, SL(told))


def in_wrong_order(told):
    """SL limited first, SP made of it."""
    SL = within(told, told.second)
    return within(told, SL + told.trim), SL


IN_REMOTE = {
    "SL takes SP": as_told(lambda told: told.SP),
    "SL isn't limited anew": as_told(lambda told: told.SP - told.trim),
    "SL is limited to LS alone": as_told(lambda told: max(told.LS, told.SP - told.trim)),
    "SL is limited to HS alone": as_told(lambda told: min(told.HS, told.SP - told.trim)),
    "SL takes channel 2, limited": as_told(lambda told: within(told, told.second)),
    "SL takes channel 2": as_told(lambda told: told.second),
    "SL limited before SP": in_wrong_order,
    "the trim added": as_told(lambda told: within(told, told.SP + told.trim)),
    "the trim twice": as_told(lambda told: within(told, told.SP - 2 * told.trim)),
    "the trim with MD bit 4 too": as_told(lambda told: within(told, told.SP - told.third)),
    "trims above zero alone": as_told(lambda told: within(told, told.SP - max(0, told.trim))),
    "trims below zero alone": as_told(lambda told: within(told, told.SP - min(0, told.trim))),
    "SL stays": as_told(lambda told: told.SL_before),
    "SL stays on open scans": as_told(lambda told: told.SL_before if told.is_open else told.SL),
    "SL takes SP on open scans": as_told(lambda told: told.SP if told.is_open else told.SL),
    "SL takes SP if SP less trim is beyond": as_told(lambda told: told.SL if told.SL == told.SP - told.trim else told.SP),
    "SL stays if SP less trim is beyond": as_told(lambda told: told.SL if told.SL == told.SP - told.trim else told.SL_before),
    "SL takes SP with S2.6 ON": as_told(lambda told: told.SP if on(told.SW, 10) else told.SL),
    "SL takes SP with S2.6 OFF": as_told(lambda told: told.SL if on(told.SW, 10) else told.SP),
}
IN_RATIO = {
    "less the trim": as_told(lambda told: within(told, told.SP - told.trim)),
    "less the trim, not limited": as_told(lambda told: told.SP - told.trim),
    "with the trim": as_told(lambda told: within(told, told.SP + told.trim)),
    "SL stays": as_told(lambda told: told.SL_before),
}
