"""The controller of documents 01 and 02: its calls and its scan, one text of the rules for both arithmetics.

Made from these documents and never from the code, so that a comparison of the two is a comparison with the papers.
"""

from functools import lru_cache

from tests.model import formulas
from tests.model.formulas import limit
from tests.model.images import restart, save
from tests.model.rights import access
from tests.model.state import OPEN_CAUSE, Input, Parameters, started
from tests.model.terminal import line
from tests.model.words import (AUTOMATIC, A_BUTTON, BATTERY_SENSOR, LOWER, M_BUTTON, OPEN_SENSOR, RAISE, R_BUTTON,
                               S1_1, S2_1, S2_3, S2_4, S2_5, S2_6, S2_8, SP_BUTTON, has_cause, minimum, mode_of,
                               scan_words)
from tests.model.writes import read, write

# The same numbers come again and again: what was computed once is kept, to save time.
scale = lru_cache(maxsize=1 << 17)(formulas.scale)
OTHER_CALLS = {"write": write, "access": access, "read": read, "save": save, "restart": restart, "line": line}
# Document 02, request 2: "From 30 to 42 ms is an ordinary scan"
SHORTEST, LONGEST = 30, 42


# The calls -----------------------------------------------------------------

def fresh(SW, arithmetic):
    """Start fresh: "requests Manual with output 0, user bits and MD bit 4 zero, no memory fault", with the defaults."""
    return started(SW, Parameters(), "M", memory_fault=False, user_bits=0, measured_power=False, output=arithmetic.of_units(0))


def scan(controller, given, arithmetic):
    """One scan: the next controller and the answer, with the steps in the paper's order.

    Document 02, request 2: "the controller remembers the last accepted one" of the readings.
    """
    number = refusal_of_scan(controller, given)
    if number is not None:
        return controller, ("refused", number)
    controller = before_the_terms(controller, given)
    is_open = bool(given.sensors & OPEN_SENSOR)
    now = controller._replace(
        pins=given.pins, buttons=given.buttons, battery_low=bool(given.sensors & BATTERY_SENSOR),
        PV=process_value(controller.parameters, given.sample_1, is_open),
        open_count=arithmetic.counted(controller.open_count + 1) if is_open else 0)
    request = requested(now)
    now = now if request == now.request else now._replace(request=request)
    mode = mode_of(now)
    now = with_setpoint(now, moved_parameters(now, mode, is_open), mode, given)
    output = next_output(controller, now, mode, given.sample_3, is_open, arithmetic)
    now = now._replace(output=output, clock=given.milliseconds, **remembered(controller, now, is_open))
    return now, ("scan", *scan_words(now, arithmetic))


def make(controller, call, arithmetic):
    """Any call, given as its word and numbers, a restart with the image's bytes, a line with its own.

    A write, a line and the question for access name their writer first.
    """
    word, *given = call
    if word == "fresh":
        return fresh(*given, arithmetic), ("ok",)
    if word == "scan":
        return scan(controller, Input(*given), arithmetic)
    if word == "clock":  # what the console shows of the remembered reading
        return controller, ("clock", "none" if controller.clock is None else controller.clock)
    return OTHER_CALLS[word](controller, *given, arithmetic)


def refusal_of_scan(controller, given):
    """The refusal's number, or None: "the lowest number wins".

    "Plant: 1 a sample above 10000; 2 button bits 5 or 4 set; 3 sensor bits above 1 set"; and document 02, request 2:
    "16 when the reading is less than 30 ms after the last accepted one or lies before it, tested after 3".
    """
    if max(given.sample_1, given.sample_2, given.sample_3) > 10000:
        return 1
    if given.buttons & 0x30:
        return 2
    if given.sensors & 0xFC:
        return 3
    if controller.clock is not None and given.milliseconds - controller.clock < SHORTEST:
        return 16
    return None


# One scan ------------------------------------------------------------------

NOTHING_EARLIER = {"previous_PV": None, "PV_before_previous": None, "previous_SP": None}


def before_the_terms(controller, given):
    """Document 02, request 2: "After more than 42 ms the scan is taken, but earlier PV and SP are forgotten first"."""
    if controller.clock is not None and given.milliseconds - controller.clock > LONGEST:
        return controller._replace(**NOTHING_EARLIER)
    return controller


def process_value(parameters, sample, is_open):
    """Step 1: channel 1 scaled, rooted first with IC 1; "An open channel 1 reads PV = 1L"."""
    if is_open:
        return parameters.channel_1L
    if parameters.IC == 1:
        sample = formulas.root(sample)
    return scale(parameters.channel_1L, parameters.channel_1H, sample)


def requested(now):
    """Step 2: "With a cause the request becomes Manual in any mode.  Otherwise the first pressed of M, A, R sets the
    request".
    """
    if has_cause(now):
        return "M"
    for button, request in ((M_BUTTON, "M"), (A_BUTTON, "A"), (R_BUTTON, "R")):
        if now.buttons & button:
            return request
    return now.request


def direction(buttons):
    """Step 4: "Raise and Lower together do nothing"; 1 for Raise alone, -1 for Lower alone, else 0."""
    return bool(buttons & RAISE) - bool(buttons & LOWER)


def moved_parameters(now, mode, is_open):
    """Step 4: RS or SL moved with SP held; with S2.6 ON in a non-automatic mode SL becomes PV instead."""
    parameters = now.parameters
    way = direction(now.buttons) if now.buttons & SP_BUTTON else 0
    if now.SW & S2_6 and mode not in AUTOMATIC:
        return parameters if is_open else parameters._replace(SL=limit(parameters.LS, parameters.HS, now.PV))
    if mode == "Remote" or way == 0:
        return parameters
    if mode == "Ratio":
        return parameters._replace(RS=limit(parameters.LR, parameters.HR, parameters.RS + 12 * way))
    return parameters._replace(SL=limit(parameters.LS, parameters.HS, parameters.SL + way))


def ratio_setpoint(SW, parameters, trim, sample_2):
    """Step 5, in Ratio: "100 x q / s + RB, or with S2.3 ON q x s / 100 + RB"; the sum s is limited to LR..HR.

    Document 02, request 5, rounds the quotient, so RB is added behind the rounding and SP may be odd at a half.
    """
    s = limit(parameters.LR, parameters.HR, parameters.RS + trim)
    q = scale(parameters.channel_2L, parameters.channel_2H, sample_2)
    quotient = formulas.inverse_ratio(q, s) if SW & S2_3 else formulas.ratio(q, s)
    return quotient + parameters.RB


def with_setpoint(now, parameters, mode, given):
    """Step 5: SP, SL, ER and MP of this scan; and the alarms, which follow from PV and ER.

    Document 02, request 7: "in Remote, SL takes SP less the trim, limited to LS..HS.  Ratio keeps SL equal to SP".
    """
    scaled_3 = scale(parameters.channel_3L, parameters.channel_3H, given.sample_3)
    trim = 0 if mode == "Track" or now.measured_power else scaled_3
    if mode == "Remote":
        SP = scale(parameters.channel_1L, parameters.channel_1H, given.sample_2) + trim
    elif mode == "Ratio":
        SP = ratio_setpoint(now.SW, parameters, trim, given.sample_2)
    else:
        SP = parameters.SL if now.SW & S2_1 else parameters.SL + trim
    SP = limit(parameters.LS, parameters.HS, SP)
    if mode in ("Remote", "Ratio"):
        parameters = parameters._replace(SL=SP if mode == "Ratio" else limit(parameters.LS, parameters.HS, SP - trim))
    ER = now.PV - SP
    return now._replace(parameters=parameters, SP=SP, ER=ER, MP=scaled_3 if now.measured_power else 0,
                        low_alarm=now.PV < parameters.LA or ER < -parameters.LD,
                        high_alarm=now.PV > parameters.HA or ER > parameters.HD)


def next_output(before, now, mode, sample_3, is_open, arithmetic):
    """Step 6, and the limiting at its end."""
    output = before.output
    if mode == "Hold":
        return output
    if mode == "Track":
        return arithmetic.of_units(min(sample_3, 9999))
    if mode in ("Manual", "Forced Manual"):
        is_85th = is_open and before.open_count == OPEN_CAUSE - 1
        if is_85th and mode_of(before) in AUTOMATIC and now.SW & S2_5:
            output = arithmetic.of_units(minimum(now.SW, now.parameters))
        elif not now.buttons & SP_BUTTON:
            output += arithmetic.of_units(12 * direction(now.buttons))
    elif not is_open:
        for term in terms(before, now, mode):
            change = arithmetic.term(*term)
            output = output + change if change else output  # adding a fraction of zero takes long
    return arithmetic.limited(now.parameters.LO, now.parameters.HO, output)


def terms(before, now, mode):
    """Terms: the three, each as its formula and its numbers.  "A forgotten value counts as the nearest later one"."""
    inverse, minutes, parameters = bool(now.SW & S2_4), bool(now.SW & S2_8), now.parameters
    previous_PV = now.PV if before.previous_PV is None else before.previous_PV
    PV_before_previous = previous_PV if before.PV_before_previous is None else before.PV_before_previous
    previous_SP = now.SP if before.previous_SP is None else before.previous_SP
    if mode in ("Auto", "Fall-back") and not now.SW & S1_1:
        previous_SP = now.SP
    c, c1 = now.SP - now.PV, previous_SP - previous_PV
    if inverse:
        c, c1 = -c, -c1
    W = parameters.channel_1H - parameters.channel_1L
    D = now.PV - 2 * previous_PV + PV_before_previous
    return ((formulas.proportional, parameters.XP, W, c - c1),
            (formulas.integral, parameters.XP, W, parameters.TI, minutes, c),
            (formulas.derivative, parameters.XP, W, parameters.TD, minutes, inverse, D))


def remembered(before, now, is_open):
    """Step 7: "An open scan forgets earlier PV and SP and isn't remembered; others are"."""
    if is_open:
        return NOTHING_EARLIER
    return {"previous_PV": now.PV, "PV_before_previous": before.previous_PV, "previous_SP": now.SP}
