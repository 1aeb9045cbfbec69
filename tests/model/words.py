"""The controller of document 01: its switches, pins and buttons, its mode and causes, and its words, one text for both
arithmetics.

Made from document 01 and never from the code, so that a comparison of the two is a comparison with the paper.
"""

from tests.model.state import OPEN_CAUSE

# "SW bits 15 to 8 are switches S2.1 to S2.8 and bit 7 is S1.1, 1 = ON"
S2_1, S2_2, S2_3, S2_4, S2_5, S2_6, S2_8, S1_1 = (1 << bit for bit in (15, 14, 13, 12, 11, 10, 8, 7))
# "a pin byte (7 Hold, 6 Track, 5 Remote, 4 Computer, 3..0 unit address; 1 is 15 V)"
HOLD_PIN, TRACK_PIN, REMOTE_PIN, COMPUTER_PIN = 0x80, 0x40, 0x20, 0x10
# "a button byte laid out as MD bits 7..0": "7 Lower, 6 Raise, 5 zero, 4 measured power, 3 SP, 2 R, 1 A, 0 M"
LOWER, RAISE, SP_BUTTON, R_BUTTON, A_BUTTON, M_BUTTON = 0x80, 0x40, 0x08, 0x04, 0x02, 0x01
# "a sensor byte (0 channel 1 open, 1 battery low)"
OPEN_SENSOR, BATTERY_SENSOR = 0x01, 0x02

MODES = ("Hold", "Track", "Forced Manual", "Manual", "Auto", "Remote", "Ratio", "Fall-back")
AUTOMATIC = ("Auto", "Remote", "Ratio", "Fall-back")
# "MD: 15 Hold, 14 Track, 13 Manual or Forced, 12 Auto or Fall-back, 11 Remote or Ratio"
MD_BIT = {"Hold": 15, "Track": 14, "Manual": 13, "Forced Manual": 13, "Auto": 12, "Fall-back": 12, "Remote": 11, "Ratio": 11}


def minimum(SW, parameters):
    """In units: ""Minimum" sets OP to LO, or to HO with S2.2 ON"."""
    return parameters.HO if SW & S2_2 else parameters.LO


def has_open_cause(controller):
    return controller.open_count >= OPEN_CAUSE


def has_cause(controller):
    """Step 2: "A cause is the memory fault, or the 85th and later consecutive open scan"."""
    return controller.memory_fault or has_open_cause(controller)


def mode_of(controller):
    """Step 3: the mode, in priority order; "Mode and cause always follow the present state"."""
    if not controller.pins & HOLD_PIN:
        return "Hold"
    if controller.pins & TRACK_PIN:
        return "Track"
    if has_cause(controller):
        return "Forced Manual"
    if controller.request == "M":
        return "Manual"
    if controller.request == "A":
        return "Auto"
    if not controller.pins & REMOTE_PIN:
        return "Fall-back"
    return "Ratio" if controller.SW & S2_1 else "Remote"


def MD(controller):
    """Words: "10 Remote pin, 9 open cause, 8 memory fault, 7 Lower, 6 Raise, 5 zero, 4 measured power, 3 SP, 2 R, 1 A,
    0 M", and the mode's bit.
    """
    return (1 << MD_BIT[mode_of(controller)] | bool(controller.pins & REMOTE_PIN) << 10 | has_open_cause(controller) << 9
            | controller.memory_fault << 8 | controller.buttons | controller.measured_power << 4)


def DS(controller):
    """Words: "DS: high byte the pin byte; 7, 6 user bits 2, 1; 5 is 0 in Hold, Manual, Forced; 4 is 0 in Remote, Ratio;
    3 is 0 ...".
    """
    mode = mode_of(controller)
    return (controller.pins << 8 | controller.user_bits << 6 | (mode not in ("Hold", "Manual", "Forced Manual")) << 5
            | (mode not in ("Remote", "Ratio")) << 4 | (not controller.battery_low) << 3 | (not has_cause(controller)) << 2
            | (not controller.low_alarm) << 1 | (not controller.high_alarm))


def scan_words(controller, arithmetic):
    """Words: "A scan answers MD, DS, OP and electrical output"; the last is OP, "or 9999 - OP with S2.2 ON".

    Document 02, request 1: "A scan's answer carries the mode and PV as well from now on".
    """
    OP = arithmetic.whole_units(controller.output)
    return MD(controller), DS(controller), OP, 9999 - OP if controller.SW & S2_2 else OP, mode_of(controller), controller.PV
