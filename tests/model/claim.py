"""The claim over every list of calls (document 01, "The exact controller", demand 3, and what document 02 adds to it),
checked after every call, and what each call may change.

It is written apart from the rules: the conditions of the modes, the causes, the accepted automatic scans and the
outright settings are written out here again from the paper's words, and are read from the exact controller.  So is the
clock of document 02, request 2: the reading that is remembered, and what a gap forgets, are told from the calls and
their answers.  A line of request 4 is taken for the read or write that it names (`line_claim.py`), and who may write
what is told from the list by request 6 (`rights_claim.py`).  So is what request 7 promises where Remote drops out
(`drop_out_claim.py`).  Nothing of the rules is called, and of the model only the names of the state items are used.
"""

from functools import lru_cache
from operator import itemgetter

from tests.model.drop_out_claim import DropOutClaim
from tests.model.line_claim import LineClaim
from tests.model.rights_claim import RightsClaim
from tests.model.state import Controller

STEPS_IN_A_UNIT = 65536
AUTOMATIC_MODES = {"Auto", "Remote", "Ratio", "Fall-back"}
# Words: "15 Hold, 14 Track, 13 Manual or Forced, 12 Auto or Fall-back, 11 Remote or Ratio"
MODES_BY_MD_BIT = {15: {"Hold"}, 14: {"Track"}, 13: {"Manual", "Forced Manual"}, 12: {"Auto", "Fall-back"}, 11: {"Remote", "Ratio"}}
MD, OP = 24, 28
# Where an image has its values, counted from its first byte: parameters 1 to 23 and OP two bytes each, request, fault
# and 44h one, the sumcheck two
TWO_BYTES, OP_AT, ONE_BYTE, FAULT_AT, SUMCHECK_AT = range(3, 120, 5), 118, (123, 127, 131), 127, 135
# "A fresh start and an accepted restart leave"; and no earlier PV or SP is remembered, nor a reading
AFTER_START = {"pins": 0x80, "buttons": 0, "open_count": 0, "MP": 0, "battery_low": False, "low_alarm": False, "high_alarm": False,
               "previous_PV": None, "PV_before_previous": None, "previous_SP": None, "clock": None}
# What no write may touch: "of these only scans and restarts change any", the switch word and what scans remember
UNTOUCHED = ("SW", "open_count", "pins", "buttons", "PV", "SP", "ER", "MP", "battery_low", "low_alarm", "high_alarm",
             "previous_PV", "PV_before_previous", "previous_SP", "clock")
ASKING, TIMED = ("read", "save", "clock", "access"), ("scan", "clock")  # calls that change nothing, and those that the clock is about


# Compared: "all items but the output equal, open counts above 85 taken as 85"
COMPARED = tuple(item for item in Controller._fields if item not in ("output", "open_count"))
compared, untouched = (itemgetter(*map(Controller._fields.index, items)) for items in (COMPARED, UNTOUCHED))


def bit(number, place):
    return number >> place & 1


def word_at(image, place):
    return image[place] * 256 + image[place + 1]


@lru_cache(maxsize=1 << 12)
def sum_of(image):
    """"The sumcheck is all earlier values, read unsigned, summed modulo 65,536"."""
    return (sum(word_at(image, place) for place in TWO_BYTES) + sum(image[place] for place in ONE_BYTE)) % 65536


def brings_fault(image):
    """Of an accepted restart: "A fault of 1 or a wrong sumcheck brings the memory fault, any other accepted restart
    ends it".
    """
    return image[FAULT_AT] == 1 or word_at(image, SUMCHECK_AT) != sum_of(image)


def first_mode_present(exact):
    """Step 3: the first in the priority order whose condition is present."""
    return first_of_conditions(exact.pins, bit(exact.SW, 15), exact.memory_fault or exact.open_count > 84, exact.request)


@lru_cache(maxsize=1 << 12)
def first_of_conditions(pins, ratio_switch, cause, request):
    hold_pin, track_pin, remote_pin = bit(pins, 7), bit(pins, 6), bit(pins, 5)
    conditions = (
        ("Hold", hold_pin == 0),
        ("Track", track_pin == 1),
        ("Forced Manual", cause),
        ("Manual", request == "M"),
        ("Auto", request == "A"),
        ("Remote", request == "R" and remote_pin == 1 and ratio_switch == 0),
        ("Ratio", request == "R" and remote_pin == 1 and ratio_switch == 1),
        ("Fall-back", request == "R" and remote_pin == 0))
    return next(mode for mode, present in conditions if present)


def is_minimum(exact_before, exact, mode):
    """Step 6: "on the 85th open scan, if the mode just before this scan was automatic and S2.5 is ON, it goes to
    minimum".
    """
    return (exact.open_count == 85 and mode in ("Manual", "Forced Manual") and bit(exact.SW, 11) == 1
            and first_mode_present(exact_before) in AUTOMATIC_MODES)


class Claim:
    """Follows one pair of controllers; n is the number of accepted automatic scans since the output was last set
    outright.

    The reading is that of the last accepted scan since the last start or accepted restart, or None.  Remembered is how
    many of the last scans are: none behind a start, an open scan, which isn't, or before the first behind a gap.
    """

    def __init__(self):
        self.automatic_scans = 0
        self.restart_brought_fault = False  # whether the last accepted restart brought the memory fault
        self.cleared_since = False          # an accepted write of MD with bit 8 zero came after that restart
        self.reading, self.remembered = None, 0
        self.lines, self.rights, self.drop_outs = LineClaim(), RightsClaim(), DropOutClaim()

    def broken(self, call, before, after, answers, mode_of):
        """The parts of the claim that this call has broken.

        Before and after are pairs of controllers, answers is the pair of answers, ours first and the exact one's
        second; mode_of tells the mode that a controller of ours is in.
        """
        stored, exact = after
        broken_line = []
        if call[0] == "line":
            call, answers, broken_line = self.lines.taken_for(call, before, after, answers, self.rights.lacking)
        broken_line = [*broken_line, *self.rights.broken(call, before, after, answers)]
        is_to_leave = call[0] in ASKING or answers[0][0] == "refused"
        untimely = [*self.broken_timing(call, answers[0])] if call[0] in TIMED else []
        if is_to_leave and stored is before[0] and exact is before[1]:  # all that was found of them still holds
            return [*untimely, *broken_line, *broken_answers(call, after, None, answers)]
        mode, indicated = first_mode_present(exact), mode_of(stored)
        self.follow(call, before[1], exact, answers[1], mode)
        return [*untimely, *broken_line, *self.drop_outs.broken(call, before, after, answers),
                *self.broken_states(after), *broken_leaving(call, before, after, answers),
                *broken_answers(call, after, mode, answers),
                *self.broken_output(stored, exact, mode),
                *([] if indicated == mode else [f"the mode is {indicated}, the first condition present is that of {mode}"])]

    def follow(self, call, exact_before, exact, exact_answer, mode):
        """The outright settings, "Track, minimum, start fresh and accepted restart", the accepted automatic scans:
        automatic mode, not open; the fault; the reading, and what is remembered.
        """
        self.rights.follow(call, exact_answer)
        if call[0] == "fresh" or call[0] == "restart" and exact_answer == ("ok",):
            self.restart_brought_fault = call[0] == "restart" and brings_fault(call[1])
            self.automatic_scans, self.cleared_since, self.reading, self.remembered = 0, False, None, 0
        elif exact_answer[0] == "scan":
            self.follow_clock(call[-1], exact.open_count > 0)
            if mode == "Track" or is_minimum(exact_before, exact, mode):
                self.automatic_scans = 0
            elif mode in AUTOMATIC_MODES and exact.open_count == 0:
                self.automatic_scans += 1
        elif call[0] == "write" and exact_answer == ("ok",) and call[2] == MD and bit(call[3], 8) == 0:
            self.cleared_since = True

    def follow_clock(self, milliseconds, is_open):
        """"After more than 42 ms the scan is taken, but earlier PV and SP are forgotten first"."""
        is_gap = self.reading is not None and milliseconds - self.reading > 42
        self.reading, self.remembered = milliseconds, 0 if is_open else min((0 if is_gap else self.remembered) + 1, 2)

    def broken_timing(self, call, answer):
        """"16 when the reading is less than 30 ms after the last accepted one or lies before it", and only then.

        What is shown of the clock is that last one.
        """
        if call == ("clock",):
            if answer != ("clock", "none" if self.reading is None else self.reading):
                yield f"the clock is shown as {answer}, the last accepted reading is {self.reading}"
        elif call[0] == "scan":
            is_early = self.reading is not None and call[-1] < self.reading + 30
            if is_early and answer[0] == "scan" or not is_early and answer == ("refused", 16):
                yield f"a scan at {call[-1]} is answered {answer}, the last accepted reading is {self.reading}"

    def broken_states(self, after):
        """Compared: "all items but the output equal, open counts above 85 taken as 85"; and when "the memory fault
        stands", which reading the controller has, and whether PVs and an SP are remembered.
        """
        stored, exact = after
        if compared(stored) != compared(exact):
            yield from (f"{item} is {ours}, the exact controller's {others}"
                        for item, ours, others in zip(COMPARED, compared(stored), compared(exact), strict=True) if ours != others)
        if min(stored.open_count, 85) != min(exact.open_count, 85):
            yield f"the open count is {stored.open_count}, the exact controller's {exact.open_count}"
        if stored.memory_fault != (self.restart_brought_fault and not self.cleared_since):
            yield f"the memory fault is {stored.memory_fault}"
        if stored.clock != self.reading:
            yield f"the clock is {stored.clock}, the last accepted reading is {self.reading}"
        is_known = stored.previous_PV is not None, stored.PV_before_previous is not None
        if sum(is_known) != self.remembered or is_known == (False, True) or (stored.previous_SP is not None) != is_known[0]:
            yield f"whether PV and the PV before are remembered: {is_known}, by {self.remembered} scans; SP is {stored.previous_SP}"

    def broken_output(self, stored, exact, mode):
        """Compared: "outputs within the bound", 3/2 x n x 1/65,536 units.

        Outside Hold and Track ours is within its limits.
        """
        if mode not in ("Hold", "Track"):
            lowest, highest = stored.parameters.LO * STEPS_IN_A_UNIT, stored.parameters.HO * STEPS_IN_A_UNIT
            if not lowest <= stored.output <= highest:
                yield f"the output {stored.output} is not within {lowest}..{highest} in {mode}"
        if not isinstance(stored.output, int):
            yield f"the output {stored.output} is not a whole number of 1/65,536 units"
        above, below = exact.output.as_integer_ratio()
        if 2 * abs(stored.output * below - STEPS_IN_A_UNIT * above) > 3 * self.automatic_scans * below:
            yield f"the output {stored.output}, exactly {STEPS_IN_A_UNIT * exact.output}, is out of bound, n is {self.automatic_scans}"


def broken_leaving(call, before, after, answers):
    """What a call may not change, and what a start must set.

    A refused call, a read, a save and a look at the clock leave the controller; a write leaves all that only scans and
    restarts change.
    """
    if (answers[0][0] == "refused" or call[0] in ASKING) and after != before:
        yield f"a refused call, or one that only asks, has changed a controller: {call}"
    if call[0] in ("fresh", "restart") and answers[0] == ("ok",):
        yield from broken_start(before[0].SW if call[0] == "restart" else call[1], after)
    if call[0] == "write":
        for earlier, now in zip(map(untouched, before), map(untouched, after), strict=True):
            if now != earlier:
                yield from (f"a write has changed {item}" for item, old, new in zip(UNTOUCHED, earlier, now, strict=True) if old != new)


def broken_start(SW, after):
    """"A fresh start and an accepted restart leave pins 80h, .., PV = 1L, SP = SL, ER = PV - SP".

    "Restart keeps SW"; outputs are whole units.
    """
    for each in after:
        expected = {**AFTER_START, "SW": SW, "PV": each.parameters.channel_1L, "SP": each.parameters.SL,
                    "ER": each.parameters.channel_1L - each.parameters.SL}
        yield from (f"{item} is {getattr(each, item)} after a start" for item, value in expected.items() if getattr(each, item) != value)
    if after[0].output % STEPS_IN_A_UNIT or after[0].output != STEPS_IN_A_UNIT * after[1].output:
        yield f"the outputs are {after[0].output} and {after[1].output} after a start"


def broken_image(stored, answers):
    """Images are answers, and equal but for OP, which is that of our own stored output, and the sumcheck, which follows
    from it.
    """
    ours, others = (answer[1] for answer in answers)
    if ours[:OP_AT] + ours[OP_AT + 2:SUMCHECK_AT] != others[:OP_AT] + others[OP_AT + 2:SUMCHECK_AT] or len(ours) != len(others):
        yield f"the image is {ours.hex()}, the exact controller's {others.hex()}"
    if word_at(ours, OP_AT) != stored.output // STEPS_IN_A_UNIT:
        yield f"the image's OP is {word_at(ours, OP_AT)}, that of the output {stored.output} is {stored.output // STEPS_IN_A_UNIT}"
    if len(ours) != SUMCHECK_AT + 2 or word_at(ours, SUMCHECK_AT) != sum_of(ours):
        yield f"the image's sumcheck isn't right: {ours.hex()}"


def broken_answers(call, after, mode, answers):
    """Compared: "all answers equal, save OP and electrical output, which are those of our own stored output"."""
    ours, others = answers
    stored, exact = after
    if ours[0] == others[0] == "image":
        yield from broken_image(stored, answers)
        return
    whole_units = stored.output // STEPS_IN_A_UNIT
    if call == ("read", OP):
        if ours != ("value", whole_units):
            yield f"OP reads {ours}, that of the output {stored.output} is {whole_units}"
        return
    if ours[0] == "scan":
        yield from broken_words(stored, exact, mode, answers)
    elif ours != others:
        yield f"the answer is {ours}, the exact controller's {others}"


def broken_words(stored, exact, mode, answers):
    """A scan's answer; its mode is the first in the priority order whose condition is present."""
    (_, md, ds, *outputs, answered, pv), (_, exact_md, exact_ds, _, _, exact_answered, exact_pv) = answers
    if (md, ds, answered, pv) != (exact_md, exact_ds, exact_answered, exact_pv):
        yield f"the answer is {answers[0]}, the exact controller's {answers[1]}"
    whole_units = stored.output // STEPS_IN_A_UNIT
    electrical = 9999 - whole_units if bit(stored.SW, 14) else whole_units
    if outputs != [whole_units, electrical]:
        yield f"OP and electrical output are {outputs}, those of the output {stored.output} are {(whole_units, electrical)}"
    if answered != mode or pv != exact.PV:
        yield f"the answer's mode is {answered} and its PV {pv}, the exact controller's are {mode} and {exact.PV}"
    bits = [place for place in MODES_BY_MD_BIT if bit(md, place)]
    if len(bits) != 1 or mode not in MODES_BY_MD_BIT[bits[0]]:
        yield f"MD {md:04X}h does not show {mode}"
