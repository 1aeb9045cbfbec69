"""The controller of documents 01 and 02: its two arithmetics, its parameters and its other state items.

Made from these documents and never from the code, so that a comparison of the two is a comparison with the papers.

The arithmetic given with a call decides what the output is.  Stored: a whole number of 1/65,536 units, to which rounded
terms are added. Exact: a fraction, in units, to which the limited terms are added unrounded.  Everything else is the
same for both.
"""

from collections import namedtuple
from fractions import Fraction
from functools import lru_cache
from math import floor
from typing import NamedTuple

from tests.model import formulas
from tests.model.formulas import STEPS_IN_A_UNIT, TERM_LIMIT, limit
from tests.model.table import ROWS

OPEN_CAUSE = 85  # "the 85th and later consecutive open scan"


class Stored:
    """Ours: "the stored output is a whole number of 1/65,536 units, and OP is its floor in units"."""

    @staticmethod
    def of_units(units):
        return units * STEPS_IN_A_UNIT

    @staticmethod
    @lru_cache(maxsize=1 << 17)
    def term(formula, *numbers):
        return formulas.stored_term(formula(*numbers))

    @staticmethod
    def limited(low, high, output):
        return limit(low * STEPS_IN_A_UNIT, high * STEPS_IN_A_UNIT, output)

    @staticmethod
    def whole_units(output):
        return output // STEPS_IN_A_UNIT

    @staticmethod
    def counted(open_scans):
        return min(open_scans, OPEN_CAUSE)  # ours stops at 85


class Exact:
    """The exact controller.

    "its output is a fraction of two whole numbers and its limited terms are added unrounded"
    """

    @staticmethod
    @lru_cache(maxsize=1 << 17)
    def of_units(units):
        return Fraction(units)

    @staticmethod
    @lru_cache(maxsize=1 << 17)
    def term(formula, *numbers):
        return limit(-TERM_LIMIT, TERM_LIMIT, formula(*numbers))

    @staticmethod
    def limited(low, high, output):
        """Compared in whole numbers: fractions take longer."""
        above, below = output.as_integer_ratio()
        assert low <= high
        return Exact.of_units(low) if above < low * below else Exact.of_units(high) if above > high * below else output

    @staticmethod
    def whole_units(output):
        return floor(output)

    @staticmethod
    def counted(open_scans):
        return open_scans  # counts on


# Parameters 1 to 23 in the order of their numbers, with the table's defaults
Parameters = namedtuple("Parameters", [row.name for row in ROWS], defaults=[row.default for row in ROWS])


class Controller(NamedTuple):
    """The state: "State items are all that lasts between calls", in the paper's order.

    Document 02, request 2: "the remembered reading, like all that later requests keep in the controller, is a state
    item of both".
    """
    SW: int
    parameters: Parameters
    request: str            # "M", "A" or "R"
    memory_fault: bool
    user_bits: int          # bit 0 is user bit 1, bit 1 is user bit 2
    measured_power: bool    # MD bit 4
    open_count: int
    output: object          # as the arithmetic has it
    pins: int
    buttons: int
    PV: int
    SP: int
    ER: int
    MP: int
    battery_low: bool
    low_alarm: bool
    high_alarm: bool
    previous_PV: object     # None once forgotten
    PV_before_previous: object
    previous_SP: object
    clock: object           # the last accepted scan's milliseconds, None while there is none


def started(SW, parameters, request, memory_fault, user_bits, measured_power, output):
    """"A fresh start and an accepted restart leave pins 80h, no buttons, open count 0, PV = 1L, SP = SL, ER = PV - SP,
    MP 0, battery good, no alarms".

    Of the one "no earlier PV or SP remembered", of the other "All earlier PV and SP are forgotten".  Neither leaves a
    reading; document 02, request 2: "Until a scan is accepted after a fresh start or a restart, any reading is taken".
    """
    PV, SP = parameters.channel_1L, parameters.SL
    return Controller(SW=SW, parameters=parameters, request=request, memory_fault=memory_fault, user_bits=user_bits,
                      measured_power=measured_power,
                      open_count=0, output=output, pins=0x80, buttons=0, PV=PV, SP=SP, ER=PV - SP, MP=0,
                      battery_low=False, low_alarm=False, high_alarm=False, previous_PV=None, PV_before_previous=None, previous_SP=None,
                      clock=None)


class Input(NamedTuple):
    pins: int
    sample_1: int
    sample_2: int
    sample_3: int
    buttons: int
    sensors: int
    milliseconds: int       # "Every scan now carries the host's milliseconds, 64 bits"
