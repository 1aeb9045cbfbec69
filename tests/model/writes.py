"""The controller of documents 01 and 02: write and read, one text of the rules for both arithmetics.

Made from these documents and never from the code, so that a comparison of the two is a comparison with the papers.
"""

from tests.model.formulas import limit
from tests.model.rights import refusals_of_access
from tests.model.table import NAMES, NUMBER, READ_ONLY, is_in_order, range_of
from tests.model.words import AUTOMATIC, DS, MD, REMOTE_PIN, S2_6, has_open_cause, mode_of

II = 0x3608  # "27 II (3608h)"
# "MD: ... 13 Manual or Forced, 12 Auto or Fall-back, 11 Remote or Ratio, ... 8 memory fault, ... 4 measured power"
REQUESTS = {0x2000: "M", 0x1000: "A", 0x0800: "R"}
MEMORY_FAULT, MEASURED_POWER = 0x0100, 0x0010


def write(controller, writer, number, value, arithmetic):
    """Write: the next controller and the answer; "an accepted write ... says only that it was accepted"."""
    return unless_refused(next(refusals(controller, writer, number, value), None), controller, number, value, arithmetic)


def write_of_before(controller, number, value, arithmetic):
    """A write as it was before document 02, request 6, when it named no writer: what an engineer's must still do."""
    return unless_refused(next(refusals_of_before(controller, number, value), None), controller, number, value, arithmetic)


def unless_refused(refusal, controller, number, value, arithmetic):
    if refusal is not None:
        return controller, ("refused", refusal)
    if number == NUMBER["MD"]:
        return with_MD(controller, value), ("ok",)
    if number == NUMBER["DS"]:
        return controller._replace(user_bits=value >> 6 & 3), ("ok",)  # "DS takes bits 7 and 6"
    return with_parameter(controller, NAMES[number - 1], value, arithmetic), ("ok",)


def read(controller, number, arithmetic):
    """Read: "4 number outside 1..32 (reads too)".

    "Read a parameter and save an image change nothing"; "a read answers the value".
    """
    if not 1 <= number <= 32:
        return controller, ("refused", 4)
    return controller, ("value", value_of(controller, NAMES[number - 1], arithmetic))


def value_of(controller, name, arithmetic):
    """What a parameter reads, by the present state; "OP is its floor in units", of the stored output."""
    if name in controller.parameters._fields:
        return getattr(controller.parameters, name)
    if name in ("MD", "DS"):
        return (MD if name == "MD" else DS)(controller)
    if name == "OP":
        return arithmetic.whole_units(controller.output)
    return II if name == "II" else getattr(controller, name)


# Refusals -------------------------------------------------------------------

def refusals(controller, writer, number, value):
    """Every refusal that applies, the first tested first: 4, the writer's 19 and 20, and then as before."""
    yield from refusals_of_access(controller, writer, number)
    if 1 <= number <= 32 and number not in READ_ONLY:
        yield from refusals_of_value(controller, number, value)


def refusals_of_before(controller, number, value):
    """Every refusal that applies whoever writes, the lowest first: "Writer: 4 number outside 1..32 (reads too); 5 read
    only; ..".
    """
    if not 1 <= number <= 32:
        yield 4
    elif number in READ_ONLY:
        yield 5
    else:
        yield from refusals_of_value(controller, number, value)


def refusals_of_value(controller, number, value):
    """Of a parameter that isn't read only: "6 out of range; 7 pair out of order", and those of SL and MD."""
    name, (least, greatest) = NAMES[number - 1], range_of(controller.parameters, number)
    if not least <= value <= greatest:
        yield 6
    if name == "MD":
        yield from refusals_of_MD(controller, value)
    elif name == "SL":
        yield from refusals_of_SL(controller)
    elif name != "DS" and not is_in_order(controller.parameters._replace(**{name: value}), name):
        yield 7


def refusals_of_SL(controller):
    """"8 SL in Remote, Ratio, or with S2.6 ON in a non-automatic mode"."""
    mode = mode_of(controller)
    if mode in ("Remote", "Ratio") or controller.SW & S2_6 and mode not in AUTOMATIC:
        yield 8


def refusals_of_MD(controller, word):
    """"9 not exactly one of MD bits 13, 12, 11; 10 bit 11 with the Remote pin 0; 11 bit 12 or 11 when a cause would
    remain".
    """
    if sum(bool(word & bit) for bit in REQUESTS) != 1:
        yield 9
    if word & 0x0800 and not controller.pins & REMOTE_PIN:
        yield 10
    fault_would_remain = controller.memory_fault and word & MEMORY_FAULT
    if word & 0x1800 and (has_open_cause(controller) or fault_would_remain):
        yield 11


# What an accepted write does --------------------------------------------------

def with_MD(controller, word):
    """"Writing MD takes bits 13, 12, 11 as the request and bit 4".

    "Bit 8 zero clears a standing memory fault, and the request is then Manual".
    """
    request = next(request for bit, request in REQUESTS.items() if word & bit)
    clears_fault = controller.memory_fault and not word & MEMORY_FAULT
    return controller._replace(request="M" if clears_fault else request, memory_fault=controller.memory_fault and not clears_fault,
                               measured_power=bool(word & MEASURED_POWER))


def with_parameter(controller, name, value, arithmetic):
    """"An accepted write of HS or LS limits SL anew, HR or LR limits RS, and HO or LO limits the output unless the mode
    is Hold or Track".
    """
    parameters = controller.parameters._replace(**{name: value})
    if name in ("HS", "LS"):
        parameters = parameters._replace(SL=limit(parameters.LS, parameters.HS, parameters.SL))
    if name in ("HR", "LR"):
        parameters = parameters._replace(RS=limit(parameters.LR, parameters.HR, parameters.RS))
    output = controller.output
    if name in ("HO", "LO") and mode_of(controller) not in ("Hold", "Track"):
        output = arithmetic.limited(parameters.LO, parameters.HO, output)
    return controller._replace(parameters=parameters, output=output)
