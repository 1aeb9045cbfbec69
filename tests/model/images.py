"""The controller of document 01: the image, save and restart, one text of the rules for both arithmetics.

Made from document 01 and never from the code, so that a comparison of the two is a comparison with the paper.
"""

import itertools
import struct
from functools import lru_cache
from typing import NamedTuple

from tests.model.formulas import limit
from tests.model.state import Parameters, started
from tests.model.table import PAIRS, ROWS, is_in_order, range_of
from tests.model.words import S2_5, minimum

# The same images come again and again, in both arithmetics: what was computed once is kept, to save time.

# "Tags 1..23 as above (two bytes, two's complement), 41h OP (two), 42h request (one ..), 43h fault (one ..), 44h (one
# ..), 7Fh sumcheck (two)"
TAGS = (*range(1, 24), 0x41, 0x42, 0x43, 0x44, 0x7F)
LENGTHS = (*[2] * 24, 1, 1, 1, 2)
# "fields: tag byte, two-byte length, value, high byte first"; what has a sign is written h, what has none H and B
LAYOUT = struct.Struct(">" + "BHh" * 23 + "BHH" + "BHB" * 3 + "BHH")
IMAGE_BYTES = LAYOUT.size
REQUESTS = ("M", "A", "R")  # "request (one: 0 M, 1 A, 2 R)"
LIMITED = {"SL": ("LS", "HS"), "RS": ("LR", "HR")}


class ImageValues(NamedTuple):
    """The values of an image."""
    parameters: Parameters
    OP: int
    request: int
    fault: int
    user_bits: int  # 44h: "bits 0, 1 user bits 1, 2, bit 2 MD bit 4"
    sumcheck: int


# Save -------------------------------------------------------------------------

def save(controller, length, arithmetic):
    """Save into a buffer of so many bytes: "15 fewer than 137 bytes to save into"; the controller stays either way."""
    if length < IMAGE_BYTES:
        return controller, ("refused", 15)
    user_bits = controller.user_bits | controller.measured_power << 2
    return controller, ("image", image_of((*controller.parameters, arithmetic.whole_units(controller.output),
                                           REQUESTS.index(controller.request),
                                           int(controller.memory_fault), user_bits)))


def image_of(values):
    """The bytes of an image with these values, and the sumcheck behind them."""
    return LAYOUT.pack(*itertools.chain.from_iterable(zip(TAGS, LENGTHS, (*values, sumcheck(values)), strict=True)))


def sumcheck(values):
    """"The sumcheck is all earlier values, read unsigned, summed modulo 65,536"."""
    return sum(value % 65536 for value in values) % 65536


# Restart ----------------------------------------------------------------------

def restart(controller, image, arithmetic):
    """Restart: "keeps SW and takes the rest"; "an accepted write, restart or save says only that it was accepted"."""
    refusal = refusal_of(image)
    if refusal is not None:
        return controller, ("refused", refusal)
    SW, decoded = controller.SW, decode(image)
    parameters, request, memory_fault, OP = (sound if has_right_sumcheck(decoded) else repaired)(SW, decoded)
    user_bits = decoded.user_bits if decoded.user_bits <= 7 else 0  # "an illegal 44h is 0"
    return started(SW, parameters, request, memory_fault, user_bits=user_bits & 3, measured_power=bool(user_bits & 4),
                   output=arithmetic.of_units(OP)), ("ok",)


@lru_cache(maxsize=1 << 12)
def refusal_of(image):
    """"Within a group the lowest number wins"; None if there is none."""
    return next(refusals(image), None)


def refusals(image):
    """Every refusal that applies, the lowest first: "12 length not 137; 13 a wrong tag or length; 14 right sumcheck,
    illegal value".
    """
    if len(image) != IMAGE_BYTES:
        yield 12
        return
    numbers = LAYOUT.unpack(image)
    if numbers[0::3] != TAGS or numbers[1::3] != LENGTHS:
        yield 13
    decoded = decode(image)
    if has_right_sumcheck(decoded) and not is_legal(decoded):
        yield 14


@lru_cache(maxsize=1 << 12)
def decode(image):
    """The values at their places, whatever the tags are."""
    values = LAYOUT.unpack(image)[2::3]
    return ImageValues(Parameters(*values[:23]), *values[23:])


@lru_cache(maxsize=1 << 12)
def has_right_sumcheck(decoded):
    return decoded.sumcheck == sumcheck((*decoded.parameters, *decoded[1:-1]))


@lru_cache(maxsize=1 << 12)
def is_legal(decoded):
    """"Legal: ranges and pairs above, OP 0..9999, request 0..2, fault 0 or 1 and 1 only with request 0, 44h 0..7".

    SL and RS by the image's own limits.
    """
    return (all(is_in_range(decoded.parameters, number) for number in range(1, 24))
            and all(is_in_order(decoded.parameters, high) for high, _ in PAIRS)
            and decoded.OP <= 9999 and decoded.request <= 2 and decoded.fault <= 1 and not (decoded.fault == 1 and decoded.request != 0)
            and decoded.user_bits <= 7)


def is_in_range(parameters, number):
    least, greatest = range_of(parameters, number)
    return least <= parameters[number - 1] <= greatest


def sound(SW, decoded):
    """Parameters, request, memory fault and OP by a sound image: "OP limited to LO..HO; S2.5 ON makes the request
    Manual and OP minimum".
    """
    parameters = decoded.parameters
    if SW & S2_5:
        return parameters, "M", decoded.fault == 1, minimum(SW, parameters)
    return parameters, REQUESTS[decoded.request], decoded.fault == 1, limit(parameters.LO, parameters.HO, decoded.OP)


@lru_cache(maxsize=1 << 12)
def repaired(SW, decoded):
    """The same by a wrong sumcheck, which brings the memory fault and "also sets request Manual, HO 9999, LO 0, OP
    minimum".
    """
    parameters = in_limits(in_order(in_range(decoded.parameters)))._replace(HO=9999, LO=0)
    return parameters, "M", True, minimum(SW, parameters)


def in_range(parameters):
    """First: "of parameters 1 to 23 save SL and RS a value out of its range takes its default"."""
    return parameters._replace(**{row.name: row.default for number, row in enumerate(ROWS, 1)
                                  if row.name not in LIMITED and not is_in_range(parameters, number)})


def in_order(parameters):
    """Second: "then a pair out of order both"."""
    defaults = Parameters._field_defaults
    return parameters._replace(**{name: defaults[name] for pair in PAIRS if not is_in_order(parameters, pair[0]) for name in pair})


def in_limits(parameters):
    """Third: "then SL and RS as carried are limited"."""
    return parameters._replace(**{name: limit(*(getattr(parameters, end) for end in ends), getattr(parameters, name))
                                  for name, ends in LIMITED.items()})
