"""The formulas of documents 01 and 02, computed exactly.

Made from documents 01 and 02 and our decision on a term's exact half, never from the code, so that a comparison of the
two is a comparison with the papers.  Whole numbers and fractions only; nothing here is a floating-point number.

Switches are given as True or 1 for ON, False or 0 for OFF.
"""

from fractions import Fraction
from math import isqrt

STEPS_IN_A_UNIT = 65536  # "the stored output is a whole number of 1/65,536 units"
TERM_LIMIT = 10000       # "Each exact term is limited to +-10,000", in units


# Rounding ------------------------------------------------------------------

def nearest_halves_up(exact):
    """The nearest whole number; a half goes toward plus infinity."""
    return (2 * exact.numerator + exact.denominator) // (2 * exact.denominator)


def nearest_halves_to_even(exact):
    """The nearest whole number; a half goes to the even neighbour, above and below zero alike."""
    lower, above_lower = divmod(exact.numerator, exact.denominator)
    if 2 * above_lower == exact.denominator:
        return lower if lower % 2 == 0 else lower + 1
    return lower if 2 * above_lower < exact.denominator else lower + 1


def limit(low, high, value):
    """The value, or the end of low..high that it lies beyond."""
    assert low <= high
    return low if value < low else high if value > high else value


# One scan, step 1: samples -------------------------------------------------

def scale(low, high, sample):
    """Step 1: L + sample x (H - L) / 10000, the quotient nearest, halves up."""
    return low + nearest_halves_up(Fraction(sample * (high - low), 10000))


def root(sample):
    """Step 1, IC 1: the greatest whole r with r x r <= 10000 x sample."""
    greatest = isqrt(10000 * sample)
    assert greatest ** 2 <= 10000 * sample < (greatest + 1) ** 2
    return greatest


# One scan, step 5: the quotients of Ratio ----------------------------------
# Document 02, request 5: "Both quotients of the ratio now go, at an exact half, to the even neighbour"

def ratio(q, s):
    """Step 5, S2.3 OFF: 100 x q / s, nearest, halves to even."""
    return nearest_halves_to_even(Fraction(100 * q, s))


def inverse_ratio(q, s):
    """Step 5, S2.3 ON: q x s / 100, nearest, halves to even."""
    return nearest_halves_to_even(Fraction(q * s, 100))


# Terms: exact, in units, not yet limited -----------------------------------

def proportional(xp, span, change):
    """10,000,000 x (c - c1) / (XP x W); change is c - c1, span is W."""
    return Fraction(10_000_000 * change, xp * span)


def integral(xp, span, ti, minutes, c):
    """10,000,000 x c x 9 / (XP x W x 25 x TI); span is W.

    With S2.8 ON (minutes) 3 and 500 stand for 9 and 25; 0 if TI is 0.
    """
    if ti == 0:
        return Fraction(0)
    above, below = (3, 500) if minutes else (9, 25)
    return Fraction(10_000_000 * c * above, xp * span * below * ti)


def derivative(xp, span, td, minutes, inverted, d):
    """-10,000,000 x D x 25 x TD / (9 x XP x W); d is D, span is W.

    With S2.8 ON (minutes) 500 and 3 stand for 25 and 9; plus sign with S2.4 ON (inverted).
    """
    above, below = (500, 3) if minutes else (25, 9)
    size = Fraction(10_000_000 * d * above * td, below * xp * span)
    return size if inverted else -size


def stored_term(exact):
    """The term as stored, in steps of 1/65,536 units.

    "Each exact term is limited to +-10,000 and then taken to a whole number of 1/65,536 units that is off by at most
    one half."  Document 01 leaves an exact half free; our decision is the even neighbour, above and below zero.
    """
    limited = limit(-TERM_LIMIT, TERM_LIMIT, exact)
    return nearest_halves_to_even(limited * STEPS_IN_A_UNIT)
