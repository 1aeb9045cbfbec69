"""Every exact half of the two quotients of a ratio setpoint, 100 x q / s and q x s / 100, within areas of q and s.

They are listed by steps, and found once more by trying every q with every s, so that a test can tell whether one is
missing.  The words are those of the arithmetic lines: ratio for 100 x q / s, inverse for q x s / 100.
"""

import collections
from typing import NamedTuple

from tests.lists.arithmetic import quotient

WORDS = ("ratio", "inverse")


class Area(NamedTuple):
    """Every q from -most_q to most_q with each of these s."""
    most_q: int
    s: range


def up_to(most_q, most_s):
    return Area(most_q, range(1, most_s + 1))


# What the arithmetic lines ask: every s with small q, every q with small s, and both in the middle
ARITHMETIC_AREAS = {"ratio": (up_to(150, 9999), up_to(9999, 25), up_to(500, 500)),
                    "inverse": (up_to(25, 9999), up_to(9999, 25), up_to(500, 500))}


def listed(word, areas):
    """Pairs of q and s: where twice the quotient of q 1 is n / d with n odd, the odd multiples of d give halves."""
    found = set()
    for most_q, every_s in areas:
        for s in every_s:
            twice = 2 * quotient(word, (1, s))
            if twice.numerator % 2:
                found.update((sign * q, s) for q in range(twice.denominator, most_q + 1, 2 * twice.denominator) for sign in (1, -1))
    return found


def tried(word, areas):
    """The same by trying every pair: the quotient isn't whole, and twice as much is."""
    found = set()
    for most_q, every_s in areas:
        for q in range(-most_q, most_q + 1):
            if word == "ratio":
                found.update((q, s) for s in every_s if 200 * q % s == 0 and 100 * q % s)
            else:
                found.update((q, s) for s in every_s if q * s % 100 == 50)
    return found


def kinds_tried(word, areas):
    """How many there are of each kind, as tests/lists/arithmetic.py names the kinds of ties."""
    counts = collections.Counter()
    for q, s in tried(word, areas):
        lower = 100 * q // s if word == "ratio" else q * s // 100
        counts[f"half {'above' if q > 0 else 'below'} zero, lower neighbour {'odd' if lower % 2 else 'even'}"] += 1
    return counts
