"""The arithmetic lines of the console: each has one formula of documents 01 and 02 by its word.

The answer is a number alone.  A line with a number out of its range, or with two ends out of order, is no call.
"""

from tests.model import formulas

READING, SAMPLE, RATIO = (-9999, 9999), (0, 10000), (1, 9999)
XP, SPAN, TIME, SWITCH = (1, 9999), (1, 19998), (0, 9999), (0, 1)
DEVIATION, CHANGE, WIDE = (-19998, 19998), (-39996, 39996), (-999999999, 999999999)

# "Terms": SPAN is W, TIME is TI or TD, DEVIATION is c, CHANGE is c - c1 or D; the
# switches are S2.8 (minutes), then S2.4 (inverse).
RANGES = {
    "scale": (READING, READING, SAMPLE),
    "root": (SAMPLE,),
    "ratio": (READING, RATIO),
    "inverse": (READING, RATIO),
    "limit": (WIDE, WIDE, WIDE),
    "proportional": (XP, SPAN, CHANGE),
    "integral": (XP, SPAN, TIME, SWITCH, DEVIATION),
    "derivative": (XP, SPAN, TIME, SWITCH, SWITCH, CHANGE),
}
WORDS, ORDERED = tuple(RANGES), ("scale", "limit")  # the second begin with two ends, L and H, or LOW and HIGH
TERMS = {"proportional": formulas.proportional, "integral": formulas.integral, "derivative": formulas.derivative}
OTHERS = {"scale": formulas.scale, "root": formulas.root, "ratio": formulas.ratio, "inverse": formulas.inverse_ratio,
          "limit": formulas.limit}


def is_in_order(word, numbers):
    """L below H; LOW not above HIGH."""
    return word not in ORDERED or numbers[0] < numbers[1] or word == "limit" and numbers[0] == numbers[1]


def answer_to(word, numbers):
    """A term's is that which is stored, in steps of 1/65,536 units."""
    return formulas.stored_term(TERMS[word](*numbers)) if word in TERMS else OTHERS[word](*numbers)
