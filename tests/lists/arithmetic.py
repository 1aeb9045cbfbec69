"""The calls that tests/comparison/arithmetic.py makes, and those that stand between other lines of the console: drawn
ones, and searches for the hard ones among them, which are ties, near ties and terms at the limit.
"""

import itertools
from bisect import bisect
from fractions import Fraction

from tests.model.arithmetic import RANGES, SWITCH, TERMS, answer_to, is_in_order

STEPS_IN_A_UNIT = Fraction(65536)
LIMIT = 10000 * 65536  # of a stored term, in steps


def is_legal(word, arguments):
    return is_in_order(word, arguments) and all(low <= number <= high for number, (low, high)
                                                in zip(arguments, RANGES[word], strict=True))


def expected_answer(word, arguments):
    return str(answer_to(word, arguments)) if is_legal(word, arguments) else "error"


def line_of(word, arguments, blanks=" "):
    return blanks.join([word, *map(str, arguments)])


# Drawn calls ----------------------------------------------------------------

def draw(generator, low, high):
    """A number in range: anywhere, near zero, or near an end."""
    middle = generator.choice([None, max(low, min(high, 0)), low, high])
    if middle is None:
        return generator.randint(low, high)
    distance = 2 ** generator.randint(0, 10)
    return generator.randint(max(low, middle - distance), min(high, middle + distance))


def random_arguments(generator, word):
    """Arguments that make a call."""
    while True:
        arguments = tuple(draw(generator, low, high) for low, high in RANGES[word])
        if is_legal(word, arguments):
            return arguments


def quotient(word, arguments):
    """The exact number that is rounded: of a term, its steps, not limited."""
    if word == "scale":
        low, high, sample = arguments
        return Fraction(sample * (high - low), 10000)
    if word == "ratio":
        return Fraction(100 * arguments[0], arguments[1])
    if word == "inverse":
        return Fraction(arguments[0] * arguments[1], 100)
    return TERMS[word](*arguments) * STEPS_IN_A_UNIT


# Kinds of calls, told from the exact quotient ------------------------------

SIDES = ("above zero", "below zero")
TIES = [f"half {side}, lower neighbour {parity}"
        for side in SIDES for parity in ("even", "odd")]
NEAR_TIES = [f"next to half {side}" for side in SIDES]
AT_THE_LIMIT = [f"{place} the limit {side}" for side in SIDES
                for place in ("just within", "at", "just beyond")]


def side_of(word, arguments, exact):
    """Of the quotient; in scaling, of the whole reading L + quotient."""
    low = arguments[0] if word == "scale" else 0
    return SIDES[0] if exact.numerator > -low * exact.denominator else SIDES[1]


def is_limited(word, exact):
    return word in TERMS and abs(exact.numerator) > LIMIT * exact.denominator


def tie_kind(word, arguments):
    """The kind of tie, or None.  The model's answer is checked here too."""
    exact = quotient(word, arguments)
    if exact.denominator != 2 or is_limited(word, exact):
        return None
    lower = (exact.numerator - 1) // 2
    if word == "scale":
        answer = arguments[0] + lower + 1  # step 1: halves up
    else:
        answer = lower + lower % 2         # a ratio by document 02, request 5, a term by our decision: to even
    if str(answer) != expected_answer(word, arguments):
        raise ValueError("the model is wrong at " + line_of(word, arguments))
    return f"half {side_of(word, arguments, exact)}, lower neighbour {('even', 'odd')[lower % 2]}"


def near_tie_kind(word, arguments):
    """No tie, but as near to one as the quotient's denominator allows."""
    exact = quotient(word, arguments)
    if exact.denominator < 100 or is_limited(word, exact):
        return None
    remainder = exact.numerator % exact.denominator
    if abs(2 * remainder - exact.denominator) > 2:
        return None
    return f"next to half {side_of(word, arguments, exact)}"


def limit_kind(word, arguments):
    """Exactly +-10,000 units, or less than ten units within or beyond them."""
    exact = quotient(word, arguments)
    beyond = abs(exact.numerator) - LIMIT * exact.denominator  # times the denominator
    if abs(beyond) >= 10 * 65536 * exact.denominator:
        return None
    place = "just beyond" if beyond > 0 else "just within" if beyond < 0 else "at"
    return f"{place} the limit {side_of(word, arguments, exact)}"


# Proposals: settings, then a last number "moving" that the quotient follows -

SMOOTH = [number for number in range(1, 19999) if 30 ** 20 % number == 0]

# A tie needs 131,072 x term to be an odd whole number.  In the proportional
# term that is 2^24 x 5^7 x (c - c1) / (XP x W); in the derivative 2^24 x 5^9 x
# D x TD / (9 x XP x W), in minutes 2^26 x 5^10 x D x TD / (3 x XP x W).  So
# XP x W must hold the factor 2 at least 24 times; these are all such pairs.
# In the integral term it is 2^24 x 5^5 x 9 x c / (XP x W x TI), in minutes
# 2^22 x 5^4 x 3 x c / (XP x W x TI), and TI helps: many settings serve.
# So every kind of tie exists.  The limit is a whole number of steps, hence no
# limited term is a tie; root and limit don't round.
TIE_PAIRS = [(xp, span) for xp in range(1024, 10000, 1024)
             for span in range(1024, 19999, 1024) if xp * span % 2 ** 24 == 0]


def smooth(generator, high):
    """A number with no factors but 2, 3 and 5."""
    return generator.choice(SMOOTH[:bisect(SMOOTH, high)])


def smooth_multiple(generator, high):
    """A greater number, still with many factors 2, 3 and 5."""
    base = smooth(generator, high)
    return base * generator.choice([1, generator.randint(1, high // base)])


def settings_of(generator, word, switches, for_tie):
    """All arguments but the moving one, drawn where the hard calls are dense."""
    if word == "scale":
        return tuple(sorted(generator.sample(range(-9999, 10000), 2)))
    if word not in TERMS:
        return (generator.randint(1, 9999),)
    draw = smooth if word == "integral" else smooth_multiple
    pair = (smooth_multiple(generator, 9999), draw(generator, 19998))
    if for_tie and (word != "integral" or generator.choice([True, False])):
        pair = generator.choice(TIE_PAIRS)
    if word == "proportional":
        return pair
    time = generator.randint(1, 2 ** generator.randint(1, 13))
    return (*pair, smooth(generator, 9999) if word == "integral" else time, *switches)


def call_of(word, settings, moving):
    return (moving, *settings) if word in ("ratio", "inverse") else (*settings, moving)


def quotient_of_one(word, settings):
    return abs(quotient(word, call_of(word, settings, 1)))


def reach(word, one):
    """The greatest moving number that is in range and whose term isn't limited."""
    high = RANGES[word][0 if word in ("ratio", "inverse") else -1][1]
    return min(high, LIMIT // one) if word in TERMS else high


def propose_ties(generator, word, switches):
    """With 2 x quotient of one = n / d and n odd, odd multiples of d are ties."""
    settings = settings_of(generator, word, switches, True)
    one = quotient_of_one(word, settings)
    multiples = reach(word, one) // (2 * one).denominator
    if (2 * one).numerator % 2 == 0 or multiples == 0:
        return []
    moving = (2 * one).denominator * (2 * generator.randrange((multiples + 1) // 2) + 1)
    return [call_of(word, settings, number) for number in (moving, -moving)]


def propose_near_ties(generator, word, switches):
    """Moving numbers that leave a remainder next to half the divisor."""
    settings = settings_of(generator, word, switches, False)
    one = quotient_of_one(word, settings)
    divisor = one.denominator
    inverse = pow(one.numerator, -1, divisor)
    proposed = []
    for remainder in ((divisor - 1) // 2, divisor // 2 + 1):
        moving = inverse * remainder % divisor
        proposed += [moving, moving - divisor, -moving, divisor - moving]
    return [call_of(word, settings, number) for number in proposed
            if abs(number) <= reach(word, one)]


def propose_limits(generator, word, switches):
    settings = settings_of(generator, word, switches, False)
    last = LIMIT // quotient_of_one(word, settings)
    return [call_of(word, settings, sign * number) for sign in (1, -1)
            for number in (last - 1, last, last + 1)]


# The search ----------------------------------------------------------------

LEAST_OF_A_KIND, ENOUGH_OF_A_KIND, MOST_PROPOSALS = 200, 250, 40000
TERM_SENSES = [("proportional", ()), ("integral", (0,)), ("integral", (1,)),
               *(("derivative", both) for both in itertools.product(SWITCH, SWITCH))]
ROUNDED = [("scale", ()), ("ratio", ()), ("inverse", ()), *TERM_SENSES]
SEARCHES = ((ROUNDED, TIES, tie_kind, propose_ties),
            (ROUNDED, NEAR_TIES, near_tie_kind, propose_near_ties),
            (TERM_SENSES, AT_THE_LIMIT, limit_kind, propose_limits))


def find(generator, word, switches, kinds, kind_of, propose):
    """Different calls of each kind, fewer than enough if the search is in vain."""
    found = {kind: set() for kind in kinds}
    for _ in range(MOST_PROPOSALS):
        for arguments in propose(generator, word, switches):
            kind = kind_of(word, arguments) if is_legal(word, arguments) else None
            if kind and len(found[kind]) < ENOUGH_OF_A_KIND:
                found[kind].add(arguments)
        if all(len(calls) == ENOUGH_OF_A_KIND for calls in found.values()):
            break
    return found


def hard_calls(generator):
    """Pairs of the name of a kind and its calls, each a word and arguments."""
    names = (("in seconds", "in minutes"), ("direct", "inverse"))
    for senses, kinds, kind_of, propose in SEARCHES:
        for word, switches in senses:
            sense = [names[place][switch] for place, switch in enumerate(switches)]
            found = find(generator, word, switches, kinds, kind_of, propose)
            for kind, calls in found.items():
                yield (f"{' '.join([word, *sense])}: {kind}",
                       [(word, arguments) for arguments in sorted(calls)])
