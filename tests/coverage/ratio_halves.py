"""What the lists for the halves of Ratio have met: every half within their areas, each where SP tells which neighbour
was taken, and is read behind the scan.

The rule is written down here once more, in whole numbers, and the model's SP is held against it.  Above zero another
SP would come of halves away from zero, or up, where the lower neighbour is even, and of halves toward zero, or down,
where it is odd; below zero the other way round; of halves to odd, in every case; of RB added before the rounding, where
RB is odd.
"""

from functools import lru_cache
from math import floor

from tests.coverage.coverage import Coverage, on
from tests.lists.arithmetic import near_tie_kind, quotient
from tests.lists.exact_halves import WORDS, tried
from tests.lists.ratio_halves import AREAS
from tests.model.formulas import limit, scale
from tests.model.table import NUMBER
from tests.model.words import mode_of

SIDES = ("above zero", "below zero")
PARITIES = ("even", "odd")  # by the remainder of 2
BIASES = ("zero", *(f"{parity} {side}" for parity in PARITIES for side in SIDES))
TRIMS = ("zero", *SIDES)


@lru_cache(maxsize=1)
def least_counts():
    """The least count of each thing, by name.  That every half is met is told from all pairs of q and s."""
    least = {"ratio: halves": 2900, "inverse: halves": 3800, "SL read": 8300, "ratio: SP limited": 40, "inverse: SP limited": 40}
    least.update({f"{word}: {side}, lower neighbour {parity}, RB {bias}": 200 for word in WORDS for side in SIDES
                  for parity in PARITIES for bias in PARITIES})
    least.update({f"{word}: RB {bias}": 250 for word in WORDS for bias in BIASES})
    least.update({f"{word}: {side}, next to a half, {place} it": 50 for word in WORDS for side in SIDES for place in ("above", "below")})
    least.update({f"{word}: trim {trim}": 400 for word in WORDS for trim in TRIMS})
    for word in WORDS:
        least.update({f"{word}: s at LR by the limit": 250, f"{word}: s at HR by the limit": 250, f"{word}: MD bit 4, no trim": 200,
                      f"{word}: open": 200, f"{word}: another SP by halves to even in channel 2": 25,
                      f"{word}: the quotient beyond LS..HS": 25})
        least.update({f"{word}: q {q}, s {s}": 1 for q, s in tried(word, AREAS[word])})
    return least


class RatioHalfCoverage(Coverage):
    title, least_counts = "ratio halves", staticmethod(least_counts)

    def __init__(self):
        super().__init__()
        self.waiting = ()  # what the last accepted scan has met: it counts once SP is read behind it

    def call(self, call, before, after, answer, pair):
        if answer[0] == "refused":
            return
        if call == ("read", NUMBER["SP"]):
            self.count(*self.waiting)
        elif call == ("read", NUMBER["SL"]):
            self.count(*(["SL read"] if self.waiting else []))
        else:
            is_in_ratio = call[0] == "scan" and mode_of(after[0]) == "Ratio"
            self.waiting = tuple(met(after[0], call[3], call[4])) if is_in_ratio else ()


def met(controller, sample_2, sample_3):
    """What one scan in Ratio met: nothing if its quotient is neither a half nor next to one."""
    word, parameters = "inverse" if on(controller.SW, 13) else "ratio", controller.parameters
    trim = 0 if controller.measured_power else scale(parameters.channel_3L, parameters.channel_3H, sample_3)
    q, s = scale(parameters.channel_2L, parameters.channel_2H, sample_2), limit(parameters.LR, parameters.HR, parameters.RS + trim)
    exact = quotient(word, (q, s))
    lower, side = floor(exact), SIDES[exact < 0]
    is_half = exact.denominator == 2
    if not is_half and not near_tie_kind(word, (q, s)):
        return
    nearest = lower + (lower % 2 if is_half else 2 * (exact - lower) > 1)
    if controller.SP != limit(parameters.LS, parameters.HS, nearest + parameters.RB):
        raise ValueError(f"the model is wrong at q {q}, s {s}, {word}: SP is {controller.SP}, RB {parameters.RB}")
    if not parameters.LS < lower + parameters.RB < parameters.HS - 1:  # SP doesn't tell the neighbours apart
        yield f"{word}: SP limited"
    elif not is_half:
        yield f"{word}: {side}, next to a half, {'above' if nearest > lower else 'below'} it"
    else:
        yield from (f"{word}: halves", f"{word}: q {q}, s {s}",
                    f"{word}: {side}, lower neighbour {PARITIES[lower % 2]}, RB {PARITIES[parameters.RB % 2]}")
        yield from (f"{word}: {name}" for name in met_beside(controller, trim))
        if not parameters.LS <= nearest <= parameters.HS:
            yield f"{word}: the quotient beyond LS..HS"
        at_half = 2 * sample_2 * (parameters.channel_2H - parameters.channel_2L) % 20000 == 10000
        if at_half and (q - parameters.channel_2L) % 2 and round(quotient(word, (q - 1, s))) != nearest:
            yield f"{word}: another SP by halves to even in channel 2"


def met_beside(controller, trim):
    """What stands beside the quotient: RB, the trim and the sum that is s, and an open channel 1."""
    parameters = controller.parameters
    RB, total = parameters.RB, parameters.RS + trim
    yield f"RB {PARITIES[RB % 2] + ' ' + SIDES[RB < 0] if RB else 'zero'}"
    yield f"trim {SIDES[trim < 0] if trim else 'zero'}"
    yield from (name for name, is_present in (
        ("s at LR by the limit", total < parameters.LR), ("s at HR by the limit", total > parameters.HR),
        ("MD bit 4, no trim", controller.measured_power), ("open", controller.open_count > 0)) if is_present)
