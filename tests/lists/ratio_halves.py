"""Call lists for the quotients of Ratio: every exact half within some areas of q and s, and quotients next to a half,
with drawn parameters.

SP and SL are read behind each scan.  The lists are in the form of tests/lists/entries.py.
"""

from math import floor

from tests.lists.arithmetic import near_tie_kind, propose_near_ties, quotient
from tests.lists.entries import RATIO, completed, entries, switch_word
from tests.lists.exact_halves import WORDS, Area, listed, up_to
from tests.lists.parameters import draw_parameters, near_or_far, pair_of, writes_of
from tests.lists.scan_source import HELD, LOWER, RAISE, SP, Operator
from tests.model.formulas import limit, scale
from tests.model.table import NUMBER, in_an_accepted_order

INVERSE = 0x2000  # S2.3
# Small q with every s, small s, and great ones: of q x s / 100 every q with small s, both in the middle, and such that
# the quotient is near the greatest that SP can show
AREAS = {"ratio": (up_to(150, 9999), up_to(300, 100), Area(9999, range(9900, 10000))),
         "inverse": (up_to(4, 9999), up_to(9999, 4), up_to(200, 200), Area(450, range(1996, 2006)))}
NEXT_TO_HALVES, LIMITED = 500, 400  # so many of each word: quotients next to a half, and halves where SP may be limited
A_LIST, A_LIMITED_LIST = 100, 40    # so many quotients in a list
STILL = tuple(held for held in HELD if held not in (SP | RAISE, SP | LOWER))  # what leaves RS where it is
FARTHEST = 4999                     # samples of one channel give every q from -4999 to 4999, but not from -9999 to 9999


# Channels and their samples ----------------------------------------------------

def range_about(generator, least, greatest):
    """H and L of a channel whose samples give every reading from least to greatest.

    So the span is at most 10000.  It is often an odd multiple of 200, 500 or 1000: then many samples are scaled at an
    exact half.
    """
    lowest = max(-9999, greatest - 10000)
    low = generator.choice((least, generator.randint(max(lowest, least - 50), least), generator.randint(lowest, least)))
    step = generator.choice((1, 8, 200, 500, 1000, 1000))
    multiple = -(-max(1, greatest - low) // step) + generator.choice((0, 0, 1, 3))
    return min(9999, low + 10000, low + step * (multiple | (step > 1))), low


def sample_of(generator, high, low, reading):
    """A sample that scaling, halves up, takes to this reading: often the first, which is at a half if any is."""
    span, twice = high - low, 2 * (reading - low)
    first, behind = (-(-5000 * end // span) for end in (twice - 1, twice + 1))
    first, last = max(0, first), min(10000, behind - 1)
    sample = generator.choice((first, first, last, generator.randint(first, last)))
    assert scale(low, high, sample) == reading, (low, high, sample, reading)
    return sample


# One list ----------------------------------------------------------------------

def parameters_of(generator, word, pairs, is_wide):
    """Drawn ones, with ranges of channels 2 and 3 about what is needed; with wide limits no SP is limited."""
    every_q, quotients = [q for q, _ in pairs], [quotient(word, pair) for pair in pairs]
    channel_2H, channel_2L = range_about(generator, min(every_q), max(every_q))
    far = generator.choice((40, 40, 300, 4000))
    channel_3H, channel_3L = range_about(generator, -generator.randint(0, far), generator.randint(1, far))
    HS, LS = generator.choice((pair_of(generator, -9999, 9999, 3), pair_of(generator, -100, 100, 0)))
    if is_wide:
        HS = generator.choice((9999, generator.randint(floor(max(quotients)) + 100, 9999)))
        LS = generator.choice((-9999, generator.randint(-9999, floor(min(quotients)) - 100)))
    return draw_parameters(generator)._replace(channel_2H=channel_2H, channel_2L=channel_2L, channel_3H=channel_3H, channel_3L=channel_3L,
                                               HS=HS, LS=LS, SL=generator.randint(LS, HS))


class Station:
    """Draws the calls of one list, and follows the parameters that are written between its scans."""

    def __init__(self, generator, number, word, pairs, is_wide):
        self.generator, self.operator, self.number = generator, Operator(generator, number), number
        self.word, self.pairs, self.is_wide = word, pairs, is_wide
        self.measured_power = number % 6 == 5  # MD bit 4: the trim is 0
        self.parameters = parameters_of(generator, word, pairs, is_wide)

    def calls(self):
        SW = switch_word(self.generator) & ~INVERSE | RATIO | (INVERSE if self.word == "inverse" else 0)
        yield "fresh", SW
        yield from writes_of(self.parameters, "M", self.generator.getrandbits(2), self.measured_power, self.number)
        for place, (q, s) in enumerate(self.pairs):
            limits_and_RS, trim = self.sum_of(s)
            yield from self.writes(RB=self.bias(q, s), **limits_and_RS)
            yield self.scan(q, trim, place == 0)
            yield from (("read", NUMBER[name]) for name in ("SP", "SL"))

    def writes(self, **wanted):
        """Those that are needed, each accepted."""
        names = [name for name, value in wanted.items() if getattr(self.parameters, name) != value]
        for number, value in in_an_accepted_order(self.parameters, wanted, names):
            yield "write", number, value
        self.parameters = self.parameters._replace(**wanted)

    def sum_of(self, s):
        """LR, HR and RS, and the trim that brings s with them: by the sum alone, or by the limit LR or HR of s."""
        generator, LR, HR = self.generator, self.parameters.LR, self.parameters.HR
        least, greatest = (0, 0) if self.measured_power else (self.parameters.channel_3L, self.parameters.channel_3H)
        manner = generator.choice(("sum", "sum", "sum", "sum", "LR", "HR"))
        if manner == "LR" and least < 0:
            trim = generator.randint(least, -1)
            RS = generator.randint(s, min(9999, s - trim - 1))
            return {"LR": s, "HR": HR if HR >= RS else generator.randint(RS, 9999), "RS": RS}, trim
        if manner == "HR" and greatest > 0:
            trim = generator.randint(1, greatest)
            RS = generator.randint(max(1, s - trim + 1), s)
            return {"LR": LR if LR <= RS else generator.randint(1, RS), "HR": s, "RS": RS}, trim
        trim = generator.choice((0, generator.randint(max(least, s - 9999), min(greatest, s - 1))))
        lesser, greater = sorted((s, s - trim))
        return {"LR": LR if LR <= lesser else generator.randint(1, lesser),
                "HR": HR if HR >= greater else generator.randint(greater, 9999), "RS": s - trim}, trim

    def bias(self, q, s):
        """RB, small or great; with wide limits such that SP is within them with either neighbour of the quotient.

        With others it brings many a quotient that is beyond LS..HS to within them.
        """
        generator, drawn, LS, HS = self.generator, self.parameters.RB, self.parameters.LS, self.parameters.HS
        lower = floor(quotient(self.word, (q, s)))
        if generator.random() < 0.6:
            drawn = generator.choice((0, 1, -1, 2, -2, generator.randint(-50, 50), near_or_far(generator, -9999, 9999)))
        if not self.is_wide:
            return generator.choice((drawn, limit(-9999, 9999, generator.randint(LS, HS) - lower)))
        return limit(max(-9999, LS + 1 - lower), min(9999, HS - 2 - lower), drawn)

    def scan(self, q, trim, is_first):
        """In Ratio, with the samples of channels 2 and 3 that give this q and this trim; some are open."""
        generator, parameters = self.generator, self.parameters
        held, is_open = generator.choice(STILL), generator.random() < 0.1
        scan = self.operator.enter("Remote", is_open, held) if is_first else self.operator.stay("Remote", held, is_open)
        word, pins, first, _, third, buttons, sensors = scan
        second = sample_of(generator, parameters.channel_2H, parameters.channel_2L, q)
        if not self.measured_power:
            third = sample_of(generator, parameters.channel_3H, parameters.channel_3L, trim)
        return word, pins, first, second, third, buttons, sensors


# All lists ---------------------------------------------------------------------

def next_to_halves(generator, word):
    """Pairs of q and s whose quotient is as near to a half as can be, and none."""
    found = set()
    while len(found) < NEXT_TO_HALVES:
        found.update(pair for pair in propose_near_ties(generator, word, ())
                     if near_tie_kind(word, pair) and abs(quotient(word, pair)) <= 9000)
    return found


def pieces(generator, pairs, size):
    """The pairs of q and s shared out among lists, those with q of about one size together, in drawn order."""
    groups = [[], [], []]
    for pair in sorted(pairs, key=lambda pair: (abs(pair[0]), pair)):
        groups[0 if abs(pair[0]) <= FARTHEST else 1 if pair[0] > 0 else 2].append(pair)
    for group in groups:
        for start in range(0, len(group), size):
            piece = group[start:start + size]
            yield generator.sample(piece, len(piece))


def all_lists(generator):
    """Pairs of a list's kind and the list."""
    lists = []
    for word in WORDS:
        halves = sorted(listed(word, AREAS[word]))
        near, limited = next_to_halves(generator, word), generator.sample(halves, LIMITED)
        for pairs, size in ((halves, A_LIST), (near, A_LIST), (limited, A_LIMITED_LIST)):
            for piece in pieces(generator, pairs, size):
                station = Station(generator, len(lists), word, piece, size == A_LIST)
                lists.append(("ratio halves", list(entries(station.operator, completed(station.operator, station.calls())))))
    return lists
