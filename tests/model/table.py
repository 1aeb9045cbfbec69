"""The table of document 01, "Parameters": numbers, names, ranges, pairs and defaults.

The model takes them from here; the lists draw within the same ends.
"""

from typing import NamedTuple


class Row(NamedTuple):
    name: str
    least: object     # a number, or the name of the parameter that is this end of the range
    greatest: object
    default: int


# Parameters 1 to 23 in the order of their numbers
ROWS = (
    Row("channel_1H", -9999, 9999, 1000), Row("channel_1L", -9999, 9999, 0),
    Row("channel_2H", -9999, 9999, 1000), Row("channel_2L", -9999, 9999, 0),
    Row("channel_3H", -9999, 9999, 1), Row("channel_3L", -9999, 9999, 0),
    Row("HR", 1, 9999, 9999), Row("LR", 1, 9999, 1),
    Row("HS", -9999, 9999, 1000), Row("LS", -9999, 9999, 0),
    Row("HA", -9999, 9999, 9999), Row("LA", -9999, 9999, -9999),
    Row("HD", 0, 9999, 9999), Row("LD", 0, 9999, 9999),
    Row("HO", 0, 9999, 9999), Row("LO", 0, 9999, 0),
    Row("XP", 1, 9999, 1000), Row("TI", 0, 9999, 0), Row("TD", 0, 9999, 0),
    Row("SL", "LS", "HS", 0), Row("RS", "LR", "HR", 100),
    Row("RB", -9999, 9999, 0), Row("IC", 0, 1, 0),
)
NAMES = (*(row.name for row in ROWS), "MD", "DS", "SW", "II", "OP", "SP", "PV", "ER", "MP")
NUMBER = {name: number for number, name in enumerate(NAMES, 1)}
WORDS = (NUMBER["MD"], NUMBER["DS"])              # "24 MD, 25 DS | 0..65535"
READ_ONLY = range(NUMBER["SW"], NUMBER["MP"] + 1)  # "26 SW, 27 II (3608h), 28 OP, 29 SP, 30 PV, 31 ER, 32 MP | read only"
# The higher end and the lower; "L < H" for the channels, "L <= H" for the others
CHANNEL_PAIRS = (("channel_1H", "channel_1L"), ("channel_2H", "channel_2L"), ("channel_3H", "channel_3L"))
PAIRS = (*CHANNEL_PAIRS, ("HR", "LR"), ("HS", "LS"), ("HA", "LA"), ("HO", "LO"))
PAIR_OF = {name: pair for pair in PAIRS for name in pair}


def partner_of(name):
    """The other parameter of a pair, or None."""
    return next((other for other in PAIR_OF.get(name, ()) if other != name), None)


# The ranges that don't depend on other parameters, by number
FIXED_RANGES = {**{number: (row.least, row.greatest) for number, row in enumerate(ROWS, 1) if not isinstance(row.least, str)},
                **dict.fromkeys(WORDS, (0, 65535))}


def range_of(parameters, number):
    """The least and the greatest value of a parameter that may be written, with these parameters standing."""
    if number in FIXED_RANGES:
        return FIXED_RANGES[number]
    row = ROWS[number - 1]
    return getattr(parameters, row.least), getattr(parameters, row.greatest)


def is_in_order(parameters, name):
    """Whether the pair that this parameter belongs to, if any, is in order."""
    if name not in PAIR_OF:
        return True
    pair = PAIR_OF[name]
    high, low = getattr(parameters, pair[0]), getattr(parameters, pair[1])
    return low < high if pair in CHANNEL_PAIRS else low <= high


def assert_legal(parameters):
    """"Ranges and pairs above", of all the parameters 1 to 23."""
    for number, (name, value) in enumerate(zip(parameters._fields, parameters, strict=True), 1):
        least, greatest = range_of(parameters, number)
        assert least <= value <= greatest and is_in_order(parameters, name), (name, parameters)


def in_an_accepted_order(parameters, wanted, names):
    """Number and value of each wanted parameter in an order in which no write is out of range or out of pair.

    The names give the order as far as it is free.  SL and RS come last, when their limits stand.
    """
    waiting = sorted(names, key=lambda name: name in ("SL", "RS"))
    while waiting:
        name = next(name for name in waiting if is_in_order(parameters._replace(**{name: wanted[name]}), name))
        waiting.remove(name)
        parameters = parameters._replace(**{name: wanted[name]})
        yield NUMBER[name], wanted[name]
