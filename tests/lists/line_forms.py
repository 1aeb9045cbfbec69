"""Other forms of the same call's line, drawn from a seed; and which forms and line errors go with which call."""

from functools import lru_cache

from tests.lists.line_errors import LINE_ERRORS
from tests.lists.line_parts import bytes_at, filled_up, of_digits, with_number
from tests.model.arithmetic import ORDERED
from tests.model.lines import LONGEST_LINE, RANGES, WRITER, line_of, text_of


# Other forms of the same call ----------------------------------------------

def with_leading_zeros(generator, call):
    return line_of(tuple(of_digits(part, generator.randint(min(18, len(str(abs(part))) + 1), 18)) if isinstance(part, int) else part
                         for part in call))


def with_eighteen_digits(generator, call):
    return line_of(tuple(of_digits(part, 18) if isinstance(part, int) else part for part in call))


def with_twenty_digits(generator, call):
    """A scan's milliseconds with leading zeros to nineteen or twenty digits."""
    return with_number(call, len(call) - 1, of_digits(call[-1], generator.choice((19, 20, 20))))


def with_minus_zeros(generator, call):
    """Every zero, and only a zero, may bear a minus; but that of a scan's milliseconds."""
    numbers = call[1:-1] if call[0] == "scan" else call[1:]
    with_minus = (generator.choice(["-0", "-000", "-" + "0" * 18, "0"]) if number == 0 else number for number in numbers)
    return line_of((call[0], *with_minus, *call[1 + len(numbers):]))


def with_more_blanks(generator, call):
    line = (" " * generator.randint(1, 4)).join(map(text_of, call))
    return " " * generator.randint(0, 3) + line + " " * generator.randint(0, 3)


def with_700_bytes(generator, call):
    """The longest line: filled up with blanks, before the call, inside it or behind it."""
    return filled_up(generator, line_of(call), LONGEST_LINE)


def in_small_letters(generator, call):
    place = bytes_at(call)
    return with_number(call, place, text_of(call[place]).lower())


def in_both_cases(generator, call):
    """Each digit above 9 in a capital or a small letter."""
    place = bytes_at(call)
    return with_number(call, place, "".join(generator.choice((digit, digit.lower())) for digit in text_of(call[place])))


OTHER_FORMS = {"leading zeros": with_leading_zeros, "eighteen digits": with_eighteen_digits, "twenty digits": with_twenty_digits,
               "minus zero": with_minus_zeros, "more blanks": with_more_blanks, "700 bytes": with_700_bytes,
               "small letters": in_small_letters, "both cases": in_both_cases}


# What is made of bytes, which a restart and a line of the terminal have, the second up to so many, of a mode, which
# only an answer to be entered has, of milliseconds, which only a scan has, of a writer, which three calls have, and of
# numbers, which a restart and some other calls haven't, and of two ends, which two arithmetic lines have; some lines
# with a number that is wrong elsewhere are calls all the same.
OF_BYTES = ("small letters", "both cases", "no bytes", "odd digits", "blank in bytes")
OF_MODES = ("no mode", "mode in capitals", "mode behind")
OF_WRITERS = ("no writer", "writer in capitals", "writer behind", "writer missing")
OF_READINGS = ("twenty digits", "reading signed", "reading of 21 digits", "reading beyond 64 bits", "reading no number")
OF_NUMBERS = ("leading zeros", "eighteen digits", "minus zero", "number beyond its type", "nineteen digits", "no number")
NOT_OF = {"scan": (*OF_BYTES, *OF_MODES), "restart": (*OF_NUMBERS, *OF_MODES), "line": OF_MODES, "sheet-feed": OF_BYTES,
          **{word: (*OF_BYTES, *OF_MODES, "number below zero") for word in ("write", "limit")},
          **{word: (*OF_BYTES, *OF_MODES, "number below zero", "number beyond its type") for word in ("read", "access")},
          **{word: (*OF_BYTES, *OF_MODES, *OF_NUMBERS, "number missing", "number below zero")
             for word, ranges in RANGES.items() if not ranges}}


def applies(kind, word):
    """Whether a call of this word can be put in this form or made into this line error."""
    return (kind not in NOT_OF.get(word, (*OF_BYTES, *OF_MODES)) and (word == "scan" or kind not in OF_READINGS)
            and (word == "line" or kind != "too many bytes") and (WRITER in RANGES.get(word, ()) or kind not in OF_WRITERS)
            and (word in ORDERED or kind != "ends out of order"))


@lru_cache
def other_forms_of(word):
    return [kind for kind in OTHER_FORMS if applies(kind, word)]


@lru_cache
def line_errors_of(word):
    return [kind for kind in LINE_ERRORS if applies(kind, word)]
