"""Lines that are no call, made of calls and drawn from a seed."""

from tests.lists.line_parts import bytes_at, filled_up, of_digits, with_number, with_text
from tests.model import arithmetic
from tests.model.lines import ANY, MODE, MODE_WORDS, MOST_BYTES, RANGES, READING, TYPED, WRITER, line_of, text_of

NO_NUMBERS = ("+5", "--5", "-", "5-", "1-2", "12x", "x12", "1.0", "1e3", "0x5", "80h", "1_0", "1,0", "\u00b2", "\xff")
NO_BYTES = ("--", "-0", "-00", "0-", "00-", "+00", "0x00", "00h", "0h", "g0", "0G", "ag", "/0", ":0", "@0", "`0", "0/", "0:", "0@", "0`",
            "0_0", "0,0", "\u00b2\u00b3", "\xff\xff", "0", "123")
NO_WORDS = ("scam", "sca", "scann", "scan,", "scans", "freshen", "fres", "writ", "writes", "rewrite", "rea", "reads", "ok", "value",
            "refused", "error", "x", "-", "128", "scan128", "read5", "sav", "saves", "restar", "restarts", "start", "image", "save137",
            "cloc", "clocks", "clock36", "clock-", "time", "none", "acces", "accesses", "access-", "who", "engineer")
NO_LINE_WORDS = (*NO_WORDS, "lin", "lines", "line-", "line:", "line>", "in", "reply", "typed", "terminal", "XP", "5850", "MD>1000")
NO_SHEET_WORDS = (*NO_WORDS, "shee", "sheets", "sheet-", "sheet-ne", "sheet-news", "sheet_new", "sheetnew", "sheet-las", "sheet-lasts",
                  "sheetlast", "sheet-fee", "sheet-feeds", "sheetfeed", "new", "last", "feed", "full", "sheet-old", "sheet=", "-sheet",
                  "number", "sheet-numbe", "sheet-numbers", "sheetnumber", "sheet-place", "kept", "sheet-kep", "sheet-keep", "sheetkept")
NO_ARITHMETIC_WORDS = (*NO_WORDS, "scal", "scales", "roo", "roots", "rati", "ratios", "inverses", "inverse-ratio", "inverse_ratio", "limi",
                       "limits", "proportiona", "proportion", "integrals", "integra", "derivativ", "derivatives", "square", "term")
# In place of a mode: parts and other forms of the words, the names that document 01 has for modes, numbers
NO_MODES = ("hol", "holds", "trac", "tracking", "force", "forced-manual", "forcedmanual", "manua", "man", "manuals", "aut", "automatic",
            "autos", "remot", "remotes", "rati", "ratios", "fall-back", "fallbac", "fallbacks", "fall", "m", "a", "r", "-", "0", "1", "7",
            "hold,", "auto=", "auto=1", "none", "mode", "sheet", "\xff")
# In place of a writer: parts and other forms of the words, two at once, their first letters, numbers
NO_WRITERS = ("operato", "operators", "op", "o", "enginee", "engineers", "eng", "e", "compute", "computers", "comp", "c", "mechanic",
              "supervisor", "operator,", "engineer=", "engineer:", "operator-engineer", "engineer-", "-engineer", "-", "0", "1", "2", "3",
              "who", "auto", "none", "writer", "ngineer", "engineeer", "engi\0neer", "\xff")
OTHER_BLANKS = ("\t", "\v", "\f", "\r", "\0", "\xa0", ",")


def number_missing(generator, call):
    place = generator.randrange(1, len(call))
    return line_of(call[:place] + call[place + 1:])


def number_too_many(generator, call):
    place = generator.randint(1, len(call))
    return line_of((*call[:place], generator.choice([0, 0, 128, 5000]), *call[place:]))


def numbers_in(call):
    """Place, least and greatest of each number of a call; a restart has none.

    A scan's milliseconds have forms of their own, and aren't among them.
    """
    return [(place, *ends) for place, ends in enumerate(RANGES.get(call[0], ()), 1) if ends not in (MODE, READING, TYPED, WRITER)]


def number_beyond_its_type(generator, call):
    """One beyond an end, or far beyond: among them numbers that come out right in 8, 16, 32 bits if only the low bits
    are kept.
    """
    place, least, greatest = generator.choice([each for each in numbers_in(call) if each[1:] != ANY])
    beyond = [greatest + 1, greatest + 1 + call[place], (1 << 16) + call[place], (1 << 32) + call[place], 10 ** 18 - 1]
    if least < 0:
        beyond += [least - 1, call[place] - (1 << 32), 1 - 10 ** 18, *([call[place] - (1 << 16)] if greatest < 1 << 16 else [])]
    return with_number(call, place, generator.choice([number for number in beyond if not least <= number <= greatest]))


def number_below_zero(generator, call):
    """In place of a number that has no sign, or of a restart's bytes."""
    number = generator.choice([-1, -2, -128, -256, -32768, -65536, -(1 << 32), 1 - 10 ** 18])
    return with_number(call, generator.choice([place for place, least, _ in numbers_in(call) if least >= 0] or [1]), number)


def ends_out_of_order(generator, call):
    """Of an arithmetic line: L above H or equal to it, LOW above HIGH."""
    word, low, high, *others = call
    least, greatest = RANGES[word][0]
    pairs = ((high, low), (low, low), (high + 1, high), (low, low - 1), (greatest, least))
    legal = [pair for pair in pairs if least <= min(pair) and max(pair) <= greatest and not arithmetic.is_in_order(word, pair)]
    return line_of((word, *generator.choice(legal), *others))


def nineteen_digits(generator, call):
    place, _, _ = generator.choice(numbers_in(call))
    text = generator.choice([of_digits(call[place], 19), "0" * 19, f"-{0:019}", str((1 << 64) + call[place]), "9" * 40, "0" * 300 + "5"])
    return with_number(call, place, text)


def no_number(generator, call):
    text = generator.choice((*NO_NUMBERS, *MODE_WORDS.values()) if call[0] == "sheet-feed" else NO_NUMBERS)
    return with_number(call, generator.choice(numbers_in(call))[0], text)


def reading_signed(generator, call):
    """A scan's milliseconds with a sign, 0 too."""
    sign = generator.choice("-+-")
    return with_number(call, len(call) - 1, sign + generator.choice((str(call[-1]), "0", "36", of_digits(call[-1], 19))))


def reading_of_21_digits(generator, call):
    """More digits than twenty, with a value that 64 bits hold or not."""
    text = generator.choice((of_digits(call[-1], 21), "0" * 21, of_digits(call[-1], 40), "9" * 21, str((1 << 70) + call[-1]),
                             "0" * 300 + "36"))
    return with_number(call, len(call) - 1, text)


def reading_beyond_64_bits(generator, call):
    """Up to twenty digits; among them numbers that come out right if only the low 64 bits are kept."""
    beyond = (1 << 64, (1 << 64) + 1, (1 << 64) + call[-1], (2 << 64) + call[-1], 10 ** 20 - 1, generator.randint(1 << 64, 10 ** 20 - 1))
    return with_number(call, len(call) - 1, generator.choice([number for number in beyond if 1 << 64 <= number < 10 ** 20]))


def reading_no_number(generator, call):
    """In place of a scan's milliseconds a text that is no number, or nothing but blanks."""
    return with_number(call, len(call) - 1, generator.choice((*NO_NUMBERS, "none", "", " ")))


def no_mode(generator, call):
    return with_text(call, generator.choice(NO_MODES))


def in_capitals(generator, call):
    """The mode, or the writer."""
    word = text_of(call[1])
    return with_text(call, generator.choice((word.upper(), word.capitalize(), word[:-1] + word[-1].upper())))


def moved_behind(generator, call):
    """The mode, or the writer, stands behind one or more of what follows it, or behind all."""
    place = generator.randint(2, len(call) - 1)
    return line_of((call[0], *call[2:place + 1], call[1], *call[place + 1:]))


def no_writer(generator, call):
    return with_text(call, generator.choice(NO_WRITERS))


def writer_missing(generator, call):
    """The form that lines had before writers were named."""
    return line_of((call[0], *call[2:]))


def unknown_word(generator, call):
    words = (NO_SHEET_WORDS if call[0].startswith("sheet") else NO_LINE_WORDS if call[0] == "line" else
             NO_ARITHMETIC_WORDS if call[0] in arithmetic.WORDS else NO_WORDS)
    return line_of((generator.choice(words), *call[1:]))


def word_in_capitals(generator, call):
    return " ".join([generator.choice([call[0].upper(), call[0].capitalize()]), *map(text_of, call[1:])])


def no_word(generator, call):
    return line_of(call[1:])


def word_twice(generator, call):
    return line_of((call[0], *call))


def empty_line(generator, call):
    return ""


def blanks_only(generator, call):
    return " " * generator.choice([1, 2, 5, 700])


def other_blank(generator, call):
    """One of the blanks, or one more before or behind, is no space; behind in half of the cases."""
    words, blank = list(map(text_of, call)), generator.choice(OTHER_BLANKS)
    place = generator.choice((len(words), generator.randrange(len(words))))
    separators = ["", *[" "] * (len(words) - 1), ""]
    separators[place] = blank
    return "".join(separator + word for separator, word in zip(separators, [*words, ""], strict=True))


def two_calls(generator, call):
    return line_of((*call, *call))


def overlong_line(generator, call):
    """A call filled up with blanks to more than 700 bytes.

    Of the longest the first or the last 700 bytes would be a call.
    """
    return filled_up(generator, line_of(call), generator.choice([701, 702, 768, 1024, 1400, 4096, 5000]))


def with_wrong_text(text, wrong, place):
    """A text that isn't bytes, alone, before or behind those of a call, or in place of two digits."""
    return wrong, wrong + text, text + wrong, text[:place] + wrong + text[place + 2:]


def no_bytes(generator, call):
    place = bytes_at(call)
    text, wrong = text_of(call[place]).replace("-", ""), generator.choice(NO_BYTES)
    return with_number(call, place, generator.choice(with_wrong_text(text, wrong, 2 * generator.randint(0, len(text) // 2))))


def odd_digits(generator, call):
    """One digit more or less."""
    place = bytes_at(call)
    text = text_of(call[place]).replace("-", "")
    return with_number(call, place, generator.choice((text + "0", "0" + text, text[1:] or "A", text[:-1] or "7")))


def blank_in_bytes(generator, call):
    """Two or more parts: one argument more at least."""
    text = text_of(call[bytes_at(call)]) + "00"
    place = generator.randint(1, len(text) - 1)
    return with_number(call, bytes_at(call), f"{text[:place]} {text[place:]}")


def too_many_bytes(generator, call):
    """More than a line of the terminal may have; what stands before them is a line or the longest line."""
    length = generator.choice((MOST_BYTES + 1, MOST_BYTES + 2, generator.randint(MOST_BYTES + 1, 340)))
    return with_number(call, 2, call[2][:MOST_BYTES].ljust(length, generator.choice((b"0", b" ", b"\0"))))


LINE_ERRORS = {"number missing": number_missing, "number too many": number_too_many, "number beyond its type": number_beyond_its_type,
               "number below zero": number_below_zero, "ends out of order": ends_out_of_order,
               "nineteen digits": nineteen_digits, "no number": no_number,
               "unknown word": unknown_word, "word in capitals": word_in_capitals, "no word": no_word, "word twice": word_twice,
               "empty line": empty_line, "blanks only": blanks_only, "other blank": other_blank, "two calls": two_calls,
               "overlong line": overlong_line, "no bytes": no_bytes, "odd digits": odd_digits, "blank in bytes": blank_in_bytes,
               "too many bytes": too_many_bytes,
               "no mode": no_mode, "mode in capitals": in_capitals, "mode behind": moved_behind,
               "no writer": no_writer, "writer in capitals": in_capitals, "writer behind": moved_behind, "writer missing": writer_missing,
               "reading signed": reading_signed, "reading of 21 digits": reading_of_21_digits,
               "reading beyond 64 bits": reading_beyond_64_bits, "reading no number": reading_no_number}
