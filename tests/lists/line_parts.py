"""Parts of a call's line: how a number, a text or bytes are put at a place of it."""

from tests.model.lines import line_of, text_of


def of_digits(number, digits):
    """A number with leading zeros to so many digits at least."""
    return f"{'-' if number < 0 else ''}{abs(number):0{digits}}"


def with_number(call, place, number):
    """The call with another number, or with other text, at this place."""
    return line_of((*call[:place], number, *call[place + 1:]))


def with_text(call, text):
    """The call with a text in place of its mode or its writer; a mode's own name would be put as its word."""
    return " ".join([call[0], text, *map(text_of, call[2:])])


def bytes_at(call):
    """The place of the bytes: a restart begins with them, a line of the terminal has its writer before."""
    return 2 if call[0] == "line" else 1


def filled_up(generator, line, length):
    """A line with more blanks, so that it has so many bytes; a line of one word has no blank inside."""
    missing = " " * (length - len(line))
    return generator.choice([missing + line, line + missing, *([line.replace(" ", " " + missing, 1)] if " " in line else [])])
