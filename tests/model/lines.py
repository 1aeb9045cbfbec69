"""The lines that the console reads, and those it answers: the form that was decided for them.

A number is an optional minus and one to eighteen digits; the milliseconds of a scan are one to twenty digits without a
sign.  Bytes are two hexadecimal digits each, of either case; a minus alone stands for none.  A mode is one of eight
words in small letters, a writer one of three.  One or more blanks, spaces only, stand between words and may stand
before and behind.  A line has up to 700 bytes without its newline.  A line that isn't a call is answered error and
changes nothing.  Texts here have one character for each byte of the line.  The numbers of an arithmetic line have
ranges of their own (`arithmetic.py`).
"""

import re
from functools import lru_cache

from tests.model import arithmetic
from tests.model.rights import WRITERS

LONGEST_LINE = 700
NUMBER, MILLISECONDS = re.compile("-?[0-9]{1,18}"), re.compile("[0-9]{1,20}")
BYTES = re.compile("-|(?:[0-9A-Fa-f]{2})+")
# The modes by the words that stand for them in lines, and the other way round
MODE_WORDS = {"Hold": "hold", "Track": "track", "Forced Manual": "forced", "Manual": "manual", "Auto": "auto", "Remote": "remote",
              "Ratio": "ratio", "Fall-back": "fallback"}
MODE_OF_WORD = {word: mode for mode, word in MODE_WORDS.items()}
# The least and the greatest of each number: SW, samples, DS and OP have 16 bits, pins, buttons and sensors 8, a value
# to be written and a PV to be entered in a sheet 32 and a sign; a parameter number and a number of a kept sheet may be
# any, the second at one of sixteen places; a save's buffer and that of a line's reply have up to 300 bytes;
# milliseconds have 64 bits, and no sign even at 0.  A restart has bytes in place of numbers, a line of the terminal its
# own, up to 300, an answer to be entered begins with a mode, and what a writer makes or asks begins with the writer.
# Further kinds of call are to be added here.
BYTE, WORD, VALUE, PLACE = (0, 255), (0, 65535), (-1 << 31, (1 << 31) - 1), (0, 15)
ANY, BUFFER, MODE, TYPED, READING = (1 - 10 ** 18, 10 ** 18 - 1), (0, 300), "mode", "typed", (0, (1 << 64) - 1)
WRITER = "writer"
RANGES = {"fresh": (WORD,), "scan": (BYTE, WORD, WORD, WORD, BYTE, BYTE, READING), "write": (WRITER, ANY, VALUE),
          "access": (WRITER, ANY), "read": (ANY,), "save": (BUFFER,), "clock": (), "line": (WRITER, TYPED, BUFFER), "sheet-new": (),
          "sheet-last": (), "sheet-feed": (MODE, VALUE, WORD, WORD), "sheet": (), "sheet-number": (PLACE, ANY), "sheet-kept": (),
          **arithmetic.RANGES}
MOST_BYTES = 300  # of a line; of an image in the lists, what the console makes of more isn't decided


# The same lines come again and again: what was found of them is kept, to save time.
@lru_cache(maxsize=1 << 14)
def call_of(line):
    """The call that a line makes, as its word and numbers; a restart's as its word and bytes.

    None for a line to be answered error.
    """
    if len(line) > LONGEST_LINE:
        return None
    word, *texts = words_of(line)
    if word == "restart":
        return (word, bytes_of(texts[0])) if len(texts) == 1 and BYTES.fullmatch(texts[0]) else None
    if word not in RANGES or len(texts) != len(RANGES[word]):
        return None
    parts = tuple(map(part_of, texts, RANGES[word]))
    return None if None in parts or not arithmetic.is_in_order(word, parts) else (word, *parts)


def words_of(line):
    return [part for part in line.split(" ") if part] or [""]


def part_of(text, kind):
    """The number, the mode, the writer or the typed bytes that a text is, or None."""
    if isinstance(kind, tuple):
        least, greatest = kind
        is_number = (MILLISECONDS if kind == READING else NUMBER).fullmatch(text)
        return int(text) if is_number and least <= int(text) <= greatest else None
    if kind == MODE:
        return MODE_OF_WORD.get(text)
    if kind == WRITER:
        return text if text in WRITERS else None
    return bytes_of(text) if BYTES.fullmatch(text) and len(text) <= 2 * MOST_BYTES else None


def bytes_of(text):
    return bytes.fromhex("" if text == "-" else text)


def text_of(part):
    """A word, a mode, a writer, a number or bytes; the console answers bytes in capitals."""
    if isinstance(part, int):
        return str(part)
    if isinstance(part, bytes):
        return part.hex().upper() or "-"
    return MODE_WORDS.get(part) or part


@lru_cache(maxsize=1 << 14)
def line_of(call):
    """A call's plainest line; an answer's line too."""
    return " ".join(map(text_of, call))


def lines_in(text):
    """The lines of a whole input: the last may lack its newline, and an empty input has none."""
    lines = text.split("\n")
    return lines[:-1] if lines[-1] == "" else lines
