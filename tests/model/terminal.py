"""The hand-held terminal of document 02, request 4: a line reads or writes one parameter of the controller.

Made from documents 01 and 02 and never from the code, so that a comparison of the two is a comparison with the papers.
"""

import re

from tests.model.table import NAMES
from tests.model.writes import read, write

# "a mnemonic from document 01's table (1H to MP, capitals)"; the table here has the channels' names with a word before
NUMBER_OF = {name.removeprefix("channel_").encode("ascii"): number for number, name in enumerate(NAMES, 1)}
WORDS = (b"MD", b"DS", b"SW", b"II")
# "after the sign >, a value: four hexadecimal digits for MD, DS, SW and II, capitals for A to F, otherwise a decimal of
# one to five digits with an optional leading minus"
HEXADECIMAL, DECIMAL = re.compile(rb">([0-9A-F]{4})"), re.compile(rb">(-?[0-9]{1,5})")
LEAST_BUFFER = 9  # "a reply buffer under nine bytes", whatever the reply's length


def answer_line(controller, writer, line, buffer, arithmetic):
    """The next controller, the answer, and the buffer as it is afterwards; line and buffer are bytes.

    The answer is the reply with its length, or the refusal: "17 when the first two bytes are no mnemonic, before all
    others.  18 when what follows isn't nothing or > with such a value, next after 17.  15 .. right after 18 and before
    any refusal of the read or write itself".  Request 6: "Terminal lines carry a writer as well.  Reading stays free".
    """
    mnemonic, rest = line[:2], line[2:]
    number = NUMBER_OF.get(mnemonic)
    if number is None:
        return controller, ("refused", 17), buffer
    found = (HEXADECIMAL if mnemonic in WORDS else DECIMAL).fullmatch(rest)
    if rest and not found:
        return controller, ("refused", 18), buffer
    if len(buffer) < LEAST_BUFFER:
        return controller, ("refused", 15), buffer
    if found:  # "With no value it reads, with one it writes"
        controller, answer = write(controller, writer, number, int(found[1], 16 if mnemonic in WORDS else 10), arithmetic)
        if answer[0] == "refused":
            return controller, answer, buffer
    reply = reply_of(mnemonic, read(controller, number, arithmetic)[1][1])
    return controller, ("reply", len(reply), reply), reply + buffer[len(reply):]


def reply_of(mnemonic, present):
    """"The reply is the mnemonic, > and the present value, four hexadecimal capitals or the shortest decimal"."""
    return b"%b>%04X" % (mnemonic, present) if mnemonic in WORDS else b"%b>%d" % (mnemonic, present)


def line(controller, writer, text, length, arithmetic):
    """A line with a buffer of so many bytes, as the console makes the call.

    "its length is the answer and the bytes behind it stay": where one of those changes, or one of a buffer that was
    refused, the console answers error.
    """
    buffer = b"\xa5" * length
    controller, answer, after = answer_line(controller, writer, text, buffer, arithmetic)
    front = answer[2] if answer[0] == "reply" else b""
    return controller, answer if after == front + buffer[len(front):] else ("error",)
