"""The program `handheld`: lines as a mechanic types them, answered by a controller that is fresh with SW 0.

A line ends at its newline, which isn't part of it; the last may lack one.  The answer is the reply, or the refusal with
its name behind a question mark.  A line may have any length: the rules refuse every one that is too long.

The line `pins N`, with one blank and a number from 0 to 255 in the form of the console's, brings the plant's pins: one
scan, 36 ms after the last, the first at 36.  The line `who WRITER`, with one blank and one of the three words, tells
who types from then on, at the start the operator.  Every other line is one of the terminal.
"""

from typing import NamedTuple

from tests.model import loop
from tests.model.lines import BYTE, part_of
from tests.model.rights import WRITERS
from tests.model.state import Controller, Input, Stored
from tests.model.terminal import LEAST_BUFFER, answer_line

# Those of a line; 4 can't come, since every mnemonic has a number, nor 11, since there is no cause.  A scan made by
# pins can't be refused.  Those of document 02, request 6, are 19 and 20
REFUSALS = {4: "number", 5: "read only", 6: "out of range", 7: "pair out of order", 8: "setpoint", 9: "request bits", 10: "Remote pin",
            11: "cause", 15: "short buffer", 17: "no mnemonic", 18: "no value", 19: "Computer pin", 20: "no right"}
PINS_WORD, SAMPLE_1, SCAN_MILLISECONDS = b"pins ", 5000, 36
WHO_LINES = {b"who " + writer.encode("ascii"): writer for writer in WRITERS}


class Station(NamedTuple):
    """The controller, and who types."""
    controller: Controller
    writer: str


def typed_lines(text):
    """The lines of a whole input, in bytes."""
    lines = text.split(b"\n")
    return lines[:-1] if lines[-1] == b"" else lines


def pins_in(line):
    """The pins that a line brings, or None if it is one of the terminal."""
    return part_of(line[len(PINS_WORD):].decode("latin-1"), BYTE) if line.startswith(PINS_WORD) else None


def at_the_start():
    """The operator before a controller that is fresh with SW 0."""
    return Station(loop.fresh(0, Stored), "operator")


def answer_typed(station, line):
    """What stands afterwards, and what is written for a line, without its newline."""
    if line in WHO_LINES:
        return station._replace(writer=WHO_LINES[line]), b"ok"
    controller, pins = station.controller, pins_in(line)
    if pins is None:
        controller, answer, _ = answer_line(controller, station.writer, line, bytes(LEAST_BUFFER), Stored)
    else:
        reading = (controller.clock or 0) + SCAN_MILLISECONDS
        controller, answer = loop.scan(controller, Input(pins, SAMPLE_1, 0, 0, 0, 0, reading), Stored)
    return station._replace(controller=controller), written(answer)


def written(answer):
    """An answer as it is written; of an accepted scan none of its values."""
    if answer[0] == "refused":
        return b"? %d %b" % (answer[1], REFUSALS[answer[1]].encode("ascii"))
    return answer[2] if answer[0] == "reply" else b"ok"


def answers_to(lines):
    """What is written for each line, without its newline."""
    station = at_the_start()
    for line in lines:
        station, answer = answer_typed(station, line)
        yield answer
