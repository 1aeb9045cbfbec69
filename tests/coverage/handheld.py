"""What the lines typed into the program `handheld` have met, and how often each thing must be met at least."""

import collections

from tests.model import loop
from tests.model.handheld import WHO_LINES, answer_typed, at_the_start, pins_in
from tests.model.rights import WRITERS
from tests.model.terminal import NUMBER_OF
from tests.model.words import COMPUTER_PIN, mode_of

# By pins from one mode to another or the same: a request doesn't change, and so from Manual and Auto three each, from
# Remote and Fall-back four each, from Hold and Track to all six
CHANGES = "kinds of change by pins"
WHO_WORD = b"who"
# How often each must be met at least, in all lists
LEAST = {"reply": 2500, **{f"? {number}": 25 for number in (5, 6, 7, 8, 9, 10)}, "? 17": 1500, "? 18": 2000, "empty": 20,
         "carriage return": 50, "NUL": 50, "above 127": 200, "more than 300 bytes": 60, "more than 300 bytes, a mnemonic": 100,
         "of 300 bytes": 5, "of 301 bytes": 5, "sent back": 300, "pins": 3000, "nearly pins": 4000,
         **{f"in {mode}": 250 for mode in ("Hold", "Track", "Manual", "Auto", "Remote", "Fall-back")}, "pins that move the output": 1000,
         "pins, earlier PV or SP matters": 40, CHANGES: 26, "? 19": 300, "? 20": 500, "who": 500, "nearly who": 10000,
         **{f"who, from {writer} to {other}": 20 for writer in WRITERS for other in WRITERS},
         **{f"{writer} typed {how}": 30 for writer in WRITERS for how in ("behind who", "behind pins", "behind nearly who")},
         **{f"{writer}, {mnemonic.decode('ascii')} {way}, Computer pin {pin}": 2 for writer in WRITERS for mnemonic in NUMBER_OF
            for way in ("read", "written") for pin in (0, 1)},
         "the operator at the start": 30, **{f"the computer writes with pins {pins}": 1 for pins in range(256)}}


def met_by(line, answer, reply):
    """What a line and its answer meet; the reply is the last one before."""
    yield "reply" if b">" in answer else " ".join(answer.decode("ascii").split()[:2])
    yield from (name for name, byte in (("carriage return", b"\r"), ("NUL", b"\0")) if byte in line)
    if line and max(line) > 127:
        yield "above 127"
    if len(line) > 300:
        yield "more than 300 bytes, a mnemonic" if line[:2] in NUMBER_OF else "more than 300 bytes"
    if len(line) in (0, 300, 301):
        yield f"of {len(line)} bytes" if line else "empty"
    if line == reply:
        yield "sent back"


def met_by_pins(before, line, after):
    """What a line that brings pins meets, by what stands before and after it; and one that nearly does."""
    if pins_in(line) is None:
        yield from ("nearly pins",) if line.lower().strip().startswith(b"pins") else ()
        return
    before, after = before.controller, after.controller
    yield "pins"
    yield mode_of(before), mode_of(after)
    if before.output != after.output:
        yield "pins that move the output"
    if answer_typed(at_the_start()._replace(controller=before._replace(**loop.NOTHING_EARLIER)), line)[0].controller.output != after.output:
        yield "pins, earlier PV or SP matters"


def met_by_writer(before, line, previous, was_told):
    """What is met by who types: the lines that tell it, what is nearly such a line, and what each may write."""
    if line in WHO_LINES:
        yield from ("who", f"who, from {before.writer} to {WHO_LINES[line]}")
        return
    if is_nearly_who(line):
        yield "nearly who"
    if line[:2] not in NUMBER_OF or line[2:3] not in (b"", b">") or line[2:] == b">":
        return
    way, pins = "written" if line[2:] else "read", before.controller.pins
    yield f"{before.writer}, {line[:2].decode('ascii')} {way}, Computer pin {int(bool(pins & COMPUTER_PIN))}"
    if way == "written":
        yield from ("the operator at the start",) if not was_told else ()
        yield from (f"the computer writes with pins {pins}",) if before.writer == "computer" else ()
        how = {"who": previous in WHO_LINES, "pins": pins_in(previous) is not None, "nearly who": is_nearly_who(previous)}
        yield from (f"{before.writer} typed behind {what}" for what, is_present in how.items() if is_present)


def is_nearly_who(line):
    """Whether a line has the word, or all but one of the bytes of a right one."""
    return line not in WHO_LINES and (WHO_WORD in line.lower() or any(writer.encode("ascii") in line for writer in WRITERS))


def met_in(lines):
    """What the lines of a list meet in the model."""
    station, reply, previous, was_told = at_the_start(), None, b"", False
    for line in lines:
        before = station
        station, answer = answer_typed(before, line)
        yield from (*met_by(line, answer, reply), *met_by_pins(before, line, station), *met_by_writer(before, line, previous, was_told))
        if line[:2] in NUMBER_OF:
            yield f"in {mode_of(before.controller)}"
        reply, previous, was_told = answer if b">" in answer else reply, line, was_told or line in WHO_LINES


def counts_of(lists):
    """How often the lists met each thing."""
    counts = collections.Counter(met for lines in lists for met in met_in(lines))
    counts[CHANGES] = sum(isinstance(met, tuple) for met in counts)
    return counts
