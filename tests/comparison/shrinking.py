"""From a call list that a program answers wrongly to a short one: calls are removed, then numbers made simpler, as long
as it stays wrong.  Scans keep their distances in milliseconds where others are removed between them.
"""

import collections
import itertools
import time

from tests.lists.host_clock import MOST, USUAL
from tests.lists.line_parts import with_number
from tests.model import loop
from tests.model.images import IMAGE_BYTES, LAYOUT, TAGS, image_of
from tests.model.lines import RANGES, call_of, line_of
from tests.model.state import Stored

MANY_LINES = 300  # more than this are first made fewer
READING_AT = len(RANGES["scan"])


class Shrinking:
    """Makes a list shorter and simpler, with so many runs and seconds at most.

    wrong_at(lines) runs the program over the lines and gives the place of the first wrong answer, or None.
    """

    def __init__(self, wrong_at, most_runs, most_seconds):
        self.wrong_at, self.remaining_runs = wrong_at, most_runs
        self.ends_at = time.monotonic() + most_seconds

    def is_over(self):
        return self.remaining_runs <= 0 or time.monotonic() > self.ends_at

    def still_wrong(self, lines):
        """The lines up to the first wrong answer, or None if there is none or no more runs are expected."""
        if not lines or self.is_over():
            return None
        self.remaining_runs -= 1
        place = self.wrong_at(lines)
        return None if place is None else lines[:place + 1]

    def shortest(self, lines):
        """Lines that are wrong at the last; the given lines are known to be wrong."""
        lines = self.still_wrong(lines) or lines
        if len(lines) > MANY_LINES:
            lines = self.without_parts(lines)
        lines = self.without_parts(self.with_simple_columns(lines))
        while True:
            simpler = self.without_parts(self.with_simpler_numbers(lines))
            if simpler == lines:
                return lines
            lines = simpler

    def without_parts(self, lines):
        """Leaves out ever smaller parts (delta debugging)."""
        size = len(lines)
        while size >= 1:
            start = 0
            while start < len(lines) and not self.is_over():
                shorter = self.still_wrong(closed_up(lines[:start], lines[start:start + size], lines[start + size:]))
                if shorter is None:
                    start += size
                else:
                    lines = shorter
            size //= 2
        return lines

    def with_simple_columns(self, lines):
        """Plain lines for all other forms at once.

        Then in all calls, or all but the last, something simpler at one place.
        """
        lines = self.still_wrong([line_of(call_of(line) or (line,)) for line in lines]) or lines
        lines = self.still_wrong(with_usual_steps(lines)) or lines
        for place in range(1, READING_AT):
            for simpler in simpler_columns([call_of(line)[place] for line in lines if has_number(line, place)]):
                changed = [with_number(call_of(line), place, simpler(call_of(line)[place])) if has_number(line, place) else line
                           for line in lines]
                for candidate in (changed, changed[:-1] + lines[-1:]):
                    lines = lines if candidate == lines else self.still_wrong(candidate) or lines
                if self.is_over():
                    return lines
        return lines

    def with_simpler_numbers(self, lines):
        """Readings from 0 on; then in each call by itself smaller numbers and fewer bits, and simpler images."""
        lines = self.still_wrong(from_zero(lines)) or lines
        for place in range(len(lines)):
            if place >= len(lines) or self.is_over():
                return lines
            if call_of(lines[place]) is None:
                continue
            for number_place in range(1, len(call_of(lines[place]))):
                for number in simpler_than(call_of(lines[place])[number_place]):
                    call = call_of(lines[place])
                    if isinstance(number, bytes) or abs(number) < abs(call[number_place]):
                        lines = self.still_wrong([*lines[:place], with_number(call, number_place, number), *lines[place + 1:]]) or lines
                    if place >= len(lines):
                        return lines
        return lines


def readings_in(lines):
    """The milliseconds of each line that is a scan."""
    return [call_of(line)[READING_AT] for line in lines if has_number(line, READING_AT)]


def closed_up(before, removed, behind):
    """The lines without those removed; the scans behind them so much earlier that they keep their distances.

    Where that is beyond 64 bits they stay.
    """
    came, went = readings_in(before), readings_in(removed)
    by = went[-1] - came[-1] if came and went else 0
    readings = readings_in(behind)
    if not by or not readings or min(readings) < by or max(readings) - by > MOST:
        return before + behind
    return before + [with_number(call_of(line), READING_AT, call_of(line)[READING_AT] - by) if has_number(line, READING_AT) else line
                     for line in behind]


def with_usual_steps(lines):
    """The scans 36 ms apart."""
    number = itertools.count(1)
    return [with_number(call_of(line), READING_AT, next(number) * USUAL) if has_number(line, READING_AT) else line for line in lines]


def from_zero(lines):
    """The scans with their distances, the earliest at 0."""
    by = min(readings_in(lines), default=0)
    return [with_number(call_of(line), READING_AT, call_of(line)[READING_AT] - by) if has_number(line, READING_AT) else line
            for line in lines]


def has_number(line, place):
    """Whether the line is a scan with a number at this place; the other calls are made simpler one by one."""
    call = call_of(line)
    return call is not None and call[0] == "scan" and place < len(call)


def simpler_columns(numbers):
    """What all numbers at one place may become: 0, 80h or the commonest; and if they are bytes, each without one of its
    bits.
    """
    for same in (0, 0x80, *(number for number, _ in collections.Counter(numbers).most_common(2))):
        yield lambda number, same=same: same
    for bit in range(8) if max(numbers, default=0) < 256 else ():
        yield lambda number, bit=bit: number & ~(1 << bit)


def simpler_than(given):
    """Of a mode there is nothing simpler."""
    if isinstance(given, str):
        return []
    return simpler_images(given) if isinstance(given, bytes) else simpler_numbers(given)


def simpler_images(image):
    """The image with one more field as in a fresh image, the sumcheck right again if it was right.

    No bytes for one of another length.
    """
    if len(image) != IMAGE_BYTES:
        return [b""] if image else []
    fresh = LAYOUT.unpack(loop.save(loop.fresh(0, Stored), IMAGE_BYTES, Stored)[1][1])
    parts = LAYOUT.unpack(image)
    simpler = [LAYOUT.pack(*parts[:3 * field], *fresh[3 * field:3 * field + 3], *parts[3 * field + 3:]) for field in range(len(TAGS))]
    if image_of(parts[2:-1:3])[-2:] == image[-2:]:
        simpler = [each[:-2] + image_of(LAYOUT.unpack(each)[2:-1:3])[-2:] for each in simpler]
    return [each for each in dict.fromkeys(simpler) if each != image]


def simpler_numbers(number):
    """Zero, the number without one of its bits, and rounder numbers, with its sign; the simplest first."""
    size, sign = abs(number), -1 if number < 0 else 1
    fewer_bits = [size & ~(1 << bit) for bit in range(size.bit_length() - 1, -1, -1) if size >> bit & 1]
    rounder = [size - size % step for step in (5000, 1000, 100, 10)]
    return list(dict.fromkeys(sign * simpler for simpler in (0, *(rounder if size > 255 else []), *fewer_bits) if simpler < size))
