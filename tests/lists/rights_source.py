"""Draws who tries to write what, and what brings or takes the Computer pin, for the lists of document 02, request 6."""

from typing import NamedTuple

from tests.lists.entries import switch_word
from tests.lists.image_source import OTHER_READS, with_right_sum, with_values
from tests.lists.scan_source import MODES_ASKED
from tests.lists.terminal import TerminalSource
from tests.lists.writers import by
from tests.model import loop
from tests.model.state import Stored
from tests.model.table import NAMES, NUMBER, READ_ONLY
from tests.model.writes import write_of_before

COMPUTER_PIN = 0x10
# Every number of the table and what lies beyond it, some right in 8, 16 and 32 bits alone, and below zero
NUMBERS = (*range(41), 256 + 24, 65536 + 20, (1 << 32) + 24, 10 ** 18 - 1, -1, -20, -24, 24 - 256)
WAYS = {"write": NUMBERS, "access": NUMBERS, "line": range(1, 33), "reading line": range(1, 33)}
OTHERS_MAY = {"operator": ("SL", "RS", "MD", "DS"), "computer": ("SL", "RS", "RB", "MD", "DS")}


class Event(NamedTuple):
    """What may bring, take or leave the Computer pin, with the pin before it and behind it.

    A refused scan offers the other one.
    """
    what: str
    before: int
    after: int


EVENTS = (Event("fresh", 1, 0), Event("restart, right sumcheck", 1, 0), Event("restart, wrong sumcheck", 1, 0),
          *(Event(f"restart refused {number}", pin, pin) for number in (12, 13, 14) for pin in (0, 1)),
          *(Event(f"scan refused {number}", pin, pin) for number in (1, 2, 3, 16) for pin in (0, 1)),
          *(Event("scan", before, after) for before in (0, 1) for after in (0, 1)))


class RightsSource(TerminalSource):
    """Draws who tries what, and what brings or takes the Computer pin."""

    def pinned(self, pin, asked=None, is_open=False):
        """A scan with the Computer pin so; the other pins are drawn as far as the mode leaves them free."""
        return with_pin(self.enter(asked or self.generator.choice(MODES_ASKED), is_open), pin)

    def event(self, event):
        """A scan that brings the pin of before, and the event."""
        yield self.pinned(event.before)
        kind, _, number = event.what.partition(" refused ")
        if event.what == "scan":
            yield self.pinned(event.after)
        elif event.what == "scan refused 16":
            yield self.at(self.pinned(1 - event.before), self.generator.choice((29, 28, 0, -1)))
        elif kind == "scan":
            yield with_pin(self.refused_scan(int(number)), 1 - event.before)
        elif kind == "fresh":
            yield "fresh", switch_word(self.generator)
        else:
            yield "restart", self.image_for(event.what)

    def image_for(self, what):
        image = self.generator.choice((self.image, self.drawn))()
        return {"restart, right sumcheck": image, "restart, wrong sumcheck": self.with_wrong_sum(image), "restart refused 12": image[:-1],
                "restart refused 13": b"\0" + image[1:],
                "restart refused 14": with_right_sum(with_values(image, request=3))}[what]

    def telling_value(self, number):
        """A value with which the engineer's write would change something now, if one is found."""
        if number in READ_ONLY or not 1 <= number <= 32:
            return self.generator.choice((0, 5, 0x2000, 0x40))
        for _ in range(12):
            value = self.any_value(NAMES[number - 1])
            after, answer = write_of_before(self.controller, number, value, Stored)
            if answer == ("ok",) and after != self.controller:
                return value
        return value

    def trial(self, way, writer, number, value=None, length=None):
        """The call by which a writer tries a number."""
        if way == "access":
            return way, writer, number
        if way == "reading line":
            return by(writer, self.asked(NAMES[number - 1], length))
        value = self.telling_value(number) if value is None else value
        return ("write", writer, number, value) if way == "write" else by(writer, self.typed(NAMES[number - 1], value, length))

    def tried(self, call, share=1.0):
        """The call, and in such a share of cases where it is refused an image and what else can be read."""
        is_refused = loop.make(self.controller, call, Stored)[1][0] == "refused"
        yield call
        if call[0] != "access" and is_refused and self.generator.random() < share:
            yield "save", 137
            yield from (("read", NUMBER[name]) for name in self.generator.sample(OTHER_READS, self.generator.choice((0, 1))))

    def looks(self):
        """All that can be read, the clock, and now and then other calls."""
        generator = self.generator
        yield from self.reads_of_all() if generator.random() < 0.4 else ()
        yield from self.asks(0.3)


def with_pin(scan, pin):
    word, pins, *others = scan
    return (word, pins & ~COMPUTER_PIN | COMPUTER_PIN * pin, *others)
