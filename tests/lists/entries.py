"""The form of the lists: entries, made of calls and drawn switch words.

A list is a sequence of entries; an entry is a line, its kind and the word of its call: the kind is "call" for a call's
plainest line, else the name of the other form or of the line error made of the call.  Each list begins with a fresh
start, except those that are to stand at the beginning of an input.
"""

from typing import NamedTuple

from tests.lists.line_errors import LINE_ERRORS
from tests.lists.line_forms import OTHER_FORMS, line_errors_of, other_forms_of
from tests.lists.writers import named
from tests.model.lines import line_of

USED_SWITCHES = (0x8000, 0x4000, 0x2000, 0x1000, 0x0800, 0x0400, 0x0100, 0x0080)  # S2.1 to S2.6, S2.8, S1.1
USED, RATIO, INVERSION, POWER_FAIL = sum(USED_SWITCHES), 0x8000, 0x4000, 0x0800


class Entry(NamedTuple):
    line: str
    kind: str
    word: str


def switch_word(generator):
    """Any word; or one used switch alone ON, or alone OFF; the bits that aren't used are drawn always."""
    switch = generator.choice(USED_SWITCHES)
    used = generator.choice((0, switch, USED - switch, USED, generator.getrandbits(16), generator.getrandbits(16),
                             generator.getrandbits(16)))
    return used & USED | generator.getrandbits(16) & ~USED


def completed(operator, calls):
    """The calls of a list that isn't followed in the model: scans that have no reading get one here, and writes and
    lines that have no writer theirs.
    """
    return named(operator.generator, operator.clock.timed(calls))


def entries(operator, calls):
    """The calls as lines, some in other forms; some refused scans and lines that are no call among them."""
    generator = operator.generator
    for call in calls:
        if generator.random() < 0.02:
            yield Entry(line_of(operator.clock.with_reading(operator.refused_scan())), "call", "scan")
        if generator.random() < 0.03:
            kind = generator.choice(line_errors_of(call[0]))
            yield Entry(LINE_ERRORS[kind](generator, call), kind, call[0])
        kind = generator.choice(other_forms_of(call[0])) if generator.random() < 0.03 else "call"
        yield Entry(line_of(call) if kind == "call" else OTHER_FORMS[kind](generator, call), kind, call[0])
