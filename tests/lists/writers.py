"""Names who makes each write and each line of a list: the one place where writers are drawn for the lists of old.

The other modules of tests/lists draw writes and lines without a writer, as they were before document 02, request 6; the
writer is put in when their order stands.  It is one who has the right, so that the call does what it did before: in
some lists the engineer alone, in others any of the three, and there someone without the right tries the same before.
"""

from tests.lists.host_clock import is_refused
from tests.model.line_claim import named_by
from tests.model.rights import MAY_WRITE, WRITERS
from tests.model.table import NAMES
from tests.model.words import COMPUTER_PIN

ENGINEER = "engineer"
SHARED, IN_VAIN = 0.6, 0.08  # the share of lists in which all three write, and of their writes that are tried in vain
PINS_AFTER_START, ENOUGH_BYTES = 0x80, 9


def by(writer, call):
    """The write, the line or the question for access, made by this writer."""
    return (call[0], writer, *call[1:])


def lacks_writer(call):
    return call[0] in ("write", "line") and len(call) == 3


def by_the_engineer(calls):
    """The calls, each write and line that has no writer as the engineer's."""
    return (by(ENGINEER, call) if lacks_writer(call) else call for call in calls)


def parameter_of(call):
    """The parameter that a call without a writer would write, or None: a line may only read, or have no right form.

    A line with a buffer that is too short is told by what it would write into a longer one.
    """
    made = call if call[0] == "write" else named_by(None, call[1], ENOUGH_BYTES)
    if isinstance(made, int) or made[0] == "read":
        return None
    number = made[-2]
    return NAMES[number - 1] if 1 <= number <= len(NAMES) else None


def who_may(call, pins):
    """The writers who may make a call without a writer, with these pins stored."""
    name = parameter_of(call)
    return [writer for writer in WRITERS if name is None or name in MAY_WRITE[writer] and (writer != "computer" or pins & COMPUTER_PIN)]


def named(generator, calls, pins_now=None):
    """The calls, each write and line with its writer.

    The stored pins are given by a function, or followed here in lists whose scans are refused by 1, 2 and 3 alone.
    """
    is_shared, pins = generator.random() < SHARED, PINS_AFTER_START
    for call in calls:
        if call[0] == "fresh":
            pins = PINS_AFTER_START
        elif call[0] == "scan" and not is_refused(call):
            pins = call[1]
        if not lacks_writer(call):
            yield call
        elif not is_shared:
            yield by(ENGINEER, call)
        else:
            yield from by_any(generator, call, pins_now() if pins_now else pins)


def by_any(generator, call, pins):
    """The call by one who may, in some cases behind the same by one who may not."""
    may = who_may(call, pins)
    others = [writer for writer in WRITERS if writer not in may]
    if others and generator.random() < IN_VAIN:
        yield by(generator.choice(others), call)
    yield by(generator.choice(may), call)
