"""What the lists for writers and their rights have met, and how often each thing must be met at least.

Which refusals apply to a try is told here once more from document 02, request 6, by number; those of the value are the
model's.
"""

from tests.coverage.coverage import Coverage
from tests.lists.line_forms import line_errors_of, other_forms_of
from tests.lists.rights_source import EVENTS, WAYS
from tests.model.images import decode, has_right_sumcheck
from tests.model.line_claim import named_by
from tests.model.rights import WRITERS
from tests.model.state import Stored
from tests.model.table import NAMES
from tests.model.words import MODES, mode_of
from tests.model.writes import refusals_of_value, write_of_before

MD, OP, FIRST_READ_ONLY, LEAST_BUFFER = 24, 28, 26, 9
OTHERS_NUMBERS = {"operator": (20, 21, 24, 25), "computer": (20, 21, 22, 24, 25)}
OTHER_PINS = (0, 1, 2, 3, 5, 6, 7)
BETWEEN = ("write", "a refused write", "read", "a refused read", "save", "a refused save", "clock", "access", "a refused access", "line",
           "a refused line")
# Refusals that apply at once, in the order in which they are tested; of a line 17 and 18 leave no value to be tested
TOGETHER = {
    "write": ("4 19 20", "4 20", "19 20", "19 20 5", "19 20 6", "19 20 7", "19 20 6 7", "19 6", "19 8", "19 6 8", "19 9", "19 10", "19 11",
              "19 9 10", "19 9 11", "19 10 11", "19 9 10 11", "19 6 9", "20 5", "20 6", "20 7", "20 6 7"),
    "line": ("17 19", "17 18 19", "17 18 15 19", "17 15 19", "18 19", "18 20", "18 19 20", "18 15 19", "18 15 20", "18 15 19 20", "15 19",
             "15 20", "15 19 20", "15 19 20 5", "15 20 5", "15 20 6", "15 20 7", "15 19 6", "15 19 8", "15 19 9", "15 19 10", "15 19 11",
             "19 20", "19 20 5", "19 20 6", "19 20 7", "19 20 6 7", "19 6", "19 8", "19 9", "19 10", "19 11", "20 5", "20 6", "20 7",
             "20 6 7"),
    "access": ("4 19 20", "4 20", "19 20", "19 20 5", "20 5")}


def least_counts():
    """The least count of each thing, by name."""
    least = {"writes": 8000, "lines": 8000, "access": 4000, "refused 19": 2500, "refused 20": 4000}
    least.update({f"{writer} {number} by {way} {told(event.what, event.before, event.after)}": 1
                  for event in EVENTS for way, numbers in WAYS.items() for writer in WRITERS for number in numbers})
    least.update({f"refusals of {word}: {several}": 4 for word, all_of_them in TOGETHER.items() for several in all_of_them})
    least.update({f"{writer} behind {what}, Computer pin {pin}": 8 for what in BETWEEN for pin in (0, 1) for writer in WRITERS})
    least.update({f"the computer, its pin at {pin}, pin {other} at {level}": 300 for pin in (0, 1) for other in OTHER_PINS
                  for level in (0, 1)})
    least.update({f"the computer with pins {pins}, {word}": 1 for pins in range(256) for word in ("access", "written")})
    least.update({f"{writer} may write {NAMES[number - 1]} in {mode}": 2 if mode == "Forced Manual" else 4
                  for writer, numbers in OTHERS_NUMBERS.items() for number in numbers for mode in MODES
                  if not (number == 20 and mode in ("Remote", "Ratio"))})
    least.update({f"{name} in vain by {writer}, the engineer's would change it{then}": 4
                  for name in NAMES[:FIRST_READ_ONLY - 1] for writer in OTHERS_NUMBERS for then in ("", ", an image behind")
                  if not (writer == "operator" and NAMES.index(name) + 1 in OTHERS_NUMBERS["operator"])})
    least.update({f"in vain by {writer} in {mode}, then a scan": 8 for writer in ("operator", "computer") for mode in MODES})
    least.update({f"in vain with {count} open scans before": 8 for count in (83, 84, 85)})
    least.update({f"in vain, the output {where}, then OP read": 40 for where in ("at a whole unit", "a step below one")})
    least.update({f"fault cleared by {who}, {word}": 5 for who in ("operator", "engineer", "computer with its pin")
                  for word in ("write", "line")})
    least.update({f"fault kept, the computer without its pin, {word}": 10 for word in ("write", "line")})
    least.update({f"reading line of {writer} without the right, Computer pin {pin}": 60 for writer in ("operator", "computer")
                  for pin in (0, 1)})
    least.update({f"line: {kind} of {word}": 2 for word in ("write", "line", "access")
                  for kind in (*line_errors_of(word), *other_forms_of(word))})
    return least


def told(what, before, after):
    """An event with the pin before and behind it, in words; a refused scan had the other one."""
    return f"behind {what}, Computer pin {before} then {after}"


def pin_of(pins):
    return pins >> 4 & 1


def rights_lacking(writer, number, pins):
    """4, 19 and 20, as far as they apply; a number beyond the table is nobody's but the engineer's."""
    found = [] if number is None or 1 <= number <= 32 else [4]
    found += [19] if writer == "computer" and not pin_of(pins) else []
    return found + ([20] if number is not None and writer != "engineer" and number not in OTHERS_NUMBERS[writer] else [])


class RightsCoverage(Coverage):
    title, least_counts = "rights", staticmethod(least_counts)

    def __init__(self):
        """What is known so far: the events since the last accepted scan, start or restart, and that one; the kind of
        the call before; what was just tried in vain, and in which modes since the last scan.
        """
        super().__init__()
        self.events, self.previous, self.vain, self.vain_in = [], "", "", set()

    def call(self, call, before, after, answer, pair):
        """One call; an event is told by its pins, a try by the events before it."""
        word, names = call[0], []
        if word in ("fresh", "restart", "scan"):
            self.event(call, before[0].pins, after[0].pins, answer)
        elif word in ("write", "line", "access"):
            names = [*self.tried(call, before, answer)]
        if word == "save" and self.vain and answer[0] == "image":
            names.append(f"{self.vain}, an image behind")
        if call == ("read", OP) and self.previous in ("a refused write", "a refused line", "a refused access"):
            names += [f"in vain, the output {where}, then OP read" for step, where in ((0, "at a whole unit"), (65535, "a step below one"))
                      if before[0].output % 65536 == step]
        if answer[0] == "scan":
            names += [f"in vain by {writer} in {mode}, then a scan" for writer, mode in self.vain_in]
            self.vain_in = set()
        self.vain = next((name for name in names if name.endswith("would change it")), "")
        self.previous = f"a refused {word}" if answer[0] == "refused" else word
        self.count(*names)
        if word in ("write", "line") and before[0].memory_fault:
            self.fault(call, before[0], after[0])

    def event(self, call, was, now, answer):
        what = call[0] + (f" refused {answer[1]}" if answer[0] == "refused" else "")
        if call[0] == "restart" and answer == ("ok",):
            what += f", {'right' if has_right_sumcheck(decode(call[1])) else 'wrong'} sumcheck"
        if call[0] == "scan" and answer[0] == "refused" and pin_of(call[1]) == pin_of(was):
            return  # it offers no other pin
        kept = self.events if answer[0] == "refused" else []
        self.events = [*kept, told(what, pin_of(was), pin_of(now))]

    def tried(self, call, before, answer):
        """What a write, a line or a question for access meets."""
        word, writer, pins = *call[:2], before[0].pins
        number, value, tests = tests_of(call, before[0])
        way = word if word != "line" or value is not None else "reading line"
        yield {"write": "writes", "line": "lines"}.get(word, word)
        yield f"{writer} behind {self.previous}, Computer pin {pin_of(pins)}"
        if answer[0] == "refused":
            yield f"refused {answer[1]}"
        if len(tests) > 1:
            yield f"refusals of {word}: {' '.join(map(str, tests))}"
        if number is None or 18 in tests or 15 in tests:
            return
        yield from (f"{writer} {number} by {way} {event}" for event in self.events)
        if way == "reading line":
            lacking = rights_lacking(writer, number, pins)
            yield from [f"reading line of {writer} without the right, Computer pin {pin_of(pins)}"] if lacking else []
            return
        if writer == "computer":
            yield from (f"the computer, its pin at {pin_of(pins)}, pin {other} at {pins >> other & 1}" for other in OTHER_PINS)
            yield f"the computer with pins {pins}, {'access' if word == 'access' else 'written'}"
        if word != "access" and 1 <= number <= 32:
            yield from self.outcome(writer, number, value, before, answer)

    def outcome(self, writer, number, value, before, answer):
        """What came of a write, by writer and parameter; whether the engineer's would have changed something."""
        name, mode = NAMES[number - 1], mode_of(before[0])
        if answer[0] != "refused":
            yield f"{writer} may write {name} in {mode}"
        elif answer[1] in (19, 20):
            self.vain_in.add((writer, mode))
            yield f"in vain with {before[1].open_count} open scans before"
            if write_of_before(before[0], number, value, Stored)[0] != before[0]:
                yield f"{name} in vain by {writer}, the engineer's would change it"

    def fault(self, call, before, after):
        """MD written with the memory fault standing."""
        number, value, tests = tests_of(call, before)
        if number == MD and value is not None and not value & 0x0100 and 15 not in tests:
            with_pin = {"computer": " with its pin" if pin_of(before.pins) else " without its pin"}.get(call[1], "")
            if not after.memory_fault:
                self.count(f"fault cleared by {call[1]}{with_pin}, {call[0]}")
            elif tests == [19]:
                self.count(f"fault kept, the computer without its pin, {call[0]}")


def tests_of(call, controller):
    """The number and the value of a try, None where there is none, and every refusal that applies, the first first.

    A line's mnemonic tells the number even if the rest has no right form; a reading line needs no right.
    """
    writer, pins = call[1], controller.pins
    if call[0] != "line":
        number, value = call[2], call[3] if call[0] == "write" else None
        lacking = rights_lacking(writer, number, pins)
        return number, value, [*lacking, *([] if 4 in lacking else of_value(controller, number, value))]
    _, _, text, length = call
    named, short = named_by(writer, text, LEAST_BUFFER), [15] if length < LEAST_BUFFER else []
    number_of = {name.removeprefix("channel_").encode("ascii"): number for number, name in enumerate(NAMES, 1)}
    number = number_of.get(text[:2])
    if named in (17, 18):
        has_form = not text[2:] or named_by(writer, b"XP" + text[2:], LEAST_BUFFER) != 18
        forms = [17, *([] if has_form else [18])] if named == 17 else [18]
        return number, None, [*forms, *short, *rights_lacking(writer, number, pins)]
    if named[0] == "read":
        return number, None, short
    return number, named[3], [*short, *rights_lacking(writer, number, pins), *of_value(controller, number, named[3])]


def of_value(controller, number, value):
    if number >= FIRST_READ_ONLY:
        return [5]
    return [] if value is None else [*refusals_of_value(controller, number, value)]
