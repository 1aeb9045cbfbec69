"""Compares what was worked by hand, and the manual's own figures, with the model and with a program."""

from tests.figures import clock as clock_figures
from tests.figures import drop_outs as drop_out_figures
from tests.figures import images as image_figures
from tests.figures import manual as manual_figures
from tests.figures import rights as rights_figures
from tests.figures import scans as scan_figures
from tests.figures import sheets as sheet_figures
from tests.figures import terminal as terminal_figures
from tests.figures import writes as write_figures
from tests.lists.host_clock import at_usual_steps
from tests.lists.parameters import writes_of
from tests.lists.writers import by_the_engineer
from tests.model import loop
from tests.model.lines import line_of, text_of
from tests.model.state import Exact, Parameters, Stored
from tests.model.table import NUMBER

CASES = (*scan_figures.CASES, *write_figures.CASES, *image_figures.CASES, *clock_figures.CASES, *drop_out_figures.CASES)
# "requests Manual with output 0, user bits and MD bit 4 zero, no memory fault, and no earlier PV or SP remembered";
# "pins 80h, no buttons, open count 0, PV = 1L, SP = SL, ER = PV - SP, MP 0, battery good, no alarms"; 1L and SL are 0.
FRESH = {"SW": 0x1234, "request": "M", "output": 0, "user_bits": 0, "measured_power": False, "memory_fault": False, "previous_PV": None,
         "PV_before_previous": None, "previous_SP": None, "pins": 0x80, "buttons": 0, "open_count": 0, "PV": 0, "SP": 0, "ER": 0, "MP": 0,
         "battery_low": False, "low_alarm": False, "high_alarm": False, "clock": None}
SCAN_WORDS = ("MD", "DS", "OP", "electrical", "mode", "PV")


def calls_of(case):
    """A fresh start, the writes of what is set before, and the case's calls.

    The memory fault, set alone, comes by a restart.  Scans that have no reading of their own are 36 ms apart, and
    writes that name no writer are the engineer's.
    """
    given = dict(case.set_before)
    if given == {"memory_fault": True}:
        return [*by_the_engineer(at_usual_steps([("fresh", case.SW), image_figures.FAULT, *case.calls]))]
    request, user_bits, power = given.pop("request", "M"), given.pop("user_bits", 0), given.pop("measured_power", False)
    writes = writes_of(Parameters(**given), request, user_bits, power)
    return [*by_the_engineer(at_usual_steps([("fresh", case.SW), *writes, *case.calls]))]


def outcome(case, arithmetic):
    """What stands after the last call in the model, and its answer, by name."""
    controller, calls = None, calls_of(case)
    for place, call in enumerate(calls):
        controller, answer = loop.make(controller, call, arithmetic)
        assert answer == ("ok",) or place >= len(calls) - len(case.calls), (case.name, call)
    found = {**controller._asdict(), **controller.parameters._asdict(), "answer": line_of(answer)}
    found.update((name, loop.make(controller, ("read", NUMBER[name]), arithmetic)[1][1]) for name in ("MD", "DS", "OP"))
    return {**found, **(dict(zip(SCAN_WORDS, answer[1:])) if answer[0] == "scan" else {})}


def wrong_in_the_model():
    """The cases in which the model differs from what was worked by hand, and how many figures were looked at."""
    wrong, looked = [], 1
    # "A fresh image's sumcheck is AC42h": of its values only the defaults aren't zero.
    fresh = loop.fresh(0x1234, Stored)
    if sum(number % 65536 for number in fresh.parameters) % 65536 != 0xAC42:
        wrong.append("the model's defaults don't sum to AC42h")
    for name, value in FRESH.items():
        looked += 1
        if getattr(fresh, name) != value:
            wrong.append(f"the model is wrong: {name} of a fresh controller is {getattr(fresh, name)}, by hand {value}")
    for case in CASES:
        for arithmetic in (Stored, Exact):
            found = outcome(case, arithmetic)
            if arithmetic is Exact and "output" in case.expected:
                found["output"] = round(found["output"] * scan_figures.UNIT)  # no rounding here is a tie
            for name, value in case.expected.items():
                looked += 1
                if found[name] != value:
                    wrong.append(f"the model is wrong, {arithmetic.__name__}: {case.name}: {name} is {found[name]}, by hand {value}")
    return wrong, looked


# Lines for a program ----------------------------------------------------------

def lines_of(case):
    """A case as lines, each with the answer expected or, for a scan, with the words expected.

    Then reads of all that is expected and can be read.
    """
    calls, expected = calls_of(case), case.expected
    for place, call in enumerate(calls):
        is_last, is_written = place == len(calls) - 1, place < len(calls) - len(case.calls)
        yield line_of(call), "ok" if is_written else (expected.get("answer") or expected_words(expected)) if is_last else None
    for name, value in expected.items():
        if name in NUMBER:
            yield f"read {NUMBER[name]}", f"value {value}"
    if "clock" in expected:
        yield "clock", f"clock {'none' if expected['clock'] is None else expected['clock']}"


def expected_words(expected):
    """The words that a scan answers, as far as they are worked out."""
    return {place: expected[name] for place, name in enumerate(SCAN_WORDS, 1) if name in expected}


def is_answer(answer, expected):
    """Whether an answer is the one expected; words expected are those of a scan, by place."""
    if isinstance(expected, dict):
        words = answer.split()
        return len(words) == 7 and words[0] == "scan" and all(words[place] == text_of(value) for place, value in expected.items())
    return expected is None or answer == expected


def timed(steps):
    """The lines of a figure and what is expected of them; scans that have no reading of their own are 36 ms apart."""
    calls = [("scan", *map(int, line.split()[1:])) if line.startswith("scan ") else (line,) for line, _ in steps]
    return [(line_of(call), expected) for call, (_, expected) in zip(at_usual_steps(calls), steps, strict=True)]


def all_lines():
    """The name, the line and what is expected of it, for each line of each case and figure.

    Each begins with a fresh start.
    """
    for case in CASES:
        yield from ((case.name, *line) for line in lines_of(case))
    for name, steps in (*manual_figures.FIGURES, *sheet_figures.FIGURES, *terminal_figures.FIGURES, *rights_figures.FIGURES,
                        *drop_out_figures.FIGURES):
        yield from ((name, *line) for line in timed((("fresh 0", "ok"), *steps)))


def wrong_in(answers_of):
    """The lines that aren't answered as worked by hand or told by the manual, and how many answers were looked at."""
    lines = list(all_lines())
    answers = answers_of([line for _, line, _ in lines])
    answers += ["no answer"] * (len(lines) - len(answers))
    wrong = [f"{name}: {line!r} is answered {answer!r}, expected {expected!r}"
             for (name, line, expected), answer in zip(lines, answers) if not is_answer(answer, expected)]
    return wrong, sum(expected is not None for _, _, expected in lines)
