"""Prints the shortest call list found that a program answers wrongly, or that breaks the claim in the model itself."""

import itertools

from tests.comparison.program import SHORT_SECONDS, first_difference, run_lines
from tests.comparison.shrinking import Shrinking
from tests.model.lines import call_of
from tests.model.pair import Pair, answers_of

SHRINKING_RUNS, SHRINKING_SECONDS = 600, 15


def print_wrong_answer(program, whole_input, lines):
    """Of a list that is answered wrongly; the whole input is shrunk if the list by itself is answered rightly."""
    def wrong_at(candidate):
        return first_difference(candidate, answers_of(candidate), *run_lines(program, candidate, SHORT_SECONDS))

    shrinking = Shrinking(wrong_at, SHRINKING_RUNS, SHRINKING_SECONDS)
    shortest = shrinking.shortest(lines if wrong_at(lines) is not None else whole_input)
    written, trouble = run_lines(program, shortest, SHORT_SECONDS)
    answers = written.split("\n")[:-1]
    print(f"The shortest call list found with a wrong answer, {SHRINKING_RUNS - shrinking.remaining_runs} runs:")
    each = itertools.zip_longest(shortest, answers, answers_of(shortest))
    for (line, answer, expected), same in itertools.groupby(each):
        mark = "" if answer == expected else f"   WRONG, expected {expected!r}"
        print(f"{len(list(same)):5} x {line!r}: {answer!r}{mark}")
    print(*([trouble] if trouble else []), sep="", end="\n" if trouble else "", flush=True)


def print_broken_claim(lines):
    """Of a list that breaks the claim."""
    def broken_by(candidate):
        pair = Pair()
        for place, call in enumerate(map(call_of, candidate)):
            broken = call and pair.make(call)[1]
            if broken:
                return place, broken
        return None, []

    shortest = Shrinking(lambda candidate: broken_by(candidate)[0], SHRINKING_RUNS, SHRINKING_SECONDS).shortest(lines)
    print("The shortest call list found that breaks the claim:")
    for line, times in itertools.groupby(shortest):
        print(f"{len(list(times)):5} x {line!r}")
    print("   ", *broken_by(shortest)[1], flush=True)
