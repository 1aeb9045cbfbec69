"""Compare the console's answers, line by line, with the model: sheets that begin with kept numbers.

Usage: python3 -B -m tests.comparison.kept_sheets [--seed N] PROGRAM

A sheet can begin with the numbers of a kept one, so that it can be made full by its own arithmetic.  Which kept sheets
are right is told twice: by the model, and of short lists of few PVs by counting out all of them.  The last line printed
is "N passed, M failed": one count for each answer, for each run of the program, for each sheet of few PVs, for each two
lists joined in the model and for each thing that the lists must meet.
"""

import argparse
import random
import sys

from tests.comparison.program import PROGRAM_SECONDS, run_lines
from tests.coverage.coverage import print_counts
from tests.coverage.kept_sheets import KeptCoverage
from tests.gate import tally
from tests.lists import kept_sheets as kept_lists
from tests.model.kept_sheets import faults_of
from tests.model.lines import call_of, line_of
from tests.model.session import Session
from tests.model.sheet import joined, numbers_of

DEFAULT_SEED = 6360
JOINED = 300
DIFFERENCES_PRINTED, LINES_BEFORE = 5, 20


def wrong_in_few():
    """Sheets of few PVs of which the model says otherwise than all their lists counted out; how many were looked at."""
    right, looked = set(kept_lists.given_by_few()), 0
    wrong = []
    for numbers in kept_lists.about_few():
        scans, looked = numbers[0], looked + 1
        given = [scans, *[0] * 4, scans, *[0] * 3, *numbers[1:5], 0, numbers[5], 0]
        if (numbers in right) != (not list(faults_of(given))):
            wrong.append(f"the model is wrong: {numbers}")
    return wrong, looked


def wrong_in_joining(generator):
    """Lists of answers whose numbers together aren't those of the one list joined to those of the other."""
    source = kept_lists.KeptSource(generator)
    lists = [[source.feed((-7, -1, 0, 3, 4)) for _ in range(generator.choice((0, 1, 2, 9)))] for _ in range(JOINED + 1)]
    return [f"the model is wrong: {first} and {second}" for first, second in zip(lists, lists[1:])
            if joined(numbers_of(first), numbers_of(second)) != numbers_of(first + second)], JOINED


def expected_answers(lines, coverage):
    """The model's answers, from the empty sheet and numbers that are all 0; no line is a call of the controller."""
    session, answers = Session(), []
    for line in lines:
        call = call_of(line)
        answer = session.make(call) if call else ("error",)
        if call:
            coverage.call(call, session, answer)
        else:
            coverage.count("error")
        answers.append(line_of(answer))
    return answers


def compare(program, kind, lines, coverage):
    """The faults of one run of the program over a list, and how many things were looked at."""
    expected = expected_answers(lines, coverage)
    written, trouble = run_lines(program, lines, PROGRAM_SECONDS)
    answers = written.split("\n")[:-1]
    faults = [trouble] if trouble else []
    faults += [] if len(answers) == len(lines) else [f"{kind}: {len(answers)} answers to {len(lines)} lines"]
    wrong = [place for place, (answer, right) in enumerate(zip(answers, expected)) if answer != right]
    faults += [f"{kind}, line {place}: {lines[place]!r} is answered {answers[place]!r}, expected {expected[place]!r}" for place in wrong]
    if wrong:
        print("before the first wrong answer:", *lines[max(0, wrong[0] - LINES_BEFORE):wrong[0] + 1], sep="\n    ")
    return faults, len(lines) + 2


def main():
    parser = argparse.ArgumentParser()
    parser.add_argument("--seed", type=int, default=DEFAULT_SEED)
    parser.add_argument("program")
    given = parser.parse_args()
    print("seed", given.seed, flush=True)
    generator, coverage = random.Random(given.seed), KeptCoverage()
    found = [wrong_in_few(), wrong_in_joining(generator)]
    found += [compare(given.program, kind, lines, coverage) for kind, lines in kept_lists.all_lists(generator)]
    found.append((coverage.too_few(), len(coverage.least_counts())))
    faults, looked = [fault for each, _ in found for fault in each], sum(count for _, count in found)
    print_counts(coverage)
    print("\n".join(faults[:DIFFERENCES_PRINTED]) or "every answer is as expected")
    return tally.close(looked - len(faults), len(faults))


if __name__ == "__main__":
    sys.exit(main())
