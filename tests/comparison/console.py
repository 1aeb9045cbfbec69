"""Compare the console's answers, call by call, with the model, and check the claim after every call.

Usage: python3 -B -m tests.comparison.console [--seed N] PROGRAM

The program reads one call a line and writes one answer line for each.  The last line printed is "N passed, M failed":
one count for each answer, for each run of the program, for each call after which the claim was checked, for each figure
worked by hand or told by the manual, compared with the model and with the program, for each whole input and for each
thing that the lists must meet.
"""

import argparse
import concurrent.futures
import gc
import multiprocessing
import random
import sys

from tests.comparison import whole_inputs
from tests.comparison.program import NO_END, PROGRAM_SECONDS, SHORT_SECONDS, run, run_in_pieces, run_lines
from tests.comparison.shortest import print_broken_claim, print_wrong_answer
from tests.coverage.clock import ClockCoverage
from tests.coverage.coverage import print_counts
from tests.coverage.drop_outs import DropOutCoverage
from tests.coverage.images import ImageCoverage
from tests.coverage.lines_between import BetweenCoverage
from tests.coverage.parameters import ParameterCoverage
from tests.coverage.power_cuts import PowerCutCoverage
from tests.coverage.ratio_halves import RatioHalfCoverage
from tests.coverage.rights import RightsCoverage
from tests.coverage.roots import RootCoverage
from tests.coverage.scans import ScanCoverage
from tests.coverage.sheets import SheetCoverage
from tests.coverage.terminal import TerminalCoverage
from tests.coverage.writes import WriteCoverage
from tests.figures import check as figure_check
from tests.gate import tally
from tests.lists import clock as clock_lists
from tests.lists import drop_outs, lines_between, power_cuts
from tests.lists import images as image_lists
from tests.lists import parameters as parameter_lists
from tests.lists import ratio_halves
from tests.lists import restarts as restart_lists
from tests.lists import rights as rights_lists
from tests.lists import roots as root_lists
from tests.lists import scans as scan_lists
from tests.lists import sheets as sheet_lists
from tests.lists import terminal as terminal_lists
from tests.lists import writes as write_lists
from tests.lists.line_errors import LINE_ERRORS
from tests.model.lines import call_of, line_of
from tests.model.pair import Pair, answers_of

DEFAULT_SEED = 6360
INPUTS, AT_ONCE = 4, 2     # the lists are shared out among so many runs of the program, so many of them at once
COVERAGES = (ScanCoverage, ParameterCoverage, WriteCoverage, ImageCoverage, PowerCutCoverage, SheetCoverage, ClockCoverage,
             RootCoverage, TerminalCoverage, RatioHalfCoverage, RightsCoverage, DropOutCoverage, BetweenCoverage)
KINDS = ((scan_lists, ScanCoverage), (parameter_lists, ParameterCoverage), (write_lists, WriteCoverage), (image_lists, ImageCoverage),
         (restart_lists, ImageCoverage), (power_cuts, PowerCutCoverage), (sheet_lists, SheetCoverage),
         (clock_lists, ClockCoverage), (root_lists, RootCoverage), (terminal_lists, TerminalCoverage),
         (ratio_halves, RatioHalfCoverage), (rights_lists, RightsCoverage), (drop_outs, DropOutCoverage), (lines_between, BetweenCoverage))
FAULTS_PRINTED = 10


class Results:
    """What passed, and the faults found."""

    def __init__(self):
        self.passed, self.faults = 0, []
        self.differences = []     # lines answered otherwise than the model answers
        self.was_endless = False  # the program didn't end in a run over many lists, and isn't given more of them
        self.broken_claims = []   # the lines of each

    def check(self, right, fault):
        if right:
            self.passed += 1
        else:
            self.faults.append(fault)

    def join(self, other):
        """With those of a run that went beside."""
        self.passed += other.passed
        self.faults += other.faults
        self.differences += other.differences
        self.broken_claims += other.broken_claims
        self.was_endless = self.was_endless or other.was_endless

    def add(self, looked, faults):
        self.passed += looked - len(faults)
        self.faults += faults

    def broken_claim(self, broken, lines):
        """The parts of the claim that a call broke, and the lines of the list up to that call."""
        self.faults.append(f"the claim is broken: {broken}")
        self.broken_claims.append(lines)


# Lists ----------------------------------------------------------------------

def expected_answers(entries, pair, coverage, results):
    """The answers expected to a list, with the claim checked after every call, and what the list meets counted."""
    expected = []
    coverage.lines(entries)
    for place, entry in enumerate(entries):
        call = call_of(entry.line)
        assert (call is None) == (entry.kind in LINE_ERRORS), entry
        if call is None:
            expected.append("error")
            continue
        before = pair.controllers
        answer, broken = pair.make(call)
        coverage.call(call, before, pair.controllers, answer, pair)
        if broken:
            results.broken_claim(broken, [each.line for each in entries[:place + 1]])
        else:
            results.passed += 1
        expected.append(line_of(answer))
    return expected


def compare(program, lists, results):
    """One run of the program over several lists.  The lines of a list that it answers wrongly, or None."""
    pair = Pair()
    expected = [expected_answers(entries, pair, coverage, results) for _, entries, coverage in lists]
    lines = [entry.line for _, entries, _ in lists for entry in entries]
    written, trouble = ("", NO_END) if results.was_endless else run_lines(program, lines, PROGRAM_SECONDS)
    results.was_endless = trouble.startswith(NO_END)
    answers = written.split("\n")[:-1]
    results.check(not trouble, trouble)
    results.check(len(answers) == len(lines) and written.endswith("\n"), f"{len(answers)} answers to {len(lines)} lines")
    wrong, start = None, 0
    for (kind, entries, _), right in zip(lists, expected, strict=True):
        given, was_reached = answers[start:start + len(right)], start <= len(answers)
        start += len(right)
        different = [] if given == right else [place for place, answer in enumerate(right) if given[place:place + 1] != [answer]]
        results.passed += len(right) - len(different)
        results.differences += [f"answered wrongly: {kind}, line {place}: {entries[place].line!r}" for place in different]
        if different and was_reached and (wrong is None or different[0] < len(wrong[1])):
            wrong = lines[:start], [entry.line for entry in entries[:different[0] + 1]]
    return wrong


def all_lists(generator):
    """Every list with the place among `COVERAGES` of what counts its calls, shared out among the runs.

    Each run begins with lists that have no fresh start.
    """
    lists = [(*each, COVERAGES.index(coverage)) for module, coverage in KINDS for each in module.all_lists(generator)]
    generator.shuffle(lists)
    sheets, scans = COVERAGES.index(SheetCoverage), COVERAGES.index(ScanCoverage)
    return [[(*sheet_lists.first_list(generator, number), sheets), (*scan_lists.first_list(generator), scans), *lists[number::INPUTS]]
            for number in range(INPUTS)]


class Parts:
    """The parts of the lists, one for each run of the program: drawn before the processes start, which inherit them."""
    program, lists = None, ()

    @classmethod
    def share(cls, program, lists):
        cls.program, cls.lists = program, lists


def compare_part(number):
    """One run of the program with results and counts of its own, so that two can go at once."""
    results, coverages = Results(), [coverage() for coverage in COVERAGES]
    lists = [(kind, entries, coverages[place]) for kind, entries, place in Parts.lists[number]]
    wrong = compare(Parts.program, lists, results)
    return results, coverages, wrong


def compare_lists(program, generator, results):
    """All lists; what they met."""
    coverages, found = [coverage() for coverage in COVERAGES], []
    parts = all_lists(generator)
    with concurrent.futures.ProcessPoolExecutor(AT_ONCE, multiprocessing.get_context("fork"), Parts.share, (program, parts)) as pool:
        for part_results, part_coverages, wrong in pool.map(compare_part, range(len(parts))):
            results.join(part_results)
            found += [wrong] if wrong else []
            for whole, part in zip(coverages, part_coverages, strict=True):
                whole.join(part)
    if found:
        print_wrong_answer(program, *min(found, key=lambda lines: len(lines[1])))
    for coverage in coverages:
        results.add(len(coverage.least_counts()), coverage.too_few())
    return coverages


# The rest -------------------------------------------------------------------

def check_figures(program, results):
    """What was worked by hand, and the manual's figures: the program's answers are compared with the figures."""
    def answers_of_program(lines):
        written, trouble = run_lines(program, lines, SHORT_SECONDS)
        results.check(not trouble, trouble)
        return written.split("\n")[:-1]

    for wrong, looked in (figure_check.wrong_in_the_model(), figure_check.wrong_in(answers_of), figure_check.wrong_in(answers_of_program)):
        results.add(looked, wrong)


def check_whole_inputs(program, generator, results):
    """Whole inputs, and inputs that come in pieces; given up once the program doesn't end."""
    for name, text, expected in whole_inputs.whole(answers_of):
        written, trouble = run(program, text, SHORT_SECONDS)
        results.check(written == expected and not trouble, f"input, {name}: {written[:200]!r}, expected {expected[:200]!r} {trouble}")
        if trouble.startswith(NO_END):
            return
    lines = [entry.line for entry in write_lists.call_list(generator, write_lists.mixed, 0)]
    for size, text, expected in whole_inputs.in_pieces(lines, answers_of):
        written, trouble = run_in_pieces(program, text, size)
        results.check(written == expected and not trouble, f"input in pieces of {size} bytes: wrong or too few answers {trouble}")


def main():
    parser = argparse.ArgumentParser()
    parser.add_argument("--seed", type=int, default=DEFAULT_SEED)
    parser.add_argument("program")
    given = parser.parse_args()
    print("seed", given.seed, flush=True)
    gc.disable()  # there are no cycles to be found, and looking for them among all entries takes a tenth of the time
    generator, results = random.Random(given.seed), Results()
    check_figures(given.program, results)
    coverages = compare_lists(given.program, generator, results)
    check_whole_inputs(given.program, generator, results)
    if results.broken_claims:
        print_broken_claim(min(results.broken_claims, key=len))
    for coverage in coverages:
        print_counts(coverage)
    print("\n".join(results.faults[:FAULTS_PRINTED] + results.differences[:FAULTS_PRINTED]) or "every answer is as expected")
    return tally.close(results.passed, len(results.faults) + len(results.differences))


if __name__ == "__main__":
    sys.exit(main())
