"""Compare the console's arithmetic lines, call by call, with the model.

Usage: python3 -B -m tests.comparison.arithmetic [--seed N] PROGRAM

The program reads one call a line and writes one answer line for each: a
number, or "error" for a line that is no call or has a number out of range.
The last line printed is "N passed, M failed", one count for each comparison.
As failed counts also each kind of call of which too few were found, among them
every exact half of a ratio's quotients within some areas of q and s, and a
program that doesn't end with status 0.
"""

import argparse
import collections
import itertools
import random
import sys

from tests.comparison.program import PROGRAM_SECONDS, SHORT_SECONDS, run, run_lines
from tests.lists import arithmetic as arithmetic_calls
from tests.lists import exact_halves
from tests.lists.arithmetic import draw, expected_answer, line_of, random_arguments
from tests.model.arithmetic import RANGES, TERMS
from tests.model.lines import LONGEST_LINE
from tests.model.pair import answers_of

DEFAULT_SEED = 6360
RANDOM_CALLS_A_WORD = 5500
LEAST_PASSED = 100000
DIFFERENCES_PRINTED = 10
FAR = 999999999

# Document 01, "Worked by hand", the ratios by document 02, request 5.  The last
# four are ties, 39,062.5 and 117,187.5 steps, worked by hand for our decision on
# a term's exact half.
BY_HAND = (
    ("proportional 1000 1000 1", "655360"),
    ("integral 1000 1000 10 0 1", "23593"),
    ("derivative 1000 1000 10 0 0 1", "-18204444"),
    ("derivative 1000 1000 10 0 0 100", "-655360000"),
    ("scale 0 1 4999", "0"), ("scale 0 1 5000", "1"),
    ("ratio 101 200", "50"), ("ratio 103 200", "52"), ("ratio -101 200", "-50"), ("inverse 5 150", "8"),
    ("proportional 4096 4096 1", "39062"), ("proportional 4096 4096 -1", "-39062"),
    ("proportional 4096 4096 3", "117188"), ("proportional 4096 4096 -3", "-117188"),
)
# Found by search: so near to a half that 53-bit floats take them for ties.
NEAREST_TIES = (
    ("proportional", (8681, 19071), 38342), ("proportional", (9121, 14483), 18806),
    ("derivative", (9361, 18685, 3, 0, 0), 19058), ("derivative", (8905, 18629, 33, 0, 1), 617),
    ("derivative", (7571, 15623, 1, 1, 0), 365), ("derivative", (5463, 17005, 1, 1, 1), 291),
)
NO_NUMBERS = (
    "+5", "--5", "-", "12x", "x12", "5-", "1-2", "1.0", "1e3", "0x5", "1_0", "1,0",
    "1234567890", "-1234567890", "0" * 18 + "5",      # out of range; nineteen digits
    "4294967301", "18446744073709551621", "9" * 40)   # 2^32 + 5, 2^64 + 5
NO_CALLS = ("", " ", "   ", "square 5", "Root 5", "ROOT 5", "roots 5", "roo 5",
            "root5", "root,5", "root\t5", "5 root", "5", "-", "error",
            *("root" + "5".rjust(length - 4) for length in (LONGEST_LINE + 1, LONGEST_LINE + 2)), "root 5" + " " * 5000)
# One to eighteen digits, blanks anywhere between words, lines up to 700 bytes.
OTHER_FORMS = (
    ("  root 5", "223"), ("root 5  ", "223"),
    *(("root" + "5".rjust(length - 4), "223") for length in (255, 256, 257, LONGEST_LINE - 1, LONGEST_LINE)),
    ("root " + "0" * 17 + "5", "223"), ("scale -0 1 5000", "1"), ("scale -00 01 05000", "1"))
# Whole inputs: none, a last line without a newline, and empty lines.
WHOLE_INPUTS = (("", ""), ("root 5", "223\n"), ("\n", "error\n"), ("roo\nt 5", "error\nerror\n"),
                ("root 5\nroot 4\n\nroot 1", "223\n200\nerror\n100\n"), ("\0", "error\n"))


# Calls, as words and arguments ---------------------------------------------

def corner_calls():
    """All combinations of range ends, their neighbours, zero, one, minus one.

    Those with L not below H, or LOW above HIGH, are to be answered error.
    """
    for word, ranges in RANGES.items():
        corners = [sorted({number for number in (low, low + 1, -1, 0, 1, high - 1, high)
                           if low <= number <= high}) for low, high in ranges]
        for arguments in itertools.product(*corners):
            yield word, arguments


def unlimited_arguments(generator, word):
    """Arguments of a term that is neither zero nor beyond the limit."""
    while True:
        settings = random_arguments(generator, word)[:-1]
        one = arithmetic_calls.quotient_of_one(word, settings)
        if one > 0 and arithmetic_calls.reach(word, one) >= 1:
            moving = generator.randint(1, arithmetic_calls.reach(word, one))
            return (*settings, generator.choice([moving, -moving]))


def random_calls(generator):
    """Random legal calls; of the terms, every second one isn't limited."""
    for word in RANGES:
        for count in range(RANDOM_CALLS_A_WORD):
            unlimited = word in TERMS and count % 2 == 1
            chosen = unlimited_arguments if unlimited else random_arguments
            yield word, chosen(generator, word)


# Lines to be answered error ------------------------------------------------

def out_of_range_lines(generator):
    """One beyond each end of each argument, and far beyond it."""
    for word, ranges in RANGES.items():
        for place, (low, high) in enumerate(ranges):
            for beyond in (low - 1, high + 1, -FAR, FAR):
                if low <= beyond <= high:
                    continue
                for _ in range(10):
                    arguments = list(random_arguments(generator, word))
                    arguments[place] = beyond
                    yield line_of(word, arguments)
    for _ in range(100):  # pairs out of order; L = H is, LOW = HIGH isn't
        high = draw(generator, -9999, 9999)
        yield line_of("scale", (high, high, draw(generator, 0, 10000)))
        yield line_of("scale", (draw(generator, high, 9999), high, 5000))
        high = draw(generator, -FAR, FAR - 1)
        yield line_of("limit", (high + 1, high, draw(generator, -FAR, FAR)))
        yield line_of("limit", (draw(generator, high + 1, FAR), high, high))


def malformed_lines(generator):
    """Lines that are no call: a number missing, extra or no number, no word."""
    yield from NO_CALLS
    for word, ranges in RANGES.items():
        yield word
        arguments = random_arguments(generator, word)
        yield line_of(word, (*arguments, 0))
        yield line_of(word, (*arguments, arguments[-1]))
        yield line_of(word, (word, *arguments))
        for place in range(len(ranges)):
            before, after = arguments[:place], arguments[place + 1:]
            yield line_of(word, before + after)
            for no_number in NO_NUMBERS:
                yield line_of(word, (*before, no_number, *after))


# The comparison ------------------------------------------------------------

def check_model(comparisons):
    """The model of the console answers as expected too, or the test is void: the figures worked by hand, and error to
    what is meant to be no call, since it is none of the console's other calls either.
    """
    for (line, expected), answer in zip(comparisons, answers_of([line for line, _ in comparisons]), strict=True):
        if answer != expected:
            raise ValueError(f"the model answers {answer} to {line!r}, expected is {expected}")


def every_half():
    """For each quotient of a ratio and each kind of half: its name, every call
    of it, and how many there are, counted by trying every q with every s."""
    for word, areas in exact_halves.ARITHMETIC_AREAS.items():
        calls = {kind: [] for kind in arithmetic_calls.TIES}
        for arguments in sorted(exact_halves.listed(word, areas)):
            calls[arithmetic_calls.tie_kind(word, arguments)].append((word, arguments))
        counts = exact_halves.kinds_tried(word, areas)
        yield from ((f"{word}, every {kind}", found, counts[kind]) for kind, found in calls.items())


def all_comparisons(generator):
    """Pairs of a line and its expected answer, in random order; and for each
    hard kind how many different calls of it are among them, and must be."""
    asked = [*corner_calls(), *random_calls(generator),
             *(("root", (sample,)) for sample in range(10001)),
             *((word, (*settings, sign * moving))
               for word, settings, moving in NEAREST_TIES for sign in (1, -1))]
    kinds = {}
    for kind, found in arithmetic_calls.hard_calls(generator):
        asked += found
        kinds[kind] = len(found), arithmetic_calls.LEAST_OF_A_KIND
    for kind, found, least in every_half():
        asked += found
        kinds[kind] = len(found), max(least, arithmetic_calls.LEAST_OF_A_KIND)
    comparisons = [*BY_HAND, *OTHER_FORMS, *((line_of(*call), expected_answer(*call)) for call in asked)]
    comparisons += [(line_of(*call, blanks), expected_answer(*call))
                    for call in generator.sample(asked, 200) for blanks in ("  ", "     ")]
    comparisons += [(line, "error") for line in out_of_range_lines(generator)]
    comparisons += [(line, "error") for line in malformed_lines(generator)]
    generator.shuffle(comparisons)
    return comparisons, kinds


def wrong_whole_inputs(program):
    """How many of the whole inputs are answered wrongly."""
    wrong = 0
    for asked, expected in WHOLE_INPUTS:
        written, trouble = run(program, asked, SHORT_SECONDS)
        if written != expected or trouble:
            wrong += 1
            print(f"input {asked!r}: answer {written!r}, expected {expected!r} {trouble}")
    return wrong


def differences(comparisons, answers):
    """Calls, answers and expectations that differ; a lone call or answer does."""
    for comparison, answer in itertools.zip_longest(comparisons, answers):
        line, expected = comparison or (None, None)
        if answer is None or answer != expected:
            yield line, answer, expected


def print_counts(seed, comparisons, kinds):
    print("seed", seed)
    words = collections.Counter(line.split()[0] for line, expected in comparisons
                                if expected != "error")
    for word in RANGES:
        print(f"{words[word]:6} {word}")
    errors = sum(expected == "error" for _, expected in comparisons)
    print(f"{errors:6} lines to be answered error")
    for kind, (count, least) in kinds.items():
        print(f"{count:6} {kind}{'' if count >= least else '   TOO FEW'}")


def main():
    parser = argparse.ArgumentParser()
    parser.add_argument("--seed", type=int, default=DEFAULT_SEED)
    parser.add_argument("program")
    given = parser.parse_args()
    comparisons, kinds = all_comparisons(random.Random(given.seed))
    check_model(comparisons)
    print_counts(given.seed, comparisons, kinds)
    written, trouble = run_lines(given.program, [line for line, _ in comparisons], PROGRAM_SECONDS)
    answers = written.split("\n")
    answers = answers[:-1] if answers[-1] == "" else answers
    print(len(comparisons), "calls,", len(answers), "answers", trouble)
    different = list(differences(comparisons, answers))
    for line, answer, expected in different[:DIFFERENCES_PRINTED]:
        print(f"call {line!r}: answer {answer!r}, expected {expected!r}")
    too_few = sum(count < least for count, least in kinds.values())
    wrong_inputs = wrong_whole_inputs(given.program)
    passed = max(len(comparisons), len(answers)) - len(different) + len(WHOLE_INPUTS) - wrong_inputs
    failed = len(different) + too_few + wrong_inputs + bool(trouble)
    print(f"{passed} passed, {failed} failed")
    good = failed == 0 and len(answers) == len(comparisons) and passed >= LEAST_PASSED
    sys.exit(0 if good else 1)


if __name__ == "__main__":
    main()
