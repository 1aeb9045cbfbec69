"""Whether two builds of the console answer alike, for a change that nobody outside should be able to tell.

Usage: python3 -B -m tests.comparison.builds BEFORE AFTER

BEFORE and AFTER are folders with the program of a build, crates/console/out each. The console gets the lists that the
gate compares, by two seeds, a million scans with IC 1, and a million arithmetic lines, every root fifty times among
them. The last line printed is 'N passed, M failed', one count for each line.
"""

import pathlib
import random
import sys

from tests.comparison import arithmetic, console
from tests.comparison.program import PROGRAM_SECONDS, run_lines
from tests.gate import tally

PROGRAM = "console"
SEEDS = (6360, 31)
STARTS, SCANS_A_START = 500, 2000
LINES = 1_000_000


def inputs():
    """The name and the lines of each run."""
    for seed in SEEDS:
        for lists in console.all_lists(random.Random(seed)):
            yield f"the gate's lists, seed {seed}", [entry.line for _, entries, _ in lists for entry in entries]
    yield "scans with IC 1", root_scans(random.Random(SEEDS[0]))
    yield "arithmetic lines", arithmetic_lines(random.Random(SEEDS[0]))


def root_scans(generator):
    """Starts with drawn switches and ranges of channel 1, and scans with IC 1 in changing modes, 36 ms apart."""
    lines = []
    for _ in range(STARTS):
        low, high = generator.randint(-9999, 0), generator.randint(1, 9999)
        writes = ((24, 4096), (23, 1), (2, low), (1, high))
        lines += [f"fresh {generator.getrandbits(16)}", *(f"write engineer {number} {value}" for number, value in writes)]
        beginning = generator.getrandbits(40)
        for number in range(SCANS_A_START):
            samples = " ".join(str(generator.randrange(10001)) for _ in range(3))
            lines.append(f"scan {generator.choice((0, 128, 145, 160, 192))} {samples} {generator.choice((0, 1, 2, 4, 8, 64))} "
                         f"{generator.choice((0, 0, 0, 0, 1))} {beginning + 36 * number}")
    return lines


def arithmetic_lines(generator):
    """Every root fifty times in drawn order, and the lines that the gate compares, drawn until there are enough."""
    samples = [*range(10001)] * 50
    generator.shuffle(samples)
    lines = [f"root {sample}" for sample in samples]
    while len(lines) < LINES:
        lines += [line for line, _ in arithmetic.all_comparisons(generator)[0]]
    return lines


def compare(name, programs, lines):
    """How many lines two programs answer alike, and the faults."""
    (old, old_trouble), (new, new_trouble) = (run_lines(program, lines, PROGRAM_SECONDS) for program in programs)
    different = [number for number, (one, other) in enumerate(zip(old.split("\n"), new.split("\n"))) if one != other]
    is_whole = not old_trouble + new_trouble and old.count("\n") == new.count("\n") == len(lines)
    print(f"{name}: {len(lines)} lines, {len(different)} answered otherwise", flush=True)
    faults = [f"{name}: {lines[number]!r} is answered otherwise" for number in different]
    return len(lines) - len(different), faults + ([] if is_whole else [f"{name}: not every line is answered: {old_trouble} {new_trouble}"])


def main():
    programs = [pathlib.Path(folder) / PROGRAM for folder in sys.argv[1:3]]
    passed, faults = 0, []
    for name, lines in inputs():
        alike, found = compare(name, programs, lines)
        passed, faults = passed + alike, faults + found
    print("\n".join(faults[:10]) or "all are answered alike")
    return tally.close(passed, len(faults))


if __name__ == "__main__":
    sys.exit(main())
