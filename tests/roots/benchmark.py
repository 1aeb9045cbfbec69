"""How many instructions a square root takes: computed, as before document 02's request 3, and read from the table.

Usage: python3 -B -m tests.roots.benchmark

Crate `benchmark` has both, proved by the same contract, and is made a library for C, so that both are compiled as the
product is. A C program takes the root of every sample both ways; callgrind counts the instructions, from the call to
the return. Beside the kit it needs gcc and valgrind. The exit status is 0 only if every root is right and the look-up
takes at most a tenth.
"""

import pathlib
import re
import subprocess
import sys
import tempfile

from tests import ROOT

CRATE, PROGRAM_TEXT = ROOT / "crates/benchmark", ROOT / "tests/roots/benchmark.c"
LIBRARY = CRATE / "out/libbenchmark.a"
SAMPLES, LEAST_RATIO = 10001, 10
COUNT = re.compile(r"^totals: (\d+)$", re.MULTILINE)


def run(*command, folder=ROOT):
    """What the command writes; the benchmark ends where it fails."""
    ended = subprocess.run(command, cwd=folder, stdin=subprocess.DEVNULL, stdout=subprocess.PIPE, stderr=subprocess.STDOUT, text=True,
                           check=False)
    if ended.returncode != 0:
        sys.exit(f"{' '.join(map(str, command))} ended with status {ended.returncode}:\n{ended.stdout}")
    return ended.stdout


def instructions(program, function, folder):
    """Those of one call of the function, all that it calls included: the mean over all samples."""
    counts = folder / function
    run("valgrind", "--tool=callgrind", f"--toggle-collect={function}", f"--callgrind-out-file={counts}", program)
    return int(COUNT.search(counts.read_text(encoding="utf-8")).group(1)) / SAMPLES


def main():
    run("rt", "lib", folder=CRATE)
    with tempfile.TemporaryDirectory() as name:
        folder = pathlib.Path(name)
        program = folder / "roots"
        run("gcc", "-O2", "-Wall", "-Wextra", "-Werror", "-o", program, PROGRAM_TEXT, LIBRARY)
        print(run(program), end="")
        before, after = (instructions(program, function, folder) for function in ("computed_root", "table_root"))
    print(f"instructions for a root, computed as before: {before:.1f}")
    print(f"instructions for a root, read from the table: {after:.1f}")
    print(f"ratio: {before / after:.1f}, at least {LEAST_RATIO} is expected")
    return 0 if before >= LEAST_RATIO * after else 1


if __name__ == "__main__":
    sys.exit(main())
