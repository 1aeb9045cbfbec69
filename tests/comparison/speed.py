"""The console takes at least 200,000 scan lines a second.

Usage: python3 -B -m tests.comparison.speed PROGRAM

Three runs of 400,000 scans each, in several modes; the fastest counts, since other work on the machine only slows a run
down. The last line printed is 'N passed, M failed'.
"""

import random
import subprocess
import sys
import time

from tests.gate import tally

LINES, RUNS, LEAST = 400_000, 3, 200_000
SEED = 6360
BEGINNING = 1_700_000_000_000  # as many milliseconds as hosts count that began in 1970


def session():
    """A fresh start and scans with random pins, samples and buttons, 36 ms apart."""
    generator = random.Random(SEED)
    scans = (f"scan {generator.choice((128, 145, 160, 192))} "
             f"{generator.randrange(10001)} {generator.randrange(10001)} {generator.randrange(10001)} "
             f"{generator.choice((0, 2, 4, 64, 72))} {generator.choice((0, 0, 0, 1))} {BEGINNING + 36 * number}" for number in range(LINES))
    return "\n".join(["fresh 2048", *scans, ""]).encode()


def main():
    text, rates, answered = session(), [], True
    for _ in range(RUNS):
        began = time.monotonic()
        done = subprocess.run([sys.argv[1]], input=text, capture_output=True, check=False)
        rates.append(LINES / (time.monotonic() - began))
        answered = answered and done.returncode == 0 and done.stdout.count(b"\nscan ") == LINES
    print(f"{max(rates):,.0f} scan lines a second")
    passed = answered and max(rates) >= LEAST
    return tally.close(int(passed), int(not passed))


if __name__ == "__main__":
    sys.exit(main())
