"""The table of roots, crates/scaling/src/roots.rt: written here, and never by hand.

Usage: python3 -B -m tests.roots.table [--write]

Without --write the test fails at each line of the file that isn't what is written here. The last line printed is
'N passed, M failed', one count for each line.
"""

import itertools
import math
import sys

from tests import ROOT
from tests.gate import tally

FILE = ROOT / "crates/scaling/src/roots.rt"
LAST = 10000  # the greatest sample
HEAD = f"""\
// The square roots that IC 1 takes, one entry for each sample. Written by a program, tests/roots/table.py, and never by
// hand. A match, since it is compiled to one constant table: a `const` of {LAST + 1:,} entries is refused, there is no
// `static`, and arrays that are taken are copied at each look-up.
ghost use Rattle.std.specs.Prelude.{{◌*◌, ◌≤◌}};
ghost use Rattle.scaling.specs.Root.{{Greatest}};

// Document 02, request 3: "Every entry is the greatest whole number whose square isn't above 10000 times its place."
// The contract rules out one more and one less, at every place.
pub fn entry(sample: u16) -> u16
    requires {{ sample ≤ {LAST} }}
    ensures {{ Greatest (10000 * sample) result }}
{{
    match sample {{
"""
FOOT = """\
        _ => 10001,
    }
}
"""


def text():
    """The whole file."""
    entries = (f"        {place} => {math.isqrt(10000 * place)},\n" for place in range(LAST + 1))
    return HEAD + "".join(entries) + FOOT


def main():
    if "--write" in sys.argv:
        FILE.write_text(text(), encoding="utf-8")
    pairs = list(itertools.zip_longest(text().split("\n"), FILE.read_bytes().decode().split("\n")))
    faults = [f"line {number}: {found!r} is to be {wanted!r}" for number, (wanted, found) in enumerate(pairs, 1) if found != wanted]
    return tally.report(faults, len(pairs), f"{FILE.name} is what {__package__}.table writes")


if __name__ == "__main__":
    sys.exit(main())
