"""The repository's own rules of layout, told from the text alone.

Usage: python3 -B -m tests.repository.layout

- every file of Rattle, antt and Python has fewer than 300 lines (that `rt fmt` leaves Rattle and antt files as they are
  is looked at by `rt ci`);
- every function of Rattle has fewer than 40 lines, branches at most three deep and at most one loop;
- of both the table of roots, which is written by a program, may have more lines;
- a line of code has at most 140 columns, a line of prose at most 120 (`tests/repository/line_lengths.py`);
- a file of Rattle or antt uses every name that it imports, and imports it once (`tests/repository/imports.py`);
- no file names a path in one of the usual folders outside the repository;
- every crate stands in one of five layers, and none depends on a higher layer, nor a program on a claim; the picture of
  the layers has every crate in its layer, and marks those that a host names (`tests/repository/layers.py`);
- a section of docs/CHANGES.md has at most 30 lines (`tests/repository/changes.py`).

The last line printed is 'N passed, M failed', one count for each file, each function, each line that is too long, each
name that is imported in vain, each layer, crate and dependency, each crate of the picture, and each section and line of
the changes.
"""

import re
import sys

from tests import ROOT
from tests.gate import tally
from tests.repository import changes, layers
from tests.repository.files import text_of, tracked
from tests.repository.imports import idle_imports
from tests.repository.line_lengths import too_long_lines

MOST_FILE_LINES, MOST_FUNCTION_LINES, MOST_DEPTH, MOST_LOOPS = 299, 39, 3, 1
TABLE = "crates/scaling/src/roots.rt"  # written by a program, one entry to a line: neither it nor its function is too long
OUTSIDE = re.compile(r"(?<![\w.])/(?:work|opt|root|home|tmp)/")
FUNCTION = re.compile(r"^\s*(?:pub )?(?:extern \"C\" )?fn (\w+)")
BRANCH = re.compile(r"\b(?:if|match)\b")
LOOP = re.compile(r"\b(?:while|loop|for)\b")


def code_of(line):
    """The line without its comment and without ghost clauses, whose braces and words are no code."""
    text = line.split("//")[0]
    return "" if re.match(r"\s*(?:ghost|requires|ensures)\b", text) else text


def functions(lines):
    """Each function's name, first line number and lines, up to the brace that closes it."""
    at = 0
    while at < len(lines):
        named = FUNCTION.match(lines[at])
        if not named:
            at += 1
            continue
        start, depth, opened = at, 0, False
        while at < len(lines) and not (opened and depth == 0):
            code = code_of(lines[at])
            depth += code.count("{") - code.count("}")
            opened = opened or "{" in code
            at += 1
        yield named.group(1), start + 1, lines[start:at]


def branch_depth(lines):
    """How deep branches stand in one another: braces that a branch opened count, an `else` stands beside its `if`."""
    deepest, open_braces = 0, []
    for line in lines:
        code = code_of(line)
        is_branch = bool(BRANCH.search(code))
        for brace in re.findall(r"[{}]", code):
            if brace == "{":
                open_braces.append(is_branch or "else" in code)
            elif open_braces:
                open_braces.pop()
            deepest = max(deepest, sum(open_braces))
    return deepest


def faults(name):
    """What is wrong with one file, and how many things were looked at."""
    lines = text_of(name).split("\n")
    found = [f"{name}:{number}: {columns} columns" for number, columns in too_long_lines(name, lines)]
    if name.endswith((".rt", ".antt")):
        found += [f"{name}:{number}: {imported} is imported in vain" for number, imported in idle_imports("\n".join(lines))]
    looked = 1 + len(found)
    if any(OUTSIDE.search(line) for line in lines) and name != "tests/repository/layout.py":
        found.append(f"{name}: names a path outside the repository")
    if name.endswith((".rt", ".antt", ".py")) and len(lines) - 1 > MOST_FILE_LINES and name != TABLE:
        found.append(f"{name}: {len(lines) - 1} lines")
    if name.endswith(".rt"):
        for function, line, body in functions(lines):
            looked += 1
            loops = sum(len(LOOP.findall(code_of(text))) for text in body)
            is_too_long = len(body) > MOST_FUNCTION_LINES and name != TABLE
            if is_too_long or branch_depth(body) > MOST_DEPTH or loops > MOST_LOOPS:
                found.append(f"{name}:{line}: {function}: {len(body)} lines, branches {branch_depth(body)} deep, {loops} loops")
    return found, looked


def main():
    found, looked = [], 0
    for more, count in (*map(faults, tracked()), layers.faults(ROOT), changes.change_faults(text_of(changes.NAME))):
        found, looked = found + more, looked + count
    return tally.report(found, looked, "nothing out of order")


if __name__ == "__main__":
    sys.exit(main())
