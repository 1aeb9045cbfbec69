#!/usr/bin/env python3
"""Spells the project's own definitions, lemmas and fields as today's Rattle does: words in snake case.

usage: python3 tools/respell.py [FOLDER]

FOLDER has crates/, and is this repository by default. respell.tsv, beside this file, has a line for each name: the
name as it was, and as it is now. Names of the sources, of the library and of modules stay. It is run once, right after
the kit's own script; a second run would take a few names for older ones.
"""

import glob
import os
import re
import sys

HERE = os.path.dirname(os.path.realpath(__file__))
WORD = re.compile(r"[^\s(){}.;,@\"«»\[\]\\:]+")
IMPORT = re.compile(r"^(\s*(?:pub |ghost )?use )([^{]*)(.*)$", re.S)


def names():
    with open(os.path.join(HERE, "respell.tsv"), encoding="utf-8") as table:
        return dict(line.rstrip("\n").split("\t") for line in table)


def turned(text, table):
    """The words of a text, but for one in snake case that stands after a dot: that one may be a name of the sources."""

    def one(found):
        word = found.group()
        after_dot = found.start() > 0 and text[found.start() - 1] == "."
        if after_dot and "-" not in word and word == word.lower():
            return word
        return table.get(word, word)

    return WORD.sub(one, text)


def of_proofs(text, table):
    lines = []
    for line in text.split("\n"):
        found = IMPORT.match(line)
        if found:
            path, rest = found.group(2), found.group(3)
            if " as " in path:
                before, name = path.split(" as ")
                path = before + " as " + turned(name, table)
            line = found.group(1) + path + turned(rest, table)
        else:
            line = turned(line, table)
        lines.append(line)
    return "\n".join(lines)


def of_sources(text, table):
    """In a source only what no name of Rust's can be: a capital after a small letter, or a dash."""
    ghostly = {old: new for old, new in table.items() if re.search("[A-Z]", old) or "-" in old}
    lines = []
    for line in text.split("\n"):
        found = IMPORT.match(line)
        if found and line.lstrip().startswith("ghost"):
            line = found.group(1) + found.group(2) + turned(found.group(3), ghostly)
        elif not found:
            line = turned(line, ghostly)
        lines.append(line)
    return "\n".join(lines)


def main(top):
    table = names()
    changed = 0
    for path in sorted(glob.glob(os.path.join(top, "crates", "*", "**", "*"), recursive=True)):
        turn = of_proofs if path.endswith(".antt") else of_sources if path.endswith(".rt") else None
        if turn is None:
            continue
        with open(path, encoding="utf-8") as it:
            text = it.read()
        new = turn(text, table)
        if new != text:
            with open(path, "w", encoding="utf-8") as it:
                it.write(new)
            changed += 1
    print(f"respell: {changed} files")


if __name__ == "__main__":
    main(sys.argv[1] if len(sys.argv) > 1 else os.path.dirname(HERE))
