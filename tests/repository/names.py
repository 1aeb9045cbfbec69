"""Names are the field's words: no identifier, file or folder name has one of the retired words among its parts.

Usage: python3 -B -m tests.repository.names

Looked at are the identifiers of crates (Rattle and antt, without comments, texts and what is taken from the kit's
modules), tests and demo, and the name of every file and folder.  A name's parts are those of snake_case, camelCase and
hyphenated names.  The last line printed is 'N passed, M failed', one count for each name in each file and each path.
"""

import io
import re
import sys
import tokenize

from tests.gate import tally
from tests.repository.files import text_of, tracked

# Not among them, since the checker generates fields of these names: left, taken
RETIRED = frozenset("""bearer carried decline declined declines handed judge judged judges laid lay lays lent
marks mend mended mending mends reckon reckoned reckoner reckoning reckons said say says shown spell spelled spells
unsaid""".split())
PART = re.compile(r"[A-Z]+(?![a-z])|[A-Z]?[a-z]+")
TEXT = r'"(?:[^"\\\n]|\\.)*"'
KIT = r"^use (?!Rattle\.(?!std\.)).*"  # the kit's own names, which a file may have to take
COMMENTS_AND_TEXTS = {"rt": re.compile(r"//.*|b?" + TEXT), "antt": re.compile(rf"--.*|{KIT}|{TEXT}", re.MULTILINE),
                      "show": re.compile(r"#.*|'[^'\n]*'|" + TEXT)}
IDENTIFIER = re.compile(r"[^\W\d](?:[\w']|-(?=\w))*")


def retired_in(name):
    """The retired words among the parts of a name."""
    return sorted(RETIRED & {part.lower() for part in PART.findall(name)})


def identifiers(name, text):
    """The identifiers in a file of this name: of Python the names, else all words outside comments and texts."""
    kind = re.split(r"[./]", name)[-1]
    if kind == "py":
        tokens = tokenize.generate_tokens(io.StringIO(text).readline)
        return {token.string for token in tokens if token.type == tokenize.NAME}
    if kind in COMMENTS_AND_TEXTS:
        return set(IDENTIFIER.findall(COMMENTS_AND_TEXTS[kind].sub(" ", text)))
    return set()


def main():
    faults, looked = [], 0
    for name in tracked():
        looked += 1
        words = retired_in(name)
        faults += [f"{name}: the path has the retired word{'s' if words[1:] else ''} {', '.join(words)}"] if words else []
        found = identifiers(name, text_of(name)) if name.startswith(("crates/", "tests/", "demo/")) else set()
        looked += len(found)
        faults += [f"{name}: {each} has the retired word {', '.join(retired_in(each))}" for each in sorted(found) if retired_in(each)]
    return tally.report(faults, looked, "no retired word")


if __name__ == "__main__":
    sys.exit(main())
