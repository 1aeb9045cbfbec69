"""Names that a file of Rattle or antt imports and doesn't use, or imports twice from one place; told from the text."""

import re

IMPORT = re.compile(r"^(?:ghost )?use ([^{;]*)\.\{([^}]*)\};?\s*$")
WHOLE = re.compile(r"^use (\S+) as (\S+)\s*$")
HOLE = "◌"  # where an operator's argument stands
COMMENT = re.compile(r"(?:--|//).*")


def is_used(name, body):
    """Whether a name stands in what isn't an import; of an operator, whether all its parts do."""
    if HOLE in name:
        return name in body or all(part in body for part in name.split(HOLE) if part)
    return re.search(rf"(?<![\w'-]){re.escape(name)}(?![\w'-])", body) is not None


def imported(lines):
    """Each import's line number, its place, and the name that it gets here."""
    for number, line in enumerate(lines, 1):
        several, whole = IMPORT.match(line), WHOLE.match(line)
        if several:
            for name in several.group(2).split(","):
                yield number, several.group(1), name.split(" as ")[-1].strip()
        elif whole:
            yield number, whole.group(1), whole.group(2)


def idle_imports(text):
    """Pairs of a line number and a name that is imported there in vain: it isn't used, or was imported so before."""
    lines = text.split("\n")
    body = "\n".join(COMMENT.sub("", line) for line in lines if not IMPORT.match(line) and not WHOLE.match(line))
    found, seen = [], set()
    for number, place, name in imported(lines):
        if (place, name) in seen or not is_used(name, body):
            found.append((number, name))
        seen.add((place, name))
    return found
