"""How long lines may be: code at most 140 columns, prose at most 120, counted in characters.

Prose is comment lines, docstrings, and the documents apart from table rows and code blocks.  A line of one word, a URL
for instance, can't be broken and may be longer; so may a crate's line of crates.txt, since `rt` takes one to a crate,
and a line of docs/PORT.md that begins with a commit's whole name, since those are never rewritten.
"""

import ast
import pathlib
import re

MOST_CODE_COLUMNS, MOST_PROSE_COLUMNS = 140, 120
COMMENT = {".rt": "//", ".antt": "--", ".py": "#", ".txt": "#", "show": "#", "Makefile": "#"}  # by suffix, or by the name
# The statements are written by a program; their proofs are one `refl` each in nested pairs, and `rt fmt` would lay each
# pair out one level deeper than the one before.
GENERATED = re.compile(r"crates/worked/(?:specs|proofs)/Model\w*\.antt")
COMMIT_LINE = re.compile(r"\w+: [0-9a-f]{40}\b")
LIST_ITEM = re.compile(r"(?:[-*+]|\d+\.) +")


def too_long_lines(name, lines):
    """Number and columns of each line that is too long; none in files of other kinds."""
    path = pathlib.PurePath(name)
    kind = path.suffix or path.name
    if kind == ".md":
        prose = prose_of_document(lines)
    elif kind in COMMENT and not GENERATED.fullmatch(name):
        prose = comments(lines, COMMENT[kind]) | (docstrings("\n".join(lines)) if kind == ".py" else set())
    else:
        return []
    limits = ((number, line, MOST_PROSE_COLUMNS if number in prose else MOST_CODE_COLUMNS) for number, line in enumerate(lines, 1)
              if number in prose or (kind != ".md" and name != "crates.txt"))
    return [(number, len(line)) for number, line, most in limits if len(line) > most and can_be_broken(line, COMMENT.get(kind, ""))]


def can_be_broken(line, comment):
    """Whether there is a blank between two words, behind the comment's sign or the list item's."""
    if COMMIT_LINE.match(line):
        return False
    text = line.strip().removeprefix(comment).lstrip() if comment else LIST_ITEM.sub("", line.strip(), count=1)
    return " " in text.strip()


def comments(lines, sign):
    """Numbers of the lines that are a comment from their first character on."""
    return {number for number, line in enumerate(lines, 1) if line.lstrip().startswith(sign)}


def docstrings(text):
    """Numbers of the lines of all docstrings."""
    kinds = ast.Module, ast.ClassDef, ast.FunctionDef
    first = (node.body[0] for node in ast.walk(ast.parse(text)) if isinstance(node, kinds) and node.body)
    strings = (each for each in first if isinstance(each, ast.Expr) and isinstance(each.value, ast.Constant)
               and isinstance(each.value.value, str))
    return {number for each in strings for number in range(each.lineno, each.end_lineno + 1)}


def prose_of_document(lines):
    """Numbers of the lines that are neither a table row nor in a code block.

    A code block is fenced, or indented by four behind an empty line.
    """
    prose, is_fenced, is_code, was_empty = set(), False, False, True
    for number, line in enumerate(lines, 1):
        text = line.strip()
        is_code = is_fenced or line.startswith("    ") and (was_empty or is_code) or not text and is_code
        if text.startswith("```"):
            is_fenced, is_code = not is_fenced, True
        if not is_code and not text.startswith("|"):
            prose.add(number)
        was_empty = not text
    return prose
