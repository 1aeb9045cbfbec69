"""The documents name only what is there.

Every name in a document's inline code stands somewhere in the repository outside the documents, every path in it is
there (but for the pages of the port, which have older names too), and every edit that the trace cites is one that the
gate tries, and the other way round. README's listings are the text of programs that the gate proves and runs, and
`first_use` has nothing that README doesn't list. What the claim imports from the rules is what docs/DECISIONS.md lists
as shared. Each session over lines has a relation of its own, as the trace says: the trait's default says nothing.

Usage: python3 -B -m tests.repository.docs

The last line printed is 'N passed, M failed', one count for each name and path in each document, for each must-fail
edit, for each of README's listings, for each line that it has to list, for each word that is shared, and for each
session.
"""

import re
import sys

from tests import ROOT
from tests.gate import tally

OF_THEN = re.compile(r"(PORT(-NAMES)?|DESIGN-PASS)\.md")  # what was changed: names as they were, beside those of today
DOCUMENTS = ("README.md", *(f"docs/{path.name}" for path in sorted((ROOT / "docs").glob("*.md")) if not OF_THEN.fullmatch(path.name)))
TEXTS = ("crates/**/*.rt", "crates/**/*.antt", "crates/*/std*", "crates/*/must-fail/*", "tests/**/*.py", "demo/*", "crates.txt",
         "Makefile")
INLINE_CODE = re.compile(r"`([^`\n]+)`")
NAME = re.compile(r"[A-Za-z][\w-]*")
PATH = re.compile(r"(?<![\w/.-])(?:[\w.-]+/)+[\w-]+\.(?:py|antt|rt|txt|md|edit)\b")  # from the root, or from crates/
LINK = re.compile(r"\]\(([^)#:]+)\)")
TOOLS = {"rt", "version", "make", "git", "omega"}  # programs, commands and tactics of the kit and the machine
PLACEHOLDERS = {"N", "F"}
MADE = "out"  # the folder of what `rt` makes of a crate
FIRST_USE = "crates/first_use/src/main.rt"
LISTED = (FIRST_USE, "crates/scan_loop/src/main.rt")
COMMAND = "make"  # what a listing of commands begins with
FRAME = {"mod print;", "fn main(rt: HostRuntime) {", "}"}  # lines of a program that README doesn't list
CLAIM = ("guarantee", "promises", "terminal_guarantee", "sheet_guarantee", "lots")
SHARED = re.compile(r"\*\*What does the claim share with the rules\?\*\*(.*?)\n\*\*", re.DOTALL)
# What the claim imports from a crate's definitions, but the types that the code declares
IMPORTED = re.compile(r"^use Rattle\.(?!std\.)(\w+)\.specs\.(?!declared)[\w.]+\.\{([^}]*)\}", re.MULTILINE)


def known_names():
    """Every name in the repository's texts, and every folder's and file's name."""
    names = set(TOOLS | PLACEHOLDERS)
    for pattern in TEXTS:
        for path in (each for each in ROOT.glob(pattern) if MADE not in each.relative_to(ROOT).parts):
            names.update(part for place in path.relative_to(ROOT).parts for part in NAME.findall(place))
            if path.is_file():
                names.update(NAME.findall(path.read_text(encoding="utf-8", errors="replace")))
    for document in DOCUMENTS:
        names.update(NAME.findall(document))
    return names


def unknown_names(document, names):
    """The names of a document that stand nowhere else, and how many it has."""
    cited = {name for code in INLINE_CODE.findall((ROOT / document).read_text(encoding="utf-8")) for name in NAME.findall(code)}
    return [f"{document}: `{name}` stands nowhere in the repository" for name in sorted(cited - names)], len(cited)


def missing_paths(document):
    """The paths of a document that aren't there, and how many it has; a path with a placeholder names no file."""
    code = " ".join(INLINE_CODE.findall((ROOT / document).read_text(encoding="utf-8")))
    cited = {path for path in PATH.findall(code) if not PLACEHOLDERS & set(path.split("/"))}
    missing = [path for path in sorted(cited) if not (ROOT / path).exists() and not (ROOT / "crates" / path).exists()]
    return [f"{document}: there is no `{path}`" for path in missing], len(cited)


def broken_links(document):
    """The links of a document to files that aren't there, and how many it has."""
    folder = (ROOT / document).parent
    cited = set(LINK.findall((ROOT / document).read_text(encoding="utf-8")))
    missing = [path for path in sorted(cited) if not (folder / path).exists()]
    return [f"{document}: the link to {path} leads nowhere" for path in missing], len(cited)
SESSION = re.compile(r"^impl\b[^\n]* LineSession<[^\n]* for \w+ \{\n(.*?)^\}", re.MULTILINE | re.DOTALL)
RELATION = "    ghost answers = {"


def edits():
    """Must-fail edits that the trace doesn't cite, or cites and aren't there; and how many there are in all."""
    there = {f"{path.parent.parent.name}/{path.stem}" for path in ROOT.glob("crates/*/must-fail/*.edit")}
    trace = "".join(path.read_text(encoding="utf-8") for path in (ROOT / "docs").glob("TRACE*.md"))
    cited = set(re.findall(r"\bedit (\w+/\w+)", trace))
    return [f"docs/TRACE: edit {name} is cited or there, and not both" for name in sorted(there ^ cited)], len(there | cited)


def code_of(text):
    """The lines of a text that aren't blank, without their indentation."""
    return [line.strip() for line in text.split("\n") if line.strip()]


def listings(text):
    """The indented blocks of a document, but those of commands, as lines without their indentation."""
    blocks = re.findall(r"(?:^    .*\n|^\n(?=    ))+", text, re.MULTILINE)
    return [code for code in map(code_of, blocks) if code and not code[0].startswith(COMMAND)]


def places_of(code, program):
    """The lines of a program that a listing is, by their places; none if it isn't a run of them."""
    many = len(code)
    return next((set(range(place, place + many)) for place in range(len(program) - many + 1) if program[place:place + many] == code), set())


def stale_listings(text, programs):
    """Listings that are no run of lines of a program, lines of the first program that none lists; how many of both."""
    found, listed, blocks = [], set(), listings(text)
    for code in blocks:
        places = [places_of(code, program) for program in programs]
        listed |= places[0]
        if not any(places):
            found.append(f"README.md: no program has the listing that begins with {code[0]}")
    wanted = [(place, line) for place, line in enumerate(programs[0]) if line not in FRAME and not line.startswith("//")]
    found += [f"README.md: doesn't list {line}, of {FIRST_USE}" for place, line in wanted if place not in listed]
    return found, len(blocks) + len(wanted)


def unlisted_words():
    """Words that the claim imports from the rules and the decisions don't list as shared; and how many it imports."""
    listed = {name for code in INLINE_CODE.findall(SHARED.search((ROOT / "docs/DECISIONS.md").read_text(encoding="utf-8")).group(1))
              for name in re.findall(r"[\w◌'-]+", code)}
    texts = [path.read_text(encoding="utf-8") for crate in CLAIM for path in (ROOT / "crates" / crate / "specs").glob("*.antt")]
    words = {name.split(" as ")[0].strip() for text in texts for crate, names in IMPORTED.findall(text) if crate not in CLAIM
             for name in names.split(",")}
    return [f"docs/DECISIONS.md: doesn't list `{word}` as shared" for word in sorted(words - listed)], len(words)


def silent_sessions(texts):
    """Sessions, in the crates' texts by name, that have no relation of their own; and how many sessions there are."""
    sessions = [(name, body) for name, text in texts.items() for body in SESSION.findall(text)]
    return [f"{name}: its session doesn't say what its lines come to" for name, body in sessions if RELATION not in body], len(sessions)


def main():
    found, looked = edits()
    sources = {str(path.relative_to(ROOT)): path.read_text(encoding="utf-8") for path in ROOT.glob("crates/*/src/**/*.rt")}
    for more, count in (unlisted_words(), silent_sessions(sources)):
        found, looked = found + more, looked + count
    more, count = stale_listings((ROOT / "README.md").read_text(encoding="utf-8"),
                                 [code_of((ROOT / path).read_text(encoding="utf-8")) for path in LISTED])
    found, looked = found + more, looked + count
    names = known_names()
    for document in DOCUMENTS:
        for more, count in (unknown_names(document, names), missing_paths(document), broken_links(document)):
            found, looked = found + more, looked + count
    return tally.report(found, looked, "every name is there")


if __name__ == "__main__":
    sys.exit(main())
