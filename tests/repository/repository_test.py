"""Tests of the checks of names, line lengths, imports, listings, layers and changes: what they must find, and what they
must not.

Usage: python3 -B -m tests.repository.repository_test

The last line printed is 'N passed, M failed'.
"""

import sys

from tests.gate import tally
from tests.repository.changes import change_faults
from tests.repository.docs import silent_sessions, stale_listings
from tests.repository.imports import idle_imports
from tests.repository.layers import crates_named, layer_faults, picture_faults
from tests.repository.line_lengths import too_long_lines
from tests.repository.names import identifiers, retired_in

RATTLE = 'pub fn reckon_it(x: u8) -> u8 { print(b"carried"); x } // said'
SPECIFICATION = ('-- marks\nuse denote.Walked.{says}\nuse Rattle.std.specs.said\nuse Rattle.said\nleft-unsaid : Lent.Buffer\n'
                 'left-unsaid = "shown"')
PYTHON = '"""Said."""\nshown_by = layout.display  # lent\nlay = "marks"\n'
# A name, and the retired words in it
NAMES = (("sameMarks", ["marks"]), ("with_marks_shown", ["marks", "shown"]), ("MENDED", ["mended"]), ("re-reckoned", ["reckoned"]),
         ("limit_mended.edit", ["mended"]), ("display", []), ("layout", []), ("remarks", []), ("taken", []), ("excellent", []))
# A file's name, its text, and the numbers of its lines that are too long
TEXTS = (("a.py", "# " + "word " * 24, [1]), ("a.py", "x = [" + "1, " * 46 + "]", [1]), ("a.py", "x = [" + "1, " * 40 + "]", []),
         ("a.py", f'def f():\n    """{"word " * 24}"""', [2]), ("a.py", f'def f():\n    return "{"word " * 24}"', []),
         ("a.rt", "// " + "word " * 24, [1]), ("a.rt", "x" * 150, []), ("a.antt", "f : " + "ℕ → " * 34 + "ℕ", [1]),
         ("a.antt", "f : " + "ℕ → " * 33 + "ℕ", []), ("a.antt", "-- " + "word " * 24, [1]), ("a.edit", "word " * 40, []),
         ("demo/show", "# " + "word " * 24, [1]), ("crates.txt", "a: " + "word " * 40, []), ("crates.txt", "# " + "word " * 24, [1]),
         ("crates/worked/specs/ModelCalls.antt", "word " * 40, []), ("a.py", "# http://" + "a" * 140, []),
         ("a.md", "word " * 25, [1]), ("a.md", "| " + "cell " * 40, []), ("a.md", "    " + "code " * 40, []),
         ("a.md", "- " + "a" * 140, []),
         ("a.md", "- item\n    " + "word " * 25, [2]), ("a.md", "```\n" + "code " * 40 + "\n```\n" + "word " * 25, [4]))
# A text, and the names that it imports in vain
IMPORTS = (("use a.{b, c, ◌+◌, ◌*◌}\nb : d + e", ["c", "◌*◌"]), ("use a.{b}\nuse a.{b}\nb : b", ["b"]), ("use a.{b}\n-- b", ["b"]),
           ("use a.{b}\nuse c.{b}\nb : b", []), ("use a.{b as c}\nb", ["c"]), ("use a.{b as c}\nc", []), ("use a as m\nm.b", []),
           ("use a as m\nb", ["m"]), ("use a.{b-c, if◌then◌else◌}\nb\nif x then y else z", ["b-c"]), ("use a.{b}\nb-c", ["b"]),
           ("ghost use a.{b, c};\nfn f() // c\nb", ["c"]), ("use a.{◌+◌ as ◌plus◌}\nx plus y", []), ("use a.{◌+◌}\nf ◌+◌", []),
           ("use a.{b}\nb'", ["b"]))
# A document's text, a program's lines, and how many faults there are: listings that no program has, lines not listed
LISTINGS = (("Text\n\n    let a = 1;\n\n    f(a);\n\nmore\n", ["let a = 1;", "f(a);"], 0), ("    make run\n", [], 0),
            ("    let a = 1;\n", ["fn main(rt: HostRuntime) {", "let a = 1;", "}"], 0), ("    let a = 2;\n", ["let a = 1;"], 2),
            ("    let a = 1;\n", ["let a = 1;", "f(a);"], 1), ("    f(a);\n    f(b);\n", ["f(a);", "// why", "f(b);"], 3),
            ("    f(a);\n\ntext\n\n    f(b);\n", ["f(a);", "// why", "f(b);"], 0))

# Layers that are as they must be; what stands in place of a part of them, and what must be found then
CRATES = """# Five layers. Each line: a crate and what it depends on
# Arithmetic: numbers
integers:
terms: integers

# The rules: of a scan
signals: integers
modes: integers signals terms

# The calls: a host's
controller: integers modes

# The claims: of the calls
guarantee: integers controller
promises: guarantee controller

# The programs: tools
text: integers
console: controller text io libc
"""
LAYERS = (
    ("", "", ""), ("integers:\n", "integers: signals\n", "integers, of arithmetic, depends on signals, of the higher layer the rules"),
    ("terms: integers", "terms: integers console", "terms, of arithmetic, depends on console, of the higher layer the programs"),
    ("modes: integers", "modes: integers controller", "modes, of the rules, depends on controller, of the higher layer the calls"),
    ("controller: integers", "controller: guarantee", "controller, of the calls, depends on guarantee, of the higher layer the claims"),
    ("promises: guarantee", "promises: text", "promises, of the claims, depends on text, of the higher layer the programs"),
    ("console: controller", "console: guarantee", "console, a program's, depends on the claim guarantee"),
    ("text: integers", "text: integers console", ""), ("text: integers", "text staticlib: integers", ""),
    ("# Arithmetic: numbers\nintegers:", "integers:\n# Arithmetic: numbers", "in no layer"),
    ("# The calls: a host's\n", "", "its layers are arithmetic, the rules, the claims, the programs"),
    ("# The claims: of the calls", "# The programs: more", "its layers are arithmetic, the rules, the calls, the programs, the programs"),
    ("# The programs: tools", "# Programs", "its layers are"),
    ("# The rules: of a scan", "# The rules: of a scan\n# The rules: more", "its layers are"),
    ("text: integers", "text: integres", "text depends on integres, which isn't listed"),
    ("text: integers", "text : integers\tguarantee # a note", "text, a program's, depends on the claim guarantee"),
    ("promises: guarantee controller", "promises guarantee", "'promises guarantee' is no crate's line"))
PICTURE = """<!-- layers -->
```
arithmetic     integers  terms
    │
the rules      signals*
               modes
    ├──► the calls      controller*
    ├──► the claims     guarantee  promises
    └──► the programs   text
                        console
```
<!-- end of layers -->
arithmetic of the text behind it
"""
PICTURES = (
    ("", "", []), ("modes\n", "\n", ["no modes in the rules"]), ("  modes", "", ["no modes in the rules"]),
    ("  terms", "  terms  modes", ["modes in arithmetic, which"]), ("  text\n", "  text  text\n", ["text in the programs, which"]),
    ("signals*", "signals", ["no signals* in the rules", "signals in the rules, which"]),
    ("console\n", "console*\n", ["no console in the programs", "console* in the programs, which"]),
    ("arithmetic     integers", "integers", ["no integers in arithmetic", "no terms in", "integers in None", "terms in None"]),
    ("console\n", "console  calculator\n", ["calculator in the programs, which"]), ("<!-- end of layers -->", "", ["no "] * 9))
# A program's text, and the crates that it names
HOSTS = (("use signals::Input;\nuse modes::clock::At;", {"signals", "modes"}),
         ("ghost use signals::A;\n// modes::b\nf(b\"terms::\")", set()),
         ("let a = controller::Controller::fresh(0);\nlet b = text::signals::c(modes.x);", {"controller", "text"}),
         ("use io::print;\nmod modes;\nuse std::num;", set()))
# A program's text, and how many of its sessions say nothing of their lines
SESSIONS = (("impl<const L: usize> LineSession<L, 9> for Session {\n    ghost answers = { Performed };\n}\n", 0),
            ("impl<const L: usize> LineSession<L, 9> for Session {\n    fn answer(&mut self) {\n    }\n}\n", 1),
            ("impl Other<9> for Session {\n}\n", 0))
# A document of changes, and how many faults there are
CHANGES = (("# Changes\n\n" + "word\n" * 40 + "## One\n" + "word\n\n" * 30, 0), ("## One\n" + "word\n" * 31, 1),
           ("## One\n" + "word\n" * 30 + "## Two\n" + "word\n" * 30, 0), ("## One\n" + "word\n" * 31 + "## Two\n" + "word\n" * 31, 2),
           ("## One\n### Part\n" + "word\n" * 30, 1), ("## One\n| " + "cell " * 24 + "|\n", 1), ("## One\n" + "a" * 120, 0),
           ("## One\n" + "a" * 121, 1), ("word\n", 1))


def layer_results():
    """The same for layers, for their picture, for changes and for sessions."""
    for part, wrong, expected in LAYERS:
        found, _ = layer_faults(CRATES.replace(part, wrong))
        is_found = len(found) == bool(expected) and expected in "".join(found)
        yield part in CRATES and is_found, f"layers, {wrong!r}: {found}"
    for part, wrong, expected in PICTURES:
        found, _ = picture_faults(PICTURE.replace(part, wrong), CRATES, {"signals", "controller"})
        is_found = len(found) == len(expected) and all(text in fault for text, fault in zip(expected, found))
        yield part in PICTURE and is_found, f"picture, {wrong!r}: {found}"
    for text, expected in HOSTS:
        found = crates_named(text, ("signals", "modes", "terms", "controller", "text"))
        yield found == expected, f"{text!r}: {found}"
    for text, expected in CHANGES:
        found, _ = change_faults(text)
        yield len(found) == expected, f"{text[:20]!r}..: {found}"
    for text, expected in SESSIONS:
        found, _ = silent_sessions({"main.rt": text})
        yield len(found) == expected, f"{text!r}: {found}"


def results():
    """Whether each is found as it must be, and what was found."""
    yield from layer_results()
    for name, words in NAMES:
        yield retired_in(name) == words, f"{name}: {retired_in(name)}"
    for name, text, expected in (("a.rt", RATTLE, {"reckon_it"}), ("a.antt", SPECIFICATION, {"said", "left-unsaid", "Lent"}),
                                 ("a.py", PYTHON, {"shown_by", "lay"})):
        found = {each for each in identifiers(name, text) if retired_in(each)}
        yield found == expected, f"{name}: {found}"
    for text, expected in IMPORTS:
        found = [name for _, name in idle_imports(text)]
        yield found == expected, f"{text!r}: {found}"
    for text, program, expected in LISTINGS:
        found, _ = stale_listings(text, [program])
        yield len(found) == expected, f"{text!r}: {found}"
    for name, text, expected in TEXTS:
        found = [number for number, _ in too_long_lines(name, text.split("\n"))]
        yield found == expected, f"{name}, {text[:20]!r}..: lines {found}"


def main():
    found = list(results())
    return tally.report([text for is_right, text in found if not is_right], len(found), "all is found")


if __name__ == "__main__":
    sys.exit(main())
