"""Counts, at a commit or in the working tree, the places that docs/DESIGN-PASS.md speaks of.

    python3 -B tools/places.py [COMMIT] [--list]

Each point has patterns of its own; --list prints every place that one of them finds, with its file and line.
"""

import re
import subprocess
import sys
from collections import Counter, defaultdict
from pathlib import Path

ROOT = Path(__file__).resolve().parent.parent
# Lines of src/, without comments, by point: what the pattern finds
LINES = {
    "1 own cases for a missing value or a refusal":
        r"^    (None|Malformed|NoCall|Terminal|Invalid|Full|NoMnemonic|NoValue|Refused\(.*\)),$",
    "1 a flag beside a value": r"^    (pub )?(ok|complete|more|validity|entry): ",
    "1 a number for a case": r"fn number\(self\) -> u8|_ => 16,|^        return 0;$|== 16 |\.number\(\)",
    "3 a loop that counts by hand": r"^\s*while ",
    "4 a comparison, choice or conversion by hand":
        r"fn (negative|magnitude|less|not_above|choose|plus|minus|sum|times|wide|narrow|as_word|from_word|at_least|at_most"
        r"|least|kept|same|is_(track|remote|ratio)|capital|sum_of_four)\(",
    "4 a match that gives each case of an enum its number or its name":
        r"fn (number|place|name_row|name_length|append_mode|is_word_of|mode_or|request_number|fault_number)\(",
    "6 a buffer with its length beside it": r"(out|line|bytes|buffer): &(mut )?\[u8\], (used|len|count): usize",
    "6 several lines of such parameters": r"^    (len|used): usize,$",
    "6 an array with its count beside it": r"values: \[i64; 6\]",
    "7 a chain of tests that chooses what is done": r"text::arguments::is_call\(|if text::same\(|if word == b\"",
}
FACT = re.compile(r"\b([A-Z]\w+|start ≤ length \w+\.now|1 ≤ number|most ≤ 18|9 ≤ length \w+\.old)\b")


def git(*words):
    return subprocess.run(["git", *words], cwd=ROOT, check=True, capture_output=True, text=True).stdout


def listed_at(commit, pattern):
    return [name for name in git("ls-tree", "-r", "--name-only", commit, "crates").split() if re.fullmatch(pattern, name)]


def files(commit):
    """The sources by path."""
    if commit is None:
        paths = sorted(ROOT.glob("crates/*/src/**/*.rt"))
        return {str(path.relative_to(ROOT)): path.read_text() for path in paths}
    return {name: git("show", f"{commit}:{name}") for name in listed_at(commit, r"crates/\w+/src/.*\.rt")}


def code(text):
    """The lines with no comment."""
    return [re.sub(r"//.*", "", line) for line in text.split("\n")]


def functions(sources):
    """Each function: its file, line, name, clauses and body."""
    for name, text in sources.items():
        lines = code(text)
        for at, line in enumerate(lines):
            start = re.match(r"(\s*)(?:pub )?(?:extern \"C\" )?fn (\w+)", line)
            if not start:
                continue
            end = next((i for i in range(at, len(lines)) if lines[i] == start.group(1) + "}"), at)
            body = next((i for i in range(at, end + 1) if lines[i].endswith("{")), at)
            yield name, at + 1, start.group(2), "\n".join(lines[at:body]), "\n".join(lines[body + 1:end])


def form(head, body):
    """A function without its names, numbers and texts."""
    text = re.sub(r"ensures.*|requires.*", "", head, flags=re.S) + body
    text = re.sub(r'b"[^"]*"|b\'[^\']*\'', "T", text)
    return re.sub(r"\s+", " ", re.sub(r"\b\d\w*\b", "0", re.sub(r"\b[A-Za-z_]\w*\b", "x", text))).strip()


def twins(sources):
    """Functions of three lines or more that differ in names, numbers and texts alone."""
    groups = defaultdict(list)
    for name, line, function, head, body in functions(sources):
        if len([row for row in body.split("\n") if row.strip()]) > 2:
            groups[form(head, body)].append((name, line, function))
    return [group for group in groups.values() if len(group) > 1]


def facts(sources):
    """Facts that stand in the contracts of three functions or more."""
    count = Counter()
    for _, _, _, head, _ in functions(sources):
        clauses = " ".join(re.findall(r"(?:requires|ensures)[^{]*\{(.*?)\}\s*(?=$|requires|ensures)", head, flags=re.S))
        count.update(set(FACT.findall(clauses)))
    return {fact: n for fact, n in count.items() if n > 2}


def answers(commit):
    """Answers to goals, and lines of proof files."""
    if commit is None:
        texts = [path.read_text() for path in ROOT.glob("crates/*/proofs/**/*.antt")]
    else:
        texts = [git("show", f"{commit}:{name}") for name in listed_at(commit, r"crates/\w+/proofs/.*\.antt")]
    goals = sum(len(re.findall(r"^pub [\w+-]+ : goal\.", text, flags=re.M)) for text in texts)
    return len(texts), goals, sum(text.count("\n") for text in texts)


def main(arguments):
    listed = "--list" in arguments
    commits = [word for word in arguments if word != "--list"]
    commit = commits[0] if commits else None
    sources = files(commit)
    for title, pattern in LINES.items():
        found = [(name, number) for name, text in sources.items() for number, line in enumerate(code(text), 1) if re.search(pattern, line)]
        print(f"{len(found):5} {title}")
        for place in found if listed else ():
            print("       {}:{}".format(*place))
    groups = twins(sources)
    print(f"{sum(map(len, groups)):5} 2 functions alike but for names, numbers and texts, in {len(groups)} groups")
    for group in groups if listed else ():
        print("       " + ", ".join(f"{name}:{line} {function}" for name, line, function in group))
    for fact, n in sorted(facts(sources).items(), key=lambda pair: -pair[1]):
        print(f"{n:5} 5 contracts that say {fact}")
    print("{:5} 8 proof files, with {} answers in {} lines".format(*answers(commit)))


if __name__ == "__main__":
    main(sys.argv[1:])
