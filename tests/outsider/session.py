"""A program outside the library answers lines by a session of its own, which says nothing of its answers.

Usage: python3 -B -m tests.outsider.session

The program has no proof and no relation between a line and its answer. It is a crate of a temporary repository, beside
copies of the crates that it uses, and `rt ci` judges it: it is proved, and writes what it should. The last line printed
is 'N passed, M failed'.
"""

import pathlib
import subprocess
import sys
import tempfile

from tests.gate import tally
from tests.outsider.repository import repository

NAME = "outsider_session"
USED = ("integers", "numerals", "formatting", "lines")
PROGRAM = """#![tactic(auto)]

use formatting::Text;
use lines::answering::LineSession;
use std::io::Write;

#[derive(Drop)]
struct Numbered {
    number: u64,
}

impl<const L: usize, const N: usize> LineSession<L, N> for Numbered {
    fn answer<W: Write>(&mut self, writer: &mut W, line: &Text<L>, out: &mut Text<N>) {
        self.number = self.number.wrapping_add(1);
        lines::room(writer, out);
        out.push_decimal(self.number);
        out.push(b' ');
        out.push_all(line.as_slice());
        out.push(b'\\n');
    }
}

fn main(rt: HostRuntime) {
    let mut line = Text::<80>::new();
    let mut session = Numbered { number: 0 };
    lines::answering::answer_lines(&mut rt.stdin(), &mut rt.stdout(), &mut session, &mut line);
}
"""
INPUT = "a line\n\nthe last"
OUTPUT = "1 a line\n2 \n3 the last\n"


def program(folder):
    """The crate: its source, its input, and what it should write."""
    (folder / "src").mkdir(parents=True)
    for name, text in (("src/main.rt", PROGRAM), ("stdin", INPUT), ("stdout", OUTPUT)):
        (folder / name).write_text(text, encoding="utf-8")


def main():
    with tempfile.TemporaryDirectory() as path:
        folder = pathlib.Path(path)
        repository(folder, USED, [NAME])
        program(folder / "crates" / NAME)
        run = subprocess.run(["rt", "ci"], cwd=folder, stdin=subprocess.DEVNULL, stdout=subprocess.PIPE, stderr=subprocess.STDOUT,
                             text=True, errors="replace", check=False)
    faults = [] if run.returncode == 0 else [run.stdout]
    return tally.report(faults, 1, "lines are answered by a session that says nothing of its answers")


if __name__ == "__main__":
    sys.exit(main())
