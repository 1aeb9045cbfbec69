"""What the gate's own tests run the gate on: a small repository with an `rt` of its own, and a terminal.

That `rt` is a script, which prints what a test gives it, lines as the true one prints them among it. What the true one
makes of a repository that it must fail is tested in `tests/gate/gate_test.py`.
"""

import contextlib
import io
import os
import pathlib
import pty
import re
import tempfile
import threading
from unittest import mock

from tests.gate import gate, progress

EDIT = "file: src/lib.rt\nold: x\nnew: 0\n"
# Two libraries, a program over them, and an edit of each library
FILES = {
    "crates.txt": "# Lowest first: a line for each\nquick:\nslow staticlib: # alone\nprogram: quick slow\n",
    "crates/quick/src/lib.rt": "",
    "crates/quick/must-fail/turned.edit": EDIT,
    "crates/slow/src/lib.rt": "",
    "crates/slow/must-fail/lost.edit": EDIT,
    "crates/program/src/main.rt": "",
}
# What `rt ci` prints over them where all is right, from the proofs on, and what `rt all test` does
PROVED = """\
== quick
fn quick::f: proved
logic=proved functions=1
rt: quick proved
rt: quick: trying its must-fail edits (1)
== slow
logic=proved functions=1
rt: slow proved
rt: slow: trying its must-fail edits (1)
== program
rt: program proved
"""
REFUSED = """\
rt: must-fail quick/turned.edit: refused, as it must be: ./proofs/f/Answers.antt:8:13: error: `returns`: expected type
rt: must-fail slow/lost.edit: refused, as it must be
"""
RAN = """\
rt: program ran, and wrote what its file stdout has
rt: program ran (built by Rattle's own compiler), and wrote what its file stdout has
"""
OK = """\
rt: ok; handles allowed: none; must-fail edits: 2 refused; every proof and must-fail edit was done in this run
5 passed, 0 failed
"""
ALL_OK = """\
rt: chose 2 at a time
== quick
fn quick::f: proved
== slow
== program
rt: the program wrote what the file `stdout` has, and ended with status 0
== summary
quick: ok
slow: ok
program: ok
3 of 3 crates ok
"""


def printing(text, status=0):
    """A script that prints this text and ends so."""
    return f"cat <<'END'\n{text}END\nexit {status}\n"


def write(root, files):
    """Writes files, given by their names and their texts, below a folder."""
    for name, text in files.items():
        (root / name).parent.mkdir(parents=True, exist_ok=True)
        (root / name).write_text(text, encoding="utf-8")


@contextlib.contextmanager
def repository(script, changes=()):
    """A folder with the files above, some changed, where `rt` is this script."""
    with tempfile.TemporaryDirectory() as folder, tempfile.TemporaryDirectory() as programs:
        write(pathlib.Path(folder), FILES | dict(changes))
        write(pathlib.Path(programs), {"rt": f"#!/bin/sh\n{script}"})
        pathlib.Path(programs, "rt").chmod(0o755)
        with mock.patch.dict(os.environ, PATH=f"{programs}:{os.environ['PATH']}"):
            yield pathlib.Path(folder)


def proofs_of(root):
    """What came of the gate's first step."""
    with progress.on_standard_output() as shows:
        return gate.run_proofs(gate.PROOFS, root, shows)


def results_of(steps, root, at_once=1):
    """What came of these steps, run as tests."""
    with progress.on_standard_output() as shows:
        return gate.run_tests(((steps, at_once),), root, shows)


def printed_by(function, *arguments, stream=None):
    """What the function returns, and what it prints to the stream, which is no terminal."""
    stream = stream or io.StringIO()
    with contextlib.redirect_stdout(stream):
        return function(*arguments), stream.getvalue()


def printed_on_terminal(function, *arguments, **environment):
    """What the function prints where the output is a terminal, with these variables of the environment."""
    master, slave = pty.openpty()
    received = []

    def receive():
        with contextlib.suppress(OSError):  # the end of what is written to a terminal is an error to its reader
            while part := os.read(master, 4096):
                received.append(part)

    reader = threading.Thread(target=receive)
    reader.start()
    with mock.patch.dict(os.environ, {"TERM": "xterm", "CI": "", "COLUMNS": "100", **environment}):
        with open(slave, "w", encoding="utf-8") as stream, contextlib.redirect_stdout(stream):
            function(*arguments)
    reader.join()
    os.close(master)
    return b"".join(received).decode().replace("\r\n", "\n")


def visible(printed):
    """The lines that stay on a terminal: what stands before the last erasing of a line is gone."""
    return [line.split("\r\x1b[K")[-1] for line in printed.split("\n")]


def untimed(printed):
    """The lines printed, without the figures of times."""
    return [re.sub(r"\d+ s\b", "N s", line) for line in printed.splitlines()]
