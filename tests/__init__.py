"""The tests: one package, run from the repository's root, for example `python3 -B -m tests.gate.gate`."""

import pathlib

ROOT = pathlib.Path(__file__).resolve().parent.parent  # the repository's
