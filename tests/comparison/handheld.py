"""Compare the answers of `handheld`, line by line, with the model: lines as a mechanic types them, lines that bring the
plant's pins, and lines that tell who types.

Usage: python3 -B -m tests.comparison.handheld [--seed N] PROGRAM

The last line printed is "N passed, M failed": one count for each answer, for each run of the program, for each whole
input, for each thing that the lists must meet, and for each line of which the model is looked at alone: what it leaves
of the buffer.
"""

import argparse
import random
import sys

from demo.visit import read_visit
from tests import ROOT
from tests.comparison.program import PROGRAM_SECONDS, run, run_in_pieces
from tests.coverage.handheld import LEAST, counts_of
from tests.gate import tally
from tests.lists import handheld as handheld_lists
from tests.lists.terminal import TerminalSource
from tests.model import loop
from tests.model.handheld import answers_to, typed_lines
from tests.model.rights import WRITERS
from tests.model.state import Stored
from tests.model.terminal import answer_line

DEFAULT_SEED = 6360
BUFFERS = 3000
DIFFERENCES_PRINTED, LINES_BEFORE, COUNTS_PRINTED = 5, 10, 40
# Worked by hand, from the controller that is fresh with SW 0 and the operator
WHO = b"who engineer\n"
WHOLE_INPUTS = (
    (b"", b""), (b"\n", b"? 17 no mnemonic\n"), (b"\n\n", b"? 17 no mnemonic\n" * 2), (b"XP", b"XP>1000\n"), (b"XP\n", b"XP>1000\n"),
    (b"XP\nXP", b"XP>1000\nXP>1000\n"), (b"X\nP", b"? 17 no mnemonic\n" * 2), (b"XP\r\n", b"? 18 no value\n"),
    (b"\r", b"? 17 no mnemonic\n"), (b"XP\0", b"? 18 no value\n"),
    (b"\0", b"? 17 no mnemonic\n"), (b"\xff", b"? 17 no mnemonic\n"), (WHO + b"XP>00500\nXP", b"ok\nXP>500\nXP>500\n"),
    (WHO + b"xp\nXP>\nXP>0\nPV>1\n1L>1000\nMD>0000\nMD>0800\nSL>1001\n",
     b"ok\n? 17 no mnemonic\n? 18 no value\n? 6 out of range\n? 5 read only\n? 7 pair out of order\n? 9 request bits\n? 10 Remote pin\n"
     b"? 6 out of range\n"),
    (b"who engineer\nMD\nMD>1010\nDS>00C0\nSW\nSW>0001\nSW>1\nII\n",
     b"ok\nMD>2000\nMD>1010\nDS>80FF\nSW>0000\n? 5 read only\n? 18 no value\nII>3608\n"),
    *((b"XP>".ljust(length, b"0") + end, b"? 18 no value\n") for length in (300, 301, 302, 5000) for end in (b"", b"\n")),
    *((b"xp".ljust(length, b"0") + b"\nXP", b"? 17 no mnemonic\nXP>1000\n") for length in (300, 301, 302, 5000)),
    (b"XP>5" + b" " * 296 + b"\nXP", b"? 18 no value\nXP>1000\n"), (b"XP>5" + b" " * 297 + b"\nXP", b"? 18 no value\nXP>1000\n"),
    (b"pins 0\nMD>1000\npins 128\nMD\n", b"ok\nMD>8000\nok\nMD>1000\n"), (b"pins 0", b"ok\n"), (b"pins 0\nDS", b"ok\nDS>001F\n"),
    *((b"pins %b\nDS" % text, b"ok\nDS>%b\n" % word) for text, word in (
        (b"-0", b"001F"), (b"007", b"071F"), (b"128", b"801F"), (b"255", b"FF3F"), (b"0" * 15 + b"255", b"FF3F"),
        (b"-" + b"0" * 18, b"001F"))),
    *((b"%b\nDS" % line, b"? 17 no mnemonic\nDS>801F\n") for line in (
        b"pins 256", b"pins -1", b"pins  1", b"pins", b"pins ", b"pins 1 ", b" pins 1", b"Pins 1", b"PINS 1", b"pins x", b"pins +1",
        b"pins 1\r", b"pins\t1", b"pins " + b"0" * 18 + b"1", b"pins 1 1", b"pins>1", b"pins 1" + b" " * 400)),
    # Track; Remote, where SL can't be written; Fall-back.  The Remote pin is bit 10 of MD
    (b"PV\npins 255\nMD\nPV\npins 176\nMD\nMD>0800\nDS\nSL>5\nSL>1001\npins 144\nMD\nSL>5\nMD>0800\npins 0\nMD>0800\n",
     b"PV>0\nok\nMD>4400\nPV>500\nok\nMD>2400\nMD>0C00\nDS>B02F\n? 8 setpoint\n? 6 out of range\nok\nMD>1000\nSL>5\n"
     b"? 10 Remote pin\nok\n? 10 Remote pin\n"),
    # In Auto PV goes from 500 to 250 of 500: 10,000,000 x 250 / (1000 x 500) units.  Track takes sample 3
    (WHO + b"MD>1000\npins 128\n1H>500\nOP\npins 128\nOP\npins 128\nOP\npins 192\nOP\n",
     b"ok\nMD>1000\nok\n1H>500\nOP>0\nok\nOP>5000\nok\nOP>5000\nok\nOP>0\n"),
    # In Auto 10,000,000 x 500 x 9 / (1000 x 1000 x 25 x 100) units in each scan
    (WHO + b"SL>1000\nTI>100\nMD>1000\n" + b"pins 128\nOP\n" * 3 + b"pins 128\n" * 97 + b"OP\n",
     b"ok\nSL>1000\nTI>100\nMD>1000\nok\nOP>18\nok\nOP>36\nok\nOP>54\n" + b"ok\n" * 97 + b"OP>1800\n"),
    # Document 02, request 6: the operator at the start; 18 goes before 20, and 20 before 5; reading stays free
    (b"XP>500\nXP\nXP>\nPV>1\nSL>5\nRS>7\nMD>1000\nDS>00C0\nRB>1\nIC>1\n",
     b"? 20 no right\nXP>1000\n? 18 no value\n? 20 no right\nSL>5\nRS>7\nMD>1000\nDS>80FF\n? 20 no right\n? 20 no right\n"),
    # 19 goes before 20 and 5, not before 17 and 18; pins 90h have the Computer pin, and other pins don't bring it
    (b"who computer\nSL>5\nXP>5\nPV>1\nSL\nxp\nSL>\npins 144\nSL>5\nRB>5\nXP>5\nPV>1\nSL>1001\npins 128\nRB>6\npins 239\nRB>6\nRB\n"
     b"pins 16\nRB>6\n",
     b"ok\n? 19 Computer pin\n? 19 Computer pin\n? 19 Computer pin\nSL>0\n? 17 no mnemonic\n? 18 no value\nok\nSL>5\nRB>5\n"
     b"? 20 no right\n? 20 no right\n? 6 out of range\nok\n? 19 Computer pin\nok\n? 19 Computer pin\nRB>5\nok\nRB>6\n"),
    # Each behind the others; pins leave who types, and who types leaves the pins
    (b"who engineer\nXP>5\nwho operator\nXP>6\npins 144\nXP>6\nwho computer\nXP>6\nRB>6\nwho engineer\npins 0\nXP>6\n"
     b"who computer\nRB\nRB>7\n",
     b"ok\nXP>5\nok\n? 20 no right\nok\n? 20 no right\nok\n? 20 no right\nRB>6\nok\nok\nXP>6\nok\nRB>6\n? 19 Computer pin\n"),
    *((line + b"\nXP>5", b"? 17 no mnemonic\n? 20 no right\n") for line in (
        b"who", b"who ", b"who Engineer", b"who  engineer", b"who engineer ", b" who engineer", b"who engineers", b"who enginee",
        b"who engineer\r", b"who engineer\0", b"WHO engineer", b"Who engineer", b"who\tengineer", b"whoengineer", b"who>engineer",
        b"who engineer engineer", b"who engineer" + b" " * 400, b"engineer", b"who 1", b"who mechanic")),
    (b"who engineer", b"ok\n"), (b"who engineer\nXP>5", b"ok\nXP>5\n"), (b"who engineer\n\nXP>5\n", b"ok\n? 17 no mnemonic\nXP>5\n"),
)
def wrong_buffers(generator):
    """Lines after which the model's buffer isn't the reply and the bytes behind it as they were, and how many were
    looked at; a refused line leaves controller and buffer.
    """
    source, wrong = TerminalSource(generator), []
    source.controller = loop.fresh(0, Stored)
    for _ in range(BUFFERS):
        _, line, length = source.any_line()
        buffer, before = generator.randbytes(generator.choice((length, 8, 9, 10, 300))), source.controller
        source.controller, answer, after = answer_line(before, generator.choice(("engineer", *WRITERS)), line, buffer, Stored)
        reply = answer[2] if answer[0] == "reply" else b""
        is_right = len(after) == len(buffer) and after.startswith(reply) and after[len(reply):] == buffer[len(reply):]
        if not is_right or not reply and source.controller != before or reply and (len(buffer) < 9 or answer[1] != len(reply)):
            wrong.append(f"the model is wrong: {line!r} leaves {after!r} of {buffer!r}")
    return wrong, BUFFERS


def compare(program, kind, lines):
    """The faults of one run of the program over a list, and how many things were looked at."""
    expected = [*answers_to(lines)]
    written, trouble = run(program, b"".join(line + b"\n" for line in lines).decode("latin-1"), PROGRAM_SECONDS)
    answers = written.encode("latin-1").split(b"\n")
    faults = [trouble] if trouble else []
    faults += [] if len(answers) == len(lines) + 1 and answers[-1] == b"" else [f"{kind}: {len(answers) - 1} answers to {len(lines)} lines"]
    wrong = [place for place, (answer, right) in enumerate(zip(answers, expected)) if answer != right]
    faults += [f"{kind}, line {place}: {lines[place][:60]!r} is answered {answers[place]!r}, expected {expected[place]!r}"
               for place in wrong]
    if wrong:
        print("before the first wrong answer:", *(line[:60] for line in lines[max(0, wrong[0] - LINES_BEFORE):wrong[0] + 1]), sep="\n    ")
    return faults, len(lines) + 2


def visit():
    """The lines that `make run` types, and the answers that it expects, as one whole input."""
    steps = [(step.typed, step.expected) for step in read_visit(ROOT / "demo/visit.txt")]
    return tuple("".join(text + "\n" for text in texts).encode("ascii") for texts in zip(*steps))


def wrong_whole_inputs(program, lines):
    """The whole inputs, and inputs in pieces, that are answered otherwise than by hand or by the model."""
    faults, inputs = [], (*WHOLE_INPUTS, visit())
    for text, expected in inputs:
        written, trouble = run(program, text.decode("latin-1"), PROGRAM_SECONDS)
        by_model = b"".join(answer + b"\n" for answer in answers_to(typed_lines(text)))
        if written.encode("latin-1") != expected or trouble or by_model != expected:
            faults.append(f"input {text[:60]!r}: {written[:200]!r}, expected {expected!r}, the model {by_model!r} {trouble}")
    pieces = ((1, lines[-40:]), (2, lines[-40:]), (301, lines), (4097, lines))
    for size, some in pieces:
        written, trouble = run_in_pieces(program, b"\n".join(some).decode("latin-1"), size)
        if written.encode("latin-1") != b"".join(answer + b"\n" for answer in answers_to(typed_lines(b"\n".join(some)))) or trouble:
            faults.append(f"input in pieces of {size} bytes: wrong or too few answers {trouble}")
    return faults, len(inputs) + len(pieces)


def main():
    parser = argparse.ArgumentParser()
    parser.add_argument("--seed", type=int, default=DEFAULT_SEED)
    parser.add_argument("program")
    given = parser.parse_args()
    print("seed", given.seed, flush=True)
    generator = random.Random(given.seed)
    lists = handheld_lists.all_lists(generator)
    counts = counts_of(lines for _, lines in lists)
    some = [*lists[0][1][:300], *dict(lists)["in_every_mode"][:100]]
    found = [wrong_buffers(generator), wrong_whole_inputs(given.program, some)]
    found += [compare(given.program, kind, lines) for kind, lines in lists]
    too_few = [f"too few: {name}: {counts[name]}, at least {least} are expected" for name, least in LEAST.items() if counts[name] < least]
    found.append((too_few, len(LEAST)))
    faults, looked = [fault for each, _ in found for fault in each], sum(count for _, count in found)
    print(f"{sum(len(lines) for _, lines in lists)} typed lines, {len(LEAST)} things to be met:",
          ", ".join(f"{name} {counts[name]}" for name in [*LEAST][:COUNTS_PRINTED]))
    print("\n".join(faults[:DIFFERENCES_PRINTED]) or "every answer is as expected")
    return tally.close(looked - len(faults), len(faults))


if __name__ == "__main__":
    sys.exit(main())
