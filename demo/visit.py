"""Plays a mechanic's visit through the hand-held terminal and shows each line with its answer.

Usage: python3 -B -m demo.visit VISIT HANDHELD

A visit is a file of typed lines, each with the answer expected and a few words; its first lines say how it is written.
Ends with status 1 if an answer isn't the expected one.
"""

import subprocess
import sys
from typing import NamedTuple

TYPED, ANSWER = 14, 26  # widths


class Step(NamedTuple):
    heading: str    # that of the part which the step begins, or nothing
    typed: str
    expected: str
    about: str


def read_visit(path):
    """The steps of a visit."""
    heading = ""
    for line in open(path, encoding="ascii"):
        if line.startswith("= "):
            heading = line[2:].strip()
        elif line.strip() and not line.startswith("#"):
            yield Step(heading, *(part.strip() for part in line.split(" | ")))
            heading = ""


def answers_of(program, lines):
    """What the program answers to each line."""
    ended = subprocess.run([program], input="".join(line + "\n" for line in lines), stdout=subprocess.PIPE, text=True, check=True)
    return ended.stdout.split("\n")[:-1]


def show(step, answer):
    """Prints a step with its answer; whether it is the expected one."""
    is_right = answer == step.expected
    print(f"\n  {step.heading}\n" if step.heading else "", end="")
    print(f"    {step.typed:<{TYPED}}{answer:<{ANSWER}}{step.about if is_right else 'NOT AS EXPECTED: ' + step.expected}")
    return is_right


def main():
    visit, handheld = sys.argv[1:]
    steps = [*read_visit(visit)]
    answers = answers_of(handheld, [step.typed for step in steps])
    print(f"\n{visit}: a mechanic's visit with the hand-held terminal, {len(steps)} lines\n\n    {'typed':<{TYPED}}answer")
    right = [show(step, answer) for step, answer in zip(steps, answers)]
    is_whole = len(answers) == len(steps) and all(right)
    print("\n  every answer is the expected one" if is_whole else "\n  NOT EVERY ANSWER IS THE EXPECTED ONE")
    return 0 if is_whole else 1


if __name__ == "__main__":
    sys.exit(main())
