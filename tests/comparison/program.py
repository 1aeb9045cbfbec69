"""Runs of the program that is compared."""

import itertools
import subprocess
import threading
import time

PROGRAM_SECONDS, SHORT_SECONDS = 60, 10   # for a run over many lists, and over one input
NO_END = "the program didn't run to its end"


def run(program, text, seconds):
    """What the program writes for a whole input, and what went wrong in running it, if anything."""
    try:
        ended = subprocess.run([program], input=text.encode("latin-1"), stdout=subprocess.PIPE, timeout=seconds)
    except (OSError, subprocess.TimeoutExpired) as reason:
        return "", f"{NO_END}: {reason}"
    return ended.stdout.decode("latin-1"), f"the program ended with status {ended.returncode}" if ended.returncode else ""


def run_lines(program, lines, seconds):
    """The same for lines; the text that the program writes."""
    return run(program, "".join(line + "\n" for line in lines), seconds)


def run_in_pieces(program, text, size):
    """The same with the input written piece by piece; all of the output is less than a pipe holds."""
    try:
        with subprocess.Popen([program], stdin=subprocess.PIPE, stdout=subprocess.PIPE, bufsize=0) as process:
            too_long = threading.Timer(SHORT_SECONDS, process.kill)
            too_long.start()
            for start in range(0, len(text), size):
                process.stdin.write(text[start:start + size].encode("latin-1"))
                time.sleep(0.0005)
            process.stdin.close()
            written = process.stdout.read().decode("latin-1")
            process.wait()
            too_long.cancel()
    except OSError as reason:
        return "", f"{NO_END}: {reason}"
    return written, f"the program ended with status {process.returncode}" if process.returncode else ""


def first_difference(lines, expected, written, trouble):
    """The place of the first wrong answer.

    It is the last line's place if all are right but the program ended badly or wrote more.
    """
    answers = written.split("\n")[:len(lines)]
    for place, (answer, right) in enumerate(itertools.zip_longest(answers, expected)):
        if answer != right:
            return place
    return len(lines) - 1 if trouble or written != "".join(right + "\n" for right in expected) else None
