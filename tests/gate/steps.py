"""Runs a step: what it says goes to a log of its own below out/logs, and a failure shows an excerpt of it."""

import re
import subprocess
import time

MOST_LINES, MOST_COLUMNS = 30, 200  # of an excerpt
# What `rt` says where all is right; any other line that it begins with its name tells of a failure
RIGHT = re.compile(r"rt: (?:\w+ proved$|\w+ is kept: |\w+: its tests (?:are proved|passed)$|\w+: trying its must-fail edits|"
                   r"\w+: \d+ of its \d+ must-fail edits were tried|must-fail \S+: refused|\w+ ran\b|ok; (?!.*, \d+ bad)|"
                   r"note: (?!bad must-fail edits)|chose |waiting for |\w+: begins with what|nothing has changed|the program wrote|"
                   r"\w+: (?:its tests: )?another run)")
ERROR = re.compile(r": error\b")


def log_name(name):
    """Where the log of a step of this name is, from the repository's root."""
    words = re.findall(r"[a-z0-9]+", name.lower().replace("'", ""))
    return f"out/logs/{'-'.join(words)}.log"


def run_command(command, folder, log, heard):
    """What a command prints, line by line also for `heard` and in the log; its exit status and its seconds."""
    lines, began = [], time.monotonic()
    try:
        process = subprocess.Popen(command, cwd=folder, stdin=subprocess.DEVNULL, stdout=subprocess.PIPE,
                                   stderr=subprocess.STDOUT, encoding="utf-8", errors="replace")
    except OSError as error:
        log.write(f"{error}\n")
        return [f"{error}\n"], 1, 0
    for line in process.stdout:
        log.write(line)
        heard(line)
        lines.append(line)
    return lines, process.wait(), time.monotonic() - began


def run_step(name, command, folder, heard=lambda line: None):
    """Runs a step's command: its lines, which are its log too, its exit status and its seconds."""
    path = folder / log_name(name)
    path.parent.mkdir(parents=True, exist_ok=True)
    with open(path, "w", encoding="utf-8", buffering=1) as log:
        return run_command(command, folder, log, heard)


def last_of(lines):
    """The last line that isn't blank."""
    return next((line.strip() for line in reversed(lines) if line.strip()), "")


def is_failure(line):
    """Whether this line of `rt` tells of a failure."""
    return not RIGHT.match(line) if line.startswith("rt: ") else bool(ERROR.search(line))


def failures_of(lines):
    """The lines of `rt` that tell of failures, the first of them if they are many; its last lines if none does."""
    failures = [line for line in lines if is_failure(line)]
    more = [f"and {len(failures) - MOST_LINES} such lines more"] if len(failures) > MOST_LINES else []
    return failures[:MOST_LINES] + more or end_of(lines)


def end_of(lines):
    """The last lines of a test."""
    return lines[-MOST_LINES:]


def excerpt(name, lines):
    """These lines, cut to what can be read, and where all of them are."""
    cut = [line.rstrip() if len(line) <= MOST_COLUMNS else line[:MOST_COLUMNS] + " ..." for line in lines]
    return [*(f"    | {line}" for line in cut), f"    the whole log: {log_name(name)}"]
