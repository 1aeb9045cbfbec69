"""What a person sees of a run: a line for each thing that has ended, and on a terminal what runs now.

What runs now is one line that is redrawn in place, with the time of each thing and the time so far. It is erased before
anything else is printed. Where the output is no terminal it doesn't come.
"""

import contextlib
import os
import shutil
import sys
import threading
import time

ERASE = "\r\x1b[K"  # the start of the line, and nothing after it
PERIOD = 0.25  # seconds


def duration(seconds):
    """Whole seconds in words: 39 s, or 2 min 10 s."""
    minutes, rest = divmod(int(seconds), 60)
    return f"{minutes} min {rest} s" if minutes else f"{rest} s"


def can_redraw(stream):
    """Whether a line can be redrawn in place: on a terminal that can erase, and not where the output is recorded."""
    return stream.isatty() and os.environ.get("TERM", "dumb") != "dumb" and not os.environ.get("CI")


def status_line(running, now, began, columns):
    """What runs now and the time so far, in one line of the terminal: what is too long is cut before the time."""
    names = {}
    for (verb, name), since in running.items():
        names.setdefault(verb, []).append(f"{name} ({duration(now - since)})")
    doing = ", ".join(f"{verb} {', '.join(each)}" for verb, each in names.items())
    so_far = f"{duration(now - began)} so far"
    room = columns - 1 - len("  now ; ") - len(so_far)
    if len(doing) > room:
        doing = doing[:max(room - 3, 0)] + "..."
    return f"  now {doing}; {so_far}" if doing else f"  {so_far}"


@contextlib.contextmanager
def repeated(function):
    """Calls the function four times a second while the block runs, and once at its end."""
    is_over = threading.Event()

    def repeat():
        while not is_over.wait(PERIOD):
            function()

    thread = threading.Thread(target=repeat, daemon=True)
    thread.start()
    try:
        yield
    finally:
        is_over.set()
        thread.join()
        function()


class Progress:
    """The lines printed so far, and what runs now. Threads may use it at once."""

    def __init__(self, stream):
        self.stream, self.is_redrawn = stream, can_redraw(stream)
        self.began, self.running, self.drawn = time.monotonic(), {}, ""
        self.lock = threading.RLock()

    def start(self, verb, name):
        """Something runs from now on, if it didn't already."""
        with self.lock:
            self.running.setdefault((verb, name), time.monotonic())

    def end(self, verb, name, *lines):
        """It has ended, which these lines tell."""
        with self.lock:
            self.running.pop((verb, name), None)
            self.print(*lines)

    def print(self, *lines):
        with self.lock:
            self.erase()
            self.stream.write("".join(line + "\n" for line in lines))
            self.stream.flush()

    def draw(self):
        with self.lock:
            text = status_line(self.running, time.monotonic(), self.began, shutil.get_terminal_size().columns)
            if self.is_redrawn and text != self.drawn:
                self.stream.write(ERASE + text)
                self.stream.flush()
                self.drawn = text

    def erase(self):
        with self.lock:
            self.stream.write(ERASE if self.drawn else "")
            self.stream.flush()
            self.drawn = ""


@contextlib.contextmanager
def on_standard_output():
    """The progress of what is done in the block; no line of what runs now stays after it."""
    progress = Progress(sys.stdout)
    try:
        with repeated(progress.draw):
            yield progress
    finally:
        progress.erase()
