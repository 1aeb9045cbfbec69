"""What counts the calls of some lists: the base of the counts for each kind of list."""

import collections
import textwrap

COUNTS_PRINTED, WIDTH = 12, 150  # so many counts, in lines of so many columns
SWITCHES = {"S2.1": 15, "S2.2": 14, "S2.3": 13, "S2.4": 12, "S2.5": 11, "S2.6": 10, "S2.8": 8, "S1.1": 7}


def on(number, place):
    return bool(number >> place & 1)


class Coverage:
    """Counts what the calls of some lists meet.

    A kind of list has a class of its own with a title, `least_counts`, which gives how often each thing must be met at
    least, by name, and `call`, which counts one call: the call, the pairs of controllers before and after it, our
    answer, and the pair itself with the claim and the session.
    """

    def __init__(self):
        self.counts = collections.Counter()

    def lines(self, entries):
        """The lines of a list, by the form or the line error and the call."""
        for (kind, word), count in collections.Counter((entry.kind, entry.word) for entry in entries).items():
            self.counts[f"line: {kind} of {word}"] += count

    def count(self, *names):
        self.counts.update(names)

    def join(self, other):
        """With what another run met."""
        self.counts.update(other.counts)

    def too_few(self):
        """The names of what was too rarely met, with the count and the least."""
        return [f"too few, {self.title}: {name}: {self.counts[name]}, at least {least} are expected"
                for name, least in self.least_counts().items() if self.counts[name] < least]


def print_counts(coverage):
    """What was met most plainly, and what stands nearest to its least."""
    least, counts = coverage.least_counts(), coverage.counts
    first = ", ".join(f"{name} {counts[name]}" for name in [*least][:COUNTS_PRINTED])
    print(textwrap.fill(f"{coverage.title}, {len(least)} things to be met: {first}", WIDTH, subsequent_indent="    "))
    rarest = min(least, key=lambda name: counts[name] / least[name])
    print(f"{coverage.title}: nearest to its least is {rarest!r}, {counts[rarest]} of {least[rarest]}", flush=True)
