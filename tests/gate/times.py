"""Where the gate's time went: the seconds of each step, and when each crate was proved.

`rt ci` tells no seconds of its own; crates are proved beside others, and kept ones are there at once.
"""


def longest_first(title, rows):
    """A table of seconds and names, the greatest first; no lines if there are no rows."""
    rows = sorted(rows, key=lambda row: -row[0])
    return [f"== {title}", *(f"{seconds:8.0f}  {name}" for seconds, name in rows), ""] if rows else []


def table(steps, crates):
    """The lines of the tables; steps and crates are given by name and seconds."""
    proved = "crates, seconds from the beginning until proved, the last first"
    return [*longest_first("steps, seconds, the longest first", [(seconds, name) for name, seconds in steps]),
            *longest_first(proved, [(seconds, name) for name, seconds in crates])]
