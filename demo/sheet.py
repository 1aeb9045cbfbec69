"""The drying sheet as a table for people.

All numbers are the console's, which hands out a mean as a sum and a count; the quotient beside them is formed here.
"""

from demo.console import MODES

LABEL, COLUMN = 17, 36  # widths
MEANS = "A mean is the sum of PV, in tenths, or of OP, in hundredths of a percent, over the scans."


def numbers_of(line):
    """The numbers of a sheet's line by their names."""
    word, *parts = line.split()
    assert word == "sheet", line
    return dict(part.split("=") for part in parts)


def share(count, scans):
    return f"{count:>7}  {100 * int(count) / int(scans):5.1f} %" if int(count) else f"{count:>7}"


def extreme(text, unit):
    """An extreme as PV and the number of the scan where it came first."""
    if text == "none":
        return f"{text:>7}"
    PV, number = text.split("@")
    return f"{int(PV) / 10:7.1f} {unit}, scan {number}"


def mean(total, scans, parts, unit):
    """The quotient of a sum, given in so many parts of a unit, and the number of scans; none of an empty sheet."""
    return f"{int(total) / int(scans) / parts:7.1f} {unit} ({total} / {scans})" if int(scans) else f"{'none':>7}"


def column(line, unit):
    """What is shown of one sheet, by its label."""
    numbers = numbers_of(line)
    scans = numbers["scans"]
    return {"scans": f"{scans:>7}", **{f"in {mode}": share(numbers[word], scans) for word, mode in MODES.items()},
            "with an alarm": share(numbers["alarms"], scans),
            "greatest PV": extreme(numbers["max"], unit), "least PV": extreme(numbers["min"], unit),
            "mean PV": mean(numbers["sumpv"], scans, 10, unit), "mean OP": mean(numbers["sumop"], scans, 100, "%")}


def show(heading, sheets, unit):
    """Prints a table with a column for each sheet; sheets are given by title, a tenth of the unit is one of PV."""
    columns = [column(line, unit) for line in sheets.values()]
    print(f"\n{heading}\n\n  {'':<{LABEL}}" + "".join(f"{title:<{COLUMN}}" for title in sheets).rstrip())
    for label in columns[0]:
        print(f"  {label:<{LABEL}}" + "".join(f"{each[label]:<{COLUMN}}" for each in columns).rstrip())
    print(f"\n  {MEANS}")
