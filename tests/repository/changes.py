"""docs/CHANGES.md has short notes: a section, from its `## ` heading to the next, has at most 30 lines that aren't
blank, the heading not counted, and no line has more than 120 columns, table rows among them.
"""

MOST_LINES, MOST_COLUMNS = 30, 120
NAME, HEADING = "docs/CHANGES.md", "## "


def change_faults(text):
    """Sections and lines that are too long, and how many sections and lines there are."""
    lines, sections = text.split("\n"), {}
    heading = None
    for number, line in enumerate(lines, 1):
        if line.startswith(HEADING):
            heading = number, line
            sections[heading] = 0
        elif heading and line.strip():
            sections[heading] += 1
    found = [f"{NAME}:{number}: {count} lines under {line!r}" for (number, line), count in sections.items() if count > MOST_LINES]
    found += [f"{NAME}:{number}: {len(line)} columns" for number, line in enumerate(lines, 1) if len(line) > MOST_COLUMNS]
    return found + ([] if sections else [f"{NAME}: no section"]), len(sections) + len(lines)
