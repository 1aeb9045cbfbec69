"""How a test closes: its faults, and then the line that the gate reads."""


def close(passed, failed):
    """Prints the tally, the last line of a test; the exit status that goes with it."""
    print(f"{passed} passed, {failed} failed")
    return 0 if failed == 0 else 1


def report(faults, looked, fine):
    """Prints the faults found among so many things looked at, or that all is fine, and closes."""
    print("\n".join(faults) or fine)
    return close(looked - len(faults), len(faults))
