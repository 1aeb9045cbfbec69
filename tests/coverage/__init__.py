"""What the lists of calls must cover: each thing with the least count, and the counts of a run."""
