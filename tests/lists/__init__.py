"""The lists of calls, drawn from a seed, that the comparisons make."""
