"""The comparisons of the programs with the reference model, and the shrinking of a list that is answered wrongly."""
