"""The table of square roots: the program that writes it, the look-up as compiled, and the benchmark (`make bench`)."""
