"""The gate: every step of `make test`, its tally and its times, what a person sees of it, and the gate's own tests."""
