# `make run` proves, builds and plays figures, a drying session, two dryers, power cuts and a mechanic's visit; `make
# test` is the gate; both show how far they are. `make bench` counts the instructions of a square root, with gcc and
# valgrind.
.PHONY: run test bench

run:
	@python3 -B -m tests.gate.run
	@sh demo/show

test:
	@python3 -B -m tests.gate.gate

bench:
	python3 -B -m tests.roots.benchmark
