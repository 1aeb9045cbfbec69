"""The demonstration: what `make run` plays once everything is proved and built."""
