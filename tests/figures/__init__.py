"""Figures: cases worked by hand from documents 01 and 02, and those of the 6360's manual."""
