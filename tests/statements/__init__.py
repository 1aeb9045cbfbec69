"""Calls of the reference model as statements about the rules, which the checker proves (crates/worked)."""
