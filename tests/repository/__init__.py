"""The repository's own checks: layout, layers of crates, notes on changes, names, and names in the documents."""
