"""Letters, and where the parts of a label are."""
