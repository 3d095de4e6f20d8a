"""Reads back what goes out, and compares it with what has to be there."""
