"""The program label-window."""
