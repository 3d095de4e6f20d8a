"""Where labels go: printers, files, and the journal of what was printed."""
