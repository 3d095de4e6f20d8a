"""The tools around labels(1): from a table to lines, and from lines to paper.

Functions of this package return values, and say what they have to say to a `Talk`. Only the
executables print and end.
"""

RELEASE = "1.2.0"
VERSION = 1  # of the file between label-table and label-print
