"""Prints what the symbol of each PBM or PNG file says: read.py FILE.. The status is 1 if one is not read."""

import sys

import liblabels

status = 0
for name in sys.argv[1:]:
    reading = liblabels.read(name)
    if reading is None:
        print(f"{name} is not read", file=sys.stderr)
        status = 1
    else:
        print(reading.text)
sys.exit(status)
