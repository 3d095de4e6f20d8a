"""Writes a picture for each number of a table: table.py FILE.csv COLUMN. The status is 1 if one has no code."""

import csv
import sys

import liblabels

name, column = sys.argv[1:]
status = 0
with open(name, encoding="utf-8-sig", newline="") as table:
    for place, row in enumerate(csv.DictReader(table), 1):
        try:
            symbol = liblabels.symbol("ean13", row[column])
        except liblabels.Refused as why:
            print(f"row {place}: {why}", file=sys.stderr)
            status = 1
        else:
            symbol.save(f"{symbol.text}.png", scale=4, digits=True)
sys.exit(status)
