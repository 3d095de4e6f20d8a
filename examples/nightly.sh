#!/bin/sh
# Writes the labels of the rows that are new or have changed since those of last.lines.
set -- --code EAN --title Name --price Price --digits lost-zeros --decimal comma
label-table "$@" --new-since last.lines --summary examples/prices.xlsx > new.lines
label-table "$@" examples/prices.xlsx > all.lines 2> skipped.txt
