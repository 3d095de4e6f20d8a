#!/usr/bin/python3
"""Makes the weights by which label-table and the window guess what the columns of a table are for, from tables with
their truth.

usage: fit_guess.py [--write | --judge | --switch-off]

The tables are in tools/tests/tables, their truth in truth.toml there, which says how a table is added. Small ones
about the names of columns are in names.txt. The name of a table decides whether weights are fitted on it, or
whether it is only judged by: half of the tables are so, and nothing is ever made from these.

The weights are those with which the right answers are most probable, and which are small (SMALL): the sum of the
logarithms of the probabilities, less the squares of the weights, is climbed in ROUNDS steps. If several columns are
right, each of them shall be equally probable. Without options they are compared with
tools/labeltools/tables/weights.list, and the status is 1 if they differ; --write writes them there.

--judge prints what the guess makes of each table that it does not get right at once, and the sums.
--switch-off switches each fact and each weight off in turn, prints which verdicts change, and names those without
which none does: they can go. For each other one it writes a table whose verdict changes into needed.txt, by which
a test holds that none is needless. It takes some minutes.
"""

import importlib
import os
import sys

import sources


def main() -> int:
    """Does what the arguments say."""
    sys.path[:0] = [os.path.join(sources.TOP, "tools"), os.path.join(sources.TOP, "tools", "tests")]
    status: int = importlib.import_module("guess_fit").main(__doc__)
    return status


if __name__ == "__main__":
    sys.exit(main())
