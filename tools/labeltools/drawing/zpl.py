"""ZPL II of label printers."""

import re
from binascii import hexlify
from functools import lru_cache
from itertools import repeat
from operator import ne
from typing import Iterator

from labeltools.paper.picture import Picture, rows_reader

MOST_BYTES = 99_999  # of a graphic field
# white that parts two fields: fewer rows or bytes of it take less than the head of a field
INKED_ROWS = re.compile(rb"[^\0]+(?:\0{1,7}[^\0]+)*")
INKED = re.compile(rb"[^\0]+(?:\0{1,2}[^\0]+)*")
INKED_OF_MANY = re.compile(rb"[^\0]+")
MANY = 50  # rows that differ, from which on a byte of white in each takes more: large letters
# run lengths: a count stands before a digit, G to Y for 1 to 19, g to z for 20 to 400. A run is
# parted into a few of these, for each of which all is searched: more of them would take longer
LIGHT = {120: b"l", 40: b"h", 18: b"X", 10: b"P", 6: b"L", 4: b"J"}
DARK = {60: b"i", 17: b"W", 9: b"O", 5: b"K"}  # others than before 0
# a digit with a count is a small letter meanwhile, so that it is in no run
RUNS = [(b"0" * count, letter + b"o") for count, letter in LIGHT.items()]
RUNS += [(b"F" * count, letter + b"f") for count, letter in DARK.items()]
COUNTED = bytes.maketrans(b"of", b"0F")
OFTEN = b"0" * 6, b"F" * 6
RARELY = 20  # digits to one of these: where there are more, counts save too little
KNOWN = 256  # blocks that are kept: many labels have the same price


def zpl(picture: Picture, copies: int) -> bytes:
    """Returns a label, which is printed `copies` times.

    Its numbers are dots (^MUD), it is not turned (^PON) or mirrored (^PMN), has all dots of the
    printer (^JMA), and begins at the left upper corner (^LH, ^LS), whatever the job before has set.
    Its dots are a graphic field for each block between white rows and columns, so that a
    row of bars is that above it once more, whatever is beside them. They are in run lengths, which
    each printer and clone reads.
    """
    head = b"^XA^MUD^PON^PMN^JMA^LH0,0^LS0^PW%d^LL%d\n" % (picture.width, picture.height)
    count = b"^PQ%d\n" % copies if copies > 1 else b""
    return head + b"".join(graphic_fields(picture)) + count + b"^XZ\n"


def graphic_fields(picture: Picture) -> Iterator[bytes]:
    """Yields the graphic fields of a label, from top to bottom, and from left to right."""
    stride = picture.stride
    for top, bottom in bands_of(picture):
        rows = picture.packed[top * stride : bottom * stride]
        for left, right in inked_columns(rows, stride, bottom - top):
            size = right - left
            most = MOST_BYTES // size
            for first in range(top, bottom, most):
                high = min(most, bottom - first)
                read = rows_reader(left, size, stride - right, high)
                dots = b"".join(read(rows, (first - top) * stride))
                head = (8 * left, first, len(dots), len(dots), size)
                yield b"^FO%d,%d^GFA,%d,%d,%d,%b^FS\n" % (*head, run_lengths(dots, size))


def bands_of(picture: Picture) -> Iterator[tuple[int, int]]:
    """Yields which rows of a label have white rows above and below them."""
    inked = bytes(map(ne, picture.rows, repeat(bytes(picture.stride))))
    return map(re.Match.span, INKED_ROWS.finditer(inked))


def inked_columns(rows: bytes, stride: int, high: int) -> Iterator[tuple[int, int]]:
    """Yields which columns of rows, of some bytes each, have white ones at their left and right."""
    columns = [rows[column::stride] for column in range(stride)]
    inked = bytes(map(ne, columns, repeat(bytes(high))))
    is_large = len({*rows_reader(0, stride, 0, high)(rows)}) >= MANY
    return map(re.Match.span, (INKED_OF_MANY if is_large else INKED).finditer(inked))


@lru_cache(KNOWN)
def run_lengths(dots: bytes, size: int) -> bytes:
    """Returns rows of some bytes in hexadecimal: `:` for the row above once more, and counts before
    digits that come often.

    >>> run_lengths(bytes.fromhex("FF0000 FF0000 000000"), 3)
    b'FFJ0:L0'
    """
    rows = hexlify(dots, b"\n", size).upper().split(b"\n")
    again = [b":" if row == above else row for above, row in zip([b"", *rows], rows)]
    text = b"\n".join(again)  # no run goes on from a row to the next
    if sum(map(text.count, OFTEN)) * RARELY >= len(text):
        for run, count in RUNS:
            if len(run) <= 2 * size:  # no row has a longer one
                text = text.replace(run, count)
    return text.translate(COUNTED, b"\n")
