"""ESC/POS of receipt printers."""

import struct
from itertools import groupby, repeat
from operator import eq
from typing import Iterator

from labeltools.paper.picture import Picture, rows_reader

START = b"\x1b@"  # of a job: resets the printer
CUT = b"\x1bd\x03\x1dV\x42\x00"  # feeds three lines, and cuts
MOST_ROWS = 255  # of an image
LEAST_BLANK = 16  # rows without a dot that are an image of their own


def escpos(picture: Picture, is_first: bool, is_cut: bool) -> bytes:
    """Returns a label as raster images, one below the other; before the first one the printer is
    reset.

    What is light at the right is left away: a row without a dot is one byte. No command feeds,
    since how far a printer feeds depends on its model.
    """
    images = [image(band) for band in bands(picture)]
    return START * is_first + b"".join(images) + CUT * is_cut


def bands(picture: Picture) -> Iterator[tuple[bytes, ...]]:
    """Yields the rows of a label in parts that are images: rows with dots, and blank ones."""
    start = 0
    for is_blank, end in runs(picture.rows):
        for top in range(start, end, MOST_ROWS):
            bottom = min(end, top + MOST_ROWS)
            size = 1 if is_blank else inked(picture, top, bottom)
            read = rows_reader(0, size, picture.stride - size, bottom - top)
            yield read(picture.packed, top * picture.stride)
        start = end


def inked(picture: Picture, top: int, bottom: int) -> int:
    """Returns the bytes of rows that are not light at the right, at least one."""
    stride = picture.stride
    blank = bytes(bottom - top)
    size = stride
    while size > 1 and picture.packed[top * stride + size - 1 : bottom * stride : stride] == blank:
        size -= 1
    return size


def runs(rows: tuple[bytes, ...]) -> Iterator[tuple[bool, int]]:
    """Yields whether rows are blank, and where they end; a few blank ones are as those around
    them.
    """
    start = 0
    blank = bytes(len(rows[0]))
    for is_blank, group in groupby(map(eq, rows, repeat(blank))):
        end = start + len(list(group))
        if is_blank and end - start >= LEAST_BLANK:
            if start:
                yield False, start
            yield True, end
        start = end
    yield False, start


def image(rows: tuple[bytes, ...]) -> bytes:
    """Returns a raster image."""
    return b"\x1dv0\0" + struct.pack("<HH", len(rows[0]), len(rows)) + b"".join(rows)
