"""Pages of raster in any form that drivers of CUPS take it in, and pages of PNM, as dots: 1 is dark."""

import re
from collections.abc import Iterator
from dataclasses import dataclass

import numpy

from jobs import Dots

# how a file begins: the order of its bytes, and whether its rows are compressed
SYNCS = {
    b"3SaR": ("<", False),
    b"RaS3": (">", False),
    b"2SaR": ("<", True),
    b"RaS2": (">", True),
    b"RaSt": (">", False),
    b"tSaR": ("<", False),
}
OLD, NEW = 420, 1796  # bytes of the head of a page, in version 1 and later
# the places of numbers in a head, as cups/raster.h has them
DPI_ACROSS, DPI_DOWN, WIDTH, HEIGHT = 69, 70, 93, 94
COLOUR_BITS, PIXEL_BITS, LINE_BYTES, ORDER, SPACE, COLOURS = 96, 97, 98, 99, 100, 105
CHUNKED, BANDED, PLANAR = range(3)
# the spaces in which a number is light: grey and RGB, of the device and of others
LIGHT = {0, 1, 2, 13, 17, 18, 19, 20, *range(15, 17), *range(32, 47)}
LIGHTNESS = {15, 16, *range(32, 47)}  # whose first number is how light it is
RGB_WHITE = 17  # whose fourth number is white
HALF = 128


@dataclass(frozen=True)
class Page:
    """A page: the dots an inch across and down (0: not known), and its dots."""

    across: int
    down: int
    dots: Dots


@dataclass(frozen=True)
class Head:
    """The numbers of the head of a page."""

    numbers: tuple[int, ...]
    is_new: bool

    def __getitem__(self, place: int) -> int:
        return self.numbers[place]

    @property
    def colours(self) -> int:
        """How many numbers a dot has."""
        found = self.numbers[COLOURS] if self.is_new and len(self.numbers) > COLOURS else 0
        return found or max(1, self[PIXEL_BITS] // self[COLOUR_BITS])

    @property
    def rows(self) -> int:
        """How many rows of bytes there are."""
        return self[HEIGHT] * (self.colours if self[ORDER] == PLANAR else 1)


def pages_of_raster(data: bytes) -> Iterator[Page]:
    """The pages of CUPS raster or PWG raster."""
    order, is_packed = SYNCS[data[:4]]
    is_new = data[:4] not in (b"RaSt", b"tSaR")
    size = NEW if is_new else OLD
    place = 4
    while place + size <= len(data):
        numbers = numpy.frombuffer(data, f"{order}u4", size // 4, place)
        head = Head(tuple(int(number) for number in numbers), is_new)
        place += size
        if is_packed:
            rows, place = unpacked(data, place, head)
        else:
            wanted = head.rows * head[LINE_BYTES]
            rows = data[place : place + wanted].ljust(wanted, b"\0")
            place += wanted
        dots = darkness(rows, head, order)
        yield Page(head[DPI_ACROSS], head[DPI_DOWN], dots)


def unpacked(data: bytes, place: int, head: Head) -> tuple[bytes, int]:
    """The rows of a compressed page, and the place behind them: each row with how often it comes
    again, and runs of pixels.
    """
    bits = head[PIXEL_BITS] if head[ORDER] == CHUNKED else head[COLOUR_BITS]
    pixel = max(1, (bits + 7) // 8)
    white = b"\xff" if head[SPACE] in LIGHT else b"\0"
    rows: list[bytes] = []
    while len(rows) < head.rows:
        again = data[place] + 1
        place += 1
        row = b""
        while len(row) < head[LINE_BYTES]:
            count = data[place]
            place += 1
            if count < HALF:
                row += data[place : place + pixel] * (count + 1)
                place += pixel
            elif count == HALF:
                row += white * (head[LINE_BYTES] - len(row))
            else:
                row += data[place : place + (257 - count) * pixel]
                place += (257 - count) * pixel
        rows += [row[: head[LINE_BYTES]]] * min(again, head.rows - len(rows))
    return b"".join(rows), place


def numbers_of(packed: Dots, bits: int, order: str) -> Dots:
    """Packed rows as numbers from 0 to 255."""
    if bits == 1:
        return numpy.unpackbits(packed, axis=1) * 255
    if bits == 16:
        high: Dots = packed.reshape(len(packed), -1, 2)[:, :, 1 if order == "<" else 0]
        return high
    if bits in (2, 4):
        most = (1 << bits) - 1
        parts = [(packed >> shift) & most for shift in range(8 - bits, -1, -bits)]
        numbers: Dots = numpy.stack(parts, axis=2).reshape(len(packed), -1)
        return numbers * (255 // most)
    return packed


def pixels_of(rows: bytes, head: Head, order: str) -> Dots:
    """The numbers of each dot."""
    packed = numpy.frombuffer(rows, numpy.uint8).reshape(head.rows, head[LINE_BYTES])
    bits, width, colours = head[COLOUR_BITS], head[WIDTH], head.colours
    if head[ORDER] == CHUNKED:
        count = head[PIXEL_BITS] // bits
        numbers = numbers_of(packed, bits, order)[:, : width * count]
        return numbers.reshape(len(packed), width, count)[:, :, max(0, count - colours) :]
    if head[ORDER] == BANDED:
        part = head[LINE_BYTES] // colours
        planes = [packed[:, part * plane : part * (plane + 1)] for plane in range(colours)]
    else:
        high = head[HEIGHT]
        planes = [packed[high * plane : high * (plane + 1)] for plane in range(colours)]
    return numpy.stack([numbers_of(plane, bits, order)[:, :width] for plane in planes], axis=2)


def darkness(rows: bytes, head: Head, order: str) -> Dots:
    """The dots of a page, of which those are dark that have no light, or any ink."""
    pixels, space = pixels_of(rows, head, order), head[SPACE]
    if space in LIGHTNESS:
        dark = pixels[:, :, 0] < HALF
    elif space == RGB_WHITE:
        dark = (pixels[:, :, 3] < HALF) | (pixels[:, :, :3].max(axis=2) < HALF)
    elif space in LIGHT:
        dark = pixels[:, :, :3].max(axis=2) < HALF
    else:
        dark = pixels.max(axis=2) >= HALF
    return dark.astype(numpy.uint8)


PNM = re.compile(rb"P([456])\s(?:#[^\n]*\n)*\s*(\d+)\s+(?:#[^\n]*\n)*(\d+)\s", re.DOTALL)


def pages_of_pnm(data: bytes) -> Iterator[Page]:
    """The pages of raw PBM, PGM or PPM."""
    place = 0
    while found := PNM.match(data, place):
        kind, width, height = (int(number) for number in found.groups())
        place = found.end()
        if kind == 4:
            size = (width + 7) // 8
            packed = numpy.frombuffer(data[place : place + size * height], numpy.uint8)
            dots = numpy.unpackbits(packed.reshape(height, size), axis=1)[:, :width]
        else:
            place = data.index(b"\n", place) + 1  # behind the largest number
            size = width * (1 if kind == 5 else 3)
            whole = data[place : place + size * height].ljust(size * height, b"\xff")
            numbers = numpy.frombuffer(whole, numpy.uint8).reshape(height, width, -1)
            dots = (numbers.max(axis=2) < HALF).astype(numpy.uint8)
        place += size * height
        yield Page(0, 0, dots)
