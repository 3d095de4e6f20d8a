"""Printers' jobs turned back into dots, as the manuals of ZPL II and ESC/POS describe their
commands.

A job that announces more than it sends, or that holds any other byte, raises JobError. Dots are
rows of 0 and 1.
"""

import re
import struct
from io import BytesIO
from typing import Any

import numpy
from numpy.typing import NDArray

Dots = NDArray[Any]
ZPL_LABEL = re.compile(
    rb"\^XA\^MUD\^PON\^PMN\^JMA\^LH0,0\^LS0\^PW([0-9]+)\^LL([0-9]+)\n(.*?)(?:\^PQ([0-9]+)\n)?\^XZ\n",
    re.DOTALL,
)
ZPL_FIELD = re.compile(rb"\^FO([0-9]+),([0-9]+)\^GFA,([0-9]+),([0-9]+),([0-9]+),([^^]*)\^FS\n")
RESET, CUT = b"\x1b@", b"\x1bd\x03\x1dVB\x00"


class JobError(Exception):
    """What is wrong with a job."""


def dots_of_zpl(job: bytes) -> list[Dots]:
    """The labels of a ZPL job, each as often as it is printed."""
    labels: list[Dots] = []
    place = 0
    while place < len(job):
        label = ZPL_LABEL.match(job, place)
        if not label:
            raise JobError(f"byte {place} begins no label: {job[place:place + 40]!r}")
        dots = dots_of_fields(label[3], int(label[1]), int(label[2]))
        if label[4] and int(label[4]) < 2:
            raise JobError(f"{label[4]!r} is no number of copies to be said")
        labels += [dots] * int(label[4] or 1)
        place = label.end()
    return labels


def dots_of_fields(fields: bytes, width: int, height: int) -> Dots:
    """The dots of the graphic fields of a label of ZPL."""
    dots = numpy.zeros((height, (width + 7) // 8 * 8), dtype=numpy.uint8)
    place = 0
    while place < len(fields):
        field = ZPL_FIELD.match(fields, place)
        if not field:
            raise JobError(f"no field: {fields[place:place + 40]!r}")
        x, y, sent, total, size = (int(field[group]) for group in range(1, 6))
        data = data_of_run_lengths(field[6], size)
        if not sent == total == len(data) or not 1 <= total <= 99_999 or total % size:
            raise JobError(f"{sent} and {total} bytes are announced, and there are {len(data)}")
        bits = numpy.unpackbits(numpy.frombuffer(data, dtype=numpy.uint8).reshape(-1, size), axis=1)
        if x + bits.shape[1] > dots.shape[1] or y + bits.shape[0] > height:
            raise JobError("a field leaves its label")
        dots[y : y + bits.shape[0], x : x + bits.shape[1]] |= bits
        place = field.end()
    return dots[:, :width]


def data_of_run_lengths(text: bytes, size: int) -> bytes:
    """The data of a graphic field in hexadecimal with run lengths, as the manual of ZPL II has
    them: G to Y are 1 to 19 times the next digit, g to z 20 to 400 times, letters that follow one
    another are added; `,` fills a row with 0, `!` with F, and `:` is the row above.
    """
    rows: list[str] = []
    row, often = "", 0
    for letter in text.decode():
        if "G" <= letter <= "Y":
            often += ord(letter) - ord("F")
        elif "g" <= letter <= "z":
            often += 20 * (ord(letter) - ord("f"))
        elif letter in "0123456789ABCDEF":
            row += letter * (often or 1)
            often = 0
        elif letter in ",!" and not often:
            row += ("0" if letter == "," else "F") * (2 * size - len(row))
        elif letter == ":" and not often and not row and rows:
            row = rows[-1]
        else:
            raise JobError(f"{letter!r} in a graphic field")
        if len(row) > 2 * size:
            raise JobError("a row of a graphic field is too long")
        if len(row) == 2 * size:
            rows.append(row)
            row = ""
    if row or often:
        raise JobError("the last row of a graphic field is not whole")
    return bytes.fromhex("".join(rows))


PAPER = 5000  # dots: wider than any label of a test


def dots_of_escpos(job: bytes, cut: bytes = CUT) -> list[Dots]:
    """The labels of an ESC/POS job, each of them some images and, where there is one, a cut, on a
    paper that is wider than all of them.
    """
    stream = BytesIO(job)
    if stream.read(2) != RESET:
        raise JobError("no ESC @ at the start")
    labels: list[Dots] = []
    bands: list[Dots] = []
    while head := stream.read(4):
        if head == b"\x1dv0\0":
            size, height = struct.unpack("<HH", stream.read(4))
            data = stream.read(size * height)
            if not 0 < height <= 255 or len(data) != size * height:
                raise JobError(f"an image of {size} by {height} bytes is not whole, or too high")
            dots = numpy.unpackbits(
                numpy.frombuffer(data, numpy.uint8).reshape(height, size), axis=1
            )
            bands.append(numpy.pad(dots, ((0, 0), (0, PAPER - 8 * size))))
        elif head + stream.read(len(cut) - 4) == cut and bands:
            labels.append(numpy.vstack(bands))
            bands = []
        else:
            raise JobError(f"not understood: {head!r}")
    if bands:
        raise JobError("the last label is not whole")
    return labels


def bits_of(rows: list[bytes], width: int) -> Dots:
    """Rows of whole bytes as dots."""
    packed = numpy.frombuffer(b"".join(rows), dtype=numpy.uint8).reshape(len(rows), -1)
    return numpy.unpackbits(packed, axis=1)[:, :width]


def pictures_of_pbm(data: bytes) -> list[Dots]:
    """The pictures of a stream of raw PBM."""
    pictures = []
    while data:
        head = re.match(rb"P4\n(?:#.*\n)?([0-9]+) ([0-9]+)\n", data)
        if not head:
            raise JobError(f"no picture: {data[:20]!r}")
        width, height = int(head[1]), int(head[2])
        size, start = (width + 7) // 8, head.end()
        if len(data) < start + size * height:
            raise JobError("the last picture is not whole")
        rows = numpy.frombuffer(data[start : start + size * height], dtype=numpy.uint8).reshape(
            height, size
        )
        pictures.append(numpy.unpackbits(rows, axis=1)[:, :width])
        data = data[start + size * height :]
    return pictures


def pbm_of(dots: Dots) -> bytes:
    """Dots as raw PBM."""
    return b"P4\n%d %d\n%b" % (dots.shape[1], dots.shape[0], numpy.packbits(dots, axis=1).tobytes())


def ink_of(dots: Dots) -> tuple[int, int, int, int]:
    """The left, top, right and bottom of the ink of dots, the last two behind it; zeros where there
    is none.
    """
    rows, columns = dots.any(axis=1).nonzero()[0], dots.any(axis=0).nonzero()[0]
    if not len(rows):
        return 0, 0, 0, 0
    return int(columns[0]), int(rows[0]), int(columns[-1]) + 1, int(rows[-1]) + 1
