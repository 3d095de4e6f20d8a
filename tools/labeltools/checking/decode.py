"""Reads what goes to a printer back into dots: ZPL, ESC/POS, PBM and PNG, by the rules of their
manuals. It shares no rule with what writes them.
"""

import re
import struct
import zlib
from binascii import Error, unhexlify
from functools import lru_cache

from labeltools.common.text import Text
from labeltools.lines.file import Record
from labeltools.paper.picture import Picture, rows_reader

ZPL_HEAD = re.compile(rb"\^XA\^MUD\^PON\^PMN\^JMA\^LH0,0\^LS0\^PW([0-9]+)\^LL([0-9]+)\n")
ZPL_FIELD = re.compile(rb"\^FO([0-9]+),([0-9]+)\^GFA,([0-9]+),([0-9]+),([1-9][0-9]*),")
FIELD_END = b"^FS\n"
ZPL_END = re.compile(rb"(?:\^PQ([0-9]+)\n)?\^XZ\n")
DIGITS = b"0123456789ABCDEF"
LOWER = b"abcdef"  # of digits
ROWS = DIGITS + b":"  # of rows without counts
# counts of the digit that follows: G is 1, Y is 19; g is 20, z is 400; those that are named here
# before F, and all others before 0
COUNTS = {ord("F") + count: count for count in range(1, 20)}
COUNTS |= {ord("f") + count: 20 * count for count in range(1, 21)}
OF_DARK = b"KOWi"
# the digits of a run but for the last one, which a row may end in, are marked meanwhile
MARK = 128
UNMARKED = bytes(byte % MARK for byte in range(256))
RUNS = {
    letter: (bytes([letter, digit]), bytes([digit + MARK]) * (COUNTS[letter] - 1) + bytes([digit]))
    for letter, digit in ((count, ord("F" if count in OF_DARK else "0")) for count in COUNTS)
}
AGAIN = re.compile(rb":(:*)")
RASTER = b"\x1dv0\0"
SIZE = struct.Struct("<HH")  # of a raster image: its bytes across and its rows
LINES_AND_CUT = b"\x1bd\x03\x1dV\x42\x00"
RESET = b"\x1b@"
PNG_HEAD = b"\x89PNG\r\n\x1a\n"
INVERTED = bytes(range(255, -1, -1))
KNOWN = 256  # fields that are kept: many labels have the same price
Printed = tuple[Picture, int]  # a page in dots, and how often it is printed


class Different(Exception):
    """What is wrong in what goes out, and in the label of which line, if that is known."""

    def __init__(self, what: Text, record: Record | None = None) -> None:
        super().__init__(what)
        self.what = what
        self.record = record


def read_dots(form: str, data: bytes, width: int) -> Printed:
    """Returns one label or page; raises `Different`. The width is that which a page has to have,
    of which ESC/POS does not say what is white at the right.
    """
    try:
        return DECODERS[form](data, width)
    except (ValueError, IndexError, zlib.error, struct.error) as error:
        raise Different(Text("the output cannot be read back as {}: {}", form, error)) from error


def dots_of_pbm(data: bytes, _: int) -> Printed:
    """Reads raw PBM."""
    kind, size, rest = data.split(b"\n", 2)
    width, height = map(int, size.split())
    length = (width + 7) // 8 * height
    return Picture(width, height, of_length(rest, length if kind == b"P4" else -1)), 1


def dots_of_png(data: bytes, _: int) -> Printed:
    """Reads PNG of one bit a pixel without filters."""
    if data[:8] != PNG_HEAD:
        raise Different(Text("the output is not a PNG file"))
    start = len(PNG_HEAD)
    packed = b""
    width = height = 0
    while start < len(data):
        (length,) = struct.unpack_from(">I", data, start)
        kind = data[start + 4 : start + 8]
        body = data[start + 8 : start + 8 + length]
        if kind == b"IHDR":
            width, height, depth, colour = struct.unpack(">IIBB", body[:10])
            if (depth, colour) != (1, 0):
                raise Different(Text("the output is not a PNG file of one bit for each dot"))
        packed += body if kind == b"IDAT" else b""
        start += length + 12
    stride = (width + 7) // 8
    rows = of_length(zlib.decompress(packed), (1 + stride) * height)
    if any(rows[:: 1 + stride]):
        raise Different(Text("the output is a PNG file with filters"))
    light = rows_reader(1, stride, 0, height)(rows)
    return Picture(width, height, b"".join(light).translate(INVERTED)), 1


def dots_of_escpos(data: bytes, width: int) -> Printed:
    """Reads raster images, one below the other."""
    stride = (width + 7) // 8
    images = []
    height = 0
    start = len(RESET) if data.startswith(RESET) else 0
    end = len(data) - len(LINES_AND_CUT) if data.endswith(LINES_AND_CUT) else len(data)
    while start < end:
        size, count = SIZE.unpack_from(data, start + len(RASTER))
        if not data.startswith(RASTER, start) or not 0 < size <= stride or not count:
            raise Different(Text("the output is not ESC/POS as label-print writes it"))
        start += len(RASTER) + SIZE.size
        white = bytes(stride - size)
        images += [white.join(rows_reader(0, size, 0, count)(data, start)), white]
        height += count
        start += size * count
    if start != end:
        raise Different(Text("the output is not ESC/POS as label-print writes it"))
    return Picture(width, height, b"".join(images)), 1


def dots_of_zpl(data: bytes, _: int) -> Printed:
    """Reads the graphic fields of a label, which is white where none is."""
    head = ZPL_HEAD.match(data)
    if not head or any(map(data.__contains__, LOWER)):
        raise Different(Text("the output is not ZPL as label-print writes it"))
    width, height = map(int, head.groups())
    stride = (width + 7) // 8
    page = bytearray(stride * height)
    fields: list[tuple[int, int, int, int]] = []  # the left, top, right and bottom of each
    start = head.end()
    while field := ZPL_FIELD.match(data, start):
        left, top, length, again, size = map(int, field.groups())
        end = data.index(FIELD_END[0], field.end())
        dots = rows_of_field(data[field.end() : end], size)
        left, rest = divmod(left, 8)
        right, bottom = left + size, top + length // size
        if rest or right > stride or bottom > height:
            raise Different(Text("ZPL with a field that extends beyond the label"))
        if not length == again == len(dots):
            raise Different(Text("ZPL with a field that has too few rows"))
        if any(x < right and left < u and y < bottom and top < v for x, y, u, v in fields):
            raise Different(Text("ZPL with a field over another one"))
        for column in range(size):
            page[stride * top + left + column : stride * bottom : stride] = dots[column::size]
        fields.append((left, top, right, bottom))
        if not data.startswith(FIELD_END, end):
            break
        start = end + len(FIELD_END)
    count = ZPL_END.fullmatch(data, start)
    if not count:
        raise Different(Text("ZPL without an end"))
    return Picture(width, height, page), int(count[1] or 1)  # not copied: it does not change


@lru_cache(KNOWN)
def rows_of_field(text: bytes, size: int) -> bytes:
    """Returns the rows of a graphic field, of some bytes each, one behind another; raises
    `Different`.

    >>> rows_of_field(b"FM0:12345678", 4).hex(" ", 4)
    'f0000000 f0000000 12345678'
    """
    parts = AGAIN.split(text)
    digits = parts[::2]
    try:
        rows = [*map(unhexlify, digits)]
    except Error:
        rows = [*map(unhexlify, without_counts(b":".join(digits), 2 * size))]
    if not rows[0] or any([len(some) % size for some in rows]):
        raise Different(Text("a row of the ZPL has the wrong length"))
    for number, again in enumerate(parts[1::2]):
        rows[number] += rows[number][-size:] * (1 + len(again))
    return b"".join(rows)


def without_counts(text: bytes, digits: int) -> list[bytes]:
    """Returns the digits of rows with counts, of so many digits each, from one `:` to the next.
    Raises `Different`.
    """
    if not text.isascii():
        raise Different(Text("the output is not ZPL as label-print writes it"))
    for letter in filter(text.__contains__, COUNTS):
        text = text.replace(*RUNS[letter])
    parts = text.split(b":")
    if not b"".join([part[digits - 1 :: digits] for part in parts]).isascii():
        raise Different(Text("a row of the ZPL has the wrong length"))
    return text.translate(UNMARKED).split(b":")


def of_length(data: bytes, length: int) -> bytes:
    """Returns data of a length; raises `Different` for another one."""
    if len(data) != length:
        raise Different(Text("{} bytes of dots for {}", len(data), length))
    return data


DECODERS = {
    "pbm": dots_of_pbm,
    "png": dots_of_png,
    "escpos": dots_of_escpos,
    "zpl": dots_of_zpl,
}
