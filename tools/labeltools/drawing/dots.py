"""Pages in dots, and their forms PBM and PNG."""

import struct
import zlib

import cairo

from labeltools.common.messages import Remedy, ToolError
from labeltools.common.text import Text
from labeltools.drawing.pen import Pen, REVERSED
from labeltools.layout.layout import Page
from labeltools.lines.engine import bytes_a_row
from labeltools.paper.picture import Picture, rows_reader
from labeltools.paper.plan import Dots, MOST_DOTS

LIGHT = bytes(range(255, -1, -1))  # of PNG, in which 1 is light
MOST_OF_PAGE = 400_000_000  # dots: an A4 page of 1,800 dots an inch has fewer


def drawn_page(size: Dots, pen: Pen, page: Page, turn: int = 0) -> Picture:
    """Returns a page of labels in dots; `turn` is as in `Pen.draw`. Raises `ToolError` where it is
    too large.
    """
    width, height = size
    surface = drawn_surface(size, pen, page, turn)
    data = bytes(surface.get_data()).translate(REVERSED)
    row_size = bytes_a_row(width)
    behind = surface.get_stride() - row_size
    if behind:
        data = b"".join(rows_reader(0, row_size, behind, height)(data))
    return Picture(width, height, data)


def drawn_surface(size: Dots, pen: Pen, page: Page, turn: int = 0) -> cairo.ImageSurface:
    """Returns a page of labels as a surface with a bit for each dot; raises as `drawn_page`."""
    width, height = size
    hint, dpi = Text("choose a smaller page, or fewer dots an inch"), (Remedy("dpi"),)
    if max(size) > MOST_DOTS or width * height > MOST_OF_PAGE:
        what = Text("{} by {} dots are too many for a page", width, height)
        raise ToolError(what, hint, remedies=dpi)
    try:
        surface = cairo.ImageSurface(cairo.FORMAT_A1, width, height)
    except (cairo.Error, MemoryError) as error:
        what = Text("{} by {} dots cannot be drawn: {}", width, height, error)
        raise ToolError(what, hint, remedies=dpi) from error
    canvas = cairo.Context(surface)
    canvas.set_antialias(cairo.Antialias.NONE)
    pen.draw(canvas, page, turn)
    surface.flush()
    return surface


def pbm(picture: Picture) -> bytes:
    """Returns a page as raw PBM."""
    return b"P4\n%d %d\n%b" % (picture.width, picture.height, picture.packed)


def png(picture: Picture, dot: float) -> bytes:
    """Returns a page as PNG of one bit a pixel, which says the millimetres of a dot."""
    head = struct.pack(">IIBBBBB", picture.width, picture.height, 1, 0, 0, 0, 0)
    a_metre = struct.pack(">I", round(1000 / dot))
    light = picture.packed.translate(LIGHT)
    rows = b"".join(b"\0" + row for row in Picture(picture.width, picture.height, light).rows)
    chunks = (
        chunk(b"IHDR", head),
        chunk(b"pHYs", a_metre + a_metre + b"\1"),
        chunk(b"IDAT", zlib.compress(rows)),
        chunk(b"IEND", b""),
    )
    return b"\x89PNG\r\n\x1a\n" + b"".join(chunks)


def chunk(kind: bytes, data: bytes) -> bytes:
    """Returns a chunk of PNG."""
    check = zlib.crc32(kind + data)
    return struct.pack(">I", len(data)) + kind + data + struct.pack(">I", check)
