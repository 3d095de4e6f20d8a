"""Drawings: PDF by Cairo."""

import mmap
import os
import re
import tempfile
from dataclasses import dataclass
from typing import Any, Callable, IO, Iterable

import cairo

from labeltools.common.files import BLOCK
from labeltools.drawing.pen import Pen
from labeltools.layout.layout import Page
from labeltools.paper.plan import MILLIMETRES, POINTS
from labeltools.paper.stock import Size

OBJECT = re.compile(rb"([0-9]{10}) [0-9]{5} n")
TABLE_AT = 64  # bytes from the end of a PDF, in which the place of its table of objects is
CATALOG = b"<< /Type /Catalog"  # how the last object begins
CATALOG_AT = 128  # bytes from that table, in which it is
IN_OWN_SIZE = b" /ViewerPreferences << /PrintScaling /None >>"


@dataclass(frozen=True)
class Paper:
    """The size of a page in millimetres, the dots an inch in which labels are laid out, and how
    labels are turned, as in `Pen.draw`.
    """

    size: Size
    dpi: int
    turn: int


def drawn_file(paper: Paper, pens: Iterable[Pen], pages: Callable[[], Iterable[Page]]) -> IO[bytes]:
    """Returns a file of pages, at its begin.

    Cairo leaves out fonts that it cannot embed. So the first pen is taken whose PDF is whole; the
    later ones draw more letters as shapes.
    """
    for pen in pens:
        file = drawn_by(paper, pen, pages())
        if is_whole(file):
            break
        file.close()
    print_in_own_size(file)
    file.seek(0)
    return file


def print_in_own_size(file: IO[bytes]) -> None:
    """Asks viewers not to fit a PDF to the paper when they print it."""
    file.seek(-TABLE_AT, os.SEEK_END)
    table = int(file.read().split()[-2])
    file.seek(table - CATALOG_AT)
    end = file.read()
    longer = end.replace(CATALOG, CATALOG + IN_OWN_SIZE)
    moved = table + len(longer) - len(end)
    file.seek(table - CATALOG_AT)
    file.write(longer.replace(b"startxref\n%d\n" % table, b"startxref\n%d\n" % moved))


def drawn_by(paper: Paper, pen: Pen, pages: Iterable[Page]) -> IO[bytes]:
    """Returns a file of pages that a pen draws."""
    file = tempfile.TemporaryFile()
    name = f"/proc/self/fd/{file.fileno()}"  # Cairo writes there sooner than into a file of Python
    try:
        draw_pages(name if os.path.exists(name) else file, paper, pen, pages)
        file.flush()
    except cairo.Error:
        with file:
            file.seek(0, os.SEEK_END)
            file.write(bytes(BLOCK))  # says why nothing can be written, as Cairo does not
            file.flush()
        raise
    except BaseException:
        file.close()
        raise
    return file


def draw_pages(file: Any, paper: Paper, pen: Pen, pages: Iterable[Page]) -> None:
    """Draws pages into a file."""
    width, height = (side * POINTS / MILLIMETRES for side in paper.size)
    surface: Any = cairo.PDFSurface(file, width, height)
    # without the time of the run the same labels give the same bytes
    surface.set_metadata(cairo.PDF_METADATA_CREATE_DATE, "")
    try:
        for page in pages:
            canvas = cairo.Context(surface)
            canvas.scale(POINTS / paper.dpi, POINTS / paper.dpi)
            pen.draw(canvas, page, paper.turn)
            canvas.show_page()
    finally:
        surface.finish()


def is_whole(file: IO[bytes]) -> bool:
    """Returns whether each object of a PDF is where its table has it."""
    with mmap.mmap(file.fileno(), 0, access=mmap.ACCESS_READ) as data:
        start = int(data[-TABLE_AT:].split()[-2])
        for number, entry in enumerate(OBJECT.findall(data, start), 1):
            name = b"%d 0 obj" % number
            place = int(entry)
            if data[place : place + len(name)] != name:
                return False
    return True
