"""A process in which pages of SVG are read and drawn: what a stranger drew goes to the libraries of
no other one. Each question is answered by a copy of it that has the limits of a page.

It takes questions from standard input, and answers them on standard output.
"""

import os
import subprocess
import sys
from dataclasses import dataclass, field
from importlib import import_module
from io import BytesIO
from pathlib import Path
from threading import Lock
from typing import Any, Callable, Iterator, NamedTuple, Sequence, TypeVar

import cairo
import gi

from labeltools.common.apart import apart, Ended, Input, Pipe, result_of, told
from labeltools.common.budget import PAGE, PAGE_MEMORY, PAGE_SECONDS
from labeltools.common.messages import Talk, ToolError
from labeltools.common.text import Text

Told = TypeVar("Told")
START = (
    "import sys; sys.path.insert(0, sys.argv[1]); from labeltools.designs.drawer import *; main()"
)
TOOLS = str(Path(__file__).parents[2])
DPI = 96.0  # of CSS, in which lengths without a unit are; librsvg takes 90 where nothing is said
NO_MEMORY = "NoMemory"  # what librsvg says of Cairo
LIBRARIES = ("Rsvg", "Gio", "GLib")
BLOCK = 1 << 22  # bytes of dots
SAVE_AGAIN = Text("save it as SVG once more")
PLAIN = Text("export it as a picture, or with texts as paths")
PageColour = tuple[float, float, float]


class PageArea(NamedTuple):
    """Where a page is drawn."""

    x: float
    y: float
    width: float
    height: float


class Drawing(NamedTuple):
    """A page that is drawn: its file, its bytes, a style sheet of its own, which can only hide
    something, and where.
    """

    file: str
    data: bytes
    sheet: str = ""
    area: PageArea = PageArea(0, 0, 1, 1)


class PageSides(NamedTuple):
    """What a page says of its size: in pixels, if it has one, its view box, and its units."""

    is_sized: bool
    pixels: tuple[float, float]
    box: tuple[float, float] | None
    units: frozenset[str]


class Drawer:
    """What draws a page."""

    def __init__(self, drawing: Drawing) -> None:
        """Raises `ToolError` for what is no SVG."""
        rsvg, gio, self.glib = libraries()
        self.file = drawing.file
        stream = gio.MemoryInputStream.new_from_data(drawing.data)
        try:  # without the name of a file it reads no other one
            flags = rsvg.HandleFlags.FLAGS_NONE
            self.handle = rsvg.Handle.new_from_stream_sync(stream, None, flags, None)
            self.handle.set_dpi(DPI)
            self.handle.set_stylesheet(drawing.sheet.encode())
        except self.glib.Error as error:
            raise ToolError(
                Text("{} is not SVG: {}", self.file, error.message), SAVE_AGAIN
            ) from error
        self.area = rsvg.Rectangle()
        self.area.x, self.area.y, self.area.width, self.area.height = drawing.area

    def draw(self, canvas: Any) -> None:
        """Draws the page; raises `ToolError`."""
        try:
            self.handle.render_document(canvas, self.area)
        except self.glib.Error as error:
            if NO_MEMORY in error.message:
                raise MemoryError from error
            raise ToolError(
                Text("{} cannot be drawn: {}", self.file, error.message), PLAIN
            ) from error

    def layer(self, name: str) -> PageArea:
        """Returns where an element is."""
        found = self.handle.get_geometry_for_layer(name, self.area).out_logical_rect
        return PageArea(found.x, found.y, found.width, found.height)


def libraries() -> list[Any]:
    """Returns librsvg and what it needs."""
    for name in LIBRARIES:
        gi.require_version(name, "2.0")
    return [import_module(f"gi.repository.{name}") for name in LIBRARIES]


def sides(drawing: Drawing) -> PageSides:
    """Returns what a page says of its size."""
    handle = Drawer(drawing).handle
    found = handle.get_intrinsic_dimensions()
    units = frozenset(side.unit.value_nick for side in (found.out_width, found.out_height))
    is_sized, *pixels = handle.get_intrinsic_size_in_pixels()
    box = (found.out_viewbox.width, found.out_viewbox.height) if found.out_has_viewbox else None
    return PageSides(is_sized, (pixels[0], pixels[1]), box, units)


def places_in(
    drawing: Drawing, names: Sequence[str], sheets: Sequence[str]
) -> tuple[list[PageColour | None], list[list[PageArea]]]:
    """Returns the colours of some elements, and where they are, as they are and with each of some
    style sheets.
    """
    drawer = Drawer(drawing)
    colours = [colour_of(drawer, name) for name in names]
    found = [[drawer.layer(name) for name in names]]
    for sheet in sheets:  # one after the other: each keeps all of the page in memory
        drawer = Drawer(drawing._replace(sheet=sheet))
        found.append([drawer.layer(name) for name in names])
    return colours, found


def colour_of(drawer: Drawer, name: str) -> PageColour | None:
    """Returns the colour in the middle of an element; None where there is none."""
    surface = cairo.ImageSurface(cairo.FORMAT_ARGB32, 1, 1)
    canvas = cairo.Context(surface)
    left, top, wide, high = drawer.layer(name)
    dot = max(min(wide, high) / 2, 1e-6)  # so large that what has a filter takes little time
    canvas.scale(1 / dot, 1 / dot)
    canvas.translate((dot - wide) / 2 - left, (dot - high) / 2 - top)
    drawer.handle.render_layer(canvas, name, drawer.area)
    surface.flush()
    blue, green, red, alpha = bytes(surface.get_data())[:4]
    return (red / alpha, green / alpha, blue / alpha) if alpha >= 128 else None


def light(drawing: Drawing, wide: int, high: int) -> bytes:
    """Returns how light each of some dots is: a byte, 0 for black."""
    surface = cairo.ImageSurface(cairo.FORMAT_RGB24, wide, high)
    canvas = cairo.Context(surface)
    canvas.set_source_rgb(1, 1, 1)
    canvas.paint()
    Drawer(drawing).draw(canvas)
    surface.flush()
    grey = greys(surface)
    if grey is None:  # colours, which take longer to be
        canvas.set_operator(cairo.Operator.HSL_COLOR)  # grey, as light as they are
        canvas.set_source_rgb(1, 1, 1)
        canvas.paint()
        surface.flush()
        return b"".join(part[::4] for part in blocks_of(surface.get_data()))
    return grey


def greys(surface: cairo.ImageSurface) -> bytes | None:
    """Returns how light the dots of a surface are; None where some are of a colour. It goes on part
    by part: of a whole large page each copy would take much.
    """
    found = []
    for part in blocks_of(surface.get_data()):
        found.append(part[0::4])
        if not found[-1] == part[1::4] == part[2::4]:
            return None
    return b"".join(found)


def blocks_of(data: memoryview) -> Iterator[bytes]:
    """Yields bytes in parts, of which the last one may be shorter."""
    return (bytes(data[start : start + BLOCK]) for start in range(0, len(data), BLOCK))


def lines(drawing: Drawing, wide: float, high: float) -> None:
    """Draws a page as lines, as in PDF, which another process does then with the same bytes."""
    surface = cairo.PDFSurface(BytesIO(), wide, high)
    Drawer(drawing).draw(cairo.Context(surface))
    surface.finish()


@dataclass
class PageProcess:
    """The process that draws pages, which begins with the first question. In that process itself
    its work is done at once. Each window has a thread, and they ask one after another.
    """

    process: subprocess.Popen[bytes] | None = None
    is_here: bool = False
    lock: Lock = field(default_factory=Lock)

    def ask(self, work: Callable[..., Told], drawing: Drawing, *more: Any) -> Told:
        """Returns what work on a drawing returns; raises `ToolError`."""
        if self.is_here:
            return work(drawing, *more)
        with self.lock:
            self.process = self.process or begun()
            question, answering = self.process.stdin, self.process.stdout
            assert question and answering
            try:
                Pipe(question.fileno()).tell("ask", work, drawing, *more)
                answer: Told = result_of(answering.fileno(), Talk())
            except Ended as error:
                seconds, memory = (share.most(0) for share in (PAGE_SECONDS, PAGE_MEMORY))
                most = (seconds, memory // PAGE_MEMORY.unit)
                what = Text("{} cannot be drawn in {} seconds and {} MB", drawing.file, *most)
                raise ToolError(what, PLAIN) from error
            except (EOFError, BrokenPipeError):
                self.process = None
                raise
        return answer


asked = PageProcess()
ask = asked.ask


def begun() -> "subprocess.Popen[bytes]":
    """Returns the process that draws pages; raises `ToolError` where librsvg is not there. It is no
    fork, in which librsvg waits for threads that this process has, and it has not.
    """
    try:
        gi.require_version("Rsvg", "2.0")
    except ValueError as error:
        hint = Text("apt-get install gir1.2-rsvg-2.0")
        raise ToolError(Text("{}: a design of SVG needs it", error), hint) from error
    command = (sys.executable, "-I", "-B", "-c", START, TOOLS)
    pipe, null = subprocess.PIPE, subprocess.DEVNULL
    return subprocess.Popen(command, stdin=pipe, stdout=pipe, stderr=null)


def main() -> None:
    """Answers questions."""
    asked.is_here = True
    output = Pipe(os.dup(1))
    os.dup2(os.open(os.devnull, os.O_WRONLY), 1)
    rsvg, gio, glib = libraries()
    rsvg.Rectangle(), rsvg.HandleFlags, rsvg.Handle, gio.MemoryInputStream, glib.Error  # found once
    work: Callable[..., object]
    while True:
        try:
            ((_, (work, drawing, *more)),) = told(0)
        except EOFError:
            return
        source = Input(drawing.file, len(drawing.data), PAGE)
        try:
            answer = apart(source, lambda _: work(drawing, *more), Talk())
            output.tell("result", answer)
        except ToolError as error:
            output.tell("error", error)
