"""Reads the codes of a PDF of Cairo: pictures that are drawn last on each page, each on white, so
that nothing else of the page is over them. Lengths are in dots, from the upper left corner.
"""

import re
import zlib
from functools import lru_cache
from typing import Iterable, Iterator, NamedTuple, Sequence

from labeltools.checking.decode import Different
from labeltools.common.text import Text
from labeltools.paper.box import Box

POINTS = 72  # in an inch
NEAR = 0.25  # of a dot, by which the place of a code may be off
NUMBER = rb"-?[0-9.]+"
NUMBERS = rb"(%b)" % rb" ".join([NUMBER] * 6)
PAGE = re.compile(
    rb"[^>]*/MediaBox \[ 0 0 [0-9.]+ ([0-9.]+) \][^>]*/Contents ([0-9]+) 0 R"  # its height
)
MASK = re.compile(
    rb"[^>]*/ImageMask true\s+/Width ([0-9]+)\s+/Height ([0-9]+)[^>]*"
    rb"/Decode \[1 0\][^>]*>>\s*stream\n"  # a bit of 1 is dark
)
FORM = re.compile(
    rb"[^>]*/Subtype /Form\s+/BBox \[ ([0-9]+) ([0-9]+) ([0-9]+) ([0-9]+) \][^>]*>>\s*stream\n"
)
# what a page is: its matrix, and drawings that leave it as it is; then anything, in which strings
# may have any bytes; a drawing of white rectangles in dots, and the first of them once more; and in
# black, in a matrix of its own, one picture behind another
BEGIN = re.compile(
    rb"1 0 0 -1 0 ([0-9.]+) cm\nq\n(?:q\n(?:%b cm\n)?(?:/a[0-9]+ gs )?/x[0-9]+ Do\nQ\n)*" % NUMBERS
)
STRING = re.compile(rb"\((?:[^\\()]|\\.)*\)|<[0-9A-Fa-f\n]*>", re.DOTALL)
# looks behind a word once that is found, which takes a sixth of the time
STATE = re.compile(rb"(?:q(?<![^\s\])>]q)|Q(?<![^\s\])>]Q)|cm(?<![^\s\])>]cm))(?![^\s\[(<])")
WHITES = re.compile(
    rb"q\n(N) 0 0 (N) 0 0 cm\n(?:/a[0-9]+ gs )?/x([0-9]+) Do\nQ\n"
    rb"1 1 1 rg (?:/a[0-9]+ gs\s)?N N N N re f\n0 0 0 rg q\n\Z".replace(b"N", NUMBER)
)
WHITE = re.compile(rb"\s*q\s+1 1 1 rg (?:/a[0-9]+ gs\s)?([-0-9. \nmlhre]+) f\s+Q\s*")
# one rectangle, or several and a point that paints nothing
ALONE = re.compile(rb"(N) (N) (N) (N) re".replace(b"N", NUMBER))
RECTANGLE = re.compile(
    rb"(?<![-0-9.])(N) (N) m (N) (N) l (N) (N) l (N) (N) l\s+h\s".replace(b"N", NUMBER)
)
POINT = re.compile(rb"N N m".replace(b"N", NUMBER))
PICTURE = re.compile(rb"(?:Q\nq\n)?%b cm\n/x([0-9]+)" % NUMBERS)
END = re.compile(rb"Q\s+Q\s*")
KIDS = b"/Kids ["
PLACE = re.compile(rb"startxref\s+([0-9]+)\s+%%EOF\s*$")
TABLE = re.compile(rb"xref\s+0 ([0-9]+)\s+")
ENTRY = 20  # bytes of an object in the table
STREAM = b"stream\n"
END_OF_STREAM = b"\nendstream"
KNOWN = 4096  # places that are kept: most pages share them

Corners = tuple[tuple[float, float], ...]


class DrawnCode(NamedTuple):
    """The picture of a code: its modules in rows of whole bytes, and its upper left, upper right
    and lower left corner on the page.
    """

    width: int
    height: int
    modules: bytes
    corners: Corners


class DrawnPage(NamedTuple):
    """The codes of a page in their order, and the white rectangles below them."""

    codes: Sequence[DrawnCode]
    whites: Sequence[Box]


class Pdf:
    """A PDF whose objects are found by its table; its dots are so many an inch."""

    def __init__(self, data: bytes, dpi: float) -> None:
        """Raises `LookupError` and `ValueError` where it is not as Cairo writes it."""
        self.data = data
        self.scale = dpi / POINTS
        place = PLACE.search(data, len(data) - 64)
        table = TABLE.match(data, int(place[1])) if place else None
        if table is None:
            raise ValueError("no table")
        self.table = table.end()
        self.white = lru_cache(KNOWN)(self.new_white)

    def object_start(self, number: int) -> int:
        """Returns where an object begins."""
        entry = self.table + ENTRY * number
        return int(self.data[entry : entry + 10])

    def stream(self, start: int) -> bytes:
        """Returns what is in an object behind a place in it."""
        begin = self.data.index(STREAM, start) + len(STREAM)
        return zlib.decompress(self.data[begin : self.data.index(END_OF_STREAM, begin)])

    def pages(self) -> list[int]:
        """Returns the objects that are pages."""
        start = self.data.index(KIDS) + len(KIDS)
        kids = self.data[start : self.data.index(b"]", start)]
        return [int(kid) for kid in kids.split()[::3]]

    def codes_of_page(self, number: int, codes: int) -> DrawnPage:
        """Returns the codes of a page that ends in so many; raises `ValueError` where it does not,
        or does not begin as it has to.
        """
        head = PAGE.match(self.data, self.object_start(number))
        if head is None:
            raise ValueError("a page without content")
        high, content = head.groups()
        drawn = self.stream(self.object_start(int(content)))
        before, *pictures, end = drawn.rsplit(b" Do\n", codes)
        if len(pictures) != codes - 1 or not END.fullmatch(end):
            raise ValueError("a page that does not end in its codes")
        first = before.rindex(b"q\n") + len(b"q\n")
        whites = WHITES.search(before[:first])
        if whites is None:
            raise ValueError("codes without white below them")
        if {round(float(number) * self.scale, 4) for number in whites.groups()[:2]} != {1}:
            raise ValueError("white that is not in dots")
        require_matrix(before[: whites.start()], high)
        found = [self.code_of_picture(text) for text in (before[first:], *pictures)]
        return DrawnPage(found, self.white(int(whites[3])))

    def new_white(self, number: int) -> tuple[Box, ...]:
        """Returns the white rectangles of a drawing."""
        start = self.data.index(b" R\n", self.object_start(number))  # behind its length
        form = FORM.match(self.data, start)
        path = WHITE.fullmatch(self.stream(start))
        if form is None or path is None:
            raise ValueError("a drawing that is no white")
        boxes = boxes_in(path[1])
        left, top, right, bottom = map(int, form.groups())
        for box in boxes:
            if box.left < left or box.top < top or box.right > right or box.bottom > bottom:
                raise ValueError("white that is cut off")
        return boxes

    def code_of_picture(self, text: bytes) -> DrawnCode:
        """Returns a picture that is drawn in a matrix."""
        drawn = PICTURE.fullmatch(text)
        if drawn is None:
            raise ValueError("something behind a code")
        start = self.data.index(b" R\n", self.object_start(int(drawn[2])))  # behind its length
        mask = MASK.match(self.data, start)
        if mask is None:
            raise ValueError("a picture that is no code")
        corners = corners_of(drawn[1], self.scale)
        return DrawnCode(int(mask[1]), int(mask[2]), self.stream(start), corners)


def require_matrix(before: bytes, high: bytes) -> None:
    """Raises `ValueError` where a page of a height does not begin in its matrix, or what is behind
    that leaves another one.
    """
    begin = BEGIN.match(before)
    if begin is None or begin[1] != high:
        raise ValueError("a page in another matrix")
    rest = before[begin.end() :]
    if not STATE.search(rest):  # not even in a string
        return
    kept = 0
    for word in STATE.findall(STRING.sub(b" ", rest)):
        if word == b"q":
            kept += 1
        elif not kept:
            raise ValueError("codes in another matrix")
        elif word == b"Q":
            kept -= 1
    if kept:
        raise ValueError("codes in another matrix")


@lru_cache(KNOWN)
def corners_of(numbers: bytes, scale: float) -> Corners:
    """Returns where three corners of a picture are in dots by its matrix in points."""
    a, b, c, d, e, f = (float(number) * scale for number in numbers.split())
    return tuple((a * x + c * y + e, b * x + d * y + f) for x, y in ((0, 1), (1, 1), (0, 0)))


def boxes_in(path: bytes) -> tuple[Box, ...]:
    """Returns the rectangles of a path in dots; raises `ValueError` where it has others."""
    if alone := ALONE.fullmatch(path):
        left, top, width, height = (float(number) for number in alone.groups())
        right, low = left + width, top + height
        corners = [[left, top, right, top, right, low, left, low]]
    else:
        corners = [[*map(float, found)] for found in RECTANGLE.findall(path)]
        if not POINT.fullmatch(RECTANGLE.sub(b"", path)):
            raise ValueError("codes on no rectangles")
    sides = [sides_of(numbers) for numbers in corners]
    return tuple(Box(left, top, right - left, low - top) for left, top, right, low in sides)


def sides_of(corners: Sequence[float]) -> tuple[int, int, int, int]:
    """Returns the sides of a rectangle in whole dots by its corners, one behind another; raises
    `ValueError` where they are none.
    """
    dots = [round(place) for place in corners]
    points = [*zip(dots[::2], dots[1::2])]
    is_near = all(abs(place - dot) <= NEAR for place, dot in zip(corners, dots))
    sides = [(x == u, y == v) for (x, y), (u, v) in zip(points, [*points[1:], points[0]])]
    if not is_near or sides[:2] != sides[2:] or {*sides} != {(True, False), (False, True)}:
        raise ValueError("a rectangle that is none, or on no whole dots")
    return min(dots[::2]), min(dots[1::2]), max(dots[::2]), max(dots[1::2])


@lru_cache(KNOWN)
def is_at(corners: Corners, box: Box, quarters: int) -> bool:
    """Returns whether corners are those of a box, turned to the right by some quarters."""
    around = ((box.left, box.top), (box.right, box.top), (box.right, box.bottom))
    points = (*around, (box.left, box.bottom))
    wanted = (points[quarters], points[(quarters + 1) % 4], points[quarters - 1])
    pairs = zip(corners, wanted)
    return all(abs(x - u) < NEAR and abs(y - v) < NEAR for (x, y), (u, v) in pairs)


def drawn_pages(data: bytes, dpi: float, count: int, codes: Iterable[int]) -> Iterator[DrawnPage]:
    """Yields the codes of each page of a document, of which there are so many; raises `Different`
    where there are not so many pages, or codes.
    """
    try:
        pdf = Pdf(data, dpi)
        pages = pdf.pages()
        if len(pages) != count:
            raise Different(Text("the output has {} pages instead of {}", len(pages), count))
        for number, several in zip(pages, codes):
            yield pdf.codes_of_page(number, several) if several else DrawnPage((), ())
    except (ValueError, LookupError, TypeError, zlib.error) as error:
        raise Different(Text("the output is not PDF as Cairo writes it: {}", error)) from error
