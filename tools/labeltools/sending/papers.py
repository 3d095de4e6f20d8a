"""The papers of a printer, as the file of its driver (PPD) has them. Lengths are in millimetres.
"""

import math
import re
from collections.abc import Iterable, Sequence
from dataclasses import dataclass
from functools import partial
from typing import NamedTuple

from labeltools.common.messages import BAD_ARGUMENTS, Remedy, ToolError
from labeltools.common.text import Text
from labeltools.paper.plan import Edges, MILLIMETRES, POINTS
from labeltools.paper.sizes import A4, is_near, LETTER
from labeltools.paper.stock import Size, size_text
from labeltools.printing.job import AS_GIVEN

POINT = MILLIMETRES / POINTS
NEAR = 0.5  # by which a page may differ from a paper: drivers round to points
NO_EDGES: Edges = (0.0, 0.0, 0.0, 0.0)
NARROW = 20.0  # narrower papers only label printers have
NUMBER = r"\s*(-?[0-9.]+)"
NAMED = r"^\*{}\s+([^/:\s]+)[^:\n]*:\s*\"" + NUMBER + r"{}\s*\""
DIMENSION = re.compile(NAMED.format("PaperDimension", NUMBER), re.MULTILINE)
PRINTED = re.compile(NAMED.format("ImageableArea", NUMBER * 3), re.MULTILINE)
CUSTOM = re.compile(r"^\*CustomPageSize\s+True", re.MULTILINE)
SIDE = re.compile(
    r"^\*ParamCustomPageSize\s+(Width|Height)(?:/[^:\n]*)?:\s*\d+\s+points" + NUMBER * 2,
    re.MULTILINE,
)
MARGINS = re.compile(r"^\*HWMargins:" + NUMBER * 4, re.MULTILINE)
FOOMATIC = re.compile(r"^\*cupsFilter2?:.*\bfoomatic-rip\b", re.MULTILINE)
# the bytes of a row of dots that a driver of ptouch sends, and the dots an inch
HEAD_BYTES = re.compile(r"\bBytesPerLine=(\d+) ")
HEAD_DPI = re.compile(r"-r(\d+)")
BITS = 8
SLACK = 1.5  # by which a paper may be wider than the head: labels are white there
GENERAL = (18.0, 36.0, 18.0, 36.0)  # points: foomatic writes these edges where nobody told any
OF_SHEETS = (Remedy("stock"), Remedy("cell"))


class PrinterPaper(NamedTuple):
    """A paper: its name, its sides, and the edges on which nothing is printed; whether these edges
    are only those that a driver has for any printer.
    """

    name: str
    size: Size
    white: Edges
    is_general: bool = False


@dataclass(frozen=True)
class Papers:
    """The papers that a printer has by name; the least and the largest sides of others, where it
    takes such, and the edges of these; how wide its head is, as far as its driver says that.
    """

    known: Sequence[PrinterPaper] = ()
    least: Size = (0.0, 0.0)
    most: Size = (0.0, 0.0)
    white: Edges = NO_EDGES
    is_general: bool = False
    head: float = math.inf

    @property
    def is_office(self) -> bool:
        """Whether a printer of these papers is one for letters, and not for labels."""
        if any(min(paper.size) < NARROW for paper in self.known):
            return False
        return any(is_near(paper.size, page, NEAR) for paper in self.known for page in (A4, LETTER))

    def find(self, page: Size) -> PrinterPaper | None:
        """Returns the paper of a page, whose name is empty if it has none; None where there is no
        such paper.
        """
        if self.is_too_wide(page):
            return None
        for paper in self.known:
            if is_near(paper.size, page, NEAR):
                return self.within_head(paper)
        ends = zip(self.least, page, self.most)
        if all(least - NEAR <= side <= most + NEAR for least, side, most in ends):
            return self.within_head(PrinterPaper("", page, self.white, self.is_general))
        return None

    @property
    def widest(self) -> float:
        """How wide a paper may be: across the head, whatever its length. Drivers that take any size
        name the widest, and print no wider one.
        """
        named = max((paper.size[0] for paper in self.known), default=math.inf)
        return self.head if self.head + SLACK < named else named

    def is_too_wide(self, page: Size) -> bool:
        """Returns whether a page is wider than what is printed across."""
        return page[0] > self.widest + NEAR

    def within_head(self, paper: PrinterPaper) -> PrinterPaper:
        """Returns a paper, with what is beside the head as its edges: drivers leave that out on one
        side, and do not say on which.
        """
        beside = paper.size[0] - self.head
        left, top, right, bottom = paper.white
        return paper._replace(white=(max(left, beside), top, max(right, beside), bottom))

    def paper(self, printer: str, page: Size, is_given: bool = False) -> PrinterPaper:
        """Returns the paper of a page; raises `ToolError` where a printer has none. One of which
        nothing is known has each; a paper below its least, where it takes any other size, is taken
        if it `is_given`.
        """
        if not self.known:
            return PrinterPaper("", page, NO_EDGES)
        found = self.find(page)
        if found is not None:
            return found
        what = Text("{} has no paper of {}", printer, size_text(page))
        hint = Text("take narrower labels, or another printer")
        if self.is_too_wide(page):
            sizes = self.widest, page[0]
            what = Text("{} prints {:.4g} mm across, and this is {:g} mm wide", printer, *sizes)
        other = (page[1], page[0])
        if self.find(other):
            hint = Text("it has {}: give the sides in this order", size_text(other))
        if self.find(other) or self.is_too_wide(page):
            raise ToolError(what, hint, BAD_ARGUMENTS)
        larger = (max(page[0], self.least[0]), max(page[1], self.least[1]))
        if self.find(larger):  # such drivers send it all the same, and many printers take it
            if is_given:
                return PrinterPaper("", page, self.white, self.is_general)
            raise self.below_least(printer)
        near = min((paper.size for paper in self.known), key=partial(math.dist, page))
        hint = Text(
            "the nearest that it has is {}; labels on sheets need the name of their sheet",
            size_text(near),
        )
        raise ToolError(what, hint, BAD_ARGUMENTS, OF_SHEETS)

    def below_least(self, printer: str) -> ToolError:
        """Returns that a page is smaller than what a driver says that a printer takes. The user may
        know better.
        """
        what = Text("{} says that it takes no paper below {}", printer, size_text(self.least))
        hint = Text("labels on sheets need the name of their sheet")
        return ToolError(what, hint, BAD_ARGUMENTS, (*OF_SHEETS, AS_GIVEN))


def papers_of_driver(text: str) -> Papers:
    """Returns the papers that the file of a driver names.

    >>> text = '*PaperDimension A4/A4: "595 842"\\n*ImageableArea A4/A4: "18 36 577 806"\\n'
    >>> [(paper.name, round(paper.white[3], 1)) for paper in papers_of_driver(text).known]
    [('A4', 12.7)]
    """
    text = text.replace("\r\n", "\n").replace("\r", "\n")
    has_general = FOOMATIC.search(text) is not None
    printed = {found[1]: in_millimetres(found.groups()[1:]) for found in PRINTED.finditer(text)}
    known = []
    for found in DIMENSION.finditer(text):
        width, height = in_millimetres(found.groups()[1:])
        left, bottom, right, top = printed.get(found[1], [0.0, 0.0, width, height])
        white = left, height - top, width - right, bottom
        is_general = has_general and are_general(white)
        known.append(PrinterPaper(found[1], (width, height), white, is_general))
    sides = {found[1]: in_millimetres(found.groups()[1:]) for found in SIDE.finditer(text)}
    narrowest = min((paper.size[0] for paper in known), default=0.0)
    head = head_width(text)
    if head + SLACK < narrowest:  # one file of ptouch has such a head
        head = math.inf
    if not CUSTOM.search(text) or len(sides) < len(("Width", "Height")):
        return Papers(known, head=head)
    ends = tuple(zip(sides["Width"], sides["Height"]))
    margins = MARGINS.search(text)
    left, bottom, right, top = in_millimetres(margins.groups()) if margins else NO_EDGES
    white = (left, top, right, bottom)
    is_general = has_general and are_general(white)
    return Papers(known, ends[0], ends[1], white, is_general, head)


def head_width(text: str) -> float:
    """Returns how wide the head of a label printer is, by the file of its driver; infinite if that
    does not say it.

    >>> round(head_width('X=180dpi: " -r180x180" .. Y=16: " BytesPerLine=16 "'), 2)
    18.06
    """
    size, dots = HEAD_BYTES.search(text), HEAD_DPI.search(text)
    return BITS * int(size[1]) / int(dots[1]) * MILLIMETRES if size and dots else math.inf


def in_millimetres(numbers: Iterable[str]) -> list[float]:
    """Returns points in millimetres."""
    return [float(number) * POINT for number in numbers]


def are_general(white: Edges) -> bool:
    """Returns whether edges are those that foomatic has for any printer."""
    return all(abs(side - points * POINT) < NEAR for side, points in zip(white, GENERAL))
