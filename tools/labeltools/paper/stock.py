"""Sheets of labels: grids that are given, and the parts that glabels knows. Lengths are in
millimetres.
"""

import re
from contextlib import suppress
from dataclasses import dataclass
from functools import cache
from pathlib import Path
from typing import Iterator
from xml.etree.ElementTree import Element, parse

from labeltools.common.messages import BAD_ARGUMENTS, Remedy, ToolError
from labeltools.common.text import counted, Text


GRID = tuple(map(Remedy, ("grid", "cell")))
Size = tuple[float, float]
PartName = tuple[str, str]  # the maker and the name of a part

TEMPLATES = Path("/usr/share/libglabels-3.0/templates")
# millimetres of each unit; a length without one is in points
UNITS = {"mm": 1.0, "cm": 10.0, "in": 25.4, "pt": 25.4 / 72, "pc": 25.4 / 6, "": 25.4 / 72}
LENGTH = re.compile(r"\s*(-?[0-9.]+(?:[eE][+-]?[0-9]+)?)(?:\s*(mm|cm|in|pt|pc))?\s*")
MOST_BEYOND = 1.0  # by which cells may leave their page: makers round sizes
MOST_CELLS = 10_000  # on one page
ANOTHER_SHEET = Text("choose another sheet")
SIZE_WORD = re.compile(r"([0-9]{1,4}(?:\.[0-9]{1,3})?)x([0-9]{1,4}(?:\.[0-9]{1,3})?)")
NEAR = 0.75  # by which a size that is searched for may differ


@dataclass(frozen=True)
class Sheet:
    """A page, the size of a cell, and the upper left corner of each cell."""

    page: Size
    cell: Size
    places: tuple[Size, ...]

    @property
    def is_single(self) -> bool:
        """Whether the page is one cell, as on a roll."""
        return self.page == self.cell

    def beyond(self) -> float:
        """Returns by how much the cells leave the page."""
        width, height = self.cell
        lefts = [x for x, _ in self.places]
        tops = [y for _, y in self.places]
        across = max(-min(lefts), max(lefts) + width - self.page[0])
        return max(across, -min(tops), max(tops) + height - self.page[1])

    @property
    def said(self) -> Text:
        """How many labels it has, of which size."""
        sizes = size_text(self.cell), size_text(self.page)
        return counted("{} label of {} on {}", "{} labels of {} on {}", len(self.places), *sizes)


@dataclass(frozen=True)
class Grid:
    """A grid of cells as it is asked for; without a margin all cells are in the middle."""

    page: Size
    cell: Size
    columns: int
    rows: int
    margin: Size | None = None
    gap: Size = (0.0, 0.0)


def size_text(size: Size) -> Text:
    """Returns a size in words."""
    return Text("{:.4g} by {:.4g} mm", *size)


def grid_sheet(grid: Grid) -> Sheet:
    """Returns the sheet of a grid; raises `ToolError` where its cells leave the page, or where they
    are too many.
    """
    if grid.columns * grid.rows > MOST_CELLS:
        message = Text(
            "a page of {} by {} cells: the maximum is {:,}", grid.columns, grid.rows, MOST_CELLS
        )
        hint = Text("take fewer cells")
        raise ToolError(message, hint, BAD_ARGUMENTS, (Remedy("grid"),))
    across = grid.cell[0] + grid.gap[0]
    down = grid.cell[1] + grid.gap[1]
    middle = (
        (grid.page[0] + grid.gap[0] - grid.columns * across) / 2,
        (grid.page[1] + grid.gap[1] - grid.rows * down) / 2,
    )
    left, top = grid.margin or middle
    places = [
        (left + column * across, top + row * down)
        for row in range(grid.rows)
        for column in range(grid.columns)
    ]
    sheet = Sheet(grid.page, grid.cell, tuple(places))
    if sheet.beyond() > MOST_BEYOND:
        message = Text("{}: the cells extend {:.2f} mm beyond the page", sheet.said, sheet.beyond())
        hint = Text("measure the sheet again, with its margin and gaps")
        raise ToolError(message, hint, BAD_ARGUMENTS)
    return sheet


def stock_sheet(name: str) -> Sheet:
    """Returns the sheet of a part by its name, such as `Avery L7160` or `l7160`; raises `ToolError`
    where there is none, or where several makers have it.
    """
    found = parts_named(name)
    if len(found) == 1:
        return glabels_sheet(found[0])
    reason = Text("no such sheet")
    hint = Text("look for a part of its name in the list")
    if found:
        reason = Text("several makers have it")
        hint = Text("name one of {}", ", ".join(map(" ".join, found)))
    listed = () if found else (Remedy("list-stock", "WORD"),)
    raise ToolError(Text("{}: {}", name, reason), hint, BAD_ARGUMENTS, listed)


def parts_named(name: str) -> list[PartName]:
    """Returns the parts of a name: of its maker and part, or of the part alone, behind the names of
    any makers.
    """
    wanted = bare_name(name)
    if whole := [key for key in glabels_parts() if bare_name("".join(key)) == wanted]:
        return whole
    words = name.split()
    makers = [word for word in words if bare_name(word) in brands()]
    bare = bare_name("".join(word for word in words if word not in makers))
    found = [key for key in glabels_parts() if bare_name(key[1]) in (wanted, bare)]
    named = {bare_name(maker) for maker in makers}
    return [key for key in found if bare_name(key[0]) in named] or found


def list_stock(words: str) -> Iterator[tuple[str, Sheet]]:
    """Yields each part of rectangles whose name or sheet has these words; a word such as `70x37` is
    the size of a cell.
    """
    wanted = words.lower().split()
    makers = [word for word in wanted if bare_name(word) in brands()]
    others = [word for word in wanted if word not in makers]
    for key in glabels_parts():
        with suppress(ToolError):
            sheet = glabels_sheet(key)
            name = " ".join(key)
            line = f"{name}: {sheet.said}"
            is_maker = not makers or any(has_word(key, sheet, line, maker) for maker in makers)
            if is_maker and all(has_word(key, sheet, line, word) for word in others):
                yield name, sheet


def has_word(key: PartName, sheet: Sheet, line: str, word: str) -> bool:
    """Returns whether a part has a word in its line, without spaces and hyphens in its name, or as
    the size of its cell.
    """
    if size := SIZE_WORD.fullmatch(word):
        near = [abs(float(size[1 + side]) - sheet.cell[side]) <= NEAR for side in (0, 1)]
        return all(near) or word in line.lower()
    return word in line.lower() or bare_name(word) in bare_name("".join(key))


def bare_name(name: str) -> str:
    """Returns a name without case, spaces and hyphens."""
    return re.sub(r"[\s\-]", "", name).lower()


@cache
def glabels_parts() -> dict[PartName, Element]:
    """Returns every part that glabels knows, by its maker and name; raises `ToolError` where
    glabels is not there.
    """
    trees = [parse(path) for path in TEMPLATES.glob("*.xml")]
    found = [part for tree in trees for part in tree.iterfind("{*}Template")]
    if not found:
        what = Text("names of sheets need glabels-data, which is not installed")
        hint = Text("install that package, or give the grid of the sheet")
        raise ToolError(what, hint, remedies=GRID)
    named = {(part.get("brand", ""), part.get("part", "")): part for part in found}
    return {key: named[key] for key in sorted(named)}


def forget_glabels() -> None:
    """Frees the parts, which take some 16 MB, and their sheets."""
    glabels_parts.cache_clear()
    glabels_sheet.cache_clear()


@cache
def brands() -> frozenset[str]:
    """Returns the plain names of all makers."""
    return frozenset(bare_name(maker) for maker, _ in glabels_parts())


@cache
def papers() -> dict[str, Size]:
    """Returns the sizes of paper that the parts name."""
    sizes = parse(TEMPLATES / "paper-sizes.xml").iterfind("{*}Paper-size")
    return {size.get("id", ""): lengths_of(size) for size in sizes}


def lengths_of(element: Element, first: str = "width", second: str = "height") -> Size:
    """Returns two lengths of an element; one that it does not have is 0."""
    return length_of(element.get(first)), length_of(element.get(second))


def length_of(text: str | None) -> float:
    """Returns a length in millimetres; 0 where there is none.

    >>> [round(length_of(text), 2) for text in ("9mm", "2.54cm", "1in", "72pt", "6pc", "72")]
    [9.0, 25.4, 25.4, 25.4, 25.4, 25.4]
    """
    match = LENGTH.fullmatch(text or "0")
    return float(match[1]) * UNITS[match[2] or ""] if match else 0.0


@cache
def glabels_sheet(key: PartName) -> Sheet:
    """Returns the sheet of a part; raises `ToolError` where no label can be laid out for it."""
    part = glabels_parts()[key]
    name = " ".join(key)
    if same := part.get("equiv"):
        return glabels_sheet((key[0], same))
    cell = next(child for child in part if "Label-" in child.tag)
    if not cell.tag.endswith("Label-rectangle"):
        kind = cell.tag.rpartition("Label-")[2]
        what = Text("{}: its labels are not rectangles ({})", name, kind)
        raise ToolError(what, ANOTHER_SHEET, BAD_ARGUMENTS)
    places = sorted(places_of(cell), key=lambda corner: corner[::-1])
    page = papers().get(part.get("size", "")) or lengths_of(part)
    sheet = Sheet(page, lengths_of(cell), tuple(places))
    if not places or not min(sheet.cell) or sheet.beyond() > MOST_BEYOND:
        what = Text("{}: by the list of glabels its labels are larger than its page", name)
        raise ToolError(what, ANOTHER_SHEET, BAD_ARGUMENTS, GRID)
    return sheet


def places_of(cell: Element) -> Iterator[Size]:
    """Yields the upper left corners of the cells of all layouts of a part."""
    for layout in cell.iterfind("{*}Layout"):
        left, top = lengths_of(layout, "x0", "y0")
        across, down = lengths_of(layout, "dx", "dy")
        for row in range(int(layout.get("ny", "0"))):
            for column in range(int(layout.get("nx", "0"))):
                yield left + column * across, top + row * down
