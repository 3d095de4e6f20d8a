"""The list of sheets, with a picture of the grid of each, by which a keeper knows hers; and sheets
of the keeper's own by the names that she gives them: a grid on a page of A4. Lengths are in
millimetres.
"""

from contextlib import suppress
from dataclasses import dataclass
from functools import lru_cache
from typing import Any

import cairo

from labeltools.common.messages import ToolError
from labeltools.common.text import Text, translated
from labeltools.paper.sizes import A4
from labeltools.paper.stock import Grid, grid_sheet, list_stock, parts_named, Sheet, Size
from labeltools.window.gtk import Gdk
from labeltools.window.memory import SHEETS

SIDE = 40  # pixels of the longer side of a picture
GAP = 1.0  # pixels between two cells at least
BETWEEN = (0.55, 0.6, 0.68)
LEAST_GAP = 0.05  # of two labels beside one another: makers round sizes


@dataclass(frozen=True)
class OwnSheet:
    """A sheet: how many labels are beside and below one another, the size of one, and where the
    first one begins; without that they touch, and are in the middle of the page.
    """

    columns: int
    rows: int
    width: float
    height: float
    left: float | None = None
    top: float | None = None

    @property
    def middle(self) -> Size:
        """Where the first label begins if all touch."""
        return (A4[0] - self.columns * self.width) / 2, (A4[1] - self.rows * self.height) / 2

    @property
    def grid(self) -> Grid:
        """Its grid; a page has the same margin on both sides."""
        cell, counts = (self.width, self.height), (self.columns, self.rows)
        if self.left is None or self.top is None:
            return Grid(A4, cell, *counts)
        margin = self.left, self.top
        across, down = map(gap_of, A4, margin, counts, cell)
        return Grid(A4, cell, *counts, margin, (across, down))

    @property
    def options(self) -> dict[str, Any]:
        """The options of label-print for it."""
        grid = self.grid
        found: dict[str, Any] = {"grid": f"{grid.columns}x{grid.rows}"}
        found["cell"] = f"{self.width:g}x{self.height:g}"
        if grid.margin:
            found["margin"] = "x".join(f"{round(side, 3):g}" for side in grid.margin)
            found["gap"] = "x".join(f"{round(side, 3):g}" for side in grid.gap)
        return found


def gap_of(page: float, margin: float, count: int, size: float) -> float:
    """Returns what is between labels that fill a side of a page but for its margins; nothing where
    that is too little to be meant.

    >>> gap_of(210, 7.25, 3, 63.5), round(gap_of(297, 15.1, 7, 38.1), 3), gap_of(210, 9, 1, 192)
    (2.5, 0.0, 0.0)
    """
    gap = (page - 2 * margin - count * size) / (count - 1) if count > 1 else 0.0
    return gap if gap > LEAST_GAP else 0.0


def own_sheet(name: str | None) -> OwnSheet | None:
    """Returns the sheet of the keeper's own that has a name; nothing if none has."""
    kept = SHEETS.get(name, None) if name else None
    if kept is None:
        return None
    try:
        return OwnSheet(**kept)
    except TypeError:  # somebody has written something else there
        return None


def fill_with_sheets(model: Any, typed: str) -> None:
    """Fills a model with the sheets of the keeper's own and those that label-print lists for what
    is typed, first those that begin so.
    """
    model.clear()
    if len(typed) < 2:
        return
    found: dict[str, Sheet] = {}
    for name in SHEETS.all():
        own = own_sheet(name)
        if own and typed in name.lower():
            with suppress(ToolError):
                found[name] = grid_sheet(own.grid)
    with suppress(ToolError):  # glabels, which has the others, is not there
        for name, sheet in list_stock(typed):
            found.setdefault(name, sheet)
    for name in sorted(found, key=lambda name: not name.lower().startswith(typed)):
        said = translated(Text("{}: {}", name, found[name].said))
        model.append([name, said, grid_of(found[name])])


def is_sheet(name: str) -> bool:
    """Returns whether the list has a sheet of a name, or of a part of one."""
    with suppress(ToolError):  # glabels, which has the list, is not there
        return bool(name and parts_named(name))
    return False


@lru_cache(500)
def grid_of(sheet: Sheet, side: int = SIDE) -> Any:
    """Returns a picture of the grid of a sheet, whose longer side has some pixels."""
    width, height = sheet.page
    scale = side / max(width, height)
    sides = max(3, round(width * scale)), max(3, round(height * scale))
    surface = cairo.ImageSurface(cairo.FORMAT_ARGB32, *sides)
    canvas = cairo.Context(surface)
    canvas.set_source_rgb(*BETWEEN)
    canvas.paint()
    canvas.set_source_rgb(1, 1, 1)
    across, down = (max(1.0, side * scale - GAP) for side in sheet.cell)
    for left, top in sheet.places:
        canvas.rectangle(left * scale + GAP / 2, top * scale + GAP / 2, across, down)
    canvas.fill()
    return Gdk.pixbuf_get_from_surface(surface, 0, 0, *sides)
