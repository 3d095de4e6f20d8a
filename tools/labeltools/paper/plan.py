"""Where the cells of a sheet take ink, in whole dots."""

import math
from dataclasses import dataclass

from labeltools.paper.stock import Sheet

Dots = tuple[int, int]
Edges = tuple[float, float, float, float]  # left, top, right, bottom in millimetres

MILLIMETRES = 25.4  # in an inch
POINTS = 72  # in an inch
PAD = 1.0  # millimetres of white inside each edge of a cell
MOST_DOTS = 32_767  # of a side of a page
TINY = 1e-6  # what a sum of rounded numbers may be off by


@dataclass(frozen=True)
class Plan:
    """A sheet in dots: the sides of its page, the upper left corner of the room in each cell, and
    the sides of that room.
    """

    sheet: Sheet
    dpi: int
    page: Dots
    places: tuple[Dots, ...]
    room: Dots

    @property
    def dot(self) -> float:
        """The millimetres of a dot."""
        return MILLIMETRES / self.dpi


def plan_of(sheet: Sheet, dpi: int, edges: Edges) -> Plan:
    """Returns the plan of a sheet for a printer; what is within `edges` of the page stays white."""
    dot = MILLIMETRES / dpi
    spans = [
        [span(side, place[side], sheet, edges, dot) for side in (0, 1)] for place in sheet.places
    ]
    width = min(wide for (_, wide), _ in spans)
    height = min(high for _, (_, high) in spans)
    # cells at an edge have less room, and all labels are alike
    places = [
        (left + (wide - width) // 2, top + (high - height) // 2)
        for (left, wide), (top, high) in spans
    ]
    page = round(sheet.page[0] / dot), round(sheet.page[1] / dot)
    return Plan(sheet, dpi, page, tuple(places), (width, height))


def whole_plan_of(sheet: Sheet, dpi: int) -> Plan:
    """Returns the plan of a sheet whose cells have room from edge to edge."""
    dot = MILLIMETRES / dpi
    places = tuple((round(x / dot), round(y / dot)) for x, y in sheet.places)
    page = round(sheet.page[0] / dot), round(sheet.page[1] / dot)
    width, height = (math.floor(side / dot + TINY) for side in sheet.cell)
    return Plan(sheet, dpi, page, places, (width, height))


def unprinted_edges(sheet: Sheet, edges: Edges) -> Edges:
    """Returns how much of a cell's edges is within those of its page, in any cell."""
    lefts = [x for x, _ in sheet.places]
    tops = [y for _, y in sheet.places]
    return (
        max(0.0, edges[0] - min(lefts)),
        max(0.0, edges[1] - min(tops)),
        max(0.0, max(lefts) + sheet.cell[0] - sheet.page[0] + edges[2]),
        max(0.0, max(tops) + sheet.cell[1] - sheet.page[1] + edges[3]),
    )


def span(side: int, start: float, sheet: Sheet, edges: Edges, dot: float) -> Dots:
    """Returns the whole dots that a cell takes ink in, from left to right (side 0) or from top to
    bottom (1): the first, and how many.
    """
    first = max(start + PAD, edges[side])
    last = min(start + sheet.cell[side] - PAD, sheet.page[side] - edges[side + 2])
    begin = math.ceil(first / dot - TINY)
    return begin, max(0, math.floor(last / dot + TINY) - begin)
