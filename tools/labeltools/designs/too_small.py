"""Why labels have no room in a built-in design, and how large a label would be enough."""

import math
from bisect import bisect_left
from dataclasses import replace
from functools import reduce
from typing import Sequence

from labeltools.common.messages import Problem, Remedy
from labeltools.common.text import joined, Text
from labeltools.designs.templates import has_places
from labeltools.layout.area import Area
from labeltools.layout.needs import Need
from labeltools.paper.plan import PAD
from labeltools.paper.stock import Size, size_text

OTHER_DOTS = Text("choose other modules, or another resolution")
MOST_HEIGHT = 150  # millimetres: the highest label that a message proposes


def reasons(left_out: Sequence[Need], area: Area) -> dict[str, Problem]:
    """Returns why needs have no places, by their symbologies."""
    alike: dict[str, list[Need]] = {}
    for need in left_out:
        alike.setdefault(need.symbology, []).append(need)
    return {name: reason(needs, area) for name, needs in alike.items()}


def reason(needs: Sequence[Need], area: Area) -> Problem:
    """Returns why labels of a symbology do not fit, and a label on which all of them would."""
    symbology = needs[0].kind
    modules = area.modules[symbology.name] if symbology.nominal else (area.dots(symbology.module),)
    if not modules:
        where = symbology.title, area.smallest(symbology)
        what = Text("{}: the printer has no modules of {:g} mm or more", *where)
        return Problem(what, OTHER_DOTS, (Remedy("module"), Remedy("dpi")))
    wide = max(need.width for need in needs) * min(modules)
    is_wide = wide > area.width
    taken = size_text((area.width * area.dot, area.height * area.dot))
    what = Text(
        "{} is too high, with its texts, and the label has room for {}", symbology.title, taken
    )
    if is_wide:
        what = Text(
            "{} is {:.1f} mm wide, with modules of {:.3f} mm, and the label has room for {}",
            symbology.title,
            wide * area.dot,
            min(modules) * area.dot,
            taken,
        )
    found = smallest_for(reduce(Need.joined, needs), area, max(wide, area.width))
    larger = Text("take a larger label")
    if found:
        larger = Text("take a label of at least {}", size_text(found))
    hints = [larger]
    if not symbology.is_number:
        hints.append(Text("shorter data"))
    if not is_wide:
        hints.append(Text("less text"))
    return Problem(what, joined(", ", hints))


def smallest_for(need: Need, area: Area, width: int) -> Size | None:
    """Returns the lowest cell of a width, or of a bit more, in which a label has room, in whole
    millimetres; None where there is none.
    """
    for wide in (width, width + width // 4):
        cell = math.ceil(wide * area.dot + 2 * PAD)
        heights = range(int(2 * PAD) + 1, MOST_HEIGHT + 1)
        if fits_cell(need, (cell, MOST_HEIGHT), area):
            least = bisect_left(heights, True, key=lambda high: fits_cell(need, (cell, high), area))
            return cell, heights[least]
    return None


def fits_cell(need: Need, cell: Size, area: Area) -> bool:
    """Returns whether a label has room in a cell of a size in millimetres."""
    width, height = (math.floor((side - 2 * PAD) / area.dot) for side in cell)
    return has_places(replace(area, width=width, height=height), {need: 1})
