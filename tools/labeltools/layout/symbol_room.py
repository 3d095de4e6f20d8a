"""The room for symbols in a place, and where they are there. Lengths are in dots."""

from typing import NamedTuple

from labeltools.layout.area import Area
from labeltools.layout.needs import DIGITS_ROOM
from labeltools.layout.place import Place
from labeltools.lines.symbologies import SYMBOLOGIES
from labeltools.paper.box import Box
from labeltools.paper.plan import Dots


class SymbolRoom(NamedTuple):
    """The room for symbols of a symbology: how wide and high it is as they are read, where they are
    across and down in it, the least and the most dots of their modules, the least and the most
    height of bars that have none of their own, and how many modules digits take below them.
    """

    wide: int
    high: int
    across: int
    down: float
    least: int
    most: int
    lowest: int
    highest: int
    below: int

    def least_of(self, width: int, height: int) -> Dots:
        """Returns how wide and high a symbol of a size in modules is at least."""
        lowest = height * self.least if height > 1 else self.lowest
        return width * self.least, lowest + self.below * self.least

    def boxes(self, width: int, height: int) -> tuple[int, dict[str, Box]] | None:
        """Returns the module of a symbol of a size in modules, which is as large as there is room,
        and where its bars and digits are; None where it has no room.
        """
        module = min(self.most, self.wide // width)
        if height > 1:
            module = min(module, self.high // (height + self.below))
            tall = height * module
        else:
            if self.below:
                module = min(module, (self.high - self.lowest) // self.below)
            tall = min(self.highest, self.high - self.below * module)
            tall -= tall % max(1, module)
        if module < self.least or tall < 1:
            return None
        left = (self.wide - width * module) * (self.across + 1) // 2
        top = int((self.high - tall - self.below * module) * self.down)
        bars = Box(left, top, width * module, tall)
        boxes = {"bars": bars}
        if self.below:
            boxes["digits"] = bars._replace(top=bars.bottom, height=self.below * module)
        return module, boxes


def symbol_boxes(
    place: Place, area: Area, code: tuple[str, int, int]
) -> tuple[int, dict[str, Box]] | None:
    """Returns the module of a symbol of a size in modules, and where its bars and digits are in its
    place; None where it has no room there. Bars of all symbologies end on one line.
    """
    name, width, height = code
    kind, box = SYMBOLOGIES[name], place.box_in(area)
    if not kind.nominal:
        modules = area.dots(kind.module), area.most_of_qr
        room = SymbolRoom(*box[2:], place.across, 0.5, *modules, 1, box.height, 0)
        return room.boxes(width, height)
    largest = round(place.module / area.dot)
    digits = DIGITS_ROOM * largest
    high = box.height - digits
    allowed = area.modules[name]
    modules = min(allowed, default=1), min(largest, max(allowed, default=0))
    found = SymbolRoom(box.width, high, place.across, 1.0, *modules, 1, high, 0).boxes(
        width, height
    )
    if found:
        bars = found[1]["bars"]
        found[1]["digits"] = bars._replace(top=bars.bottom, height=digits)
    return found
