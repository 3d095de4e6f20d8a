"""The built-in designs: places by a template for the labels of a file, the same ones for all of
these, or for those of a symbology, or for one label; labels are filled into them.
"""

from functools import cache, lru_cache
from typing import Iterator, Mapping, Sequence

from labeltools.common.messages import Talk
from labeltools.designs.common_places import places_for
from labeltools.designs.design import Design, Setting
from labeltools.designs.fit import SetRoom
from labeltools.designs.templates import TITLE_INK
from labeltools.designs.too_small import reasons
from labeltools.layout.area import Area
from labeltools.layout.fitting import LEFT, side_of
from labeltools.layout.layout import LaidOut, LaidOutFile, PlacedSymbol, PlacedText
from labeltools.layout.letters import Letters
from labeltools.layout.needs import HINTING, STYLE_NUMBERS, styles_from
from labeltools.layout.place import Place
from labeltools.layout.price import base_of_price, KEPT, price_widths, shape_of
from labeltools.layout.symbol_room import symbol_boxes
from labeltools.lines.file import Record
from labeltools.paper.box import Box

BETWEEN = "   "  # parts on one line
NOTHING_ABSENT = frozenset[str]()  # no drawing is below a label


class BuiltIn(Design):
    """A built-in design: what its labels are for is a wish of their area."""

    def lay_out(self, labels: Sequence[Record], on: Setting, talk: Talk) -> LaidOutFile:
        """Returns labels as they are laid out, and why others are left out."""
        needs, found = places_for(labels, on.area, on.letters, talk)
        why = reasons(found.left_out, found.area)
        sets = {*found.places.values()}
        filled = {places: FilledPlaces(places, found.area, on.letters) for places in sets}
        placed = []
        left_out = {}
        for label, need in zip(labels, needs):
            places = found.places.get(need)
            if places is None:
                left_out[label.number] = why[need.symbology]
            else:
                placed.append(FilledLabel(label, filled[places]))
        return LaidOutFile(tuple(placed), found.area, left_out)


class FilledLabel(LaidOut):
    """A label in the places of a template: its parts are made as often as they are asked for, and
    not kept, since that takes more memory than the lines of a file.
    """

    __slots__ = ("places",)
    places: "FilledPlaces"

    def __init__(self, record: Record, places: "FilledPlaces") -> None:
        object.__setattr__(self, "record", record)
        object.__setattr__(self, "places", places)
        object.__setattr__(self, "absent", NOTHING_ABSENT)

    @property
    def symbols(self) -> tuple[PlacedSymbol, ...]:
        """Its symbol."""
        return (self.places.symbol(self.record),)

    @property
    def texts(self) -> tuple[PlacedText, ...]:
        """Its texts."""
        return tuple(self.places.texts(self.record))

    def words(self) -> Iterator[PlacedText]:
        """Yields its texts but for prices."""
        return self.places.words(self.record)

    @property
    def is_small_price(self) -> bool:
        """Whether its price is smaller than those of others."""
        return self.places.is_small(shape_of(self.record.price, self.places.letters))


class FilledPlaces:
    """Fills the places of a template with labels."""

    def __init__(self, places: Sequence[Place], area: Area, letters: Letters) -> None:
        self.area = area
        self.letters = letters
        self.places = {place.part: place for place in places}
        self.boxes = {part: place.box_in(area) for part, place in self.places.items()}
        self.rooms = {
            part: SetRoom(place, self.boxes[part], letters, area.dot)
            for part, place in self.places.items()
            if part != "code"
        }
        self.boxes_of = cache(self.new_boxes)
        self.is_small = lru_cache(KEPT)(self.new_is_small)

    def symbol(self, label: Record) -> PlacedSymbol:
        """Returns the symbol of a label."""
        modules = label.modules
        box, module, boxes = self.boxes_of(label.symbology, modules.width, modules.height)
        how = (label.data, modules, label.kind, module, boxes)
        return PlacedSymbol(self.places["code"], box, *how)

    def new_boxes(self, name: str, width: int, height: int) -> tuple[Box, int, Mapping[str, Box]]:
        """Returns the box of symbols of a size in modules, their module, and where bars and digits
        are in the box.
        """
        found = symbol_boxes(self.places["code"], self.area, (name, width, height))
        assert found
        module, boxes = found
        code, bars = self.boxes["code"], boxes["bars"]
        high = max(box.bottom for box in boxes.values()) - bars.top
        inside = {
            part: box._replace(left=box.left - bars.left, top=box.top - bars.top)
            for part, box in boxes.items()
        }
        whole = Box(code.left + bars.left, code.top + bars.top, bars.width, high)
        return whole, module, inside

    def words(self, label: Record) -> Iterator[PlacedText]:
        """Yields the title of a label, and its text if that has a place of its own."""
        title = None
        if label.head:
            title = self.rooms["title"].wrapped_text(label.head)
            yield title
        if label.body and "text" in self.rooms:
            yield from self.below(label.body, title)

    def texts(self, label: Record) -> Iterator[PlacedText]:
        """Yields the texts of a label in their places."""
        yield from self.words(label)
        if "price" in self.rooms and label.price.strip():
            yield from self.price_and_old_one(label)
        was = "" if "was" in self.rooms else label.was
        text = "" if "text" in self.rooms else label.body
        details = [*filter(None, (was, text, label.unit))]
        if details and "unit" in self.rooms:
            between = "\n" if self.places["unit"].lines > 1 else BETWEEN
            yield self.rooms["unit"].text(between.join(details), len(was.encode()))

    def below(self, text: str, title: PlacedText | None) -> Iterator[PlacedText]:
        """Yields a text in its place, or behind the last line of its title where that is above it:
        their ink begins at one edge, if the text has room there.
        """
        room = self.rooms["text"]
        placed = room.text(text)
        if title is None or not room.place.follows:
            yield placed
            return
        inset = 0
        if room.place.across == LEFT:
            taken = room.width_of(text) + 2 * side_of(room.size)
            wished = round(TITLE_INK * (self.rooms["title"].size - room.size))
            inset = max(0, min(room.box.width - taken, wished))
        left, _, width, high = room.box
        yield placed._replace(box=Box(left + inset, title.box.bottom, width - inset, high))

    def price_and_old_one(self, label: Record) -> Iterator[PlacedText]:
        """Yields the price of a label, and its old price where that has a place at the left of it,
        on one base line.
        """
        room = self.rooms["price"]
        style = room.style(self.letters.of(label.price).family, room.size, 0)
        price = PlacedText(room.place, label.price, room.box, style)
        if "was" not in self.rooms or not label.was:
            yield price
            return
        shape = shape_of(label.price, self.letters)
        base = base_of_price(shape, room.place.price_style, style, room.box, self.letters)
        yield price._replace(style=style._replace(base=base))
        was = self.rooms["was"].text(label.was, len(label.was.encode()))
        yield was._replace(style=was.style._replace(base=base))

    def new_is_small(self, shape: str) -> bool:
        """Returns whether prices of a shape are smaller than others."""
        room = self.rooms.get("price")
        if room is None:
            return False
        widths = price_widths(shape, self.letters)
        wide = min(widths[STYLE_NUMBERS[style]] for style in styles_from(room.place.price_style))
        return HINTING * room.size * wide > room.box.width + room.size / 4
