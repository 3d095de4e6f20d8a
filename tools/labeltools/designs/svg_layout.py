"""Lays out labels in a design of a user's own: texts in their places, and symbols of the largest
module that their place takes. Lengths are in dots.
"""

import math
from collections import Counter
from dataclasses import dataclass
from functools import cache, lru_cache
from itertools import combinations, compress, repeat
from typing import Iterator, Mapping, NamedTuple, Sequence

from labeltools.common.messages import Problem, Remedy, Talk, ToolError
from labeltools.common.text import Text
from labeltools.designs.background import Background
from labeltools.designs.design import Below, Design, Setting
from labeltools.designs.fit import ENLARGE, NoRoom, Room
from labeltools.designs.svg_design import mixed_text, NEAR, SvgDesign, UNREAD
from labeltools.layout.area import LARGEST_MODULE
from labeltools.layout.layout import ASKED, LaidOut, LaidOutFile, PlacedSymbol, short
from labeltools.layout.letters import Letters
from labeltools.layout.medium import Medium
from labeltools.layout.needs import DIGITS_ROOM, LOWEST
from labeltools.layout.place import key_of, PARTS, Place
from labeltools.layout.symbol_room import SymbolRoom
from labeltools.lines.engine import drawn, Modules
from labeltools.lines.file import Record, symbology_and_data
from labeltools.lines.reasons import Refused
from labeltools.lines.symbologies import SYMBOLOGIES, Symbology
from labeltools.paper.box import Box
from labeltools.paper.plan import TINY
from labeltools.paper.stock import size_text

FIELDS = ("title", "price", "unit", "was", "code")  # of each label
KEPT = 16  # columns of labels


class Values(NamedTuple):
    """What a label has for places: texts by their keys, and the other names of these keys."""

    texts: Mapping[str, str]
    names: Mapping[str, str]


# symbols by their places and texts: their modules and data, or why they are refused
SecondSymbols = dict[tuple[Place, str], tuple[Modules, bytes] | Refused]


def values_of(label: Record, note: str, own: frozenset[str]) -> Values:
    """Returns the texts of a label: those with a place or a group of their own by their names, the
    others together as its text.
    """
    keys, names = keys_of_columns(label.names or ("",) * len(label.text), bool(note), own)
    code = label.data.decode("utf-8", "surrogateescape")
    texts = dict(zip(FIELDS, (label.title, label.price, label.unit, label.was, code)))
    rest = []
    for key, text in zip(keys, (*label.text, note)):
        if key == "text":
            rest.append(text)
        else:
            texts[key] = text
    texts["text"] = "\n".join(rest)
    return Values({key: text for key, text in texts.items() if text}, names)


@lru_cache(KEPT)
def keys_of_columns(
    columns: tuple[str, ...], has_note: bool, own: frozenset[str]
) -> tuple[Sequence[str], Mapping[str, str]]:
    """Returns the keys of the texts of some columns, behind them that of a note, and the names of
    all keys.
    """
    names = {key: key for key in FIELDS}
    keys = []
    rest = []
    for name, is_note in (*zip(columns, repeat(False)), *[("note", True)] * has_note):
        key = key_of(name)
        if key in own and key not in names and (is_note or key not in PARTS):
            names[key] = name
        else:
            key = "text"
            rest.append(name or key)
        keys.append(key)
    if rest:
        names["text"] = ", ".join(dict.fromkeys(rest))
    return keys, names


@dataclass(frozen=True)
class SvgLabels(Design):
    """What the design of a file does with labels: its drawing, and then what differs."""

    design: SvgDesign

    def lay_out(self, labels: Sequence[Record], on: Setting, talk: Talk) -> LaidOutFile:
        """Returns labels with their layouts, why others are left out, and what is said of all."""
        return SvgLayouts(self.design, on).lay_out(labels, talk)

    def printed(self, labels: Sequence[Record], on: Setting) -> Mapping[int, Sequence[str]]:
        """Returns the texts of labels in places of letters."""
        return SvgLayouts(self.design, on).texts_in_places(labels)

    def below(self, medium: Medium) -> Below:
        """Returns the drawing."""
        return Background(self.design, medium)


class SvgLayouts:
    """Lays out labels in a design; labels are turned as that is."""

    def __init__(self, design: SvgDesign, on: Setting) -> None:
        self.design = design
        self.area = on.area.turned() if design.is_turned else on.area
        self.letters = on.letters
        self.note = on.note
        self.left_out: dict[int, Problem] = {}
        self.places = self.design.places
        groups = self.design.groups
        self.own = frozenset(key for place in self.places for key in (place.key, place.part))
        self.known = self.own | {*groups, *groups.values()}.difference(PARTS)
        self.asked = frozenset(PARTS).union(map(key_of, on.empty))
        self.boxes = {place: place.box_in(self.area) for place in self.places}
        self.boxes_of = cache(self.new_boxes)
        self.unread = cache(lambda absent: self.design.mixed(absent, UNREAD, 0.5))
        self.coloured = cache(self.design.coloured)

    def lay_out(self, labels: Sequence[Record], talk: Talk) -> LaidOutFile:
        """Returns labels with their layouts, why others are left out, and what is said of all."""
        values = [values_of(label, self.note, self.known) for label in labels]
        rows = self.rows_of(values)
        symbols = self.second_symbols(rows, talk)
        rooms = self.rooms(rows)
        named = self.own.union(self.asked, *(value.texts for value in values))
        every = self.design.groups.items()
        known = ((key, key if key in named else part) for key, part in every)
        groups = {key: part for key, part in known if part in named}
        placed = []
        for number, label in enumerate(labels):
            if number % ASKED == 0:
                talk.go_on(number, 0)
            texts = values[number].texts
            absent = frozenset(key for key, part in groups.items() if part not in texts)
            try:
                placed.append(self.laid_out(label, rows[number], absent, rooms, symbols))
            except NoRoom as problem:
                self.left_out[label.number] = problem.problem
        said = ((labels[0].origin, text) for text in self.said(labels, values, rows, rooms))
        return LaidOutFile(tuple(placed), self.area, self.left_out, tuple(said if labels else ()))

    def texts_in_places(self, labels: Sequence[Record]) -> Mapping[int, Sequence[str]]:
        """Returns the texts of labels in places of letters, by the numbers of their lines."""
        rows = self.rows_of([values_of(label, self.note, self.known) for label in labels])
        are_texts = [not place.is_symbol for place in self.places]
        texts = (map(short, compress(row, are_texts)) for row in rows)
        return {label.number: [*several] for label, several in zip(labels, texts)}

    def rows_of(self, values: Sequence[Values]) -> list[tuple[str, ...]]:
        """Returns the texts of labels in all places: Line-2 is a column where any label has one of
        that name, or else the second place of Line, on all labels alike.
        """
        known = frozenset[str]().union(*(value.names for value in values))
        keys = [place.key if place.key in known else place.part for place in self.places]
        texts = [value.texts for value in values]
        return [*zip(*([found.get(key, "") for found in texts] for key in keys))]

    def rooms(self, rows: Sequence[Sequence[str]]) -> dict[Place, Room]:
        """Returns the rooms of texts."""
        rooms = {}
        letters = cache(lambda font: Letters(font) if font else self.letters)
        for place, texts in zip(self.places, zip(*rows)):
            counts: Counter[str] = Counter(map(short, filter(None, texts)))
            if counts and not place.is_symbol:
                how = (self.boxes[place], letters(place.font), self.area.dot)
                rooms[place] = Room(place, *how, counts)
        return rooms

    def second_symbols(self, rows: Sequence[Sequence[str]], talk: Talk) -> SecondSymbols:
        """Returns the symbols that are made of texts, or why they are refused."""
        columns = zip(self.places, zip(*rows))
        of_symbols = ((place, texts) for place, texts in columns if place.symbology)
        every = ((place, text) for place, texts in of_symbols for text in texts if text)
        wanted = [*dict.fromkeys(every)]
        lines = [line_of(place, text) for place, text in wanted]
        found: SecondSymbols = {}
        for key, line, modules in zip(wanted, lines, drawn(lines, True, talk)):
            _, data = symbology_and_data(line, True)
            found[key] = modules if isinstance(modules, Refused) else (modules, data)
        return found

    def laid_out(
        self,
        label: Record,
        row: Sequence[str],
        absent: frozenset[str],
        rooms: Mapping[Place, Room],
        made: SecondSymbols,
    ) -> LaidOut:
        """Returns a label whose texts are those of a row as it is laid out; raises `NoRoom`."""
        texts = []
        symbols = []
        unread = self.unread(absent)
        for place, text in zip(self.places, row):
            if not text:
                continue
            if place in unread:
                raise NoRoom(mixed_text(self.design.page.file, place.title))
            if place in rooms:
                placed = rooms[place].text(short(text))
                own = self.coloured(absent)[place] if absent else place
                texts.append(placed._replace(place=own))
                continue
            symbology, modules, data = label.kind, label.modules, label.data
            if place.symbology:
                second = made[place, text]
                if isinstance(second, Refused):
                    what = Text("place {}: {}", place.title, second.problem.what)
                    raise NoRoom(what, second.problem.hint)
                symbology, (modules, data) = SYMBOLOGIES[place.symbology], second
            module, boxes = self.boxes_of(place, symbology.name, modules.width, modules.height)
            how = (data, modules, symbology, module, boxes)
            symbols.append(PlacedSymbol(place, self.boxes[place], *how))
        return LaidOut(label, tuple(symbols), tuple(texts), absent)

    def new_boxes(
        self, place: Place, name: str, width: int, height: int
    ) -> tuple[int, Mapping[str, Box]]:
        """Returns the module and the boxes of symbols of a size in modules; raises `NoRoom`."""
        symbology = SYMBOLOGIES[name]
        wide, high = place.as_read(self.boxes[place])
        least, most = self.allowed(place, symbology)
        lowest = math.ceil(LOWEST / self.area.dot)
        below = DIGITS_ROOM if symbology.nominal else 0
        where = (wide, high, place.across, place.down)
        room = SymbolRoom(*where, least, most, lowest, high, below)
        found = room.boxes(width, height)
        if found is None:
            raise self.no_room(place, symbology, room.least_of(width, height))
        return found

    def allowed(self, place: Place, symbology: Symbology) -> tuple[int, int]:
        """Returns the least and the most dots of a module. EAN and UPC have a largest one."""
        dot = self.area.dot
        least = max(1, math.ceil(self.area.smallest(symbology) / dot - TINY))
        wished = place.module or self.area.wishes.module
        if wished:
            least = max(least, round(wished / dot))
            return least, least
        most = int(LARGEST_MODULE / dot + TINY) if symbology.is_number else self.area.width
        return least, max(least, most)

    def no_room(self, place: Place, symbology: Symbology, wanted: tuple[int, int]) -> NoRoom:
        """Returns why a symbol, which takes so many dots at least, has no room in its place: a dot
        more has as many whole ones wherever it is.
        """
        wide, high = (math.ceil((dots + 1) * self.area.dot * 10) / 10 for dots in wanted)
        across, down = (place.width, place.height)[:: -1 if place.quarters % 2 else 1]
        hint = ENLARGE if symbology.is_number else Text("enlarge it, or take shorter data")
        what = Text(
            "{} needs {}, and the place {} of {} has {}",
            symbology.title,
            size_text((wide, high)),
            place.title,
            self.design.page.file,
            size_text((across, down)),
        )
        return NoRoom(what, hint)

    def said(
        self,
        labels: Sequence[Record],
        values: Sequence[Values],
        rows: Sequence[Sequence[str]],
        rooms: Mapping[Place, Room],
    ) -> Iterator[Problem]:
        """Yields what is said of the design, of texts over each other, of parts without a place,
        and of places for which no label has anything. Raises `ToolError` where a shape that is no
        rectangle has the name of a column.
        """
        file = self.design.page.file
        yield from self.design.remarks
        for (one, place), (two, other) in combinations(enumerate(self.places), 2):
            is_common = {place, other} <= rooms.keys() and place.common(other) > NEAR / 2
            if is_common and any(row[one] and row[two] for row in rows):
                titles = place.title, other.title
                what = Text("{}: the places {} and {} overlap", file, *titles)
                yield Problem(what, Text("a label has a text for each: move them apart"))
        names = {key: value.names[key] for value in values for key in value.texts}
        columns = {key_of(name) for label in labels for name in label.names}
        for key in sorted(self.design.shapes.keys() & columns.union(PARTS)):
            what = Text("{}: {} is not a rectangle ({})", file, key, self.design.shapes[key])
            raise ToolError(what, Text("draw a rectangle for its place"))
        if lost := [name for key, name in names.items() if key not in self.known]:
            what = Text("{} has no rectangle for {}: not on the labels", file, ", ".join(lost))
            yield Problem(what)
        known = {*names, *self.asked}
        empty = [place.title for place in self.places if not known & {place.key, place.part}]
        if empty:
            what = Text("{}: no label has anything for {}", file, ", ".join(empty))
            hint = Text("choose such a column as a text of the table, or remove the name")
            yield Problem(what, hint, (Remedy("text", empty[0]),))


def line_of(place: Place, text: str) -> bytes:
    """Returns the line of labels(1) that draws a text as a symbol."""
    escaped = text.replace("\\", "\\\\").replace("\n", "\\n")
    line = f"{','.join((place.symbology, *place.settings))} {escaped}"
    return line.encode("utf-8", "surrogateescape")
