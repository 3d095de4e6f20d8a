"""Compares what goes out with the codes that have to be there, each label, before it leaves.

The bytes that go out are read back: forms of dots into the dots of the page that was drawn, all of
them; drawings into their codes, which are drawn last, on white. The code of each line is drawn anew
from the line itself, and each module of it, its quiet zones included, has to be in its place, in
its size, and turned as it is asked for. This holds for each symbol of a label: a design of the
user's own may have several.
"""

import re
import unicodedata
from functools import cache, lru_cache
from itertools import islice, tee
from operator import itemgetter, mul
from typing import Any, Iterator, NamedTuple, Sequence

from labeltools.checking.decode import Different, read_dots
from labeltools.checking.read_pdf import drawn_pages, DrawnPage, is_at
from labeltools.common.column_names import LONGEST
from labeltools.common.messages import FAULT, Talk, ToolError
from labeltools.common.text import Text
from labeltools.layout.layout import LaidOut, PlacedSymbol
from labeltools.layout.place import Place
from labeltools.lines.engine import bytes_a_row, Engine, LABELS_FAILED
from labeltools.lines.file import Record
from labeltools.lines.reasons import Refused
from labeltools.paper.box import Box
from labeltools.paper.picture import Picture, rows_reader
from labeltools.paper.plan import Plan

Labels = Sequence[tuple[LaidOut, tuple[int, int]]]
CodeShape = tuple[str, tuple[int, int, int, int], int, int]  # symbology, quiet zones, width, rows
How = tuple[int, Box, int]  # quarters to the right, the bars in their room, dots of a module
LONGER = 5  # modules by which guards are longer (GS1 General Specifications, 5.2)
# modules of the longer bars, from the first bar on: ISO/IEC 15420
GUARDS = {
    "ean13": ((0, 3), (45, 50), (92, 95)),
    "ean8": ((0, 3), (31, 36), (64, 67)),
    "upca": ((0, 10), (45, 50), (85, 95)),
}
BETWEEN = re.compile(r"[\s_-]+")  # between the words of a name
AGAIN = re.compile(r" \d+\Z")  # behind the name of a column that has several places
TOGETHER = ("text", "note")  # places of what is put together of several columns
KNOWN = 4096  # places of symbols that are kept: most pages share them
DIGITS = bytes.maketrans(b"\0\1", b"01")


class Document(NamedTuple):
    """What goes out: its bytes, the labels that are on its pages, how often it is printed, and of a
    form of dots those that were drawn.
    """

    data: bytes
    pages: Sequence[Labels]
    copies: int = 1
    drawn: Picture | None = None


class Where(NamedTuple):
    """Where a symbol has to be on a page: its picture, which has longer guards too; the parts of
    that which are on white in a drawing, its bars and each of these guards; the quarters by which
    it is turned; the dots of a module; and how many modules, as it is read, it is wide, and has
    rows of bars.
    """

    picture: Box
    whites: tuple[Box, ...]
    quarters: int
    scale: int
    wide: int
    high: int


class Wanted(NamedTuple):
    """What has to be on a page for a symbol: of which line it is, the symbol, and where."""

    record: Record
    symbol: Any
    where: Where


class SymbolPart(NamedTuple):
    """A part of a symbol: rows of modules as digits, 1 where dark; of how many modules each column
    is wide, and each row high; and the light modules left, right, above and below.
    """

    rows: tuple[str, ...]
    wides: tuple[int, ...]
    highs: tuple[int, ...]
    zones: tuple[int, int, int, int] = (0, 0, 0, 0)

    def turned(self, quarters: int) -> "SymbolPart":
        """Returns it turned to the right."""
        if not quarters:
            return self
        rows, wides, highs, (left, right, above, below) = self
        for _ in range(quarters):
            rows = tuple("".join(column) for column in zip(*rows[::-1]))
            wides, highs = highs[::-1], wides
            left, right, above, below = below, above, left, right
        return SymbolPart(rows, wides, highs, (left, right, above, below))


class Comparison:
    """Compares the documents of a job; `is_turned` is whether labels are turned to the right, and
    `go_on` of the talk is called for every page and may stop the work.
    """

    def __init__(
        self,
        plan: Plan,
        form: str,
        is_escaped: bool,
        is_turned: bool,
        talk: Talk,
    ) -> None:
        self.plan = plan
        self.talk = talk
        self.form = form
        self.engine = Engine(is_escaped)
        self.escaped = Engine(True)
        self.is_turned = is_turned
        self.area = Box(0, 0, *plan.room[:: -1 if is_turned else 1])
        self.cells = dict(zip(plan.places, plan.sheet.places))
        self.where = lru_cache(KNOWN)(self.new_where)

    def check(self, document: Document) -> None:
        """Raises `ToolError` where a document has not the codes of the labels on its pages, or, of
        a form of dots, not the dots of the page that was drawn.
        """
        try:
            self.compare(document)
        except Different as error:
            place = (error.record or first_record(document.pages[0])).origin.text
            raise ToolError(Text("{}: {}", place, error.what), FAULT, LABELS_FAILED) from error

    def compare(self, document: Document) -> None:
        """Raises `Different` as `check` does."""
        wanted, again = tee([*self.wanted_on(labels)] for labels in document.pages)
        dpi = self.plan.dpi
        if self.form == "pdf":
            pages = drawn_pages(document.data, dpi, len(document.pages), map(len, again))
            for labels, symbols in zip(document.pages, wanted):
                self.talk.go_on(0, 0)
                try:
                    drawn = next(pages)
                except Different as error:
                    raise Different(error.what, first_record(labels)) from error
                check_codes(symbols, drawn, self.plan.dot)
            return
        page, copies = read_dots(self.form, document.data, self.plan.page[0])
        self.check_size(page, copies, document.copies)
        self.check_drawn(page, document)
        for symbol in next(wanted):
            check_symbol_dots(symbol, page, self.plan.dot)

    def check_size(self, page: Picture, found: int, copies: int) -> None:
        """Raises `Different` where a page has not its size, or not its copies."""
        size = (page.width, page.height)
        if size != self.plan.page:
            both = (Text("{} by {}", *sides) for sides in (size, self.plan.page))
            raise Different(Text("a page has {} dots in the output instead of {}", *both))
        if found != copies:
            raise Different(Text("the output has {} copies instead of {}", found, copies))

    def check_drawn(self, page: Picture, document: Document) -> None:
        """Raises `Different` where dots are not those of the page that was drawn."""
        if document.drawn is None or page == document.drawn:
            return
        pairs = enumerate(zip(page.rows, document.drawn.rows))
        number = next(number for number, (found, row) in pairs if found != row)
        what = Text("its dots are wrong in the output, {:.1f} mm down", number * self.plan.dot)
        high = self.plan.room[1]
        there = [item for item, (_, top) in document.pages[0] if top <= number < top + high]
        raise Different(what, there[0].record if there else None)

    def wanted_on(self, labels: Labels) -> Iterator[Wanted]:
        """Yields what has to be on a page, in the order of its drawing; raises `Different`."""
        for item, corner in labels:
            record = item.record
            for spot in item.symbols:
                try:
                    symbol = self.symbol(spot, record)
                    kind = (symbol.symbology, symbol.quiet_zones, symbol.width, symbol.rows)
                    how = (spot.place.quarters, spot.boxes["bars"], spot.module)
                    yield Wanted(record, symbol, self.where(corner, spot.box, how, kind))
                except Different as error:
                    raise Different(error.what, record) from error

    def new_where(self, corner: tuple[int, int], room: Box, how: How, kind: CodeShape) -> Where:
        """Returns where a symbol of a kind has to be on the page, in a room of a label whose area
        begins at a corner; raises `Different`.
        """
        quarters, bars, scale = how
        symbology, (left, right, above, below), width, rows = kind
        wide = left + width + right
        high = bars.height // max(1, scale) if rows == 1 else above + rows + below
        if not scale or (wide * scale, high * scale) != (bars.width, bars.height):
            raise Different(Text("the modules of its code are not whole dots"))
        spans = GUARDS.get(symbology, ())
        longer = LONGER * scale
        guards = [
            Box(bars.left + (left + first) * scale, bars.bottom, (end - first) * scale, longer)
            for first, end in spans
        ]
        whole = bars._replace(height=bars.height + longer * bool(spans))
        boxes = (whole, bars, *guards)
        picture, *whites = (self.on_page(room, quarters, box, corner) for box in boxes)
        self.check_cell(corner, picture)
        return Where(picture, tuple(whites), (quarters + self.is_turned) % 4, scale, wide, high)

    def symbol(self, spot: PlacedSymbol, record: Record) -> Any:
        """Returns a symbol of a label, drawn anew from its line; raises `Different` where that does
        not say its data.
        """
        place = spot.place
        engine, line, data = self.engine, record.line, record.data
        if place.symbology:
            text = text_for(place, record)
            said = spot.data if text is None else text.encode("utf-8", "surrogateescape")
            escaped = said.replace(b"\\", b"\\\\").replace(b"\n", b"\\n")
            line = ",".join((place.symbology, *place.settings)).encode() + b" " + escaped
            engine, data = self.escaped, spot.data
        symbol = engine.symbol(line)
        if isinstance(symbol, Refused):
            raise Different(symbol.problem.what)
        if symbol.data != data:
            raise Different(Text("its code says other data than its line"))
        return symbol

    def on_page(self, room: Box, quarters: int, box: Box, at: tuple[int, int]) -> Box:
        """Returns where a box in the room of a symbol, which is turned by some quarters, is on the
        page.
        """
        size = (room.height, room.width) if quarters % 2 else (room.width, room.height)
        found = turned_box(box, size, quarters)
        found = found._replace(left=found.left + room.left, top=found.top + room.top)
        if self.is_turned:
            found = turned_box(found, (self.area.width, self.area.height), 1)
        return found._replace(left=found.left + at[0], top=found.top + at[1])

    def check_cell(self, at: tuple[int, int], box: Box) -> None:
        """Raises `Different` where a code is not in the cell of its label, by the millimetres of
        the sheet.
        """
        if at not in self.cells:
            raise Different(Text("it is at no place of its sheet"))
        dot = self.plan.dot
        for side, first, last in ((0, box.left, box.right), (1, box.top, box.bottom)):
            start, size = self.cells[at][side], self.plan.sheet.cell[side]
            if not start - dot <= first * dot or not last * dot <= start + size + dot:
                raise Different(Text("its code extends beyond its cell"))


def first_record(labels: Labels) -> Record:
    """Returns the line of the first label of a page."""
    return labels[0][0].record


def check_symbol_dots(wanted: Wanted, page: Picture, dot: float) -> None:
    """Raises `Different` where dots of a page are not those of a symbol."""
    box = wanted.where.picture
    if box.left < 0 or box.right > page.width or not 0 <= box.top <= box.bottom <= page.height:
        raise Different(Text("its code extends beyond the page"), wanted.record)
    if not all(has_dots(page, box, dark) for box, dark in parts_in_dots(wanted)):
        raise wrong(wanted, dot)


def has_dots(page: Picture, box: Box, dark: bytes) -> bool:
    """Returns whether the dots in a box of a page are as they have to be, in its rows of bytes."""
    first, size, behind = bytes_of(box)
    read = rows_reader(first, size, page.stride - first - size, box.height)
    found = b"".join(read(page.packed, box.top * page.stride))
    if found == dark:
        return True
    inside = (((1 << box.width) - 1) << behind).to_bytes(size, "big") * box.height
    differ = int.from_bytes(found, "big") ^ int.from_bytes(dark, "big")
    return not differ & int.from_bytes(inside, "big")


def bytes_of(box: Box) -> tuple[int, int, int]:
    """Returns at which byte of a row a box begins, how many bytes it is in, and how many bits of
    the last one are behind it.
    """
    first, last = box.left // 8, bytes_a_row(box.right)
    return first, last - first, 8 * last - box.right


def parts_in_dots(wanted: Wanted) -> Iterator[tuple[Box, bytes]]:
    """Yields the boxes of a symbol on a page with their dots: all of it but for what is longer, and
    then each longer guard. Between these are digits.
    """
    symbol, where = wanted.symbol, wanted.where
    modules = symbol.modules.translate(DIGITS).decode()
    width, count = symbol.width, symbol.rows
    rows = tuple([modules[start : start + width] for start in range(0, len(modules), width)])
    highs = (1,) * count
    zones = symbol.quiet_zones
    if count == 1:
        highs = (where.high,)
        zones = (*zones[:2], 0, 0)
    whole, *longer = where.whites
    part = SymbolPart(rows, (1,) * width, highs, zones)
    yield whole, in_dots(part.turned(where.quarters), where.scale, whole)
    for box, (first, end) in zip(longer, GUARDS.get(symbol.symbology, ())):
        yield box, guard_in_dots(modules[first:end], where, box)


@lru_cache(KNOWN)
def guard_in_dots(digits: str, where: Where, box: Box) -> bytes:
    """Returns a longer guard in the dots of a box; most labels have the same ones."""
    part = SymbolPart((digits,), (1,) * len(digits), (LONGER,))
    return in_dots(part.turned(where.quarters), where.scale, box)


def in_dots(part: SymbolPart, scale: int, box: Box) -> bytes:
    """Returns a part in the dots of a box, in its rows of bytes: all rows at once, which is
    quicker.
    """
    rows, wides, highs, (left, right, above, below) = part
    _, size, behind = bytes_of(box)
    if max(wides) > 1:
        rows = tuple("".join(map(mul, row, wides)) for row in rows)
    wide = left + sum(wides) + right
    light = "0" * (left + right + 8 + -wide % 8)  # what is shifted out of a row is of these
    number = int(light + light.join(rows), 2)
    packed = number.to_bytes(bytes_a_row(8 + wide) * len(rows), "big")
    dots = b"".join(itemgetter(*packed)(bytes_in(scale)))
    shifted = int.from_bytes(dots, "big") << behind + right * scale
    read = rows_reader(len(dots) // len(rows) - size, size, 0, len(rows))
    dark = map(mul, read(shifted.to_bytes(len(dots), "big")), [high * scale for high in highs])
    return bytes(above * scale * size) + b"".join(dark) + bytes(below * scale * size)


@cache
def bytes_in(scale: int) -> Sequence[bytes]:
    """Returns for each byte the bytes in which each of its bits comes so many times."""
    rows = ("".join([bit * scale for bit in f"{byte:08b}"]) for byte in range(256))
    return [int(row, 2).to_bytes(scale, "big") for row in rows]


def check_codes(symbols: Sequence[Wanted], page: DrawnPage, dot: float) -> None:
    """Raises `Different` where codes of a drawing are not the symbols that have to be there, one
    behind another, or are not on white.
    """
    whites = iter(page.whites)
    for wanted, code in zip(symbols, page.codes):
        where = wanted.where
        is_same = (code.width, code.height, code.modules) == modules_with_guards(wanted)
        is_there = is_at(code.corners, where.picture, where.quarters)
        is_on_white = where.whites == tuple(islice(whites, len(where.whites)))
        if not (is_same and is_there and is_on_white):
            raise wrong(wanted, dot)


def modules_with_guards(wanted: Wanted) -> tuple[int, int, bytes]:
    """Returns how many modules a symbol with its longer guards has across and down, and these in
    rows of whole bytes, as it is read.
    """
    symbol, where = wanted.symbol, wanted.where
    packed: bytes = symbol.packed(quiet_zones=True)
    rows = packed if symbol.rows > 1 else packed * where.high
    if symbol.symbology not in GUARDS:
        return where.wide, where.high, rows
    size = len(packed)
    guards = guards_of(symbol.symbology, symbol.quiet_zones[0], size) & int.from_bytes(
        packed, "big"
    )
    rows += guards.to_bytes(size, "big") * LONGER
    return where.wide, where.high + LONGER, rows


@cache
def guards_of(symbology: str, left: int, size: int) -> int:
    """Returns a row of some bytes with the modules of longer guards, behind a quiet zone, as the
    number that it is.
    """
    behind = 8 * size - left
    return sum((1 << behind - first) - (1 << behind - end) for first, end in GUARDS[symbology])


def wrong(wanted: Wanted, dot: float) -> Different:
    """Returns where a code is wrong."""
    box = wanted.where.picture
    across, down = box.left * dot, box.top * dot
    what = Text(
        "its code is wrong in the output, {:.1f} mm from the left, {:.1f} mm down", across, down
    )
    return Different(what, wanted.record)


def text_for(place: Place, record: Record) -> str | None:
    """Returns the text of a label in a place, by the line itself; None where it is put together of
    several.
    """
    columns = reversed([*zip(record.names, record.text)])  # the first one of a name counts
    texts = {
        **{compared_name(name): text for name, text in columns},
        "code": record.data.decode("utf-8", "surrogateescape"),
        "title": record.title,
        "price": record.price,
        "unit": record.unit,
        "was": record.was,
    }
    name = compared_name(place.title)
    several = AGAIN.sub("", name)
    return None if several in TOGETHER else texts.get(name) or texts.get(several, "")


def compared_name(name: str) -> str:
    """Returns the name of a column or a place as it is compared.

    >>> compared_name("Seat_No"), compared_name(" title-2")
    ('seat no', 'title 2')
    """
    return BETWEEN.sub(" ", unicodedata.normalize("NFC", name[:LONGEST])).strip().casefold()


def turned_box(box: Box, size: tuple[int, int], quarters: int) -> Box:
    """Returns where a box is in a room of a size that is turned to the right by some quarters."""
    width, height = size
    for _ in range(quarters):
        box = Box(height - box.bottom, box.left, box.height, box.width)
        width, height = height, width
    return box
