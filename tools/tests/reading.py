"""Reads labels as they are drawn, by zxing-cpp."""

import re
from typing import Sequence

import zxingcpp

from labeltools.drawing.dots import drawn_page
from labeltools.drawing.pen import bits_of, Pen
from labeltools.layout.area import Area
from labeltools.layout.layout import LaidOut, PlacedSymbol
from labeltools.lines.engine import Modules
from labeltools.paper.box import Box

NOT_READ = "as drawn it is not read"
NOT_DRAWN = "its bars as drawn are not those of labels"
PIXELS = bytes.maketrans(b"01", b"\xff\0")


def fault_of(item: LaidOut, area: Area, pen: Pen) -> str | None:
    """Returns what is wrong with a label as it is drawn in its area, if anything."""
    size = area.width, area.height
    picture = drawn_page(size, pen, [(item, (0, 0))])
    return fault_in([bits_of(row) for row in picture.rows], item.symbols)


def fault_in(rows: list[str], symbols: Sequence[PlacedSymbol]) -> str | None:
    """Returns what is wrong with one of the symbols of a label, each read in its place alone."""
    for symbol in symbols:
        box = symbol.box
        place = [row[box.left : box.right] for row in rows[box.top : box.bottom]]
        for _ in range(symbol.place.quarters):
            place = ["".join(column) for column in zip(*place)][::-1]  # back to the left
        fault = fault_of_symbol(place, symbol)
        if fault is not None:
            return f"place {symbol.place.title}: {fault}"
    return None


def fault_of_symbol(rows: list[str], symbol: PlacedSymbol) -> str | None:
    """Returns what is wrong with a symbol in dots of its place: its data is read by zxing-cpp, and
    each row of its bars is compared.
    """
    found = code_in(rows, re.sub("[- ]", "", symbol.symbology.title))
    if found is None:
        return NOT_READ
    if found != symbol.data:
        return f"as drawn it is read as {found!r}"
    return None if is_drawn(rows, symbol.modules, symbol.boxes["bars"]) else NOT_DRAWN


def code_in(rows: list[str], form: str) -> bytes | None:
    """Returns the data of a code of a form in rows of dots; None where it is not read."""
    pixels = "".join(rows).encode().translate(PIXELS)
    picture = memoryview(pixels).cast("B", [len(rows), len(rows[0])])
    found = zxingcpp.read_barcode(
        picture, formats=getattr(zxingcpp, form), binarizer=zxingcpp.Binarizer.BoolCast
    )
    return bytes(found.bytes) if found else None


def is_drawn(rows: list[str], modules: Modules, box: Box) -> bool:
    """Returns whether dots in a box are the modules of a code, each row of them."""
    scale = box.width // modules.width
    wide = []
    for row in modules.rows():
        bits = bits_of(row)[: modules.width]
        wide.append("".join(scale * bit for bit in bits))
    high = box.height // len(wide)
    wanted = [row for row in wide for _ in range(high)]
    drawn = [row[box.left : box.right] for row in rows[box.top : box.bottom]]
    return drawn == wanted
