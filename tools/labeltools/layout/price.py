"""Prices with raised cents: the part behind the decimal sign is smaller, as high up as the digits
before it, and a currency behind it is below the cents. The decimal sign stays. Lengths are in sizes
of the letters of the price.

Digits are equally wide in the usual fonts, but for their white at the sides. So what a price takes
is measured once for all prices that differ only in digits between the first and the last letter.
"""

import math
import re
import unicodedata
from functools import lru_cache
from typing import NamedTuple, Sequence

from labeltools.layout.fitting import Fitter, LEFT, Placed, RIGHT, Style
from labeltools.layout.layout import PlacedText
from labeltools.layout.letters import Letters
from labeltools.layout.needs import HINTING, PRICE_STYLES, rounded_up, styles_from
from labeltools.paper.box import Box

KEPT = 512  # shapes of prices of which the extent is kept
ROUNDED_PRICE = 32  # parts of the size of letters to which widths are rounded up
CENTS = 0.57  # letters of cents
CURRENCY = 0.33  # letters of a currency
BETWEEN = 0.07  # white between two parts
BESIDE_LAST = 0.05  # room at the left of the last part, in sizes of its letters
LEAST_RAISED = 5.4  # millimetres: the smallest letters with raised cents, then 2.3 mm high
SHORT = frozenset({"kr", "Kč", "zł", "Ft", "lei", "лв", "лв.", "din", "Fr.", "KM", "ден"})
AMOUNT = re.compile(
    r"([^\d\s]{0,3})\s?((?:\d{1,3}(?:([., '’\u00a0\u202f])\d{3}(?:\3\d{3})*)?|\d+)([.,]))(\d\d)"
    r"\s?([^\d\s]{0,3})",
    re.ASCII,
)
ZEROS = str.maketrans("123456789", "0" * 9)


class PricePart(NamedTuple):
    """A part of a price with raised cents: where its letters are in the price, their size, where
    the ink begins and how wide it is, and where its base line is below the top of digits.
    """

    first: int
    last: int
    size: float
    left: float
    width: float
    base: float

    @property
    def right(self) -> float:
        """Where the ink ends."""
        return self.left + self.width


def price_spans(price: str) -> tuple[tuple[int, int], ...]:
    """Returns where the parts of a price are in it: a currency, the number up to its decimal sign,
    the cents, a currency; nothing if it has no two decimals, or anything else beside a currency.

    >>> ["1.249,00 €"[slice(*span)] for span in price_spans("1.249,00 €")]
    ['', '1.249,', '00', '€']
    >>> ["$3.50"[slice(*span)] for span in price_spans("$3.50")]
    ['$', '3.', '50', '']
    >>> {price_spans(text) for text in ("12 €", "1.250", "1,259 €", "2 für 3,00 €", "1.2.34")}
    {()}
    """
    found = AMOUNT.fullmatch(price)
    if not found:
        return ()
    before, _, thousands, point, _, after = found.groups()
    if thousands == point or not all(map(is_currency, filter(None, (before, after)))):
        return ()
    return found.span(1), found.span(2), found.span(5), found.span(6)


def is_currency(text: str) -> bool:
    """Returns whether a text is a sign, a code of three letters or a usual short name."""
    is_code = len(text) == 3 and text.isascii() and text.isupper()
    return is_code or text in SHORT or all(unicodedata.category(sign) == "Sc" for sign in text)


def shape_of(price: str, letters: Letters) -> str:
    """Returns a price that takes as much as this one, and is the same for many.

    >>> [shape_of(price, Letters("DejaVu Sans")) for price in ("12,80 €", "$12.89", "7")]
    ['10,00 €', '$00.09', '7']
    """
    if len(price) < 2 or not letters.has_equal_digits:
        return price
    return price[0] + price[1:-1].translate(ZEROS) + price[-1]


@lru_cache(KEPT)
def raised_parts(shape: str, letters: Letters) -> Sequence[PricePart]:
    """Returns the parts of a price with raised cents; none where it has no cents."""
    spans = price_spans(shape)
    if not spans:
        return ()
    top = -letters.sign("0", True).top
    before, whole, cents, after = (letters.width(shape[slice(*span)], True) for span in spans)
    parts = []
    end = 0.0
    if before:
        wide = before * CURRENCY
        parts.append(PricePart(*spans[0], CURRENCY, 0.0, wide, CURRENCY * top))
        end = wide + BETWEEN
    parts.append(PricePart(*spans[1], 1.0, end, whole, top))
    column = end + whole + BETWEEN
    parts.append(PricePart(*spans[2], CENTS, column, cents * CENTS, CENTS * top))
    if after:
        wide = after * CURRENCY
        left = max(column, column + cents * CENTS - wide)
        parts.append(PricePart(*spans[3], CURRENCY, left, wide, top))
    return parts


def width_of_parts(parts: Sequence[PricePart]) -> float:
    """Returns the width of a price by its parts."""
    return max(part.right for part in parts)


def letters_in_style(style: str, price: str, letters: Letters) -> Letters:
    """Returns the letters of a price that is written in a style."""
    return letters.of(price, style.startswith("narrow"))


def parts_in_style(style: str, shape: str, letters: Letters) -> Sequence[PricePart]:
    """Returns the parts of a price that is written in a style; none where its cents are not raised
    there.
    """
    is_raised = style.endswith("raised")
    return raised_parts(shape, letters_in_style(style, shape, letters)) if is_raised else ()


def width_in_style(style: str, shape: str, letters: Letters) -> float:
    """Returns the width of a price that is written in a style."""
    if parts := parts_in_style(style, shape, letters):
        return width_of_parts(parts)
    return letters_in_style(style, shape, letters).width(shape, True)


@lru_cache(KEPT)
def price_widths(shape: str, letters: Letters) -> tuple[float, ...]:
    """Returns the width of prices of a shape in each style, a bit rounded up."""
    widths = (width_in_style(style, shape, letters) for style in PRICE_STYLES)
    return tuple(rounded_up(width, ROUNDED_PRICE) for width in widths)


@lru_cache(KEPT)
def price_height(shape: str, letters: Letters) -> float:
    """Returns the height of the ink of prices of a shape, a bit rounded up."""
    whole = letters.of(shape).whole(shape, True)
    return rounded_up(whole.bottom - whole.top, ROUNDED_PRICE)


class PricePlace(NamedTuple):
    """Where a part of prices of a shape is in their texts, how it is written, and its box."""

    first: int
    last: int
    style: Style
    box: Box

    def placed(self, price: str, fitter: Fitter) -> Placed:
        """Returns the part of a price of the shape in its place."""
        text = price[self.first : self.last]
        fitted = fitter.found(text, self.style, self.box.width, self.box.height)
        return Placed(fitted, self.style, self.box)


def fitted_price(price: PlacedText, fitter: Fitter) -> list[Placed]:
    """Returns a price as it fits its box, or its parts where cents are raised: the currency too is
    one by itself.
    """
    place, text, box, style = price
    shape = shape_of(text, fitter.letters)
    parts = price_places(shape, place.price_style, style, box, fitter.letters)
    return [part.placed(text, fitter) for part in parts]


@lru_cache(KEPT)
def price_places(
    shape: str, wanted: str, style: Style, box: Box, letters: Letters
) -> Sequence[PricePlace]:
    """Returns where prices of a shape are in a box: in the first of their styles that has room.
    Prices with raised cents have several parts: the currency too is one by itself.
    """
    chosen = style_with_room(shape, wanted, style.size, box, letters)
    own = letters_in_style(chosen, shape, letters)
    if own.family != style.family:
        style = style._replace(family=own.family)
    parts = parts_in_style(chosen, shape, letters)
    if not parts:
        return [PricePlace(0, len(shape), style, box)]
    wide = width_of_parts(parts)
    size = min(style.size, math.floor(box.width / wide / HINTING))
    style = style._replace(size=size)
    most = math.ceil(wide * size)
    start = box.left + (box.width - most) * (style.across + 1) // 2
    room = box._replace(left=start, width=min(most, box.right - start))
    return [part_place(part, part.right >= wide, style, room) for part in parts]


def base_of_price(shape: str, wanted: str, style: Style, box: Box, letters: Letters) -> int:
    """Returns the base line of prices of a shape in their box."""
    parts = price_places(shape, wanted, style, box, letters)
    bases = [part.style.base for part in parts if part.style.base is not None]
    if bases:
        return max(bases)
    own = letters.of(shape, parts[0].style.family != style.family)
    ink = own.whole(shape, True)
    middle = (box.height - own.sign("0", True).top * style.size) / 2
    lowest = box.height - math.ceil(ink.bottom * style.size)  # so that all ink is in the box
    return min(round(middle), lowest)


def style_with_room(shape: str, wanted: str, size: int, box: Box, letters: Letters) -> str:
    """Returns the first style of prices that has room in a box, or else the last one."""
    styles = styles_from(wanted)
    widths = {style: HINTING * width_in_style(style, shape, letters) * size for style in styles}
    most = box.width + size / ROUNDED_PRICE
    return next((style for style in styles if widths[style] <= most), styles[-1])


def part_place(part: PricePart, is_last: bool, style: Style, box: Box) -> PricePlace:
    """Returns the place of a part of prices that fill a box."""
    size = style.size
    left = box.left + math.floor(part.left * size)
    width = math.ceil(HINTING * part.width * size) + 1
    if is_last:  # its digits may be wider than those of the shape
        left -= math.floor(BESIDE_LAST * size)
        width = box.right - left
    own = style._replace(
        size=round(part.size * size),
        across=RIGHT if is_last else LEFT,
        base=round(part.base * size),
    )
    return PricePlace(part.first, part.last, own, box._replace(left=left, width=width))
