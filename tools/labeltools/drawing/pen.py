"""Draws labels by Cairo and Pango, in dots or for a drawing. Lengths are in dots."""

import re
from collections import defaultdict
from functools import cache, lru_cache, partial
from itertools import accumulate, chain, groupby, islice, repeat
from math import floor
from operator import add, itemgetter
from typing import Any, Iterable, Iterator, Mapping, Sequence

import cairo

from labeltools.common.messages import FAULT, ToolError
from labeltools.common.text import Text
from labeltools.designs.design import Design
from labeltools.designs.svg_design import BLACK, is_light
from labeltools.layout.fitting import (
    Colour,
    Fitted,
    Fitter,
    in_size,
    LINE_END,
    MIDDLE,
    Placed,
    Style,
)
from labeltools.layout.layout import LaidOut, Page, PlacedSymbol, PlacedText
from labeltools.layout.letters import DATA_FONT, digits_face, Letters
from labeltools.layout.medium import Medium
from labeltools.layout.pango import font_options, PangoCairo
from labeltools.layout.price import fitted_price
from labeltools.lines.engine import LABELS_FAILED, Modules
from labeltools.lines.symbologies import Digits, Span, SYMBOLOGIES, Symbology
from labeltools.paper.box import Box
from labeltools.paper.plan import Dots

DARK = re.compile("1+")
INSET = 0.001  # of a dot: a program that draws a PDF takes each dot that a picture touches
SHOWN = {code: 0x2400 + code for code in range(32)} | {127: 0x2421}  # control characters
UNMOVED = (1, 0, 0, 1, 0, 0)  # of a matrix that does nothing
REVERSED = bytes(int(f"{byte:08b}"[::-1], 2) for byte in range(256))
# modules: how much longer guards are, where digits begin below bars, the size of data there, the
# height of digits
GUARD = 5
DIGITS_TOP = 1
DIGITS_SIZE = 10.4
DIGITS_HIGH = 7.7
LARGE = 1000  # dots: the size in which digits are measured
DIGITS = "0123456789"
EDGE = 4.0  # dots: white around letters on a tint, of which letters cover half
LIGHTEST = 0.999  # a part of a colour that is white in 255 steps
KNOWN = 1024  # boxes, and parts of prices, that are kept
DRAWN = 256  # glyphs in dots that are kept
Glyph = tuple[int, float, float]  # of a font: its number, and where it is
GlyphRuns = dict[cairo.ScaledFont, list[Glyph]]  # that are shown at once, by their fonts
Whites = Sequence[tuple[Sequence[Box], Dots]]  # boxes of labels, with those of their areas


class Pen:
    """Draws labels of a design on a medium."""

    def __init__(self, medium: Medium, letters: Letters, design: Design) -> None:
        self.medium = medium
        self.letters = letters
        self.below = design.below(medium)
        self.options = font_options(medium.is_dots)
        self.fitter = Fitter(letters, medium.is_dots)
        self.digits_face = digits_face(medium.is_dots)
        large = in_size(self.digits_face, LARGE, font_options(False))
        extents = large.text_extents("0")
        self.digit_width = extents.x_advance / LARGE
        self.digit_height = -extents.y_bearing / LARGE
        self.digits_of_size = cache(self.new_digits)
        self.digit_places = cache(self.new_digit_places)
        self.dots_of = lru_cache(DRAWN)(new_dots)
        self.price_parts = lru_cache(KNOWN)(partial(fitted_price, fitter=self.fitter))
        self.recorded_white = cache(self.new_recorded_white)  # Cairo empties one that is let go

    def draw(self, canvas: Any, page: Page, turn: int = 0) -> None:
        """Draws labels in the areas that begin at their places, turned to the right where the width
        of the areas on the paper is given. Raises `ToolError` for a text that is over a code.
        """
        whole = canvas.get_matrix()
        if turn:
            canvas.transform(upright_from(turn))
            page = [(item, (top, -left)) for item, (left, top) in page]
        self.below.draw(canvas, page)
        symbols = [item.symbols for item, _ in page]
        codes = [
            (symbol, place) for several, (_, place) in zip(symbols, page) for symbol in several
        ]
        self.draw_digits(canvas, codes)
        whites: Whites = [(white_boxes(symbol), place) for symbol, place in codes]
        self.draw_texts(canvas, page, whites, map(len, symbols))
        turned = canvas.get_matrix()
        if codes and not self.medium.is_dots:
            canvas.set_matrix(whole)
            self.draw_white(canvas, whites, turn)
            canvas.set_matrix(turned)
        for symbol, place in codes:
            corner = turn_to(canvas, symbol.box, symbol.place.quarters, place)
            self.draw_modules(canvas, symbol.modules, symbol, corner)
            if symbol.place.quarters:
                canvas.set_matrix(turned)
        canvas.set_matrix(whole)

    def draw_texts(self, canvas: Any, page: Page, whites: Whites, counts: Iterable[int]) -> None:
        """Draws the texts of labels: the first one of each, then the second ones, so that a PDF
        changes its font less often. The boxes of all symbols are given, one behind another, and how
        many symbols each label has; raises as `draw`.
        """
        rest = iter(whites)
        found: list[tuple[int, Placed, Dots]] = []
        for (item, place), count in zip(page, counts):
            taken = tuple(chain.from_iterable(boxes for boxes, _ in islice(rest, count)))
            for number, text in enumerate(self.texts(item)):
                if is_over(text.box, taken):
                    what = Text("{}: a text is over its code", item.record.origin.text)
                    raise ToolError(what, FAULT, LABELS_FAILED)
                found.append((number, text, place))
        runs: GlyphRuns = defaultdict(list)
        for _, text, place in sorted(found, key=itemgetter(0)):
            self.draw_text(canvas, text, place, runs)
        for font, glyphs in runs.items():
            self.show_glyphs(canvas, font, glyphs)

    def texts(self, item: LaidOut) -> Iterator[Placed]:
        """Yields the texts of a label as they fit their boxes."""
        for text in item.texts:
            if text.place.price_style:
                yield from self.price_parts(text)
            else:
                yield self.fitted_text(text)

    def fitted_text(self, text: PlacedText) -> Placed:
        """Returns a text as it fits its box on what is below it."""
        place, words, box, style = text
        colour = place.colour
        shown = off_white(colour) if colour and colour != BLACK else None
        is_edged = shown is None and self.below.is_tinted(place)
        found = self.fitter.found(words, style, *place.as_read(box))
        return Placed(found, style, box, place.quarters, shown, is_edged)

    def is_shortened(self, item: LaidOut) -> bool:
        """Returns whether a text of a label ends in an ellipsis."""
        return item.record.is_cut or any(self.shown(text) != text.text for text in item.words())

    def shown_texts(self, item: LaidOut) -> tuple[str, ...]:
        """Returns the texts of a label that may be cut as they are seen: up to the ellipsis, where
        they have one.
        """
        return tuple(self.shown(text).replace(LINE_END, " ") for text in item.words())

    def shown(self, text: PlacedText) -> str:
        """Returns a text as it is seen."""
        return self.fitter.shown(text.text, text.style, *text.place.as_read(text.box))

    def draw_digits(self, canvas: Any, codes: Sequence[tuple[PlacedSymbol, Dots]]) -> None:
        """Draws what is below the bars of symbols of labels whose areas begin at places."""
        whole = canvas.get_matrix()
        upright = []
        for symbol, place in codes:
            corner = turn_to(canvas, symbol.box, symbol.place.quarters, place)
            if symbol.place.quarters:
                self.draw_data(canvas, [(symbol, corner)])
                canvas.set_matrix(whole)
            else:
                upright.append((symbol, corner))
        self.draw_data(canvas, upright)

    def draw_white(self, canvas: Any, whites: Whites, turn: int) -> None:
        """Draws what is white below the codes of a page, so that nothing is over them, and makes
        black the colour. A PDF has it once for all pages that have their codes in the same places.
        """
        if self.medium.is_pdf:
            canvas.set_source_surface(self.recorded_white(tuple(whites), turn))
            canvas.paint()
            # the first one is drawn once more, since the colour is said behind it
            boxes, place = whites[0]
            whites = [(boxes[:1], place)]
        canvas.set_source_rgb(1, 1, 1)
        self.fill_white(canvas, whites, turn)
        canvas.set_source_rgb(0, 0, 0)

    def new_recorded_white(self, whites: Whites, turn: int) -> cairo.RecordingSurface:
        """Returns what is white below codes."""
        anywhere: Any = None
        drawing = cairo.RecordingSurface(cairo.CONTENT_COLOR_ALPHA, anywhere)
        canvas = cairo.Context(drawing)
        canvas.set_source_rgb(1, 1, 1)
        self.fill_white(canvas, whites, turn)
        return drawing

    def fill_white(self, canvas: Any, whites: Whites, turn: int) -> None:
        """Fills boxes of labels; the canvas is that of a page, and `turn` as in `draw`."""
        whole = canvas.get_matrix()
        if turn:
            canvas.transform(upright_from(turn))
        for boxes, (left, top) in whites:
            for box in boxes:
                canvas.rectangle(left + box.left, top + box.top, box.width, box.height)
        canvas.set_matrix(whole)
        canvas.fill()

    def draw_text(self, canvas: Any, placed: Placed, place: Dots, runs: GlyphRuns) -> None:
        """Draws a text of a label whose area begins at a place; in dots it is black, or takes black
        dots away. If its glyphs are known they are added to those that are shown at once.
        """
        text, style, box, quarters, colour, is_edged = placed
        is_plain = not quarters and colour is None and not is_edged
        if is_plain and text.rows and style.family not in self.medium.outlines:
            left, top = place[0] + box.left + text.x, place[1] + box.top + text.y
            for numbers, steps, x, y in text.rows:
                places = accumulate(steps, initial=left + x)
                runs[text.font] += zip(numbers, places, repeat(top + y))
            return
        canvas.save()
        corner = turn_to(canvas, box, quarters, place)
        if is_edged:
            canvas.translate(*corner)
            corner = 0, 0
            edge_letters(canvas, text)
        if colour and not self.medium.is_dots:
            canvas.set_source_rgb(*colour)
        elif colour and is_light(colour):
            canvas.set_operator(cairo.Operator.DEST_OUT)
        if is_plain and style.base is not None:  # a line through letters is two dots high
            canvas.set_antialias(cairo.Antialias.DEFAULT)
        self.show_text(canvas, text, style, corner)
        canvas.restore()

    def show_glyphs(self, canvas: Any, font: Any, glyphs: Sequence[Glyph]) -> None:
        """Shows glyphs of a font, line by line; in dots each of them is drawn once, and then added
        as a number.
        """
        if not self.medium.is_dots or not takes_dots(canvas, ink_ends(font, glyphs)):
            canvas.set_scaled_font(font)
            canvas.show_glyphs(glyphs)
            return
        surface = canvas.get_target()
        wide = 8 * surface.get_stride()
        for base, line in groupby(glyphs, itemgetter(2)):
            drawn = [(int(x), *self.dots_of(font, number, wide)) for number, x, _ in line]
            high = min(top for _, _, top, _ in drawn)
            found = 0
            for x, left, top, dots in drawn:
                found |= dots << (top - high) * wide + x + left
            add_dots(surface, found, floor(base + 0.5) + high)

    def show_text(self, canvas: Any, text: Fitted, style: Style, corner: Dots) -> None:
        """Shows a text in a box that begins at a corner, as shapes if its font needs that."""
        canvas.move_to(corner[0] + text.x, corner[1] + text.y)
        if style.family in self.medium.outlines:
            PangoCairo.layout_path(canvas, text.layout)
            canvas.fill()
        else:
            show_layout(canvas, text.layout)

    def draw_modules(
        self, canvas: Any, modules: Modules, layout: PlacedSymbol, corner: Dots
    ) -> None:
        """Draws the modules of a symbol whose box begins at a corner, and longer guards of bars."""
        bars = layout.boxes["bars"]
        box = Box(corner[0] + bars.left, corner[1] + bars.top, bars.width, bars.height)
        module = layout.module
        ends = (box.left, box.top, box.right, box.bottom + GUARD * module)
        if self.medium.is_dots and takes_dots(canvas, ends):
            draw_dots(canvas.get_target(), modules, layout.symbology, box, module)
            return
        if self.medium.is_smooth or self.medium.is_dots:
            draw_rectangles(canvas, modules, box, module, layout.symbology.guards)
            return
        # in whole modules: one row that is stretched far is off by a dot in Cairo's fixed numbers
        high = box.height // module
        mask = bars_mask(modules, layout.symbology, high)
        if len(modules.packed) == modules.row_size and layout.symbology.guards:
            high += GUARD
        place = Box(box.left, box.top, box.width, high * module)
        mask.set_matrix(picture_matrix(place, modules.width, high))
        canvas.mask(mask)

    def draw_data(self, canvas: Any, symbols: Iterable[tuple[PlacedSymbol, Dots]]) -> None:
        """Draws what is below the bars of symbols whose boxes begin at corners: all data in the
        middle, or digits in their places, all that have a size at once.
        """
        digits: dict[int, list[Glyph]] = defaultdict(list)
        for symbol, corner in symbols:
            box = symbol.boxes.get("digits")
            if box is None:
                continue
            left, top = corner[0] + box.left, corner[1] + box.top
            if symbol.symbology.is_number:
                for size, glyphs in self.digits_of(symbol, left, top):
                    digits[size] += glyphs
            else:
                data = symbol.data.decode("ascii", "replace").translate(SHOWN)
                size = round(DIGITS_SIZE * symbol.module)
                style = Style(DATA_FONT, False, size, 0, MIDDLE, 0.3, 0)
                text = self.fitter.found(data, style, box.width, box.height)
                self.show_text(canvas, text, style, (left, top))
        for size, glyphs in digits.items():
            font, _, _ = self.digits_of_size(size)
            if DATA_FONT in self.medium.outlines:
                canvas.set_scaled_font(font)
                canvas.glyph_path(glyphs)
                canvas.fill()
            else:
                self.show_glyphs(canvas, font, glyphs)

    def digits_of(
        self, symbol: PlacedSymbol, left: int, top: int
    ) -> Iterator[tuple[int, Iterable[Glyph]]]:
        """Yields the digits of a symbol, whose room below the bars begins there, by their size."""
        base = top + round((DIGITS_TOP + DIGITS_HIGH) * symbol.module)
        data = symbol.data.decode("ascii", "replace")
        where = self.digit_places(symbol.symbology.name, symbol.module)
        for size, (digits, places) in where.items():
            _, glyphs, _ = self.digits_of_size(size)
            numbers = map(glyphs.__getitem__, map(data.__getitem__, digits))
            yield size, zip(numbers, map(add, repeat(left), places), repeat(base))

    def new_digits(self, size: int) -> tuple[Any, dict[str, int], float]:
        """Returns the font of digits in a size, its glyphs, and how far each one is from the
        next.
        """
        font = in_size(self.digits_face, size, self.options)
        glyphs = {digit: font.text_to_glyphs(0, 0, digit, False)[0].index for digit in DIGITS}
        return font, glyphs, font.text_to_glyphs(0, 0, "00", False)[1].x

    def new_digit_places(
        self, symbology: str, module: int
    ) -> Mapping[int, tuple[Sequence[int], Sequence[float]]]:
        """Returns which digits are below the bars, and where each of them begins, by their size."""
        most = DIGITS_HIGH / self.digit_height
        groups = SYMBOLOGIES[symbology].places
        if not self.medium.is_dots:  # a digit beside the bars is as large: one line of glyphs
            longest = max(groups, key=lambda group: group.last - group.first)
            most = min(most, self.largest_digits(longest))
        digits: dict[int, list[int]] = defaultdict(list)
        places: dict[int, list[float]] = defaultdict(list)
        for group in groups:
            first, last, left, right = group
            size = round(min(most, self.largest_digits(group)) * module)
            start = round((left + right) * module - (last - first) * self.digit_width * size) // 2
            _, _, wide = self.digits_of_size(size)
            digits[size] += range(first, last)
            places[size] += [start + number * wide for number in range(last - first)]
        return {size: (digits[size], places[size]) for size in digits}

    def largest_digits(self, group: Digits) -> float:
        """Returns the largest size in which a group of digits has room, in modules."""
        width: float = (group.last - group.first) * self.digit_width
        return (group.right - group.left - 0.5) / width


show_layout = PangoCairo.show_layout


def off_white(colour: Colour) -> Colour:
    """Returns a colour of letters that is not all white: Cairo names the white below codes only
    where it is another colour than before.
    """
    red, green, blue = (min(part, LIGHTEST) for part in colour)
    return red, green, blue


def ink_ends(font: Any, glyphs: Sequence[Glyph]) -> tuple[int, ...]:
    """Returns where the dots of glyphs end at the left, at the top, at the right and below: the ink
    that their font says, or a dot more.
    """
    _, x, y = glyphs[0]  # from which Cairo counts
    left, top, width, height, _, _ = font.glyph_extents(glyphs)
    ends = (x + left - 1, y + top - 1, x + left + width + 1, y + top + height + 1)
    return tuple(map(round, ends))


def takes_dots(canvas: Any, ends: Sequence[int]) -> bool:
    """Returns whether a canvas has as units the dots of what it draws on, and this has all that
    ends there at the left, at the top, at the right and below.
    """
    left, top, right, low = ends
    surface = canvas.get_target()
    is_within = right <= surface.get_width() and low <= surface.get_height()
    return tuple(canvas.get_matrix()) == UNMOVED and left >= 0 and top >= 0 and is_within


def new_dots(font: Any, number: int, wide: int) -> tuple[int, int, int]:
    """Returns where the dots of a glyph begin, at its left and top, and these as a number, for rows
    of so many dots: the first one is in its lowest bit.
    """
    left, top, _, low = ink_ends(font, [(number, 0.0, 0.0)])
    picture = cairo.ImageSurface(cairo.FORMAT_A1, wide, low - top)
    canvas: Any = cairo.Context(picture)
    canvas.set_scaled_font(font)
    canvas.show_glyphs([(number, -left, -top)])
    dots = int.from_bytes(picture.get_data(), "little")
    blank = ((dots & -dots).bit_length() - 1) // wide if dots else 0
    return left, top + blank, dots >> blank * wide


def add_dots(surface: Any, dots: int, row: int) -> None:
    """Adds black dots to those of a surface from a row on: a number with one in its lowest bit."""
    stride = surface.get_stride()
    size = (dots.bit_length() + 7) // 8
    surface.flush()
    there = surface.get_data()[row * stride : row * stride + size]
    there[:] = (int.from_bytes(there, "little") | dots).to_bytes(size, "little")
    surface.mark_dirty()


def edge_letters(canvas: Any, text: Fitted) -> None:
    """Takes black dots away around the letters of a text in a box."""
    canvas.save()
    canvas.move_to(text.x, text.y)
    PangoCairo.layout_path(canvas, text.layout)
    canvas.set_line_width(EDGE)
    canvas.set_operator(cairo.Operator.DEST_OUT)
    canvas.stroke()
    canvas.restore()


def turn_to(canvas: Any, box: Box, quarters: int, place: Dots) -> Dots:
    """Turns a canvas to the right by some quarters, with a box of a label whose area begins at a
    place, and returns where that begins.
    """
    left, top = place[0] + box.left, place[1] + box.top
    if not quarters:
        return left, top
    corners = ((0, 0), (box.width, 0), (box.width, box.height), (0, box.height))
    rows = ((1, 0, 0, 1), (0, 1, -1, 0), (-1, 0, 0, -1), (0, -1, 1, 0))
    canvas.translate(left, top)
    canvas.transform(cairo.Matrix(*rows[quarters], *corners[quarters]))
    return 0, 0


def upright_from(turn: int) -> cairo.Matrix:
    """Returns the matrix of labels that are turned to the right, whose areas are so wide on the
    paper.
    """
    return cairo.Matrix(0, 1, -1, 0, turn, 0)


def white_boxes(symbol: PlacedSymbol) -> tuple[Box, ...]:
    """Returns where a symbol is on its label: its bars, and what guards are longer."""
    bars, room = symbol.boxes["bars"], symbol.box
    return bar_boxes(bars, symbol.module, symbol.symbology.name, room, symbol.place.quarters)


@lru_cache(KNOWN)
def bar_boxes(bars: Box, module: int, symbology: str, room: Box, quarters: int) -> tuple[Box, ...]:
    """Returns where bars, whose modules have so many dots, and what guards are longer are on a
    label, from a room on that is turned to the right by some quarters.
    """
    boxes = [bars]
    for first, end in SYMBOLOGIES[symbology].guards:
        left, width = bars.left + first * module, (end - first) * module
        boxes.append(Box(left, bars.bottom, width, GUARD * module))
    wide, high = (room.width, room.height)[:: -1 if quarters % 2 else 1]
    for down in (high, wide, high)[:quarters]:
        boxes = [box.turned(down) for box in boxes]
    moved = (box._replace(left=room.left + box.left, top=room.top + box.top) for box in boxes)
    return tuple(moved)


@lru_cache(KNOWN)
def is_over(text: Box, taken: tuple[Box, ...]) -> bool:
    """Returns whether a text in a box of a label is over what is taken there."""
    left, top, width, height = text
    right, low = left + width, top + height
    for x, y, wide, high in taken:
        if left < x + wide and x < right and top < y + high and y < low:
            return True
    return False


def bits_of(row: bytes) -> str:
    """Returns a row of dots or modules as digits."""
    return f"{int.from_bytes(row, 'big'):0{8 * len(row)}b}"


@cache
def guard_bits(symbology: str, size: int) -> int:
    """Returns the modules of guards as the number that a row of some bytes is."""
    places = (place for span in SYMBOLOGIES[symbology].guards for place in range(*span))
    return sum(1 << (8 * size - 1 - place) for place in places)


def lines_of(
    modules: Modules, symbology: Symbology, high: int, longer: int
) -> list[tuple[bytes, int]]:
    """Returns the rows of a code and how often each of them is there, of all `high` ones, with the
    longer guards below bars.
    """
    rows = modules.rows()
    lines = [(row, high // len(rows)) for row in rows]
    if symbology.guards:
        size = modules.row_size
        guards = int.from_bytes(rows[0], "big") & guard_bits(symbology.name, size)
        lines.append((guards.to_bytes(size, "big"), longer))
    return lines


def bars_mask(modules: Modules, symbology: Symbology, high: int) -> Any:
    """Returns a picture of a code that is so many modules high, a dot a module."""
    size = modules.row_size
    behind = bytes(-size % 4)
    lines = lines_of(modules, symbology, high, GUARD)
    packed = [(row.translate(REVERSED) + behind) * count for row, count in lines]
    data = memoryview(bytearray().join(packed))
    stride = size + len(behind)
    picture = cairo.ImageSurface.create_for_data(
        data, cairo.FORMAT_A1, modules.width, len(data) // stride, stride
    )
    mask = cairo.SurfacePattern(picture)
    mask.set_filter(cairo.Filter.NEAREST)
    return mask


def draw_dots(surface: Any, modules: Modules, symbology: Symbology, box: Box, module: int) -> None:
    """Draws a code in dots, all of them at once, which takes a third of the time of rectangles."""
    stride = surface.get_stride()
    dots = []
    for row, count in lines_of(modules, symbology, box.height, GUARD * module):
        digits = bits_of(row)[: modules.width].replace("1", "x").replace("0", "0" * module)
        line = int(digits.replace("x", "1" * module)[::-1], 2) << box.left
        dots.append(line.to_bytes(stride, "little") * count)
    add_dots(surface, int.from_bytes(b"".join(dots), "little"), box.top)


def picture_matrix(box: Box, width: int, height: int) -> cairo.Matrix:
    """Returns from where in a picture the dots of a box are, which it fills but for an inset. The
    inset makes modules narrower: with more of it some would lose a dot, where a printer's page is
    moved by half a dot.
    """
    across = width / (box.width - 2 * INSET)
    down = height / (box.height - 2 * INSET)
    return cairo.Matrix(across, 0, 0, down, -(box.left + INSET) * across, -(box.top + INSET) * down)


def draw_rectangles(
    canvas: Any, modules: Modules, box: Box, module: int, guards: tuple[Span, ...]
) -> None:
    """Draws a code as rectangles. Guards are one rectangle each, from the top of the bars: two
    would leave a hairline between them.
    """
    rows = modules.rows()
    high = box.height // len(rows)
    whole = ((0, modules.width),)
    for number, row in enumerate(rows):
        place = box._replace(top=box.top + number * high, height=high)
        fill_bars(canvas, row, whole, module, place)
    if guards:
        longer = box._replace(height=box.height + GUARD * module)
        fill_bars(canvas, rows[0], guards, module, longer)


def fill_bars(canvas: Any, row: bytes, spans: Iterable[Span], module: int, box: Box) -> None:
    """Draws dark modules in spans of a row as rectangles."""
    modules = bits_of(row)
    for first, end in spans:
        for bar in DARK.finditer(modules, first, end):
            width = (bar.end() - bar.start()) * module
            canvas.rectangle(box.left + bar.start() * module, box.top, width, box.height)
    canvas.fill()
