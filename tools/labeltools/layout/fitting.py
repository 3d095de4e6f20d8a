"""Fits texts into boxes by Pango, for all designs. Lengths are in dots."""

import re
from dataclasses import dataclass
from functools import cache, cached_property, lru_cache, partial
from math import ceil
from typing import Any, Callable, NamedTuple, Sequence

import cairo

from labeltools.layout.letters import BY_PAIRS, GlyphRow, Letters, LineFont
from labeltools.layout.needs import LINE
from labeltools.layout.pango import (
    asked_size,
    font_options,
    new_layout,
    Pango,
    pango_context,
    UNIT,
)
from labeltools.paper.box import Box
from labeltools.paper.plan import MOST_DOTS

NOT_LATIN = re.compile("[^\0-\u024f\u2028]")  # letters that may leave their line
LINE_END = "\u2028"  # of a line that is not the last one of its paragraph
ELLIPSIS = 1 << 1  # PANGO_ANALYSIS_FLAG_IS_ELLIPSIS of a run
KERNED = 1.01  # by how much lines may be wider than their letters
SIDE = 16  # lines have this part of the size of letters as room at their sides
# letters that do not fit lose this part of their size: in a box, and on a base line
STEP = 20
FINE_STEP = 40
KEPT = 1536  # texts that are kept as they are laid out
LEFT = -1
MIDDLE = 0
RIGHT = 1
ALIGNMENTS = {
    LEFT: Pango.Alignment.LEFT,
    MIDDLE: Pango.Alignment.CENTER,
    RIGHT: Pango.Alignment.RIGHT,
}
RIGHT_TO_LEFT = Pango.Direction.RTL
find_base_dir = Pango.find_base_dir

Colour = tuple[float, float, float]  # red, green, blue: 0 to 1


class Style(NamedTuple):
    """How a text is drawn: its letters and their size; the most lines that each line of it takes,
    the last of which may end in an ellipsis, or 0 where it is whole; where it is across (LEFT,
    MIDDLE, RIGHT) and down (0 to 1) its box, or its first base line there; how many bytes at its
    beginning are struck through.
    """

    family: str
    is_bold: bool
    size: int
    lines: int
    across: int
    down: float
    struck: int
    base: int | None = None


@dataclass(eq=False)
class Fitted:
    """A text in letters of a size, where it begins in its box, and how high it is; its rows of
    glyphs and their font, where these are known without Pango.
    """

    size: int
    x: int
    y: int
    height: int
    lay_out: Callable[[], Any]
    font: Any = None
    rows: Sequence[GlyphRow] = ()

    @cached_property
    def layout(self) -> Any:
        """How Pango lays it out."""
        return self.lay_out()


class Placed(NamedTuple):
    """A text that is fitted into a box: its style; the box, turned to the right by some quarters;
    its colour where that is not black; whether its letters have a white edge.
    """

    text: Fitted
    style: Style
    box: Box
    quarters: int = 0
    colour: Colour | None = None
    is_edged: bool = False


class Fitter:
    """Fits texts."""

    def __init__(self, letters: Letters, is_dots: bool) -> None:
        self.letters = letters
        self.is_dots = is_dots
        self.context = pango_context(is_dots)
        self.blank = cache(self.new_blank)
        self.font = cache(self.new_font)
        self.found = lru_cache(KEPT)(self.new_found)

    def new_found(self, text: str, style: Style, width: int, height: int) -> Fitted:
        """Returns a text as it fits a box: smaller where its ink would leave it."""
        return self.in_rows(text, style, width, height) or self.by_pango(text, style, width, height)

    def in_rows(self, text: str, style: Style, width: int, height: int) -> Fitted | None:
        """Returns a text whose lines all have room; None where Pango has to say it."""
        size = style.size
        side = side_of(size)
        lines = text.split(LINE_END)
        high = height_of(len(lines), size)
        is_in_lines = style.base is None and len(lines) <= style.lines and high <= height
        if not is_in_lines or "\n" in text or NOT_LATIN.search(text):
            return None
        font, rows = self.rows(lines, style, width - 2 * side)
        if not rows:
            return None
        y = int((height - high) * style.down)
        lay_out = partial(self.laid_out, text, style, width, size)
        return Fitted(size, side, y, high, lay_out, font, rows)

    def by_pango(self, text: str, style: Style, width: int, height: int) -> Fitted:
        """Returns a text as Pango lays it out, of which it also says what ink it has."""
        size = style.size
        is_on_base = style.base is not None
        is_plain = style.lines and not is_on_base and not NOT_LATIN.search(text)
        while True:
            layout = self.laid_out(text, style, width, size)
            if is_plain:  # Pango takes long for the size of a text
                across = width - 2 * side_of(size)
                high = height_of(layout.get_line_count(), size)
                ink = Box(0, 0, across, high)
            else:
                across, high = layout.get_pixel_size()
                ink = ink_of(layout)
            if (ink.width <= width and ink.height <= height) or size <= 1:
                break
            size -= max(1, size // (FINE_STEP if is_on_base else STEP))
        extents = (across, high, layout.get_baseline() // UNIT if is_on_base else 0)
        if size < style.size:
            style = style._replace(size=size)
        x, y = corner_of(style, extents, ink, width, height)
        found = (None, ()) if style.lines else self.rows([text], style, MOST_DOTS)
        return Fitted(size, x, y, high, lambda: layout, *found)

    def rows(
        self, lines: Sequence[str], style: Style, room: float
    ) -> tuple[Any, Sequence[GlyphRow]]:
        """Returns the font of lines in a room, and their rows of glyphs; none where Pango has to
        draw them.
        """
        if style.family not in BY_PAIRS or style.struck:
            return None, ()
        font = self.font(style.family, style.is_bold, style.size, style.lines > 0)
        part = (style.across + 1) / 2 if style.lines else 0.0
        return font.font, font.rows(lines, room, part, line_height(style.size) / UNIT)

    def new_font(self, family: str, is_bold: bool, size: int, has_lines: bool) -> LineFont:
        """Returns the letters of lines of a size, which are all equally high where a text has
        several.
        """
        # Cairo keeps a face as it was first used: in dots it has another name
        weight = cairo.FONT_WEIGHT_BOLD if is_bold else cairo.FONT_WEIGHT_NORMAL
        face = cairo.ToyFontFace(family + " " * self.is_dots, cairo.FONT_SLANT_NORMAL, weight)
        font = in_size(face, asked_size(family, size), font_options(self.is_dots))
        style = Style(family, is_bold, size, int(has_lines), LEFT, 0.0, 0)
        return LineFont(self.blank(style, -1, size).copy(), font)

    def shown(self, text: str, style: Style, width: int, height: int) -> str:
        """Returns a text as it is seen in a box: up to the ellipsis, where it has one."""
        if not style.lines or self.is_short(text, style, width):
            return text
        layout = self.found(text, style, width, height).layout
        return seen_in(layout) if layout.is_ellipsized() else text

    def is_short(self, text: str, style: Style, width: int) -> bool:
        """Returns whether all lines of a text surely have room: its letters need not be placed to
        see that it is whole.
        """
        lines = text.split(LINE_END)
        letters = self.letters
        if letters.family != style.family or "\n" in text or NOT_LATIN.search(text):
            return False
        if len(lines) > style.lines:
            return False
        size = KERNED * style.size
        room = width - 2 * side_of(style.size)
        each = float(self.is_dots)  # by which a letter may be wider than it is measured
        widths = [letters.width(line, style.is_bold) * size + len(line) * each for line in lines]
        return max(widths) < room

    def new_blank(self, style: Style, width: int, size: int) -> Any:
        """Returns a layout of Pango without a text, its letters of a size in dots; it has one line
        for a width of less than 0.
        """
        layout = new_layout(self.context, style.family, style.is_bold, size)
        if style.lines and width >= 0:
            layout.set_width((width - 2 * side_of(size)) * UNIT)
            layout.set_wrap(Pango.WrapMode.WORD_CHAR)
            layout.set_ellipsize(Pango.EllipsizeMode.END)
            layout.set_height(-style.lines)  # of each paragraph
        layout.set_alignment(ALIGNMENTS[style.across])
        layout.set_attributes(attributes_of(style, size))
        return layout

    def laid_out(self, text: str, style: Style, width: int, size: int) -> Any:
        """Returns a text in a style and size. Its lines are paragraphs, if none is wrapped: for the
        end of a line Pango looks for one more font.
        """
        plain = style if style.base is None else style._replace(base=0)
        layout = self.blank(plain, width if style.lines else 0, size).copy()
        if LINE_END in text and "\n" not in text and not NOT_LATIN.search(text):
            layout.set_text(text.replace(LINE_END, "\n"), -1)
            if layout.get_line_count() == text.count(LINE_END) + 1:
                return layout
        layout.set_text(text, -1)
        if style.across == RIGHT and find_base_dir(text, -1) == RIGHT_TO_LEFT:
            layout.set_alignment(Pango.Alignment.LEFT)  # which Pango takes for where lines begin
        return layout


def in_size(face: cairo.FontFace, size: int, options: cairo.FontOptions) -> Any:
    """Returns the font of a face in a size."""
    return cairo.ScaledFont(face, cairo.Matrix(size, 0, 0, size), cairo.Matrix(), options)


def side_of(size: int) -> int:
    """Returns the room at each side of lines in letters of a size."""
    return size // SIDE


def line_height(size: int) -> int:
    """Returns how high a line of letters of a size is, in units of Pango."""
    return round(LINE * size * UNIT)


def height_of(lines: int, size: int) -> int:
    """Returns how high some lines of letters of a size are."""
    return ceil(lines * line_height(size) / UNIT)


def corner_of(
    style: Style, extents: tuple[int, int, int], ink: Box, width: int, height: int
) -> tuple[int, int]:
    """Returns where a text begins in a box, so that its ink is within it; its width, height and
    first base line are given.
    """
    across, high, base = extents
    left, top, ink_width, ink_height = ink
    if style.base is not None:
        x = (width - ink_width) * (style.across + 1) // 2 - left
        y = style.base - base
    else:
        x = side_of(style.size) if style.lines else (width - across) * (style.across + 1) // 2
        y = int((height - high) * style.down)
    x = max(-left, min(x, width - ink_width - left))
    return x, max(-top, min(y, height - ink_height - top))


def attributes_of(style: Style, size: int) -> Any:
    """Returns the attributes of a style: lines of equal height, whatever fonts their letters are
    of; no hyphens; what is struck through.
    """
    attributes = Pango.AttrList()
    if style.lines or style.struck:
        attributes.insert(Pango.attr_line_height_new_absolute(line_height(size)))
    attributes.insert(Pango.attr_insert_hyphens_new(False))
    if style.struck:
        strike = Pango.attr_strikethrough_new(True)
        strike.start_index = 0
        strike.end_index = style.struck
        attributes.insert(strike)
    return attributes


def seen_in(layout: Any) -> str:
    """Returns the letters of a layout of Pango, with an ellipsis where it has left some out."""
    text = layout.get_text().encode()
    seen = b""
    for line in layout.get_lines_readonly():
        for run in line.runs:
            item = run.item
            is_ellipsis = item.analysis.flags & ELLIPSIS
            seen += "…".encode() if is_ellipsis else text[item.offset : item.offset + item.length]
    return seen.decode()


def ink_of(layout: Any) -> Box:
    """Returns where a layout has ink; each number is read once, since Pango takes long for it."""
    ink, _ = layout.get_pixel_extents()
    return Box(ink.x, ink.y, ink.width, ink.height)
