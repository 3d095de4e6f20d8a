"""The drawing of a design in black dots: what is darker than half of black is black, with sharp
edges; lines thinner than a dot are kept; tints, which are lighter, are dithered.
"""

import re
from typing import Iterable, Iterator

import cairo
from PIL import Image, ImageChops, ImageFilter

from labeltools.paper.plan import Dots

DARKEST = 128  # the lightness from which on a dot is white
FAINT = 191  # the lightness up to which a dot may be of a line that is thinner
CLEAR = bytes((*range(DARKEST), *range(FAINT + 1, 256)))
THIN = re.compile(  # between white dots
    b"(?<=[\xf8-\xff])(?:[\x80-\xf7][\x80-\xbf]|[\x80-\xbf][\xc0-\xf7]?)(?=[\xf8-\xff])"
)
FAINTEST = 250  # the lightness from which on a tint is as white
TINTS = bytes(range(FAINTEST)) + b"\xff" * (256 - FAINTEST)
WIDE = 3  # dots: a dot of a tint that is dithered has so many of it on each side
PALE = 236  # the lightness from which on less of it is dithered too
INKLESS = 0.6  # from a dot beside it to white: where a dot of such a line is white
UNLIKE = 16  # by how much a dot is lighter than the dark around it that is white beside it
Ends = tuple[int, int, int, int]  # left, upper, right and lower ends of what is spared


class BlackDots:
    """The dots of a drawing, of which the lightness of each one is given, a byte from 0 for black.
    In what is spared lines stay as thin as they are.
    """

    def __init__(self, light: bytes, size: Dots, spared: Iterable[Ends]) -> None:
        rows = with_thin_lines(light, size[0], spared)
        picture = Image.frombytes("L", size, b"".join(rows))
        dark = at_least(DARKEST, picture)
        white = Image.new("L", size, 255)  # so is what is beside dark dots: their edges stay sharp
        tint = Image.composite(picture.point(TINTS), white, inner(dark, 1))
        self.tint = with_black(tint).convert("1")
        drawn = ImageChops.lighter(dark, light_in_dark(picture, dark))
        self.picture = ImageChops.logical_and(drawn.convert("1"), self.tint)

    def is_tinted(self, ends: Ends) -> bool:
        """Returns whether it has dots of tints there."""
        left, top, right, bottom = ends
        there = (left, top, min(right, self.tint.width), min(bottom, self.tint.height))
        return bool(self.tint.crop(there).getextrema()[0] == 0)  # beyond it a crop is black

    def surface(self, size: Dots) -> cairo.ImageSurface:
        """Returns it at the left upper corner of a page."""
        page = Image.new("1", size, 1)
        page.paste(self.picture)
        surface = cairo.ImageSurface(cairo.FORMAT_A1, *size)
        surface.get_data()[:] = page.tobytes("raw", "1;IR", surface.get_stride())
        surface.mark_dirty()
        return surface


def at_least(light: int, picture: Image.Image) -> Image.Image:
    """Returns a picture that is white where another one has a lightness, and black elsewhere."""
    return picture.point(bytes(light) + b"\xff" * (256 - light))


def inner(white: Image.Image, dots: int) -> Image.Image:
    """Returns what is white with so many white dots on each side."""
    return at_least(255, white.filter(ImageFilter.BoxBlur(dots)))


def with_black(tint: Image.Image) -> Image.Image:
    """Returns tints of which lines and letters that are too thin for a dither are black."""
    pale = at_least(PALE, tint)
    ink = ImageChops.invert(pale)
    if not ink.getbbox():
        return tint
    wide = at_least(1, inner(ink, WIDE).filter(ImageFilter.BoxBlur(2 * WIDE + 1)))
    darkest = tint.filter(ImageFilter.MinFilter(3))
    white = Image.new("L", tint.size, 255)
    thin = at_least(1, ImageChops.subtract(tint, Image.blend(darkest, white, INKLESS)))
    return Image.composite(tint, thin, ImageChops.lighter(pale, wide))


def light_in_dark(picture: Image.Image, dark: Image.Image) -> Image.Image:
    """Returns what is lighter than the dark around it, in white: words on a dark colour."""
    within = inner(ImageChops.invert(dark), WIDE)
    if at_least(UNLIKE, ImageChops.darker(picture, within)).getbbox():
        around = picture.filter(ImageFilter.BoxBlur(WIDE))
        lighter = at_least(UNLIKE, ImageChops.subtract(picture, around))
        return ImageChops.darker(lighter, within)
    return Image.new("L", picture.size, 0)


def with_thin_lines(light: bytes, wide: int, spared: Iterable[Ends]) -> list[bytes]:
    """Returns the rows of a drawing with black dots where a line is thinner than a dot: it may be
    darker than half of black nowhere. What is spared is left as it is.
    """
    rows = [light[start : start + wide] for start in range(0, len(light), wide)]
    found = [bytearray(row) for row in rows]
    columns = [light[start::wide] for start in range(wide)]
    across = ((down, right) for right, down in thin_dots(columns))
    for down, right in (*thin_dots(rows), *across):
        found[down][right] = 0
    for left, top, right, bottom in spared:
        for row, as_drawn in zip(found[top:bottom], rows[top:bottom]):
            row[left:right] = as_drawn[left:right]
    return [bytes(row) for row in found]


def thin_dots(rows: list[bytes]) -> Iterator[Dots]:
    """Yields the row and the place of each dot of a line down that is thinner than a dot: one or
    two of a row are faint, and a faint one and none that is dark is above or below.
    """
    faded = [
        number for number, row in enumerate(rows[:-1]) if number and row.translate(None, CLEAR)
    ]
    for number in faded:
        for run in THIN.finditer(rows[number]):
            place = run.start() + run[0].index(min(run[0]))
            near = slice(place - 1, place + 2)
            if DARKEST <= min(*rows[number - 1][near], *rows[number + 1][near]) <= FAINT:
                yield number, place
