"""Pictures of a symbol in the formats of others: SVG and PNG."""

import html
import importlib
import io
import math
import re
import struct
import zlib
from collections.abc import Iterable, Sequence
from dataclasses import dataclass, field
from typing import Any

from . import _binding, _glyphs
from ._layout import Below, Text

Rectangle = tuple[int, int, int, int]
Sides = tuple[int, int, int, int]  # left, right, top and bottom

_OF_AN_INCH = {"mm": 25.4, "cm": 2.54, "in": 1, "pt": 72}
UNITS = ("", "px", *_OF_AN_INCH)
_DARK_IS_0 = bytes(255 - byte for byte in range(256))
_METRES_OF_AN_INCH = 0.0254
_COLOUR = re.compile("#(?:[0-9a-f]{3}){1,2}", re.ASCII | re.IGNORECASE)
_NAMED = {"black": "#000000", "white": "#ffffff"}
_GREY, _OF_A_PALETTE = 0, 3  # how the dots of a PNG are coloured
_OPAQUE, _CLEAR = 255, 0
_BELOW_BARS = 10  # modules that a line of text takes there, and how high the font of SVG is
_LONGER = 5  # modules of guard bars
_PICTURES_OF_CONTROLS = {code: 0x2400 + code for code in range(32)} | {127: 0x2421}  # of Unicode
_NO_FILTER, _LESS_ABOVE = b"\0", b"\2"  # rows of PNG: as they are, and less the row above, so that an equal one is 0
# Characters of a terminal for two dots, 1 where dark. A character is about twice as high as it is wide.
_ONE_ABOVE_ANOTHER = {("0", "0"): " ", ("0", "1"): "▄", ("1", "0"): "▀", ("1", "1"): "█"}
_ONE_BESIDE_ANOTHER = {("0", "0"): " ", ("0", "1"): "▐", ("1", "0"): "▌", ("1", "1"): "█"}
_BARS_OF_A_LINE = 4  # modules of height, where two are as wide as a character
BLACK_ON_WHITE, AS_BEFORE = "\x1b[38;5;16;48;5;231m", "\x1b[0m"  # colours of a terminal (ECMA-48)
PNG_HEAD = b"\x89PNG\r\n\x1a\n"


def dark_runs(modules: bytes, width: int) -> Iterable[tuple[int, int, int]]:
    """Yields each run of dark modules in rows of `width`: its row, its first column, and the column after it."""
    for row, start in enumerate(range(0, len(modules), width)):
        of_row = modules[start : start + width] + b"\0"
        first = of_row.find(1)
        while first >= 0:
            end = of_row.find(0, first)
            yield row, first, end
            first = of_row.find(1, end)


def _svg_of_line(line: Sequence[Text], foot: int) -> str:
    """The texts of a line that ends at `foot`, in modules. Control characters are their pictures."""
    texts = [((begin + end) / 2, html.escape(text.translate(_PICTURES_OF_CONTROLS))) for begin, end, text in line]
    return "".join(f'<text x="{middle:g}" y="{foot - 1}">{text}</text>' for middle, text in texts)


def svg_of(
    bars: Iterable[Rectangle],
    size: tuple[int, int],
    corner: tuple[int, int],
    scale: float,
    unit: str,
    dark: str,
    light: str | None,
    lines: Sequence[Sequence[Text]] = (),
) -> str:
    """Returns dark rectangles as SVG.

    `bars` are column, row, width and height of each, in modules from `corner` on; `size` is that of the whole picture
    in modules. A module is `scale` of `unit`, one of UNITS, wide. `dark` is their colour and that of the texts, and
    `light` the colour behind them, None for none. `lines` of texts are put below, each in the middle of two modules.

    Raises ValueError for another unit, and for a scale that is not above 0.
    """
    if unit not in UNITS:
        raise ValueError(f"unknown unit {unit!r}: one of {', '.join(UNITS[1:])}, or none")
    if not 0 < scale < float("inf"):
        raise ValueError(f"scale is {scale}, and has to be above 0")
    left, top = corner
    width, height = size
    ink = "" if dark == "black" else f' fill="{html.escape(dark)}"'
    below = "".join(_svg_of_line(line, height + _BELOW_BARS * place) for place, line in enumerate(lines, 1))
    if below:
        height += _BELOW_BARS * len(lines)
        font = f'font-family="OCR-B, OCRB, monospace" font-size="{_BELOW_BARS}"'
        below = f'<g {font}{ink} text-anchor="middle" xml:space="preserve">{below}</g>'
    path = "".join(f"M{left + x} {top + y}h{w}v{h}h-{w}z" for x, y, w, h in bars)
    behind = "" if light is None else f'<path fill="{html.escape(light)}" d="M0 0h{width}v{height}h-{width}z"/>'
    return (
        f'<svg xmlns="http://www.w3.org/2000/svg" width="{width * scale:g}{unit}" height="{height * scale:g}{unit}"'
        f' viewBox="0 0 {width} {height}" shape-rendering="crispEdges">{behind}<path{ink} d="{path}"/>{below}</svg>'
    )


def _chunk(kind: bytes, body: bytes) -> bytes:
    """A chunk of PNG: its length, its kind, its bytes and their check."""
    return struct.pack(">I", len(body)) + kind + body + struct.pack(">I", zlib.crc32(kind + body))


def dots_of(scale: float, unit: str, dpi: float | None) -> int:
    """Returns how many whole dots are nearest to `scale` of a unit of length, if an inch has `dpi` of them.

    Raises ValueError for an unknown unit, without `dpi`, and for a module of no dot or of more than 100.
    """
    if unit not in _OF_AN_INCH:
        raise ValueError(f"unknown unit {unit!r}: one of {', '.join(UNITS[1:])}, or none")
    if dpi is None:
        raise ValueError(f"a scale in {unit} needs dpi: how many dots of an inch the picture is printed with")
    dots = scale * dpi / _OF_AN_INCH[unit]
    if not 0.5 <= dots < _binding.MOST_SCALE + 0.5:
        raise ValueError(f"scale is {scale} {unit}, which is {dots:g} dots, and has to be 1 to {_binding.MOST_SCALE}")
    return int(dots + 0.5)


def _rgb_of(name: str, colour: str) -> bytes:
    """The red, green and blue of a colour; `name` is what a message calls it."""
    text = _NAMED.get(colour, colour)
    if not _COLOUR.fullmatch(text):
        raise ValueError(f"{name} is {colour!r}: PNG takes black, white, and colours such as #1a2b3c")
    digits = text[1:] if len(text) == len("#rrggbb") else "".join(2 * digit for digit in text[1:])
    return bytes.fromhex(digits)


def _colours(dark: str, light: str | None) -> tuple[int, list[bytes]]:
    """How the dots of a PNG are coloured, and the chunks that say it: a palette, of which 0 is dark."""
    if (dark, light) == ("black", "white"):
        return _GREY, []
    palette = _rgb_of("dark", dark) + _rgb_of("light", "white" if light is None else light)
    clear = [_chunk(b"tRNS", bytes([_OPAQUE, _CLEAR]))] if light is None else []
    return _OF_A_PALETTE, [_chunk(b"PLTE", palette), *clear]


def png_of(picture: "Bitmap", dpi: float | None, dark: str, light: str | None) -> bytes:
    """Returns a picture as PNG of one bit a dot (ISO/IEC 15948), in two colours; without `light` the dots that are not
    dark are transparent.

    `dpi` says how many dots an inch has where it is printed; None says nothing of it. Raises ValueError for one that
    is not 1 to 100,000, and for a colour that is not black, white or as #1a2b3c.
    """
    if dpi is not None and not 1 <= dpi <= 100_000:
        raise ValueError(f"dpi is {dpi}, and has to be 1 to 100000")
    kind, colours = _colours(dark, light)
    size = (picture.width + 7) // 8
    light_is_1 = picture.bits.translate(_DARK_IS_0)
    lines = [light_is_1[start : start + size] for start in range(0, size * picture.height, size)]
    same = _LESS_ABOVE + bytes(size)
    rows = b"".join(same if line == above else _NO_FILTER + line for above, line in zip([None, *lines], lines))
    chunks = [_chunk(b"IHDR", struct.pack(">2I5B", picture.width, picture.height, 1, kind, 0, 0, 0)), *colours]
    if dpi is not None:
        a_metre = round(dpi / _METRES_OF_AN_INCH)
        chunks.append(_chunk(b"pHYs", struct.pack(">2IB", a_metre, a_metre, 1)))
    chunks += [_chunk(b"IDAT", zlib.compress(rows)), _chunk(b"IEND", b"")]
    return PNG_HEAD + b"".join(chunks)


@dataclass(frozen=True)
class Bitmap:
    """A picture as bits, 1 where dark, in rows of whole bytes, as binary PBM has them.

    Attributes:
        width: dots in a row, with the quiet zones.
        height: rows of dots.
        bits: the rows, each (width + 7) // 8 bytes, the first dot in the highest bit.
    """

    width: int
    height: int
    bits: bytes = field(repr=False)

    def rows(self) -> list[int]:
        """Returns the rows as numbers, of which the lowest bit is the last dot.

        >>> from liblabels import bitmap
        >>> f"{bitmap('ean8', '7351353', height=1).rows()[0]:081b}"[:12]
        '000000010101'
        """
        size = (self.width + 7) // 8
        starts = range(0, size * self.height, size)
        return [int.from_bytes(self.bits[start : start + size], "big") >> -self.width % 8 for start in starts]

    def enlarged(self, scale: int) -> "Bitmap":
        """Returns the picture with `scale` by `scale` dots for each.

        >>> from liblabels import bitmap
        >>> bitmap("qr", "HELLO").enlarged(3) == bitmap("qr", "HELLO", scale=3)
        True
        """
        if scale == 1:
            return self
        wide = [_wide(row, self.width, scale) for row in self.rows()]
        return bitmap_of(self.width * scale, [row for row in wide for _ in range(scale)])

    def png(self, dpi: float | None = None) -> bytes:
        """Returns the picture as PNG of one bit a dot; `dpi` says how many dots an inch has where it is printed.

        Raises ValueError for a `dpi` that is not 1 to 100,000.

        >>> from liblabels import bitmap
        >>> bitmap("ean8", "7351353", scale=2).png(dpi=300)[1:4]
        b'PNG'
        """
        return png_of(self, dpi, "black", "white")

    def image(self) -> Any:
        """Returns the picture as an image of Pillow, which has to be installed, of mode 1.

        >>> from liblabels import bitmap
        >>> bitmap("ean8", "7351353", height=20, scale=2).image().size
        (162, 40)
        """
        return image_of(self.png())


def image_of(png: bytes) -> Any:
    """Returns the bytes of a PNG as an image of Pillow, which has to be installed."""
    return importlib.import_module("PIL.Image").open(io.BytesIO(png))


def _wide(row: int, width: int, scale: int) -> int:
    """A row with each dot `scale` times."""
    return int(f"{row:0{width}b}".replace("0", "0" * scale).replace("1", "1" * scale), 2)


def bitmap_of(width: int, rows: Sequence[int]) -> Bitmap:
    """Returns the picture of rows as numbers, of which the lowest bit is the last dot."""
    size = (width + 7) // 8
    return Bitmap(width, len(rows), b"".join((row << -width % 8).to_bytes(size, "big") for row in rows))


def with_sides(picture: Bitmap, scale: int, given: Sides, wanted: Sides) -> Bitmap:
    """Returns a picture of modules of `scale` dots with other light sides than it has, both in modules."""
    left, right, top, bottom = (scale * side for side in given)
    new_left, new_right, new_top, new_bottom = (scale * side for side in wanted)
    inner = [row >> right << new_right for row in picture.rows()[top : picture.height - bottom]]
    width = new_left + picture.width - left - right + new_right
    return bitmap_of(width, [*[0] * new_top, *inner, *[0] * new_bottom])


def _digits(picture: Bitmap) -> list[str]:
    """The rows of a picture as digits, 1 where dark."""
    return [f"{row:0{picture.width}b}" for row in picture.rows()]


def blocks_of_squares(picture: Bitmap) -> list[str]:
    """Returns the lines of a terminal that show a picture: each character is two dots, one above the other."""
    rows = [*_digits(picture), "0" * picture.width]  # where their number is odd, the last one is below the picture
    pairs = zip(rows[::2], rows[1::2])
    return ["".join(_ONE_ABOVE_ANOTHER[pair] for pair in zip(*rows_of_line)) for rows_of_line in pairs]


def blocks_of_bars(bars: Bitmap, height: int) -> list[str]:
    """Returns the lines of a terminal that show a row of bars: each character is two dots, side by side."""
    digits = _digits(bars)[0] + "0"
    line = "".join(_ONE_BESIDE_ANOTHER[pair] for pair in zip(digits[::2], digits[1::2]))
    return [line] * math.ceil(height / _BARS_OF_A_LINE)


def turned(picture: Bitmap, turns: int) -> Bitmap:
    """Returns a picture after so many quarter turns clockwise."""
    width, rows = picture.width, _digits(picture)
    for _ in range(turns):
        width, rows = len(rows), ["".join(column) for column in zip(*reversed(rows))]
    return bitmap_of(width, [int(row, 2) for row in rows])


def with_text(bars: Bitmap, scale: int, below: Below) -> Bitmap:
    """Returns bars of modules of `scale` dots with longer guard bars and with what is printed below."""
    last = int.from_bytes(bars.bits[-((bars.width + 7) // 8) :], "big") >> -bars.width % 8
    guarded = sum((2 ** ((end - begin) * scale) - 1) << (bars.width - end * scale) for begin, end in below.guards)
    high = _BELOW_BARS * scale
    printed = [last & guarded] * (_LONGER * scale) + [0] * (high * len(below.lines) - _LONGER * scale)
    texts = [(first, *text) for first, line in zip(range(scale, len(printed), high), below.lines) for text in line]
    has_letters = any(character.isalpha() for *_, text in texts for character in text)
    for first, begin, end, text in texts:
        left = (begin + end - _glyphs.WIDTH * len(text)) * scale // 2
        for place, character in enumerate(text, 1):
            shift = bars.width - left - place * _glyphs.WIDTH * scale
            form = _glyphs.ZERO_OF_LETTERS if has_letters and character == "0" else character
            for y, row in enumerate(_glyphs.rows_of(form, scale), first):
                printed[y] |= row << shift
    return Bitmap(bars.width, bars.height + len(printed), bars.bits + bitmap_of(bars.width, printed).bits)
