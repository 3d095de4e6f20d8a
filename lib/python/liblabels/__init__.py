"""Bar codes and QR codes, drawn and read back by the proved library liblabels.

>>> import liblabels
>>> code = liblabels.symbol("ean13", "400638133393")  # the check digit may be left out
>>> code.text
'4006381333931'
>>> code.png(scale=4, dpi=300)[1:4]  # the bytes of a file
b'PNG'
>>> code.svg(scale=0.33, unit="mm")[:4]
'<svg'
>>> liblabels.symbol("ean13", "4006381333932")
Traceback (most recent call last):
liblabels.Refused: check digit is 2, should be 1

>>> code.data_uri()[:26]  # for a web page
'data:image/svg+xml;base64,'

>>> label = liblabels.line("qr,level=Q HELLO")  # a line as of labels(1)
>>> label.width, label.version, label.level, label.mask, label.data
(21, 1, 'Q', 2, b'HELLO')
>>> picture = liblabels.draw("ean8", "7351353", scale=2)  # as labels(1) prints it
>>> liblabels.read(picture)  # what a picture says
Reading(symbology='ean8', scale=2, turns=0, data=b'73513537')

A file of it with its digits below; the same into an open file; a picture on the screen; the same in a terminal; an
image of Pillow; and the modules as an array of numpy, without quiet zones:

    code.save("shelf.png", digits=True)  # or .svg
    code.save(file, kind="png", digits=True)
    code.show()
    code.terminal()
    code.image(scale=4, dark="#1a2b3c")
    numpy.asarray(code)  # of bool, True where dark

`python3 -m liblabels ean13 400638133393 > code.png` writes a symbol in a shell; `--help` says how it writes many.

Data and lines are bytes, bytearray or memoryview, or str, which is encoded as UTF-8. The numbers of EAN and UPC may
have the hyphens of an ISBN, and the spaces of the digits below bars. What the library refuses raises `Refused` with
the text of labels(1), which a pool of processes passes on; a wrong option raises ValueError.

Numbers are refused, since they lose zeros: read a table with `pandas.read_csv(name, dtype=str)`. An empty cell, which
is nan there and None in openpyxl, is as empty text: `symbol` raises `Refused` with the text "no data".

The module keeps no state, and other threads run during a call. The library is liblabels.so.1, or the file that the
environment variable LABELS_LIBRARY names. If it is not installed, the import raises OSError.
"""

import base64
import ctypes
import io
import os
import re
from collections.abc import Callable, Iterator
from dataclasses import dataclass, field
from pathlib import Path
from typing import Any, Protocol

from . import _binding, _layout, _pictures
from ._binding import FORMATS, LEVELS, LIBRARY, SYMBOLOGIES, Data
from ._layout import Layout, layout
from ._pictures import Bitmap
from ._reading import Reading, read

__all__ = [
    "FORMATS",
    "LEVELS",
    "SYMBOLOGIES",
    "Bitmap",
    "Layout",
    "Reading",
    "Refused",
    "Symbol",
    "bitmap",
    "bitmap_line",
    "draw",
    "draw_line",
    "layout",
    "line",
    "read",
    "symbol",
    "version",
]
__version__ = "1.2.0"
_DIGITS = bytes.maketrans(b"\0\1", b"01")
_MEDIA_TYPES = {"png": "image/png", "svg": "image/svg+xml"}  # of each kind of file
# What a number of pandas is as text: a column with an empty cell has 4006381333931.0 and nan.
_NUMBER_OF_PANDAS = re.compile(rb"(?:\d\.0|\bnan)$")
_CURE = "this looks like a number of pandas: read the table with dtype=str"


class Refused(ValueError):
    """Data or a line that has no symbol: `code` is the number that labels.h has for the reason.

    `at` is the byte of the data that is wrong, or the setting of the line, from 1 on; 0 where none is.

    >>> draw("ean13", "4006381333930")
    Traceback (most recent call last):
    liblabels.Refused: check digit is 0, should be 1
    """

    def __init__(self, code: int, text: str, at: int = 0) -> None:
        super().__init__(code, text, at)  # what it is made of again in another process
        self.code = code
        self.at = at

    def __str__(self) -> str:
        return str(self.args[1])


class _TextFile(Protocol):
    """A file that is open for text."""

    def write(self, text: str, /) -> object:
        ...


class _BinaryFile(Protocol):
    """A file that is open for bytes."""

    def write(self, data: bytes, /) -> object:
        ...


@dataclass(frozen=True)
class Symbol:
    """A symbol's modules. A linear symbol has one row of them, which is drawn `height` modules high.

    Attributes:
        symbology: one of SYMBOLOGIES.
        width: modules in a row, without quiet zones.
        rows: rows of modules.
        height: how high the symbol is drawn, in modules.
        quiet_zones: left, right, top and bottom, in modules: what a reader needs to be light around the symbol.
        version: of QR, 1 to 10; None of others, as are the next two.
        level: of QR, one of LEVELS.
        mask: of QR, 0 to 7.
        modules: a byte for each module, row by row from the top: 1 where dark, else 0.
        data: what the symbol says: of EAN and UPC with the check digit, of a line without its escapes.
    """

    symbology: str
    width: int
    rows: int
    height: int
    quiet_zones: tuple[int, int, int, int]
    version: int | None
    level: str | None
    mask: int | None
    modules: bytes = field(repr=False)
    data: bytes

    @property
    def text(self) -> str:
        """The data as text; raises UnicodeDecodeError for bytes of a QR code that are not UTF-8.

        >>> symbol("ean13", "978-0-306-40615-7").text + ".png"
        '9780306406157.png'
        """
        return self.data.decode()

    def packed(self, quiet_zones: bool = False) -> bytes:
        """Returns the modules as bits, 1 where dark, in rows of whole bytes, as binary PBM has them.

        The quiet zones are light modules around them; without `quiet_zones` they are left out.

        >>> symbol("ean8", "7351353").packed().hex()
        'aedeb132a853a144a0'
        """
        left, right, top, bottom = self.quiet_zones if quiet_zones else (0, 0, 0, 0)
        size = (left + self.width + right + 7) // 8
        # All rows as one number: between two of them are the zones and the bits that fill a byte.
        digits = self.modules.translate(_DIGITS)
        if self.rows > 1:
            between = b"0" * (size * 8 - self.width)
            starts = range(0, len(digits), self.width)
            digits = between.join([digits[start : start + self.width] for start in starts])
        number = int(digits, 2)
        bits = (number << (size * 8 - left - self.width)).to_bytes(size * self.rows, "big")
        return bytes(size * top) + bits + bytes(size * bottom)

    def size(self, quiet_zones: bool = True) -> tuple[int, int]:
        """Returns how wide and how high the symbol is drawn, in modules.

        >>> symbol("ean13", "4006381333931", height=30).size(), symbol("qr", "HELLO").size(quiet_zones=False)
        ((113, 30), (21, 21))
        """
        left, right, top, bottom = self.quiet_zones if quiet_zones else (0, 0, 0, 0)
        return left + self.width + right, top + self.height + bottom

    def bars(self) -> Iterator[tuple[int, int, int, int]]:
        """Yields what is dark as rectangles: column, row, width and height, in modules, without quiet zones.

        >>> list(symbol("ean8", "7351353", height=5).bars())[:2]
        [(0, 0, 1, 5), (2, 0, 1, 5)]
        """
        high = self.height // self.rows
        for row, first, end in _pictures.dark_runs(self.modules, self.width):
            yield first, row * high, end - first, high

    def svg(
        self,
        scale: float = 1,
        unit: str = "",
        *,
        border: int | None = None,
        dark: str = "black",
        light: str | None = None,
        digits: bool = False,
    ) -> str:
        """Returns the symbol as SVG, its modules `scale` of a unit wide: "mm", "cm", "in", "pt", "px", or none.

        `dark` is its colour, as SVG has them; `light` that behind it: with None what is behind it shows. `border` and
        `digits` are those of `png`, with letters of the program that shows the picture. Raises ValueError for another
        unit, for a scale that is not above 0, and for what `png` does not take as `border` and `digits`.

        >>> symbol("ean8", "7351353", height=5).svg(0.33, "mm")[:83]
        '<svg xmlns="http://www.w3.org/2000/svg" width="26.73mm" height="1.65mm" viewBox="0 '
        """
        left, right, top, bottom = self._sides(border, digits)
        below = self._below() if digits else _layout.Below()
        guarded = [range(first, last) for first, last in below.guards]
        bars = [(x, y, w, h + 5 * any(left + x in guard for guard in guarded)) for x, y, w, h in self.bars()]
        size = (left + self.width + right, top + self.height + bottom)
        return _pictures.svg_of(bars, size, (left, top), scale, unit, dark, light, below.lines)

    def _sides(self, border: int | None, digits: bool) -> _pictures.Sides:
        """How wide the light modules at each side are: as quiet zones, or as a border."""
        if border is None:
            return self.quiet_zones
        if digits:
            raise ValueError("digits are in the quiet zones: leave out border")
        width = _binding.within("border", border, 0, _binding.MOST_BORDER)
        return width, width, width, width

    def _below(self) -> _layout.Below:
        """The longer bars of EAN and UPC, and the digits or the text below."""
        return _layout.below(self.symbology, self.data, self.size()[0])

    def png(
        self,
        scale: float = 1,
        dpi: float | None = None,
        digits: bool = False,
        *,
        unit: str = "",
        border: int | None = None,
        dark: str = "black",
        light: str | None = "white",
    ) -> bytes:
        """Returns the symbol as PNG, its modules `scale` dots wide, 1 to 100.

        `dpi` is what the file says of the dots of an inch, from which programs know how large it is. With `unit`,
        which is "mm", "cm", "in" or "pt", a module is as many whole dots wide as are nearest to `scale` of it.

        `border` is how wide the light margin is at each side, in modules, 0 to 100; without one it is that of the
        quiet zones, and the picture that of the symbol's `bitmap`. `dark` and `light` are its colours, "black",
        "white" or as "#1a2b3c"; with None as `light` what is behind the picture shows.

        With `digits` EAN and UPC have longer guard bars, and their digits below, and Code 128 has its text there: ten
        modules more, and for a long text ten for each line. A control character is a frame there.

        Raises ValueError for a scale or a border that is out of its range, for a unit without `dpi`, for another
        colour, for digits of QR, for digits with a border, since they are in the quiet zones, and what `Bitmap.png`
        raises.

        >>> symbol("qr", "HELLO").png(scale=4)[:8]
        b'\\x89PNG\\r\\n\\x1a\\n'
        >>> label = symbol("ean13", "400638133393")
        >>> label.png(scale=0.33, unit="mm", dpi=300) == label.png(scale=4, dpi=300)  # 3.9 dots
        True
        """
        dots: Any = scale if unit in ("", "px") else _pictures.dots_of(scale, unit, dpi)
        return _pictures.png_of(self._dots(dots, digits, border), dpi, dark, light)

    def image(self, scale: float = 1, digits: bool = False, **options: Any) -> Any:
        """Returns the picture of `png`, with its options, as an image of Pillow, which has to be installed.

        It is of mode 1, with colours P. Raises what `png` raises.

        >>> symbol("qr", "HELLO").image(scale=4).size, symbol("qr", "HELLO").image(border=0).size
        ((116, 116), (21, 21))
        """
        return _pictures.image_of(self.png(scale, digits=digits, **options))

    def show(self, scale: float = 4, digits: bool = False, **options: Any) -> None:
        """Shows the picture of `png`, with its options, on the screen, in the program that Pillow finds for it.

        Raises what `png` raises.
        """
        self.image(scale, digits, **options).show()

    def terminal(self, file: _TextFile | None = None) -> None:
        """Prints the symbol with its quiet zones, to standard output or to a file that is open for text.

        It is of black and white blocks, for a terminal that knows UTF-8 and colours. A character is two modules wide
        for bars, and one for squares.

        >>> output = io.StringIO()
        >>> symbol("qr", "HELLO").terminal(output)
        >>> len(output.getvalue().splitlines())  # of 29 rows with the quiet zones
        15
        """
        width, height = self.size()
        modules = self.packed(quiet_zones=True)
        if self.rows == 1:
            lines = _pictures.blocks_of_bars(Bitmap(width, 1, modules), height)
        else:
            lines = _pictures.blocks_of_squares(Bitmap(width, height, modules))
        for text in lines:
            print(f"{_pictures.BLACK_ON_WHITE}{text}{_pictures.AS_BEFORE}", file=file)

    def _dots(self, scale: int, digits: bool, border: int | None) -> Bitmap:
        """The picture of the symbol, with its digits, or with a border in place of its quiet zones."""
        scale = _binding.within("scale", scale, 1, _binding.MOST_SCALE)
        sides = self._sides(border, digits)
        below = self._below() if digits else None
        drawn = bitmap(
            self.symbology,
            self.data,
            scale=scale,
            height=self.height,
            level=self.level or "M",
            min_version=self.version or 1,
            mask=self.mask,
        )
        if below:
            return _pictures.with_text(drawn, scale, below)
        if sides == self.quiet_zones:
            return drawn
        return _pictures.with_sides(drawn, scale, self.quiet_zones, sides)

    def save(
        self,
        file: str | os.PathLike[str] | _BinaryFile | io.TextIOBase,
        kind: str | None = None,
        **options: Any,
    ) -> None:
        """Writes the symbol to a file as PNG or SVG, with the options of `png` or of `svg`.

        `file` is a name, or a file that is open for writing. The end of its name says which `kind` it is, .png or
        .svg; where it does not, give "png" or "svg". Raises ValueError for another kind and for PNG in a file that
        takes text, and what `png`, `svg` and the file system raise.

        >>> file = io.BytesIO()
        >>> symbol("qr", "HELLO").save(file, kind="png", scale=4)
        >>> file.getvalue() == symbol("qr", "HELLO").png(4)
        True
        >>> symbol("qr", "HELLO").save("code.gif")
        Traceback (most recent call last):
        ValueError: the name of a file has to end with .svg or .png: code.gif
        """
        picture = self._picture(kind or _kind_of(file), options)
        if isinstance(file, (str, os.PathLike)):
            Path(file).write_bytes(picture)
        elif not isinstance(file, io.TextIOBase):
            file.write(picture)
        elif picture.startswith(_pictures.PNG_HEAD):
            raise ValueError("PNG has to go into a binary file: open it with mode 'wb'")
        else:
            file.write(picture.decode())

    def data_uri(self, kind: str = "svg", **options: Any) -> str:
        """Returns the symbol as a data URI, for a web page: as "svg" or "png", with the options of `svg` or of `png`.

        Raises ValueError for another kind, and what these raise.

        >>> symbol("qr", "HELLO").data_uri("png", scale=4)[:22]
        'data:image/png;base64,'
        """
        coded = base64.b64encode(self._picture(kind, options)).decode()
        return f"data:{_MEDIA_TYPES[kind.lower()]};base64,{coded}"

    def _picture(self, kind: str, options: dict[str, Any]) -> bytes:
        """The bytes of a file of a kind."""
        kind = kind.lower()
        if kind not in _MEDIA_TYPES:
            raise ValueError(f"unknown kind {kind!r}: one of {', '.join(_MEDIA_TYPES)}")
        return self.png(**options) if kind == "png" else self.svg(**options).encode()

    @property
    def __array_interface__(self) -> dict[str, object]:
        """What numpy.asarray makes an array of: the modules, True where dark, without quiet zones."""
        return {"version": 3, "shape": (self.rows, self.width), "typestr": "|b1", "data": self.modules}

    def _repr_svg_(self) -> str:
        """Returns what a notebook shows."""
        return self.svg(4, light="white")


def _kind_of(file: object) -> str:
    """The kind of a file, which the end of its name says; raises ValueError if it says none."""
    is_open = hasattr(file, "write")
    name = getattr(file, "name", None) if is_open else file
    kind = Path(name).suffix.lower().removeprefix(".") if isinstance(name, (str, os.PathLike)) else ""
    if kind in _MEDIA_TYPES:
        return kind
    if is_open:
        raise ValueError("an open file whose name does not end with .svg or .png needs kind='png' or kind='svg'")
    raise ValueError(f"the name of a file has to end with .svg or .png: {file}")


def _line_of(text: Data) -> bytes:
    return _binding.encoded(text).removesuffix(b"\n")


def _expect_drawn(answer: _binding.Answer, raw: bytes) -> None:
    if answer.code != _binding.OK:
        refused = Refused(answer.code, answer.message.decode("ascii"), answer.at)
        if answer.code == _binding.NOT_A_DIGIT and _NUMBER_OF_PANDAS.search(raw):
            refused.add_note(_CURE)
        raise refused


def _picture(call: Callable[..., int], room: int, raw: bytes, *asked: object) -> bytes | None:
    """The picture that a call draws, in a room of some bytes or a larger one, or None for a line that is skipped."""
    answer = _binding.Answer()
    while True:
        out = ctypes.create_string_buffer(room)
        code = call(*asked, raw, len(raw), out, room, ctypes.byref(answer))
        if code == _binding.SKIPPED:
            return None
        if code != _binding.NO_ROOM:
            _expect_drawn(answer, raw)
            return ctypes.string_at(out, answer.length)
        room = answer.length


def _symbol(call: Callable[..., int], raw: bytes, *asked: object) -> Symbol | None:
    """The symbol that a call draws, or None for a line that is skipped."""
    room = _binding.SymbolRoom()
    code = call(*asked, raw, len(raw), *room.places())
    if code == _binding.SKIPPED:
        return None
    if code != _binding.OK:
        _expect_drawn(room.answer, raw)
    (
        symbology,
        width,
        rows,
        height,
        left,
        right,
        top,
        bottom,
        version,
        level,
        mask,
        length,
        data,
        modules,
    ) = room.drawn()
    is_qr = version > 0
    symbol = Symbol.__new__(Symbol)
    vars(symbol).update(  # at once: __init__ of a frozen dataclass takes three times as long
        symbology=SYMBOLOGIES[symbology],
        width=width,
        rows=rows,
        height=height,
        quiet_zones=(left, right, top, bottom),
        version=version if is_qr else None,
        level=LEVELS[level] if is_qr else None,
        mask=mask if is_qr else None,
        modules=modules,
        data=data[:length],
    )
    return symbol


def _bitmap(call: Callable[..., int], raw: bytes, *asked: object) -> Bitmap | None:
    """The bitmap that a call draws, or None for a line that is skipped."""
    answer = _binding.Answer()
    dots = _binding.Dots()
    code = call(*asked, raw, len(raw), None, 0, 0, ctypes.byref(dots), ctypes.byref(answer))
    if code == _binding.SKIPPED:
        return None
    if code != _binding.NO_ROOM:
        _expect_drawn(answer, raw)
    bits = ctypes.create_string_buffer(answer.length)
    call(*asked, raw, len(raw), bits, 0, len(bits), ctypes.byref(dots), ctypes.byref(answer))
    _expect_drawn(answer, raw)
    return Bitmap(dots.width, dots.height, bits.raw)


def line(
    text: Data,
    *,
    height: int = 50,
    level: str = "M",
    min_version: int = 1,
    mask: int | None = None,
    escapes: bool = False,
) -> Symbol | None:
    """Returns the symbol that labels(1) draws for one line, or None for an empty line or a comment.

    The options are those of a run, which settings of the line change: `height` of bars in modules, 1 to 500; of QR
    `level`, `min_version` 1 to 10, and `mask` 0 to 7, or None for the one with the lowest penalty; `escapes`: whether
    the data has escapes. A line feed at the end of the text is no part of the line.

    Raises Refused where labels(1) refuses the line, and where the text has another line feed; ValueError for an option
    out of its range.

    >>> line("ean13,height=20 4006381333931").height
    20
    >>> line("# a comment")
    >>> line("qr,size=3 HELLO")
    Traceback (most recent call last):
    liblabels.Refused: unknown setting 1
    """
    options = _binding.options_of("pbm", 1, height, level, min_version, mask, escapes)
    raw = _line_of(text)
    return _symbol(LIBRARY.labels_line, raw, options)


def symbol(
    symbology: str,
    data: Data,
    *,
    height: int = 50,
    level: str = "M",
    min_version: int = 1,
    mask: int | None = None,
) -> Symbol:
    """Returns the symbol of some data in a symbology, one of SYMBOLOGIES. The options are those of `line`.

    Raises Refused where the data has no symbol; ValueError for an option out of its range.

    >>> symbol("ean13", "400638133393").data
    b'4006381333931'
    """
    options = _binding.options_of("pbm", 1, height, level, min_version, mask, False)
    number = _binding.index_of(SYMBOLOGIES, "symbology", symbology)
    raw = _binding.data_of(symbology, data)
    drawn = _symbol(LIBRARY.labels_symbol, raw, options, number)
    assert drawn is not None  # no data is a line that is skipped
    return drawn


def draw(
    symbology: str,
    data: Data,
    *,
    format: str = "pbm",
    scale: int = 1,
    height: int = 50,
    level: str = "M",
    min_version: int = 1,
    mask: int | None = None,
) -> bytes:
    """Returns the picture of some data, byte for byte as labels(1) prints it, with its quiet zones.

    `format` is "pbm" (plain PBM) or "ascii", `scale` the dots of a module, 1 to 8. The other options are those of
    `line`. Raises what `symbol` raises.

    >>> draw("qr", "HELLO")[:9]
    b'P1\\n29 29\\n'
    >>> draw("ean13", 4006381333931)
    Traceback (most recent call last):
    TypeError: data has to be str or bytes, not int: pandas reads a table without losing digits with dtype=str
    """
    scale = _binding.scale_of_program(scale)
    options = _binding.options_of(format, scale, height, level, min_version, mask, False)
    number = _binding.index_of(SYMBOLOGIES, "symbology", symbology)
    raw = _binding.data_of(symbology, data)
    picture = _picture(LIBRARY.labels_draw, _binding.first_room(options), raw, options, number)
    assert picture is not None  # no data is a line that is skipped
    return picture


def bitmap(
    symbology: str,
    data: Data,
    *,
    scale: int = 1,
    height: int = 50,
    level: str = "M",
    min_version: int = 1,
    mask: int | None = None,
) -> Bitmap:
    """Returns the picture of some data as a bitmap, with its quiet zones. The options are those of `draw`.

    A `scale` above 8, up to 100, is that of dots which the module enlarges. Raises what `symbol` raises.

    >>> bitmap("ean8", "7351353", height=1).bits.hex()
    '015dbd626550a742894000'
    """
    drawn, more = _binding.scales_of(scale)
    options = _binding.options_of("pbm", drawn, height, level, min_version, mask, False)
    number = _binding.index_of(SYMBOLOGIES, "symbology", symbology)
    raw = _binding.data_of(symbology, data)
    picture = _bitmap(LIBRARY.labels_bitmap, raw, options, number)
    assert picture is not None  # no data is a line that is skipped
    return picture.enlarged(more)


def bitmap_line(
    text: Data,
    *,
    scale: int = 1,
    height: int = 50,
    level: str = "M",
    min_version: int = 1,
    mask: int | None = None,
    escapes: bool = False,
) -> Bitmap | None:
    """Returns the picture of one line as a bitmap, or None for an empty line or a comment.

    The options are those of `draw_line`, with a `scale` of 1 to 100. Raises what `line` raises.
    """
    drawn, more = _binding.scales_of(scale)
    options = _binding.options_of("pbm", drawn, height, level, min_version, mask, escapes)
    raw = _line_of(text)
    picture = _bitmap(LIBRARY.labels_bitmap_line, raw, options)
    return picture and picture.enlarged(more)


def draw_line(
    text: Data,
    *,
    format: str = "pbm",
    scale: int = 1,
    height: int = 50,
    level: str = "M",
    min_version: int = 1,
    mask: int | None = None,
    escapes: bool = False,
) -> bytes | None:
    """Returns the picture that labels(1) prints for one line, or None for an empty line or a comment.

    The options are those of `draw` and `line`. Raises what `line` raises.

    >>> draw_line("ean8,height=2 7351353\\n", scale=2)[:9]
    b'P1\\n162 4\\n'
    """
    scale = _binding.scale_of_program(scale)
    options = _binding.options_of(format, scale, height, level, min_version, mask, escapes)
    raw = _line_of(text)
    return _picture(LIBRARY.labels_draw_line, _binding.first_room(options), raw, options)


def version() -> str:
    """Returns the version of the library.

    >>> version()
    '1.2.0'
    """
    number: bytes = LIBRARY.labels_version()
    return number.decode("ascii")
