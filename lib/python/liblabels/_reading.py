"""Pictures read back as the data of their symbols: those of numpy, of Pillow and of files."""

import ctypes
import importlib
import io
import os
import re
from collections.abc import Iterator, Mapping, Sequence
from dataclasses import dataclass
from pathlib import Path
from typing import Protocol, overload, runtime_checkable

from . import _binding, _layout, _pictures
from ._binding import LIBRARY, SYMBOLOGIES
from ._pictures import PNG_HEAD, Bitmap

Part = tuple[int, int, int, int]  # left, top, width and height

_MOST = 2**32 - 1  # the largest number of a call
_FIRST_LIGHT = 128
_DARK = 1  # the bits that are dark
_DARK_IS_TRUE = b"0" + b"1" * 255
_DARK_IS_FALSE = b"1" + b"0" * 255
_DIGITS_OF_GREY = b"1" * _FIRST_LIGHT + b"0" * (256 - _FIRST_LIGHT)
_IS_DARK = [grey < _FIRST_LIGHT for grey in range(256)]
_WHITE = 255
_SEEN_THROUGH = [_WHITE - opaque for opaque in range(256)]
_MODES = ("1", "L", "LA", "P", "RGB", "RGBA")
_WHITE_SPACE = b" \t\n\r\v\f"
_BETWEEN = rb"(?:\s|#[^\n]*\n)+"  # white space and comments, as pbm(5) has them
_HEAD = re.compile(rb"(P[14])" + _BETWEEN + rb"(\d{1,9})" + _BETWEEN + rb"(\d{1,9})\s")


@runtime_checkable
class Array(Protocol):
    """An array of numpy."""

    @property
    def shape(self) -> tuple[int, ...]:
        ...

    @property
    def dtype(self) -> object:
        ...

    def tobytes(self) -> bytes:
        ...


@runtime_checkable
class Image(Protocol):
    """An image of Pillow."""

    @property
    def mode(self) -> str:
        ...

    @property
    def size(self) -> tuple[int, int]:
        ...

    @property
    def info(self) -> Mapping[str, object]:
        ...

    def convert(self, mode: str) -> "Image":
        ...

    def point(self, lut: Sequence[int], mode: str | None = None) -> "Image":
        ...

    def getchannel(self, channel: str) -> "Image":
        ...

    def paste(self, im: int, box: None, mask: "Image") -> None:
        ...

    def tobytes(self) -> bytes:
        ...


@dataclass(frozen=True)
class Reading:
    """What a picture is read as.

    Attributes:
        symbology: one of SYMBOLOGIES.
        scale: how many dots wide a module is.
        turns: how many quarter turns clockwise make the symbol upright, 0 to 3.
        data: what the symbol says: of EAN and UPC with the check digit.
    """

    symbology: str
    scale: int
    turns: int
    data: bytes

    @property
    def text(self) -> str:
        """The data as text; raises UnicodeDecodeError for bytes of a QR code that are not UTF-8.

        >>> Reading("qr", 1, 0, b"gr\\xc3\\xbcn").text
        'grün'
        """
        return self.data.decode()


def _size_of_row(width: int) -> int:
    return (width + 7) // 8


def _packed(width: int, height: int, digits: bytes) -> Bitmap:
    """The bits of rows of digits, 1 where dark, else 0."""
    size = _size_of_row(width)
    rows = (digits[start : start + width].ljust(8 * size, b"0") for start in range(0, len(digits), width or 1))
    bits = int(b"".join(rows) or b"0", 2).to_bytes(size * height, "big")
    return Bitmap(width, height, bits)


def _whole(width: int, height: int, bits: bytes) -> Bitmap:
    size = _size_of_row(width) * height
    if len(bits) != size:
        raise ValueError(f"a picture of {width} by {height} dots has to have {size} bytes of them, not {len(bits)}")
    return Bitmap(width, height, bits)


def _bits_of_file(text: bytes) -> Bitmap:
    """The bits of PNG, which Pillow reads, or of plain or binary PBM of one picture, pbm(5)."""
    if text.startswith(PNG_HEAD):
        return _bits_of_image(importlib.import_module("PIL.Image").open(io.BytesIO(text)))
    head = _HEAD.match(text)
    if not head:
        raise ValueError("bytes have to be PNG, or PBM: P1 or P4, the width and the height, and the dots")
    width, height = int(head[2]), int(head[3])
    rest = text[head.end() :]
    if head[1] == b"P1":
        digits = rest.translate(None, _WHITE_SPACE)
        if digits.translate(None, b"01") or len(digits) != width * height:
            raise ValueError(f"PBM of {width} by {height} dots has to have as many digits 0 and 1")
        return _packed(width, height, digits)
    return _whole(width, height, rest)


def _digits_of_truths(dots: bytes) -> bytes:
    """The digits of truth values, 1 where dark. The first dot is in the quiet zone, and its value is the light one."""
    is_first_true = not dots.startswith(b"\0")
    return dots.translate(_DARK_IS_FALSE if is_first_true else _DARK_IS_TRUE)


def _bits_of_array(array: Array) -> Bitmap:
    kind = str(array.dtype)
    if kind not in ("bool", "uint8") or len(array.shape) != 2:
        raise ValueError(f"an array has to be bool or uint8 of 2 axes, not {kind} of {len(array.shape)}")
    height, width = array.shape
    dots = array.tobytes()
    has_only_truths = not dots.translate(None, b"\0\1")
    return _packed(width, height, _digits_of_truths(dots) if has_only_truths else dots.translate(_DIGITS_OF_GREY))


def _grey_of(image: Image) -> Image:
    """An image in grey, on white where it is transparent."""
    if "A" not in image.mode and "transparency" not in image.info:
        return image.convert("L")
    opaque = image.convert("RGBA")
    grey = opaque.convert("L")
    grey.paste(_WHITE, None, opaque.getchannel("A").point(_SEEN_THROUGH))
    return grey


def _bits_of_image(image: Image) -> Bitmap:
    if image.mode not in _MODES:
        raise ValueError(f"mode of an image is {image.mode}, and has to be one of {', '.join(_MODES)}: convert it")
    width, height = image.size
    return Bitmap(width, height, _grey_of(image).point(_IS_DARK, "1").tobytes())


def _bits_of(picture: object) -> Bitmap:
    if isinstance(picture, Bitmap):
        return _whole(picture.width, picture.height, _binding.encoded(picture.bits))
    if isinstance(picture, (str, os.PathLike)):
        return _bits_of_file(Path(picture).read_bytes())
    if isinstance(picture, (bytes, bytearray)):
        return _bits_of_file(_binding.encoded(picture))
    if isinstance(picture, Image):
        return _bits_of_image(picture)
    if isinstance(picture, Array):
        return _bits_of_array(picture)
    kinds = "the name or the bytes of a file, a Bitmap, an image of Pillow or an array of numpy"
    raise TypeError(f"a picture has to be {kinds}, not {type(picture).__name__}")


def _read(bits: Bitmap, part: Part) -> Reading | None:
    """What a part of a picture is read as."""
    region = _binding.Region(_size_of_row(bits.width), *part, _DARK)
    found = _binding.Found()
    answer = _binding.Answer()
    out = ctypes.create_string_buffer(_binding.MAX_DATA)
    code = LIBRARY.labels_read_bits(
        region, bits.bits, len(bits.bits), ctypes.byref(found), out, len(out), ctypes.byref(answer)
    )
    if code == _binding.NOT_READ:
        return None
    assert code == _binding.OK, answer.message
    return Reading(SYMBOLOGIES[found.symbology], found.scale, found.turns, out.raw[: answer.length])


def _alike(lines: Sequence[int]) -> int:
    """How many lines from the first on are the same."""
    return next((place for place, line in enumerate(lines) if line != lines[0]), len(lines))


def _size_of_start(row: int, width: int) -> int:
    """How many dots at the start of a row have one colour."""
    exchanged = row ^ ((1 << width) - 1)
    return width - min(row, exchanged).bit_length()


def _size_of_end(row: int, width: int) -> int:
    """How many dots at the end of a row have one colour."""
    changes = (row ^ (row >> 1)) & ((1 << (width - 1)) - 1)
    return (changes & -changes).bit_length() or width


def _parts_of_bars(bits: Bitmap) -> Iterator[Part]:
    """Yields the parts at the edges of a picture, but not all of it, in which all rows are the same, or all columns:
    if it has bars with text below them, one of these parts is the bars."""
    width, height, rows = bits.width, bits.height, bits.rows()
    top, bottom = _alike(rows), _alike(rows[::-1])
    if top < height:
        yield 0, 0, width, top
        yield 0, height - bottom, width, bottom
    left = min(_size_of_start(row, width) for row in rows)
    right = min(_size_of_end(row, width) for row in rows)
    if left < width:
        yield 0, 0, left, height
        yield width - right, 0, right, height


def _has_only_its_text(picture: Bitmap, high: int, reading: Reading) -> bool:
    """Whether a picture of bars that are `high` dots high has nothing but their text below, as `png` draws it."""
    if reading.symbology == "qr" or reading.scale > _binding.MOST_SCALE:
        return False
    below = _layout.below(reading.symbology, reading.data, picture.width // reading.scale)
    bars = Bitmap(picture.width, high, picture.bits[: _size_of_row(picture.width) * high])
    return _pictures.with_text(bars, reading.scale, below) == picture


def _read_with_text(bits: Bitmap) -> Reading | None:
    """What bars with their text below are read as."""
    for part in _parts_of_bars(bits):
        reading = _read(bits, part)
        if reading is not None:
            _, _, width, height = part
            high = width if reading.turns % 2 else height
            if _has_only_its_text(_pictures.turned(bits, reading.turns), high, reading):
                return reading
    return None


def _found(picture: object) -> Reading | None:
    bits = _bits_of(picture)
    width = _binding.within("width", bits.width, 0, _MOST)
    height = _binding.within("height", bits.height, 0, _MOST)
    if not bits.bits:
        return None
    return _read(bits, (0, 0, width, height)) or _read_with_text(bits)


Picture = Array | Image | Bitmap | str | os.PathLike[str] | bytes | bytearray


@overload
def read(picture: Picture, /) -> Reading | None:
    ...


@overload
def read(symbology: str, image: Picture, scale: int | None = None) -> bytes | None:
    ...


def read(symbology: object, image: object = None, scale: int | None = None) -> Reading | bytes | None:
    """Returns what the symbol of a picture says, or None if the picture is not, dot for dot, that of a symbol.

    A picture is

    - the name of a file of PNG, for which Pillow has to be installed, or of plain or binary PBM (P1, P4) of one
      picture, as a str or a Path; or the bytes of such a file;
    - an image of Pillow of mode 1, L, P, RGB, LA or RGBA, dark where its grey is below 128, on white where it is
      transparent;
    - an array of numpy of two axes: of uint8, grey, dark below 128; or of truth values, as bool or as 0 and 1, in
      which the value of the first dot is light, since it is in the quiet zone;
    - a `Bitmap`.

    It is the symbol in its quiet zone, and nothing else: each module a square of dots, the zone as wide as
    `Symbol.quiet_zones` says, above and below bars none, and the height of bars a whole number of modules. Below bars
    may be their digits or their text, dot for dot as `Symbol.png` draws them. The symbology and the scale are found,
    and a picture that is not read upright is turned. No upright picture is read by two symbologies, nor at two scales.

    If a symbology is given, one of SYMBOLOGIES, only the data is returned, and only that of an upright symbol of it,
    at this scale if one is given.

    Nothing is corrected or guessed: with one dot of the wrong colour it is not read. Only the colour of the seven
    remainder modules of QR versions 2 to 6, which hold no data, does not matter (ISO/IEC 18004, table 1). The check
    digit of EAN and UPC is part of what is returned. The bars of a UPC-A symbol are those of the EAN-13 symbol of a 0
    and its digits; their quiet zones differ, and so each is read only as itself.

    Raises ValueError for an unknown symbology, a scale below 1, a picture of other axes, types, modes or sizes, and
    bytes that are neither PNG nor PBM; TypeError for another picture; and what Pillow and the file system raise.

    >>> from liblabels import draw
    >>> picture = draw("ean13", "400638133393", scale=3)
    >>> read(picture)
    Reading(symbology='ean13', scale=3, turns=0, data=b'4006381333931')
    >>> read("ean13", picture), read("ean13", picture, scale=1), read("qr", picture)
    (b'4006381333931', None, None)
    """
    if image is None or not isinstance(symbology, str):
        return _found(symbology)
    _binding.index_of(SYMBOLOGIES, "symbology", symbology)
    wanted = None if scale is None else _binding.within("scale", scale, 1, _MOST)
    found = _found(image)
    if found is None or found.turns or found.symbology != symbology or wanted not in (None, found.scale):
        return None
    return found.data
