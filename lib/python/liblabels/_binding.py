"""The calls of liblabels by ctypes: its structs, its options, and the data that is handed to it."""

import ctypes
import math
import numbers
import operator
import os
import re
import struct
from collections.abc import Callable, Iterator
from ctypes import byref
from functools import lru_cache
from itertools import count
from typing import Any

Data = str | bytes | bytearray | memoryview

FORMATS = ("pbm", "ascii")

# Codes of labels.h that are no refusal, and that of data that is no number.
OK = 0
NO_ROOM = 1
NOT_A_DIGIT = 5
SKIPPED = 14
NOT_READ = 17
MAX_MODULES = 3249
MAX_DATA = 652
_MASK_AUTO = 8
_MOST_DRAWN = 8  # the largest scale of the library
MOST_SCALE = 100
MOST_BORDER = 100
_OF_DIGITS = ("ean13", "ean8", "upca")
# The groups in which label-table takes all digits of a number, too: those of an ISBN, and those printed below bars.
_IN_GROUPS = re.compile(rb"97[89](?:[- ]?\d){10}|\d \d{6} \d{6}|\d{4} \d{4}|\d \d{5} \d{5} \d")


class Options(ctypes.Structure):
    """labels_options: the seven options and five spare words."""

    numbers: ctypes.Array[ctypes.c_uint32]

    _fields_ = [("numbers", ctypes.c_uint32 * 7), ("reserved", ctypes.c_uint32 * 5)]


class Answer(ctypes.Structure):
    """labels_answer."""

    code: int
    length: int
    at: int
    message: bytes

    _fields_ = [
        ("code", ctypes.c_uint32),
        ("reserved", ctypes.c_uint32),
        ("length", ctypes.c_size_t),
        ("at", ctypes.c_size_t),
        ("message_length", ctypes.c_size_t),
        ("message", ctypes.c_char * 96),
    ]


# labels_symbol_info: eleven numbers, five spare words, the length of the data, and room for it.
INFO = struct.Struct("@11I20xN656s")
_INFO_AT = ctypes.sizeof(Answer)
_MODULES_AT = _INFO_AT + INFO.size
_WIDTH, _ROWS = 1, 2


class SymbolRoom(ctypes.Structure):
    """What a call puts a symbol into, as one object, which is made in a quarter of the time of three."""

    answer: Answer

    _fields_ = [
        ("answer", Answer),
        ("info", ctypes.c_ubyte * INFO.size),
        ("modules", ctypes.c_ubyte * MAX_MODULES),
    ]

    def places(self) -> tuple[object, int, object, object]:
        """Returns the last arguments of the call: where modules go, their room, and the places of what it says."""
        return byref(self, _MODULES_AT), MAX_MODULES, byref(self, _INFO_AT), byref(self)

    def drawn(self) -> tuple[Any, ...]:
        """Returns what was put there: the eleven numbers of INFO, the length of the data, its room; the modules."""
        written = memoryview(self).cast("B")
        info = INFO.unpack_from(written, _INFO_AT)
        return *info, written[_MODULES_AT : _MODULES_AT + info[_WIDTH] * info[_ROWS]].tobytes()


class Dots(ctypes.Structure):
    """labels_dots."""

    width: int
    height: int

    _fields_ = [
        ("width", ctypes.c_uint32),
        ("height", ctypes.c_uint32),
        ("reserved", ctypes.c_uint32 * 2),
    ]


class Region(ctypes.Structure):
    """labels_region: a whole picture."""

    _fields_ = [
        ("stride", ctypes.c_size_t),
        ("left", ctypes.c_uint32),
        ("top", ctypes.c_uint32),
        ("width", ctypes.c_uint32),
        ("height", ctypes.c_uint32),
        ("dark", ctypes.c_uint32),
        ("reserved", ctypes.c_uint32 * 3),
    ]


class Found(ctypes.Structure):
    """labels_found."""

    symbology: int
    scale: int
    turns: int

    _fields_ = [
        ("symbology", ctypes.c_uint32),
        ("scale", ctypes.c_uint32),
        ("turns", ctypes.c_uint32),
        ("reserved", ctypes.c_uint32 * 5),
    ]


class Span(ctypes.Structure):
    """labels_span."""

    left: int
    right: int

    _fields_ = [("left", ctypes.c_uint32), ("right", ctypes.c_uint32)]


class Digits(ctypes.Structure):
    """labels_digits."""

    first: int
    last: int
    span: Span

    _fields_ = [("first", ctypes.c_uint32), ("last", ctypes.c_uint32), ("span", Span)]


class Layout(ctypes.Structure):
    """labels_layout."""

    guards: int
    groups: int
    guard: ctypes.Array[Span]
    group: ctypes.Array[Digits]

    _fields_ = [
        ("guards", ctypes.c_uint32),
        ("groups", ctypes.c_uint32),
        ("reserved", ctypes.c_uint32 * 2),
        ("guard", Span * 3),
        ("group", Digits * 4),
    ]


def _load() -> ctypes.CDLL:
    library = ctypes.CDLL(os.environ.get("LABELS_LIBRARY", "liblabels.so.1"))
    size = ctypes.c_size_t
    data = [ctypes.c_char_p, size]
    room = [ctypes.c_void_p, size]
    bits = [ctypes.c_void_p, size, size]
    answer = [ctypes.c_void_p]
    options = [ctypes.POINTER(Options)]
    library.labels_draw.argtypes = [*options, ctypes.c_int, *data, *room, *answer]
    library.labels_draw_line.argtypes = [*options, *data, *room, *answer]
    library.labels_symbol.argtypes = [*options, ctypes.c_int, *data, *room, *answer, *answer]
    library.labels_line.argtypes = [*options, *data, *room, *answer, *answer]
    library.labels_bitmap.argtypes = [*options, ctypes.c_int, *data, *bits, *answer, *answer]
    library.labels_bitmap_line.argtypes = [*options, *data, *bits, *answer, *answer]
    library.labels_symbology_layout.argtypes = [ctypes.c_int, *answer]
    library.labels_read_bits.argtypes = [ctypes.POINTER(Region), *data, *answer, *room, *answer]
    for call in (library.labels_version, library.labels_symbology_name, library.labels_level_name):
        call.restype = ctypes.c_char_p
    return library


def _names(name_of: Callable[[int], bytes | None]) -> Iterator[str]:
    """Yields the names of the numbers from 0 on, up to the first that has none."""
    for number in count():
        name = name_of(number)
        if name is None:
            return
        yield name.decode("ascii")


LIBRARY = _load()
SYMBOLOGIES = tuple(_names(LIBRARY.labels_symbology_name))
LEVELS = tuple(_names(LIBRARY.labels_level_name))


def index_of(names: tuple[str, ...], kind: str, name: str) -> int:
    """Returns the number that labels.h has for a name; raises ValueError for one that is not in `names`."""
    if name not in names:
        raise ValueError(f"unknown {kind} {name!r}: one of {', '.join(names)}")
    return names.index(name)


def whole(name: str, number: int) -> int:
    """Returns a number as an int; raises TypeError, which has the name, for anything but a whole number."""
    try:
        return operator.index(number)
    except TypeError:
        raise TypeError(f"{name} has to be a whole number, not {number!r}") from None


def within(name: str, number: int, lowest: int, highest: int) -> int:
    """Returns a number as an int; raises ValueError, which has the name, for one that is not lowest to highest."""
    number = whole(name, number)
    if not lowest <= number <= highest:
        raise ValueError(f"{name} is {number}, and has to be {lowest} to {highest}")
    return number


def scale_of_program(scale: int) -> int:
    """Returns a scale that labels(1) has; raises ValueError, which says what takes others."""
    scale = whole("scale", scale)
    if _MOST_DRAWN < scale <= MOST_SCALE:
        range_of_program = f"1 to {_MOST_DRAWN} as labels(1) has it"
        raise ValueError(f"scale is {scale}, and has to be {range_of_program}: png, save and bitmap take {MOST_SCALE}")
    return within("scale", scale, 1, _MOST_DRAWN)


def scales_of(scale: int) -> tuple[int, int]:
    """Returns the scale at which the library draws, and how many times its dots are enlarged after that."""
    scale = within("scale", scale, 1, MOST_SCALE)
    return (scale, 1) if scale <= _MOST_DRAWN else (1, scale)


@lru_cache(maxsize=64, typed=True)
def options_of(
    format: str, scale: int, height: int, level: str, min_version: int, mask: int | None, escapes: bool
) -> Options:
    """Returns options as the library takes them; raises ValueError for one that is out of its range."""
    numbers = (
        index_of(FORMATS, "format", format),
        within("scale", scale, 1, _MOST_DRAWN),
        within("height", height, 1, 500),
        index_of(LEVELS, "level", str(level).upper()),
        within("min_version", min_version, 1, 10),
        _MASK_AUTO if mask is None else within("mask", mask, 0, 7),
        bool(escapes),
    )
    return Options((ctypes.c_uint32 * 7)(*numbers))


def encoded(data: Data) -> bytes:
    """Returns the bytes of data, a str as UTF-8.

    They are real bytes, since the library reads as many as their length says, and a subclass could say another one. An
    empty cell of a table has none. Raises TypeError for a number and for other types.
    """
    if isinstance(data, str):
        return str.encode(data)
    if isinstance(data, (bytes, bytearray, memoryview)):
        return data if type(data) is bytes else bytes(memoryview(data))
    if _is_empty_cell(data):
        return b""
    raise TypeError(f"data has to be str or bytes, {_other_data(data)}")


def data_of(symbology: str, data: Data) -> bytes:
    """Returns the bytes of the data of a symbology: of EAN and UPC without the hyphens or spaces between groups."""
    raw = encoded(data)
    if symbology in _OF_DIGITS and not raw.isdigit() and _IN_GROUPS.fullmatch(raw):
        return raw.translate(None, b"- ")
    return raw


def _is_empty_cell(cell: object) -> bool:
    """Whether a value is what an empty cell of a table is: nan or NA of pandas, None of others."""
    is_nan = isinstance(cell, float) and math.isnan(cell)
    return cell is None or is_nan or type(cell).__name__ == "NAType"


def _other_data(data: object) -> str:
    """What data is if it is no text, and what helps. Numbers mostly come from tables that pandas has read."""
    if isinstance(data, numbers.Number):
        return f"not {type(data).__name__}: pandas reads a table without losing digits with dtype=str"
    return f"not {type(data).__name__}"


def first_room(options: Options) -> int:
    """Returns the bytes that are enough for most pictures of a scale; a larger picture takes a second call."""
    scale = int(options.numbers[1])
    return max(16384, 2048 * scale * scale)
