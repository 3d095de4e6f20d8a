"""The text below bars as dots: digits in forms like those of OCR-B (ISO 1073-2), and the other characters of ASCII."""

import math
from collections.abc import Iterable
from functools import lru_cache

Point = tuple[float, float]
Stroke = tuple[Point, ...]

# The field of a character, in modules. The pen is one module wide and high.
WIDTH = 7
HEIGHT = 9
ZERO_OF_LETTERS = "\uff10"  # a zero among letters: it has a dot, so that it is not taken for an O
_STEP = 15  # degrees of an arc that are drawn as a line
_BASE = 6.9  # where letters and digits end below, in modules from the top
_ROUNDINGS = 3  # how often the corners of a curve are cut


def _arc(middle: Point, across: float, down: float, first: int, last: int) -> Stroke:
    """An arc of an ellipse, clockwise from one angle to another: at 0 degrees it is on the right, at 90 below."""
    angles = [math.radians(min(angle, last)) for angle in range(first, last + _STEP, _STEP)]
    return tuple((middle[0] + across * math.cos(angle), middle[1] + down * math.sin(angle)) for angle in angles)


_SIX = (_arc((3.5, 4.95), 1.8, 1.95, 0, 360), _arc((4.6, 4.9), 2.9, 4.4, 180, 265))
# The way of the middle of the pen, in modules from the left and from the top of the field.
_DIGITS: tuple[tuple[Stroke, ...], ...] = (
    (_arc((3.5, 3.7), 1.8, 3.2, 0, 360),),
    (((2.1, 1.9), (3.6, 0.5), (3.6, _BASE)), ((2.0, _BASE), (5.2, _BASE))),
    ((*_arc((3.5, 2.3), 1.75, 1.8, 190, 395), (1.7, _BASE), (5.3, _BASE)),),
    (((1.9, 0.5), (5.0, 0.5), (3.3, 2.9), *_arc((3.3, 4.9), 1.9, 2.0, 270, 505)),),
    (((3.7, 0.5), (1.7, 5.0), (5.4, 5.0)), ((4.3, 3.3), (4.3, _BASE))),
    (((5.0, 0.5), (2.2, 0.5), (2.2, 3.1), *_arc((3.3, 4.8), 1.95, 2.1, 235, 500)),),
    _SIX,
    (((1.7, 0.5), (5.3, 0.5), (3.7, 3.6), (3.0, _BASE)),),
    (_arc((3.5, 2.0), 1.5, 1.5, 0, 360), _arc((3.5, 5.2), 1.85, 1.7, 0, 360)),
    tuple(tuple((WIDTH - x, 7.4 - y) for x, y in stroke) for stroke in _SIX),
)
# The way of the pen for the other characters: strokes, each the points of a grid of 7 columns and 11 rows, as column
# and row. Row 8 is the base line, row 3 the top of small letters, row a the end of long ones. A stroke with ~ is a
# curve, whose corners are rounded.
_OTHERS = {
    "!": "3035 3738",
    '"': "2022 4042",
    "#": "2028 4048 1252 1656",
    "$": "~52513111131434545657371716 3038",
    "%": "5018 1020211110 4757584847",
    "&": "~5822204042141838 3855",
    "'": "3032",
    "(": "~40222648",
    ")": "~20424628",
    "*": "3137 1256 5216",
    "+": "3237 1454",
    ",": "382a",
    "-": "1454",
    ".": "3738",
    "/": "5018",
    ":": "3334 3738",
    ";": "3334 382a",
    "<": "511457",
    "=": "1353 1656",
    ">": "115417",
    "?": "~111030505233 3335 3738",
    "@": "~58080060656646 4346 ~43232646",
    "A": "183058 2545",
    "B": "1018 ~10305052543414 ~14345456583818",
    "C": "~525030101418385856",
    "D": "1018 ~10305054583818",
    "E": "50101858 1444",
    "F": "501018 1444",
    "G": "~525030101418385856 565434",
    "H": "1018 5058 1454",
    "I": "2040 3038 2848",
    "J": "~505458381816",
    "K": "1018 5014 2358",
    "L": "101858",
    "M": "1810345058",
    "N": "18105850",
    "O": "~305054583818141030",
    "P": "1018 ~10305052543414",
    "Q": "~305054583818141030 3658",
    "R": "1018 ~10305052543414 3458",
    "S": "~52503010121434545658381816",
    "T": "1050 3038",
    "U": "~10141838585450",
    "V": "103850",
    "W": "1028324850",
    "X": "1058 5018",
    "Y": "103450 3438",
    "Z": "10501858",
    "[": "40202848",
    "\\": "1058",
    "]": "20404828",
    "^": "123052",
    "_": "1959",
    "`": "2032",
    "a": "5358 ~545333131518385857",
    "b": "1018 ~141333535558381817",
    "c": "~545333131518385857",
    "d": "5058 ~545333131518385857",
    "e": "1555 ~555333131518385857",
    "f": "~503033 3338 1353",
    "g": "5358 ~545333131518385857 ~585a3a1a",
    "h": "1018 ~1513335355 5558",
    "i": "233338 2848 3030",
    "j": "2343 4348 ~484a2a19 4040",
    "k": "1018 5316 3558",
    "l": "203038 2848",
    "m": "1318 ~1513233335 3538 ~3533435355 5558",
    "n": "1318 ~1513335355 5558",
    "o": "~335355583818151333",
    "p": "131a ~141333535558381817",
    "q": "535a ~545333131518385857",
    "r": "1318 ~1513335354",
    "s": "~533313153555583818",
    "t": "3136 ~36385857 1353",
    "u": "1315 ~1518385855 5358",
    "v": "133853",
    "w": "1328344853",
    "x": "1358 5318",
    "y": "1338 53382a",
    "z": "13531858",
    "{": "~40303314 ~14353848",
    "|": "303a",
    "}": "~20303354 ~54353828",
    "~": "~14234554",
}
_FRAME = "1050581810"


def _rounded(stroke: Stroke) -> Stroke:
    """A stroke whose corners are cut, each time at a quarter and three quarters of the way to the next."""
    for _ in range(_ROUNDINGS):
        cut = [stroke[0]]
        for (left, top), (right, foot) in zip(stroke, stroke[1:]):
            cut += [((3 * left + right) / 4, (3 * top + foot) / 4), ((left + 3 * right) / 4, (top + 3 * foot) / 4)]
        stroke = (*cut, stroke[-1])
    return stroke


def _stroke_of(text: str) -> Stroke:
    """A stroke of _OTHERS."""
    numbers = [int(digit, 16) for digit in text.removeprefix("~")]
    points = zip(numbers[::2], numbers[1::2])
    stroke = tuple((column + 0.5, 0.5 + row * (_BASE - 0.5) / 8) for column, row in points)
    return _rounded(stroke) if text.startswith("~") else stroke


def strokes_of(character: str) -> tuple[Stroke, ...]:
    """The strokes of a character: a frame if it has no form, as a control character."""
    if character == ZERO_OF_LETTERS:
        return (*_DIGITS[0], _stroke_of("3434"))
    if character in "0123456789":
        return _DIGITS[int(character)]
    if character == " ":
        return ()
    return tuple(_stroke_of(text) for text in _OTHERS.get(character, _FRAME).split())


def _dots_of(stroke: Stroke, scale: int) -> Iterable[tuple[int, int]]:
    """Yields the dots of the pen's left upper corner on its way."""
    for (left, top), (right, foot) in zip(stroke, stroke[1:]):
        count = math.ceil(2 * scale * math.dist((left, top), (right, foot))) or 1
        for step in range(count + 1):
            x = left + (right - left) * step / count - 0.5
            y = top + (foot - top) * step / count - 0.5
            yield math.floor(x * scale + 0.5), math.floor(y * scale + 0.5)


@lru_cache(maxsize=256)
def rows_of(character: str, scale: int) -> tuple[int, ...]:
    """Returns the rows of dots of a character, each as a number: its highest bit of WIDTH * scale is the first dot."""
    middle = (scale - 1) / 2
    spans = [math.sqrt(max(0.0, scale * scale / 4 - (y - middle) ** 2)) for y in range(scale)]
    pen = [sum(1 << x for x in range(scale) if abs(x - middle) <= span) for span in spans]
    rows = [0] * (HEIGHT * scale)
    for x, y in {dot for stroke in strokes_of(character) for dot in _dots_of(stroke, scale)}:
        for row, dots in enumerate(pen):
            rows[y + row] |= dots << ((WIDTH - 1) * scale - x)
    return tuple(rows)
