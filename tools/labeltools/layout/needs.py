"""What labels need, by what they say: lengths of texts are in sizes of their letters."""

import math
from typing import Mapping, NamedTuple

from labeltools.lines.symbologies import SYMBOLOGIES, Symbology

LINE = 1.2  # the distance of two base lines in sizes of letters
LEAST_TEXT = 1.8  # millimetres: the smallest letters of texts
DIGITS_ROOM = 10  # modules: the room of digits below bars
DIGIT_WIDE = 7.0  # modules: the room of a digit below bars
DIGIT_INK = 0.8  # modules: white at the left of a digit beside the bars
LOWEST = 5.0  # millimetres: the lowest bars
HINTING = 1.03  # by how much letters in dots may be larger than they are measured
# sizes are equal for all if so many take part, or at the cost of no more than this
MOST_OF = 0.9
LEAST_SHARE = 0.75
# how prices are written, and what their size is worth so
PRICE_STYLES = {"price": 1.0, "raised": 0.85, "narrow": 0.9, "narrow_raised": 0.77}
STYLE_NUMBERS = {style: number for number, style in enumerate(PRICE_STYLES)}


class Need(NamedTuple):
    """What decides where the parts of a label are: the symbology, width and height of its code in
    modules (bars without a height of their own have 1); the widths of the lines of its title and of
    the longest word there; the lines of its text and the width of the widest; the width of its
    price in each of `PRICE_STYLES`, and the height of its ink; the widths of its old price and its
    unit price; 0 for what is not there.
    """

    symbology: str
    width: int
    height: int
    title: tuple[float, ...]
    word: float
    lines: int
    text: float
    prices: tuple[float, ...]
    price_height: float
    was: float
    unit: float

    @property
    def code(self) -> tuple[str, int, int]:
        """What is of the code alone."""
        return self.symbology, self.width, self.height

    def price_width(self, style: str) -> float:
        """Returns the width of its price in a style."""
        return self.prices[STYLE_NUMBERS[style]]

    @property
    def kind(self) -> Symbology:
        """The symbology."""
        return SYMBOLOGIES[self.symbology]

    @property
    def is_bars(self) -> bool:
        """Whether the code is bars."""
        return self.kind.nominal > 0

    @property
    def ink(self) -> float:
        """Where the ink of its code begins, in modules: at its first bar, or at the digit beside
        that.
        """
        quiet = self.kind.quiet[0]
        first = self.kind.places[0] if self.kind.places else None
        if first is None or first.left >= quiet:
            return quiet
        wide = min(DIGIT_WIDE, first.right - first.left - 0.5)
        return (first.left + first.right - wide) / 2 + DIGIT_INK * wide / DIGIT_WIDE

    def joined(self, other: "Need") -> "Need":
        """Returns a need of this symbology that fits only where both do."""
        return Need(
            self.symbology,
            max(self.width, other.width),
            max(self.height, other.height),
            max(self.title, other.title, key=sum),
            max(self.word, other.word),
            max(self.lines, other.lines),
            max(self.text, other.text),
            tuple(map(max, self.prices, other.prices)),
            max(self.price_height, other.price_height),
            max(self.was, other.was),
            max(self.unit, other.unit),
        )


Needs = Mapping[Need, int]  # with how many labels need it


def styles_from(style: str) -> list[str]:
    """Returns the styles in which a price is tried where most have one of them: narrower ones are
    for prices that are wider than most.

    >>> styles_from("raised")
    ['raised', 'narrow_raised']
    """
    styles = [*PRICE_STYLES]
    if style == "price":
        return ["price", "narrow"]
    following = [name for name in styles[styles.index(style) + 1 :] if name.endswith("raised")]
    return [style, *following]


def hinting_of(size: int) -> float:
    """Returns by how much lines of letters of so many dots may be longer than they are measured: by
    half a dot for each letter, which is half as wide as high.

    >>> [hinting_of(size) for size in (20, 100)]
    [1.03, 1.01]
    """
    return min(HINTING, 1 + 1 / size)


def rounded_up(width: float, parts: int) -> float:
    """Returns a width rounded up to such parts of the size of letters, so that there are few
    different ones.
    """
    return math.ceil(width * parts) / parts


def common_value(values: Mapping[float, int]) -> float:
    """Returns what nine of ten values keep to, or the largest one where that is not much more.
    Values are given with how often they come; 0 where there is none.

    >>> [common_value(values) for values in ({1.0: 9, 1.2: 1}, {1.0: 9, 3.0: 1}, {1.0: 8, 3.0: 2})]
    [1.2, 1.0, 3.0]
    """
    if not values:
        return 0.0
    most = max(values)
    usual = limit_of_most(values)
    return most if usual >= LEAST_SHARE * most else usual


def limit_of_most(values: Mapping[float, int]) -> float:
    """Returns the smallest value that nine of ten do not exceed."""
    wanted = math.ceil(MOST_OF * sum(values.values()))
    seen = 0
    for value in sorted(values):
        seen += values[value]
        if seen >= wanted:
            return value
    return max(values)
