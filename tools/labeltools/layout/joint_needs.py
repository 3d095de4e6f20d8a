"""What some labels need together. Lengths are in dots, those of texts in sizes of their letters."""

import math
from bisect import bisect_right
from collections import Counter
from functools import cached_property
from statistics import fmean
from typing import Hashable, Iterable, Iterator, NamedTuple, TypeVar

from labeltools.layout.area import Area, LARGEST_QR, MODULE
from labeltools.layout.needs import (
    common_value,
    DIGITS_ROOM,
    HINTING,
    LEAST_TEXT,
    LOWEST,
    Need,
    Needs,
    PRICE_STYLES,
)
from labeltools.layout.price import LEAST_RAISED

# lengths in millimetres
LEAST_GAP = 0.6  # white between two parts
QR_MODULE = 0.7
QR_SMALLEST = 0.25
# parts of a label's size: letters of texts, and white between two parts
TEXT_PART = 1 / 18
GAP_PART = 1 / 36
HIGHEST_PRICE = 0.45  # of the height of a label: the ink of its price
LOWEST_PART = 0.15  # of the width of a Code 128: its lowest height
FULL_BARS = 95  # modules of the bars of EAN-13 without quiet zones: wider ones need not be higher
SHARES = (1.0, 0.7, 0.5, 0.3)  # of the height of bars, or of modules of QR, that is aimed at
FULL_LINE = 0.97  # of a line: a title of one line takes no more
BETWEEN = 0.9  # white between parts on one line, in letters: three spaces
UNUSED = 0.6  # of the longest word of a title: what a line that ends before a word leaves empty
AT_SIDES = 0.2  # white at the sides of lines, in letters


Value = TypeVar("Value", bound=Hashable)


class CodeRoom(NamedTuple):
    """The room of codes in a module: the mean of the modules that they have, their width, their
    least and most height with digits, the height that is aimed at, the most height of bars, the
    height of digits.
    """

    module: int
    mean: float
    width: int
    low: int
    most: int
    aim: int
    bars: int
    digits: int


class JointNeeds:
    """What some labels need together; each need is given with how many labels have it."""

    def __init__(self, area: Area, needs: Needs) -> None:
        self.area = area
        self.needs = needs
        self.codes = list({need.code: need for need in needs}.values())
        self.bars = [need for need in self.codes if need.is_bars]
        squares = ((float(need.width), needs[need]) for need in needs if not need.is_bars)
        self.squares = counts_of(squares)
        self.text_size = max(area.dots(LEAST_TEXT), round(area.size * TEXT_PART))
        self.gap = max(area.dots(LEAST_GAP), round(area.size * GAP_PART))
        self.inset = self.gap // 2  # white at the sides of words
        self.lines = max(need.lines for need in needs)
        self.text = common_value(counts_of((need.text, needs[need]) for need in needs))
        self.was = max(need.was for need in needs)
        self.unit = max(need.unit for need in needs)
        # what is found is kept in dicts: a cache of a method would keep all needs in memory
        self.widths: dict[frozenset[str], float] = {}
        self.rooms_of_titles: dict[int, list[float]] = {}
        self.price_height = max(need.price_height for need in needs)
        priced = [need for need in needs if need.price_width("price") > 0]
        self.prices = {
            style: common_value(
                counts_of((need.price_width(style), needs[need]) for need in priced)
            )
            for style in PRICE_STYLES
            if priced and (area.wishes.has_raised_cents or not style.endswith("raised"))
        }

    @cached_property
    def parts(self) -> frozenset[str]:
        """The parts that any of the labels has."""
        there = {
            "title": self.titles,
            "text": self.lines,
            "price": self.prices,
            "was": self.was,
            "unit": self.unit,
        }
        return frozenset(part for part, value in there.items() if value)

    def width_of(self, *parts: str) -> float:
        """Returns the width of the widest line of some parts, with white between them."""
        wanted = frozenset(parts)
        if wanted not in self.widths:
            widths = ([getattr(need, part) for part in parts] for need in self.needs)
            filled = ([wide for wide in several if wide] for several in widths)
            lines = (sum(wide) + BETWEEN * max(0, len(wide) - 1) for wide in filled)
            self.widths[wanted] = max(lines)
        return self.widths[wanted]

    @cached_property
    def titles(self) -> Counter[tuple[int, float, float]]:
        """The titles: in how many lines they are given, the widest of these, and their longest
        word; with how many labels have them.
        """
        titled = [(need, labels) for need, labels in self.needs.items() if need.title]
        return counts_of(
            ((len(need.title), max(need.title), need.word), labels) for need, labels in titled
        )

    def new_rooms_of_titles(self, lines: int) -> list[float]:
        """Returns the rooms in which titles are whole in some lines, in their order. A line ends
        where a word has no room: so all but the last are shorter, by a part of the longest word.
        """
        rooms = []
        for (given, wide, word), labels in self.titles.items():
            each = lines // given
            room = math.inf if each == 0 else wide / FULL_LINE
            if each > 1:
                room = max(word, (wide + (each - 1) * UNUSED * word) / each) + AT_SIDES
            rooms += [room] * labels
        return sorted(rooms)

    def whole(self, lines: int, room: float) -> float:
        """Returns the part of the titles that are whole in some lines of a room, in letters."""
        if lines not in self.rooms_of_titles:
            self.rooms_of_titles[lines] = self.new_rooms_of_titles(lines)
        rooms = self.rooms_of_titles[lines]
        return bisect_right(rooms, room) / len(rooms)

    def rooms(self) -> Iterator[CodeRoom]:
        """Yields the rooms that codes may have: in wide modules and high bars first."""
        labels: Counter[tuple[str, int, int]] = Counter()
        for need, number in self.needs.items():
            labels[need.code] += number
        for module in self.modules():
            taken = counts_of(
                (self.module_of(need, module), labels[need.code]) for need in self.bars
            )
            mean = fmean(taken, taken.values()) if taken else 1.0
            digits = DIGITS_ROOM * module if self.bars else 0
            squares = [self.square(share) for share in SHARES]
            bars = [self.least_bars(module, share) + digits for share in SHARES]
            aim = max(bars[0], squares[0])
            highest = self.highest_bars(module, aim - digits)
            most = max(highest + digits if self.bars else 0, self.largest_square)
            wide = self.bars_room(module)
            for square, low in dict.fromkeys(zip(squares, bars)):
                how = max(wide, square), max(low, square), most, aim, highest, digits
                yield CodeRoom(module, mean, *how)

    def modules(self) -> list[int]:
        """Returns the modules that are tried: none is larger than is wished."""
        if min(self.area.width, self.area.height) < 1:
            return []
        if not self.bars:
            return [1]
        allowed = [self.area.modules[need.symbology] for need in self.bars]
        if not all(allowed):
            return []
        least = max(min(modules) for modules in allowed)
        found = {module for modules in allowed for module in modules}
        wished = {module for module in found if least <= module <= allowed[0][0]} or {least}
        fitting = (
            module for module in wished if all(self.module_of(need, module) for need in self.bars)
        )
        return sorted(fitting, reverse=True)

    def module_of(self, need: Need, wished: int) -> int:
        """Returns the module of bars as wished, or smaller where they are too wide; or 0."""
        allowed = self.area.modules[need.symbology]
        most = min(wished, self.area.width // need.width)
        return max((dots for dots in allowed if dots <= most), default=0)

    def least_bars(self, wished: int, share: float) -> int:
        """Returns the height of the lowest bars, in whole modules."""
        heights = [0]
        for need in self.bars:
            module = self.module_of(need, wished) or wished
            modules: float = need.height
            if need.height == 1:
                wide = min(need.width - sum(need.kind.quiet), FULL_BARS)
                modules = wide * share * self.area.wishes.purpose.bars
                if not need.kind.is_number:
                    modules = max(modules, LOWEST_PART * need.width)
                modules = max(modules, self.area.dots(LOWEST) / module)
            heights.append(math.ceil(modules) * module)
        return max(heights)

    def highest_bars(self, module: int, low: int) -> int:
        """Returns the height of bars where there is room: the nominal one, or as much more as their
        module is larger.
        """
        nominal = max((need.kind.nominal for need in self.bars), default=0.0) / self.area.dot
        return max(low, math.ceil(nominal * max(1.0, module * self.area.dot / MODULE)))

    def bars_room(self, module: int) -> int:
        """Returns the room across that bars claim. Code 128 has no set size: beside EAN it takes
        narrower modules instead.
        """
        has_numbers = any(need.kind.is_number for need in self.bars)
        rooms = [0]
        for need in self.bars:
            is_wide = need.kind.is_number or not has_numbers
            rooms.append(
                need.width * (module if is_wide else min(self.area.modules[need.symbology]))
            )
        return max(rooms)

    def square(self, share: float) -> int:
        """Returns the room that QR claims, for modules that grow with the label."""
        if not self.squares:
            return 0
        area = self.area
        grown = max(1.0, area.size * area.dot / area.wishes.purpose.full_qr)
        wished = min(LARGEST_QR, max(QR_SMALLEST, QR_MODULE * share) * grown)
        least = max(self.squares) * area.dots(QR_SMALLEST)
        return int(max(least, math.ceil(common_value(self.squares) * wished / area.dot)))

    @cached_property
    def largest_square(self) -> int:
        """The most room that QR can use."""
        most = self.area.dots(self.area.wishes.module or LARGEST_QR)
        return int(max(self.squares, default=0) * most)

    @cached_property
    def widest_prices(self) -> dict[str, float]:
        """The width of the widest price in each style."""
        return {style: max(need.price_width(style) for need in self.needs) for style in self.prices}

    def price_in(self, wide: int, high: int) -> tuple[str, int]:
        """Returns how the price is written in a room, and the size of its letters: with raised
        cents, where they are large enough, and narrow only where that makes it larger.
        """
        if not self.prices:
            return "price", 0
        most = min(high, int(HIGHEST_PRICE * self.area.height)) / self.price_height
        found = {"price": 0}
        for style, width in self.prices.items():
            size = math.floor(min(wide / width, most) / HINTING)
            if not style.endswith("raised") or size >= self.area.dots(LEAST_RAISED):
                found[style] = size
        style = max(found, key=lambda style: found[style] * PRICE_STYLES[style])
        return style, found[style]


def counts_of(values: Iterable[tuple[Value, int]]) -> Counter[Value]:
    """Returns how many labels have each value; values are given with a number of labels."""
    counts: Counter[Value] = Counter()
    for value, labels in values:
        counts[value] += labels
    return counts
