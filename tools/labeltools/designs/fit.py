"""Fits the texts of all labels into a place of a design: letters as large as it takes, alike on
nearly all labels. Lengths are in dots, those of texts in sizes of their letters.
"""

import math
import re
from bisect import bisect_left
from collections import Counter
from functools import cache, lru_cache
from statistics import median_high
from typing import Callable, Iterable, NamedTuple, Sequence

from labeltools.common.messages import quoted, ToolError
from labeltools.common.text import Text
from labeltools.layout.fitting import height_of, LINE_END, Style
from labeltools.layout.layout import PlacedText
from labeltools.layout.letters import is_simple, Letters, Sign
from labeltools.layout.needs import common_value, HINTING, hinting_of, LEAST_TEXT, LINE
from labeltools.layout.place import Place, PRICES
from labeltools.paper.box import Box
from labeltools.paper.plan import TINY

SIDE = 1 / 8  # white at both sides of wrapped lines, in letters
STEP = 0.97  # the next smaller size of letters that is tried
STEPS = 160  # of these: from the largest letters to less than a hundredth of them
OUTLYING = 2.0  # by how much smaller letters have no part in the size that is common to labels
NUMBER = re.compile(r"\W*\d[\d\W]+")
LOW = 0.5  # of the size of letters: signs with lower ink, as hyphens, are as beside a LETTER
LETTER = "H"
HIGHEST = "Åg"  # of usual letters
MOST_LINES = 20  # of a text in a place
PARTED = 64  # paragraphs whose parts are kept: they are wrapped in several sizes of letters
KEPT = 16384  # texts of which the sizes and places are kept: more take too much memory
ENLARGE = Text("enlarge it")


class NoRoom(ToolError):
    """Why a price or a symbol has no room in its place."""


class Fit(NamedTuple):
    """The largest letters of a text in a place, and the text with the ends of its lines then, but
    of one that is cut.
    """

    size: int
    text: str
    is_cut: bool = False


class Part(NamedTuple):
    """A part of a line, with the spaces behind it: its width, and that of these."""

    text: str
    width: float
    behind: float


class Wrapping:
    """Parts the texts of a place into lines, alike on each medium. A text of one line may have no
    room at its `sides`.
    """

    sides = 0.0  # in letters
    lines_in: Callable[[int], int]  # how many lines of letters of a size the place has

    def __init__(self, place: Place, box: Box, letters: Letters) -> None:
        self.place = place
        self.box = box
        self.wide, self.high = place.as_read(box)
        self.letters = letters
        self.parts = lru_cache(PARTED)(self.new_parts)

    def of(self, text: str) -> Letters:
        """Returns the letters in which a text is."""
        return self.letters.of(text, self.place.part == "price" and self.place.is_bold)

    def sign(self, line: str, letters: Letters) -> Sign:
        """Returns what a line takes in letters."""
        return letters.whole(line, self.place.is_bold)

    def in_lines(self, text: str, room: float) -> str | None:
        """Returns a text with the ends of its lines in a room; None where a part of it is too
        wide.
        """
        letters = self.of(text)
        found = []
        for paragraph in text.split("\n"):
            parts = self.parts(paragraph, letters)
            if any(part.width > room - SIDE for part in parts):
                return None
            found.append(LINE_END.join(balanced(parts, room - SIDE)))
        return "\n".join(found)

    def whole_in(self, text: str, size: int) -> str | None:
        """Returns a text with the ends of its lines in letters of a size; None where it has no
        room.
        """
        room = self.wide / size / hinting_of(size)
        wide = math.inf if "\n" in text else self.of(text).width(text, self.place.is_bold)
        if wide <= room - self.sides:
            return text
        whole = self.in_lines(text, room)
        return whole if whole is not None and count_of(whole) <= self.lines_in(size) else None

    def fit(self, text: str, sizes: Sequence[int]) -> Fit:
        """Returns the largest letters of some sizes in which a text is whole, or else the least."""
        if (whole := self.whole_in(text, sizes[0])) is not None:  # most texts fit so
            return Fit(sizes[0], whole)
        end = bisect_left(sizes, True, 1, key=lambda size: self.whole_in(text, size) is not None)
        whole = self.whole_in(text, sizes[end]) if end < len(sizes) else None
        return Fit(sizes[-1], text, True) if whole is None else Fit(sizes[end], whole)

    def new_parts(self, paragraph: str, letters: Letters) -> list[Part]:
        """Returns the parts of a paragraph behind which lines may end. A price is one part."""
        if self.place.part in PRICES:
            return [Part(paragraph, self.sign(paragraph.rstrip(" "), letters).advance, 0.0)]
        step = letters.steps[self.place.is_bold]
        are_apart = is_simple(paragraph)
        found = []
        for text in letters.wrapping_parts(paragraph):
            bare = text.rstrip(" ")
            wide = sum(map(step, bare)) if are_apart else self.sign(bare, letters).advance
            found.append(Part(text, wide, step(" ") * (len(text) - len(bare))))
        return found


def balanced(parts: Sequence[Part], room: float) -> list[str]:
    """Returns the lines of a paragraph: no more than a room needs, the widest as short as can be,
    so that no word is on a line by itself that has room beside others.
    """
    starts, widest = lines_within(parts, room)
    while len(starts) > 1:
        narrower, wide = lines_within(parts, math.nextafter(widest, 0.0))
        if len(narrower) > len(starts) or wide >= widest:
            break
        starts, widest = narrower, wide
    lines = zip(starts, [*starts[1:], len(parts)])
    return ["".join([part.text for part in parts[first:end]]).rstrip(" ") for first, end in lines]


def lines_within(parts: Sequence[Part], room: float) -> tuple[list[int], float]:
    """Returns the parts that lines begin with in a room, and the width of the widest line."""
    starts, used, widest = [0], 0.0, 0.0
    for number, (_, wide, behind) in enumerate(parts):
        if used and used + wide > room:
            starts.append(number)
            used = 0.0
        used += wide
        if used > widest:
            widest = used
        used += behind
    return starts, widest


class SetRoom(Wrapping):
    """The room of a place whose letters have one size: a text that is too long for its lines ends
    in an ellipsis, a price is whole.
    """

    sides = 2 * SIDE  # with the white beside its first and last letter

    def __init__(self, place: Place, box: Box, letters: Letters, dot: float) -> None:
        super().__init__(place, box, letters)
        self.size = place.letters_in(dot)
        least = min(self.size, math.ceil(place.least / dot - TINY)) or self.size
        self.sizes = sizes_between(least, self.size)
        self.most_lines = int(place.lines)
        self.style = cache(self.new_style)
        self.box_of_lines = cache(self.new_box_of_lines)
        self.wrapped_text = lru_cache(KEPT)(self.new_wrapped_text)

    def new_style(self, family: str, size: int, lines: int, struck: int = 0) -> Style:
        """Returns how texts are written, each line of which takes no more than some lines."""
        place = self.place
        down = 0.0 if place.part == "title" else place.down
        return Style(family, place.is_bold, size, lines, place.across, down, struck)

    def text(self, text: str, struck: int = 0) -> PlacedText:
        """Returns where a text is, whose first bytes may be struck through."""
        lines = int(self.place.part not in PRICES)
        style = self.style(self.of(text).family, self.size, lines, struck)
        return PlacedText(self.place, text, self.box, style)

    def width_of(self, text: str) -> int:
        """Returns the width of the widest line of a text."""
        letters = self.of(text)
        widest = max(letters.width(line, self.place.is_bold) for line in text.split("\n"))
        return math.ceil(HINTING * widest * self.size)

    def new_wrapped_text(self, text: str) -> PlacedText:
        """Returns where a text is that may be wrapped: its box is as high as its lines. One that is
        too long has smaller letters; it is cut where it is too long in the least ones, too.
        """
        if text.count("\n") >= self.most_lines:
            text = text.replace("\n", " ")
        fit = self.fit(text, self.sizes)
        size = self.size if fit.is_cut else fit.size
        most = self.lines_in(size)
        lines = most if fit.is_cut else count_of(fit.text)
        style = self.style(self.of(text).family, size, most - text.count("\n"))
        return PlacedText(self.place, fit.text, self.box_of_lines(lines, size), style)

    def new_box_of_lines(self, lines: int, size: int) -> Box:
        """Returns the box of so many lines in letters of a size."""
        left, top, width, high = self.box
        used = min(high, height_of(lines, size) + 1)  # hinted, it may be a dot higher
        return Box(left, top + int((high - used) * self.place.down), width, used)

    def lines_in(self, size: int) -> int:
        """Returns how many lines of letters of a size the place has."""
        if size == self.size:
            return self.most_lines
        return max(self.most_lines, int(self.box.height / (LINE * size)))


class Room(Wrapping):
    """The room of a place, and the texts of all labels in it, with how often each of them comes."""

    def __init__(
        self, place: Place, box: Box, letters: Letters, dot: float, counts: Counter[str]
    ) -> None:
        super().__init__(place, box, letters)
        self.dot = dot
        self.largest = cache(self.new_largest)
        self.text = cache(self.new_text)
        least = math.ceil((place.least or LEAST_TEXT) / dot)
        self.too_high = self.texts_above(counts, self.high / least)
        counts = Counter({text: counts[text] for text in counts if text not in self.too_high})
        counts = counts or Counter(LETTER)
        signs = [sign for text in counts for sign in self.signs(text)]
        if max(sign.bottom - sign.top for sign in signs) < LOW:
            signs.append(self.sign(LETTER, letters))
        self.top, self.bottom = top_and_bottom(signs)
        self.least = max(1, min(least, self.largest(1)))
        counted = range(1, int(place.lines or MOST_LINES) + 1)
        fitting = (lines for lines in counted if self.largest(lines) >= self.least)
        self.most_lines = max(fitting, default=1)  # a place may be lower than a dot
        self.fits = {text: self.fit_of(text) for text in counts}
        sizes: Counter[float] = Counter()
        for text, labels in counts.items():
            sizes[1 / self.fits[text].size] += labels
        most = OUTLYING * median_high(sizes.elements())
        usual = {size: labels for size, labels in sizes.items() if size <= most}
        self.common = round(1 / common_value(usual))

    def signs(self, text: str) -> list[Sign]:
        """Returns what the lines of a text take."""
        letters = self.of(text)
        return [self.sign(line, letters) for line in text.split("\n")]

    def texts_above(self, texts: Iterable[str], high: float) -> frozenset[str]:
        """Returns the highest texts, beside which the others would be in smaller letters than the
        least ones, which are so high: they are left out. A place that is too low for any letters,
        of which it names no least ones, has smaller ones.
        """
        usual = self.sign(HIGHEST, self.letters)
        if not self.place.least and usual.bottom - usual.top > high:
            return frozenset()
        ends = {text: top_and_bottom(self.signs(text)) for text in texts}
        above = set()
        top = bottom = 0.0
        for text, (first, last) in sorted(ends.items(), key=lambda pair: pair[1][1] - pair[1][0]):
            if max(bottom, last) - min(top, first) > high:
                above.add(text)
            else:
                top, bottom = min(top, first), max(bottom, last)
        return frozenset(above)

    def new_largest(self, lines: int) -> int:
        """Returns the largest letters of a number of lines."""
        size = int(self.high / ((lines - 1) * LINE + self.bottom - self.top))
        wished = self.place.letters_in(self.dot)
        return min(size, wished) if wished else size

    def with_lines(self, text: str) -> str:
        """Returns a text whose line ends are spaces where there is no room for so many lines."""
        return text if text.count("\n") < self.most_lines else text.replace("\n", " ")

    def fit_of(self, text: str) -> Fit:
        """Returns the largest letters in which a text is whole, or else the least ones."""
        text = self.with_lines(text)
        return self.fit(text, sizes_between(self.least, self.largest(text.count("\n") + 1)))

    def lines_in(self, size: int) -> int:
        """Returns how many lines of letters of a size the place has."""
        return sum(size <= self.largest(lines + 1) for lines in range(self.most_lines))

    def new_text(self, text: str) -> PlacedText:
        """Returns where a text is; raises `NoRoom` for one that is too high, or a price that would
        be cut.
        """
        place = self.place
        fit = self.fits.get(text)
        if fit is None or fit.is_cut and place.part in PRICES:
            what = Text("{} does not fit in the place {}", quoted(text), place.title)
            raise NoRoom(what, ENLARGE)
        size = min(fit.size, self.common)
        written = fit.text
        if size < fit.size and LINE_END in written:
            written = self.whole_in(self.with_lines(text), size) or written
        lines = self.most_lines if fit.is_cut else count_of(written)
        if fit.is_cut and any(map(self.is_parted_number, text.split())):
            lines = 1
        tall = ((lines - 1) * LINE + self.bottom - self.top) * size
        base = round((self.high - tall) * place.down - self.top * size)
        struck = len(text.encode()) if place.part == "was" else 0
        most = lines if lines > 1 or fit.is_cut else 0
        how = (self.of(text).family, place.is_bold, size, most, place.across, 0.0, struck, base)
        return PlacedText(place, written, self.box, Style(*how))

    def is_parted_number(self, word: str) -> bool:
        """Returns whether a word is a number that is wider than a line of the least letters: in two
        lines it would be two numbers.
        """
        room = self.wide / self.least / hinting_of(self.least) - SIDE
        return bool(NUMBER.fullmatch(word)) and self.sign(word, self.of(word)).advance > room


def top_and_bottom(signs: Sequence[Sign]) -> tuple[float, float]:
    """Returns the top and the bottom of lines that are beside one another."""
    return min(sign.top for sign in signs), max(sign.bottom for sign in signs)


def count_of(text: str) -> int:
    """Returns how many lines a text has."""
    return text.count("\n") + text.count(LINE_END) + 1


@cache
def sizes_between(least: int, most: int) -> list[int]:
    """Returns sizes of letters from the largest to the least one."""
    return sorted({max(least, int(most * STEP**step)) for step in range(STEPS)}, reverse=True)
