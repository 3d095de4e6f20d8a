"""Letters by Pango: which font has them, how large texts are, measured alike for all forms, and
where letters are in lines.
"""

import re
import unicodedata
from functools import cache, cached_property, lru_cache, partial
from itertools import repeat
from math import floor, fsum
from typing import Any, Iterable, Mapping, NamedTuple, Sequence

import cairo

from labeltools.common.messages import ToolError
from labeltools.common.text import Text
from labeltools.layout.pango import new_layout, Pango, pango_context, PangoCairo, UNIT

KEPT = 16384  # lines and words of which the extent is kept
MEASURED = 200  # dots: the size of letters in which they are measured
SCALE = MEASURED * UNIT
DIGITS = "0123456789"
MOST_NAMED = 9  # letters that a message names
# parts behind which a line may end, with the spaces behind them
SPACED = re.compile(
    r"""
    [^ ]*?[^\W\d_]{2}-(?=[^\W\d_]{2})  # up to a hyphen between two words
    | \d[\d.,]*[ ](?:%|[^\W\d_]{1,3})(?![^ ])[ ]*  # a number and its unit
    | [^ ]+(?:[ ][A-Z](?![^ ]))?[ ]*  # a word, and a single capital behind it
    | [ ]+
    """,
    re.VERBOSE,
)
# letters that stand one behind another: Latin, Greek, Cyrillic; punctuation; currencies
SIMPLE = ((0x20, 0x2FF), (0x370, 0x482), (0x48A, 0x52F), (0x2010, 0x2027), (0x20A0, 0x20CF))
OTHERS = re.compile("[^" + "".join(f"{chr(first)}-{chr(last)}" for first, last in SIMPLE) + "]")
OTHER_SCRIPTS = re.compile(OTHERS.pattern.replace("[^", "[^\n"))  # in several lines
FONT = "Liberation Sans"  # of titles and texts
PRICE_FONT = "Liberation Sans Narrow"  # of prices beside FONT
OTHER_FONT = "DejaVu Sans"  # of texts with letters of other scripts, and of all where FONT is not
DATA_FONT = "DejaVu Sans Mono"  # of what is below the bars of Code 128
DIGITS_FONT = "OCR B"  # of digits below bars in dots; Cairo cannot embed it into a PDF
BY_PAIRS = (FONT, PRICE_FONT)  # whose letters depend on the next one alone
USUAL = frozenset({FONT, PRICE_FONT, OTHER_FONT, DATA_FONT, DIGITS_FONT})
FONTS_OF_LETTERS = "apt-get install fonts-noto-core fonts-noto-cjk"
FONTS_OF_SIGNS = "apt-get install fonts-symbola"
# glyphs of a line, in dots: their numbers, how far each is from the next one, and where the first
# one is from where the text begins
GlyphRow = tuple[Sequence[int], Sequence[float], float, float]


class Sign(NamedTuple):
    """A letter or a line of them in sizes of its font: how far the next one is, the white at its
    left and right, the top and bottom of its ink from the base line downwards.
    """

    advance: float
    left: float
    right: float
    top: float
    bottom: float

    @property
    def width(self) -> float:
        """The width of its ink."""
        return max(0.0, self.advance - self.left - self.right)


BLANK = Sign(0.0, 0.0, 0.0, 0.0, 0.0)


def together(signs: Sequence[Sign], spaces: float = 0.0) -> Sign:
    """Returns letters or words as one, with spaces between them."""
    advance, left, right, top, bottom = signs[0]
    for further, _, right, above, below in signs[1:]:
        advance += further
        if above < top:
            top = above
        if below > bottom:
            bottom = below
    return Sign(advance + spaces, left, right, top, bottom)


def font_for(family: str) -> str:
    """Returns the font that is there for a wanted one: itself, or what is taken in its place."""
    context = pango_context(False)
    wanted = Pango.FontDescription(f"{family}, 9")
    found = PangoCairo.FontMap.get_default().load_font(context, wanted)
    return str(found.describe().get_family() or "") if found else ""


def is_there(family: str) -> bool:
    """Returns whether there is a font. To look for a usual one in the list of them is quick."""
    if family in USUAL:
        return PangoCairo.FontMap.get_default().get_family(family) is not None
    return font_for(family).lower() == family.lower()


def digits_face(is_dots: bool) -> cairo.FontFace:
    """Returns the font of digits below bars, in dots or in a drawing."""
    if is_dots and is_there(DIGITS_FONT):
        return cairo.ToyFontFace(DIGITS_FONT + " ")  # Cairo keeps a face as it was first used
    return cairo.ToyFontFace(DATA_FONT + " " * is_dots)


def fonts_of(family: str) -> tuple[str, str, str]:
    """Returns the fonts of texts, of prices and of other scripts for a wanted font: only the usual
    one has others beside it.

    >>> fonts_of("DejaVu Serif")
    ('DejaVu Serif', 'DejaVu Serif', 'DejaVu Serif')
    """
    if family != FONT:
        return family, family, family
    if not is_there(FONT):
        return OTHER_FONT, OTHER_FONT, OTHER_FONT
    return FONT, PRICE_FONT if is_there(PRICE_FONT) else FONT, OTHER_FONT


def require_fonts(*families: str) -> None:
    """Raises `ToolError` where a font is not there."""
    for family in families:
        if not is_there(family):
            hint = Text("fc-list : family lists what there is")
            usual = Text("apt-get install fonts-dejavu-core installs the usual ones")
            raise ToolError(Text("there is no font {}", family), Text("{}, {}", hint, usual))


def is_simple(text: str) -> bool:
    """Returns whether the letters of a text stand one behind another."""
    return not OTHERS.search(text)


class Letters:
    """Measures texts in a font, with the letters of prices and of other scripts beside it."""

    def __init__(self, wanted: str) -> None:
        self.family, self.of_prices, self.of_others = fonts_of(wanted)
        require_fonts(self.family, self.of_others, DATA_FONT)
        self.has_others = self.of_others != self.family
        self.whole = lru_cache(KEPT)(self.new_whole)
        self.is_missing = cache(self.is_in_no_font)
        context = pango_context(False)
        self.layout = cache(partial(new_layout, context, self.family, size=MEASURED))
        self.sign = cache(self.whole_sign)
        self.steps = [cache(partial(self.step, is_bold)) for is_bold in (False, True)]
        self.word = lru_cache(KEPT)(self.new_word)
        self.width = lru_cache(KEPT)(self.new_width)

    @cached_property
    def prices(self) -> "Letters":
        """The letters of prices."""
        return self if self.of_prices == self.family else Letters(self.of_prices)

    @cached_property
    def others(self) -> "Letters":
        """The letters of other scripts."""
        return Letters(self.of_others) if self.has_others else self

    @cached_property
    def has_equal_digits(self) -> bool:
        """Whether digits are equally wide."""
        return len({self.sign(digit, True).advance for digit in DIGITS}) == 1

    @cached_property
    def wrapping_layout(self) -> Any:
        """A layout of Pango in which each part of a line is a line."""
        layout = new_layout(pango_context(False), self.family, False, MEASURED)
        layout.set_width(1)
        return layout

    def of(self, text: str, is_price: bool = False) -> "Letters":
        """Returns the letters in which a text is: all of it in those of other scripts, where it has
        any of these.
        """
        if self.has_others and not text.isascii() and OTHER_SCRIPTS.search(text):
            return self.others
        return self.prices if is_price else self

    def step(self, is_bold: bool, letter: str) -> float:
        """Returns how far a letter is from the next one."""
        return self.sign(letter, is_bold).advance

    def new_whole(self, text: str, is_bold: bool) -> Sign:
        """Returns what a line of text takes, also where letters change beside others."""
        if not text.strip():
            return BLANK
        if OTHERS.search(text):
            return self.whole_sign(text, is_bold)
        words = [*map(self.word, text.split(" "), repeat(is_bold))]
        return together(words, (len(words) - 1) * self.steps[is_bold](" "))

    def new_width(self, text: str, is_bold: bool) -> float:
        """Returns the width of the ink of a line of text: the sum of its letters, but where these
        change beside others.
        """
        if not text:
            return 0.0
        if OTHERS.search(text):
            return self.whole(text, is_bold).width
        whole = sum(map(self.steps[is_bold], text))
        left, right = self.sign(text[0], is_bold).left, self.sign(text[-1], is_bold).right
        return max(0.0, whole - left - right)

    def wrapping_parts(self, line: str) -> list[str]:
        """Returns the parts of a line behind which it may be wrapped, with the spaces behind them:
        words, or in scripts that are written without spaces what Pango says.
        """
        if not OTHERS.search(line):
            return SPACED.findall(line)
        self.wrapping_layout.set_text(line, -1)
        written = line.encode()
        lines = self.wrapping_layout.get_lines_readonly()
        ends = [found.start_index + found.length for found in lines]
        return [written[start:end].decode() for start, end in zip([0, *ends], ends)]

    def new_word(self, word: str, is_bold: bool) -> Sign:
        """Measures a word, letter by letter."""
        return together([*map(self.sign, word, repeat(is_bold))]) if word else BLANK

    def whole_sign(self, text: str, is_bold: bool) -> Sign:
        """Returns what a line of text takes as Pango lays it out."""
        layout = self.layout(is_bold)
        layout.set_text(text, -1)
        ink, logical = layout.get_extents()
        left, wide, advance = ink.x / SCALE, ink.width / SCALE, logical.width / SCALE
        top = ink.y / SCALE - layout.get_baseline() / SCALE
        return Sign(advance, left, advance - left - wide, top, top + ink.height / SCALE)

    def missing(self, texts: Mapping[int, Sequence[str]]) -> dict[int, Text]:
        """Returns why some labels cannot be drawn, of which the texts are given by the numbers of
        their lines: letters that no font has, with a reason for each script.
        """
        used: set[str] = set()
        for several in texts.values():
            used.update(*several)
        absent = sorted(filter(self.is_missing, used))
        if not absent:
            return {}
        reasons = reasons_of(absent)
        found = {number: first_reason(several, reasons) for number, several in texts.items()}
        return {number: reason for number, reason in found.items() if reason}

    def is_in_no_font(self, letter: str) -> bool:
        """Returns whether no font has a letter."""
        layout = self.layout(True)
        layout.set_text(letter, -1)
        return bool(layout.get_unknown_glyphs_count())


class LineFont:
    """The letters of lines in a size, as Pango and Cairo have them, and the base line of one: of a
    font whose letters are nearer or farther by pairs, and else do not depend on one another. Pango
    is asked once for each pair, in place of each line.
    """

    def __init__(self, layout: Any, font: Any) -> None:
        self.layout = layout
        self.font = font
        self.wide = cache(self.new_wide)
        self.step = cache(self.new_step)
        self.wide(DIGITS)
        self.base: float = layout.get_baseline() / UNIT

    def new_wide(self, letters: str) -> float:
        """Returns how far letters are from what follows them."""
        self.layout.set_text(letters, -1)
        width: float = self.layout.get_size()[0] / UNIT
        return width

    def new_step(self, letter: str, following: str) -> tuple[int, float]:
        """Returns the glyph of a letter, 0 where Pango draws another one, and how far it is from
        the following one.
        """
        is_same = abs(self.font.text_extents(letter).x_advance - self.wide(letter)) * UNIT <= 1
        glyph = self.font.text_to_glyphs(0, 0, letter, False)[0].index
        behind = self.wide(following) if following else 0.0  # Pango looks for a font for no text
        return glyph * is_same, self.wide(letter + following) - behind

    def rows(
        self, lines: Sequence[str], room: float, part: float, high: float
    ) -> Sequence[GlyphRow]:
        """Returns the glyphs of lines of a height, each in a part of a room (0 to 1); none where
        Pango draws others, or a line is wider.
        """
        rows = []
        for number, line in enumerate(lines):
            if not line:
                return ()
            numbers, steps = zip(*map(self.step, line, (*line[1:], "")))
            wide = fsum(steps)
            if not all(numbers) or wide > room:
                return ()
            left = (room - wide) * part
            x = floor(left + 0.5) if wide.is_integer() else left
            rows.append((numbers, steps, x, number * high + self.base))
        return rows


def reasons_of(letters: Iterable[str]) -> dict[str, Text]:
    """Returns a reason for each letter that no font has: one for each script."""
    scripts: dict[str, list[str]] = {}
    for letter in letters:
        scripts.setdefault(script_of(letter), []).append(letter)
    reasons = {}
    for script, found in scripts.items():
        fonts = FONTS_OF_SIGNS if script == "Signs" else FONTS_OF_LETTERS
        reason = Text("no font has {} ({}): {}", "".join(found[:MOST_NAMED]), script, fonts)
        reasons.update(dict.fromkeys(found, reason))
    return reasons


def script_of(letter: str) -> str:
    """Returns the script of a letter; of a sign `Signs`."""
    if unicodedata.category(letter)[0] not in "LM":
        return "Signs"
    return unicodedata.name(letter, "Signs").split()[0].capitalize()


def first_reason(texts: Iterable[str], reasons: dict[str, Text]) -> Text | None:
    """Returns the reason of the first letter of some texts that no font has."""
    letters = (letter for text in texts for letter in text if letter in reasons)
    return next(map(reasons.__getitem__, letters), None)
