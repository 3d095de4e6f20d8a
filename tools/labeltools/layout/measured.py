"""What labels need: their texts are measured."""

import math

from labeltools.layout.letters import is_simple, Letters
from labeltools.layout.needs import Need, rounded_up
from labeltools.layout.price import price_height, price_widths, shape_of
from labeltools.lines.file import Record

# widths of texts are rounded up to such parts of the size of their letters: so many labels have
# the same need
ROUNDED = 8


def need_of(label: Record, letters: Letters) -> Need:
    """Returns what a label needs."""
    lines = label.body.split("\n") if label.body else []
    title: tuple[float, ...] = ()
    word = text = was = unit = 0.0
    if label.head:
        of_title = letters.of(label.head)
        widths = [of_title.width(line, True) for line in label.head.split("\n") if line]
        title = tuple([rounded_up(width, ROUNDED) for width in widths])
        word = longest_word(label.head, of_title)
    if lines:
        of_text = letters.of(label.body)
        text = rounded_up(max([of_text.width(line, False) for line in lines]), ROUNDED)
    if label.was or label.unit:
        of_details = letters.of(label.was + label.unit)
        was = rounded_up(of_details.width(label.was, False), ROUNDED)
        unit = rounded_up(of_details.width(label.unit, False), ROUNDED)
    shape = shape_of(label.price, letters)
    modules = label.modules
    return Need(
        label.symbology,
        modules.width,
        modules.height,
        title,
        word,
        len(lines),
        text,
        price_widths(shape, letters),
        price_height(shape, letters),
        was,
        unit,
    )


def longest_word(title: str, letters: Letters) -> float:
    """Returns the width of the part of a title with the most letters behind which a line may end; 0
    in scripts that are written without spaces, as Japanese.
    """
    parts = letters.wrapping_parts(title.replace("\n", " ")) if is_simple(title) else title.split()
    longest = max(parts, key=len, default="").rstrip(" ")
    if longest == title and not is_simple(title):
        return 0.0
    return float(math.ceil(letters.width(longest, True)))  # few differ, so many needs are the same
