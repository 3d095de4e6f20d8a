"""The one table of symbologies: what a code has to have, and what its bars look like on paper.

Modules are counted from the left edge of the picture that labels(1) draws, its quiet zone included.
"""

from dataclasses import dataclass
from functools import cached_property
from typing import NamedTuple

from labeltools.lines.library import labels_library


Span = tuple[int, int]  # modules of a picture: from which one on, and before which one


class Digits(NamedTuple):
    """Digits of the data, from `first` on and before `last`, in the middle of the modules from
    `left` on and before `right` below the bars.
    """

    first: int
    last: int
    left: int
    right: int


@dataclass(frozen=True)
class Symbology:
    """A symbology of labels(1). Lengths are in millimetres.

    A symbology of numbers has `digits` digits with its check digit, or one fewer without it, which
    labels(1) adds. One of free data has 0. `module` is the smallest narrow bar that scanners have
    to read, `nominal` the height of bars. `quiet` are the modules of the quiet zone at the left and
    at the right. `settings` are the keys that labels(1) takes for it behind the comma.
    """

    name: str
    title: str
    digits: int
    module: float
    nominal: float
    quiet: tuple[int, int]
    settings: tuple[str, ...]

    @property
    def is_number(self) -> bool:
        """Whether its data is a number with a check digit."""
        return self.digits > 0

    @cached_property
    def guards(self) -> tuple[Span, ...]:
        """The modules whose bars are longer, as liblabels tells."""
        found: tuple[Span, ...] = labels_library().layout(self.name).guards
        return found

    @cached_property
    def places(self) -> tuple[Digits, ...]:
        """The digits below the bars, as liblabels tells."""
        return tuple(Digits(*digits) for digits in labels_library().layout(self.name).digits)


# ISO/IEC 15420: the smallest module is 80 % of 0.33 mm, the height that at 100 %
HEIGHT = ("height",)
QR_SETTINGS = ("level", "min-version", "mask")
EAN13 = Symbology("ean13", "EAN-13", 13, 0.264, 22.85, (11, 7), HEIGHT)
EAN8 = Symbology("ean8", "EAN-8", 8, 0.264, 18.23, (7, 7), HEIGHT)
UPCA = Symbology("upca", "UPC-A", 12, 0.264, 22.85, (9, 9), HEIGHT)
CODE128 = Symbology("code128", "Code 128", 0, 0.25, 15.0, (10, 10), HEIGHT)
QR = Symbology("qr", "QR Code", 0, 0.25, 0.0, (4, 4), QR_SETTINGS)
SYMBOLOGIES = {kind.name: kind for kind in (EAN13, EAN8, UPCA, CODE128, QR)}
NUMBERS = {
    kind.digits: kind for kind in (EAN8, UPCA, EAN13)
}  # by their digits with the check digit


def check_digit(digits: str) -> str:
    """Returns the check digit of EAN and UPC (ISO/IEC 15420): weights 3, 1, 3, .. from the right.

    >>> check_digit("400638133393")
    '1'
    """
    weighted = sum(map(int, digits)) + 2 * sum(map(int, digits[::-2]))
    return str(-weighted % 10)


def is_right(digits: str) -> bool:
    """Returns whether the last digit is the check digit of the others.

    >>> is_right("73513537"), is_right("73513538")
    (True, False)
    """
    return check_digit(digits[:-1]) == digits[-1:]
