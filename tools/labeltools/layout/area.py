"""The room for a label, and what is asked of labels there."""

import math
from dataclasses import dataclass, replace
from functools import cached_property

from labeltools.lines.symbologies import SYMBOLOGIES, Symbology
from labeltools.paper.plan import TINY

# millimetres: the module that is aimed at, and the largest ones of bars and of QR
MODULE = 0.33
LARGEST_MODULE = 0.66
LARGEST_QR = 1.0
# GS1's smallest module of EAN and UPC where a thermal printer prints on demand
ROLL_SMALLEST = 0.249
FULL_SIZE = 60.0  # millimetres: labels above this size have modules of bars as much larger


@dataclass(frozen=True)
class Purpose:
    """What labels are for: bars are this part of their width where there is room for no more, QR
    grows with labels above a size in millimetres, and tills have to read them, or else the price
    matters more.

    Tills that read in all directions need half of the width: two beams at right angles meet one
    half of an EAN at 45 degrees at worst. Hand scanners, which read shelf labels, need less.
    """

    name: str
    bars: float = 0.0
    full_qr: float = 0.0
    is_for_tills: bool = False


NO_PURPOSE = Purpose("svg")  # of a page of SVG: its places say it
ARTICLE = Purpose("article", 0.5, 40.0, is_for_tills=True)
SHELF = Purpose("shelf", 0.25, 60.0)
PURPOSES = {purpose.name: purpose for purpose in (ARTICLE, SHELF)}


@dataclass(frozen=True)
class Wishes:
    """What is asked for: what labels are for, a module in millimetres, whether they are turned to
    the right (None: where more of them fit so), whether the paper is a roll, and whether prices may
    have raised cents.
    """

    purpose: Purpose = ARTICLE
    module: float | None = None
    turn: bool | None = None
    is_roll: bool = False
    has_raised_cents: bool = True


@dataclass(frozen=True)
class Area:
    """The room for a label: its sides in dots, as the label is read, and the wishes for it; `dot`
    is in millimetres.
    """

    width: int
    height: int
    dot: float
    wishes: Wishes
    is_turned: bool = False

    def turned(self) -> "Area":
        """Returns the area turned to the right, or turned back."""
        return replace(self, width=self.height, height=self.width, is_turned=not self.is_turned)

    @cached_property
    def size(self) -> float:
        """The size of a label: the root of its area, in dots."""
        return math.sqrt(self.width * self.height)

    def dots(self, millimetres: float) -> int:
        """Returns a length in whole dots, rounded up."""
        return math.ceil(millimetres / self.dot - TINY)

    def smallest(self, symbology: Symbology) -> float:
        """Returns the smallest module of a symbology in millimetres."""
        if self.wishes.is_roll:
            return min(symbology.module, ROLL_SMALLEST)
        return symbology.module

    @cached_property
    def modules(self) -> dict[str, tuple[int, ...]]:
        """The dots of a module of each symbology, those nearest to the wish first."""
        return {name: self.modules_of(symbology) for name, symbology in SYMBOLOGIES.items()}

    def modules_of(self, symbology: Symbology) -> tuple[int, ...]:
        """Returns the modules of a symbology."""
        wished = MODULE * min(2.0, max(1.0, self.size * self.dot / FULL_SIZE))
        counts = range(1, int(LARGEST_MODULE / self.dot + TINY) + 1)
        if self.wishes.module is not None:
            wished = self.wishes.module
            nearest = max(1, round(wished / self.dot))
            counts = range(nearest, nearest + 1)
        least = self.smallest(symbology) - TINY
        allowed = [count for count in counts if count * self.dot > least]
        return tuple(sorted(allowed, key=lambda count: abs(count * self.dot - wished)))

    @property
    def most_of_qr(self) -> int:
        """The most dots of a module of QR."""
        return max(1, round((self.wishes.module or LARGEST_QR) / self.dot))
