"""Places: where the parts of labels are, and how each is written there. A built-in design makes its
places for the labels of a file, and one of a user's own has them drawn.
"""

import math
import re
from dataclasses import dataclass
from functools import cached_property, lru_cache

from labeltools.common.column_names import name_of
from labeltools.layout.area import Area
from labeltools.layout.fitting import Colour
from labeltools.paper.box import Box
from labeltools.paper.plan import Dots, TINY

PARTS = ("code", "title", "text", "price", "unit", "was", "note")
PRICES = ("price", "unit", "was")  # they stay on one line, and are never cut
AGAIN = re.compile(r"(.+?) \d+")
AFTER_HYPHEN = re.compile(r"-\d+\s*$")
MOST_KNOWN = 1024  # names whose keys are kept
Sides = tuple[float, float, float, float]  # left, top, width, height in millimetres


@dataclass(frozen=True, eq=False)
class Place:
    """The place of a part: its name, its sides in millimetres, by how many quarters it is turned to
    the right; how its letters are written, and their colour (None: what can be read on the
    drawing); the symbology and settings of a symbol that is made of its text; its module, the
    largest and the least letters in millimetres, the most lines: 0 for what suits; in which of
    `PRICE_STYLES` a price is written, if not as other texts; behind which part's last line it
    begins, if that has fewer lines than its place.
    """

    title: str
    left: float = 0.0
    top: float = 0.0
    width: float = 0.0
    height: float = 0.0
    quarters: int = 0
    across: int = -1
    down: float = 0.5
    is_bold: bool = False
    font: str = ""
    colour: Colour | None = None
    symbology: str = ""
    settings: tuple[str, ...] = ()
    module: float = 0.0
    size: float = 0.0
    least: float = 0.0
    lines: float = 0.0
    price_style: str = ""
    follows: str = ""

    @property
    def is_symbol(self) -> bool:
        """Whether a symbol is there."""
        return bool(self.symbology) or self.part == "code"

    @cached_property
    def key(self) -> str:
        """Its name, as names are compared."""
        return key_of(self.title)

    @cached_property
    def part(self) -> str:
        """The part or column that it is for, as names are compared, without a number behind it."""
        return part_of(self.title)

    @property
    def sides(self) -> Sides:
        """Its sides."""
        return self.left, self.top, self.width, self.height

    def as_read(self, box: Box) -> Dots:
        """Returns how wide and high its box on a label is, as it is read."""
        return box[:1:-1] if self.quarters % 2 else box[2:]

    def letters_in(self, dot: float) -> int:
        """Returns its largest letters in whole dots of a size in millimetres."""
        return int(self.size / dot + TINY)

    def box_in(self, area: Area) -> Box:
        """Returns its whole dots in the area of a label."""
        dot = area.dot
        left, top = (max(0, math.ceil(side / dot - TINY)) for side in (self.left, self.top))
        right = math.floor((self.left + self.width) / dot + TINY)
        bottom = math.floor((self.top + self.height) / dot + TINY)
        wide, high = min(right, area.width) - left, min(bottom, area.height) - top
        return Box(left, top, max(1, wide), max(1, high))

    def common(self, other: "Place") -> float:
        """Returns the lesser side of the room that it has in common with another one, in
        millimetres; 0 or less where there is none.
        """
        across = min(self.left + self.width, other.left + other.width) - max(self.left, other.left)
        down = min(self.top + self.height, other.top + other.height) - max(self.top, other.top)
        return min(across, down)


@lru_cache(MOST_KNOWN)
def key_of(name: str) -> str:
    """Returns a name as it is compared.

    >>> key_of("Seat_No") == key_of("seat  no") == key_of("Seat-no")
    True
    """
    return name_of(name.replace("_", " ").replace("-", " ")).casefold()


def part_of(name: str) -> str:
    """Returns a name as it is compared, without a number behind it. Behind a column that has to be
    after a hyphen: Line and Line 2 may be two columns.

    >>> part_of("Title-2"), part_of("title_1_"), part_of("Seat-2"), part_of("Line 2")
    ('title', 'title', 'seat', 'line 2')
    """
    known = key_of(name)
    match = AGAIN.fullmatch(known)
    is_again = match and (match[1] in PARTS or AFTER_HYPHEN.search(name))
    return match[1] if match and is_again else known
