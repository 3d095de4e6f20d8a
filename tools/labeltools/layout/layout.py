"""What a label is once it is laid out, in whatever design: its symbols and texts, each in a place.
Lengths are in dots.
"""

import re
import unicodedata
from dataclasses import dataclass
from typing import Iterator, Mapping, NamedTuple, Sequence

from labeltools.common.messages import Origin, Problem
from labeltools.layout.area import Area
from labeltools.layout.fitting import Style
from labeltools.layout.place import Place, PRICES
from labeltools.lines.engine import Modules
from labeltools.lines.file import Record
from labeltools.lines.symbologies import Symbology
from labeltools.paper.box import Box
from labeltools.paper.plan import Dots

# classes of Unicode whose signs are above, below or beside a letter, or not seen
MARKS = ("Mn", "Me", "Mc", "Cf")
MOST_MARKS = 8  # of a letter: more cannot be read
BEYOND_LATIN = re.compile("[^\0-\u02ff]{9,}")  # more signs in a row than that: some may be marks
MOST_LETTERS = 1000  # of a line of a text: no paper takes more
ASKED = 256  # labels between two calls of `go_on`


class PlacedSymbol(NamedTuple):
    """A symbol in a place: its box, its data and modules, and where its bars and digits are in that
    as it is read; bars are those of QR, too.
    """

    place: Place
    box: Box
    data: bytes
    modules: Modules
    symbology: Symbology
    module: int
    boxes: Mapping[str, Box]


class PlacedText(NamedTuple):
    """A text in the box of a place, with the ends of its lines, and how it is written."""

    place: Place
    text: str
    box: Box
    style: Style


@dataclass(frozen=True, slots=True)
class LaidOut:
    """A label as it is laid out: its symbols and texts, from the left upper corner of its area; the
    parts that it has not, where a drawing shows something else without them; whether its price is
    smaller than those of the others.
    """

    record: Record
    symbols: tuple[PlacedSymbol, ...]
    texts: tuple[PlacedText, ...]
    absent: frozenset[str] = frozenset()
    is_small_price: bool = False

    @property
    def finest(self) -> PlacedSymbol:
        """Its finest symbol of QR, or else its finest one."""
        return min(self.symbols, key=lambda symbol: (symbol.symbology.nominal > 0, symbol.module))

    def words(self) -> Iterator[PlacedText]:
        """Yields its texts but for prices: these are never cut."""
        return (text for text in self.texts if text.place.part not in PRICES)

    def boxes(self) -> Iterator[Box]:
        """Yields where it has codes and letters."""
        yield from (symbol.box for symbol in self.symbols)
        yield from (text.box for text in self.texts)


Page = Sequence[tuple[LaidOut, Dots]]  # labels, with the upper left corners of their areas


@dataclass(frozen=True)
class LaidOutFile:
    """Labels that were laid out, in their order, the area that they are in (which may be turned),
    why others are left out, by the numbers of their lines, and what is said of a design, with the
    places of the first labels.
    """

    labels: tuple[LaidOut, ...]
    area: Area
    left_out: Mapping[int, Problem]
    said: tuple[tuple[Origin, Problem], ...] = ()


def as_printed(record: Record, note: str) -> Record:
    """Returns a label with its texts as they are printed; `note` is one more line of its text. A
    price that is shortened fits no paper.
    """
    texts = (*record.text, note) if note else record.text
    return record._replace(
        head=short(record.title),
        body=short("\n".join(texts)),
        price=short(record.price),
        unit=short(record.unit),
        was=short(record.was),
    )


def short(text: str) -> str:
    """Returns a text whose lines have no more letters than any paper takes, and whose letters have
    no more marks above one another than can be read.
    """
    if text.isascii() and len(text) <= MOST_LETTERS:
        return text
    text = BEYOND_LATIN.sub(lambda found: without_marks(found[0]), text)
    if len(text) <= MOST_LETTERS:
        return text
    return "\n".join(line[:MOST_LETTERS] for line in text.split("\n"))


def without_marks(text: str) -> str:
    """Returns a text without the marks that no letter can have, of any script.

    >>> without_marks("\u0e01" + "\u0e35" * 100) == "\u0e01" + "\u0e35" * MOST_MARKS
    True
    """
    found = []
    marks = 0
    for sign in text:
        marks = marks + 1 if unicodedata.category(sign) in MARKS else 0
        if marks <= MOST_MARKS:
            found.append(sign)
    return "".join(found)
