"""Rows of a table, of whatever kind its file is."""

from collections import Counter
from typing import Collection, Iterable, Mapping, NamedTuple, Sequence

from labeltools.common.column_names import name_of
from labeltools.common.messages import RowError
from labeltools.common.text import Text
from labeltools.sheets.cells import Cell, Fault, seen_text


class Merge(NamedTuple):
    """Merged cells: the row, from 1, and the place, from 0, of the first cell and of the last
    one.
    """

    row: int
    place: int
    last_row: int
    last_place: int


class Row(NamedTuple):
    """A row with the number that a spreadsheet shows.

    `problem` leaves the row out. `merges` are the merged cells that cross the row, `links` the
    addresses that cells lead to, by their places; `hidden_places` are those of hidden columns.
    """

    number: int
    cells: Sequence[Cell]
    problem: RowError | None = None
    is_hidden: bool = False
    merges: Sequence[Merge] = ()
    links: Mapping[int, str] | None = None
    hidden_places: Collection[int] = ()

    @property
    def width(self) -> int:
        """How many columns the row has, those of merged cells included."""
        merged = [merge.last_place + 1 for merge in self.merges if merge.row <= self.number]
        return max(len(self.cells), *merged) if merged else len(self.cells)

    @property
    def texts(self) -> Sequence[str]:
        """Its cells as messages and names have them."""
        return [self.seen_text(place) for place in range(len(self.cells))]

    @property
    def names(self) -> tuple[str, ...]:
        """The names of columns that it has."""
        return tuple(map(name_of, self.texts))

    def is_blank(self) -> bool:
        """Returns whether the row has nothing in it."""
        if self.problem:
            return False
        for cell in filter(None, self.cells):
            if not isinstance(cell, str) or cell.strip():
                return False
        return True

    def cell(self, place: int) -> Cell:
        """Returns the cell at a place; those at the end of the row may be missing."""
        for row, first, last_row, last in self.merges:
            is_inside = row <= self.number <= last_row and first <= place <= last
            if is_inside and (row, first) != (self.number, place):
                return Fault(Text("is merged with row {}", row), Text("unmerge the cells"))
        return self.cells[place] if place < len(self.cells) else ""

    def seen_text(self, place: int) -> str:
        """Returns a cell as messages and names have it; nothing where it has no text."""
        return seen_text(self.cell(place))


def row_with_names(rows: Iterable[Row], asked: Sequence[str]) -> int:
    """Returns the first row that has every name that was asked for, once; 0 where there is none.

    >>> row_with_names([Row(1, ["Preisliste"]), Row(5, ["EAN", "Name"])], ["EAN", "Name"])
    5
    >>> row_with_names([Row(1, ["a"])], ["EAN"])
    0
    """
    wanted = [name_of(name) for name in asked if not name.isdecimal()]
    for row in rows:
        names = Counter(row.names)
        if wanted and all(names[name] == 1 for name in wanted):
            return row.number
    return 0
