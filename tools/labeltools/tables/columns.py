"""Which column is what, and what is in the cells of each kind of column."""

import re
from dataclasses import dataclass, replace
from decimal import Decimal
from difflib import get_close_matches
from itertools import islice
from typing import Iterator, NamedTuple, Sequence

from labeltools.common.column_names import name_of, NUMBER
from labeltools.common.messages import BAD_ARGUMENTS, quoted, Remedy, RowError, ToolError
from labeltools.common.text import Text
from labeltools.lines.file import MOST_COPIES
from labeltools.sheets.cells import (
    CellKind,
    COPIES,
    LINE_END,
    MARK,
    PRINTED,
    taken_text,
    Use,
)
from labeltools.sheets.number_format import Formatter
from labeltools.sheets.rows import Row, row_with_names
from labeltools.tables.codes import NAMES
from labeltools.tables.table_options import Columns, TableOptions

ROWS_LOOKED_AT = 50  # for the row of names
LISTED = 40  # columns that a message lists
COUNT = re.compile("0*[0-9]{1,4}(?:[.,]00?)?")
# what may be in the name of a column of codes though it has digits
NAME_WITH_DIGITS = re.compile("(?:EAN|GTIN|UPC|ISBN|Code|QR)[- ]?[0-9]{1,3}", re.IGNORECASE)


@dataclass(frozen=True)
class Column:
    """A column that was asked for: its place, from 0, how messages call it, the name of its texts
    in a design: its own where that is sure, else its number; and what the row of names has for it.
    """

    place: int
    title: Text
    name: str
    header: str

    def cell_error(self, problem: RowError) -> RowError:
        """Returns the error of a cell, with the column in front."""
        error = problem.saying(Text("{} {}", self.title, problem.what))
        error.column = self.place
        return error

    def taken(self, row: Row, use: Use) -> str:
        """Returns what a column for a use takes of a row; raises `RowError`."""
        try:
            return taken_text(row.cell(self.place), use)
        except RowError as problem:
            raise self.cell_error(problem) from None

    def printed_text(self, row: Row) -> str:
        """Returns a title or a text, with LF between its lines; raises `RowError`."""
        text = self.taken(row, PRINTED)
        if text.isprintable():
            return text.strip()
        lines = (" ".join(line.split("\t")).strip() for line in LINE_END.split(text))
        return "\n".join(line for line in lines if line)

    def copies(self, row: Row) -> int:
        """Returns a number of copies; raises `RowError`."""
        text = self.taken(row, COPIES).strip()
        if not COUNT.fullmatch(text):
            what = Text("is {}: copies are a whole number from 0 to {}", quoted(text), MOST_COPIES)
            raise self.cell_error(RowError(what))
        return int(re.split("[.,]", text.lstrip("0") or "0")[0] or "0")

    def compared_text(self, row: Row) -> str:
        """Returns a text on one line, as it is compared; raises `RowError`."""
        return name_of(self.taken(row, MARK))

    def has_value(self, row: Row, value: str) -> bool:
        """Returns whether a cell has a value, in letters of either case; numbers are compared as
        numbers. Raises `RowError`.
        """
        if self.compared_text(row).casefold() == value.casefold():
            return True
        cell = row.cell(self.place)
        if isinstance(cell, str) or not NUMBER.fullmatch(value):
            return False
        is_number = cell.cell_kind is CellKind.NUMBER
        return is_number and Decimal(value.replace(",", ".")) == cell.number


class Start(NamedTuple):
    """A table that is open: the row of names, or else its first row, which then has no names; the
    rows below, and how its numbers are shown.
    """

    row: Row
    names: tuple[str, ...]
    rows: Iterator[Row]
    formatter: Formatter


def columns_of(head: Start, options: TableOptions) -> Columns[Column]:
    """Returns the columns that were asked for; raises `ToolError` where one is not sure.

    Where the names are in one of the next rows, the message says in which one.
    """
    asked = options.columns
    try:
        if asked.symbology is not None:
            refuse_no_kind(asked.symbology, head)
        found = asked.map(lambda argument: column_of(argument, head))
        check_code(found.code, head, options)
        return replace(
            found, where=tuple((column, name_of(value)) for column, value in found.where)
        )
    except ToolError as error:
        next_rows = islice(head.rows, ROWS_LOOKED_AT)
        later = row_with_names(next_rows, asked.asked) if options.file.has_names else 0
        if later:
            says = Text("take the names from row {}", later)
            remedies = (Remedy("header-row", str(later), says),)
            raise ToolError(error.what, status=BAD_ARGUMENTS, remedies=remedies) from None
        raise


def column_of(argument: str, head: Start) -> Column:
    """Returns the column of a name or number; raises `ToolError` where that is not sure."""
    wanted = name_of(argument)
    places = [place for place, name in enumerate(head.names) if name and name == wanted]
    by_name = bool(places)
    if not places:
        places = [place for place in range(head.row.width) if str(place + 1) == argument]
    if len(places) != 1:
        raise not_one(argument, head, len(places))
    place = places[0]
    name = head.names[place] if place < len(head.names) else ""
    if by_name:
        refuse_wide_name(place, name, head.row)
    number = place + 1
    title = Text("column {} ({})", number, quoted(name)) if name else Text("column {}", number)
    return Column(place, title, column_word(head.names, place) if name else str(number), name)


def column_word(names: Sequence[str], place: int) -> str:
    """Returns the name of a column where it is sure, else its number.

    >>> column_word(["EAN", "", "7"], 0), column_word(["EAN", "", "7"], 2)
    ('EAN', '3')
    """
    name = names[place]
    is_sure = name and not name.isdecimal() and names.count(name) == 1
    return name if is_sure else str(place + 1)


def refuse_no_kind(argument: str, head: Start) -> None:
    """Raises `ToolError` for what is neither a symbology nor the column of them."""
    if name_of(argument) not in head.names and not argument.isdecimal():
        where = head.row.number, listed_names(head)
        what = Text(
            "{} is neither a symbology nor a column; row {} has {}", quoted(argument), *where
        )
        hint = Text("give one of {}, or the column that has them", ", ".join(NAMES))
        raise ToolError(what, hint, BAD_ARGUMENTS)


def listed_names(head: Start) -> str:
    """Returns the names of the columns with their numbers, the first ones of many."""
    names = head.names or head.row.texts
    listed = [f"{number} {quoted(name)}" for number, name in enumerate(names, 1)]
    return ", ".join(listed[:LISTED] + ([".."] if len(listed) > LISTED else []))


def not_one(argument: str, head: Start, count: int) -> ToolError:
    """Returns the error of a column that is not there, or there several times."""
    row, has = head.row.number, listed_names(head)
    what = Text("no column {}; row {} has {}", quoted(argument), row, has)
    if count:
        what = Text("several columns {}; row {} has {}", quoted(argument), row, has)
    names = head.names or head.row.texts
    by_letters = {name.casefold(): name for name in names if name}
    alike = get_close_matches(name_of(argument).casefold(), by_letters, 1)
    if alike and not count:
        return ToolError(what, Text("is it {}?", quoted(by_letters[alike[0]])), BAD_ARGUMENTS)
    return ToolError(what, Text("give the number of one of these columns"), BAD_ARGUMENTS)


def refuse_wide_name(place: int, name: str, row: Row) -> None:
    """Raises `ToolError` for a name that is merged over several columns."""
    for merge in row.merges:
        if merge.row == row.number and merge.place == place < merge.last_place:
            ends = place + 1, merge.last_place + 1
            what = Text("the name {} is over the columns {} to {}", quoted(name), *ends)
            raise ToolError(what, Text("give the number of one of these columns"), BAD_ARGUMENTS)


def check_code(column: Column, head: Start, options: TableOptions) -> None:
    """Raises `ToolError` where the first row may be an article, and nothing says it."""
    is_said = options.file.header_row is not None
    cell = head.row.seen_text(column.place)
    may_be_code = re.search("[0-9]", NAME_WITH_DIGITS.sub("", cell)) is not None
    may_be_code = may_be_code or options.codes.is_free and cell != ""
    if options.columns.code.isdecimal() and may_be_code and not is_said:
        what = Text("row {} has {} in column {}", head.row.number, quoted(cell), column.place + 1)
        remedies = (
            Remedy("header-row", "0", Text("it is a code")),
            Remedy("header-row", str(head.row.number), Text("it is a name")),
        )
        raise ToolError(what, Text("what is it?"), BAD_ARGUMENTS, remedies)
