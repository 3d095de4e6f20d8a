"""Reads a table of text: CSV, in whatever encoding and with whatever delimiter."""

import csv
import re
from collections import Counter
from collections.abc import Container, Iterable, Iterator, Sequence
from dataclasses import dataclass
from functools import partial
from itertools import count, islice
from typing import NamedTuple

from labeltools.common.budget import check_size, CSV, LINE as WHOLE_LINE, MEGABYTE, TABLE
from labeltools.common.column_names import name_of
from labeltools.common.messages import (
    BAD_ARGUMENTS,
    named_character,
    quoted,
    Remedy,
    RowError,
    ToolError,
)
from labeltools.common.text import NOTHING, Text
from labeltools.sheets.encoding import decoded
from labeltools.sheets.file_options import CsvOptions
from labeltools.sheets.rows import Row, row_with_names

ROWS_LOOKED_AT = 1000  # for the delimiter
NAMES_LOOKED_AT = 50  # for the row of names
MARKS = "\t;,|"  # delimiters that are found by themselves
RARE = "^~"  # those that are asked for
ONE_COLUMN = "\x1f"  # a delimiter that no table has
DELIMITERS = {"tab": "\t", "none": ONE_COLUMN}
# the first line in which some exports name the delimiter for Excel; no spreadsheet shows it as a
# row
SEPARATOR_LINE = re.compile(r'"?sep=([^"\r\n])"?[;,\t]*(?:\r\n|\r|\n|\Z)', re.IGNORECASE)
LINE_END = re.compile("[\r\n]+")
LINE = re.compile(r"[^\r\n]*(?:\r\n|\r|\n)|[^\r\n]+")
FIGURES = re.compile(r"\s*[0-9][0-9 .,'’-]*")  # a code or a price
BETWEEN = Text("it is between cells")
UNCLOSED = Text("a quote is not closed")
AFTER_QUOTE = Text("text after a closing quote")
AFTER_QUOTE_HINT = Text('write a quote in a quoted cell twice ("")')
ALL_BELOW = Text("this row and all below it are skipped")


class Fitness(NamedTuple):
    """How well a delimiter fits: it cuts the row of names, or any row if no name was asked for;
    the names are there then; so many rows are as wide.
    """

    is_cut: bool
    are_there: bool
    rows: int


@dataclass(frozen=True)
class Shape:
    """The width of a table, in cells: `row` is the row of names, `names` are its cells to the last
    name, `width` all its cells, and `rest` the empty ones that every row below has at its end
    beside them. Places of `asked` need no name.
    """

    row: int
    names: int
    width: int
    rest: int = 0
    asked: Container[int] = ()

    def problem(self, row: Row) -> RowError | None:
        """Returns why the cells of a row that is not blank may have moved.

        >>> shape = Shape(row=1, names=2, width=3, rest=1)
        >>> shape.problem(Row(2, ["1", "a", "", ""]))
        >>> print(shape.problem(Row(2, ["1", "a", "", "", ""])))
        the row has 5 cells and row 1 has 3: a cell that contains the delimiter has to be in quotes
        >>> print(shape.problem(Row(2, ["1"])))
        the row has 1 of 2 cells: the file may be cut off, so export it again
        >>> shape.problem(Row(2, ["1", "a", "b"])).what
        'has "b" in column 3, which has no name'
        """
        count = len(row.cells)
        if count == self.names:  # most rows, at once
            return None
        if count < self.names:
            what = Text("the row has {} of {} cells", count, self.names)
            return RowError(what, Text("the file may be cut off, so export it again"))
        unnamed = {place: row.seen_text(place) for place in range(self.names, count)}
        filled = [place for place, text in unnamed.items() if text.strip()]
        if count > self.width + self.rest or any(place >= self.width for place in filled):
            return RowError(
                Text("the row has {} cells and row {} has {}", count, self.row, self.width),
                Text("a cell that contains the delimiter has to be in quotes"),
            )
        for place in filled:
            if place not in self.asked:
                text = quoted(unnamed[place])
                what = Text("has {} in column {}, which has no name", text, place + 1)
                hint = Text("cells may have moved, so compare the row with the table")
                return RowError(what, hint)
        return None


def rows_of_csv(data: bytes, name: str, options: CsvOptions) -> Iterator[Row]:
    """Yields the rows of a table of text from the row of names on; one whose cells may have moved
    has a problem. Raises `ToolError` where its encoding or its delimiter is not sure.
    """
    check_size(name, len(data), TABLE, CSV)
    text = decoded(data, name, options.file.encoding)
    check_size(name, max(map(len, LINE.findall(text)), default=0), TABLE, WHOLE_LINE)
    text = text.removeprefix("\ufeff")
    given = DELIMITERS.get(options.file.delimiter or "", options.file.delimiter)
    if separator := SEPARATOR_LINE.match(text):
        text = text[separator.end() :]
        given = given or separator[1]
    all_rows = partial(parsed, text, delimiter_of(text, given, options))
    wanted = options.file.header_row or 0
    head = next((row for row in all_rows() if row.number >= wanted and not row.is_blank()), None)
    if head is None or head.problem:
        yield from () if head is None else (head,)
        return
    shape = table_shape(head, all_rows(), options)
    for row in all_rows():
        if row.number >= head.number:
            is_read = row.number == head.number or row.problem or row.is_blank()
            problem = None if is_read else shape.problem(row)
            yield row._replace(problem=problem) if problem else row


def table_shape(head: Row, rows: Iterable[Row], options: CsvOptions) -> Shape:
    """Returns the shape of a table: some exports end each row but the names by a delimiter."""
    named = max((place for place, name in enumerate(head.names, 1) if name), default=0)
    width = len(head.cells)
    below = (row for row in rows if row.number > head.number and not row.is_blank())
    beside = [len(row.cells) - width for row in below if len(row.cells) >= named]
    rest = beside[0] if len(beside) > 1 and len(set(beside)) == 1 else 0
    asked = {int(column) - 1 for column in options.asked if column.isdecimal()}
    has_names = options.file.has_names
    return Shape(head.number, named, width, max(rest, 0), asked if has_names else range(width))


def delimiter_of(text: str, given: str | None, options: CsvOptions) -> str:
    """Returns the delimiter: the one that was given, or else the one that row 1 has and that is
    surely no data.
    """
    marks: list[str] = [*MARKS, given] if given else [*MARKS]
    fits = {mark: fitness(text, mark, options) for mark in marks}
    best = max(fits, key=lambda mark: fits[mark])
    is_cut = fits[best].is_cut
    if given:
        if is_cut and given != ONE_COLUMN and not fits[given].is_cut:
            signs = map(named_character, (best, given))
            what = Text("row 1 has {} between cells, and not {}", *signs)
            remedy = Remedy("delimiter", says=Text("find what is between cells"), is_less=True)
            raise ToolError(what, status=BAD_ARGUMENTS, remedies=(remedy,))
        return given
    if not is_cut and (later := delimiter_of_names(text, options)):
        return later
    is_quoted = text[:100].lstrip("\r\n").startswith('"')
    is_single_text = options.is_free and set(options.asked) == {"1"}
    may_be_data = is_single_text and best != "\t"
    if is_cut and (is_quoted or not may_be_data):
        return best
    first = LINE.match(text)
    rare = [mark for mark in RARE if first and mark in first[0]]
    if is_cut or rare or options.is_free:
        refuse_delimiter(text, [best] if is_cut else rare or marks)
    return ONE_COLUMN


def refuse_delimiter(text: str, marks: Sequence[str]) -> None:
    """Raises `ToolError` where a row has a mark that may be data or between cells."""
    for mark in marks:
        for row in parsed(text, mark):
            if len(row.cells) > 1:
                ways = (
                    Remedy("delimiter", "tab" if mark == "\t" else mark, BETWEEN),
                    Remedy("delimiter", "none", Text("it is data")),
                )
                what = Text("row {} has {}", row.number, named_character(mark))
                raise ToolError(what, Text("what is it?"), BAD_ARGUMENTS, ways)


def delimiter_of_names(text: str, options: CsvOptions) -> str:
    """Returns the delimiter by which a row below has all the names that were asked for; empty for
    none.
    """
    if not options.file.has_names:
        return ""
    for mark in MARKS:
        rows = islice(parsed(text, mark), NAMES_LOOKED_AT)
        found = row_with_names(rows, options.asked)
        if found > 1:
            return mark
    return ""


def fitness(text: str, mark: str, options: CsvOptions) -> Fitness:
    """Returns how well a delimiter fits the row of names and the rows below."""
    header_row = options.file.header_row or 0
    rows = list(islice(parsed(text, mark), header_row + ROWS_LOOKED_AT))
    filled_rows = [row for row in rows if row.cells and row.number >= header_row]
    if not filled_rows:
        return Fitness(False, False, 0)
    names = filled_rows[0].names
    asked = [name_of(column) for column in options.asked if not column.isdecimal()]
    widths = Counter(len(row.cells) for row in filled_rows if len(row.cells) > 1)
    width = len(names) if asked or not widths else widths.most_common(1)[0][0]
    return Fitness(width > 1, all(column in names for column in asked), widths[width])


def parsed(text: str, delimiter: str) -> Iterator[Row]:
    """Yields the rows with the numbers that a spreadsheet shows; after a quote that does not match,
    the last one.
    """
    csv.field_size_limit(MEGABYTE)
    lines = (line[0] for line in LINE.finditer(text))
    reader = csv.reader(lines, delimiter=delimiter, strict=True)
    again = LINE.finditer(text)  # for the lines of faulty rows, `passed` of which are behind
    passed = 0
    for number in count(1):
        first = reader.line_num
        try:
            cells = next(reader)
            if reader.line_num - first > 1 and is_of_rows(cells, delimiter):
                yield Row(number, [], RowError(UNCLOSED))
            else:
                yield Row(number, cells)
        except StopIteration:
            return
        except csv.Error as error:
            taken = [line[0] for line in islice(again, first - passed, reader.line_num - passed)]
            passed = reader.line_num
            row, is_last = faulty(number, taken, str(error))
            yield row
            if is_last:
                return


def is_of_rows(cells: Sequence[str], delimiter: str) -> bool:
    """Returns whether the last line of a cell makes a row with what is behind it, with figures
    where this one has them: then quotes of two rows have met by chance.

    >>> is_of_rows(["40063", "Tea;1,20\\n40064;Salt", "0,90"], ";")
    True
    >>> is_of_rows(["40063", "Tea; green\\nnew; 40 bags", "0,90"], ";")
    False
    """
    for place, cell in enumerate(cells):
        first, *_, last = LINE_END.split(cell) * 2
        is_whole = (
            place + first.count(delimiter) + 1 == len(cells) and last.count(delimiter) == place
        )
        if first == cell or not is_whole:
            continue
        rows = (
            [*cells[:place], *first.split(delimiter)],
            [*last.split(delimiter), *cells[place + 1 :]],
        )
        figures = [[FIGURES.fullmatch(text) is not None for text in row] for row in rows]
        if any(figures[0]) and figures[0] == figures[1]:
            return True
    return False


def faulty(number: int, lines: Sequence[str], error: str) -> tuple[Row, bool]:
    """Returns the row of lines that are not right CSV, and whether what is below it cannot be
    read.
    """
    is_one_line = len(lines) == 1
    is_last = not is_one_line or lines[-1].count('"') % 2 == 1
    texts = [UNCLOSED]
    if is_one_line and "expected after" in error:
        texts = [AFTER_QUOTE, AFTER_QUOTE_HINT]
    if is_last:
        texts[-1] = Text("{}; {}", texts[-1], ALL_BELOW)
    what, hint, *_ = *texts, NOTHING
    return Row(number, [], RowError(what, hint)), is_last
