"""From a table to lines: what a window or a command calls."""

import re
from dataclasses import dataclass, field, replace
from functools import reduce
from itertools import chain
from typing import Iterator

from labeltools.common.messages import (
    BAD_ARGUMENTS,
    fault_of,
    quoted,
    Remedy,
    RowError,
    Talk,
    ToolError,
)
from labeltools.common.text import Text
from labeltools.lines.symbologies import CODE128
from labeltools.sheets.cells import seen_text
from labeltools.sheets.csv_table import rows_of_csv
from labeltools.sheets.file_options import CsvOptions
from labeltools.sheets.number_format import Formatter, local_date, local_signs
from labeltools.sheets.ods import sheets_of_ods
from labeltools.sheets.rows import Row
from labeltools.sheets.workbook import is_ods, named_errors, opened, rows_of_chosen
from labeltools.sheets.xlsx import sheets_of_xlsx
from labeltools.tables.codes import (
    ARE_MISSING,
    kind_remedy,
    OTHER_CODES,
    OTHER_KIND,
    OtherCode,
    WITHOUT_DIGIT,
    WrongDigit,
)
from labeltools.tables.columns import Column, columns_of, Start
from labeltools.tables.drafts import DraftReader
from labeltools.tables.findings import Findings
from labeltools.tables.line_writer import LineWriter, shown_by
from labeltools.tables.prices import PriceColumn
from labeltools.tables.summary import Totals
from labeltools.tables.table_options import Columns, TableOptions
from labeltools.tables.variants import Variants

ZIP = (b"PK\x03\x04", b"PK\x05\x06")
NO_TABLE = re.compile(rb"(?i)\xd0\xcf\x11\xe0|\s*<(?:\?xml|!doctype|html|table)")
PICTURE = re.compile(
    rb"%PDF|\x89PNG|\xff\xd8\xff|GIF8|BM.{4}\0\0\0\0|II\*\0|MM\0\*|RIFF.{4}WEBP", re.S
)
# options that only CSV has, or only workbooks
OF_CSV = ("delimiter", "encoding")
OF_WORKBOOKS = ("sheet", "hidden", "date_as", "links")
SO = Text("read it all the same")
MOST_HELD = 1000  # rows that are wrong, before the first one that is right
BETWEEN = 256  # rows between two calls of `go_on`


@dataclass(frozen=True)
class Lines:
    """The lines of a table, in `output`, a file for label-print; which rows are left out, and what
    was counted.
    """

    output: bytes
    count: int
    left_out: tuple[int, ...]
    hidden: int
    totals: Totals


def lines_of_table(data: bytes, name: str, options: TableOptions, talk: Talk) -> Lines:
    """Returns the lines of a table; what is left out, and why, is told.

    `name` is for messages. Raises `ToolError` if the table cannot be read, a column is not sure, or
    no row is there, and `Cancelled` if the talk wants no more.
    """
    return lines_of_rows(head_of(data, name, options, talk), name, options, talk)


def lines_of_rows(start: Start, name: str, options: TableOptions, talk: Talk) -> Lines:
    """Returns the lines of a table that is open, as `lines_of_table` does."""
    columns = columns_of(start, options)
    prices = [PriceColumn(options.file.decimal) for _ in columns.prices]
    findings = Findings(options, columns, start.formatter, prices)
    variants = Variants(columns.title, findings)
    reader = DraftReader(options, columns, start.names, findings, variants)
    older = shown_by(options.new_since) if options.new_since else {}
    writer = LineWriter(options, columns, talk, findings, older)
    work = TableRun(options, columns.code, talk, findings, reader, writer)
    work.take_all(start.rows)
    work.refuse_other_codes(name)
    has_rows = writer.taken or writer.left_out or findings.hidden or work.unmarked
    if not has_rows:
        row = start.row.number
        raise ToolError(
            Text("{} has no row below row {}, which has the names of the columns", name, row)
        )
    if work.unmarked and not writer.taken:
        raise nothing_marked(columns, name)
    output = writer.finish()
    findings.say_all(talk)
    left_out, totals = tuple(writer.left_out), findings.totals
    return Lines(output, totals.rows, left_out, findings.hidden, totals)


def head_of(data: bytes, name: str, options: TableOptions, talk: Talk) -> Start:
    """Returns a table that is open; raises `ToolError` where it cannot be read. A window shows its
    first rows.
    """
    formatter = Formatter(local_signs(options.file.decimal), options.file.date_as, local_date())
    rows = table_rows(data, name, options, formatter, talk)
    wanted = options.file.header_row or 0
    first = next((row for row in rows if row.number >= wanted and not row.is_blank()), None)
    if wanted and (first is None or first.number != wanted):
        raise ToolError(Text("{} has nothing in row {}", name, wanted))
    if first is None:
        raise ToolError(Text("{} has only empty cells", name))
    if first.problem:
        what = Text("{}: row {}: {}", name, first.number, first.problem.what)
        raise ToolError.of(replace(first.problem.problem, what=what))
    if not options.file.has_names:
        return Start(first, (), chain([first], rows), formatter)
    return Start(first, first.names, rows, formatter)


def table_rows(
    data: bytes, name: str, options: TableOptions, formatter: Formatter, talk: Talk
) -> Iterator[Row]:
    """Returns the rows of a table, whose kind its first bytes say; raises `ToolError` for another
    kind.
    """
    if NO_TABLE.match(data):
        what = Text("{} is an old .xls, XML, HTML, or has a password", name)
        raise ToolError(what, Text("save it as .xlsx, without a password"))
    if PICTURE.match(data):
        what = Text("{} is a picture or a PDF", name)
        raise ToolError(what, Text("give the table itself: .xlsx, .ods or CSV"))
    is_csv = not data.startswith(ZIP)
    for option in OF_WORKBOOKS if is_csv else OF_CSV:
        if getattr(options if option == "links" else options.file, option):
            what = Text("{} is CSV", name) if is_csv else Text("{} is not CSV", name)
            remedy = Remedy(option.replace("_", "-"), "", SO, is_less=True)
            raise ToolError(what, status=BAD_ARGUMENTS, remedies=(remedy,))
    if is_csv:
        how = CsvOptions(options.file, options.columns.asked, options.codes.is_free)
        return rows_of_csv(data, name, how)
    return rows_of_workbook(data, name, options.file.sheet, formatter, talk)


def rows_of_workbook(
    data: bytes, name: str, wanted: str | None, formatter: Formatter, talk: Talk
) -> Iterator[Row]:
    """Yields the rows of the sheet of a workbook that is wanted, else of the only one that is
    visible and has data.
    """
    with named_errors(name), opened(data) as archive:
        sheets_of = sheets_of_ods if is_ods(archive) else sheets_of_xlsx
        yield from rows_of_chosen(sheets_of(archive, formatter, talk), wanted)


def nothing_marked(columns: Columns[Column], name: str) -> ToolError:
    """Returns the error of a table in which no row has the values that were asked for."""
    wanted = (Text("{} in {}", quoted(value), column.title) for column, value in columns.where)
    values = reduce(lambda before, value: Text("{} and {}", before, value), wanted)
    return ToolError(
        Text("{} has no row with {}", name, values), Text("check how the cells are spelled")
    )


@dataclass
class TableRun:
    """A run over a table: what is to be said about a row is said at once, the rest at the end."""

    options: TableOptions
    code: Column
    talk: Talk
    findings: Findings
    reader: DraftReader
    writer: LineWriter
    unmarked: int = 0
    held: list[tuple[int, str, RowError]] = field(default_factory=list)  # while no row is right
    wrong_digits: int = 0

    def take_all(self, rows: Iterator[Row]) -> None:
        """Takes the rows below the head, but none that is empty."""
        for row in rows:
            if row.number % BETWEEN == 0:
                self.talk.go_on(row.number, 0)
            if row.is_blank():
                continue
            if row.is_hidden and not self.options.file.hidden:
                self.findings.hidden += 1
            else:
                self.take_row(row)

    def take_row(self, row: Row) -> None:
        """Takes one row that is not blank, or leaves it out, whatever it raises."""
        try:
            draft = self.reader.draft(row)
            if draft is None:
                self.unmarked += 1
                return
            if self.held:
                self.leave_out_held()
            self.writer.take_draft(draft)
        except RowError as problem:
            self.hold(row, problem)
        except (ToolError, MemoryError):
            raise
        except Exception as error:
            self.hold(row, RowError(fault_of(error)))

    def hold(self, row: Row, problem: RowError) -> None:
        """Leaves a row out, at once or later."""
        place = self.code.place if problem.column is None else problem.column
        cell = seen_text(row.cells[place] if place < len(row.cells) else "")
        self.wrong_digits += isinstance(problem, WrongDigit)
        self.held.append((row.number, cell, problem))
        if self.writer.taken or self.writer.left_out or len(self.held) > MOST_HELD:
            self.leave_out_held()

    def leave_out_held(self) -> None:
        """Leaves out the rows that are held; after them none is, since one message is not for
        all.
        """
        for row, cell, problem in self.held:
            self.writer.leave_out(row, cell, problem)
        self.held.clear()

    def refuse_other_codes(self, name: str) -> None:
        """Raises `ToolError` if the codes of a table are no EAN or UPC, or have no check digits: of
        these one in ten is right by chance.
        """
        title = self.code.title
        others = sum(isinstance(problem, OtherCode) for _, _, problem in self.held)
        if 2 * others > len(self.held):
            what = Text("{}: no row has an EAN or UPC in {}", name, title)
            raise ToolError(what, OTHER_KIND, remedies=OTHER_CODES)
        self.leave_out_held()
        if self.wrong_digits > max(1, self.reader.right_codes):
            what = Text("{}: most codes in {} have a wrong check digit", name, title)
            remedies = (WITHOUT_DIGIT, kind_remedy(CODE128.name))
            raise ToolError(what, ARE_MISSING, remedies=remedies)
