"""Writes what was read of rows as lines: prices as a pattern says, and only what is new, where that
was asked for.
"""

from dataclasses import dataclass, field
from typing import Mapping

from labeltools.common.messages import (
    fault_of,
    Origin,
    Problem,
    quoted,
    RowError,
    Talk,
    ToolError,
)
from labeltools.common.text import Text
from labeltools.lines.file import first_remark, last_remark, LinesFile, Record, record_lines
from labeltools.tables.codes import Code
from labeltools.tables.columns import Column
from labeltools.tables.drafts import Draft
from labeltools.tables.findings import Findings
from labeltools.tables.money import NotMoney, Price
from labeltools.tables.prices import PriceColumn, with_currency
from labeltools.tables.table_options import Columns, TableOptions

LARGEST_OUTPUT = 1 << 27  # bytes


# what labels show, by their symbologies and codes
Older = Mapping[tuple[str, str], set[tuple[object, ...]]]


@dataclass
class LineWriter:
    """Writes drafts as lines. A pattern of prices needs the whole column: drafts then wait for
    `finish`.
    """

    options: TableOptions
    columns: Columns[Column]
    talk: Talk
    findings: Findings
    older: Older
    output: bytearray = field(default_factory=bytearray)
    waiting: list[Draft] = field(default_factory=list)
    taken: int = 0
    left_out: list[int] = field(default_factory=list)
    seen: dict[str, tuple[int, int]] = field(default_factory=dict)

    def take_draft(self, draft: Draft) -> None:
        """Takes a draft."""
        self.taken += 1
        self.findings.see_prices(draft.row, draft.prices, draft.currency or "")
        if self.options.prices.pattern:
            self.waiting.append(draft)
        else:
            self.write_draft(draft)

    def finish(self) -> bytes:
        """Writes the drafts that wait, and the end; returns the whole file."""
        for draft in self.waiting:
            self.write_draft(draft)
        self.waiting = []
        self.left_out.sort()
        self.findings.totals.left_out = len(self.left_out)
        names = (column.name for column in self.columns.text)
        empty = [name for name in names if name not in self.findings.filled]
        end = last_remark(self.findings.totals.rows, self.left_out, empty)
        return b"".join([first_remark(self.options.table).encode(), self.output, end.encode()])

    def write_draft(self, draft: Draft) -> None:
        """Writes a draft, or leaves it out, whatever it raises."""
        try:
            columns = zip(draft.prices, self.columns.prices, self.findings.prices)
            price, unit, was = [self.price_as_printed(draft, *parts) for parts in columns]
            text, names = tuple(draft.texts.values()), tuple(draft.texts)
            record = Record(draft.row, draft.title, text, price, unit, was, draft.copies, names)
            lines = self.lines_of(record, draft.code)
        except RowError as problem:
            pairs = zip(draft.prices, self.columns.prices)
            wrong = (price for price, column in pairs if column and column.place == problem.column)
            self.leave_out(draft.row, str(next(wrong, "")), problem)
            return
        except MemoryError:
            raise
        except Exception as error:
            self.leave_out(draft.row, draft.code.data, RowError(fault_of(error)))
            return
        self.report_if_twice(draft.code, record)
        key = (draft.code.symbology, draft.code.whole)
        if self.older and record.printed_beside in self.older.get(key, ()):
            self.findings.unchanged += 1
            return
        self.write_label(lines)
        self.findings.count_label(record, draft.code, draft.prices[0])

    def leave_out(self, row: int, cell: str, problem: RowError) -> None:
        """Leaves out a row."""
        self.talk.note(Origin("", "row", row), cell, problem.problem)
        self.left_out.append(row)

    def price_as_printed(
        self, draft: Draft, price: Price, column: Column | None, of_column: PriceColumn
    ) -> str:
        """Returns a price as it is printed; raises `RowError`."""
        if column is None or isinstance(price, str):
            return str(price)
        pattern = self.options.prices.pattern
        try:
            if pattern is None:
                return with_currency(price, draft.currency)
            money = of_column.settled(price)
            text = pattern.write(money, draft.currency or "")
            if pattern.changes_amount(money.value):
                what = Text("row {} has {}, which is rounded to {}", draft.row, price.text, text)
                self.findings.see(column, Problem(what))
            return text
        except NotMoney as problem:
            what = Text(
                "has {}, which cannot be printed like that: it {}", quoted(price.text), problem.what
            )
            raise column.cell_error(problem.saying(what)) from None

    def report_if_twice(self, code: Code, record: Record) -> None:
        """Says once of each article that it is there twice with other texts or prices."""
        mark = hash(record.printed_beside) or 1
        first, before = self.seen.setdefault(code.article, (record.row, mark))
        if before not in (mark, 0):
            self.seen[code.article] = first, 0
            what = Text(
                "rows {} and {} have the same code, {}, and another title, text or price",
                first,
                record.row,
                code.data,
            )
            self.talk.say(Problem(what))

    def lines_of(self, record: Record, code: Code) -> bytes:
        """Returns the lines of a label."""
        settings = f",{self.options.settings}" if self.options.settings else ""
        line = f"{code.symbology}{settings} {code.data}"
        return record_lines(record, line, self.columns.copies is not None).encode()

    def write_label(self, lines: bytes) -> None:
        """Writes the lines of a label."""
        self.output += lines
        if len(self.output) > LARGEST_OUTPUT:
            raise ToolError(
                Text("the table has more than 128 MB of texts"),
                Text("split it into several tables"),
            )


def shown_by(lines: LinesFile) -> Older:
    """Returns what the labels of an older file show."""
    found: dict[tuple[str, str], set[tuple[object, ...]]] = {}
    for record in lines.records:
        key = (record.symbology, record.data.decode("utf-8", "replace"))
        found.setdefault(key, set()).add(record.printed_beside)
    return found
