"""The first labels that a table would give, before any is printed: so its keeper sees what a
proposed command makes of it.
"""

from collections.abc import Sequence
from dataclasses import dataclass, field, replace
from itertools import islice
from typing import NamedTuple

from labeltools.common.messages import Origin, Problem, Remedy, Talk, ToolError
from labeltools.common.text import counted, joined, NOTHING, Text
from labeltools.lines.file import read_lines, Record
from labeltools.lines.symbologies import SYMBOLOGIES
from labeltools.sheets.rows import Row
from labeltools.tables.columns import Start
from labeltools.tables.table import head_of, lines_of_rows
from labeltools.tables.table_options import TableOptions

ROWS = 300  # that are read
MOST_SHOWN = 3  # labels of a single way
MOST_LETTERS = 40  # of a title
MOST_NAMED = 8  # columns in a message


class Proposed(NamedTuple):
    """The ways in which a table may be read, and the columns that are shown beside its labels."""

    ways: Sequence[TableOptions]
    beside: Sequence[str]


class FirstLabels(NamedTuple):
    """The labels of each way that are shown, and if there is none, why not."""

    of_ways: Sequence[Sequence[Record]]
    problem: Problem | None


@dataclass
class FirstProblem(Talk):
    """Keeps the first reason for which a row has no label."""

    problem: Problem | None = None

    def note(self, origin: Origin, cell: str, problem: Problem) -> None:
        """Keeps the reason of the first row."""
        what = Text("row {}: {}", origin.number, problem.what)
        self.problem = self.problem or replace(problem, what=what)


@dataclass
class FirstRows:
    """The first rows of a table, which are read once for all ways that read its cells alike."""

    data: bytes
    name: str
    opened: dict[object, tuple[Start, Sequence[Row]]] = field(default_factory=dict)

    def start(self, options: TableOptions, talk: Talk) -> Start:
        """Returns the table at its first row; raises `ToolError` if it cannot be read."""
        numbers = frozenset(column for column in options.columns.asked if column.isdecimal())
        key = options.file, options.codes.is_free, numbers
        if key not in self.opened:
            start = head_of(self.data, self.name, options, talk)
            self.opened[key] = start, (*islice(start.rows, ROWS),)
        start, rows = self.opened[key]
        return start._replace(rows=iter(rows))


def first_labels(data: bytes, name: str, proposed: Proposed, _: Talk) -> FirstLabels:
    """Returns the labels to be shown of each way in which a table may be read: of a single one the
    first ones with other prices or titles; of several that row of which they make most different
    ones. They have the texts of the columns beside, too.
    """
    talk, rows = FirstProblem(), FirstRows(data, name)
    made = [labels_made(rows, options, proposed.beside, talk) for options in proposed.ways]
    problem = None if any(made) else talk.problem
    if len(made) == 1:
        unlike: dict[str, Record] = {}
        for label in made[0]:
            unlike.setdefault(label.price or label.title, label)
        return FirstLabels([[*unlike.values()][:MOST_SHOWN]], problem)
    found = [{label.row: label for label in labels} for labels in made]
    numbers = sorted({label.row for labels in made for label in labels})
    shown = {
        row: {line_of_label(labels[row]) for labels in found if row in labels} for row in numbers
    }
    most = max(numbers, key=lambda row: len(shown[row]), default=0)
    return FirstLabels([[labels[most]] if most in labels else [] for labels in found], problem)


def labels_made(
    rows: FirstRows, options: TableOptions, beside: Sequence[str], talk: FirstProblem
) -> Sequence[Record]:
    """Returns the labels of the first rows; none if the table is refused, of which the talk then
    has the reason.
    """
    texts = (*options.columns.text, *beside)
    options = replace(options, columns=replace(options.columns, text=texts))
    try:
        lines = lines_of_rows(rows.start(options, talk), rows.name, options, talk)
        return read_lines(lines.output, rows.name).records
    except ToolError as error:
        talk.problem = talk.problem or error.problem
        return ()


def line_of_label(label: Record) -> Text:
    """Returns what is printed on a label, on one line, and how many of it."""
    code = f"{SYMBOLOGIES[label.symbology].title} {label.data.decode()}"
    title = label.title.replace("\n", " / ")
    title = title if len(title) <= MOST_LETTERS else title[: MOST_LETTERS - 2] + ".."
    was = joined(" ", [Text("the old price"), label.was]) if label.was else NOTHING
    copies = counted("{} label", "{} labels", label.copies) if label.copies != 1 else NOTHING
    return joined(" | ", filter(None, [code, title, label.price, was, label.unit, copies]))


def said_of_unused(cells: Sequence[str], is_priced: bool) -> Problem:
    """Returns that columns of amounts are on no label, each with a cell; without a price one of
    them may be it.
    """
    what = Text("not on the labels: {}", "; ".join(first_ones(cells)))
    if is_priced:
        return Problem(what)
    return Problem(what, Text("if one is the price, name its column"), (Remedy("price"),))


def first_ones(words: Sequence[str]) -> Sequence[str]:
    """Returns the first ones of many words."""
    return [*words[:MOST_NAMED], *([".."] if len(words) > MOST_NAMED else [])]
