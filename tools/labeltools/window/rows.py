"""Rows of which some are printed, with how many labels of each. They are typed, such as
`2, 7-9 × 5`, or marked in a list; those that are looked for can be marked together.
"""

import re
from collections import Counter
from collections.abc import Iterable, Sequence
from itertools import groupby
from typing import Any, NamedTuple, TYPE_CHECKING

from labeltools.common.report import is_in_ranges, range_words, Ranges, ranges_of
from labeltools.common.text import counted, Text, translated
from labeltools.layout.layout import LaidOut
from labeltools.lines.file import Record
from labeltools.printing.press import Prepared
from labeltools.printing.selection import ranges_in
from labeltools.window.gtk import confirmed, Gtk

if TYPE_CHECKING:
    from labeltools.window.window import Window

MARK, ROW, CODE, TITLE, PRICE, IS_NEW, MANY = range(7)  # the columns of the list
MOST = 9999  # labels of a row
TIMES = re.compile("[x*×]")


class RowsPart(NamedTuple):
    """Some rows, and how many labels of each are printed: None for as many as the table says."""

    ranges: Ranges
    many: int | None = None

    @property
    def text(self) -> str:
        """The rows as they are typed."""
        rows = ",".join(range_words(self.ranges))
        return rows if self.many is None else f"{rows} × {self.many}"


class Rows:
    """The list of a window."""

    def __init__(self, window: "Window") -> None:
        self.window = window
        self.widgets = window.widgets
        self.found = window.widgets.rows.filter_new()
        self.found.set_visible_func(self.is_found)
        window.widgets.rows_list.set_model(self.found)
        window.widgets.rows_search.connect("search-changed", lambda _entry: self.found.refilter())
        window.widgets.rows_list.set_activate_on_single_click(True)  # by a click anywhere in a row
        window.widgets.rows_list.connect(
            "row-activated", lambda _list, path, _column: self.on_mark(path)
        )
        window.widgets.rows_search.connect("activate", self.on_enter)
        window.widgets.rows_many.connect("edited", self.on_many)
        for button, rule in (
            (window.widgets.rows_all, lambda _row: True),
            (window.widgets.rows_none, lambda _row: False),
            (window.widgets.rows_new, lambda row: row[IS_NEW]),
        ):
            button.connect("clicked", self.mark_shown, rule)

    def ask_for_rows(self, labels: Prepared, typed: str) -> str | None:
        """Asks which rows are printed, first those that were typed; returns them as they are typed,
        or nothing if that is cancelled.
        """
        window = self.window
        printed = window.made.table.printed_records()
        self.fill_rows(labels.prints, typed, printed)
        window.widgets.rows_new.set_visible(printed)
        window.widgets.rows_search.set_text("")
        self.show_count()
        return self.typed(labels.prints) if confirmed(window.widgets.choosing) else None

    def typed(self, prints: Sequence[LaidOut]) -> str:
        """Returns the rows that are marked as they are typed."""
        usual = Counter(label.record.origin.number for label in prints)
        marked = {row[ROW]: row[MANY] for row in self.widgets.rows if row[MARK]}
        wanted = {row: None if usual[row] == many else many for row, many in marked.items()}
        found = (
            RowsPart([span], many)
            for many, rows in groupby(wanted, key=lambda row: wanted[row])
            for span in ranges_of(rows)
        )
        return ",".join(part.text for part in found)

    def fill_rows(self, prints: Sequence[LaidOut], typed: str, printed: Sequence[Record]) -> None:
        """Fills the list with the rows of labels, each once."""
        before: dict[Any, set[Any]] = {}
        for old in printed:
            before.setdefault(old.key, set()).add(old.printed_beside)
        parts = parts_in(typed)
        records = {item.record.origin.number: item.record for item in prints}
        usual = Counter(item.record.origin.number for item in prints)
        self.widgets.rows.clear()
        for number, record in sorted(records.items()):
            part = part_with(number, parts)
            many = usual[number] if part is None or part.many is None else part.many
            is_new = record.printed_beside not in before.get(record.key, ())
            code = record.data.decode("utf-8", "replace")
            shown = (code, record.title, record.price)
            self.widgets.rows.append([part is not None, number, *shown, is_new, many])

    def is_found(self, model: Any, row: Any, _data: Any) -> bool:
        """Returns whether a row has what is looked for."""
        wanted = self.widgets.rows_search.get_text().casefold()
        texts = (str(model[row][column]) for column in (CODE, TITLE, PRICE))
        return not wanted or any(wanted in text.casefold() for text in texts)

    def on_enter(self, search: Any) -> None:
        """Ticks what is found, and looks for more; Enter in an empty search is that of the
        dialog.
        """
        if search.get_text():
            self.mark_shown(search, lambda _row: True)
            search.set_text("")
        else:
            self.widgets.choosing.response(Gtk.ResponseType.OK)

    def on_mark(self, path: Any) -> None:
        """Marks a row, or takes its mark away."""
        row = self.found[path]
        row[MARK] = not row[MARK]
        self.show_count()

    def on_many(self, _cell: Any, path: str, text: str) -> None:
        """Takes how many labels of a row are printed, and marks it, unless that is none."""
        if text.strip().isdecimal():
            row = self.found[path]
            row[MANY] = min(int(text), MOST)
            row[MARK] = row[MANY] > 0
            self.show_count()

    def mark_shown(self, _button: Any, rule: Any) -> None:
        """Marks the rows that are shown by a rule."""
        for row in self.found:
            row[MARK] = rule(row)
        self.show_count()

    def show_count(self) -> None:
        """Shows how many rows have a mark, and how many labels they are."""
        numbers = [row[MANY] for row in self.widgets.rows if row[MARK]]
        ticked = counted("{} row is ticked", "{} rows are ticked", len(numbers))
        text = Text("{}: {}", ticked, counted("{} label", "{} labels", sum(numbers)))
        self.widgets.rows_count.set_text(translated(text))
        self.widgets.choosing.set_response_sensitive(Gtk.ResponseType.OK, sum(numbers) > 0)


def parts_in(typed: str) -> Sequence[RowsPart]:
    """Returns the rows that are typed; none if it is not understood.

    >>> [part.text for part in parts_in("2-4, 8 x3,9*2")], parts_in("3 × many"), parts_in("a")
    (['2-4', '8 × 3', '9 × 2'], (), ())
    """
    found = []
    for part in typed.replace(" ", "").split(","):
        rows, *many = TIMES.split(part)
        ranges = ranges_in(rows)
        if not ranges or len(many) > 1 or not all(map(str.isdecimal, many)):
            return ()
        found.append(RowsPart(ranges, int(many[0]) if many else None))
    return tuple(found)


def part_with(row: int, parts: Iterable[RowsPart]) -> RowsPart | None:
    """Returns the first part that has a row; nothing if none has."""
    return next((part for part in parts if is_in_ranges(row, part.ranges)), None)


def labels_of_rows(prints: Sequence[LaidOut], parts: Sequence[RowsPart]) -> Sequence[LaidOut]:
    """Returns the labels of some rows, each as often as it is wanted."""
    found: list[LaidOut] = []
    for _, same in groupby(prints, key=lambda label: label.record.number):
        labels = [*same]
        part = part_with(labels[0].record.origin.number, parts)
        if part:
            found += labels if part.many is None else labels[:1] * part.many
    return found
