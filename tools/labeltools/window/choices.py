"""What is chosen in the window, with its types: as options of the commands, as the words of these
that are shown, and as it is kept for the next time.
"""

from collections.abc import Iterable, Mapping
from dataclasses import dataclass, fields, replace
from typing import Any

from labeltools.commands import label_table as table_command
from labeltools.common.arguments import words_of
from labeltools.common.messages import Remedy
from labeltools.tables.codes import AUTO
from labeltools.window.further import Further, typed_with
from labeltools.window.sheets import own_sheet

COLUMNS = ("code", "title", "text", "text_2", "price", "unit_price", "old_price", "copies")
# those that a remedy chooses by; `sheet` is a worksheet there, and here a sheet of labels
CHOSEN = ("symbology", "price-as", "header-row", "dpi", "to", "first", "edge")
UNCHOSEN = {"symbology": AUTO}  # what a control has that says nothing; others have an empty text
# the fields of further options that are typed, and of those that are given
FURTHER = {"for_table": "given_table", "for_print": "given_print"}
ColumnChoice = str | None  # its number from 1; empty for none, and None where only the keeper knows
Kept = Mapping[str, Any]  # choices as a file has them: by the names of options, of any type


@dataclass(frozen=True)
class Choices:
    """What is chosen, a field for each control. Lists choose by texts, which are empty for nothing,
    and None where no row of the list is chosen; `width` and `height` are millimetres of a label on
    a roll; all is moved by `right` and `down`; `note` is a line on all labels; `printer` is the key
    of a printer.
    """

    code: ColumnChoice
    title: ColumnChoice
    text: ColumnChoice
    text_2: ColumnChoice
    price: ColumnChoice
    unit_price: ColumnChoice
    old_price: ColumnChoice
    copies: ColumnChoice
    symbology: str | None
    price_as: str | None
    design: str | None
    note: str
    to: str | None
    dpi: str | None
    stock: str
    for_table: str
    for_print: str
    given_table: str
    given_print: str
    header_row: int
    first: int
    width: float
    height: float
    right: float
    down: float
    edge: str
    sheet: bool
    roll: bool
    new_only: bool
    printer: str

    @property
    def further_of_table(self) -> Further:
        """The further options by which a table is read."""
        return Further(self.for_table, self.given_table)


TYPES: Mapping[str, Any] = {field.name: field.type for field in fields(Choices)}


def kept_of(choices: Choices, names: Iterable[str] = TYPES) -> dict[str, Any]:
    """Returns choices as they are kept, all or those of some fields."""
    return {name.replace("_", "-"): getattr(choices, name) for name in names}


def values_kept(kept: Kept, names: Iterable[str]) -> dict[str, Any]:
    """Returns choices that were kept, those of some fields; nothing that somebody has written there
    and that has another type.

    >>> values_kept({"text-2": "3", "width": 60, "first": 9.0, "price": 7, "widget": 1}, TYPES)
    {'text_2': '3', 'first': 9, 'width': 60.0}
    """
    found = {}
    for name in names:
        value, is_number = kept.get(name.replace("_", "-"), ...), TYPES[name] in (int, float)
        if isinstance(value, (int, float) if is_number else TYPES[name]):
            found[name] = TYPES[name](value) if is_number else value
    return found


def table_words(choices: Choices) -> list[str]:
    """Returns the words of label-table for choices, but for the file; raises `ToolError`."""
    kept = kept_of(choices)
    columns = (name.replace("_", "-") for name in COLUMNS)
    options = {name: kept[name] for name in (*columns, "symbology", "price-as", "header-row")}
    options["header-row"] = str(choices.header_row)
    second = words_of({"text": options.pop("text-2")})
    return [*words_of(options), *second, *choices.further_of_table.words]


def print_words(choices: Choices) -> list[str]:
    """Returns the words of label-print for choices; raises `ToolError`."""
    kept = kept_of(choices)
    look = words_of({name: kept[name] for name in ("design", "note", "to", "dpi")})
    further = Further(choices.for_print, choices.given_print)
    return [*paper_words(choices), *look, *further.words]


def paper_words(choices: Choices) -> list[str]:
    """Returns the words for what is printed on, and where: a roll, a sheet of the keeper's own, or
    one that the list has.
    """
    options: dict[str, Any] = {"paper": f"{choices.width:g}x{choices.height:g}"}
    if not choices.roll:
        own = own_sheet(choices.stock)
        options = own.options if own else {"stock": choices.stock}
        options["first"] = choices.first
    options["edge"] = choices.edge
    if choices.right or choices.down:
        options["shift"] = f"{choices.right:g},{choices.down:g}"
    return words_of(options)


def values_with(choices: Choices, remedy: Remedy) -> dict[str, Any]:
    """Returns the fields that a remedy changes of choices: that of its control, or else those of
    further options.
    """
    option, value = remedy.option, remedy.value
    typed = "for_table" if is_of_table(remedy) else "for_print"
    given = FURTHER[typed]
    less = replace(remedy, is_less=True)
    without = {name: typed_with(getattr(choices, name), less) for name in (typed, given)}
    if option not in CHOSEN:
        return {**without, given: typed_with(without[given], remedy)}
    value = UNCHOSEN.get(option, "") if remedy.is_less else value
    is_number = option in ("header-row", "first")
    return {**without, option.replace("-", "_"): int(value) if is_number else value}


def is_of_table(remedy: Remedy) -> bool:
    """Returns whether a remedy is an option of label-table, not of label-print; it may have no
    value here.
    """
    return f"--{remedy.option}" in table_command.NAMES_OF_OPTIONS
