"""The owners of what is chosen: the column of the codes and that of the prices, the printer, its
paper, and this run. Each choice is kept of its owner alone, and comes and goes with it: so nothing
stays of a column or a printer once another one is chosen.
"""

from collections.abc import Callable, Collection, Sequence
from contextlib import suppress
from functools import cache
from typing import Any, NamedTuple, TYPE_CHECKING

from labeltools.commands import label_print as print_command
from labeltools.common.messages import ToolError
from labeltools.paper.stock import parts_named
from labeltools.window.choices import Choices, COLUMNS, Kept, kept_of, values_kept
from labeltools.window.further import with_part
from labeltools.window.memory import Memory, PAPERS, PRINTERS

if TYPE_CHECKING:
    from labeltools.window.shop import Table
    from labeltools.window.window import Window

PRINT = ("printer", "sheet", "roll", "stock", "design")  # by what a table is printed
SUGGESTED = (*PRINT, "note")  # for a table that is new, from the last one that went out
ROLL = ("width", "height")
PLACED = ("right", "down", "edge")  # where a printer prints on a paper
TYPED = ("for_print", "given_print")  # options of label-print, of which each owner has some
READ_BY = ("for_table", "given_table")  # options of label-table
OF_TABLE = (*COLUMNS, "header_row", *READ_BY, *SUGGESTED)
KEPT_OF_TABLE = (*OF_TABLE, "symbology", "price_as", *TYPED)


class Owner(NamedTuple):
    """The owner of some fields of choices: the key of the one that is chosen, empty if that is not
    known yet; where choices are kept by such keys; what is chosen where nothing is kept; and the
    names of the options that it has, if it has some of those that are typed.
    """

    fields: Sequence[str]
    key: Callable[[Choices], str | None]
    store: Memory | dict[str, Any]
    usual: Callable[[Choices], Kept]
    options: Collection[str] = ()

    def values(self, chosen: Choices) -> dict[str, Any]:
        """Returns what belongs to the one that is chosen, as fields."""
        kept = {**self.usual(chosen), **self.store.get(self.key(chosen) or "", {})}
        found = values_kept(kept, self.fields)
        for name in found if self.options else ():
            found[name] = with_part(getattr(chosen, name), found[name], self.options)
        return found

    def shown(self, chosen: Choices) -> dict[str, Any]:
        """Returns what is chosen, as fields."""
        return {name: getattr(chosen, name) for name in self.fields}

    def keep(self, chosen: Choices) -> None:
        """Keeps what is chosen, where it is not what it would be by itself."""
        key, new = self.key(chosen), kept_of(chosen, self.fields)
        if key and self.shown(chosen) != self.values(chosen):
            self.store[key] = {**self.store.get(key, {}), **new}


class Owners:
    """The owners of what a window shows."""

    def __init__(self, window: "Window") -> None:
        self.window = window
        self.at_first = kept_of(window.choices())
        self.known: dict[int, tuple[Any, dict[str, Any]]] = {}  # those that are shown, with what
        self.all: Sequence[Owner] = ()

    def begin(self, table: "Table") -> None:
        """Begins with a table: what is kept of it is that of the columns that it was kept with."""
        printers, first = self.window.of_printers, lambda _chosen: self.at_first
        own = values_kept(table.kept, COLUMNS)
        codes, prices = ({own.get(name, ""): table.kept} for name in ("code", "price"))
        self.all = (
            Owner(["symbology"], lambda chosen: chosen.code, codes, table.usual_kind),
            Owner(["price_as"], lambda chosen: chosen.price, prices, table.usual_form),
            Owner(ROLL, lambda chosen: chosen.printer, PRINTERS, first),
            Owner(["to"], printers.key_of_language, PRINTERS, printers.usual_language),
            Owner(["dpi"], printers.key_of_dots, PRINTERS, printers.usual_dots),
            Owner(["first"], lambda chosen: sheet_key(chosen.stock), PAPERS, first),
            Owner(PLACED, paper_key, PAPERS, first),
            Owner(["new_only"], this, {}, first),
            Owner(TYPED, paper_key, PAPERS, first, options_in_groups("the paper", "output")),
            Owner(TYPED, this, {"this": table.kept}, first, options_in_groups("how labels look")),
            Owner(TYPED, this, {}, first, options_in_groups("what is printed")),
        )

    def settle(self) -> None:
        """Keeps what is chosen of its owners; where another one is chosen now, takes what that has
        in place of it, but for what was changed, too, since this was done last.
        """
        for place, owner in enumerate(self.all):
            chosen = self.window.choices()
            key = owner.key(chosen)
            last, shown = self.known.get(place, (..., {}))
            if key != last:
                values, now = owner.values(chosen), owner.shown(chosen)
                changed = {name for name in shown if now[name] not in (shown[name], None)}
                self.window.take_values(
                    **{name: values[name] for name in values if name not in changed}
                )
                chosen = self.window.choices()
            owner.keep(chosen)
            self.known[place] = key, owner.shown(chosen)

    def take_anew(self) -> None:
        """Takes what all owners have, the next time, since it was changed elsewhere."""
        self.known.clear()


def this(_chosen: Choices) -> str:
    """Returns the key of the table that is open, and of its run."""
    return "this"


@cache
def sheet_key(stock: str) -> str:
    """Returns the key of the sheets of a name, or of those that typed options describe: the whole
    name of a sheet that is in the list.
    """
    with suppress(ToolError):  # glabels, which has the list, is not there
        if len(found := parts_named(stock)) == 1:
            return " ".join(found[0])
    return stock or "own"


def paper_key(chosen: Choices) -> str:
    """Returns the key of a sheet in a printer, or of its roll, which has no name."""
    return f"{chosen.printer}\n{'' if chosen.roll else sheet_key(chosen.stock)}"


def options_in_groups(*groups: str) -> Collection[str]:
    """Returns the names of the options of label-print in some groups of its help."""
    found = (option for group in groups for option in print_command.OPTIONS[group])
    return {option.name.removeprefix("--") for option in found}
