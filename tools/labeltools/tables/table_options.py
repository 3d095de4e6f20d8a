"""What a table is to be read by: frozen records, which a command or a window makes."""

from collections.abc import Callable
from dataclasses import dataclass, field, fields
from typing import Any, Generic, TypeVar

from labeltools.lines.file import LinesFile
from labeltools.lines.symbologies import SYMBOLOGIES
from labeltools.sheets.file_options import FileOptions
from labeltools.tables.codes import CodeRules
from labeltools.tables.prices import PricePattern

C = TypeVar("C")
D = TypeVar("D")


@dataclass(frozen=True)
class Columns(Generic[C]):
    """The columns: as they were asked for, each by its name, or by its number from 1; or as they
    were found. `where` are columns and the values of rows to print, `variants_of` is that of what
    rows without a title are variants of.
    """

    code: C
    title: tuple[C, ...] = ()
    text: tuple[C, ...] = ()
    price: C | None = None
    unit_price: C | None = None
    old_price: C | None = None
    currency: C | None = None
    copies: C | None = None
    symbology: C | None = None
    variants_of: C | None = None
    where: tuple[tuple[C, str], ...] = ()

    def map(self, to: Callable[[C], D]) -> "Columns[D]":
        """Returns what a function makes of each column."""
        found: dict[str, Any] = {}
        for kind in fields(self):
            own = getattr(self, kind.name)
            if kind.name == "where":
                found["where"] = tuple((to(column), value) for column, value in own)
            elif isinstance(own, tuple):
                found[kind.name] = tuple(map(to, own))
            else:
                found[kind.name] = None if own is None else to(own)
        return Columns(**found)

    @property
    def prices(self) -> tuple[C | None, C | None, C | None]:
        """Those of the price, the price of a unit, and the old price."""
        return self.price, self.unit_price, self.old_price

    @property
    def asked(self) -> tuple[C, ...]:
        """All of them."""
        others = (*self.prices, self.currency, self.copies, self.symbology, self.variants_of)
        given = (column for column in others if column is not None)
        return (self.code, *self.title, *self.text, *given, *(column for column, _ in self.where))


ColumnOptions = Columns[str]


@dataclass(frozen=True)
class PriceRules:
    """How prices are read: whether they may be any text, their pattern, and a currency that is not
    known by its name.
    """

    is_text: bool = False
    pattern: PricePattern | None = None
    currency_name: str = ""


@dataclass(frozen=True)
class TableOptions:
    """All of it.

    `settings` go behind the comma of each line; `links` is whether the code of a cell that leads to
    an address is the address; `new_since` is an older file, of which labels that have not changed
    are not printed again; `table` is the name that the first remark has.
    """

    columns: ColumnOptions = field(default_factory=lambda: ColumnOptions("1"))
    file: FileOptions = field(default_factory=FileOptions)
    codes: CodeRules = field(default_factory=CodeRules)
    prices: PriceRules = field(default_factory=PriceRules)
    settings: str = ""
    links: bool = False
    new_since: LinesFile | None = None
    table: str = ""

    def wrong_setting(self, symbology: str) -> str:
        """Returns a key of the settings that a symbology does not have; empty if it has all."""
        keys = (setting.partition("=")[0] for setting in self.settings.split(",") if setting)
        known = SYMBOLOGIES[symbology].settings
        return next((key for key in keys if key not in known), "")
