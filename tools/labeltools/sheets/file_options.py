"""How a file of a table is read: frozen records, which a command or a window makes."""

from collections.abc import Sequence
from dataclasses import dataclass


@dataclass(frozen=True)
class FileOptions:
    """How the file is read.

    `header_row` is the row of the names, from 1, 0 if there are none, and None for the first one
    that is not empty. `decimal` is the decimal sign of .xlsx, None for that of the locale;
    `date_as` is how dates are printed, empty for what the spreadsheet shows.
    """

    sheet: str | None = None
    hidden: bool = False
    decimal: str | None = None
    date_as: str = ""
    delimiter: str | None = None
    encoding: str | None = None
    header_row: int | None = None

    @property
    def has_names(self) -> bool:
        """Whether a row may have the names of the columns."""
        return self.header_row != 0


@dataclass(frozen=True)
class CsvOptions:
    """How a file of CSV is read: its columns as they were asked for, and whether codes in it may be
    any text, and so have a delimiter.
    """

    file: FileOptions
    asked: Sequence[str]
    is_free: bool
