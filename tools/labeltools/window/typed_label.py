"""One label that is typed, without a table: it becomes a table of one row."""

import csv
import io
from typing import TYPE_CHECKING

from labeltools.common.language import _
from labeltools.window import memory
from labeltools.window.gtk import confirmed

if TYPE_CHECKING:
    from labeltools.window.window import Window

NAMES = ("Code", "Title", "Price", "Labels")  # of the columns, which are known as such


def ask_for_label(window: "Window") -> None:
    """Asks what is on a label, and opens it as a table."""
    entries = window.widgets.one_code, window.widgets.one_title, window.widgets.one_price
    window.widgets.one_copies.set_range(1, 9999)
    window.widgets.one_code.grab_focus()
    if confirmed(window.widgets.typing) and entries[0].get_text().strip():
        texts = [entry.get_text().strip() for entry in entries]
        rows = io.StringIO()
        copies = window.widgets.one_copies.get_value_as_int()
        csv.writer(rows, delimiter=";").writerows([NAMES, [*texts, copies]])
        path = memory.FOLDER / f"{_('One label')}.csv"
        memory.write_own(path, rows.getvalue().encode())
        window.open_table(path)
