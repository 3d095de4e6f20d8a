"""Variants of an article, as programs of shops export them: the first row has its title, and those
of the other sizes and colours have none.
"""

from collections.abc import Sequence
from contextlib import suppress
from dataclasses import dataclass, field

from labeltools.common.messages import Problem, quoted, RowError
from labeltools.common.text import Text
from labeltools.sheets.rows import Row
from labeltools.tables.columns import Column
from labeltools.tables.findings import Findings


@dataclass
class Variants:
    """The titles of articles, of some columns, each with its row, by what their variants have in
    common.
    """

    columns: Sequence[Column]
    findings: Findings
    titles: dict[str, tuple[int, str]] = field(default_factory=dict)

    def see_title(self, variants_of: Column, row: Row) -> None:
        """Keeps the title of a row, if it is the first one of its article that has one."""
        with suppress(RowError):  # which leaves out that row alone
            key = variants_of.compared_text(row)
            texts = [column.printed_text(row) for column in self.columns]
            if key and key not in self.titles and any(texts):
                self.titles[key] = row.number, "\n".join(filter(None, texts))

    def title(self, variants_of: Column, row: Row) -> str:
        """Returns the title of the first row of an article; empty if it has none. Raises
        `RowError`.
        """
        first, title = self.titles.get(variants_of.compared_text(row), (0, ""))
        if title:
            what = Text("row {} has the title of row {}, {}", row.number, first, quoted(title))
            self.findings.see(variants_of, Problem(what))
        return title
