"""What the keeper sees at the end: how many labels of what, the lowest and the highest price and
count.
"""

from collections import Counter
from dataclasses import dataclass, field
from decimal import Decimal

from labeltools.common.text import counted, joined, Text
from labeltools.lines.symbologies import SYMBOLOGIES

NO_BREAK = "\u00a0"
NUMBER = "0123456789.,'’- \u00a0\u202f–"  # what a price without a currency has


@dataclass
class Totals:
    """What a summary is made of: what was counted of the labels so far."""

    symbologies: Counter[str] = field(default_factory=Counter)
    labels: int = 0
    copies: set[int] = field(default_factory=set)
    lowest: tuple[Decimal, str] | None = None
    highest: tuple[Decimal, str] | None = None
    prices: int = 0
    bare: int = 0  # prices without a currency
    left_out: int = 0

    @property
    def rows(self) -> int:
        """How many rows were counted."""
        return self.symbologies.total()

    def count_row(self, symbology: str, copies: int) -> None:
        """Counts a row."""
        self.symbologies[symbology] += 1
        self.labels += copies
        self.copies.add(copies)

    def count_price(self, value: Decimal, text: str) -> None:
        """Counts a price by its value, and as it is printed."""
        self.prices += 1
        self.bare += not text.strip(NUMBER)
        if self.lowest is None or value < self.lowest[0]:
            self.lowest = (value, text)
        if self.highest is None or value > self.highest[0]:
            self.highest = (value, text)


def summary_line(totals: Totals, space: str = " ") -> Text:
    """Returns the summary, on one line; prices have this space, so that a window, which wraps the
    line, cuts none of them.

    >>> totals = Totals(left_out=1)
    >>> totals.count_row("ean13", 1)
    >>> totals.count_row("ean13", 3)
    >>> totals.count_price(Decimal("0.8"), "0,80 €")
    >>> totals.count_price(Decimal(12), "12,00 €")
    >>> summary_line(totals)
    '4 labels from 2 rows: 2 EAN-13; prices 0,80 € to 12,00 €; copies 1 to 3; 1 row skipped'
    """
    rows = totals.rows
    found = totals.symbologies.most_common()
    counts = ", ".join(f"{count} {SYMBOLOGIES[name].title}" for name, count in found)
    parts: list[Text] = [Text("{}: {}", labels_from(totals.labels, rows), counts or Text("none"))]
    if totals.lowest and totals.highest:
        ends = totals.lowest[1], totals.highest[1]
        lowest, highest = (price.replace(" ", space) for price in ends)
        parts.append(said_of_prices(lowest, highest, totals.prices, rows))
    if totals.bare:
        bare = counted("{} price without a currency", "{} prices without a currency", totals.bare)
        parts.append(bare)
    if totals.copies - {1}:
        least, most = min(totals.copies), max(totals.copies)
        is_same = least == most
        parts.append(Text("copies {}", least) if is_same else Text("copies {} to {}", least, most))
    if totals.left_out:
        parts.append(skipped(totals.left_out))
    return joined("; ", parts)


def skipped(count: int) -> Text:
    """Returns how many rows are left out."""
    return counted("{} row skipped", "{} rows skipped", count)


def labels_from(labels: int, rows: int) -> Text:
    """Returns how many labels come from how many rows."""
    return counted("{} label from {}", "{} labels from {}", labels, rows_text(rows))


def said_of_prices(lowest: str, highest: str, count: int, rows: int) -> Text:
    """Returns the lowest and the highest price, and in how many rows there are prices."""
    is_same = lowest == highest
    text = Text("price {}", lowest) if is_same else Text("prices {} to {}", lowest, highest)
    return text if count == rows else Text("{} in {}", text, rows_text(count))


def rows_text(count: int) -> Text:
    """Returns a number of rows."""
    return counted("{} row", "{} rows", count)
