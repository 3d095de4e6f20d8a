"""What is said of a table at its end, by one list of rules: what many rows have is said once, and
some things only all rows together say.
"""

import re
from collections.abc import Callable, Iterator, Sequence
from dataclasses import dataclass, field, replace

from labeltools.common.messages import Problem, quoted, Remedy, Talk
from labeltools.common.report import listed
from labeltools.common.text import counted, NOTHING, Text
from labeltools.lines.file import Record
from labeltools.lines.reasons import has_accents, said_of_accents
from labeltools.sheets.number_format import Formatter, OTHER_DATES
from labeltools.tables.codes import Code
from labeltools.tables.columns import Column
from labeltools.tables.money import is_above, Money, Price
from labeltools.tables.price_words import PRICE_WORDS
from labeltools.tables.prices import IN_CENTS, measure_of, PriceColumn, USUAL_DECIMALS
from labeltools.tables.summary import rows_text, Totals
from labeltools.tables.table_options import Columns, TableOptions

# what programs write in the place of a letter or a quote
ESCAPED = re.compile(r"\\(?:u[0-9a-f]{4}|x[0-9a-f]{2}|[\"'/])|(?<!\w)\"\"\w", re.IGNORECASE)
HTML = re.compile("</?[a-z][^<>]*>|&(?:[a-z]{2,8}|#[0-9]{1,6});", re.IGNORECASE)
QUOTES = frozenset("'\"`")
AS_IT_IS = Text("it is printed as it is")
SUMS = PRICE_WORDS["sums"]  # what is in front of a sum below a table
HAS_DIGIT = re.compile("[0-9]")


@dataclass
class Findings:
    """What was found in the rows of a table so far.

    `seen` is what is said once, by its wording and its column: what is said of the first row that
    is so, and how many rows are so. `prices` are the columns of the price, the price of a unit
    and the old price. Of texts `bare` are the places of the columns that have one without quotes,
    and `in_quotes` the rows and texts of the others, as long as there is none.
    """

    options: TableOptions
    columns: Columns[Column]
    formatter: Formatter
    prices: Sequence[PriceColumn]
    totals: Totals = field(default_factory=Totals)
    unchanged: int = 0
    hidden: int = 0
    seen: dict[tuple[str, int], tuple[Problem, int]] = field(default_factory=dict)
    filled: set[str] = field(default_factory=set)  # columns of texts
    words: dict[int, str] = field(default_factory=dict)  # codes without a digit, by their rows
    accents: dict[int, str] = field(default_factory=dict)  # QR codes beyond ASCII, by their rows
    without_title: list[int] = field(default_factory=list)
    without_price: list[int] = field(default_factory=list)
    bare: set[int] = field(default_factory=set)
    in_quotes: dict[int, tuple[Column, list[tuple[int, str]]]] = field(default_factory=dict)

    def see(self, column: Column, problem: Problem) -> None:
        """Sees something in a row that is said once of a column, though many rows are so."""
        kind = problem.what.template, column.place
        first, rows = self.seen.get(kind, (problem, 0))
        self.seen[kind] = first, rows + 1

    def see_text(self, column: Column, row: int, text: str) -> None:
        """Looks at a text, which is not empty: another program may have escaped it, and it would be
        printed as it is.
        """
        if ("<" in text or "&" in text) and HTML.search(text):
            what = Text("row {} has {}, as programs write it", row, quoted(text))
            self.see(column, Problem(what, AS_IT_IS))
        elif ("\\" in text or '""' in text) and ESCAPED.search(text):
            what = Text("row {} has {}, which a program has escaped", row, quoted(text))
            self.see(column, Problem(what, AS_IT_IS))
        if column.place in self.bare:
            return
        if text[0] not in QUOTES or text[0] != text[-1] or len(text) < 3:
            self.bare.add(column.place)
        else:
            self.in_quotes.setdefault(column.place, (column, []))[1].append((row, text))

    def see_prices(self, row: int, prices: Sequence[Price], currency: str) -> None:
        """Looks at the price of a row, the price of a unit, and the old price."""
        for price, column, of_column in zip(prices, self.columns.prices, self.prices):
            if column and isinstance(price, Money):
                of_column.add_price(price, currency)
                if not price.value or price.decimals not in USUAL_DECIMALS:
                    self.see_odd_price(column, row, price)
        now, _, was = prices
        if not (isinstance(now, Money) and isinstance(was, Money)) or is_above(was, now):
            return
        what = Text("row {} has the old price {}, below the price {}", row, was.text, now.text)
        if was.text == now.text:
            what = Text("row {} has {} as the old price and as the price", row, was.text)
        if self.columns.old_price:
            self.see(self.columns.old_price, Problem(what))

    def see_odd_price(self, column: Column, row: int, price: Money) -> None:
        """Looks at a price that is zero, or has as many decimals as a program's number has."""
        if not price.value:
            self.see(column, Problem(Text("row {} has the price {}", row, price.text)))
        is_shown = self.options.prices.pattern or price.unit or price.is_open
        if not is_shown and price.decimals not in USUAL_DECIMALS:
            what = Text("row {} has {}, as programs write prices", row, price.text)
            pattern = f"0{price.point}00 ¤" if price.currency else f"0{price.point}00"
            remedy = Remedy("price-as", pattern, Text("print two decimals"))
            self.see(column, Problem(what, remedies=(remedy,)))

    def count_label(self, record: Record, code: Code, price: Price) -> None:
        """Counts a label that is written."""
        self.filled.update(record.names)
        self.totals.count_row(code.symbology, record.copies)
        if isinstance(price, Money):
            self.totals.count_price(price.value, record.price)
        if not HAS_DIGIT.search(code.data):
            self.words[record.row] = code.data
        if has_accents(code.symbology, code.data):
            self.accents[record.row] = code.data
        if not record.title:
            self.without_title.append(record.row)
        if not record.price:
            self.without_price.append(record.row)

    def say_all(self, talk: Talk) -> None:
        """Says all that there is to say about the whole table."""
        for rule in RULES:
            for problem in rule(self):
                talk.say(problem)


def missing_texts(found: Findings) -> Iterator[Problem]:
    """Yields which rows have no title or no price."""
    rows, labels = found.without_title, found.totals.rows
    if found.columns.title and rows:
        named = listed(rows), share_of_labels(labels, rows)
        what = counted("{1} has no title ({2})", "{1} have no title ({2})", len(rows), *named)
        yield Problem(what)
    rows = found.without_price
    if found.columns.price and rows:
        named = listed(rows), share_of_labels(labels, rows)
        what = counted("{1} has no price ({2})", "{1} have no price ({2})", len(rows), *named)
        yield Problem(what)


def share_of_labels(labels: int, rows: Sequence[int]) -> Text:
    """Returns how many of the labels some rows are."""
    return counted("{1} of {0} label", "{1} of {0} labels", labels, len(rows))


def currencies_and_measures(found: Findings) -> Iterator[Problem]:
    """Yields which columns have several currencies, cents, or prices of many articles; the last two
    are known by their names.
    """
    for column, prices in zip(found.columns.prices, found.prices):
        if len(prices.currencies) > 1:
            currencies = ", ".join(sorted(prices.currencies))
            yield Problem(Text("the prices have several currencies: {}", currencies))
        measure = measure_of(column.name) if column else NOTHING
        is_of_unit = column is found.columns.unit_price
        is_meant = prices.are_bare if measure is IN_CENTS else not is_of_unit
        if column and measure and is_meant:
            what = Text(
                "the name of {} says {}, but its prices are printed as they are",
                column.title,
                measure,
            )
            yield Problem(what, Text("make a column with the price of one article, such as 1.20"))


def codes_without_digits(found: Findings) -> Iterator[Problem]:
    """Yields which codes have no digit, if three of four others have one, or one is of a sum."""
    words = found.words
    is_sum = any(word.strip(" :").casefold() in SUMS for word in words.values())
    are_few = 4 * len(words) <= found.totals.rows
    is_only_a_sum = is_sum and len(words) == 1
    if words and (are_few or is_only_a_sum):
        rows, first = listed(list(words)), quoted(next(iter(words.values())))
        what = Text("the code of {}, {}, has no digit, and others have", rows, first)
        yield Problem(what, Text("if it is not a code, delete the row"))


def codes_with_accents(found: Findings) -> Iterator[Problem]:
    """Yields which QR codes some scanners show wrongly."""
    if found.accents:
        rows = listed(list(found.accents))
        yield Problem(said_of_accents(rows, found.accents.values()))


def seen_in_rows(found: Findings) -> Iterator[Problem]:
    """Yields what was seen in rows, each once, with the number of the rows that are so."""
    for first, rows in found.seen.values():
        what = Text("{} ({})", first.what, rows_text(rows))
        yield replace(first, what=what) if rows > 1 else first


def columns_in_quotes(found: Findings) -> Iterator[Problem]:
    """Yields which columns have each text in quotes."""
    for place, (column, texts) in found.in_quotes.items():
        if len(texts) > 1 and place not in found.bare:
            row, text = texts[0]
            where = column.title, text, row
            yield Problem(Text("each text in {} is in quotes, as {} in row {}", *where), AS_IT_IS)


def passed_rows(found: Findings) -> Iterator[Problem]:
    """Yields how many rows are passed: those that are hidden, and those that have not changed."""
    if found.hidden:
        what = counted(
            "{} hidden row is not printed", "{} hidden rows are not printed", found.hidden
        )
        yield Problem(what, remedies=(Remedy("hidden", says=Text("print hidden rows too")),))
    if found.unchanged:
        what = counted(
            "{} row has not changed, and is not printed",
            "{} rows have not changed, and are not printed",
            found.unchanged,
        )
        yield Problem(what)


def shown_numbers(found: Findings) -> Iterator[Problem]:
    """Yields how numbers and dates of .xlsx are printed, where the file does not say it."""
    number, date = found.formatter.first_number, found.formatter.first_date
    is_given = found.options.file.decimal is not None or found.options.prices.pattern
    if number and not is_given:
        looks = {"comma": ".,", "point": ",."}
        remedies = (
            Remedy("decimal", sign, Text("{}", number.replace(*signs)))
            for sign, signs in looks.items()
        )
        what = Text("numbers are printed as {}", quoted(number))
        yield Problem(what, Text("how should numbers look?"), tuple(remedies))
    if date and not found.formatter.date_as:
        yield Problem(Text("dates are printed as {}", quoted(date)), remedies=(OTHER_DATES,))


# what is said of a table, in this order
RULES: Sequence[Callable[[Findings], Iterator[Problem]]] = (
    missing_texts,
    currencies_and_measures,
    codes_without_digits,
    codes_with_accents,
    seen_in_rows,
    columns_in_quotes,
    passed_rows,
    shown_numbers,
)
