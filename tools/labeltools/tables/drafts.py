"""What becomes of a row of a table: its code, its texts, and its prices as they are read."""

import re
from dataclasses import dataclass, replace
from decimal import Decimal
from typing import Mapping, NamedTuple, Sequence

from labeltools.common.column_names import name_of
from labeltools.common.messages import Problem, quoted, Remedy, RowError
from labeltools.common.text import Text
from labeltools.lines.symbologies import SYMBOLOGIES
from labeltools.sheets.cells import DATA, DIGITS, PRICE
from labeltools.sheets.encoding import twice_encoded
from labeltools.sheets.number_format import EXACT
from labeltools.sheets.rows import Row
from labeltools.tables.codes import Code, code_of, CodeRules, is_in_brackets, symbology_named
from labeltools.tables.columns import Column
from labeltools.tables.findings import Findings, HAS_DIGIT
from labeltools.tables.money import (
    ARITHMETIC,
    IS_RIGHT,
    LOOK_OF_PRICES,
    Money,
    MOST_DECIMALS,
    MOST_LOST,
    NotMoney,
    Price,
    PROGRAM_DECIMALS,
    read_price,
    read_unit_price,
)
from labeltools.tables.name_words import column_words, folded
from labeltools.tables.price_words import currency_of, currency_remedy, plain_signs
from labeltools.tables.table_options import Columns, TableOptions
from labeltools.tables.variants import Variants

OWN_TABLE = Text("make it a table of its own")
ZERO_HINT = Text("it is a zero, which its number format shows like this")
HALF = Decimal("0.5")
KIND_OF_CODES = re.compile(
    r"(?:EAN|GTIN|UPC|ISBN|JAN)(?:[- ]?(?:[0-9]{1,2}|code|A|E))?", re.IGNORECASE
)
MONTH = re.compile(r"(?:[1-9]|1[0-2])\.(?:19|20)[0-9]{2}")  # 12.2026, of which Excel makes a date
MONTH_HINT = Text("if it is none, choose how prices are printed")
MONTH_LENGTHS = (6, 7)
SHOWN_DECIMALS = Decimal("0.000001")  # of the number of a cell, in a message


class Draft(NamedTuple):
    """A row with a right code: its label, before its prices are written; these are the price, the
    price of a unit, and the old price. `currency` is that of the row, None where the table has no
    column of them.
    """

    code: Code
    row: int
    title: str
    texts: Mapping[str, str]
    copies: int
    prices: Sequence[Price]
    currency: str | None


@dataclass
class DraftReader:
    """Reads rows that are not blank."""

    options: TableOptions
    columns: Columns[Column]
    names: tuple[str, ...]
    findings: Findings
    variants: Variants
    right_codes: int = 0
    other_names: int = 0  # the row that names other columns, or the same in other places

    def draft(self, row: Row) -> Draft | None:
        """Returns what becomes of a row, None where it is not marked; raises `RowError`."""
        if row.problem:
            raise row.problem
        place = self.columns.code.place
        cell = row.cells[place] if place < len(row.cells) else ""
        typed = cell if isinstance(cell, str) else cell.value
        may_be_names = not typed.isdigit() or typed == self.columns.code.header
        if may_be_names or self.other_names:  # few rows
            self.refuse_names(row)
        columns = self.columns
        if columns.variants_of:
            self.variants.see_title(columns.variants_of, row)
        if not all(column.has_value(row, value) for column, value in columns.where):
            return None
        code = self.row_code(row)
        self.right_codes += 1
        title = "\n".join(self.texts(columns.title, row, code).values())
        if columns.variants_of and not title:
            title = self.variants.title(columns.variants_of, row)
        texts = self.texts(columns.text, row, code)
        currency = self.row_currency(columns.currency, row) if columns.currency else None
        copies = columns.copies.copies(row) if columns.copies else 1
        prices = [
            self.row_price(column, row, currency) if column else "" for column in columns.prices
        ]
        return Draft(code, row.number, title, texts, copies, prices, currency)

    def refuse_names(self, row: Row) -> None:
        """Raises `RowError` for a row that has the names of the columns again, and for one that
        names others, with all rows below it: these are another table.
        """
        if self.other_names:
            what = Text("the row is below row {}, which names other columns", self.other_names)
            raise RowError(what, OWN_TABLE)
        typed = (cell if isinstance(cell, str) else cell.value for cell in row.cells)
        texts = [name_of(cell) if cell else "" for cell in typed]
        if is_repeated(texts, self.names):
            raise RowError(Text("the row has the names of the columns again"))
        if self.names_others(texts):
            self.other_names = row.number
            raise RowError(Text("the row names other columns than the first one"), OWN_TABLE)

    def names_others(self, texts: Sequence[str]) -> bool:
        """Returns whether half of the texts of a row are names of columns, and one that is asked
        for is in another place, or has another name in its place. A row whose code is the name of
        its column, or of codes, names others, too, where no other text has digits.
        """
        place = self.columns.code.place
        code, *others = (*texts[place : place + 1], *texts[:place], *texts[place + 1 :])
        if not self.names:
            return False
        is_name = bool(code) and (code == self.columns.code.header or is_name_of_codes(code))
        if is_name:
            return any(others) and not any(map(HAS_DIGIT.search, others))
        named = sum(text in self.names for text in texts if text)
        are_few = named < 2 or 2 * named < sum(map(bool, texts))
        if are_few:
            return False
        for column in self.columns.asked:
            text = texts[column.place] if column.place < len(texts) else ""
            if text != column.header and (text or column.header in texts):
                return True
        return False

    def row_code(self, row: Row) -> Code:
        """Returns the code of a row; raises `RowError`."""
        rules = self.options.codes
        if self.columns.symbology:
            rules = rules_in(self.columns.symbology, row, rules)
        column = self.columns.code
        text = column.taken(row, DATA if rules.is_free else DIGITS)
        if not text.strip():
            raise column.cell_error(RowError(Text("is empty")))
        if rules.is_free and (link := (row.links or {}).get(column.place)):
            text = self.linked(row, text, link)
        code = code_of(text, rules)
        if rules.is_free and is_in_brackets(code.data):
            what = Text(
                "the code of row {} is GS1's in brackets, which is drawn as plain text", row.number
            )
            self.findings.see(column, Problem(what, Text("no scanner of GS1 takes it")))
        if self.options.settings and (wrong := self.options.wrong_setting(code.symbology)):
            raise RowError(Text("{} has no setting {}", SYMBOLOGIES[code.symbology].title, wrong))
        return code

    def linked(self, row: Row, text: str, link: str) -> str:
        """Returns the address that a cell leads to, where that was asked for, or else its text."""
        if self.options.links:
            return link
        if link != text:
            what = Text("the code of row {} is a text that leads to an address", row.number)
            remedy = Remedy("links", says=Text("draw the address"))
            self.findings.see(self.columns.code, Problem(what, remedies=(remedy,)))
        return text

    def texts(self, columns: Sequence[Column], row: Row, code: Code) -> dict[str, str]:
        """Returns the texts of columns that are not empty, by their names; that of the codes gives
        the code, with all its digits.
        """
        found = {}
        for column in columns:
            is_code = column.place == self.columns.code.place
            if is_code:
                found[column.name] = code.whole
            elif text := column.printed_text(row):
                self.check_text(column, row, text)
                found[column.name] = text
        return found

    def check_text(self, column: Column, row: Row, text: str) -> None:
        """Looks at a title or text; raises `RowError` for one that was encoded twice."""
        if not text.isascii() and (before := twice_encoded(text)) != text:
            what = Text("has {}, which was encoded twice, for {}", quoted(text), quoted(before))
            raise column.cell_error(RowError(what, Text("export the table again")))
        self.findings.see_text(column, row.number, text)

    def check_shown_price(self, column: Column, row: int, money: Money, number: Decimal) -> None:
        """Looks at a price that is the number of a cell; raises `RowError` where it is shown as
        another one. Rounded to two decimals or more it is the same price. What is no rounding, as
        digits that its format adds, is another one.
        """
        if money.currency == "cent":
            return
        lost = abs(money.value - number)
        if lost <= ARITHMETIC:  # most prices, at once
            return
        value = format(number.quantize(SHOWN_DECIMALS, context=EXACT).normalize(), "f")
        most = min(abs(number) * MOST_LOST, HALF.scaleb(-money.decimals) + ARITHMETIC)
        if lost > most:
            what = Text("is shown as {}, and its value is {}", quoted(money.text), value)
            hint = Text("give it a number format of two decimals")
            raise column.cell_error(RowError(what, hint))
        if money.decimals < 2:
            what = Text("row {} shows the price {}, and its value is {}", row, money.text, value)
            self.findings.see(column, Problem(what))

    def row_currency(self, column: Column, row: Row) -> str:
        """Returns the currency of a row, which may be empty; raises `RowError`."""
        found = column.compared_text(row)
        if any(letter.isdigit() for letter in found):
            what = Text("has {}, which is not a currency", quoted(found))
            raise column.cell_error(RowError(what, Text("write it as EUR or €")))
        is_known = currency_of(plain_signs(found), self.options.prices.currency_name) is not None
        if found and not is_known:
            what = Text("row {} has the currency {}, which is not known", row.number, quoted(found))
            self.findings.see(column, Problem(what, IS_RIGHT, (currency_remedy(found),)))
        return found

    def row_price(self, column: Column, row: Row, currency: str | None) -> Price:
        """Returns the price of a column; raises `RowError`."""
        text = column.taken(row, PRICE).strip().replace("\t", " ")
        if not text:
            return ""
        cell = row.cells[column.place]
        number = None if isinstance(cell, str) else cell.number
        rules = self.options.prices
        try:
            may_be_month = number is None and len(text) in MONTH_LENGTHS and MONTH.fullmatch(text)
            if may_be_month and not (rules.is_text or rules.pattern):
                raise NotMoney(Text("may be a month"), MONTH_HINT, remedies=(LOOK_OF_PRICES,))
            is_unit = column is self.columns.unit_price
            price = self.price_of(text, is_unit, currency or rules.currency_name)
        except NotMoney as problem:
            what = Text("has {}, which is not a price: it {}", quoted(text), problem.what)
            is_zero = not isinstance(cell, str) and cell.value and not cell.value.strip("0.")
            error = RowError(what, ZERO_HINT) if is_zero else problem.saying(what)
            raise column.cell_error(error) from None
        if isinstance(price, str) or number is None:
            return price
        price = price.nearest_to(number)
        self.check_shown_price(column, row.number, price, number)
        return price

    def price_of(self, text: str, is_unit: bool, currency: str) -> Price:
        """Returns the price that a text is; raises `NotMoney`."""
        rules = self.options.prices
        if rules.is_text:
            if not any(map(str.isalnum, text)):
                raise NotMoney(Text("has neither a letter nor a digit"))
            return text
        most = PROGRAM_DECIMALS if rules.pattern else MOST_DECIMALS
        if is_unit:
            return read_unit_price(text, currency, most)
        return read_price(text, currency, most)


def is_repeated(texts: Sequence[str], names: Sequence[str]) -> bool:
    """Returns whether the texts of a row are the names again, as lists have them on each page.

    Two texts at least have to be the same.

    >>> names = ["EAN", "Name", "Preis"]
    >>> is_repeated(["EAN", "Name", ""], names), is_repeated(["EAN", "Pen", "1"], names)
    (True, False)
    """
    filled = [(text, name) for text, name in zip(texts, names) if text]
    return len(filled) > 1 and all(text == name for text, name in filled)


def is_name_of_codes(text: str) -> bool:
    """Returns whether columns of codes are called so.

    >>> is_name_of_codes("GTIN-13"), is_name_of_codes("Código de barras"), is_name_of_codes("A-1")
    (True, True, False)
    """
    if KIND_OF_CODES.fullmatch(text):
        return True
    word = folded(text).replace(" ", "")
    return not HAS_DIGIT.search(text) and column_words()["codes"].knows(word)


def rules_in(column: Column, row: Row, rules: CodeRules) -> CodeRules:
    """Returns how the code of a row is read whose symbology is in a column, as `EAN-13` or `qr`; if
    its cell is empty, it is that of the rules. Raises `RowError`.
    """
    text = column.compared_text(row)
    found = symbology_named(text) if text else rules.symbology
    if not found:
        listed = ", ".join(kind.title for kind in SYMBOLOGIES.values())
        what = Text("has {}, which is not a symbology", quoted(text))
        raise column.cell_error(RowError(what, Text("it is one of {}", listed)))
    of_row = replace(rules, symbology=found)
    return replace(of_row, digits="") if of_row.is_free else of_row
