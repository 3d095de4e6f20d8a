"""Columns of a table by some of their cells, each of which may be a number of an article, a name,
an amount of money or a count, and what their names say in words that are known.
"""

import re
import unicodedata
from collections.abc import Callable, Mapping, Sequence
from dataclasses import dataclass, field, replace
from decimal import Decimal
from functools import cached_property
from os.path import commonprefix

from labeltools.common.messages import RowError
from labeltools.sheets.cells import FORMULA_OF_TEXT
from labeltools.tables.codes import code_of, CodeRules, ZEROS_ARE_LOST
from labeltools.tables.columns import NAME_WITH_DIGITS
from labeltools.tables.money import price_or_none, read_unit_price
from labeltools.tables.name_words import column_words, words_in

# what may be the number of an article: three digits and more, but neither a date nor a count
ARTICLE = re.compile(
    r"(?!\d{1,4}[./-]\d{1,2}[./-]\d{1,4}\Z)(?=(?:.*[0-9]){3})(?:(?=.*[A-Za-z])|(?=[^.]{5}))"
    r"[\w./-]{4,30}|\S+://\S+"
)
AMOUNT = re.compile("[0-9]{1,8}(?:[.,][0-9]+)?")
ABOVE_ZERO = re.compile("[1-9]")
FEW = re.compile("[0-9]{1,2}")  # as many labels of a thing as people print at once
ERROR = re.compile("#.+|Err:.+")  # of a spreadsheet, in place of a number
FIGURES = re.compile(r"[\W_]*[0-9][\W\d_]*")  # a date or an amount, which is no name
LETTER = re.compile(r"[^\W\d_]")
LETTERS = re.compile(r"(?:[^\W\d][\W\d]*){3}")  # those that a title has
SPACE = re.compile(r"\S\s+\S")
INITIALED = re.compile(r"[^\W\d_]{1,4} [0-9]{2,8}")  # a number of a thing, as `K 201`
# a word with digits among its letters, as the number of a booking, which several tickets share
BOOKING = re.compile(r"(?=\S*[0-9])(?=\S*[^\W\d_])[^\W_]{5,12}")
TAG = re.compile(r"\s*<[a-z][^<>]*>.*", re.DOTALL | re.IGNORECASE)  # what HTML begins with
DIGITS = re.compile("[0-9]+")
FIVE_DIGITS = re.compile("(?:[0-9][^0-9]?){5}")  # an EAN-8 without its three zeros has as many
MANY = 6  # names that begin alike by no chance
LONGEST = 1000  # letters of a cell, whose kind these show
LEAST = 0.5  # the part of the cells of a column that are of its kind
MOST_CHANCE = 3  # numbers whose check digits agree by chance, all of them, in one case of 1000
EAN_OR_UPC = CodeRules()
WITH_ZEROS = CodeRules(digits=ZEROS_ARE_LOST)


@dataclass(frozen=True)
class ColumnSample:
    """A column: its name, its cells, and those words of its name that other columns have, too.
    These say nothing about what kind of price it has.
    """

    name: str
    cells: Sequence[str] = ()
    shared: frozenset[str] = frozenset()
    parts: dict[Callable[[str], object], float] = field(default_factory=dict, compare=False)

    @cached_property
    def texts(self) -> Sequence[str]:
        """Its cells that have a text."""
        return [cell for cell in self.cells if cell]

    @property
    def filled(self) -> float:
        """The part of its cells that have a text."""
        return len(self.texts) / max(1, len(self.cells))

    @cached_property
    def name_words(self) -> frozenset[str]:
        """The words of its name, in small letters without accents."""
        return frozenset(words_in(self.name))

    @cached_property
    def amounts(self) -> Sequence[Decimal | None]:
        """The amounts of money in its cells."""
        prices = map(price_or_none, self.cells)
        return [price.value if price else None for price in prices]

    def passing_part(self, test: Callable[[str], object]) -> float:
        """Returns the part of its texts that pass a test."""
        if test not in self.parts:
            passed = sum(bool(test(text)) for text in self.texts)
            self.parts[test] = passed / max(1, len(self.texts))
        return self.parts[test]

    def mostly_pass(self, test: Callable[[str], object]) -> bool:
        """Returns whether most of its texts pass a test."""
        return self.passing_part(test) >= LEAST

    @cached_property
    def has_codes(self) -> bool:
        """Whether most of its texts are EAN or UPC by their check digits."""
        if not self.mostly_pass(FIVE_DIGITS.search):  # most columns, at once
            return False
        return self.mostly_pass(is_code) or has_lost_zeros(self.texts)

    @cached_property
    def differing(self) -> float:
        """The part of its texts that are not there before, which is 1 of a column of codes."""
        return len(set(self.texts)) / max(1, len(self.texts))

    @property
    def is_running(self) -> bool:
        """Whether it has the numbers of its rows, from 1."""
        return [*self.cells] == [str(number) for number, _ in enumerate(self.cells, 1)]

    def says(self, *kinds: str) -> frozenset[str]:
        """Returns the words of its name that are in the lists of these kinds.

        >>> sorted(ColumnSample("Einkaufspreis netto, VK, Aktion").says("cost", "net"))
        ['einkaufspreis', 'netto']
        """
        known = self.words_by_kind
        return frozenset().union(*(known[kind] for kind in kinds if kind in known))

    @cached_property
    def words_by_kind(self) -> Mapping[str, frozenset[str]]:
        """The words of its name by the kinds of which they are."""
        pairs = (
            (kind, frozenset(word for word in self.name_words if known.knows(word)))
            for kind, known in column_words().items()
        )
        return {kind: words for kind, words in pairs if words}

    def is_plain(self, *kinds: str) -> bool:
        """Returns whether its name says what it is by words of these kinds alone, and has no
        number, as `Price 2`.
        """
        is_numbered = DIGITS.search(NAME_WITH_DIGITS.sub("", self.name))
        return self.name_words == self.says(*kinds) and not is_numbered


def samples_of(columns: Sequence[Sequence[str]]) -> Mapping[int, ColumnSample]:
    """Returns columns, each with its name in front, by their places, and by what is said in their
    names alone: not where all begin alike, nor the shop in `Price Main Street` and `Stock Main
    Street`, nor what a cost is of, as `Purchase rate`.
    """
    names = [name for name, *_ in columns]
    cells = [[*map(text_in, texts)] for _, *texts in columns]
    start = commonprefix([name for name in names if name])
    is_in_a_word = len(names) < MANY and start[-1:].isalpha()
    is_single_name = names.count("") == len(names) - 1
    if is_in_a_word or is_single_name:
        start = ""
    found = [ColumnSample(name[len(start) :], texts) for name, texts in zip(names, cells)]
    stocks = (column for column in found if column.says("stock"))
    shop = frozenset().union(*(stock.name_words - stock.says(*column_words()) for stock in stocks))
    named = (column for column in found if column.texts and column.says("cost"))
    costs = (column for column in named if column.mostly_pass(is_money))
    shop = shop.union(*(cost.name_words - cost.says("cost") for cost in costs))
    return {
        place: replace(column, shared=shop & column.name_words, parts={})
        for place, column in enumerate(found)
    }


def text_in(cell: str) -> str:
    """Returns the text of a cell, without spaces around it, and of `="007"` what the formula keeps;
    digits of another script are those of ASCII.

    >>> text_in(' ="007"'), text_in('<a href="x">'), text_in("٢٥")
    ('007', '<a href="x">', '25')
    """
    text = cell.strip()[:LONGEST]
    if not text.isascii():
        text = "".join(str(unicodedata.decimal(sign, sign)) for sign in text)
    kept = FORMULA_OF_TEXT.fullmatch(text)
    return kept[1] if kept else text


def is_code(text: str, rules: CodeRules = EAN_OR_UPC) -> bool:
    """Returns whether a text is surely a code, if it is read by rules; else by those of EAN and
    UPC.
    """
    try:
        return bool(code_of(text, rules))
    except RowError:
        return False


def has_lost_zeros(texts: Sequence[str]) -> bool:
    """Returns whether all numbers that are no EAN or UPC are one with zeros in front, by their
    check digits, and are so many that this is no chance.

    >>> has_lost_zeros(["72651101016", "72651101023", "72651101030", "4006381333931"])
    True
    >>> has_lost_zeros(["72651101016", "72651101023"]), has_lost_zeros(["4006381333931"])
    (False, False)
    """
    lost = {text for text in texts if not is_code(text)}
    return len(lost) >= MOST_CHANCE and all(is_code(text, WITH_ZEROS) for text in lost)


def has_letters(text: str) -> bool:
    """Returns whether a text may be a title: it has letters, and is neither a number of an article
    nor an amount of money.
    """
    if not any(map(str.isalpha, text)) or ARTICLE.fullmatch(text):
        return False
    return not is_money(text)


def is_amount(text: str) -> bool:
    """Returns whether a text may be a price."""
    return AMOUNT.fullmatch(text) is not None or is_money(text)


def is_paid(text: str) -> bool:
    """Returns whether a text may be a price that is not zero."""
    return ABOVE_ZERO.search(text) is not None and is_amount(text)


def is_charged(text: str) -> bool:
    """Returns whether a text may be a price that is not zero, or an error in place of one."""
    return ERROR.fullmatch(text) is not None or is_paid(text)


def has_currency(text: str) -> bool:
    """Returns whether a text is a price with a currency."""
    price = price_or_none(text)
    return price is not None and price.currency != ""


def has_unit(text: str) -> bool:
    """Returns whether a text is the price of a unit, as 7,96 €/kg.

    >>> has_unit("7,96 €/kg"), has_unit("1 kg = 7,96 €"), has_unit("7,96 €")
    (True, True, False)
    """
    price = price_or_none(text, read_unit_price)
    return price is not None and (price.unit or price.basis) != ""


def is_money(text: str) -> bool:
    """Returns whether a text is a price with two decimals or a currency."""
    price = price_or_none(text)
    return price is not None and (price.decimals == 2 or price.currency != "")
