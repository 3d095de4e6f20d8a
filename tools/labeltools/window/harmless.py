"""Which remedies leave the rows alone that are right without them: a window offers no others."""

import re
from collections.abc import Callable, Mapping, Sequence
from dataclasses import replace

from labeltools.common.messages import Remedy, RowError
from labeltools.lines.file import Record
from labeltools.tables.codes import AUTO, code_of, FILL_ZEROS
from labeltools.tables.money import ANY_TEXT, PROGRAM_DECIMALS, read_price
from labeltools.tables.prices import PricePattern
from labeltools.tables.table_options import TableOptions

# remedies that only add rows, or answer how cells are read, which only the keeper knows
HARMLESS = frozenset("allow-zeros currency-name date-as decimal encoding hidden links".split())
LAST_ZEROS = re.compile(r"\.0+(?![0-9])|(?<=\.[0-9])0+(?![0-9])")


def keeps_good_rows(remedy: Remedy, good: Sequence[Record], options: TableOptions) -> bool:
    """Returns whether each label that options make keeps its code, its texts, and prices of the
    same value with a remedy. One without a rule does not.
    """
    rule = RULES.get(remedy.option)
    is_kept = rule is not None and rule(remedy, good, options)
    return not good or remedy.option in HARMLESS or is_kept


def keeps_kinds(remedy: Remedy, good: Sequence[Record], options: TableOptions) -> bool:
    """Returns whether codes are of a kind already, or found to be of theirs."""
    if not remedy.is_less and remedy.value != AUTO:
        return {label.symbology for label in good} == {remedy.value}
    rules = replace(options.codes, symbology=AUTO)
    try:
        found = [code_of(label.data.decode(), rules).symbology for label in good]
    except RowError:
        return False
    return found == [label.symbology for label in good]


def keeps_prices(remedy: Remedy, good: Sequence[Record], options: TableOptions) -> bool:
    """Returns whether prices are the same by a pattern, but for zeros at their end; or, where they
    may be any text, are printed as the table has them already.
    """
    if remedy.value == ANY_TEXT.value:
        return options.prices.pattern is None and options.columns.currency is None
    return all(
        worth_of_price(price) == worth_of_price(price_by(remedy.value, price))
        for label in good
        for price in filter(None, (label.price, label.unit, label.was))
    )


def price_by(pattern: str, price: str, currency: str = "") -> str:
    """Returns a price as a pattern writes it, with its currency; nothing if it is none."""
    try:
        money = read_price(price, most_decimals=PROGRAM_DECIMALS)
        return PricePattern.from_text(pattern).write(money, currency)
    except RowError:
        return ""


RULES: Mapping[str, Callable[[Remedy, Sequence[Record], TableOptions], bool]] = {
    "digits": lambda remedy, _good, _options: remedy == FILL_ZEROS,
    "price-as": keeps_prices,
    "symbology": keeps_kinds,
}


def worth_of_price(price: str) -> str:
    """Returns a price without what is only its look: its decimal sign, spaces, zeros at its end.

    >>> [worth_of_price(price) for price in ("1,5 €", "1.50 €", "20", "20,00")]
    ['1.5€', '1.5€', '20', '20']
    """
    return LAST_ZEROS.sub("", re.sub(r"\s", "", price).replace(",", "."))
