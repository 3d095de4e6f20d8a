"""Facts about the columns of a table, which no evidence outweighs: what a column may be at all, by
its cells and by its name, and what amounts prove about each other, such as that one has a tax more.
"""

from collections.abc import Collection, Mapping, Sequence, Set
from decimal import Decimal

from labeltools.tables.column_samples import (
    ARTICLE,
    BOOKING,
    ColumnSample,
    DIGITS,
    ERROR,
    has_currency,
    has_letters,
    INITIALED,
    is_amount,
    is_charged,
    is_money,
    is_paid,
    LEAST,
    LETTER,
    LETTERS,
    SPACE,
    TAG,
)
from labeltools.tables.price_words import PRICE_WORDS

CODE, TITLE, PRICE = ROLES = ("code", "title", "price")
CODES = ("codes", "own-numbers")
TITLES = ("titles", "parts", "articles", "descriptions")
NO_PRICES = ("cost", "old", "net", "totals")  # what no customer pays
LEAST_ROWS = 5  # of texts that are different by no chance
PAID = ("prices", "taxed", "paid", "sold", "currencies", "beside-prices")  # of a plain price
Samples = Mapping[int, ColumnSample]
RATES = [1 + Decimal(rate) / 100 for rate in PRICE_WORDS["tax-rates"]]
MOST_RATES = 2  # of a tax in a table, beside zero
MOST_WRONG = Decimal("0.2")  # part of the amounts with a tax that somebody typed wrong
ROUNDED_OFF = Decimal("0.012")  # what rounding may change in a price
PART_OF_PRICE = Decimal("0.0001")  # which part of a high price it may change
LAST_DIGITS = (0, 5, 9)  # of the prices of shops, in cents
LEAST_PAID = Decimal("0.67")  # what customers pay of what the maker advises
MOST_MARGIN = 3  # times the cost
STEPS = 20  # in which shops reduce or raise prices: by multiples of 5 %
Pairs = Set[tuple[Decimal, Decimal]]


def may_be_code(column: ColumnSample) -> bool:
    """Returns whether a column may have the codes: EAN or UPC by their check digits, numbers that
    are named as codes, and numbers of articles, another one in each row. A number that all rows
    share is none.
    """
    texts = column.texts
    is_shared = len(texts) > 1 and len(set(texts)) == 1
    if not texts or is_shared:
        return False
    if column.has_codes:
        return True
    if column.mostly_pass(is_money):
        return False
    if column.says("codes") and column.mostly_pass(DIGITS.search):
        return True
    if column.differing < 1:
        return False
    if column.mostly_pass(ARTICLE.fullmatch):
        return True
    is_named = bool(column.says("numbers", *CODES))
    may_be_number = column.mostly_pass(DIGITS.search) or not column.says("articles")
    is_parted = column.mostly_pass(SPACE.search)
    is_own = bool(column.says("own-numbers")) and column.mostly_pass(INITIALED.fullmatch)
    return is_named and may_be_number and (is_own or not is_parted)


def is_of_other(column: ColumnSample) -> bool:
    """Returns whether a name says that it has numbers of something else than articles."""
    others = column.says("others") - column.says("beside-codes", "ids")
    return bool(others) and not column.says("own-numbers")


def is_of_books(column: ColumnSample) -> bool:
    """Returns whether a name says that it has the numbers of books, and of nothing else."""
    return bool(column.says("books")) and column.says("codes") <= column.says("books")


def may_be_title(column: ColumnSample) -> bool:
    """Returns whether a column may have the title: texts, neither HTML nor of a number, a stock or
    something else by their name, and another text in most rows or named as titles. What is plainly
    named so may look like numbers, as the names of computers do.
    """
    if is_plain_name(column):
        return True
    others = column.says("others", "stock", "numbers", "own-numbers")
    if others - column.says("articles", "beside-titles"):
        return False
    if column.mostly_pass(BOOKING.fullmatch) and not column.says(*TITLES):
        return False
    is_price = column.says("prices") and not column.says("titles")
    if is_price or column.mostly_pass(TAG.fullmatch):
        return False
    differs = column.differing >= LEAST and column.mostly_pass(LETTERS.search)
    return column.mostly_pass(has_letters) and (differs or bool(column.says("titles", "articles")))


def are_different_texts(column: ColumnSample) -> bool:
    """Returns whether each row has another text, whatever the column is called."""
    is_whole = column.filled == column.differing == 1 and len(column.texts) >= LEAST_ROWS
    return is_whole and column.passing_part(has_letters) == 1 and column.mostly_pass(LETTERS.search)


def is_plain_name(column: ColumnSample) -> bool:
    """Returns whether a column is plainly named as names, and each cell is another one."""
    is_named = bool(column.says("titles")) and column.is_plain("titles", "beside-titles")
    return is_named and column.differing == 1 and column.mostly_pass(LETTER.search)


def may_be_amounts(column: ColumnSample) -> bool:
    """Returns whether a column may have prices, one at least that is not zero; one of which the
    name says no more may be empty, or have errors in place of them.
    """
    if column.says("stock") - column.says("prices", "priced") - column.shared:
        return False
    if is_weight(column):
        return False
    has_price = column.passing_part(is_paid) > 0
    if column.says("prices", "priced"):
        has_no_amounts = not column.texts or column.mostly_pass(ERROR.fullmatch)
        return has_price or has_no_amounts and column.is_plain(*PAID)
    is_number = column.says("others", "numbers", "codes", "own-numbers", "copies")
    is_named = column.says("paid", "sold", "taxed", "currencies", "cost", "net", "old", "sale")
    may_be = bool(is_named) or column.mostly_pass(is_money)
    return has_price and may_be and column.mostly_pass(is_amount) and not is_number


def may_be_taxed(column: ColumnSample) -> bool:
    """Returns whether only amounts may prove that a column has prices with a tax: it has some, and
    its name has no word for anything else but the tax.
    """
    tax = column.says("others") & column.says("beside-prices")
    others = column.says("others", "numbers", "stock", "copies", "cost", "old", *CODES)
    may_be = bool(tax) and others == tax and column.mostly_pass(is_amount)
    return may_be and not may_be_amounts(column)


def is_weight(column: ColumnSample) -> bool:
    """Returns whether a name may be that of a weight, and no cell has a currency."""
    weights = column.says("weights")
    is_priced = column.says("prices", "priced", "paid", "currencies") - weights
    return bool(weights) and not is_priced and not column.mostly_pass(has_currency)


def charged(column: ColumnSample) -> float:
    """Returns which part of the cells have an amount above zero, or an error in place of one."""
    return column.passing_part(is_charged) * column.filled


def pairs_of(column: ColumnSample, other: ColumnSample) -> Pairs:
    """Returns the amounts of two columns that are in the same rows."""
    pairs = zip(column.amounts, other.amounts)
    return {(amount, beside) for amount, beside in pairs if amount and beside}


def with_taxes(columns: Mapping[int, ColumnSample]) -> tuple[Collection[int], Collection[int]]:
    """Returns the places of the columns of which amounts prove that others are the same with a tax,
    and those of these others.
    """
    pairs = [
        (bare, whole)
        for bare, column in columns.items()
        for whole, other in columns.items()
        if bare != whole and is_surely_taxed(column, other)
    ]
    bare_ones = {bare for bare, _ in pairs}
    return bare_ones, {whole for _, whole in pairs} - bare_ones


def is_surely_taxed(column: ColumnSample, whole: ColumnSample) -> bool:
    """Returns whether amounts prove that a column is another one with a tax. They prove nothing
    where names say that it is advised, usual or for a few days, or that the other one is what
    customers pay; nor where it may be a price before a discount, unless its name has the tax.
    """
    if whole.says("advised", "regular", "sale") or column.says("sale"):
        return False
    if column.says("sold", "taxed") and not whole.says("sold", "taxed"):
        return False
    is_named = bool(whole.says("taxed"))
    return is_taxed(column, whole) and (is_named or not is_reduced(column, whole))


def is_taxed(column: ColumnSample, whole: ColumnSample) -> bool:
    """Returns whether the amounts of a column with a tax are those of another one, nearly all, at a
    rate or two, and more than agree by chance. Where most are the same, some may be reduced.
    """
    every = pairs_of(column, whole)
    pairs = [(bare, taxed) for bare, taxed in every if bare != taxed]
    left = pairs
    rates: list[Decimal] = []
    while left and len(rates) < MOST_RATES:
        bare, taxed = max(left)
        rates.append(min(RATES, key=lambda rate: abs(bare * rate - taxed)))
        left = [(low, high) for low, high in left if not is_with(low, high, rates[-1])]
    are_few = len(left) <= MOST_WRONG * len(pairs)
    return are_few and len(pairs) > len(rates) and 2 * len(pairs) > len(every)


def is_with(amount: Decimal, other: Decimal, factor: Decimal) -> bool:
    """Returns whether an amount is another one times a factor, rounded."""
    return abs(amount * factor - other) <= max(ROUNDED_OFF, PART_OF_PRICE * other)


def is_reduced(column: ColumnSample, dearer: ColumnSample) -> bool:
    """Returns whether the amounts of a column may be those of another one with a discount, or these
    may have something on top: nearly all by multiples of 5 %. So does a tax of such a rate look,
    but shops have round prices with the tax in them, and seldom without it.
    """
    pairs = [(low, high) for low, high in pairs_of(column, dearer) if low != high]
    least = (1 - MOST_WRONG) * len(pairs)
    if sum(is_step(high, low) for low, high in pairs) >= least:
        return True
    lows, highs = zip(*pairs)
    is_rounder = round_share(lows) >= round_share(highs)
    return is_rounder and sum(is_step(low, high) for low, high in pairs) >= least


def is_step(amount: Decimal, other: Decimal) -> bool:
    """Returns whether an amount is another one and some multiple of 5 % of it, more or less."""
    return is_with(amount, other, Decimal(round(other / amount * STEPS)) / STEPS)


def round_share(amounts: Sequence[Decimal]) -> float:
    """Returns the part of some amounts that end as the prices of shops do."""
    return sum(amount * 100 % 10 in LAST_DIGITS for amount in amounts) / max(1, len(amounts))


def is_margin_more(column: ColumnSample, other: ColumnSample) -> bool:
    """Returns whether the amounts of a column are up to three times those of another one, each by
    a factor of its own, as prices are beside costs.
    """
    factors = {amount / beside for amount, beside in pairs_of(column, other)}
    return len(factors) > 2 and all(1 <= factor <= MOST_MARGIN for factor in factors)


def is_never_above(column: ColumnSample, other: ColumnSample) -> bool:
    """Returns whether two columns have amounts in the same rows, none above that of the other."""
    pairs = pairs_of(column, other)
    return bool(pairs) and all(amount <= beside for amount, beside in pairs)


def is_paid_beside(column: ColumnSample, advised: ColumnSample) -> bool:
    """Returns whether customers may pay the amounts of a column: most are round and not above those
    that are advised, nor far below, as those for other shops are.
    """
    pairs = pairs_of(column, advised)
    near = [low for low, high in pairs if LEAST_PAID * high < low <= high]
    return 2 * len(near) * round_share(near) > len(pairs)
