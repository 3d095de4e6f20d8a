"""Which column of a table has the code, the title, the price and so on: what is proved, what most
evidence speaks for, and what only the keeper knows.
"""

import re
from collections.abc import Collection, Mapping, Sequence

from labeltools.tables.code_readings import CodeReading
from labeltools.tables.codes import ean_of_isbn
from labeltools.tables.column_samples import (
    ColumnSample,
    FEW,
    has_unit,
    is_amount,
    is_money,
    is_paid,
    LEAST,
)
from labeltools.tables.evidence import Decision, probable_choice
from labeltools.tables.facts import (
    are_different_texts,
    charged,
    CODE,
    CODES,
    is_margin_more,
    is_never_above,
    is_of_books,
    is_of_other,
    is_paid_beside,
    may_be_amounts,
    may_be_code,
    may_be_taxed,
    may_be_title,
    NO_PRICES,
    PAID,
    PRICE,
    Samples,
    TITLE,
    TITLES,
    with_taxes,
)

MOST_PAIRS = 500_000  # of amounts that are compared
NO_KEYS = ("prices", "cost", "stock")  # what says nothing about which rows are variants
# what programs call an article, as `a-1` or `10047`: no word or amount as people write it
KEY = re.compile(r"(?=(?:.*[0-9]){3})[\w/:#-]+|(?=.*[a-z])[a-z0-9._-]+")


def code_choice(columns: Samples) -> Decision:
    """Returns which column has the codes: some, wherever a column may have them."""
    may_be = code_candidates(columns)
    found = probable_choice(may_be, CODE)
    if found.is_none:
        return Decision(sorted(found.may_be))
    if found.surely is None:
        return found
    rivals = code_rivals(may_be, found.surely)
    is_asked = bool(rivals) or is_of_other(may_be[found.surely])
    return Decision(sorted({*found.may_be, *rivals})) if is_asked else found


def code_rivals(columns: Samples, chosen: int) -> Collection[int]:
    """Returns the columns of which only the keeper knows if they have the code, and not the chosen
    one: an article has another EAN there; or neither is one or named so; or few rows have the
    chosen one, where all have a number of their country, or of their own as old books.
    """
    code = columns[chosen]
    others = {
        place: column
        for place, column in columns.items()
        if place != chosen and not is_of_other(column)
    }
    if code.filled < LEAST:
        is_rare = is_of_books(code)
        return [place for place, other in others.items() if is_rare or other.says("national")]
    others = {place: other for place, other in others.items() if not other.says("ids")}
    if code.has_codes:
        return [place for place, other in others.items() if are_two_codes(code, other)]
    return [] if code.says(*CODES) else [*others]


def are_two_codes(column: ColumnSample, other: ColumnSample) -> bool:
    """Returns whether two columns have other codes of the same article; an ISBN is one of them."""
    if not other.has_codes or is_of_books(column) or is_of_books(other):
        return False
    pairs = zip(map(bare_code, column.cells), map(bare_code, other.cells))
    return any(code and beside and code != beside for code, beside in pairs)


def code_candidates(columns: Samples) -> Samples:
    """Returns the columns that may have the codes: those with right check digits, but for one with
    the codes of the fullest one again, as a UPC-A that is there as an EAN-13, too. If none of these
    are surely those of the articles, other numbers are meant, too: those that are named as codes,
    or else any, but for those of something else.
    """
    may_be = {place: column for place, column in columns.items() if may_be_code(column)}
    may_be = {place: own for place, own in may_be.items() if not own.is_running} or may_be
    if any(column.has_codes for column in may_be.values()):
        may_be = {place: own for place, own in may_be.items() if not own.mostly_pass(ean_of_isbn)}
    checked = {place: column for place, column in may_be.items() if column.has_codes}
    fullest = max(checked, key=lambda place: checked[place].filled, default=-1)
    again = [
        place
        for place, column in checked.items()
        if place != fullest and has_codes_of(column, checked[fullest])
    ]
    checked = {**without(checked, again)}
    own = {place: column for place, column in may_be.items() if not is_of_other(column)}
    if any(place in own and not is_of_books(column) for place, column in checked.items()):
        national = {place: column for place, column in own.items() if column.says("national")}
        return dict(sorted({**checked, **national}.items()))
    numbers = without(own, [*again, *checked])
    named = {place: column for place, column in numbers.items() if column.says("codes")}
    return dict(sorted([*checked.items(), *(named or numbers or without(may_be, again)).items()]))


def has_codes_of(column: ColumnSample, other: ColumnSample) -> bool:
    """Returns whether the codes of a column are those of another one, as far as it has them."""
    pairs = zip(map(bare_code, column.cells), map(bare_code, other.cells))
    return all(code in ("", beside) for code, beside in pairs)


def bare_code(text: str) -> str:
    """Returns a code without what separates its digits, and without zeros in front."""
    return "".join(filter(str.isalnum, text)).lstrip("0")


def title_choice(columns: Samples, taken: Collection[int]) -> Decision:
    """Returns which column has the title, of those that are not taken."""
    may_be = title_candidates(columns, taken)
    if may_be:
        found = probable_choice(may_be, TITLE)
        rivals = title_rivals(may_be, found.surely)
        return Decision(sorted({*found.may_be, *rivals})) if rivals else found
    free = without(columns, taken)
    texts = [place for place, column in free.items() if are_different_texts(column)]
    return Decision(texts, texts[0]) if len(texts) == 1 else Decision()


def title_rivals(columns: Samples, chosen: int | None) -> Collection[int]:
    """Returns the columns of which only the keeper knows if they have the title, and not the chosen
    one: few rows have that, and most have another one; or it is a part of a name.
    """
    if chosen is None:
        return ()
    is_doubtful = columns[chosen].says("parts") or columns[chosen].filled < LEAST
    if not is_doubtful:
        return ()
    full = (place for place, column in columns.items() if column.filled >= LEAST)
    return [place for place in full if place != chosen]


def title_candidates(columns: Samples, taken: Collection[int]) -> Samples:
    """Returns the columns that may have the title, of those that are not taken."""
    free = without(columns, taken).items()
    may_be = {place: column for place, column in free if may_be_title(column)}
    long = [place for place, column in may_be.items() if column.says("long")]
    is_short_there = any(column.says("short") for column in may_be.values())
    return without(may_be, long) if is_short_there else may_be


def without(columns: Samples, taken: Collection[int]) -> Samples:
    """Returns the columns that are not taken."""
    return {place: column for place, column in columns.items() if place not in taken}


def name_parts(columns: Samples, taken: Collection[int]) -> Sequence[int]:
    """Returns the two columns of a first and a last name, in this order, which are one title; none
    if another one has the whole name, or if things have titles, too.
    """
    free = title_candidates(columns, taken)
    named = (*TITLES, "beside-titles")
    plain = {place: column for place, column in free.items() if column.is_plain(*named)}
    parts = [place for place, column in plain.items() if column.says("parts")]
    names = [place for place in plain if plain[place].says("titles") and place not in parts]
    if not parts or len(parts) + len(names) != 2:
        return ()
    is_whole = any(has_part(plain[name], plain[part]) for name in names for part in parts)
    are_persons = all(plain[name].says("persons") for name in names)
    are_things = any(column.says("articles", "descriptions") for column in plain.values())
    if is_whole or are_things or not are_persons:
        return ()
    given = [place for place in parts if plain[place].says("given")] or names
    return sorted([*parts, *names], key=lambda place: (place not in given, place))


def has_part(column: ColumnSample, part: ColumnSample) -> bool:
    """Returns whether most texts of a column have those of another one in them."""
    pairs = [(whole, text) for whole, text in zip(column.cells, part.cells) if whole and text]
    return 2 * sum(text in whole for whole, text in pairs) >= len(pairs)


def price_choice(columns: Samples, taken: Collection[int]) -> Decision:
    """Returns which column has the price, by what amounts prove, and else by what is probable. If
    none is it surely, the keeper is asked.
    """
    may_be, proved = price_candidates(columns, taken)
    if proved is not None and not are_two_paid(may_be, proved):
        return Decision(sorted(may_be), proved)
    if not may_be:
        free = without(columns, taken)
        return Decision(net_places(free) or paired_places(compared(free)))
    found = probable_choice(may_be, PRICE)
    near = {place: may_be[place] for place in found.may_be}
    if found.surely is not None:
        rivals = near | advised_beside(may_be, found.surely)
        if not is_price_asked(rivals, found.surely):
            return found
        near = rivals
    return Decision(sorted(near))


def price_candidates(columns: Samples, taken: Collection[int]) -> tuple[Samples, int | None]:
    """Returns the columns that may have the price, without those of which another one has the tax,
    and the only one of which amounts prove that it has the tax, if there is one.
    """
    free = without(columns, taken)
    amounts = {
        place: column
        for place, column in free.items()
        if may_be_amounts(column) and not column.says("cost", "old") or may_be_taxed(column)
    }
    bare, whole = with_taxes(compared(amounts))
    paid = {
        place: column
        for place, column in amounts.items()
        if place in whole or not (place in bare or column.says(*NO_PRICES) or may_be_taxed(column))
    }
    may_be = without_same(paid) if any(column.texts for column in paid.values()) else {}
    return may_be, min(whole) if len(whole) == 1 else None


def compared(columns: Samples) -> Samples:
    """Returns the columns, if it takes little to compare the amounts of each one with those of
    each other one; else none: a table has more columns of prices than shops have.
    """
    pairs = len(columns) * sum(len(column.cells) for column in columns.values())
    return columns if pairs <= MOST_PAIRS else {}


def without_same(columns: Samples) -> Samples:
    """Returns columns of prices, of those with the same amounts in the same currency the one that
    is most plainly what customers pay; without usual prices that are never below such a one.
    """
    plainest: dict[object, int] = {}
    for place in sorted(columns, key=lambda place: (not is_plain_price(columns[place]), place)):
        column = columns[place]
        plainest.setdefault((tuple(column.cells), column.says("currencies")), place)
    left = {place: columns[place] for place in sorted(plainest.values())}
    plain = next((column for column in left.values() if is_plain_price(column)), None)
    if plain is None:
        return left
    return {
        place: column
        for place, column in left.items()
        if column is plain or not (column.says("regular") and is_never_above(plain, column))
    }


def is_plain_price(column: ColumnSample) -> bool:
    """Returns whether a name says that customers pay it, and no more."""
    is_own = not column.says("advised", "regular", "sale")
    return is_own and column.is_plain(*PAID)


def net_places(columns: Samples) -> Sequence[int]:
    """Returns the columns of prices without a tax, or of a measure, with those of prices that have
    no amounts: one of them may be meant if no other column has prices.
    """
    amounts = {place: column for place, column in columns.items() if may_be_amounts(column)}
    unpaid = [place for place, column in amounts.items() if column.says("cost", "old")]
    left = without(amounts, unpaid)
    is_net = any(column.says("net") and column.texts for column in left.values())
    return [place for place in left if left[place].says("net", "prices")] if is_net else []


def paired_places(columns: Samples) -> Sequence[int]:
    """Returns the columns of numbers without a known word of which amounts are a margin more than
    others, or less, which are without one, too, or costs: prices in a language of which no words
    are listed.
    """
    numbers = {place: column for place, column in columns.items() if column.mostly_pass(is_amount)}
    unknown = {place: column for place, column in numbers.items() if not column.words_by_kind}
    others = {place for place, column in numbers.items() if place in unknown or column.says("cost")}
    return [
        place
        for place, column in unknown.items()
        if any(
            is_margin_more(column, numbers[other]) or is_margin_more(numbers[other], column)
            for other in others - {place}
        )
    ]


def advised_beside(columns: Samples, chosen: int) -> Samples:
    """Returns the advised prices of which one that seems to be the price is so far below, or so
    odd, that the shop may pay it itself.
    """
    price = columns[chosen]
    return {
        place: column
        for place, column in columns.items()
        if column.says("advised")
        and column is not price
        and charged(column) >= LEAST
        and not is_paid_beside(price, column)
    }


def is_price_asked(columns: Samples, chosen: int) -> bool:
    """Returns whether only the keeper knows if customers pay a price: they may pay another one, or
    the shop may pay it itself.
    """
    price = columns[chosen]
    others = [column for column in columns.values() if column.cells != price.cells]
    full = [column for column in others if charged(column) >= LEAST]
    if price.says("advised", "sale"):
        is_sure = not others
    elif price.says("regular") and not price.says("sold"):
        is_sure = all(column.says("sale") for column in full)
    else:
        usual = [column for column in full if column.says("regular")]
        is_sure = all(is_never_above(price, column) for column in usual)
        is_sure = is_sure and not advised_beside(columns, chosen)
    return not is_sure or are_two_paid(columns, chosen)


def are_two_paid(columns: Samples, chosen: int) -> bool:
    """Returns whether customers may pay a price or another one: in several currencies, or one for
    most articles that are for sale; or few rows have the price.
    """
    others = [column for column in columns.values() if column.cells != columns[chosen].cells]
    full = [column for column in (columns[chosen], *others) if charged(column) >= LEAST]
    currencies = {word[:3] for column in columns.values() for word in column.says("currencies")}
    kinds = {bool(column.says("sale")) for column in full}
    return len(currencies) > 1 or columns[chosen] not in full or len(kinds) > 1


def amounts_in(columns: Samples) -> Sequence[int]:
    """Returns the columns of amounts, whatever their names say, but for numbers of things and of
    rows; money comes first.
    """
    found = [
        place
        for place, column in columns.items()
        if column.passing_part(is_paid) > 0
        and not column.is_running
        and column.mostly_pass(is_amount)
        and not column.says("numbers", *CODES)
    ]
    return sorted(found, key=lambda place: not columns[place].mostly_pass(is_money))


def unit_price_choice(columns: Samples, taken: Collection[int]) -> Decision:
    """Returns which column has the price of a unit: only one has such prices."""
    free = without(columns, taken)
    found = [place for place, column in free.items() if column.mostly_pass(has_unit)]
    return Decision(found, found[0]) if len(found) == 1 else Decision()


def old_price_choice(columns: Samples, taken: Collection[int], price: int) -> Decision:
    """Returns which column has the price before a reduction: the only one that is named so, and
    whose amounts are nowhere below those of the price.
    """
    free = without(columns, taken)
    old = [
        place for place, column in free.items() if column.says("old") and not column.says("cost")
    ]
    found = [place for place in old if is_never_above(columns[price], columns[place])]
    return Decision(found, found[0]) if len(found) == 1 else Decision()


def copies_choice(columns: Samples, taken: Collection[int]) -> Decision:
    """Returns which column is named as numbers of labels that are to be printed, and has no large
    number, as a stock or what is on a roll has.
    """
    free = without(columns, taken)
    named = {place: column for place, column in free.items() if column.says("copies")}
    counts = [place for place, column in named.items() if column.passing_part(FEW.fullmatch) == 1]
    return Decision(counts, counts[0] if len(counts) == 1 else None)


def variants_place(columns: Samples, title: int) -> int | None:
    """Returns the column that says which rows are variants of one article, by words as programs
    write them: of each the first row has a title, and no other one. None where each row has its
    title, or no column is so.

    >>> cells = ["Shirt", "", "Cap"], ["red", "blue", "red"], ["a-1", "a-1", "b-2"]
    >>> columns = {place: ColumnSample("", texts) for place, texts in enumerate(cells)}
    >>> variants_place(columns, 0), variants_place(columns, 1)
    (2, None)
    """
    titles = columns[title].cells
    for place, column in columns.items():
        first: set[str] = set()
        for text, cell in zip(titles, column.cells):
            if not KEY.fullmatch(cell) or bool(text) == (cell in first):
                break
            first.add(cell)
        else:
            if first and not all(titles) and not column.says(*NO_KEYS):
                return place
    return None


def are_single_things(readings: Mapping[int, CodeReading], columns: Samples) -> bool:
    """Returns whether columns that may have the codes say that each thing has a number of its own,
    as copies of a book beside its ISBN; or others say that they are things of an inventory.
    """
    free = [columns[place] for place, reading in readings.items() if not reading.are_sure]
    own = [column for column in free if column.says(*CODES) and not is_of_other(column)]
    if any(reading.are_sure for reading in readings.values()):
        return 0 < len(own) < len(readings)
    is_copy = bool(own) and any(map(is_of_books, columns.values()))
    return is_copy or any(column.says("own-numbers") for column in own) or are_kept(columns)


def are_kept(columns: Samples) -> bool:
    """Returns whether columns say that things are kept or lent, and not that they are sold."""
    named = [column for column in columns.values() if column.texts]
    is_sold = any(column.says("sold") for column in named)
    return not is_sold and any(column.says("inventory") for column in named)
