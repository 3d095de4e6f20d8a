"""How prices are written: what those of a column say together, and the pattern of their texts."""

import re
from collections import Counter
from collections.abc import Sequence
from contextlib import suppress
from dataclasses import dataclass, field, replace
from decimal import Decimal, ROUND_HALF_UP

from labeltools.common.messages import Remedy
from labeltools.common.text import NOTHING, Text
from labeltools.tables.money import (
    ARITHMETIC,
    Money,
    MOST_DECIMALS,
    MOST_LOST,
    NotMoney,
    PER_UNIT,
    PROGRAM_DECIMALS,
    read_price,
)
from labeltools.tables.price_words import (
    currency_of,
    currency_of_cell,
    is_same_currency,
    LOOKS,
    NO_CURRENCY,
    plain_signs,
    PRICE_WORDS,
    SPACES,
    WITH_THREE_DECIMALS,
)

OF_MANY = re.compile(
    r"\b(?:tausend|tsd|thousands?|teur|t€|keur|k€)(?!\w)"
    r"|(?:/|\b(?:per|pro|je|par|por|for|für|pour|in)) *\(?(?:100|1[., ]?000)\b"
    r"(?! *(?:g|gr?|kg|mg|m|cm|mm|l|ml|cl)\b)|\b1[., ]?000 *(?:eur|usd|chf|gbp|[€$£])",
    re.IGNORECASE,
)
IN_CENTS = Text("cents")
USUAL_DECIMALS = (0, 2, 3)
THOUSANDS_OR_DECIMALS = Text("may have thousands or decimals")
WHICH_SIGN = Text("which sign is before the cents?")
DECIMAL_SIGNS = (
    Remedy("decimal", "comma", Text("the comma, as in 1,50")),
    Remedy("decimal", "point", Text("the point, as in 1.50")),
)
SIGN_OF = {"crown": "kr", "EUR": "€", "GBP": "£"}
ONE_SIGN = {"JPY": "¥", "CNY": "¥"}
PATTERN = re.compile(
    r"""(?P<front>[^0-9#]*?)
        (?:\#(?P<hash>[.,' ])\#\#)?0
        (?:(?P<group>[.,' ])000)?
        (?:(?P<point>[.,])(?P<decimals>0{1,4}|--?|[–—]))?
        (?P<end>[^0-9#.,'][^0-9#]*)?""",
    re.VERBOSE,
)


@dataclass
class PriceColumn:
    """What the cells of a price column say together.

    `decimal` is the decimal sign if it is known before, `points` are those that were seen.
    """

    decimal: str | None = None
    points: set[str] = field(default_factory=set)
    groups: set[str] = field(default_factory=set)
    lengths: Counter[int] = field(default_factory=Counter)
    currencies: set[str] = field(default_factory=set)
    has_thousands: bool = False
    has_cents: bool = False

    def add_price(self, price: Money, currency: str = "") -> None:
        """Takes the price of a row; the currency may be in a column of its own."""
        if not price.is_open:
            self.lengths[price.decimals] += 1
            if price.point in (".", ",") and not price.unit:
                self.points.add(price.point)
            if price.group:
                self.groups.add(price.group)
        own = currency_of_cell(currency) if currency else price.currency
        if own and own != "cent":
            self.currencies.add(ONE_SIGN.get(own, own))
        self.has_cents = self.has_cents or price.currency == "cent"
        self.has_thousands = self.has_thousands or price.value >= 1000 and not price.group

    @property
    def point(self) -> str:
        """The decimal sign that its sure cells have; empty where there is none or two."""
        if self.decimal:
            return self.decimal
        if not self.points and len(self.groups) == 1 and self.groups <= {".", ","}:
            return "," if "." in self.groups else "."
        return "".join(self.points) if len(self.points) == 1 else ""

    @property
    def has_three_decimals(self) -> bool:
        """Whether its decimal sign may have three decimals after it: most cells have three, or none
        has a sign of thousands, though it is a thousand or more.
        """
        most = max(self.lengths, key=self.lengths.__getitem__, default=0)
        return most == 3 or self.has_thousands

    @property
    def are_bare(self) -> bool:
        """Whether its cells have whole numbers alone, without a currency or a sign of cents."""
        return set(self.lengths) == {0} and not self.currencies and not self.has_cents

    def settled(self, price: Money) -> Money:
        """Returns an open price as the column reads it; raises `NotMoney` where it does not say it.

        >>> from labeltools.tables.money import read_price
        >>> PriceColumn(",").settled(read_price("1.234")).value
        Decimal('1234')
        >>> PriceColumn(".").settled(read_price("1.005"))  # doctest: +ELLIPSIS
        Traceback (most recent call last):
        labeltools.tables.money.NotMoney: has three digits after ., which is the decimal ...
        >>> PriceColumn(".", has_thousands=True).settled(read_price("1.005")).value
        Decimal('1.005')
        >>> PriceColumn(".").settled(read_price("KD 1.250")).value
        Decimal('1.25')
        """
        if not price.is_open:
            return price
        if not self.point:
            raise NotMoney(THOUSANDS_OR_DECIMALS, WHICH_SIGN, remedies=DECIMAL_SIGNS)
        if self.point != price.group:
            return replace(price, is_open=False)  # its sign is that of thousands
        if not self.has_three_decimals and price.currency not in WITH_THREE_DECIMALS:
            what = Text(
                "has three digits after {}, which is the decimal sign of its column", price.group
            )
            raise NotMoney(what, Text("write two decimals"))
        return price.with_three_decimals()


def measure_of(name: str) -> Text:
    """Returns what the name of a column says that its prices are of, if it is not one article in
    the currency itself.

    >>> [measure_of(name) for name in ("price_cents", "PriceCents", "Preis (ct)", "Center", "CT1")]
    ['cents', 'cents', 'cents', '', '']
    >>> [measure_of(name) for name in ("Preis/100", "Preis (TEUR)", "Preis / 100 g", "VK 2026")]
    ['prices per 100 or 1000', 'prices per 100 or 1000', '', '']
    """
    words = re.sub(r"(?<=[a-z])(?=[A-Z])|[^\w]|_", " ", name).casefold().split()
    if PRICE_WORDS["of-cents"].intersection(words):
        return IN_CENTS
    return Text("prices per 100 or 1000") if OF_MANY.search(name) else NOTHING


@dataclass(frozen=True)
class PricePattern:
    """How prices are printed: `0,00 €`, `CHF 0'000.00`, `0.000,00 ¤`, `0,–`; ¤ is the currency of
    the row. `currency` is the code of the one that it has, ¤, or empty.
    """

    front: str
    group: str
    point: str
    decimals: int
    dash: str
    end: str
    currency: str

    @classmethod
    def from_text(cls, text: str) -> "PricePattern":
        """Returns a pattern; raises ValueError. A sign with three zeros behind it and no other is
        one of thousands, but for a currency with three decimals.

        >>> PricePattern.from_text("0.000,00 €")
        PricePattern(front='', group='.', point=',', decimals=2, dash='', end=' €', currency='EUR')
        >>> PricePattern.from_text("KD 0.000")
        PricePattern(front='KD ', group='', point='.', decimals=3, dash='', end='', currency='KWD')
        >>> PricePattern.from_text("¥0,000").group, PricePattern.from_text("0,–").dash
        (',', '–')
        """
        found = PATTERN.fullmatch(text.translate(dict.fromkeys(map(ord, SPACES[:-1]), " ")))
        problem = Text("{!r} is not a format such as '0,00 €'", text)
        if not found:
            raise ValueError(problem)
        group, point = found["group"] or found["hash"], found["point"]
        is_one_sign_for_both = point is not None and group == point
        if is_one_sign_for_both:
            raise ValueError(problem)
        front = text[: len(found["front"])]
        end = text[len(text) - len(found["end"] or "") :]
        currency = currency_of_pattern(text, front, end)
        behind = found["decimals"] or ""
        dash = "" if "0" in behind else behind
        if group == " ":  # it may be a narrow one
            inside = text[len(front) : len(text) - len(end)]
            group = next(sign for sign in inside if LOOKS.get(sign, sign) == " ")
        if point is None and group and currency in WITH_THREE_DECIMALS:
            return cls(front, "", group, 3, "", end, currency)
        return cls(front, group or "", point or "", behind.count("0"), dash, end, currency)

    def write(self, price: Money, currency: str = "") -> str:
        """Returns a price as it is printed; raises `NotMoney` where it would be another price.

        `currency` is that of the row, where it has one in a column of its own.

        >>> from labeltools.tables.money import read_price
        >>> write = PricePattern.from_text("0.000,00 €").write
        >>> write(read_price("7.5")), write(read_price("1,234.565")), write(read_price("99 ct"))
        ('7,50 €', '1.234,57 €', '0,99 €')
        >>> PricePattern.from_text("0,– ¤").write(read_price("4.00"), "CHF")
        '4,– CHF'
        >>> PricePattern.from_text("¤ 0,00").write(read_price("3 kr."))
        'kr 3,00'
        >>> write(read_price("8.330000000000002 €", most_decimals=17))
        '8,33 €'
        >>> write(read_price("$3"))
        Traceback (most recent call last):
        labeltools.tables.money.NotMoney: has $, and the format of prices has EUR
        >>> PricePattern.from_text("0 €").write(read_price("4,99"))
        Traceback (most recent call last):
        labeltools.tables.money.NotMoney: has decimals, and the format of prices has none
        """
        if price.words:
            raise NotMoney(Text("has words, which the format of prices would lose"))
        self.check_currency(price, currency)
        shown = self.rounded_value(price.value)
        if self.decimals < 2 and shown != price.value:
            raise NotMoney(Text("has decimals, and the format of prices has none"))
        if not shown and price.value:
            raise NotMoney(Text("would be printed as zero"))
        if abs(shown - price.value) > price.value * MOST_LOST:
            raise NotMoney(Text("would be rounded by more than 1 %"))
        own = currency or SIGN_OF.get(price.currency, price.currency)
        number = (self.front + self.number_text(shown) + self.end).replace("¤", own)
        unit = f" {price.unit}".replace(" /", "/") if price.unit else ""
        return f"{price.basis}{number}{unit}{price.end}"

    def rounded_value(self, value: Decimal) -> Decimal:
        """Returns a value with the decimals of the pattern."""
        return value.quantize(Decimal(1).scaleb(-self.decimals), ROUND_HALF_UP)

    def changes_amount(self, value: Decimal) -> bool:
        """Returns whether rounding makes another amount of a value, and not only takes away what a
        program's arithmetic has left.

        >>> changes = PricePattern.from_text("0.00").changes_amount
        >>> changes(Decimal("1.859")), changes(Decimal("8.330000000000002"))
        (True, False)
        """
        return abs(self.rounded_value(value) - value) > ARITHMETIC

    def number_text(self, shown: Decimal) -> str:
        """Returns a rounded number with the signs of the pattern."""
        whole, _, decimals = f"{shown:,f}".partition(".")
        behind = self.point + (self.dash or decimals) if self.point else ""
        return whole.replace(",", self.group) + behind

    def check_currency(self, price: Money, currency: str) -> None:
        """Raises `NotMoney` where a price has another currency than the pattern, or none where it
        wants one.
        """
        wanted = self.currency
        found = currency_of_row(price, currency) or price.currency
        has_one = found not in ("", "cent")
        if wanted == NO_CURRENCY:
            if not has_one:
                raise NotMoney(Text("has no currency, and the format of prices wants one"))
        elif found and not wanted:
            raise NotMoney(Text("has {}, and the format of prices has no currency", found))
        elif has_one and not is_same_currency(found, wanted):
            raise NotMoney(Text("has {}, and the format of prices has {}", found, wanted))


def currency_of_row(price: Money, currency: str) -> str:
    """Returns the code of the currency of a row, which may be empty; raises `NotMoney` where the
    price has another one.
    """
    row = currency_of_cell(currency)
    has_own = price.currency not in ("", "cent")
    if currency and has_own and not is_same_currency(price.currency, row):
        what = Text("has {}, and its row has {}", price.currency, currency)
        raise NotMoney(what, Text("write the same currency in both"))
    return row


def with_currency(price: Money, currency: str | None) -> str:
    """Returns the text of a price with the currency of its row, which stands before the unit;
    `currency` is None where the table has no column of them. Raises `NotMoney` where there is none
    or another one.

    >>> from labeltools.tables.money import read_unit_price
    >>> with_currency(read_unit_price("(1 l = 4,98)"), "€")
    '(1 l = 4,98 €)'
    """
    if currency is None:
        return price.text
    currency_of_row(price, currency)
    if price.currency:
        return price.text
    if not currency:
        what = Text("has no currency, and its row has none")
        raise NotMoney(what, Text("write it into one of them"))
    bare = price.text.removesuffix(price.end)
    unit = PER_UNIT.search(bare) if price.unit else None
    if unit is None:
        return f"{bare} {currency}{price.end}"
    return f"{bare[: unit.start()]} {currency}{bare[unit.start() :]}{price.end}"


def pattern_for(texts: Sequence[str], name: str, has_codes: bool) -> str:
    """Returns the format of prices that are as programs write numbers, empty where they are not. It
    has the currency if that is known: their column has it in each cell or in its name, or another
    one has its code. Else only prices that cannot be printed as they stand, or that have a single
    decimal, get two.

    >>> pattern_for(["0.8", "49.9"], "Price (EUR)", False), pattern_for(["0,8"], "Preis", True)
    ('0.00 EUR', '0,00 ¤')
    >>> pattern_for(["0.80 €", "49.9 €"], "Price", False), pattern_for(["0.8"], "Price", False)
    ('0.00 ¤', '0.00')
    >>> pattern_for(["0.80", "49"], "Price (EUR)", False), pattern_for(["1.859"], "Price", False)
    ('', '')
    >>> pattern_for(["0.80000000"], "Price", False), pattern_for(["12.5000", "3"], "Price", False)
    ('0.00', '0.00')
    """
    prices = []
    for text in texts:
        with suppress(NotMoney):
            prices.append(read_price(text, most_decimals=PROGRAM_DECIMALS))
    odd = [price for price in prices if price.decimals not in USUAL_DECIMALS and not price.unit]
    named = PRICE_WORDS["codes"].intersection(re.findall("[A-Z]{3}", name))
    have_currencies = bool(prices) and all(price.currency for price in prices)
    if has_codes or have_currencies:
        named = frozenset("¤")
    is_long = any(price.decimals > MOST_DECIMALS for price in odd)
    are_short = all(price.decimals == 1 for price in odd)
    are_zeros = all(price.decimals > 3 and not price.value * 100 % 1 for price in odd)
    is_sure = len(named) == 1 or is_long or are_short or are_zeros
    if not odd or not is_sure:
        return ""
    return f"0{odd[0].point}00 {min(named) if len(named) == 1 else ''}".rstrip()


def currency_of_pattern(text: str, front: str, end: str) -> str:
    """Returns the currency in front of the number of a pattern, or behind it; empty for none.
    Raises ValueError where there is what is no currency, or two.
    """
    found = ""
    for sign in filter(None, (front.strip(), end.strip())):
        code = sign if sign == NO_CURRENCY else currency_of(plain_signs(sign))
        if code is None:
            raise ValueError(Text("{!r} in {!r} is not a currency", sign, text))
        found = code
    if front.strip() and end.strip():
        raise ValueError(Text("{!r} has two currencies", text))
    return found
