"""What a price is, and how the text of a cell is read as one. A price goes this way:

    read_price              the text of a cell becomes Money, or it is NotMoney
    PriceColumn.add_price   its column learns what all cells say together, as the decimal sign
    PriceColumn.settled     a price that can be read in two ways is read as its column says
    PricePattern.write      its text on the label, if prices are written anew

The last three are in `prices.py`, and signs, currencies and words of prices in `price_words.py`.

A price is one number whose separators are understood, and what shops write around it. `read_price`
is a grammar of what a price is. It has no list of what a price is not: an error word of any
language, `nan`, a lone sign, a date, a code and a size are none because no rule makes them one.
"""

import re
import unicodedata
from collections.abc import Callable
from dataclasses import dataclass, replace
from decimal import Decimal
from functools import lru_cache

from labeltools.common.messages import Remedy, RowError
from labeltools.common.text import NOTHING, Text
from labeltools.tables.price_words import (
    currency_of,
    currency_remedy,
    is_same_currency,
    plain_signs,
    PRICE_WORDS,
    WITHOUT_DECIMALS,
)

MOST_LETTERS = 60
MOST_BARE_DIGITS = 8  # of a price; a price that has so many ends in a zero
MOST_WHOLE_DIGITS = 12
MOST_DECIMALS = 6  # of a price that is printed as it stands
PROGRAM_DECIMALS = 17  # of a number that a program has calculated
ARITHMETIC = Decimal("1e-9")  # what a program's arithmetic may leave
MOST_LOST = Decimal("0.01")  # of a price that is rounded
NO_PRICE = Text("if it is a code, choose another column")
OTHER_WORDS = Text("has words that are not part of a price")
NO_NUMBER = Text("has no number")
IS_RIGHT = Text("is it right?")
ANY_TEXT = Remedy("price-as", "text", Text("take any text as a price"))
LONE_WORD = re.compile(r"(?<!\S)[^\W\d_]{2,}(?!\S)")  # ab 5, 2 for 3.00, but neither p0 nor 1.9+
# a letter among digits that was typed for one of them: 4,5O, O,50, 1,l5
LETTER = re.compile(
    r"[0-9][.,]?(?P<behind>[Oo])(?![^\W\d_])|(?<![^\W\d_])(?P<before>[OoIl])[.,]?[0-9]"
    r"|[0-9][.,](?P<among>[Il])(?![^\W\d_])"
)
TYPE_AGAIN = Text("type it again")
LOOK_OF_PRICES = Remedy("price-as")
SEPARATORS = Text("has a number whose separators are not understood")
SEPARATORS_HINT = Text("write it as 1234,50 or 1234.50")
SEVERAL = Text("has several numbers")
ONLY_IN_FRONT = frozenset("LQR")
# words that a price tag has in front of its number or behind it; every other word is free text
FRONT = frozenset(map(str.casefold, PRICE_WORDS["front"]))
BEHIND = frozenset(map(str.casefold, PRICE_WORDS["behind"]))
UNITS = PRICE_WORDS["units"]
UNIT = r"(?:[0-9]{1,4}(?:[.,][0-9]{1,3})? ?)?[^\W\d_]{1,14}[.²³]?"
PER = rf"(?: ?/ ?| (?:je|pro|per|par|por|al|le|la|the|a|za|na|på|pr\.|от|за|à|/|の) ){UNIT}"
# most prices, at once
COMMON = re.compile(
    "(0|[1-9][0-9]{0,5}|[1-9][0-9]{0,2}([.,'])[0-9]{3})([.,])([0-9]{2})(?:[ \u00a0]?(€))?"
)
TAIL = "|".join(map(re.escape, PRICE_WORDS["behind"]))
PER_UNIT = re.compile(rf"(?<=[^/])({PER})(?P<more>(?: (?:{TAIL}))*)\Z")
NUMBER = re.compile(
    r"""(?P<dash>-)?(?P<bare>[.,])(?P<small>[0-9]{2})(?![0-9])  # `-,80`, `.99`
      | (?P<whole>[0-9]{1,3}(?:(?P<group>[.,' ])[0-9]{3}(?:(?P=group)[0-9]{3})*(?![0-9]))  # 1'234
            | [0-9]{1,2}(?:,[0-9]{2})+,[0-9]{3}(?![0-9])  # lakhs
            | [0-9]+)
        # `4.–`, `12,--`, `12,=`, `40/-`
        (?: (?P<point>[.,:])(?P<decimals>[0-9]+) | (?P<none>[.,:][ ]?(?:--?|=)|/-) )?
    """,
    re.VERBOSE,
)
# other customs, and the usual signs for them; nothing for that of a footnote
CUSTOMS = (
    (re.compile(r"(?<=[0-9€$£.,a-zA-Zł\-])(?: ?\*{1,3}| ?[¹²³⁴⁵]\)?)\Z"), ""),
    (re.compile(r"\A\((?=.*[0-9]\)\Z)(.*)\)\Z"), r"-\1"),  # of accountants: (5.00)
    (re.compile(r"\A([0-9]{1,4}) ?([€$£]) ?([0-9]{2})\Z"), r"\1,\3 \2"),  # 3€50
    (re.compile(r"\A([0-9]{1,4})'([0-9]{2})(?= ?€)"), r"\1,\2"),  # 12'50 €
)
TAXED = re.compile(r"(\W?税[込抜別]\W?|本体)?(\D*?)(\W?税[込抜別]\W?)?")
# what a unit price names first: `1 kg = 7,96 €`, `100 g: 1,20 €`
BASIS = re.compile(
    r"(?P<basis>\(?(?:(?:Grundpreis|GP)\s*:?\s*)?(?:[0-9]{1,4}\s*[^\W\d_]{1,12}\.?\s*[=:]\s*)?)"
    r"(?P<price>.*?)(?P<end>\)?)"
)


class NotMoney(RowError):
    """Why a cell is no price, or cannot be printed as one."""


@dataclass(frozen=True, slots=True)
class Money:
    """A price as it is written, and what it means.

    `value` has the separators as they are read, cents as hundredths; `currency` is its code, or its
    sign where several have it; `unit` is as `/kg`; `words` are those around it. `is_open` is
    whether one separator has three digits after it, as 1.234: thousands or decimals. `basis` and
    `end` are what a unit price has around it, as `1 kg = `.
    """

    text: str
    value: Decimal
    point: str = ""
    group: str = ""
    decimals: int = 0
    currency: str = ""
    unit: str = ""
    words: str = ""
    is_open: bool = False
    basis: str = ""
    end: str = ""

    def __str__(self) -> str:
        return self.text

    def with_three_decimals(self) -> "Money":
        """Returns an open price whose sign is the decimal one."""
        value = self.value / 1000
        return replace(self, value=value, point=self.group, group="", decimals=3, is_open=False)

    def nearest_to(self, number: Decimal) -> "Money":
        """Returns an open price as it is read that is nearest to the number of its cell.

        >>> price = read_price("1.234")
        >>> [str(price.nearest_to(Decimal(number)).value) for number in ("1234", "1.2341")]
        ['1234', '1.234']
        """
        if not self.is_open:
            return self
        readings = replace(self, is_open=False), self.with_three_decimals()
        return min(readings, key=lambda reading: abs(reading.value - number))


# what a row has as a price: any text may be one if that was asked for; an empty one is none
Price = Money | str


@dataclass(frozen=True)
class PriceNumber:
    """The number of a price: its digits, and the signs between them."""

    whole: str
    decimals: str
    point: str
    group: str
    is_open: bool
    is_bare: bool  # it has no sign but digits


@lru_cache(maxsize=4096)
def read_price(text: str, own: str = "", most_decimals: int = MOST_DECIMALS) -> Money:
    """Returns the price of a cell; raises `NotMoney` with the reason.

    `own` is a currency that the table names, where it is none of those that are known. Where a
    price is written anew, as many decimals as a program's number has are taken: 17.

    >>> [str(read_price(cell).value) for cell in ("CHF 4.–", "1'234.50", "₹ 12,34,567.50", "298円")]
    ['4', '1234.50', '1234567.50', '298']
    >>> [str(read_price(cell).value) for cell in ("-,80", "99¢", "Rs. 40/-", "12'50 €", "3€50")]
    ['0.80', '0.99', '40', '12.50', '3.50']
    >>> read_price("3 €/kg").unit, read_price("RF 1.250", own="RF").currency
    ('/kg', 'RF')
    >>> for cell in ("nan", "€", "2 für 5 €", "01.02.2026", "007", "-30 %", "3 – 5 €", "5,00-"):
    ...     try:
    ...         print(read_price(cell))
    ...     except NotMoney as error:
    ...         print(error.what)
    has no number
    has no number
    has several numbers
    has a number whose separators are not understood
    begins with zeros, as a code does
    is a percentage
    has several numbers
    is below zero
    """
    common = COMMON.fullmatch(text)
    if common and common[2] != common[3]:
        whole, group, point, decimals, euro = common.groups(default="")
        value = Decimal(f"{whole.replace(group, '')}.{decimals}")
        return Money(text, value, point, group, 2, "EUR" if euro else "")
    bare = plain_price(text)
    for custom, usual in CUSTOMS:
        bare = custom.sub(usual, bare)
    unit, bare = unit_in(bare)
    price = price_of_plain(bare, plain_signs(own), most_decimals)
    if unit and not is_priced(price, bare, unit):
        raise with_other_words()  # 1.0/AV
    return replace(price, text=text.strip(), unit=unit)


def price_or_none(text: str, read: Callable[[str], Money] = read_price) -> Money | None:
    """Returns the price of a text, None where it is none.

    >>> price_or_none("nan"), price_or_none("0,80 €").value
    (None, Decimal('0.80'))
    """
    try:
        return read(text)
    except NotMoney:
        return None


def read_unit_price(text: str, own: str = "", most_decimals: int = MOST_DECIMALS) -> Money:
    """Returns the price of a unit, which may be named before it; raises `NotMoney`.

    >>> read_unit_price("(1 kg = 7,96 €)").basis, read_unit_price("7,96 €/kg").unit
    ('(1 kg = ', '/kg')
    """
    found = BASIS.fullmatch(text.strip())
    if not found or not found["basis"]:
        return read_price(text, own, most_decimals)
    price = read_price(found["price"], own, most_decimals)
    return replace(price, text=text.strip(), basis=found["basis"], end=found["end"])


def is_above(price: Money, other: Money) -> bool:
    """Returns whether a price is above another price, or both cannot be compared."""
    if price.is_open or other.is_open:
        return True
    return price.value > other.value or price.currency != other.currency


def plain_price(text: str) -> str:
    """Returns a cell made plain; raises `NotMoney` where it has no number, or is a percentage or
    long.
    """
    bare = plain_signs(text)
    if len(bare) > MOST_LETTERS or "\n" in bare or "\r" in bare:
        raise NotMoney(Text("has several lines or more than 60 letters"))
    if not re.search("[0-9]", bare):
        has_word = re.search(r"[^\W\d_]{2}", bare) is not None
        if has_word:
            raise NotMoney(NO_NUMBER, IS_RIGHT, remedies=(ANY_TEXT,))
        raise NotMoney(NO_NUMBER)
    if found := LETTER.search(bare):
        letter = found[found.lastgroup or 0]
        raise NotMoney(Text("has the letter {} among its digits", letter), TYPE_AGAIN)
    if re.search("[%‰٪]", bare):
        raise NotMoney(Text("is a percentage"), Text("write the price itself"))
    return bare


def with_other_words(bare: str = "") -> NotMoney:
    """Returns the error of a price with other words: only a text is offered as one."""
    if LONE_WORD.search(bare):
        return NotMoney(OTHER_WORDS, IS_RIGHT, remedies=(ANY_TEXT,))
    return NotMoney(OTHER_WORDS, IS_RIGHT, remedies=(replace(ANY_TEXT, says=NOTHING),))


def unit_in(bare: str) -> tuple[str, str]:
    """Returns the unit behind a price, as `/kg`, and the price without it."""
    per = PER_UNIT.search(bare)
    if not per:
        return "", bare
    unit = per[1].strip()
    rest = bare[: per.start()] + per["more"]
    is_unit = re.search("[0-9]", rest) and currency_of(unit) is None
    if not is_unit or re.search(r"/ ?-\Z", bare):
        return "", bare
    return unit, rest


def is_priced(price: Money, bare: str, unit: str) -> bool:
    """Returns whether a number with a unit is a price: by its currency, its decimals, or the
    unit.
    """
    if price.currency:
        return True
    if unit.lstrip("/ 0123456789.,").rstrip(".").casefold() not in UNITS:
        return False
    has_decimals = bool(price.point) or price.value != int(price.value)
    return has_decimals or bare.endswith((":-", ",-", ".-"))


def price_of_plain(bare: str, own: str, most_decimals: int) -> Money:
    """Returns the price of a plain text: one number, its sign, at most one currency on each side,
    words.
    """
    begin = number_start(bare)
    found = NUMBER.match(bare, begin)
    if not found:
        raise NotMoney(SEPARATORS, SEPARATORS_HINT)
    before = bare[:begin]
    behind = bare[found.end() :]
    check_behind(behind)
    amount = price_number(found)
    check_letters(before, amount, own)
    is_below, before, behind = without_sign(before.strip(), behind, bool(found["none"]))
    currencies, words = currencies_and_words(before, behind, own)
    is_plain_number = amount.is_bare and not found["none"]
    has_groups_alone = amount.group and not amount.point
    has_words_alone = words and not currencies
    if has_words_alone and (is_plain_number or has_groups_alone):
        raise with_other_words(bare)  # ab 5
    check_number(amount, bool(currencies), is_plain_number, most_decimals)
    if behind.startswith("+"):
        raise with_other_words()  # 1.9+
    if is_below:
        raise NotMoney(Text("is below zero"))
    return money_of(amount, currencies, " ".join(words))


def number_start(bare: str) -> int:
    """Returns where the number begins: at its first digit, or the point or dash before it, as in
    `-,80`.
    """
    start = re.search("[0-9]", bare)
    first = start.start() if start else 0
    begin = first
    while begin and bare[begin - 1] in ".,":  # `.99`, but not the point of `Rs.99` and `kr.99`
        previous = bare[begin - 2] if begin > 1 else " "
        if previous not in " -" and unicodedata.category(previous) != "Sc":
            break
        begin -= 1
    if begin != first and begin and bare[begin - 1] == "-":
        begin -= 1
    return begin


def check_behind(behind: str) -> None:
    """Raises `NotMoney` where another number, or a sign of this one, follows a number."""
    if not re.search("[0-9]", behind):
        if re.match(r"[.,:/'](?!-)\Z", behind):
            raise NotMoney(SEPARATORS, SEPARATORS_HINT)
        return
    is_second = re.match(" ?[-/]", behind)
    if not is_second and re.match(r"[.,:']?[0-9]|[.,:'](?!-)[^ ]*[0-9]", behind):
        raise NotMoney(SEPARATORS, SEPARATORS_HINT)
    raise NotMoney(SEVERAL)


def check_letters(before: str, amount: PriceNumber, own: str) -> None:
    """Raises `NotMoney` for letters right before digits, as codes have them: A100, R6, PHP8."""
    name = before.rpartition(" ")[2]
    if not re.search(r"[A-Za-z]\Z", before) or name == own:
        return
    is_as_in_codes = amount.is_bare and name.isalpha()
    if is_as_in_codes or currency_of(name) is None:
        what = Text("has letters before its digits, as a code has")
        raise NotMoney(what, Text("is it a currency?"), remedies=(currency_remedy(name),))


def without_sign(before: str, behind: str, has_dash: bool) -> tuple[bool, str, str]:
    """Returns whether a number is below zero, and what is before and behind it without its sign."""
    sign = ""
    if behind.startswith("-") and not has_dash:  # SAP: `5,00-`
        sign = "-"
        behind = behind[1:]
    if before and before[-1] in "-+":
        sign = before[-1]
        before = before[:-1].strip()
    if before and before[0] in "-+":
        sign = before[0]
        before = before[1:].strip()
    return sign == "-", before, behind.strip()


def currencies_and_words(before: str, behind: str, own: str) -> tuple[set[str], list[str]]:
    """Returns the currencies and the words around a number."""
    is_bottle = behind in ONLY_IN_FRONT - {own}
    if is_bottle or currency_of(before) == "cent":
        raise with_other_words()  # 5 L, p0
    currencies: set[str] = set()
    words: list[str] = []
    for side, known in ((before, FRONT), (behind, BEHIND)):
        for word in [side] if currency_of(side, own) else side.split(" "):
            code = currency_in(word, own)
            if code is None and word.casefold() not in known and word:
                raise with_other_words(side)
            if code is None:
                words += [word] if word else []
            elif code == "cent" or all(is_same_currency(code, currency) for currency in currencies):
                currencies.add(code)
            else:
                raise NotMoney(Text("has two currencies"), Text("write only one of them"))
    return currencies, words


def currency_in(word: str, own: str) -> str | None:
    """Returns the currency of a word, which may have a Japanese note on taxes beside it."""
    code = currency_of(word, own)
    if code is None:
        taxed = TAXED.fullmatch(word)
        if taxed and taxed[2] != word:
            return currency_of(taxed[2])
    return code


def price_number(found: re.Match[str]) -> PriceNumber:
    """Returns the number that was found; raises `NotMoney` where one sign has two meanings."""
    if found["small"]:
        return PriceNumber("0", found["small"], found["bare"], "", False, False)
    whole = re.sub("[^0-9]", "", found["whole"])
    decimals = found["decimals"] or ""
    point = found["point"] or ""
    group = found["group"] or ("," if "," in found["whole"] else "")
    if group and group == point:
        raise NotMoney(SEPARATORS, SEPARATORS_HINT)
    has_one = group in (".", ",") and found["whole"].count(group) == 1
    if has_one and whole[0] == "0" and not point:  # 0.125 has decimals
        return PriceNumber("0", whole[1:], group, "", False, False)
    is_open = has_one and not point and not found["none"] and whole[0] != "0"
    is_bare = not (point or found["none"] or group)
    return PriceNumber(whole, decimals, point, group, is_open, is_bare)


def check_number(
    amount: PriceNumber, has_currency: bool, is_plain: bool, most_decimals: int
) -> None:
    """Raises `NotMoney` for a number that is no price's."""
    whole = amount.whole
    if amount.point == ":" and not has_currency:
        raise NotMoney(Text("may be a time"), Text("write it with a comma or a point"))
    if len(whole) > 1 and whole[0] == "0":
        raise NotMoney(Text("begins with zeros, as a code does"), NO_PRICE)
    is_round = len(whole) < MOST_BARE_DIGITS or len(whole) == MOST_BARE_DIGITS and whole[-1] == "0"
    if is_plain and not has_currency and not is_round:
        raise NotMoney(
            Text("is {} digits without a separator or a currency", len(whole)),
            NO_PRICE,
        )
    if len(amount.decimals) > most_decimals or len(whole) > MOST_WHOLE_DIGITS:
        hint = Text("choose how prices are printed")
        raise NotMoney(Text("has too many digits"), hint, remedies=(LOOK_OF_PRICES,))


def money_of(amount: PriceNumber, currencies: set[str], words: str) -> Money:
    """Returns a price by its number and what is around it."""
    value = Decimal(f"{amount.whole}.{amount.decimals}" if amount.decimals else amount.whole)
    names = currencies - {"cent"}
    currency = ""
    if names:
        currency = min(names, key=lambda name: (len(name) != 3, name))
    elif currencies:
        currency = "cent"
        value = value / 100
    return Money(
        text="",
        value=value,
        point=amount.point,
        group=amount.group,
        decimals=len(amount.decimals),
        currency=currency,
        words=words,
        is_open=amount.is_open and currency not in WITHOUT_DECIMALS,
    )
