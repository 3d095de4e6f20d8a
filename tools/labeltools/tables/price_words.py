"""What prices are written with: signs that look alike, currencies, words around a number."""

import re
import unicodedata
from collections.abc import Sequence
from pathlib import Path

from labeltools.common.messages import Remedy
from labeltools.common.text import Text
from labeltools.common.word_lists import lists_of
from labeltools.sheets.cells import DIRECTIONS

LONGEST = 1000  # letters: a longer text is no price, and is left as it is
NO_CURRENCY = "¤"  # ISO 8859-15 has its € where other encodings have this sign
# signs that are one for the grammar; NFKC would make 399 of a price with raised decimals
SPACES = (
    "\u00a0\u1680\u2000\u2001\u2002\u2003\u2004\u2005\u2006\u2007\u2008\u2009\u200a\u202f"
    "\u205f\u3000\t"
)
LOOKS = {
    **dict.fromkeys(SPACES, " "),
    **dict.fromkeys(DIRECTIONS, ""),
    **dict.fromkeys("’‘´`ʼ＇", "'"),
    **dict.fromkeys("−‒–—―－ー", "-"),
    **dict.fromkeys("＊⁎∗", "*"),
    **dict.fromkeys(".．·", "."),
    **dict.fromkeys("٫،，⹁", ","),
    "٬": "'",
    "：": ":",
    "／": "/",
    "￥": "¥",
    "￡": "£",
    "￠": "¢",
    "＄": "$",
    "￦": "₩",
    "（": "(",
    "）": ")",
}
# names of currencies beside each sign that Unicode calls one
NAMES_OF = lists_of(Path(__file__).with_name("currencies.list"))
# all other words of prices, by what they say
PRICE_WORDS = {
    name: frozenset(words)
    for name, words in lists_of(Path(__file__).with_name("prices.list")).items()
}
CENTS = PRICE_WORDS["cents"]
WITHOUT_DECIMALS = PRICE_WORDS["without-decimals"]
WITH_THREE_DECIMALS = PRICE_WORDS["three-decimals"]
BY_NAME = {
    **{name: code for code, names in NAMES_OF.items() for name in names},
    **{code: code for code in PRICE_WORDS["codes"]},
}
FOLDED = {name.casefold(): BY_NAME[name] for name in PRICE_WORDS["any-case"]}
# signs and codes that may be of one currency, as in `$10.00 CAD`, `kr 5 NOK`, `Rs. 5 PKR`
FAMILIES = lists_of(Path(__file__).with_name("families.list"))
PAIRS = {(sign, code) for sign, codes in FAMILIES.items() for code in codes}


def plain_signs(text: str) -> str:
    """Returns a text with one sign for each that looks like it, and ASCII digits.

    >>> plain_signs("\\u200f٣٫٩٩ ر.س"), plain_signs("￥１，０８０"), plain_signs("3⁹⁹")
    ('3,99 ر.س', '¥1,080', '3⁹⁹')
    """
    if len(text) > LONGEST:
        return text
    signs = (LOOKS.get(sign, sign) for sign in unicodedata.normalize("NFC", text))
    digits = (str(unicodedata.decimal(sign, sign)) if len(sign) == 1 else sign for sign in signs)
    return re.sub(" +", " ", "".join(digits)).strip()


def currency_of(text: str, own: str = "") -> str | None:
    """Returns the code of a currency, or a sign that several have; None for what is none.

    >>> currency_of("€"), currency_of("Fr."), currency_of("kr"), currency_of("kg"), currency_of("p")
    ('EUR', 'CHF', 'crown', None, 'cent')
    """
    if own and text == own:
        return BY_NAME.get(own, own)
    if text in BY_NAME:
        return BY_NAME[text]
    if text in CENTS:
        return "cent"
    if len(text) == 1 and unicodedata.category(text) == "Sc" and text != NO_CURRENCY:
        return text
    return FOLDED.get(text.casefold())


def currency_of_cell(text: str) -> str:
    """Returns the currency of a cell of a column of currencies, which may be one that is not known;
    empty for an empty one.

    >>> currency_of_cell("€"), currency_of_cell("RF"), currency_of_cell("")
    ('EUR', 'RF', '')
    """
    if not text:  # most rows have no currency of their own
        return ""
    plain = plain_signs(text)
    return currency_of(plain, plain) or ""


def is_same_currency(currency: str, other: str) -> bool:
    """Returns whether two currencies, each a sign or a code, may be one.

    >>> is_same_currency("$", "CAD"), is_same_currency("EUR", "CHF")
    (True, False)
    """
    return currency == other or (currency, other) in PAIRS or (other, currency) in PAIRS


def are_currencies(texts: Sequence[str]) -> bool:
    """Returns whether all texts of a column are codes of currencies.

    >>> are_currencies(["EUR", "CHF"]), are_currencies(["EUR", ""]), are_currencies([])
    (True, False, False)
    """
    return bool(texts) and PRICE_WORDS["codes"].issuperset(texts)


def currency_remedy(name: str) -> Remedy:
    """Returns the choice of a name as that of a currency."""
    return Remedy("currency-name", name, Text("take {} as a currency", name))
