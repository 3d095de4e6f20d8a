"""What a code is: it is taken only where it is sure."""

import re
from dataclasses import dataclass
from functools import cached_property
from typing import NamedTuple, Sequence

from labeltools.common.messages import named_character, Problem, quoted, Remedy, RowError
from labeltools.common.text import counted, joined, NOTHING, Text
from labeltools.lines.symbologies import (
    check_digit,
    CODE128,
    EAN13,
    EAN8,
    is_right,
    NUMBERS,
    QR,
    SYMBOLOGIES,
    UPCA,
)
from labeltools.sheets.cells import (
    AS_TEXT,
    IS_ROUNDED_DATA,
    NO_CODES,
    PROGRAM_ERROR,
    ROUNDED,
    ROUNDED_HINT,
)

AUTO = "auto"
FREE = (CODE128.name, QR.name)
# symbologies by the letters and digits of their names
NAMED = {
    **{name: name for name in (*SYMBOLOGIES, AUTO)},
    **{"qrcode": "qr", "gtin13": "ean13", "gtin8": "ean8", "upc": "upca", "gtin12": "upca"},
}
NAMES = (AUTO, *(number.name for number in NUMBERS.values()), *FREE)
LENGTHS = {number.name: length for length, number in NUMBERS.items()}
ZEROS_ARE_LOST, NO_CHECK_DIGIT = WAYS_OF_DIGITS = ("lost-zeros", "no-check")
MOST_ZEROS = 3  # that are put back
# a number with decimals, or in groups: those of an ISBN, and those that are printed below bars
WITH_SIGNS = re.compile(
    r"\d+[.,]0+|97[89](?:[- ]?\d){10}|\d \d{6} \d{6}|\d{4} \d{4}|\d \d{5} \d{5} \d"
)
ISBN_10 = re.compile("(?:[0-9][- ]?){8,9}[0-9Xx]")
# 4,00635E+12 shows at most six digits; as 4006350000000 it has six zeros before the check digit
LOOKS_ROUNDED = re.compile("[0-9]*0{6}[0-9]|(?=.{11})0*+[1-9][0-9]{0,5}0+")
IS_ROUNDED = re.compile("[0-9]+(?:[.,][0-9]+)?[Ee][+]?[0-9]+")
KEYS = sorted({key for symbology in SYMBOLOGIES.values() for key in symbology.settings})
WITH_SETTINGS = Text("delete it, and give it for all codes")
# what would be drawn though nobody means it, and what to do about it
AROUND = {
    rf"(?:{'|'.join(KEYS)})=\S*(?: .*)?": Problem(
        Text("begins with a setting"), WITH_SETTINGS, (Remedy("settings"),)
    ),
    r"\s.*": Problem(Text("begins with a space"), Text("delete the space")),
    r".*\s": Problem(Text("ends in a space"), Text("delete the space")),
    r"\".*\"|'.+'|[“„].*[“”]|«.*»|».*«": Problem(Text("is in quotes"), Text("delete the quotes")),
    "'.*": Problem(Text("begins with an apostrophe"), Text("delete the apostrophe")),
    r"\*.+\*": Problem(Text("is between asterisks"), Text("delete the asterisks")),
}
AROUND_DATA = re.compile("|".join(AROUND), re.DOTALL)
# what GS1's texts in brackets begin with: an SSCC, or a GTIN
IN_BRACKETS = re.compile(r"\((?:00\)(?=[0-9]{18})|0[12]\)(?=[0-9]{14}))([0-9]+).*", re.DOTALL)
WITHOUT_DIGIT = Remedy("digits", NO_CHECK_DIGIT, Text("add check digits to the codes"))


def kind_remedy(name: str) -> Remedy:
    """Returns the choice of a symbology."""
    says = Text("find their kind")
    if name in SYMBOLOGIES:
        says = Text("draw the codes as {}", SYMBOLOGIES[name].title)
    return Remedy("symbology", name, says)


ARE_MISSING = Text("are check digits missing?")
OTHER_KIND = Text("is it another kind of code?")
OTHER_CODES = tuple(map(kind_remedy, FREE))
HAS_DIGIT = Remedy("digits", says=Text("take the last digit as the check digit"), is_less=True)
LOST_ZEROS = Text("are leading zeros lost?")
FILL_ZEROS = Remedy("digits", ZEROS_ARE_LOST, Text("put lost zeros back in front"))
NO_ZEROS = Remedy("digits", says=Text("put no zeros in front"), is_less=True)
NOT_SHORT = 7  # digits: shorter numbers are no EAN or UPC that has lost some


@dataclass(frozen=True)
class CodeRules:
    """How codes are read: the symbology, or `auto`; which digits are missing, if some are; and
    whether they may look rounded.
    """

    symbology: str = AUTO
    digits: str = ""
    allow_zeros: bool = False

    @cached_property
    def is_free(self) -> bool:
        """Whether a code is any text."""
        return self.symbology in FREE


class OtherCode(RowError):
    """Why a code is no EAN or UPC, though it may be another one."""


class WrongDigit(RowError):
    """A check digit that is wrong."""


class Code(NamedTuple):
    """A code: its symbology, the data of its line, and all of its digits."""

    symbology: str
    data: str
    whole: str

    @property
    def article(self) -> str:
        """What two codes of one article have in common: a GTIN of 14 digits."""
        return self.data if self.symbology in FREE else self.whole.zfill(14)


def code_of(cell: str, rules: CodeRules) -> Code:
    """Returns the code of a cell that is not empty; raises `RowError` for what is not surely that
    code.
    """
    if rules.is_free:
        check_data(cell)
        return Code(rules.symbology, cell, cell)
    missing = rules.digits == NO_CHECK_DIGIT
    bare = cell.strip().removeprefix("'")
    if not bare:
        raise RowError(Text("{} {}", quoted(cell), Text("has neither a letter nor a digit")))
    digits = digits_in(bare, not missing)
    if len(digits) == 14 and digits[0] == "0" and is_right(digits) and not missing:
        has_two = rules.symbology == UPCA.name and digits[1] == "0"
        digits = digits[2:] if has_two else digits[1:]
    symbology = rules.symbology if rules.symbology != AUTO else symbology_of(digits, rules)
    filled = filled_up(digits, symbology, rules)
    if not missing and not is_right(filled):
        raise wrong_check_digit(filled, len(digits), rules)
    if LOOKS_ROUNDED.fullmatch(filled + "0" * missing) and not rules.allow_zeros:
        remedy = Remedy("allow-zeros", says=Text("take codes that end in zeros"))
        what = Text("{} looks rounded by the spreadsheet", filled)
        raise RowError(what, AS_TEXT, remedies=(remedy,))
    return Code(symbology, filled, filled + check_digit(filled) if missing else filled)


def symbology_named(text: str) -> str:
    """Returns the symbology that a text names, or `auto`; empty if it names none.

    >>> symbology_named("EAN-13"), symbology_named("QR code"), symbology_named("Kind")
    ('ean13', 'qr', '')
    """
    return NAMED.get(re.sub("[^a-z0-9]", "", text.casefold()), "")


def check_data(cell: str) -> None:
    """Raises `RowError` for what would be drawn as data though nobody means it."""
    if IS_ROUNDED_DATA.fullmatch(cell):
        raise RowError(Text("{}: {}", quoted(cell), ROUNDED), ROUNDED_HINT)
    if cell.strip().casefold() in NO_CODES or PROGRAM_ERROR.fullmatch(cell.strip()):
        raise RowError(Text("{} is what a program writes if it has no value", quoted(cell)))
    if AROUND_DATA.fullmatch(cell):
        matches = (
            around for pattern, around in AROUND.items() if re.fullmatch(pattern, cell, re.S)
        )
        around = next(matches)
        what = Text("{} {}, which would become part of the code", quoted(cell), around.what)
        raise RowError(what, around.hint, remedies=around.remedies)


def is_in_brackets(data: str) -> bool:
    """Returns whether data is GS1's, as people read it.

    >>> is_in_brackets("(01)04006381333931(10)ABC"), is_in_brackets("(01)04006381333932")
    (True, False)
    """
    found = IN_BRACKETS.fullmatch(data)
    return found is not None and is_right(found[1])


def digits_in(cell: str, has_check_digit: bool) -> str:
    """Returns the digits of a number, without other signs where its check digit confirms them;
    raises `RowError`.
    """
    if len(cell) > 10 and cell.isascii() and cell.isdigit() and cell.strip("0"):  # most codes
        return cell
    digits = cell
    if has_check_digit and WITH_SIGNS.fullmatch(cell):
        digits = re.sub("[.,]0+|[- ]", "", cell)
    if IS_ROUNDED.fullmatch(digits):
        raise RowError(Text("{}: {}", quoted(digits), ROUNDED), ROUNDED_HINT)
    if re.fullmatch("0+", digits):
        raise RowError(Text("{} has only zeros, and is not an article number", quoted(digits)))
    if ean := ean_of_isbn(digits):
        raise RowError(Text("{} is an ISBN of ten digits", digits), Text("its EAN-13 is {}", ean))
    if other := re.search("[^0-9]", digits):
        what = Text(
            "{} has other characters than digits: character {} is {}",
            quoted(digits),
            other.start() + 1,
            named_character(other.group()),
        )
        raise OtherCode(what, OTHER_KIND, remedies=OTHER_CODES)
    return digits


def ean_of_isbn(digits: str) -> str:
    """Returns the EAN-13 of an ISBN of ten digits; empty for what is none.

    ISO 2108: weights 10 to 1, X is 10; 11 divides the sum.

    >>> ean_of_isbn("0-306-40615-2"), ean_of_isbn("0306406153")
    ('9780306406157', '')
    """
    if not ISBN_10.fullmatch(digits):
        return ""
    ten = re.sub("[- ]", "", digits).upper().zfill(10)
    values = ["0123456789X".index(digit) for digit in ten]
    total = sum(weight * value for weight, value in zip(range(10, 0, -1), values))
    twelve = "978" + ten[:9]
    return "" if total % 11 else twelve + check_digit(twelve)


def symbology_of(digits: str, rules: CodeRules) -> str:
    """Returns the symbology of a number by its digits, if there is one; raises `RowError` where two
    may be meant.
    """
    missing = rules.digits == NO_CHECK_DIGIT
    count = len(digits) + missing
    are_lost = rules.digits == ZEROS_ARE_LOST
    is_short = are_lost and count == 7 and is_right(digits)
    has_all_digits = digits[:1] == "0" and count == 8
    if has_all_digits or is_short:
        what = Text("{} may be a UPC-E, which labels does not draw", digits)
        raise RowError(what, Text("is it an EAN-8?"), remedies=(kind_remedy(EAN8.name),))
    if missing and count in NUMBERS and is_right(digits):
        what = Text("{} may have its check digit", digits)
        raise RowError(what, Text("is it missing?"), remedies=(kind_remedy(NUMBERS[count].name),))
    name = NUMBERS[count].name if count in NUMBERS else ""
    if are_lost and EAN13.digits - MOST_ZEROS <= count <= EAN13.digits:
        name = EAN13.name
    if len(digits.lstrip("0")) + missing <= 8 < count:
        what = Text("{} may be an EAN-8 with zeros in front", digits)
        remedies = (kind_remedy(name),) if name else ()
        raise RowError(what, Text("write its {} digits", 8 - missing), remedies=remedies)
    return name


def filled_up(digits: str, symbology: str, rules: CodeRules) -> str:
    """Returns the digits of a number, with the zeros that it has lost; raises `RowError` for
    another length.
    """
    length = LENGTHS.get(symbology, 0) - (rules.digits == NO_CHECK_DIGIT)
    filled = digits
    if rules.digits == ZEROS_ARE_LOST and len(digits) >= length - MOST_ZEROS:
        filled = digits.zfill(length)
    if len(filled) != length:
        raise wrong_length(digits, [symbology] if symbology else list(LENGTHS), rules)
    return filled


def wrong_length(digits: str, asked: Sequence[str], rules: CodeRules) -> RowError:
    """Returns the error of a number with other digits than its symbology has, and what to do."""
    count = len(digits)
    missing = rules.digits == NO_CHECK_DIGIT
    of_kinds = (
        Text("{} has {}", SYMBOLOGIES[name].title, LENGTHS[name] - missing) for name in asked
    )
    lengths = joined(", ", of_kinds)
    what = counted("{1} has {0} digit, {2}", "{1} has {0} digits, {2}", count, digits[:20], lengths)
    is_auto = rules.symbology == AUTO
    may_miss = count + 1 in NUMBERS and not missing
    eight = EAN8.digits - missing
    has_zeros = asked == [EAN8.name] and len(digits.lstrip("0")) <= eight < count
    if has_zeros:
        return RowError(what, Text("write its {} digits", eight))
    if count == 14:
        return RowError(what, Text("a GTIN-14 is drawn as ITF-14, which labels does not draw"))
    helps = (
        (count == EAN13.digits and not missing, NOTHING, (kind_remedy(AUTO),)),
        (not NOT_SHORT <= count <= EAN13.digits, OTHER_KIND, OTHER_CODES),
        (missing, Text("have some a check digit?"), (HAS_DIGIT,)),
        (is_right(digits) and is_auto, LOST_ZEROS, (FILL_ZEROS,)),
        (is_right(digits), LOST_ZEROS, (FILL_ZEROS, kind_remedy(AUTO))),
        (may_miss, ARE_MISSING, (WITHOUT_DIGIT,)),
        (True, OTHER_KIND, OTHER_CODES),
    )
    hint, remedies = next((hint, remedies) for is_so, hint, remedies in helps if is_so)
    kind = OtherCode if remedies is OTHER_CODES else RowError
    return kind(what, hint, remedies=remedies)


def wrong_check_digit(filled: str, count: int, rules: CodeRules) -> WrongDigit:
    """Returns the error of a number whose check digit is wrong; `count` are the digits that it has
    in the table.
    """
    right = check_digit(filled[:-1])
    what = Text("{}: a digit is wrong (with these digits the last one would be {})", filled, right)
    hint = Text("compare the number with the article")
    may_miss = rules.symbology == AUTO and count == 12
    if may_miss:
        return WrongDigit(what, joined("; ", (hint, ARE_MISSING)), remedies=(WITHOUT_DIGIT,))
    return WrongDigit(what, hint)
