"""What a cell is, and what a column takes of it.

A cell has a kind, a value, the runs of its letters, and a text that is shown. A column takes cells
of some kinds alone, and the four have to agree: a price is no date, though its format shows 3.12; a
number is the one of its text; letters that are raised are other signs, and those that are struck
through are none. Here all of it is judged, of whatever kind the file is: what cannot be sure leaves
its row out.
"""

import re
import unicodedata
from dataclasses import dataclass
from decimal import Decimal
from enum import auto, Enum
from itertools import pairwise
from typing import NamedTuple, Sequence

from labeltools.common.messages import named_character, Problem, quoted, Remedies, Remedy, RowError
from labeltools.common.text import NOTHING, Text


LONGEST_CELL = 131068
LONGEST_ERROR = 30  # letters of what a program writes in place of a text
FORMULA_OF_TEXT = re.compile('="((?:[^"]|"")*)"')
ERROR = re.compile(r"#(?:##+|N/A|N/D|NV|Н/Д|GETTING_DATA|[^\s#]{1,15} ?[!?])|Err:[0-9]{3}")
# LibreOffice's name of an error in its languages, before the number of the error
ERROR_WORDS = (
    "err|error|erreur|erro|errore|fehler|fout|feil|fejl|fel|virhe|hiba|chyba|błąd|greška|napaka"
    "|eroare|viga|klaida|kļūda|hata|ошибка|помилка|грешка|σφάλμα|エラー|错误|錯誤|오류"
)
PROGRAM_ERROR = re.compile(rf"(?:{ERROR_WORDS})\.? ?: ?5[0-9]{{2}}", re.IGNORECASE)
ODD_STARTS = "=#E \t\n\r\v\f"  # of cells that are looked at: formulas, and the names of errors
# what a program writes where it has no value: in place of a text or a number, where it may be in
# brackets, and in place of a code; `True` may be a title
NO_VALUES = frozenset("nan nat null none undefined na n/a".split())
NO_TEXTS = NO_VALUES | {"#n/a", r"\n"}
NO_CODES = NO_VALUES | {"nil", "true", "false", "<na>", "inf", "-inf"}
NAMES = ("Na", "na")  # which may be words; `NA` is of R and pandas
LONGEST_NO_TEXT = max(map(len, NO_TEXTS)) + 2
BRACKETS = "()[]<>{}"
# what nobody sees, or reorders letters, by the class and name of a character in Unicode
UNSEEN_CODE = re.compile("C[cf]|Z[lps]|.*(?:SELECTOR|FILLER|JOINER|INHERENT|PATTERN BLANK)")
UNSEEN_TEXT = re.compile("Cc|Z[lp]|Cf .*(?:EMBEDDING|OVERRIDE|ISOLATE|DIRECTIONAL)")
UNSEEN_PRICE = re.compile("C[cf]|Z[lp]")
NONE_UNSEEN = re.compile("(?!)")
DIRECTIONS = "\u200e\u200f\u061c"  # marks of them, which spreadsheets put around currencies
LINE_END = re.compile("\r\n?|\n")
IS_ROUNDED_DATA = re.compile("[0-9](?:[.,][0-9]+)?[Ee][+][0-9]{2,}")
ROUNDED = Text("the spreadsheet has rounded the number")
ROUNDED_HINT = Text("format the column as text, enter it again")
HAS_DIGIT = re.compile("[0-9]")
STRUCK = Text("has letters that are struck through")
UNSEEN = Text("has white letters, which nobody sees")
WITHOUT = Text("enter it again without them")
SIZES = Text("has digits of two sizes side by side, as for cents without a decimal sign")
SAME_SIZE = 0.9  # of two sizes of letters: a smaller share is another size
RAISED = Text("is a number that is raised or lowered")
CONDITION = Problem(
    Text("a condition of the spreadsheet strikes letters out or hides them, and is not read"),
    Text("look whether each row is meant, or choose rows"),
    (Remedy("where"),),
)


class CellKind(Enum):
    """What a cell is by its type, whatever its format shows."""

    TEXT = auto()
    NUMBER = auto()
    MOMENT = auto()  # a date or a time
    TRUTH = auto()  # TRUE or FALSE


class Use(NamedTuple):
    """What a column is for: the kinds of cells that it takes, what is said of a date or a time
    where it takes none; and characters that nobody sees, by their classes and names, which leave
    out the row, but for some that are passed.
    """

    kinds: tuple[CellKind, ...]
    of_moment: Text = NOTHING
    unseen: re.Pattern[str] = NONE_UNSEEN
    passed: str = " "


NUMBERS = (CellKind.TEXT, CellKind.NUMBER)
IS_NO_CODE = Text("is a date or a time, which is not a code")
IS_NO_PRICE = Text("is a date or a time, which is not a price")
DIGITS = Use(NUMBERS, IS_NO_CODE, UNSEEN_CODE)  # a code with a check digit
DATA = Use(NUMBERS, IS_NO_CODE, UNSEEN_CODE)  # a code of any letters
PRINTED = Use((*NUMBERS, CellKind.MOMENT), NOTHING, UNSEEN_TEXT, " \t\n")  # a title or a text
PRICE = Use(NUMBERS, IS_NO_PRICE, UNSEEN_PRICE, f" \t{DIRECTIONS}")
COPIES = Use(NUMBERS, Text("is a date or a time, which is not a number of copies"))
MARK = Use(tuple(CellKind))  # by which rows are chosen
IS_TRUTH = Text("has neither a text nor a number, but TRUE, FALSE or the like")
AS_TEXT = Text("enter it again as text")


class Special:
    """A cell of a spreadsheet that is more than a text.

    `value` is what the file has, which messages quote; `number` is what it counts, whatever its
    format shows, None where it has none; `cell_kind` is what it is by its type. Each method raises
    `RowError` where the cell has nothing of the kind.
    """

    value: str
    number: Decimal | None = None
    cell_kind: CellKind = CellKind.TEXT

    def shown(self) -> str:
        """Returns the text that the spreadsheet shows."""
        raise NotImplementedError

    def text_for_label(self) -> str:
        """Returns the text that the spreadsheet shows, for a label: it may be kept as an
        example.
        """
        return self.shown()

    def digits(self, is_data: bool) -> str:
        """Returns the digits of a code: with a check digit, however they are shown; as data, what
        is shown, if that is what was typed too.
        """
        return self.shown()


@dataclass(frozen=True)
class Fault(Special):
    """A cell that no label can show, and why."""

    what: Text
    hint: Text = NOTHING
    value: str = ""
    remedies: Remedies = ()

    def shown(self) -> str:
        """Raises `RowError`."""
        raise RowError(self.what, self.hint, remedies=self.remedies)


@dataclass(frozen=True)
class Truth(Special):
    """A truth value, which chooses rows, but which no label can show; `value` is its text."""

    value: str
    cell_kind = CellKind.TRUTH

    def shown(self) -> str:
        """Returns its text."""
        return self.value


# what a row has: a text as it is, or a cell that knows more; an empty cell is an empty text
Cell = str | Special


class Mark(Enum):
    """What a form of letters does to what they mean: raised digits are other signs, and letters
    that are struck through, or white where nothing is behind them, are none.
    """

    NONE = ""
    RAISED = "⁰¹²³⁴⁵⁶⁷⁸⁹"
    LOWERED = "₀₁₂₃₄₅₆₇₈₉"
    STRUCK = "-"
    WHITE = " "


class Lettering(NamedTuple):
    """How letters look, in so far as that changes what they mean; the size is in points, 0 where
    it is not known; `is_filled` is whether their cell has a colour.
    """

    mark: Mark = Mark.NONE
    size: float = 0
    is_filled: bool = False

    def within(self, cell: "Lettering") -> "Lettering":
        """Returns the form of letters in a cell, whose size they have where they have none."""
        is_seen = self.mark is Mark.WHITE and cell.is_filled
        return Lettering(
            Mark.NONE if is_seen else self.mark, self.size or cell.size, cell.is_filled
        )


PLAIN = Lettering()
NO_LETTERS = {Mark.STRUCK: STRUCK, Mark.WHITE: UNSEEN}  # marks of letters that are none
Run = tuple[str, Lettering]  # letters of a cell, with their form


def text_of_runs(runs: Sequence[Run]) -> str | Fault:
    """Returns the text of runs: digits that are raised or lowered are such digits. There is none
    if some letters are none, or a number goes on in letters of another size.

    >>> text_of_runs([("7", PLAIN), ("99", Lettering(Mark.RAISED))])
    '7⁹⁹'
    >>> text_of_runs([("9", Lettering(Mark.STRUCK)), ("7,99", PLAIN)]).value
    '97,99'
    >>> text_of_runs([("7", Lettering(size=12)), ("99", Lettering(size=8))]).what
    'has digits of two sizes side by side, as for cents without a decimal sign'
    """
    if len(runs) == 1 and runs[0][1].mark is Mark.NONE:
        return runs[0][0]  # most cells, at once
    found = [(moved(text, form.mark), form) for text, form in runs if text]
    text = "".join(text for text, _ in found)
    marks = {form.mark for part, form in found if part.strip()}
    for mark in marks & {*NO_LETTERS}:
        return Fault(NO_LETTERS[mark], WITHOUT, text)
    for (before, form), (behind, form_behind) in pairwise(found):
        is_number = before[-1].isdecimal() and behind[0].isdecimal()
        sizes = form.size, form_behind.size
        has_two_sizes = min(sizes) < SAME_SIZE * max(sizes)
        if is_number and has_two_sizes:
            return Fault(SIZES, AS_TEXT, text)
    return text


def moved(text: str, mark: Mark) -> str:
    """Returns a text with the signs of digits that are raised or lowered."""
    if mark not in (Mark.RAISED, Mark.LOWERED):
        return text
    return text.translate(str.maketrans("0123456789", mark.value))


def formed(cell: Cell, form: Lettering) -> Cell:
    """Returns a cell all of whose letters have a form."""
    mark = form.mark
    if mark is Mark.NONE or not cell:
        return cell
    if mark in NO_LETTERS:
        return Fault(NO_LETTERS[mark], WITHOUT, cell if isinstance(cell, str) else cell.value)
    if isinstance(cell, (Fault, Truth)):
        return cell
    return moved(cell, mark) if isinstance(cell, str) else Fault(RAISED, AS_TEXT, cell.value)


def taken_text(cell: Cell, use: Use) -> str:
    """Returns what a column takes of a cell; raises `RowError` where it takes none of its kind, its
    kind, value and text do not agree, or it has a character that nobody sees.
    """
    if not isinstance(cell, str):
        text = taken_of(cell, use)
    elif cell[:1] not in ODD_STARTS and cell.isascii() and len(cell) <= LONGEST_CELL:
        text = cell  # most cells, at once
    else:
        text = plain_text(cell)
    if use is PRINTED or use is PRICE and not (text[:1].isdigit() and "+" not in text):
        refuse_no_value(text)
    if not (text.isprintable() and (text.isascii() or use.unseen is not UNSEEN_CODE)):
        refuse_unseen(text, use)
    return text


def taken_of(cell: Special, use: Use) -> str:
    """Returns what a column takes of a cell that is more than a text; raises `RowError`."""
    kind = cell.cell_kind
    if kind not in use.kinds:
        raise RowError(IS_TRUTH if kind is CellKind.TRUTH else use.of_moment, AS_TEXT)
    if use is PRICE and (cell.number or 0) < 0:
        raise RowError(Text("is below zero, though its number format may not show it"))
    if use in (DIGITS, DATA):
        return cell.digits(use is DATA)
    if use is COPIES and kind is CellKind.NUMBER:
        if not HAS_DIGIT.search(shown := cell.shown()):  # TRUE, though its value is 1
            raise RowError(Text("is shown as {}, which is not a number", quoted(shown)), AS_TEXT)
        return cell.value
    return cell.shown() if use is MARK else cell.text_for_label()


def seen_text(cell: Cell) -> str:
    """Returns a cell as messages and names have it, whatever is wrong with it; nothing where it has
    no text.
    """
    if isinstance(cell, str):
        return cell
    try:
        return cell.shown()
    except MemoryError:
        raise
    except Exception:
        return cell.value


def refuse_no_value(text: str) -> None:
    """Raises `RowError` for what a program writes in place of a text or a number."""
    bare = text.strip()
    length = len(bare)
    has_no_sign = length > LONGEST_NO_TEXT and ":" not in bare and "+" not in bare
    if length > LONGEST_ERROR or has_no_sign:
        return  # all longer errors have one of these
    if "+" in bare and IS_ROUNDED_DATA.fullmatch(bare):
        raise RowError(Text("has {}: {}", quoted(text), ROUNDED), ROUNDED_HINT)
    if not bare[:1].isdigit() and is_error(bare):
        what = Text("has {}, which a program writes if it has no value", quoted(text))
        raise RowError(what, Text("fill in the value"))


def is_error(text: str) -> bool:
    """Returns whether a text is what a program writes where it has none.

    >>> [is_error(text) for text in ("nan", "Fehler:502", "Name", "LOT:502", "(null)", "NA", "Na")]
    [True, True, False, False, True, True, False]
    """
    if ":" in text:
        return PROGRAM_ERROR.fullmatch(text) is not None
    if len(text) > LONGEST_NO_TEXT or text in NAMES:
        return False
    return text.strip(BRACKETS).casefold() in NO_TEXTS


def no_value(text: str) -> RowError:
    """Returns the error of an error's name."""
    what = Text("has {}, which the spreadsheet writes if it has no value to show", quoted(text))
    return RowError(what, Text("correct its formula"))


def plain_text(cell: str) -> str:
    """Returns a cell that is a text; raises `RowError` for what a spreadsheet writes in place of a
    value.
    """
    bare = cell.strip()
    if formula := FORMULA_OF_TEXT.fullmatch(bare):
        return formula[1].replace('""', '"')
    if bare.startswith("="):
        raise RowError(Text("has {}, a formula", quoted(cell)), Text("export its value"))
    if ERROR.fullmatch(bare):
        raise no_value(cell)
    if "\ufffd" in cell:
        what = Text("has {}, with the sign of a lost letter (U+FFFD)", quoted(cell))
        raise RowError(what, Text("export the table again"))
    if len(cell) > LONGEST_CELL:
        raise RowError(
            Text("has {}, and at most {} characters of a cell are read", quoted(cell), LONGEST_CELL)
        )
    return cell


def refuse_unseen(text: str, use: Use) -> None:
    """Raises `RowError` where a text has a character that nobody sees, and that a column for a use
    does not pass; white space around lines is none.
    """
    lines = "\n".join(map(str.strip, LINE_END.split(text.strip())))
    for character in lines:
        name = f"{unicodedata.category(character)} {unicodedata.name(character, '')}"
        if use.unseen.match(name) and character not in use.passed:
            what = Text(
                "has {} in the cell {}, which nobody sees", named_character(character), quoted(text)
            )
            raise RowError(what, Text("delete it"))
