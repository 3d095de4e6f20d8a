"""Why labels(1) and its library refuse a line, as texts of which there are translations: their own
messages stay English, since a program reads them. And of which codes scanners guess the encoding.
"""

import re
from enum import IntEnum
from typing import Iterable, NamedTuple

from labeltools.common.messages import Problem, quoted
from labeltools.common.text import Text
from labeltools.lines.symbologies import QR


class LineFault(IntEnum):
    """Why a line has no symbol: the number that labels.h has for it."""

    BAD_SYMBOLOGY = 3
    NO_DATA = 4
    NOT_A_DIGIT = 5
    WRONG_NUMBER_OF_DIGITS = 6
    WRONG_CHECK_DIGIT = 7
    DATA_TOO_LONG = 8
    NOT_ASCII = 9
    DOES_NOT_FIT = 10
    LINE_TOO_LONG = 11
    BAD_SETTING = 12
    BAD_ESCAPE = 13


class Refused(NamedTuple):
    """Why a line has no code; its fault where the library has a number for it."""

    problem: Problem
    fault: int = 0


# with a letter beyond ASCII
WORD = re.compile(r"(?<![!-~])[!-~]*[^\0-\x7f][^\s]*")
SETTINGS = Text("labels(1) lists the settings and their values")
# what is said of each fault, and what to do; what differs in it is a number, or a level of QR
REASONS: dict[int, dict[Text, Text]] = {
    LineFault.LINE_TOO_LONG: {Text("line is longer than 1100 bytes"): Text("shorten the data")},
    LineFault.BAD_SYMBOLOGY: {
        Text("unknown symbology"): Text("a line begins with ean13, ean8, upca, code128 or qr")
    },
    LineFault.NO_DATA: {Text("no data"): Text("write a space and the data after the name")},
    LineFault.DATA_TOO_LONG: {
        Text("data is longer than 80 bytes"): Text("shorten the data, or draw it as qr")
    },
    LineFault.BAD_ESCAPE: {Text("bad escape at byte {}", 0): Text("write a backslash twice")},
    LineFault.NOT_A_DIGIT: {
        Text("not a digit at byte {}", 0): Text("EAN and UPC have only digits")
    },
    LineFault.WRONG_NUMBER_OF_DIGITS: {
        Text("wrong number of digits: {}", 0): Text("EAN-13 has 13, EAN-8 has 8, UPC-A has 12")
    },
    LineFault.WRONG_CHECK_DIGIT: {
        Text("check digit is {}, should be {}", 0, 0): Text("compare the number with the article")
    },
    LineFault.NOT_ASCII: {
        Text("byte {} is not ASCII", 0): Text("draw it as qr, or leave out letters with accents")
    },
    LineFault.DOES_NOT_FIT: {
        Text("data does not fit version 10-{}", 0): Text(
            "shorten the data, or choose a lower level"
        )
    },
    LineFault.BAD_SETTING: {
        Text("unknown setting {}", 0): SETTINGS,
        Text("bad value in setting {}", 0): SETTINGS,
    },
}


def refused_line(number: int, message: str) -> Refused:
    """Returns why a line is refused, by the number that the library has for it, and what it says.

    >>> found = refused_line(LineFault.WRONG_CHECK_DIGIT, "check digit is 2, should be 1")
    >>> found.problem.what.template, found.problem.hint
    ('check digit is {}, should be {}', 'compare the number with the article')
    """
    for reason, hint in REASONS.get(number, {}).items():
        pattern = re.escape(reason.template).replace(r"\{\}", "([0-9]+|[LMQH])")
        if found := re.fullmatch(pattern, message):
            return Refused(Problem(reason.with_fields(*found.groups()), hint), number)
    return Refused(Problem(Text("{}", message)), number)


def has_accents(symbology: str, data: str | bytes) -> bool:
    """Returns whether some scanners may show the data of a code wrongly: a QR code with letters
    beyond ASCII does not name their encoding.
    """
    return symbology == QR.name and not data.isascii()


def said_of_accents(where: Text, data: Iterable[str]) -> Text:
    """Returns what is said of codes with such letters, which are there.

    >>> said_of_accents(Text("rows 2, 5"), ["im Büro"])
    'rows 2, 5: some scanners show "Büro" wrongly; a QR code without accents is safe'
    """
    found = WORD.search(next(iter(data)))
    word = quoted(found[0] if found else "")
    return Text("{}: some scanners show {} wrongly; a QR code without accents is safe", where, word)
