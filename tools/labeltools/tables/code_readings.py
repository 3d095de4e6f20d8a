"""How the codes of a column may be read, by all of them together."""

import re
from collections.abc import Sequence
from dataclasses import dataclass
from functools import partial

from labeltools.common.messages import RowError
from labeltools.common.text import NOTHING, Text
from labeltools.lines.symbologies import CODE128, NUMBERS, QR
from labeltools.tables.codes import code_of, CodeRules, NO_CHECK_DIGIT
from labeltools.tables.column_samples import ColumnSample, has_lost_zeros, is_code, WITH_ZEROS

NO_BARS = re.compile(".*://.*|.{31,}")
# numbers of a library or a shop: with letters, or longer than any EAN; but none as 4.01E+12
OWN_NUMBER = re.compile(r"(?=.*[^\W\d_])[\w./-]+|[1-9][0-9]{13,}")
# as many digits as an EAN or UPC has: if the check digit is wrong, only the keeper knows what it is
OF_LENGTH = re.compile("|".join(f"[0-9]{{{length}}}" for length in NUMBERS))
# how numbers that are no EAN or UPC as they are may be meant
ANY_TEXT = CodeRules(CODE128.name)
OTHER_WAYS = (WITH_ZEROS, CodeRules(digits=NO_CHECK_DIGIT), ANY_TEXT)


@dataclass(frozen=True)
class CodeReading:
    """How the codes of a column may be read, of which each way reads most of them; `problem` is why
    most are no EAN or UPC, if they may be meant as one.
    """

    rules: Sequence[CodeRules] = (CodeRules(),)
    problem: Text = NOTHING

    @property
    def are_sure(self) -> bool:
        """Whether they are EAN or UPC."""
        return not self.problem and not self.rules[0].is_free


def reading_of(column: ColumnSample) -> CodeReading:
    """Returns how the codes of a column may be read; numbers of a country are no EAN with a wrong
    digit.
    """
    if has_lost_zeros(column.texts):
        return CodeReading([WITH_ZEROS])
    if column.mostly_pass(is_code):
        return CodeReading()
    are_own = column.mostly_pass(OWN_NUMBER.fullmatch)
    have_length = not are_own and column.mostly_pass(OF_LENGTH.fullmatch)
    are_meant = have_length or column.says("codes") and not are_own
    if are_meant and not column.says("national"):
        ways = ((way, partial(is_code, rules=way)) for way in OTHER_WAYS)
        rules = [way for way, test in ways if column.mostly_pass(test)]
        are_only_text = rules == [ANY_TEXT] and not have_length
        if not are_only_text:
            return CodeReading(rules or [CodeRules()], problem_of(column.texts))
    is_long = column.mostly_pass(NO_BARS.fullmatch)
    return CodeReading([CodeRules(QR.name) if is_long else ANY_TEXT])


def problem_of(texts: Sequence[str]) -> Text:
    """Returns why the first text that is no EAN or UPC is none."""
    for text in texts:
        try:
            code_of(text, CodeRules())
        except RowError as problem:
            return problem.what
    return NOTHING
