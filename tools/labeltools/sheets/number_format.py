"""Numbers as a spreadsheet shows them: formats of numbers, dates and times (ISO/IEC 29500-1,
18.8.31).

A format with names of days or months, elapsed hours, fractions, exponents, conditions or eras is
not understood: what it shows depends on the spreadsheet, so a cell that has it leaves its row out.
"""

import locale
import re
from contextlib import suppress
from dataclasses import dataclass, field
from datetime import date, datetime, timedelta
from decimal import Context, Decimal, ROUND_HALF_UP
from functools import lru_cache
from pathlib import Path
from typing import NamedTuple, Sequence

from labeltools.common.messages import quoted, Remedy, RowError
from labeltools.common.text import Text
from labeltools.common.word_lists import lists_of
from labeltools.sheets.cells import AS_TEXT

LONGEST_FORMAT = 255  # letters, as spreadsheets have it
OTHER_DATES = Remedy("date-as", "dd.mm.yyyy", Text("print dates as 31.12.2026"))
# formats that a file names by their number alone, in so far as they do not depend on the language
BUILT_IN = {
    "0": "General",
    "1": "0",
    "2": "0.00",
    "3": "#,##0",
    "4": "#,##0.00",
    "9": "0%",
    "10": "0.00%",
    "11": "0.00E+00",
    "20": "h:mm",
    "21": "h:mm:ss",
    "45": "mm:ss",
    "49": "@",
}
LANGUAGE = "of the language"  # any other format that is named by its number
DATE_OF_LANGUAGE = "date of the language"
BUILT_IN_DATES = {"14": DATE_OF_LANGUAGE}
# what is around a number, or between the parts of a date; and what it shows
LITERAL = re.compile(
    r"""\[\$(?P<currency>[^\]-]{0,30})(?:-(?P<language>[0-9A-Za-z-]{0,30}))?\]
      | "(?P<quoted>[^"]*)" | \\(?P<escaped>.) | (?P<space>_). | \*.
      | \[(?:black|blue|cyan|green|magenta|red|white|yellow|color\ ?[0-9]+)\]
      | (?P<plain>[-+/():!^&'~{}<>=\ $]|[^\x00-\x7f])""",
    re.IGNORECASE | re.VERBOSE | re.DOTALL,
)
ANY = re.sub(r"\(\?P<[a-z]+>", "(?:", LITERAL.pattern)
NUMBER = re.compile(
    rf"""(?P<before>(?:{ANY}|%)*)
        (?P<pattern>General|@|[0\#?][0\#?,]*(?:\.[0\#?]*)?(?:E\+0+)?|\.[0\#?]+|)
        (?P<behind>(?:{ANY}|%)*)""",
    LITERAL.flags,
)
DATE = r"d{1,2}(?!d)|m{1,2}(?!m)|(?:yy){1,2}(?!y)|h{1,2}(?!h)|s{1,2}(?![s.])|AM/PM"
MOMENT = re.compile(rf"(?:{DATE}|[.,]|{ANY})+", LITERAL.flags)
MOMENT_PART = re.compile(rf"(?P<date>{DATE})|[.,]|{ANY}", LITERAL.flags)
SECTION = re.compile(r"""(?:"[^"]*"|\\.|[_*].|\[[^\]]*\]|[^;"\\\[])*""", re.DOTALL)
SIGNIFICANT = Context(prec=15)  # the digits of a number in a spreadsheet
EXACT = Context(prec=600)  # those of any other, with as many decimals as a format has
FIRST_DAY = 61  # from March 1900 on all spreadsheets count from the same day
LAST_DAY = 2958465  # the end of 9999
LATER_IN_1904 = 1462  # days between the two beginnings
DAY_ZERO = date(1899, 12, 30)
SECONDS = 86400  # of a day
SAME_SECOND = Decimal("0.01")
MOST_LANGUAGES = 0xFFFF  # above it are other digits and other calendars
OF_SYSTEM = (0xF800, 0xF400)  # its own formats of dates and times
WHOLE_PATTERN = re.compile("[#?,]*[#?0]0?0?")  # with signs of thousands


SPACES_OF = {ord("_"): "\u00a0", ord("~"): "\u202f"}  # in the file of signs


class Signs(NamedTuple):
    """The decimal sign of a number, and the one between its thousands."""

    decimal: str
    thousands: str


# the signs of languages, and of countries where these differ
SIGNS_OF = {
    language: Signs(*signs.translate(SPACES_OF))
    for signs, languages in lists_of(Path(__file__).with_name("signs.list")).items()
    for language in languages
}


@dataclass(frozen=True)
class Section:
    """What a format shows of positive, negative or zero numbers, or of texts: a number by its
    pattern, with what is around it, or the parts of a date or a time; else words alone.

    `language` is that of its signs, as `de_DE`; empty where it names none. The language of a
    currency, as in `[$zł-415]`, is not that of the signs.
    """

    before: str = ""
    pattern: str = ""
    behind: str = ""
    is_percentage: bool = False
    language: str = ""
    moment: tuple[str, ...] = ()


@dataclass
class Formatter:
    """Shows numbers as a spreadsheet does.

    `signs` are those of formats without a language; `date_as` is how every date is shown, if it is
    not empty, and `local_date` how one is whose format leaves it to the language. `first_number`
    and `first_date` are what was shown first by these, for a message that asks whether that is
    right.
    """

    signs: Signs
    date_as: str = ""
    local_date: str = "yyyy-mm-dd"
    first_number: str = field(default="", init=False)
    first_date: str = field(default="", init=False)

    def formatted(self, number_format: str, value: Decimal, is_from_1904: bool = False) -> str:
        """Returns a number as its format shows it; raises `RowError` for a format that is not
        understood.
        """
        if number_format == DATE_OF_LANGUAGE:
            pattern = self.date_as or self.local_date
            return date_text(date_section(pattern), value, is_from_1904)
        if self.date_as and is_date_format(number_format):
            return date_text(date_section(self.date_as), value, is_from_1904)
        value = SIGNIFICANT.plus(value)
        section, is_signed = section_for(number_format, value)
        if section.moment:
            return date_text(section, value, is_from_1904)
        if not section.pattern and value:
            raise not_understood(number_format)
        size = abs(value).scaleb(2 if section.is_percentage else 0)
        signs = signs_of(section.language) or self.signs
        number = by_pattern(size, section.pattern, signs) if section.pattern else ""
        text = f"{section.before}{number}{section.behind}".strip()
        return f"-{text}" if is_signed and re.search("[1-9]", text) else text

    def keep_example(self, number_format: str, text: str) -> None:
        """Keeps a text that was shown, where the file does not say its signs, or the order of its
        date; a slash in a date stands for the sign of the language.
        """
        is_date = is_date_format(number_format)
        if number_format == DATE_OF_LANGUAGE or is_date and "/" in number_format:
            self.first_date = self.first_date or text
        elif not self.first_number and not is_date:
            has_sign = self.signs.decimal in text or self.signs.thousands in text
            self.first_number = text if has_sign else ""


def not_understood(number_format: str, is_code: bool = False) -> RowError:
    """Returns the error of a format; a date, which is no code, may be written anew."""
    if number_format == LANGUAGE:
        what = Text("has a number format that depends on the language of the spreadsheet")
        return RowError(what, AS_TEXT)
    what = Text("has the number format {}, which is not understood", quoted(number_format))
    if is_date_format(number_format) and not is_code:
        return RowError(what, remedies=(OTHER_DATES,))
    return RowError(what, AS_TEXT)


@lru_cache(maxsize=256)
def is_of_time(number_format: str) -> bool:
    """Returns whether a format shows numbers as dates or times.

    >>> is_of_time("d.m"), is_of_time("0.00;@")
    (True, False)
    """
    if number_format == DATE_OF_LANGUAGE:
        return True
    try:
        return any(section.moment for section in sections_of(number_format))
    except RowError:
        return is_date_format(number_format)


def section_for(number_format: str, value: Decimal) -> tuple[Section, bool]:
    """Returns the section of a format that shows a number, and whether the number has a sign
    there; a last section with `@` shows texts alone.
    """
    sections = sections_of(number_format)
    count = len(sections) - (len(sections) > 1 and sections[-1].pattern == "@")
    if count > 2 and value == 0:
        return sections[2], False
    return (sections[1], False) if count > 1 and value < 0 else (sections[0], value < 0)


@lru_cache(maxsize=256)
def sections_of(number_format: str) -> tuple[Section, ...]:
    """Returns the sections of a format; raises `RowError` for one that is not understood."""
    sections: list[Section] = []
    end = -1
    while end < len(number_format) <= LONGEST_FORMAT:
        found = SECTION.match(number_format, end + 1)
        if not found or number_format[found.end() : found.end() + 1] not in ("", ";"):
            raise not_understood(number_format)
        sections.append(section_of(found[0], number_format))
        end = found.end()
    if not sections:
        raise not_understood(number_format)
    return tuple(sections)


def section_of(text: str, number_format: str) -> Section:
    """Returns a section of a format; raises `RowError` for one that is not understood."""
    language = ""
    for literal in LITERAL.finditer(text):
        if literal["language"] and not literal["currency"]:
            language = language_of(literal["language"], number_format)
    if found := NUMBER.fullmatch(text):
        around = LITERAL.sub("", found["before"] + found["behind"])
        before, behind = (LITERAL.sub(literal_shown, found[part]) for part in ("before", "behind"))
        is_framed = found["pattern"] == "@" and (before + behind).strip()
        if around in ("", "%") and (found["pattern"] or not around) and not is_framed:
            return Section(before, found["pattern"], behind, around == "%", language)
    elif MOMENT.fullmatch(text):
        parts = [
            part["date"] or f"'{LITERAL.sub(literal_shown, part[0])}"
            for part in MOMENT_PART.finditer(text)
        ]
        moment = with_minutes(parts)
        if any(part[0] in "dmyhns" for part in moment):
            return Section(language=language, moment=moment)
    raise not_understood(number_format)


def literal_shown(found: re.Match[str]) -> str:
    """Returns what a literal shows.

    >>> LITERAL.sub(literal_shown, '"a" \\\\b_-[$€-407][Red]')
    'a b €'
    """
    named = found["quoted"] or found["escaped"] or found["currency"] or found["plain"]
    return named or (" " if found["space"] else "")


def language_of(code: str | None, number_format: str) -> str:
    """Returns the language of a format by Windows' number or its name, as `407` or `de-DE`; empty
    for none.

    >>> [language_of(code, "") for code in ("407", "de-CH", None, "1")]
    ['de_DE', 'de_CH', '', '']
    """
    if not code:
        return ""
    if not re.fullmatch("[0-9A-F]{1,8}", code, re.IGNORECASE):
        return code.replace("-", "_")
    number = int(code, 16)
    if number > MOST_LANGUAGES or number in OF_SYSTEM:
        raise not_understood(number_format)
    return locale.windows_locale.get(number, "")


def signs_of(language: str) -> Signs | None:
    """Returns the signs of a language, if it is known.

    >>> signs_of("de_DE"), signs_of("de_CH").decimal, signs_of("xx_YY")
    (Signs(decimal=',', thousands='.'), '.', None)
    >>> "".join(signs_of(name).decimal for name in ("es_ES", "es_MX", "es_DO", "es_PR", "es_SV"))
    ',....'
    """
    return SIGNS_OF.get(language) or SIGNS_OF.get(language.partition("_")[0])


def with_minutes(parts: Sequence[str]) -> tuple[str, ...]:
    """Returns the parts of a moment in small letters; an `m` behind hours or before seconds is of
    minutes, `n`. What is no part of it begins with an apostrophe.

    >>> with_minutes(["h", "':", "MM"])
    ('h', "':", 'nn')
    """
    found = [part if part[0] == "'" else part.lower() for part in parts]
    dates = [place for place, part in enumerate(found) if part[0] != "'" and part != "am/pm"]
    for before, place, behind in zip([-1, *dates], dates, [*dates[1:], -1]):
        is_behind = before >= 0 and found[before][0] == "h"
        is_before = behind >= 0 and found[behind][0] == "s"
        if found[place][0] == "m" and (is_behind or is_before):
            found[place] = "n" * len(found[place])
    return tuple(found)


@lru_cache(maxsize=256)
def is_date_format(number_format: str) -> bool:
    """Returns whether a format shows a date, of whatever kind; those that are not understood are
    looked at too.

    >>> [is_date_format(text) for text in ("d. mmm yyyy", "0.00", '"Day" 0', "h:mm")]
    [True, False, False, False]
    """
    bare = re.sub(r'"[^"]*"|\\.|\[[^\]]*\]', "", number_format[:LONGEST_FORMAT])
    return "general" not in bare.lower() and bool(re.search("[dy]", bare, re.IGNORECASE))


@lru_cache(maxsize=16)
def date_section(pattern: str) -> Section:
    """Returns the section of a format of dates or times, as `dd.mm.yyyy`; raises ValueError.

    >>> date_text(date_section("dd.mm.yy"), Decimal(46351))
    '25.11.26'
    """
    with suppress(RowError):
        section, *others = sections_of(pattern)
        if section.moment and not others:
            return section
    raise ValueError(Text("{!r}: write it as 'dd.mm.yyyy'", pattern))


def date_text(section: Section, value: Decimal, is_from_1904: bool = False) -> str:
    """Returns the day and time of a number; raises `RowError` where spreadsheets show different
    ones.
    """
    is_dated = any(part[0] in "dmy" for part in section.moment)
    moment = moment_of(value, is_from_1904, is_dated)
    is_noon = "am/pm" in section.moment
    return "".join(date_part(part, moment, is_noon) for part in section.moment).strip()


def moment_of(value: Decimal, is_from_1904: bool, is_dated: bool) -> datetime:
    """Returns the moment of a number of days, to the second; a format may show only its time."""
    day, second = divmod(int(value * SECONDS + SAME_SECOND), SECONDS)
    day += LATER_IN_1904 if is_from_1904 else 0
    if not is_dated and 0 <= day < FIRST_DAY:  # a time alone
        day = FIRST_DAY
    if not FIRST_DAY <= day <= LAST_DAY:
        raise RowError(Text("is a date before March 1900 or after 9999"), AS_TEXT)
    start = datetime.combine(DAY_ZERO, datetime.min.time())
    return start + timedelta(days=day, seconds=second)


def date_part(part: str, moment: datetime, is_noon: bool) -> str:
    """Returns what a part of a format shows of a moment."""
    if part[0] == "'":
        return part[1:]
    if part == "am/pm":
        return "AM" if moment.hour < 12 else "PM"
    if part[0] == "y":
        return f"{moment.year:04}"[-len(part) :]
    hour = (moment.hour + 11) % 12 + 1 if is_noon else moment.hour
    numbers = {"d": moment.day, "m": moment.month, "h": hour, "n": moment.minute}
    return str(numbers.get(part[0], moment.second)).zfill(len(part))


class DigitPattern(NamedTuple):
    """How a pattern of `0`, `#`, `?`, `,` and a point shows a number: `unit` is that of its last
    decimal, of which `needed` are always there, as `least` digits of the whole number are; it
    `shows_zero` where each spreadsheet shows that alike.
    """

    unit: Decimal
    needed: int
    least: int
    has_groups: bool
    has_point: bool
    shows_zero: bool


@lru_cache(maxsize=256)
def digits_by(pattern: str) -> DigitPattern:
    """Returns how a pattern shows a number; raises `RowError` where spreadsheets differ."""
    whole_pattern, point, decimals_pattern = pattern.partition(".")
    has_groups = "," in whole_pattern
    is_plain = "E" not in pattern.upper() and "," not in decimals_pattern
    are_groups_whole = not has_groups or WHOLE_PATTERN.fullmatch(whole_pattern)
    if not is_plain or not are_groups_whole:
        raise not_understood(pattern)
    return DigitPattern(
        unit=Decimal(1).scaleb(-len(decimals_pattern)),
        needed=len(decimals_pattern.rstrip("#?")),
        least=least_digits(pattern),
        has_groups=has_groups,
        has_point=point != "",
        shows_zero=not re.search("0,*[#?]", whole_pattern),
    )


def by_pattern(value: Decimal, pattern: str, signs: Signs) -> str:
    """Returns a number that is not negative by `General`, or by a pattern of `0`, `#`, `?`, `,` and
    a point.
    """
    if pattern[0] in "Gg@":
        return general(value, signs)
    form = digits_by(pattern)
    rounded = value.quantize(form.unit, ROUND_HALF_UP, EXACT)
    whole, _, decimals = f"{rounded:,f}".partition(".")
    decimals = decimals[: form.needed] + decimals[form.needed :].rstrip("0")
    is_odd = whole == "0" and not form.shows_zero
    has_point_alone = form.has_point and not decimals
    if is_odd or has_point_alone:  # here spreadsheets differ
        raise not_understood(pattern)
    whole = whole.replace(",", signs.thousands if form.has_groups else "")
    whole = whole.lstrip("0").zfill(form.least)
    return whole + (signs.decimal + decimals if decimals else "")


@lru_cache(maxsize=256)
def least_digits(pattern: str) -> int:
    """Returns how many digits of a whole number a pattern has at least: those from its first `0`
    on.

    >>> least_digits("#,##0.00"), least_digits("0#"), least_digits("#")
    (1, 2, 0)
    """
    _, zero, rest = re.split("[.Ee]", pattern)[0].partition("0")
    return len(zero + rest.replace(",", ""))


def general(value: Decimal, signs: Signs) -> str:
    """Returns a number by `General`; raises `RowError` for one that is shown otherwise in a narrow
    column.

    Up to nine digits each spreadsheet shows the same, however wide the column is.
    """
    text = f"{value.normalize():f}"
    is_long = "." in text and len(text.strip("0.").replace(".", "")) > 9
    if value >= 10**15 or is_long:
        raise RowError(
            Text("is the number {} in a format without fixed decimals", text),
            Text("give it a format such as 0.00"),
        )
    return text.replace(".", signs.decimal)


def digits_of(number_format: str, value: Decimal, is_data: bool = False) -> str:
    """Returns the digits of a whole number that is shown as one, with the zeros that its format
    puts in front.

    As data, which has no check digit, it must be shown without decimals and exponent. Raises
    `RowError`.
    """
    if number_format in (LANGUAGE, DATE_OF_LANGUAGE):
        raise not_understood(LANGUAGE, is_code=True)
    section = sections_of(number_format)[0]
    if not section.pattern or (section.before + section.behind).strip():
        raise not_understood(number_format, is_code=True)
    if value != value.to_integral_value() or abs(value) >= 10**15:
        raise RowError(
            Text("is the number {}, which is not whole or has too many digits", value), AS_TEXT
        )
    pattern = section.pattern
    is_general = pattern[0] in "Gg@"
    if is_data and not is_general and re.search(r"[.Ee]|,\Z", pattern):
        form = quoted(number_format)
        what = Text("has the number format {}, and would be drawn as {:.0f}", form, value)
        raise RowError(what, AS_TEXT)
    zeros = 0 if is_general else least_digits(pattern)
    return f"{value:.0f}".zfill(zeros)


def local_signs(decimal: str | None) -> Signs:
    """Returns the signs of numbers by their decimal sign, or those of the locale where that is
    None.
    """
    if decimal is None:
        with suppress(locale.Error):  # the locale is not installed
            locale.setlocale(locale.LC_NUMERIC, "")
    found = locale.localeconv()
    point = decimal or str(found["decimal_point"])
    thousands = str(found["thousands_sep"])
    if not thousands or thousands == point:
        thousands = "." if point == "," else ","
    return Signs(point, thousands)


def local_date() -> str:
    """Returns how the locale writes a date, as `dd.mm.yyyy`; by ISO 8601 where it does not say it
    plainly.
    """
    with suppress(locale.Error):
        locale.setlocale(locale.LC_TIME, "")
    if (locale.setlocale(locale.LC_TIME) or "C").startswith(("C", "POSIX")):
        return "yyyy-mm-dd"
    pattern = locale.nl_langinfo(locale.D_FMT)
    for sign, letters in {"%d": "dd", "%m": "mm", "%Y": "yyyy", "%y": "yyyy", "%-d": "d"}.items():
        pattern = pattern.replace(sign, letters)
    try:
        date_section(pattern)
    except ValueError:
        return "yyyy-mm-dd"
    return pattern
