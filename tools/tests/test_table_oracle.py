"""Workbooks of three writers, read by labeltools and by Gnumeric: each cell, row, hidden row and
error is compared.

openpyxl and xlsxwriter write .xlsx; .ods is written here as LibreOffice writes it, with the text
that a cell shows beside its value. Gnumeric works that text out again from the value and the
format. The seed is fixed. Where the two readers differ, the difference has a name and a reason; a
difference without one fails.
"""

import csv
import gzip
import importlib.util
import io
import os
import random
import re
import subprocess
import tempfile
import unittest
from collections import Counter
from pathlib import Path
from typing import Any, Callable, Iterator, NamedTuple
from xml.etree import ElementTree

import support
from labeltools.common.messages import RowError, Talk
from labeltools.sheets.cells import PRINTED, taken_of
from labeltools.sheets.number_format import Formatter, Signs
from labeltools.sheets.rows import Row
from labeltools.tables.table import rows_of_workbook
from workbooks import ods, ods_cell, table

SEED = 60
MANIFEST_SPACE = "urn:oasis:names:tc:opendocument:xmlns:manifest:1.0"
MANIFEST = "".join(
    f'<manifest:file-entry manifest:full-path="{path}" manifest:media-type="{media}"/>'
    for path, media in (
        ("/", "application/vnd.oasis.opendocument.spreadsheet"),
        ("content.xml", "text/xml"),
    )
)
MANIFEST = f'<manifest:manifest xmlns:manifest="{MANIFEST_SPACE}">{MANIFEST}</manifest:manifest>'


def between_bars(text: str) -> tuple[str, ...]:
    """What is between bars and line ends."""
    return tuple(re.split(r" \| |\n", text.strip("\n")))


# formats of which a cell leaves its row out: what they show depends on the program
NOT_UNDERSTOOD = between_bars(
    r"""
0.00E+00 | ##0.0E+0 | # ?/? | # ??/?? | [h]:mm | d. mmm yyyy | mmm yy | dddd | [>100]0.0;0.000
0.0, | 0, | 0.0,,"M" | 0000-00
"""
)
FORMATS = (
    *between_bars(
        r"""
General | 0 | 0.0 | 0.00 | 0.000 | 0.00000 | #,##0 | #,##0.0 | #,##0.00 | #,##0.000 | 0% | 0.0%
0.00% | 00000 | 000 | 0000000000000 | # | #.## | 0.0# | 0.00## | #,##0.00## | 0" Stück" | 0 "kg"
0.00 "€" | "€" 0.00 | #,##0.00 "€" | #,##0.00\ [$€-407] | [$$-409]#,##0.00 | [$£-809]#,##0.00
#,##0.00\ [$zł-415] | [$CHF-807] #,##0.00 | $#,##0.00 | [$€-2] 0.00 | [$¥-411]#,##0 | 0.00;-0.00
0.00;[Red]-0.00 | #,##0.00_);(#,##0.00) | 0;(0) | 0;0;"free" | +0;-0;0
_-* #,##0.00\ "€"_-;\-* #,##0.00\ "€"_-;_-* "-"??\ "€"_-;_-@_- | _(* #,##0.00_);_(* (#,##0.00)
[Blue]0.00 | [Red]0 | \A0 | 0\ \k\g | "a;b"0 | 0.00 "per kg" | 0.00"/kg" | (0) | -0 | 0# | ##,##0
#,#00.00 | "EUR "#,##0.00 | #,##0"-" | 0.00 "%" | "No. "0 | [$-407]0.00 | [$-409]#,##0.00
0.00 [$kr-41D] | yyyy-mm-dd | dd.mm.yyyy | d.m.yy | d/m/yy | dd/mm/yyyy | mm/dd/yyyy | yyyy/mm/dd
dd-mm-yyyy | dd.mm.yyyy hh:mm | yyyy-mm-dd h:mm:ss | h:mm | h:mm:ss | hh:mm AM/PM | mm:ss
"MHD "dd.mm.yyyy | mm/yyyy
"""
    ),
    *NOT_UNDERSTOOD,
    *("0.00_ ", "0.?", "#,##0.00;;", "@", '"SKU-"@', '0;-0;0;"<"@">"'),
)
TEXTS = (*"Bleistift|Käse „x“|a\nb| a |007|=A1|#N/A|1E5|日本語|A&B <c>|".split("|"), "x" * 300)
SPACES = dict.fromkeys(map(ord, "\u00a0\u202f\u2009"), " ")


class Found(NamedTuple):
    """What a reader says of a cell: its text as shown, or why it has none."""

    text: str | None
    reason: str = ""


class Sheet(NamedTuple):
    """What a reader says of a sheet: its cells by row, from 1, and place, from 0, and its hidden
    rows.
    """

    cells: dict[tuple[int, int], Found]
    hidden: set[int]


class Made(NamedTuple):
    """A workbook that was made: its data, and the format of each cell that has one."""

    data: bytes
    formats: dict[tuple[int, int], str]


def ours(data: bytes) -> Sheet:
    """What labeltools reads."""
    formatter = Formatter(Signs(".", ","))
    cells: dict[tuple[int, int], Found] = {}
    hidden: set[int] = set()
    for row in rows_of_workbook(data, "x", None, formatter, Talk()):
        if row.is_hidden:
            hidden.add(row.number)
        for place in range(len(row.cells)):
            found = found_in(row, place)
            if found.text != "":
                cells[row.number, place] = found
    return Sheet(cells, hidden)


def found_in(row: Row, place: int) -> Found:
    """What labeltools reads in a cell."""
    cell = row.cells[place]
    try:
        return Found(cell if isinstance(cell, str) else taken_of(cell, PRINTED))
    except RowError as problem:
        return Found(None, str(problem.what))


def gnumerics(data: bytes, ending: str) -> Sheet:
    """What Gnumeric reads: errors and truth values have a reason in place of a text."""
    support.needs("ssconvert")
    with tempfile.TemporaryDirectory() as folder:
        path = Path(folder, f"book.{ending}")
        path.write_bytes(data)
        options = "separator=';' format=preserve quoting-mode=always eol=unix"
        text = converted(path, "Gnumeric_stf:stf_assistant", "-O", options)
        book = converted(path, "Gnumeric_XmlIO:sax:0")
    root = ElementTree.fromstring(gzip.decompress(book) if book[:2] == b"\x1f\x8b" else book)
    space = {"g": root.tag[1:].partition("}")[0]}
    hidden: set[int] = set()
    for row in root.iterfind(".//g:RowInfo", space):
        if row.get("Hidden") == "1":
            first = int(row.attrib["No"]) + 1
            hidden.update(range(first, first + int(row.get("Count", "1"))))
    kinds = {
        (int(element.attrib["Row"]) + 1, int(element.attrib["Col"])): element
        for element in root.iterfind(".//g:Cell", space)
    }
    cells = {}
    for number, line in enumerate(csv.reader(io.StringIO(text.decode()), delimiter=";"), 1):
        for place, shown in enumerate(line):
            if shown:
                cells[number, place] = seen_by_gnumeric(shown, kinds.get((number, place)))
    return Sheet(cells, hidden)


def seen_by_gnumeric(shown: str, kind: ElementTree.Element | None) -> Found:
    """What Gnumeric says of a cell, by its text and its type."""
    number = "" if kind is None else kind.get("ValueType", "")
    is_formula = kind is not None and number == ""
    if number == "50" or is_formula and re.fullmatch(r"#[A-Z0-9/]+[!?]?", shown):
        return Found(None, "error")
    return Found(None, "truth value") if number == "20" else Found(shown.replace("\u2212", "-"))


def converted(path: Path, kind: str, *options: str) -> bytes:
    """A workbook as ssconvert writes it."""
    target = path.with_suffix(".out")
    environment = {**os.environ, "LC_ALL": "C.UTF-8"}
    command = ["ssconvert", "-T", kind, *options, str(path), str(target)]
    done = subprocess.run(command, capture_output=True, env=environment, timeout=support.SECONDS)
    if done.returncode:
        raise AssertionError(done.stderr.decode())
    return target.read_bytes()


def same(text: str, other: str) -> bool:
    """Whether two texts are the same but for the kind of their spaces, and those at their ends."""
    return plain(text) == plain(other)


def plain(text: str) -> str:
    return " ".join(text.translate(SPACES).split())


# ---- the differences that have a name: what labeltools and Gnumeric say, and the format

Difference = Callable[[Found, Found, str], bool]


def refused(wanted: str) -> Difference:
    """labeltools refuses a cell for a reason."""
    return lambda mine, theirs, number_format: mine.text is None and wanted in mine.reason


def has_own_signs(mine: Found, theirs: Found, number_format: str) -> bool:
    """The format names a language: labeltools takes its signs, Gnumeric those of its own
    language.
    """
    if mine.text is None or theirs.text is None or "[$" not in number_format:
        return False
    swapped = plain(theirs.text).translate(str.maketrans(".", ",", ","))
    apostrophe = plain(theirs.text).replace(",", "’")
    bare = re.sub(r"(?<=\d)[. ](?=\d{3})", "", plain(mine.text))
    return bare == swapped or plain(mine.text) == apostrophe


def has_fill(mine: Found, theirs: Found, number_format: str) -> bool:
    """The format has `* `, which fills the column with spaces."""
    if mine.text is None or theirs.text is None or "* " not in number_format:
        return False
    return mine.text.replace(" ", "") == theirs.text.replace(" ", "")


def is_no_digit(mine: Found, theirs: Found, number_format: str) -> bool:
    """A zero by a format without a digit that has to be there."""
    return number_format == "#" and (mine.text, theirs.text) == ("", "0")


def is_half(mine: Found, theirs: Found, number_format: str) -> bool:
    """A number in the middle of two, as 26.05 by one decimal: the last digit is one lower."""
    if mine.text is None or theirs.text is None or number_format not in ("0.?", "0.0", "0.00"):
        return False
    return abs(round(float(mine.text) - float(theirs.text), 6)) in (0.1, 0.01)


def is_short(mine: Found, theirs: Found, number_format: str) -> bool:
    """General, and more digits than Gnumeric shows."""
    if number_format not in ("General", "@") or mine.text is None or "E" not in str(theirs.text):
        return False
    value = float(mine.text)
    return abs(value - float(str(theirs.text))) <= abs(value) * 1e-5


def is_cut(mine: Found, theirs: Found, number_format: str) -> bool:
    """A time whose last part is one less."""
    if mine.text is None or theirs.text is None or ":" not in number_format:
        return False
    last, their_last = (int(re.findall("[0-9]+", text)[-1]) for text in (mine.text, theirs.text))
    return (last + 1) % 60 == their_last % 60


DIFFERENCES: dict[str, Difference] = {
    "the format depends on the program: the row is left out": lambda mine, theirs, number_format: (
        number_format in NOT_UNDERSTOOD and mine.text is None and "number format" in mine.reason
    ),
    "a part of a format in which programs differ: the row is left out": refused(
        "is not understood"
    ),
    "General with more digits than a column shows: the row is left out": refused(
        "in a format without fixed decimals"
    ),
    "a time between two seconds: LibreOffice cuts it, Gnumeric rounds": is_cut,
    "a number that is no date of every spreadsheet": refused(
        "is a date before March 1900 or after 9999"
    ),
    "a format that a file names by its number, and each language has its own": refused(
        "depends on the language"
    ),
    "the language of the format decides its signs": has_own_signs,
    "Gnumeric fills a wide column with spaces": has_fill,
    "Gnumeric shows a zero by #, and Excel and LibreOffice do not": is_no_digit,
    "Gnumeric shows fewer digits by General": is_short,
    "Gnumeric rounds a half down, and LibreOffice up": is_half,
    "an error is an error in both": (
        lambda mine, theirs, _: mine.text is None and theirs.reason == "error"
    ),
    "a truth value is one in both": (
        lambda mine, theirs, _: mine.text is None and theirs.reason == "truth value"
    ),
    "a formula that was never calculated: Gnumeric calculates it": refused(
        "a formula without a saved value"
    ),
}


def values(numbers: random.Random) -> Iterator[float]:
    """Numbers of shops: prices, counts, codes, calculated ones, and days."""
    yield from map(float, "0 1 7 12 0.5 0.8 -3.5 1234.5 12999 45678 4006381333931".split())
    yield from (0.1 + 0.2, 1e-9, -0.001)
    while True:
        yield numbers.choice(
            (
                round(numbers.uniform(0, 100), 2),
                round(numbers.uniform(0, 5000), 2),
                numbers.randrange(100000),
                -round(numbers.uniform(0, 100), 2),
                numbers.randrange(36526, 54789) + numbers.choice((0.0, 0.0, 0.25, 0.771875)),
                numbers.uniform(0, 1),
            )
        )


def table_of(numbers: random.Random, columns: int) -> list[list[tuple[Any, str]]]:
    """Rows of values with their formats: one row for each format, and rows of texts."""
    lines: list[list[tuple[Any, str]]] = []
    found = values(numbers)
    first = [next(found) for _ in range(14)]
    for number_format in FORMATS:
        chosen = numbers.sample(first, columns // 2)
        rest = [next(found) for _ in range(columns - len(chosen))]
        lines.append([(value, number_format) for value in (*chosen, *rest)])
    for _ in range(8):
        lines.append(
            [(numbers.choice(TEXTS), numbers.choice(("General", "@"))) for _ in range(columns)]
        )
    numbers.shuffle(lines)
    return lines


def placed(numbers: random.Random, count: int) -> list[int]:
    """The numbers of rows, some of which are left empty."""
    row, places = 0, []
    for _ in range(count):
        row += numbers.choice((1, 1, 1, 1, 2, 5))
        places.append(row)
    return places


def by_openpyxl(numbers: random.Random, columns: int) -> Made:
    """A workbook that openpyxl writes."""
    from openpyxl import Workbook

    book, stream, formats = Workbook(), io.BytesIO(), {}
    sheet = book.active
    lines = table_of(numbers, columns)
    for row, line in zip(placed(numbers, len(lines)), lines):
        for place, (value, number_format) in enumerate(line):
            cell = sheet.cell(row, place + 1)
            cell.number_format = number_format
            if isinstance(value, str):
                cell.value, cell.data_type = value, "s"
            else:
                cell.value = value
            formats[row, place] = number_format
        if numbers.random() < 0.1:
            sheet.row_dimensions[row].hidden = True
        if numbers.random() < 0.2:
            sheet.cell(row, columns + 1).value = numbers.choice(
                (True, "=1/0", "=A1&B1", "#REF!", "=1+1")
            )
    book.save(stream)
    return Made(stream.getvalue(), formats)


def by_xlsxwriter(numbers: random.Random, columns: int) -> Made:
    """A workbook that xlsxwriter writes."""
    import xlsxwriter

    stream, formats = io.BytesIO(), {}
    book = xlsxwriter.Workbook(stream, {"in_memory": True})
    sheet = book.add_worksheet("Preise")
    styles = {
        number_format: book.add_format({"num_format": number_format}) for number_format in FORMATS
    }
    lines = table_of(numbers, columns)
    for row, line in zip(placed(numbers, len(lines)), lines):
        for place, (value, number_format) in enumerate(line):
            if isinstance(value, str):
                sheet.write_string(row - 1, place, value, styles[number_format])
            else:
                sheet.write_number(row - 1, place, value, styles[number_format])
            formats[row, place] = number_format
        if numbers.random() < 0.1:
            sheet.set_row(row - 1, None, None, {"hidden": True})
        if numbers.random() < 0.2:
            sheet.write_boolean(row - 1, columns, True)
        elif numbers.random() < 0.2:
            sheet.write_formula(row - 1, columns, "=1+1", None, 2)
    book.close()
    return Made(stream.getvalue(), formats)


def by_hand(numbers: random.Random, columns: int) -> Made:
    """A file as LibreOffice writes it: rows and cells that are repeated, groups, header rows, hidden
    rows.
    """
    lines = [within("table-header-rows", ods_row(numbers, columns))]
    for _ in range(90):
        line = ods_row(numbers, columns)
        if numbers.random() < 0.2:
            line = within("table-row-group", within("table-row-group", line))
        gap = f'<table:table-row table:number-rows-repeated="{numbers.randrange(1, 4)}"/>'
        lines += [line, gap] if numbers.random() < 0.2 else [line]
    return Made(ods(table(end="".join(lines)), extra={"META-INF/manifest.xml": MANIFEST}), {})


def within(name: str, text: str) -> str:
    """An element of a table around others."""
    return f"<table:{name}>{text}</table:{name}>"


def ods_row(numbers: random.Random, columns: int) -> str:
    """A row of .ods, which may be repeated or hidden; Gnumeric does not repeat formulas, so errors
    are in rows that are there once.
    """
    repeat = numbers.choice((1, 1, 1, 2, 3))
    hides = numbers.choice(("visible", "visible", "visible", "filter", "collapse"))
    cells = "".join(ods_value(numbers, repeat == 1) for _ in range(columns))
    more = f'table:number-rows-repeated="{repeat}" table:visibility="{hides}"'
    return f"<table:table-row {more}>{cells}</table:table-row>"


def ods_value(numbers: random.Random, has_errors: bool) -> str:
    """A cell of .ods."""
    kind = numbers.randrange(10)
    if kind == 0:
        return '<table:table-cell table:number-columns-repeated="2"/>'
    if kind == 1 and has_errors:
        error = 'table:formula="of:=1/0" office:string-value="" calcext:value-type="error"'
        return ods_cell("#DIV/0!", more=error)
    if kind < 4:
        return ods_cell(numbers.choice(("Bleistift", "Käse", "A 7", "007")))
    amount = numbers.randrange(100000) / 8  # which binary numbers have exactly
    return ods_cell(f"{amount:g}", "float", f'office:value="{amount:g}"')


class Oracle(unittest.TestCase):
    """Two readers agree, or the difference has a name."""

    WRITERS = {
        "openpyxl": (by_openpyxl, "xlsx"),
        "xlsxwriter": (by_xlsxwriter, "xlsx"),
        "by hand": (by_hand, "ods"),
    }

    def setUp(self) -> None:
        for module in ("openpyxl", "xlsxwriter"):
            if importlib.util.find_spec(module) is None:
                support.skip(f"{module} is not installed")

    def difference(self, mine: Found, theirs: Found, number_format: str) -> str:
        """The name of a difference; empty for none."""
        if mine.text is not None and theirs.text is not None and same(mine.text, theirs.text):
            return ""
        for name, is_so in DIFFERENCES.items():
            if is_so(mine, theirs, number_format):
                return name
        return f"{mine} is {theirs} in Gnumeric, by {number_format}"

    @support.slow
    def test_two_readers_agree(self) -> None:
        names: Counter[str] = Counter()
        cells = 0
        for writer, (make, ending) in self.WRITERS.items():
            made = make(random.Random(f"{SEED} {writer}"), 12)
            mine, theirs = ours(made.data), gnumerics(made.data, ending)
            self.assertEqual(mine.hidden, theirs.hidden, writer)
            self.assertGreater(len(mine.hidden), 5, writer)
            for key in sorted(mine.cells.keys() | theirs.cells.keys()):
                number_format = made.formats.get(key, "General")
                own = mine.cells.get(key, Found(""))
                other = theirs.cells.get(key, Found(""))
                name = self.difference(own, other, number_format)
                cells += 1
                names[name] += 1
                self.assertTrue(
                    not name or name in DIFFERENCES, f"{writer}, row and place {key}: {name}"
                )
        self.assertGreater(cells, 2000)
        self.assertGreater(len(FORMATS), 80)
        self.assertEqual(
            {name for name in DIFFERENCES if not names[name]}, set(), "a name that nothing has"
        )
        self.assertGreater(names[""], cells * 3 // 4, names)

    @support.slow
    def test_a_wrong_reader_is_seen(self) -> None:
        made = by_hand(random.Random(SEED), 6)
        mine, theirs = ours(made.data), gnumerics(made.data, "ods")
        shifted = {(row + 1, place): found for (row, place), found in mine.cells.items()}
        wrong = [key for key, found in shifted.items() if theirs.cells.get(key, Found("")) != found]
        self.assertGreater(len(wrong), 100)


if __name__ == "__main__":
    unittest.main()
