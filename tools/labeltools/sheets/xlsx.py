"""Reads .xlsx (ISO/IEC 29500-1)."""

import posixpath
import re
from collections.abc import Iterable, Iterator, Mapping, Sequence
from dataclasses import dataclass, field
from decimal import Decimal
from typing import NamedTuple
from xml.etree.ElementTree import Element
from zipfile import ZipFile

from labeltools.common.messages import Problem, RowError, Talk, ToolError
from labeltools.common.text import Text

from labeltools.sheets.cells import (
    Cell,
    CellKind,
    CONDITION,
    Fault,
    formed,
    Lettering,
    Mark,
    NO_LETTERS,
    no_value,
    PLAIN,
    Special,
    text_of_runs,
    Truth,
)
from labeltools.sheets.number_format import (
    BUILT_IN,
    BUILT_IN_DATES,
    digits_of,
    Formatter,
    is_of_time,
    LANGUAGE,
    sections_of,
)
from labeltools.sheets.rows import Merge, Row
from labeltools.sheets.workbook import (
    cell_or_fault,
    column_index,
    exact_of,
    local,
    merges_at,
    MOST_COLUMNS,
    NOT_SAVED,
    NOT_SAVED_HINT,
    parts_of,
    range_corners,
    rows_from,
    SAVE_AGAIN,
    tree_of,
    TRUE,
    whole_number,
    Worksheet,
)

ESCAPED = re.compile("_x([0-9A-Fa-f]{4})_")
# an address and a text, as a formula has them
HYPERLINK = re.compile(r'\s*HYPERLINK\("([^"]+)"[,)].*', re.DOTALL | re.IGNORECASE)
# the rows of a sheet, which has more behind them
ROWS = re.compile(rb"<((?:\w+:)?sheetData)\b[^>]*>.*</\1\s*>", re.DOTALL)
MOST_NUMBERS = 1 << 12  # that are kept
FALSE = ("0", "false")
PLACES = {"superscript": Mark.RAISED, "subscript": Mark.LOWERED}
# white by the numbers of themes and of palettes (18.8.3, 18.8.27)
WHITE_THEME = "0"
WHITE_INDEXES = ("1", "9", "65")
STALE = Problem(
    Text("the results of formulas in this file may be out of date"),
    Text("open it in the spreadsheet and save it again"),
)
# what the rows of a sheet, and the shared strings, are in: the strings in the root
ROWS_OF_SHEET = "*/{*}sheetData"
STRINGS = "*"
Target = tuple[str, str]  # what a part refers to: its kind, and a part or an address outside
XlsxRuns = Sequence[
    tuple[str, Lettering | None]
]  # letters; those without a form have that of their cell


class Look(NamedTuple):
    """A style: its number format, the kind of the numbers that it shows, the form of its letters,
    and why it shows no text, if it puts something around texts that is not understood.
    """

    number_format: str
    cell_kind: CellKind
    form: Lettering
    text_problem: RowError | None = None


class Looks(NamedTuple):
    """The styles of a file by their numbers, and the forms of letters that conditions give."""

    of_cells: Mapping[str, Look]
    of_conditions: Sequence[Lettering]


@dataclass
class Book:
    """What all sheets of a file share; its strings and its styles by their numbers.

    `is_stale` is whether formulas are not calculated. `asks_again` is whether the file asks to
    calculate them when it is opened: what is saved may be old, and a zero is what libraries write
    that calculate nothing.
    """

    strings: Mapping[str, str | XlsxRuns]
    looks: Mapping[str, Look]
    formatter: Formatter
    is_from_1904: bool
    is_stale: bool
    asks_again: bool
    talk: Talk
    is_reported: bool = False
    numbers: dict[tuple[str, str], Cell] = field(default_factory=dict)

    def number_cell(self, value: str, style: str) -> Cell:
        """Returns the cell of a number; those that are alike are one, such as prices."""
        found = self.numbers.get((value, style))
        if found is None:
            look = self.looks[style]
            exact = exact_of(value)
            number = XlsxNumber(value, exact, look.cell_kind, look.number_format, self)
            if len(self.numbers) >= MOST_NUMBERS:
                self.numbers.clear()
            found = self.numbers[value, style] = formed(number, look.form)
        return found

    def has_saved(self, value: str) -> bool:
        """Returns whether the value of a formula was calculated; reports once that it may be
        old.
        """
        if self.asks_again and value != "0" and not self.is_reported:
            self.is_reported = True
            self.talk.say(STALE)
        return not self.is_stale and not (self.asks_again and value == "0")


@dataclass(slots=True)
class XlsxNumber(Special):
    """A cell with a number, or several that are alike; what is worked out once is kept."""

    value: str
    number: Decimal = field()  # not the default of other cells
    cell_kind: CellKind = field()
    number_format: str
    book: Book
    text: str = ""

    def shown(self) -> str:
        """Returns the number as its format shows it."""
        if not self.text:
            book = self.book
            shown = book.formatter.formatted(self.number_format, self.number, book.is_from_1904)
            self.text = shown
        return self.text

    def text_for_label(self) -> str:
        """Returns the number as its format shows it, and keeps it as an example of the signs in
        it.
        """
        text = self.shown()
        self.book.formatter.keep_example(self.number_format, text)
        return text

    def digits(self, is_data: bool) -> str:
        """Returns the digits of a whole number; as data it is shown so."""
        return digits_of(self.number_format, self.number, is_data)


def sheets_of_xlsx(archive: ZipFile, formatter: Formatter, talk: Talk) -> Iterator[Worksheet]:
    """Yields the sheets of a workbook."""
    path = dict(relations(archive, "").values())["officeDocument"]
    targets = relations(archive, path)
    parts = dict(targets.values())
    tree = tree_of(archive, path)
    said = {element.tag: element.attrib for element in tree}
    is_from_1904 = said.get("workbookPr", {}).get("date1904") in TRUE
    calculation = said.get("calcPr", {})
    asks_again = calculation.get("fullCalcOnLoad") in TRUE
    is_stale = calculation.get("calcCompleted", "1") not in TRUE
    strings = strings_of(archive, parts.get("sharedStrings", ""))
    looks = looks_of(archive, parts.get("styles", ""))
    book = Book(strings, looks.of_cells, formatter, is_from_1904, is_stale, asks_again, talk)
    for sheet in map(local, tree.iterfind("sheets/sheet")):
        kind, part = targets[sheet["id"]]
        if kind == "worksheet":
            is_visible = sheet.get("state", "visible") == "visible"
            yield Worksheet(sheet["name"], is_visible, rows_of_sheet(archive, part, book, looks))


def rows_of_sheet(archive: ZipFile, part: str, book: Book, looks: Looks) -> Iterator[Row]:
    """Yields the rows of a sheet; of one that nobody wants nothing is read."""
    beside = beside_of(archive, part, looks.of_conditions)
    if beside.has_condition:
        book.talk.say(CONDITION)
    number = 0
    merges: list[Merge] = []
    for found in parts_of(archive, part, ROWS_OF_SHEET, "row"):
        before, number = number, whole_number(found.get("r", str(number + 1)), 1)
        if number <= before:
            raise out_of_order(number)
        merges = merges_at(merges, number) + beside.merges.get(number, [])
        links = beside.links.get(number, {})
        cells = cells_of(found, number, book, links)
        is_hidden = is_unseen(found.attrib)
        yield from rows_from(
            Row(number, cells, None, is_hidden, merges, links, beside.hidden_places)
        )


def cells_of(row: Element, number: int, book: Book, links: dict[int, str]) -> list[Cell]:
    """Returns the cells of a row, and adds the addresses that formulas in them lead to, by their
    places, to those of the row.
    """
    cells: list[Cell] = []
    for found in row:
        if found.tag != "c":
            continue
        reference = found.get("r")
        place = column_index(reference.rstrip("0123456789")) if reference else len(cells)
        if place < len(cells):
            raise out_of_order(number)
        formula = found.findtext("f")
        cell = cell_or_fault(cell_of, found, formula is not None, book)
        if place > len(cells):
            cells += [""] * (min(place, MOST_COLUMNS) - len(cells))
        cells.append(cell)
        if formula and (link := HYPERLINK.fullmatch(formula)):
            links[place] = link[1]
    return cells


def cell_of(found: Element, has_formula: bool, book: Book) -> Cell:
    """Returns a cell by its type, and its value, if there is one."""
    kind, style = found.get("t", "n"), found.get("s", "0")
    saved = found.findtext("v")
    value = saved or ""
    if has_formula:
        is_empty_text = kind == "str" and saved is not None
        has_value = value or is_empty_text
        if not has_value or not book.has_saved(value):
            return Fault(NOT_SAVED, NOT_SAVED_HINT)
    elif not value and kind != "inlineStr":
        return ""
    if kind == "n":
        return book.number_cell(value, style)
    look = book.looks[style]
    if kind == "s":
        return text_of(book.strings[value], look)
    if kind in ("str", "inlineStr"):
        return text_of(without_escapes(value) or string_of(found.iterfind("is/*")), look)
    if kind == "e":
        return Fault(no_value(value).what, value=value)
    return formed(Truth({"1": "TRUE", "0": "FALSE"}.get(value, value)), look.form)


def strings_of(archive: ZipFile, part: str) -> dict[str, str | XlsxRuns]:
    """Returns the shared strings by their numbers."""
    found = parts_of(archive, part, STRINGS, "si") if part else ()
    return {str(number): string_of(string) for number, string in enumerate(found)}


def string_of(parts: Iterable[Element]) -> str | XlsxRuns:
    """Returns a string by its parts: a text, if all its letters have the form of the cell. How
    letters are spoken (`rPh`) is beside the text.
    """
    runs: list[tuple[str, Lettering | None]] = []
    is_rich = False
    for part in parts:
        if part.tag == "t":
            runs.append((without_escapes(part.text or ""), None))
        elif part.tag == "r":
            own = part.find("rPr")
            is_rich = is_rich or own is not None
            form = None if own is None else lettering_of(own)
            runs.append((without_escapes(part.findtext("t", "")), form))
    return runs if is_rich else "".join([text for text, _ in runs])


def looks_of(archive: ZipFile, part: str) -> Looks:
    """Returns the styles of a file."""
    tree = tree_of(archive, part)
    by_number = {**BUILT_IN, **BUILT_IN_DATES}
    for found in tree.iterfind("numFmts/numFmt"):
        by_number[found.attrib["numFmtId"]] = found.attrib["formatCode"]
    fonts = [lettering_of(font) for font in tree.iterfind("fonts/font")]
    are_filled = [
        filling.get("patternType", "none") != "none" or filling.tag == "gradientFill"
        for filling in tree.iterfind("fills/fill/*")
    ]
    looks: dict[str, Look] = {}
    for found in tree.iterfind("cellXfs/xf"):
        shown = by_number.get(found.get("numFmtId", "0"), LANGUAGE)
        form = numbered_lettering(found.attrib, fonts, are_filled)
        kind = CellKind.MOMENT if is_of_time(shown) else CellKind.NUMBER
        looks[str(len(looks))] = Look(shown, kind, form, text_problem(shown))
    of_conditions = [
        lettering_of(found.iterfind("font/*")).within(
            Lettering(is_filled=found.find("fill/*") is not None)
        )
        for found in tree.iterfind("dxfs/dxf")
    ]
    return Looks(looks or {"0": Look("General", CellKind.NUMBER, PLAIN)}, of_conditions)


def numbered_lettering(
    found: Mapping[str, str], fonts: Sequence[Lettering], are_filled: Sequence[bool]
) -> Lettering:
    """Returns the form of a style by the numbers of its font and its filling."""
    form = fonts[whole_number(found.get("fontId", "0"))] if fonts else PLAIN
    is_filled = bool(are_filled) and are_filled[whole_number(found.get("fillId", "0"))]
    return form.within(Lettering(is_filled=is_filled))


def lettering_of(font: Iterable[Element]) -> Lettering:
    """Returns the form of letters by the properties of their font."""
    said = {found.tag: found.attrib for found in font}
    size = float(exact_of(said.get("sz", {}).get("val") or "0"))
    colour = said.get("color", {})
    is_white = colour.get("rgb", "")[-6:].upper() == "FFFFFF"
    is_white = is_white or colour.get("theme") == WHITE_THEME and "tint" not in colour
    if said.get("strike", {"val": "0"}).get("val") not in FALSE:
        return Lettering(Mark.STRUCK, size)
    if mark := PLACES.get(said.get("vertAlign", {}).get("val", "")):
        return Lettering(mark, size)
    is_white = is_white or colour.get("indexed") in WHITE_INDEXES
    return Lettering(Mark.WHITE if is_white else Mark.NONE, size)


def relations(archive: ZipFile, path: str) -> dict[str, Target]:
    """Returns what a part refers to, by the names that it uses; for no part, what the file refers
    to.
    """
    folder, base = posixpath.split(path)
    part = posixpath.join(folder, "_rels", f"{base}.rels")
    targets: dict[str, Target] = {}
    for found in map(local, tree_of(archive, part).iterfind("Relationship")):
        kind, target = posixpath.basename(found["Type"]), found["Target"]
        if found.get("TargetMode") != "External":
            target = posixpath.normpath(posixpath.join("/", folder, target))[1:]
            if kind == "hyperlink":  # an address would be drawn as the name of a part
                continue
        targets[found["Id"]] = kind, target
    return targets


@dataclass
class Beside:
    """What a sheet has beside its rows: the merged cells by their first row, the addresses that
    cells lead to, by row and place, the places of hidden columns, and whether a condition takes
    letters away.
    """

    merges: dict[int, list[Merge]] = field(default_factory=dict)
    links: dict[int, dict[int, str]] = field(default_factory=dict)
    hidden_places: set[int] = field(default_factory=set)
    has_condition: bool = False


def beside_of(archive: ZipFile, path: str, of_conditions: Sequence[Lettering]) -> Beside:
    """Returns what a sheet has beside its rows, above and below them."""
    beside = Beside()
    tree = tree_of(archive, path, ROWS)
    for found in tree.iterfind("mergeCells/mergeCell"):
        first, *_, last = range_corners(found.attrib["ref"]) * 2
        beside.merges.setdefault(first[0], []).append(Merge(*first, *last))
    links = [link for link in map(local, tree.iterfind("hyperlinks/hyperlink")) if "id" in link]
    targets = relations(archive, path) if links else {}
    for link in links:
        row, place = range_corners(link["ref"])[0]
        place_in_page = f"#{link['location']}" if link.get("location") else ""
        if link["id"] in targets:
            beside.links.setdefault(row, {})[place] = targets[link["id"]][1] + place_in_page
    for found in tree.iterfind("cols/col"):
        if found.get("hidden") in TRUE:
            first_place = whole_number(found.attrib["min"], 1) - 1
            end = min(whole_number(found.attrib["max"]), MOST_COLUMNS)
            beside.hidden_places.update(range(first_place, end))
    rules = tree.iterfind("conditionalFormatting/cfRule")
    numbers = (whole_number(rule.attrib["dxfId"]) for rule in rules if "dxfId" in rule.attrib)
    beside.has_condition = any(of_conditions[number].mark in NO_LETTERS for number in numbers)
    return beside


def text_problem(style: str) -> RowError | None:
    """Returns why a number format shows no text: it may put something around it, as `"SKU-"@`."""
    if "@" in style and style != "@":
        try:
            sections_of(style)
        except RowError as problem:
            return problem
    return None


def text_of(text: str | XlsxRuns, look: Look) -> Cell:
    """Returns a text; none where its format puts something around it."""
    form, problem = look.form, look.text_problem
    if isinstance(text, str):
        found = formed(text, form)
    else:
        found = text_of_runs(
            [(letters, own.within(form) if own else form) for letters, own in text]
        )
    if problem and isinstance(found, str) and found:
        return Fault(problem.what, problem.hint, found, problem.remedies)
    return found


def is_unseen(row: Mapping[str, str]) -> bool:
    """Returns whether a row is hidden, or has no height."""
    height = row.get("ht")
    return row.get("hidden") in TRUE or height is not None and not height.strip("0.")


def out_of_order(number: int) -> ToolError:
    """Returns the error of a row, or a cell of it, that is not behind the one before."""
    return ToolError(Text("has row {} or a cell of it out of order", number), SAVE_AGAIN)


def without_escapes(text: str) -> str:
    """Returns a text without escapes: `_x000D_` is a carriage return (ST_Xstring)."""
    if "_x" in text:
        text = ESCAPED.sub(lambda match: chr(int(match[1], 16)), text)
        text = text.encode("utf-16", "surrogatepass").decode("utf-16", "replace")
    return text
