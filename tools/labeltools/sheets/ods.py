"""Reads .ods (ISO/IEC 26300)."""

import re
from collections.abc import Iterable, Iterator, Mapping, Sequence
from dataclasses import dataclass, field
from datetime import date, datetime
from decimal import Decimal
from itertools import groupby
from operator import itemgetter
from xml.etree.ElementTree import Element, fromstring, iterparse
from zipfile import ZipFile

from labeltools.common.messages import quoted, RowError, Talk
from labeltools.common.text import Text
from labeltools.sheets.cells import (
    AS_TEXT,
    Cell,
    CellKind,
    CONDITION,
    Fault,
    formed,
    Lettering,
    Mark,
    NO_LETTERS,
    no_value,
    Run,
    Special,
    text_of_runs,
    Truth,
)
from labeltools.sheets.number_format import date_section, date_text, DAY_ZERO, digits_of, Formatter
from labeltools.sheets.rows import Merge, Row
from labeltools.sheets.workbook import (
    Attributes,
    cell_or_fault,
    exact_of,
    local,
    merges_at,
    MOST_COLUMNS,
    NOT_SAVED,
    NOT_SAVED_HINT,
    plainly_named,
    rows_from,
    SAVE_AGAIN,
    whole_number,
    Worksheet,
)

# what is read of the parts of a file: styles, and columns and rows
STYLE = "{urn:oasis:names:tc:opendocument:xmlns:style:1.0}"
TABLE = "{urn:oasis:names:tc:opendocument:xmlns:table:1.0}"
STYLES = (f"{STYLE}style", f"{STYLE}default-style")
SHEET, ROW, OF_OTHERS = f"{TABLE}table", f"{TABLE}table-row", f"{TABLE}dde-links"
WHOLE = (*STYLES, f"{TABLE}table-column", ROW)
CELL, SPAN = "table-cell", "text"  # families of styles
PROPERTIES = ("text-properties", "table-cell-properties")
MOST_PARENTS = 32  # of a style; a file that has more, or a ring of them, is no spreadsheet's
LINES = ("text-line-through-style", "text-line-through-type")
HEIGHT = re.compile(r"(super|[1-9][0-9]*(?:\.[0-9]+)?%)|(sub|-).*")
NUMBERS = ("float", "percentage", "currency", "date", "time")
# white space that counts, by signs that no XML has, and other white space
SIGNS = {"s": "\0", "tab": "\1", "line-break": "\2"}
UNSIGNED = {0: " ", 1: "\t", 2: "\n"}
SPACE = re.compile("[ \t\r\n]+")
PLAINLY_SHOWN = re.compile(r"[0-9.,'’\s]+(?:E[+][0-9]+)?")


@dataclass(slots=True)
class OdsNumber(Special):
    """A cell with a number, a date or a time, and the text that is shown.

    `number` is its number, None for a date; `moment` is the date as the file has it.
    """

    value: str
    text: str
    number: Decimal | None = field()  # not the default of other cells
    moment: str
    formatter: Formatter
    cell_kind: CellKind = field()

    def agree(self) -> None:
        """Raises `RowError` where the text has a number without a value, or is cut off."""
        if self.number is None and self.cell_kind is CellKind.NUMBER and self.text:
            what = Text("has a number without its value, and the text {}", quoted(self.text))
            raise RowError(what, SAVE_AGAIN)
        if self.text and not self.text.strip("#"):  # the column of the cell is narrow
            what = Text("has the value {} and the text {}", self.value, quoted(self.text))
            raise RowError(what, SAVE_AGAIN)

    def shown(self) -> str:
        """Returns the text that is shown."""
        self.agree()
        pattern = self.formatter.date_as
        if pattern and self.moment:
            return date_text(date_section(pattern), days_of(self.moment))
        return self.text

    def digits(self, is_data: bool) -> str:
        """Returns the digits as they are shown, or else those of the number, but not as data."""
        self.agree()
        if self.number is None or not PLAINLY_SHOWN.fullmatch(self.text):
            what = Text("is shown as {}, which is not a whole number", quoted(self.text))
            raise RowError(what, AS_TEXT)
        is_whole = self.text.isdecimal()
        digits = digits_of("0", self.number)  # none where the number has more than a file keeps
        digits = digits.zfill(len(self.text)) if is_whole else digits
        if (is_data or is_whole) and digits != self.text:
            what = Text("is shown as {}, and would be drawn as {}", quoted(self.text), digits)
            raise RowError(what, AS_TEXT)
        return digits


@dataclass
class Styles:
    """The styles of a file by their families and names: what they say themselves, and their
    parents; the name of a default style is empty.
    """

    own: dict[tuple[str, str], dict[str, str]] = field(default_factory=dict)
    parents: dict[tuple[str, str], str] = field(default_factory=dict)
    hidden: set[str] = field(default_factory=set)  # styles of tables that nobody sees
    of_conditions: set[str] = field(default_factory=set)  # styles that conditions give
    forms: dict[tuple[str, str], Lettering] = field(
        default_factory=dict
    )  # those that were asked for

    def take_style(self, style: Element) -> None:
        """Takes a style."""
        found = local(style)
        key = found.get("family", ""), found.get("name", "")
        own = self.own[key] = {}
        self.parents[key] = found.get("parent-style-name", "")
        for element in style:
            said = local(element)
            if element.tag in PROPERTIES:
                own |= said
            elif element.tag == "table-properties" and said.get("display") == "false":
                self.hidden.add(key[1])
            elif element.tag == "map":
                self.of_conditions.add(said.get("apply-style-name", ""))

    def style_values(self, family: str, name: str) -> dict[str, str]:
        """Returns what a style and its parents say, up to the default style."""
        found: dict[str, str] = {}
        for _ in range(MOST_PARENTS):
            found = {**self.own.get((family, name), {}), **found}
            if not name:
                break
            name = self.parents.get((family, name), "")
        return found

    def form(self, cell: str, spans: str = "") -> Lettering:
        """Returns the form of the letters of a cell by its style, and by those of letters in it,
        with spaces between, the innermost last.
        """
        key = cell, spans
        if key not in self.forms:
            said = self.style_values(CELL, cell)
            for span in spans.split():
                said |= self.style_values(SPAN, span)
            self.forms[key] = styled_lettering(said)
        return self.forms[key]


def styled_lettering(said: Mapping[str, str]) -> Lettering:
    """Returns the form of letters by what styles say.

    >>> form = styled_lettering({"text-position": "super 58%", "font-size": "6pt"})
    >>> form.mark.name, form.size
    ('RAISED', 6.0)
    """
    size = said.get("font-size", "")
    points = float(exact_of(size[:-2])) if size.endswith("pt") else 0.0
    height = HEIGHT.fullmatch(said.get("text-position", "").partition(" ")[0])
    if any(said.get(line, "none") != "none" for line in LINES):
        return Lettering(Mark.STRUCK, points)
    if height:
        return Lettering(Mark.RAISED if height[1] else Mark.LOWERED, points)
    is_bare = said.get("background-color", "transparent") == "transparent"
    is_white = said.get("color", "").casefold() == "#ffffff" and is_bare
    return Lettering(Mark.WHITE if is_white else Mark.NONE, points)


def sheets_of_ods(archive: ZipFile, formatter: Formatter, talk: Talk) -> Iterator[Worksheet]:
    """Yields the sheets of a file, whose styles are in front of them."""
    styles = Styles()
    if "styles.xml" in archive.namelist():
        for style in fromstring(archive.read("styles.xml")).iter():
            if style.tag in STYLES:
                styles.take_style(plainly_named(style))
    for sheet, parts in groupby(parts_of_content(archive), itemgetter(0)):
        elements = map(itemgetter(1), parts)
        if sheet is None:
            for style in elements:
                styles.take_style(style)
            continue
        said = local(sheet)
        is_visible = said.get("style-name") not in styles.hidden
        rows = OdsSheet(styles, formatter).rows(elements)
        yield Worksheet(said.get("name", ""), is_visible, rows)
    if any(styles.form(style).mark in NO_LETTERS for style in styles.of_conditions):
        talk.say(CONDITION)


def parts_of_content(archive: ZipFile) -> Iterator[tuple[Element | None, Element]]:
    """Yields the styles of a file, and the columns and rows of each sheet behind the sheet: all of
    them whole, each with its sheet. What is in them is none of these; behind all sheets are those
    of other files.
    """
    sheet: Element | None = None
    open_rows = 0
    with archive.open("content.xml") as stream:
        for event, element in iterparse(stream, ("start", "end")):
            name = element.tag
            if event == "start" and name == ROW:
                open_rows += 1
            elif event == "start" and name == SHEET and not open_rows:
                sheet = Element("table", element.attrib)
                yield sheet, sheet
            elif event == "start" and name == OF_OTHERS:
                return
            elif event == "end" and name in WHOLE:
                open_rows -= name == ROW
                if not open_rows:
                    yield sheet, plainly_named(element)
                    element.clear()


@dataclass
class OdsSheet:
    """A sheet: the styles of its columns, and the places of those that are hidden; the merged
    cells, and the number of the next row.
    """

    styles: Styles
    formatter: Formatter
    columns: list[str] = field(default_factory=list)
    hidden_places: set[int] = field(default_factory=set)
    merges: list[Merge] = field(default_factory=list)
    number: int = 1

    def rows(self, elements: Iterable[Element]) -> Iterator[Row]:
        """Yields the rows of the elements of a sheet, but none that is empty and not hidden."""
        for element in elements:
            said = local(element)
            if element.tag == "table-column":
                self.add_columns(said)
            elif element.tag == "table-row":
                self.merges = merges_at(self.merges, self.number)
                cells, links = self.cells_of(element, said.get("default-cell-style-name", ""))
                is_hidden = said.get("visibility", "visible") != "visible"
                repeat = whole_number(said.get("number-rows-repeated", "1"), 1)
                if is_hidden or any(cells):
                    beside = tuple(self.merges), links, self.hidden_places
                    yield from rows_from(Row(self.number, cells, None, is_hidden, *beside), repeat)
                self.number += repeat

    def add_columns(self, said: Attributes) -> None:
        """Adds the style of columns, which may be repeated."""
        count = whole_number(said.get("number-columns-repeated", "1"), 1)
        style = said.get("default-cell-style-name", "")
        first = len(self.columns)
        self.columns += [style] * min(count, MOST_COLUMNS - first)
        if said.get("visibility", "visible") != "visible":
            self.hidden_places.update(range(first, len(self.columns)))

    def cells_of(self, row: Element, of_row: str) -> tuple[list[Cell], dict[int, str]]:
        """Returns the cells of a row with a style, each as often as it is repeated, and the
        addresses that they lead to; columns may differ in their styles.
        """
        cells: list[Cell] = []
        links: dict[int, str] = {}
        place = 0
        for element in row:
            said = local(element)
            self.add_merge(said, place)
            begin = place
            repeat = whole_number(said.get("number-columns-repeated", "1"), 1)
            place = min(begin + repeat, MOST_COLUMNS + 1)
            lines = element.findall("p")
            if not (lines or "value-type" in said or "formula" in said):
                continue
            addresses = {local(link).get("href", "") for line in lines for link in line.iter("a")}
            if len(addresses) == 1:
                links[begin] = addresses.pop()
            own = said.get("style-name", "") or of_row
            made: dict[str, Cell] = {}
            for at in range(begin, place):
                style = own or (self.columns[at] if at < len(self.columns) else "")
                if style not in made:
                    made[style] = cell_or_fault(self.cell_of, said, lines, style)
                if cell := made[style]:
                    cells += [""] * (min(at, MOST_COLUMNS) - len(cells))
                    cells.append(cell)
        return cells, links

    def add_merge(self, said: Attributes, place: int) -> None:
        """Adds the merged cells that begin at a cell."""
        rows = whole_number(said.get("number-rows-spanned", "1"), 1)
        columns = whole_number(said.get("number-columns-spanned", "1"), 1)
        if rows > 1 or columns > 1:
            last = self.number + rows - 1, place + columns - 1
            self.merges.append(Merge(self.number, place, *last))

    def cell_of(self, said: Attributes, found: Sequence[Element], style: str) -> Cell:
        """Returns a cell by its type, its lines, and a style."""
        form = self.styles.form(style)
        lines: list[str] = []
        for line in found:
            text = text_of_runs([*self.runs_of(line, style, "", form)])
            if isinstance(text, Fault):
                return text
            lines.append(SPACE.sub(" ", text).strip(" ").translate(UNSIGNED))
        text = "\n".join(lines)
        kind = said.get("value-type", "")
        if kind in NUMBERS:
            value, moment = said.get("value", ""), said.get("date-value", "")
            exact = exact_of(value) if value else None
            own = CellKind.MOMENT if kind in ("date", "time") else CellKind.NUMBER
            number = OdsNumber(value or text, text, exact, moment, self.formatter, own)
            return formed(number, form)
        if kind == "error":
            return Fault(no_value(text).what, value=text)
        if kind == "boolean":
            return Truth(text)
        if not kind and "formula" in said and not found:
            return Fault(NOT_SAVED, NOT_SAVED_HINT)
        return text

    def runs_of(self, part: Element, style: str, spans: str, form: Lettering) -> Iterator[Run]:
        """Yields the letters of a line, or of a part of it, of a cell of a style, each with their
        form; `spans` are the styles of the parts around it, and `form` is that of its letters.
        """
        if part.text:
            yield part.text, form
        for inner in part:
            own, own_form = spans, form
            name = local(inner).get("style-name", "") if inner.tag == "span" else ""
            if (SPAN, name) in self.styles.own:
                own = f"{spans} {name}"
                own_form = self.styles.form(style, own)
            if inner.tag in SIGNS:
                yield SIGNS[inner.tag] * whole_number(local(inner).get("c", "1")), own_form
            yield from self.runs_of(inner, style, own, own_form)
            if inner.tail:
                yield inner.tail, form


def days_of(moment: str) -> Decimal:
    """Returns a date of the file as spreadsheets count days; raises `RowError`.

    >>> days_of("2026-11-25"), days_of("2026-11-25T12:00:00")
    (Decimal('46351'), Decimal('46351.5'))
    """
    begin = datetime.combine(date.fromordinal(DAY_ZERO.toordinal()), datetime.min.time())
    try:
        past = datetime.fromisoformat(moment) - begin
    except (ValueError, TypeError):  # one with a time zone is no spreadsheet's
        raise RowError(Text("has {}, which is not a valid date", quoted(moment)), AS_TEXT) from None
    return Decimal(past.days) + Decimal(past.seconds) / 86400
