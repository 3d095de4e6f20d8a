"""The file of a workbook, a zip with parts of XML: the parts as trees, a large one row by row."""

import re
import struct
import zlib
from collections.abc import Callable, Iterable, Iterator, Mapping
from contextlib import contextmanager
from decimal import Decimal
from functools import lru_cache, reduce
from io import BytesIO
from typing import NamedTuple
from xml.etree.ElementTree import Element, fromstring, ParseError, TreeBuilder, XMLParser
from zipfile import BadZipFile, ZIP_DEFLATED, ZIP_STORED, ZipFile

from labeltools.common.messages import BAD_ARGUMENTS, fault_of, quoted, Remedy, ToolError
from labeltools.common.text import counted, Text
from labeltools.sheets.cells import Cell, Fault
from labeltools.sheets.rows import Merge, Row

MOST_ROWS = 1048576
MOST_COLUMNS = 16384
MOST_MERGES = 256  # of those that cross one row
LARGEST_ROW = 1 << 20  # letters
LONGEST_KIND = 100  # bytes of the kind of a workbook
MOST_PARTS = 1 << 14  # of the zip
READ_TOGETHER = 1 << 14  # bytes of a part
LARGEST_EXPONENT = 324  # of a number, and of one that is nearly zero
MOST_DIGITS = 10  # of a count
LONGEST_REASON = 80  # letters of what is damaged
EACH = 16  # what a repeated row costs beside its letters
DAMAGE = (
    ParseError,
    BadZipFile,
    zlib.error,
    struct.error,
    EOFError,
    LookupError,
    RuntimeError,
    ValueError,
    ArithmeticError,
)
REFERENCE = re.compile("([A-Z]{1,3})([0-9]{1,7})")
SAVE_AGAIN = Text("open it in the spreadsheet and save it again")
TOO_LARGE = Text("has a row of more than 1 MB")
TRUE = ("1", "true")
NOT_SAVED = Text("has a formula without a saved value")
NOT_SAVED_HINT = Text("open the table in the spreadsheet and save it")
Attributes = Mapping[str, str]


class Worksheet(NamedTuple):
    """A sheet: its name, whether it can be seen, and its rows, but maybe without the empty ones."""

    name: str
    is_visible: bool
    rows: Iterator[Row]


@contextmanager
def named_errors(name: str) -> Iterator[None]:
    """Puts the name of a file before what is wrong with it."""
    try:
        yield
    except ToolError as error:
        raise error.saying(Text("{} {}", name, error.what)) from None
    except DAMAGE as error:
        text = str(error.args[0]) if error.args and isinstance(error.args[0], str) else ""
        reason = text.split("\n")[0][:LONGEST_REASON] or type(error).__name__
        what = Text(
            "{} is damaged, has a password, or is neither .xlsx nor .ods ({})", name, reason
        )
        raise ToolError(what, SAVE_AGAIN) from None


def opened(data: bytes) -> ZipFile:
    """Returns the zip of a workbook; raises `ToolError`, or an error of `DAMAGE`."""
    archive = ZipFile(BytesIO(data))
    names = archive.namelist()
    if len(names) > MOST_PARTS or len(set(names)) < len(names):
        raise ValueError("one part twice, or too many parts")
    for part in archive.infolist():
        if part.compress_type not in (ZIP_STORED, ZIP_DEFLATED):
            raise ValueError("packed as no spreadsheet is")
    return archive


def is_ods(archive: ZipFile) -> bool:
    """Returns whether a workbook is .ods, as its first part says."""
    if "mimetype" not in archive.namelist():
        return False
    with archive.open("mimetype") as stream:
        return b"opendocument.spreadsheet" in stream.read(LONGEST_KIND)


def rows_of_chosen(sheets: Iterable[Worksheet], wanted: str | None) -> Iterator[Row]:
    """Yields the rows of the sheet that is wanted, else of the only one that is visible and has
    data.

    Raises `ToolError`, maybe behind them, where that is not sure.
    """
    names: list[str] = []
    found: list[str] = []
    for sheet in sheets:
        names.append(sheet.name)
        is_meant = sheet.is_visible if wanted is None else sheet.name == wanted
        for row in sheet.rows if is_meant else ():
            if sheet.name not in found and not row.is_blank():
                found.append(sheet.name)
            if len(found) < 2:
                yield row
            elif sheet.name in found:
                break
    if not names:
        raise LookupError("no sheet in it")
    if len(found) != 1:
        count = counted("{} visible sheet", "{} visible sheets", len(found))
        what = count if wanted is None else Text("no sheet {}", quoted(wanted))
        what = Text("has {} with data", what)
        remedies = tuple(Remedy("sheet", name, Text("{}", name)) for name in found or names)
        raise ToolError(what, Text("which one has your articles?"), BAD_ARGUMENTS, remedies)


def tree_of(archive: ZipFile, part: str, but: re.Pattern[bytes] | None = None) -> Element:
    """Returns a part without what a pattern finds in it; its elements have names without prefixes.
    A part that the file does not have has no name, and no elements.
    """
    if not part:
        return Element("")
    data = archive.read(part)
    return plainly_named(fromstring(but.sub(b"", data) if but else data))


def parts_of(archive: ZipFile, part: str, outer: str, name: str) -> Iterator[Element]:
    """Yields the elements of a name that are in others of a part, each whole, and forgets them."""
    builder = TreeBuilder()
    top = builder.start("", {})
    parser = XMLParser(target=builder)
    is_read = False
    with archive.open(part) as stream:
        while not is_read:
            data = stream.read(READ_TOGETHER)
            parser.feed(data)
            is_read = not data
            if is_read:
                parser.close()
            found = top.findall(outer)
            for within in found:
                goes_on = within is found[-1] and not is_read  # and its last element, too
                whole = within[:-1] if goes_on else within[:]
                del within[: len(whole)]
                for element in map(plainly_named, whole):
                    if element.tag == name:
                        yield element


def plainly_named(tree: Element) -> Element:
    """Returns an element; it and those in it now have their names without prefixes."""
    for element in tree.iter():
        element.tag = element.tag.rpartition("}")[2]
    return tree


def local(element: Element) -> Attributes:
    """Returns the attributes of an element by their names without prefixes."""
    return {name.rpartition("}")[2]: value for name, value in element.items()}


def rows_from(row: Row, repeat: int = 1) -> Iterator[Row]:
    """Yields a row as often as it is there; raises `ToolError` beyond what a sheet has."""
    is_beyond = row.number + repeat - 1 > MOST_ROWS or len(row.cells) > MOST_COLUMNS
    if is_beyond or len(row.merges) > MOST_MERGES:
        raise ToolError(
            Text(
                "has more than {} rows, {} columns or {} merges across a row",
                MOST_ROWS,
                MOST_COLUMNS,
                MOST_MERGES,
            )
        )
    if repeat > 1 and row.is_blank():  # there may be a million
        repeat = 1
    letters = sum([len(cell) for cell in row.cells if isinstance(cell, str)])
    if letters > LARGEST_ROW or repeat > 1 and (letters + EACH) * repeat > LARGEST_ROW:
        raise ToolError(TOO_LARGE, SAVE_AGAIN)
    yield row
    for number in range(row.number + 1, row.number + repeat):
        yield row._replace(number=number)


def cell_or_fault(make: Callable[..., Cell], *arguments: object) -> Cell:
    """Returns the cell that is made; one that no spreadsheet writes, or that nobody foresaw, leaves
    out only its row.
    """
    try:
        return make(*arguments)
    except (ToolError, MemoryError):
        raise
    except (ValueError, LookupError, ArithmeticError, RecursionError) as error:
        return Fault(Text("is damaged ({})", str(error)[:LONGEST_REASON]), SAVE_AGAIN)
    except Exception as error:
        return Fault(fault_of(error))


def merges_at(merges: list[Merge], number: int) -> list[Merge]:
    """Returns the merged cells that reach a row or one below it."""
    return [merge for merge in merges if merge.last_row >= number]


def exact_of(value: str) -> Decimal:
    """Returns a number of a file; raises ValueError or ArithmeticError for one that no spreadsheet
    writes.
    """
    try:
        exact = Decimal(value)
    except ArithmeticError:
        raise ValueError(f"number {value:.30}") from None
    if not exact.is_finite() or exact and abs(exact.adjusted()) > LARGEST_EXPONENT:
        raise ValueError(f"number {value:.30}")
    return exact


def whole_number(value: str, least: int = 0) -> int:
    """Returns a count or an index of a file; raises ValueError for one below the least, which
    Python would take.
    """
    is_number = value.isascii() and value.isdigit() and len(value) <= MOST_DIGITS
    if not is_number or int(value) < least:
        raise ValueError(f"number {value:.30}")
    return int(value)


def range_corners(reference: str) -> list[tuple[int, int]]:
    """Returns the rows, from 1, and the places, from 0, of a range of cells.

    >>> range_corners("A2:B3"), range_corners("C1")
    ([(2, 0), (3, 1)], [(1, 2)])
    """
    return [(int(row), column_index(letters)) for letters, row in REFERENCE.findall(reference)]


@lru_cache(maxsize=MOST_COLUMNS)
def column_index(letters: str) -> int:
    """Returns the place of a column, from 0.

    >>> column_index("A"), column_index("AB")
    (0, 27)
    """
    return reduce(lambda place, letter: place * 26 + ord(letter) - 64, letters[:4], 0) - 1
