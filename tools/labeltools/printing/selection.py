"""Which labels of a file are printed: rows, ranges of them, and codes."""

import re
import sys
from codecs import BOM_UTF8
from dataclasses import dataclass
from itertools import filterfalse
from typing import Iterable, Iterator

from labeltools.common.messages import Origin, Problem, Remedy, ToolError
from labeltools.common.process import read_file
from labeltools.common.report import few, is_in_ranges, LeftOut, listed, Ranges
from labeltools.common.text import Text
from labeltools.lines.file import Record

ENDLESS = sys.maxsize  # the last number of a range without an end
RANGE = re.compile(r"(\d{1,7})(-(\d{1,7})?)?", re.ASCII)
FILE = "@"  # before the name of a file of codes


@dataclass(frozen=True)
class Selection:
    """Rows of the table, or lines where no rows are known; codes; without both, all labels."""

    rows: Ranges = ()
    codes: frozenset[bytes] = frozenset()

    def __bool__(self) -> bool:
        """Whether labels are chosen."""
        return bool(self.rows or self.codes)

    def has_row(self, number: int) -> bool:
        """Returns whether a row, or a line, is asked for by its number."""
        return not self or is_in_ranges(number, self.rows)

    def has_label(self, record: Record) -> bool:
        """Returns whether the label of a line is asked for."""
        if self.codes and not self.codes.isdisjoint(names_of_code(record)):
            return True
        return self.has_row(record.origin.number)

    def not_in_input(self, records: Iterable[Record], known: Iterable[Origin]) -> Iterator[LeftOut]:
        """Yields what is asked for and not in the input; `known` are rows without a line."""
        rows = {place.number for place in known}
        codes: set[bytes] = set()
        for record in records:
            rows.add(record.origin.number)
            if self.codes:
                codes.update(names_of_code(record))
        if named := listed(self.lacking(rows)):
            text = Text("the input does not have {}", named)
            yield LeftOut(None, "", Problem(text, remedies=(Remedy("only"),)))
        if unknown := [code.decode("utf-8", "backslashreplace") for code in self.codes - codes]:
            some = few(sorted(unknown))
            text = Text("the input does not have {}", some)
            yield LeftOut(None, "", Problem(text, remedies=(Remedy("only-code"),)))

    def lacking(self, rows: set[int]) -> Iterator[int]:
        """Yields the rows that are asked for and not among some, each once; of a range without an
        end that is its first one, where it has none of them.

        >>> [*Selection(((2, 5), (4, 9), (20, ENDLESS))).lacking({1, 3, 8})]
        [2, 4, 5, 6, 7, 9, 20]
        >>> [*Selection(((2, ENDLESS),)).lacking({7})]
        []
        """
        done = 0
        for first, last in self.rows:
            if last == ENDLESS:
                last = first if max(rows, default=0) < first else 0
            yield from filterfalse(rows.__contains__, range(max(first, done + 1), last + 1))
            done = max(done, last)


def names_of_code(record: Record) -> set[bytes]:
    """Returns how the code of a line may be named: its data, of a number without its check digit
    too, of UPC-A as EAN-13 too; and as a journal has it, with its symbology.
    """
    whole = record.code_line.encode("utf-8", "replace")
    if record.symbology not in ("ean13", "ean8", "upca"):
        return {record.data, whole}
    _, number = record.key
    names = {number, number[:-1]}
    if record.symbology != "ean8" and number.startswith(b"0"):
        names |= {name[1:] for name in names}
    kind = record.symbology.encode("utf-8", "replace")
    return {whole, *names, *(kind + b" " + name for name in names)}


def ranges_in(rows: str) -> Ranges:
    """Returns the ranges that an argument such as 2,7-9 or 7- names; none if it names no rows.

    >>> ranges_in("7-9,2,8-12"), ranges_in("30-") == ((30, ENDLESS),)
    (((2, 2), (7, 9), (8, 12)), True)
    >>> ranges_in("9-7"), ranges_in("0"), ranges_in("2;3"), ranges_in("")
    ((), (), (), ())
    """
    found: list[tuple[int, int]] = []
    for part in rows.split(","):
        read = RANGE.fullmatch(part)
        if read is None:
            return ()
        first = int(read[1])
        last = int(read[3] or ENDLESS) if read[2] else first
        if not 0 < first <= last:
            return ()
        found.append((first, last))
    return tuple(sorted(found))


def codes_named(arguments: Iterable[str]) -> frozenset[bytes]:
    """Returns the codes that arguments are, or those of the lines of a file, as in @damaged.txt;
    raises `ToolError` and `OSError`.
    """
    found: set[bytes] = set()
    for argument in arguments:
        if not argument.startswith(FILE):
            found.add(argument.encode("utf-8", "surrogateescape"))
            continue
        path = argument.removeprefix(FILE)
        lines = read_file(path).removeprefix(BOM_UTF8).splitlines()
        codes = {line.strip() for line in lines} - {b""}
        if not codes:
            what = Text("{}: there is no code", path)
            raise ToolError(what, Text("write a code on each line"))
        found |= codes
    return frozenset(found)
