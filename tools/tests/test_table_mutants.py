"""Thousands of damaged .xlsx and .ods, by a fixed seed: none ends label-table with a traceback,
late, or in memory.

The mutants are read in a process of their own, which has a limit of memory, and one of its
time for each mutant. Whatever a mutant is, label-table writes a whole file or says what is wrong with a message.
"""

import os
import random
import re
import resource
import signal
import subprocess
import sys
import time
import unittest
import zipfile
from contextlib import contextmanager
from typing import Callable, Iterator, Sequence

import support
from labeltools.common.messages import Talk, ToolError
from labeltools.tables.table import lines_of_table
from labeltools.tables.table_options import ColumnOptions, TableOptions
from table_test import BOOK, PENCIL, SMALL
from workbooks import cell, KINDS, ods, ods_cell, packed, relations, rows, table, unpacked, xlsx

SEED = 60
MUTANTS = 4000
SECONDS = 10
MEMORY = 500 << 20
HOSTILE = "0 -1 1 3 99999999999 1048577 abc 1e999 NaN A1:XFD1048576 &#65;".split()
HOSTILE += ["", "x" * 5000]
OPTIONS = TableOptions(
    columns=ColumnOptions(code="EAN", title=("Name",), price="Preis", copies="Stück")
)


def base_files() -> list[dict[str, str]]:
    """The parts of a workbook of each kind, with most of what such a file may have."""
    line = [PENCIL, "Bleistift\n2B", cell(0.8, style=1), 3]
    merges = (
        '<mergeCells><mergeCell ref="B4:B5"/></mergeCells><hyperlinks><hyperlink ref="A2"'
        ' r:id="rId1"/></hyperlinks>'
    )
    parts = unpacked(
        xlsx(
            rows(
                ["EAN", "Name", "Preis", "Stück"],
                line,
                [int(SMALL), '<c t="s"><v>0</v></c>', cell(12999, style=2), 1],
                [
                    BOOK,
                    "<c><f>A1</f><v>1</v></c>",
                    '<c t="e"><v>#REF!</v></c>',
                    '<c t="b"><v>1</v></c>',
                ],
                ["x", None, cell(46000, style=3), 0],
            ).replace('<row r="4"', '<row hidden="1" r="4"'),
            formats=['#,##0.00\\ "€"', "[$-407]0.00;[Red]-0.00", "yyyy-mm-dd h:mm"],
            strings="<si><r><t>Käse</t></r><rPh><t>x</t></rPh></si>",
            after=merges,
        )
    )
    sheet_part = "xl/worksheets/sheet1.xml"
    parts[sheet_part] = parts[sheet_part].replace("<worksheet ", f'<worksheet xmlns:r="{KINDS}" ')
    parts["xl/worksheets/_rels/sheet1.xml.rels"] = relations(
        [("rId1", "hyperlink", "https://example.com/7")]
    )
    spanned = ods_cell(BOOK, more='table:number-rows-spanned="2" table:number-columns-spanned="1"')
    repeated = ods_cell("Seife", more='table:number-columns-repeated="2"')
    price = ods_cell("0,80 €", "currency", 'office:currency="EUR" office:value="0.8"')
    day = ods_cell("25.11.26", "date", 'office:date-value="2026-11-25"')
    end = (
        '<table:table-row table:number-rows-repeated="1048000"'
        ' table:visibility="filter"><table:table-cell/></table:table-row>'
    )
    sheet = table(
        ["EAN", "Name", "Preis", "Stück"],
        [
            PENCIL,
            "a<text:s text:c='2'/>b<text:line-break/>c",
            price,
            ods_cell("3", "float", 'office:value="3"'),
        ],
        [spanned, repeated],
        ["<table:covered-table-cell/>", "x", day, "1"],
        end=f"<table:table-row-group>{end}</table:table-row-group>",
    )
    style = (
        '<style:style style:name="ta1" style:family="table"><style:table-properties'
        ' table:display="true"/></style:style>'
    )
    return [parts, unpacked(ods(sheet, styles=style))]


def hostile_at(pattern: str) -> Callable[[str, random.Random], str]:
    """A change of one of the places that a pattern finds to a hostile value."""

    def changed(text: str, numbers: random.Random) -> str:
        places = [match.span(1) for match in re.finditer(pattern, text)]
        if not places:
            return text
        first, last = numbers.choice(places)
        return text[:first] + numbers.choice(HOSTILE) + text[last:]

    return changed


def without_a_slice(text: str, numbers: random.Random) -> str:
    """A part of a text is lost."""
    first = numbers.randrange(len(text) + 1)
    return text[:first] + text[first + numbers.randrange(1, 60) :]


def with_a_slice_twice(text: str, numbers: random.Random) -> str:
    """A part of a text is there many times."""
    first = numbers.randrange(len(text) + 1)
    part = text[first : first + numbers.randrange(1, 200)]
    return text[:first] + part * numbers.choice((2, 3, 500)) + text[first:]


def with_another_tag(text: str, numbers: random.Random) -> str:
    """An element has another name, at its beginning and its end."""
    names = sorted(set(re.findall("<([a-zA-Z:]+)", text)))
    if not names:
        return text
    old, new = numbers.choice(names), numbers.choice(names)
    return text.replace(f"<{old}", f"<{new}").replace(f"</{old}>", f"</{new}>")


def with_another_letter(text: str, numbers: random.Random) -> str:
    """A letter is another one."""
    place = numbers.randrange(len(text) + 1)
    return (
        text[:place]
        + chr(numbers.choice((0, 34, 38, 60, 62, 65, 0xFFFD, 0x202E)))
        + text[place + 1 :]
    )


CHANGES: Sequence[Callable[[str, random.Random], str]] = (
    hostile_at('="([^"]*)"'),
    hostile_at('="([^"]*)"'),
    hostile_at(">([^<>]+)<"),
    without_a_slice,
    with_a_slice_twice,
    with_another_tag,
    with_another_letter,
)


def mutant(files: Sequence[dict[str, str]], number: int) -> bytes:
    """The mutant of a number."""
    numbers = random.Random(f"{SEED} {number}")
    parts = dict(numbers.choice(files))
    for _ in range(numbers.choice((1, 1, 1, 2, 5))):
        name = numbers.choice(sorted(parts))
        parts[name] = numbers.choice(CHANGES)(parts[name], numbers)
    if numbers.random() < 0.05:
        del parts[numbers.choice(sorted(parts))]
    data = packed(parts, zipfile.ZIP_STORED if numbers.random() < 0.5 else zipfile.ZIP_DEFLATED)
    if numbers.random() < 0.2:
        changed = bytearray(data)
        for _ in range(numbers.randrange(1, 4)):
            changed[numbers.randrange(4, len(changed))] ^= 1 << numbers.randrange(8)
        data = bytes(changed)
    return data


def late(number: int, frame: object) -> None:
    """Ends a mutant that takes too long."""
    raise TimeoutError


@contextmanager
def in_time(seconds: float) -> Iterator[None]:
    """Raises `TimeoutError` in what takes more time of the processor."""
    signal.signal(signal.SIGPROF, late)
    signal.setitimer(signal.ITIMER_PROF, seconds)
    try:
        yield
    finally:
        signal.setitimer(signal.ITIMER_PROF, 0)


def read_all(first: int, last: int) -> None:
    """Reads mutants, in a process of its own; prints those that end otherwise than they should."""
    resource.setrlimit(resource.RLIMIT_AS, (MEMORY, MEMORY))
    files = base_files()
    whole = refused = 0
    for number in range(first, last):
        data = mutant(files, number)
        try:
            with in_time(SECONDS):
                lines = lines_of_table(data, "x", OPTIONS, Talk())
            if not lines.output.endswith(b"\n") or b'#{"end":1,' not in lines.output:
                print(f"mutant {number}: no whole file")
            whole += 1
        except ToolError as error:
            if (
                not str(error).startswith("x ")
                and "column" not in str(error)
                and "row" not in str(error)
            ):
                print(f"mutant {number}: {error}")
            refused += 1
        except Exception as error:  # whatever it is, a user would see a traceback
            print(f"mutant {number}: {type(error).__name__}: {error}")
    print(f"{whole} whole, {refused} refused")


class Mutants(unittest.TestCase):
    @support.slow
    def test_mutants(self) -> None:
        count = int(os.environ.get("MUTANTS", MUTANTS))
        step = -(-count // 4)
        before = support.processor_seconds()
        command = [sys.executable, __file__, "--mutants"]
        children = [
            subprocess.Popen(
                [*command, str(first), str(min(first + step, count))],
                stdout=subprocess.PIPE,
                text=True,
                env=support.environment(),
            )
            for first in range(0, count, step)
        ]
        said = [child.communicate()[0].splitlines() for child in children]
        self.assertEqual([child.returncode for child in children], [0] * len(children))
        totals = [re.fullmatch("([0-9]+) whole, ([0-9]+) refused", lines[-1]) for lines in said]
        self.assertEqual([line for lines in said for line in lines[:-1]], [])
        whole = sum(int(total[1]) for total in totals if total)
        refused = sum(int(total[2]) for total in totals if total)
        self.assertEqual(whole + refused, count)
        self.assertGreater(min(whole, refused), count // 20, "mutants of one kind alone say little")
        self.assertLess(support.processor_seconds() - before, 600)

    @support.slow
    def test_a_mutant_that_takes_too_long_is_found(self) -> None:
        with in_time(0.1):
            time.sleep(0.3)
        with self.assertRaises(TimeoutError), in_time(0.1):
            while True:
                pass

    def test_mutants_are_by_the_seed_alone(self) -> None:
        files = base_files()
        self.assertEqual(mutant(files, 7), mutant(files, 7))
        self.assertGreater(len({mutant(files, number) for number in range(50)}), 40)


if __name__ == "__main__":
    if sys.argv[1:2] == ["--mutants"]:
        read_all(int(sys.argv[2]), int(sys.argv[3]))
    else:
        unittest.main()
