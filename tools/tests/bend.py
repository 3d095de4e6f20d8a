#!/usr/bin/python3
"""Bends tables, workbooks, designs, lines and printers' answers at random, and gives them to the
tools: usage: bend.py [--cases N] [--seed N] [--keep FOLDER]

It fails if an exception gets out that is no message, if a case takes more than its budget, or if a
label comes out with a code or a price that its file does not have. The cases that fail are written
into the folder. The last line counts. Each run also judges three cases that have to fail.
"""

import argparse
import random
import re
import resource
import sys
import tempfile
import time
import zipfile
from collections import Counter
from collections.abc import Callable, Mapping, Sequence
from contextlib import suppress
from functools import cache, partial
from io import BytesIO
from pathlib import Path
from unittest import mock

import support
from labeltools.commands.label_table import table_options
from labeltools.common.budget import SECONDS
from labeltools.common.messages import Talk, ToolError
from labeltools.designs.svg_design import read_design
from labeltools.lines.file import read_lines, Record
from labeltools.sending.answers import QUERIES
from labeltools.tables import table
from labeltools.tables.guess import guess_of
from labeltools.tables.old_encoding import old_encoding
from labeltools.tables.table_options import TableOptions
from workbooks import ods, packed, rows, table as sheet_of, unpacked, xlsx

MEMORY = 1_500 << 20  # bytes that this process may have
MOST_PARTS = 1 << 24  # bytes of a workbook that are looked at
LONGEST = 1 << 20  # bytes of a case: what is doubled again and again gets no longer
DESIGNS = 40  # one case of so many is a design: another process draws it
CODES = [support.ean13(400_638_133_300 + number) for number in range(12)]
CELLS = [["EAN", "Name", "Price"]]
CELLS += [[code, f"Tea {code[-3:]}, green", f"{code[-2]},{code[-3:-1]} €"] for code in CODES]
# pieces of what people and programs write wrongly, or on purpose
PIECES = [
    *("\0", '"', '""', ";", ",", "\t", "\r", "\n", "'", "<", ">", "&", "&amp;", "&#x202e;", "]]>"),
    *("\u202e", "\ufeff", "é", "\ud800", "🍵", "9" * 400, "1E999", "-1", "NaN", "0x1F", "sep=;\n"),
    *('r="XFD1"', 't="s"', 's="999"', '<row r="1048577">', "<!--", "<![CDATA[", "<!DOCTYPE a>"),
    *('table:number-columns-repeated="16384"', 'table:number-rows-repeated="1048576"', "</table>"),
    *('<use href="#a"/>', 'width="1e9mm"', '<filter id="f"/>', 'data-place="code"', "url(#f)"),
    *('#{"row":1}', '#{"end":1}', '{"a":' * 40, "ean13 ", "qr,level=H ", "\\x", "\x02", "\x03"),
    # marks that stack, merges, exponents, a count that falls, remarks of another program
    *("\u0e35" * 2000, "a\u0301\u0316" * 2000, "1E-999900", "1E300", "0" * 5000, "'", "Z"),
    *('<mergeCell ref="A2:XFD900000"/>', 'table:number-columns-spanned="16384"', "T10:00:00Z"),
    *("999999999", "999999998", '#{"price":"0,01 €","copies":50}\n', "#", "\nqr A\n"),
    *('<xi:include xmlns:xi="http://www.w3.org/2001/XInclude" href="data:,"/>', "<switch>"),
    *("<color-profile>", '<feTurbulence numOctaves="2000000"/>'),
]
MORE_WORDS: Sequence[Sequence[str]] = (
    [],
    ["--digits", "lost-zeros"],
    ["--symbology", "qr"],
    ["--price-as", "0,00 €"],
)
LINES = b'#{"labels":1,"table":"a.csv"}\n' + b"".join(
    f'#{{"row":{row},"title":"Tea {row}","price":"{row},00 €"}}\nean13 {code}\n'.encode()
    for row, code in enumerate(CODES, 2)
)
LINES += b'#{"end":1,"lines":12,"left_out":[],"left_out_count":0}\n'
DESIGN = (
    '<svg xmlns="http://www.w3.org/2000/svg" width="60mm" height="40mm" viewBox="0 0 60 40">'
    '<filter id="f"><feGaussianBlur stdDeviation="1"/></filter><g id="title">'
    '<path d="M2 2H58V9Z" fill="#ccc" filter="url(#f)"/></g><text x="2" y="9">Tea</text>'
    '<rect data-place="title, bold" x="2" y="2" width="56" height="8" fill="none"/>'
    '<rect data-place="code" x="2" y="12" width="56" height="26" fill="none"/></svg>'
).encode()
STATUS = (
    b"\x02030,0,0,0320,002,0,0,0,000,0,0,0\x03\r\n\x02001,0,0,0,0,2,4,0,00000003,1,000\x03\r\n"
    b"\x020000,0\x03\r\n\x16\x12"
)
Judge = Callable[[bytes], None]


class Wrong(Exception):
    """What is wrong with what a tool made of a case."""


@cache
def seeds() -> Mapping[str, Sequence[bytes]]:
    """What is bent, by its kind."""
    text = "\n".join(";".join(row) for row in CELLS) + "\n"
    quoted = "\r\n".join(",".join(f'"{cell}"' for cell in row) for row in CELLS)
    old = text.replace("Tea", "Käse Zürich").encode("cp1252")
    written = xlsx(rows(*CELLS), ("Other", "hidden", rows(["a"])), strings="<si><t>Tea</t></si>")
    return {
        "csv": [text.encode(), old, quoted.encode("utf-16"), quoted.encode("utf-8-sig")],
        "xlsx": [written],
        "ods": [ods(sheet_of(*CELLS), sheet_of(["a"], name="Other"))],
        "lines": [LINES],
        "answer": [STATUS],
        "svg": [DESIGN],
    }


def bent(chance: random.Random, data: bytes) -> bytes:
    """Bytes with some changes: of a workbook mostly those of a part."""
    if data.startswith(b"PK") and chance.random() < 0.9:
        parts = dict(unpacked(data))
        name = chance.choice([*parts])
        changed = changed_bytes(chance, parts[name].encode())
        return packed({**parts, name: changed})
    return changed_bytes(chance, data)


def changed_bytes(chance: random.Random, data: bytes) -> bytes:
    """Bytes with one change to six."""
    for _ in range(chance.choice((1, 1, 1, 2, 3, 6))):
        first, last = sorted(chance.randint(0, len(data)) for _ in range(2))
        last = min(last, first + chance.choice((1, 4, 60, 1 << 20)))
        piece = data[first:last]
        place = chance.randint(0, len(data))
        new = chance.choice(PIECES).encode("utf-8", "surrogatepass")
        data = chance.choice(
            (
                data[:first] + data[last:],
                data[:place] + piece * chance.choice((1, 2, 50)) + data[place:],
                data[:place] + new + data[place:],
                data[:first] + new + data[last:],
                data[:place] + bytes([chance.randrange(256)]) + data[place + 1 :],
            )
        )[:LONGEST]
    return data


def text_of(data: bytes) -> str:
    """All that stands in a file, without what may be between digits."""
    found = data
    if data.startswith(b"PK"):
        with suppress(Exception), zipfile.ZipFile(BytesIO(data)) as archive:
            for part in archive.namelist():
                with suppress(Exception), archive.open(part) as stream:
                    found += b"\n" + stream.read(MOST_PARTS)
    text = re.sub(r"[\s\u00a0\u202f-]", "", found.replace(b"\0", b"").decode("utf-8", "replace"))
    return text + re.sub("<[^>]*>", "", text)  # letters of a cell may have tags between them


def require_known(records: Sequence[Record], text: str) -> None:
    """Raises `Wrong` for a label whose code or price is not in a text."""
    for record in records:
        digits = record.data.decode("latin-1")
        if digits.isdigit() and digits.lstrip("0") not in text:
            raise Wrong(f"a label with {digits}")
        for number in re.findall("[0-9]+", record.price):
            if number.strip("0") not in text:
                raise Wrong(f"a label with the price {record.price}")


def judge_table(chance: random.Random, data: bytes) -> None:
    """Gives a table to label-table; raises `Wrong`."""
    words = ["--code", "EAN", "--title", "Name", "--price", "Price"]
    words += chance.choice(MORE_WORDS)
    options = table_options(words)
    with suppress(ToolError):
        made = table.lines_of_table(data, "bent", options, Talk())
        require_known(read_lines(made.output, "bent").records, text_of(data))
    if chance.random() < 0.3:
        with suppress(ToolError):
            guess_of(data, "bent", TableOptions(), Talk())
        with suppress(ToolError):
            old_encoding(data, "bent", TableOptions(), Talk())


def judge_lines(data: bytes) -> None:
    """Reads a file of lines; raises `Wrong`."""
    with suppress(ToolError):
        records = read_lines(data, "bent").records
        lines = data.split(b"\n")
        if any(record.line not in lines for record in records):
            raise Wrong("a line that the file does not have")


def judge_answer(data: bytes) -> None:
    """Reads the answers of a printer."""
    for query in QUERIES.values():
        query.read(data)


def judge_design(data: bytes) -> None:
    """Reads a design."""
    with tempfile.NamedTemporaryFile(suffix=".svg") as file, suppress(ToolError):
        file.write(data)
        file.flush()
        read_design(file.name, (60.0, 40.0), (0.0,) * 4, None)


def judges(chance: random.Random) -> Mapping[str, Judge]:
    """What judges each kind."""
    of_table = partial(judge_table, chance)
    return {
        **dict.fromkeys(("csv", "xlsx", "ods"), of_table),
        "lines": judge_lines,
        "answer": judge_answer,
        "svg": judge_design,
    }


def fault_in(judge: Judge, data: bytes) -> str:
    """What is wrong with a case; nothing if all is well."""
    begin = time.process_time()
    try:
        judge(data)
    except Exception as error:
        return f"{type(error).__name__}: {error}"[:200]
    taken = time.process_time() - begin
    most = 3 * SECONDS.most(len(data))  # a case is read up to three times, each with a budget
    return f"took {taken:.0f} seconds" if taken > most else ""


def shown_wrong() -> bool:
    """Whether cases that are wrong are judged so: an exception, too much time, an unknown code."""
    chance = random.Random(1)
    (plain, *_others) = seeds()["csv"]
    judge = partial(judge_table, chance)
    with mock.patch.object(table, "lines_of_table", side_effect=KeyError("x")):
        is_exception_seen = fault_in(judge, plain).startswith("KeyError")
    with mock.patch("time.process_time", side_effect=(0.0, 1e9)):
        is_time_seen = fault_in(judge_lines, LINES).startswith("took")
    made = table.lines_of_table(plain, "a", options_of_codes(), Talk())
    with mock.patch.object(table, "lines_of_table", return_value=made):
        is_code_seen = "a label with" in fault_in(
            judge, plain.replace(b"4006381333", b"4006381999")
        )
    return is_exception_seen and is_time_seen and is_code_seen and not fault_in(judge, plain)


def options_of_codes() -> TableOptions:
    """Options by which a table is read."""
    return table_options(["--code", "EAN"])


def run(cases: int, seed: int, keep: Path | None = None) -> tuple[Counter[str], list[str]]:
    """Judges cases; returns how many there were of each kind, and what was wrong."""
    chance = random.Random(seed)
    kinds = [kind for kind in seeds() if kind != "svg"]
    by_kind = judges(chance)
    counts: Counter[str] = Counter()
    wrong: list[str] = []
    for number in range(cases):
        kind = "svg" if number % DESIGNS == 0 else chance.choice(kinds)
        data = bent(chance, chance.choice(seeds()[kind]))
        counts[kind] += 1
        if fault := fault_in(by_kind[kind], data):
            wrong.append(f"{kind} {number}: {fault}")
            if keep:
                (keep / f"{number}.{kind}").write_bytes(data)
    return counts, wrong


def main() -> int:
    """Bends cases, and returns whether something is wrong."""
    parser = argparse.ArgumentParser(description=__doc__)
    parser.add_argument("--cases", type=int, default=400)
    parser.add_argument("--seed", type=int, default=1)
    parser.add_argument("--keep", type=Path)
    given = parser.parse_args()
    resource.setrlimit(resource.RLIMIT_AS, (MEMORY, MEMORY))
    is_judging = shown_wrong()
    counts, wrong = run(given.cases, given.seed, given.keep)
    for line in wrong:
        print(line)
    kinds = ", ".join(f"{count} {kind}" for kind, count in sorted(counts.items()))
    used = resource.getrusage(resource.RUSAGE_SELF)
    print(f"{used.ru_utime:.0f} seconds of the processor, {used.ru_maxrss >> 10} MB")
    print(f"{given.cases} bent cases ({kinds}): {len(wrong)} wrong; 3 wrong ones shown")
    return 1 if wrong or not is_judging else 0


if __name__ == "__main__":
    sys.exit(main())
