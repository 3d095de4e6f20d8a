#!/usr/bin/python3
"""Counts the instructions that a label takes, beside other libraries and programs, as docs/BENCHMARKS.md has them.

It prints the tables of that page, for which zint, GNU barcode and qrencode have to be installed. valgrind (callgrind)
counts, the same on a busy machine as on an idle one. Each figure is the mean of TEXTS texts of a kind, which are drawn
by a seed, the same for all. What one label more costs: from a run over a text and all texts one over that text is
subtracted, and for qrencode, which draws one label a run, one that prints its version. A call of a library is a tenth
of ten calls, after one that is not counted (lib/tests/count_calls.c); memory is cleared there by a loop, since
valgrind counts each byte of `rep stosb` as an instruction. Its time is the median of the texts, for each the lowest of
three, on this machine. A whole run draws the first text, and has an empty environment, since the loader reads it.
System calls are those of a run without those of a run over no line. The memory of a run is what it has written to,
without the pages of files, which programs share. Every program writes to /dev/null.

--check counts the program and the static library alone, and compares the tables as they are printed with the page. The
status is 1 where a row takes more than 5 % more or less than the page says, or where the page has other heads or rows.
In each run the comparison is shown counts that are 6 % off, and tables with a row less, which it has to report. The
last line is `N rows, M failed; W wrong cases shown`. Status 2: bad arguments, a program or library that is missing, a
count that failed.
"""

import difflib
import os
import random
import re
import shutil
import statistics
import string
import subprocess
import sys
import tempfile
import time
from dataclasses import dataclass
from functools import partial
from pathlib import Path
from typing import Any, Callable, Iterable, Iterator, Mapping, NoReturn, Optional, Sequence, Union

import sources

# How many texts of a kind are drawn, and by which seed.
TEXTS = 20
SEED = 1
# The calls of a library that lib/tests/count_calls.c counts together.
CALLS = 10
# glibc clears memory by `rep stosb` from this many bytes on.
NO_STOSB = {"GLIBC_TUNABLES": "glibc.cpu.x86_rep_stosb_threshold=100000000"}
# By how much in a hundred a count may be above or below that of the page.
ROOM = 5
TOP = Path(sources.TOP)
PAGE = TOP / "docs/BENCHMARKS.md"
PROGRAM = TOP / "crates/labels/out/labels"
LIBRARY = (TOP / "lib/tests/count_calls.c", TOP / "lib/labels.c", TOP / "crates/labels_c/out/liblabels_c.a")
BUILD = ("gcc", "-O2", f"-I{TOP}/lib", *LIBRARY, "-lqrencode", "-lzint", "-lqrcodegen", "-o", "count_calls")
# The tables of the page that are counted, by the first two cells of their heads.
HEADS = (["Label", "labels"], ["Start", "labels"], ["Calls", "labels"], ["KiB", "labels"], ["Call", "liblabels"])
LEVELS = "LMQH"
# What zint and GNU barcode call a linear symbology.
LINEAR = {"ean13": ("EANX", "ean13"), "code128": ("CODE128", "128")}


@dataclass(frozen=True)
class Label:
    """A kind of label: its symbology, texts of it, and the level of a QR symbol."""

    symbology: str
    texts: tuple[str, ...]
    level: str = "M"


# A cell of a table: a count, a text, or nothing; and what counts those of each row.
Cell = Union[float, str, None]
Rows = dict[str, list[Callable[[], Cell]]]
# The head of a table, and what is counted of each row.
Table = tuple[list[str], Mapping[str, Sequence[Cell]]]
Word = Union[str, Path]
Environment = Optional[Mapping[str, str]]


def drawn(form: str) -> tuple[str, ...]:
    """Texts of a form, by the seed: for `#` they have a digit, for `*` a digit or a letter in lower case."""
    chosen = random.Random(SEED)
    characters = {"#": string.digits, "*": string.digits + string.ascii_lowercase}
    return tuple("".join(chosen.choice(characters.get(sign, sign)) for sign in form) for _ in range(TEXTS))


LOT = "LOT-000123/Shelf 7b"
URL = "https://example.com/article/000123"
EAN = Label("ean13", drawn("#" * 12))
CODE128 = Label("code128", drawn("LOT-######/Shelf #*"))
QR = Label("qr", drawn("https://example.com/article/######"))
# The labels that others draw too, and those that `labels` alone draws, with its options.
LABELS = {
    "EAN-13": EAN,
    f"Code 128, as `{LOT}`": CODE128,
    f"QR, as `{URL}`, level M": QR,
    "QR, 200 letters and digits in lower case, level M": Label("qr", drawn("*" * 200)),
    "QR, 600 digits, level L": Label("qr", drawn("#" * 600), "L"),
    "QR, 300 digits, level L": Label("qr", drawn("#" * 300), "L"),
}
ONLY_OURS = {
    **{f"QR, as `{URL}`, `--scale {scale}`": (QR, ("--scale", f"{scale}")) for scale in (5, 6, 7, 8)},
    "EAN-13, `--scale 8`": (EAN, ("--scale", "8")),
    "EAN-13, `--format ascii --height 5`": (EAN, ("--format", "ascii", "--height", "5")),
}
STARTS = {"a run with one EAN-13": EAN, f"a run with one QR, as `{URL}`": QR}
SYSTEM_CALLS = {"reads of 1,000 EAN-13 lines": "sys_read", "writes of 1,000 EAN-13 labels": "sys_write"}
MEMORY = {f"a run over {count:,} EAN-13": count for count in (1000, 100_000)}
# The labels of the library's calls. Of the second QR symbol no mode but that for bytes pays.
OF_LIBRARY = {
    "EAN-13": EAN,
    f"Code 128, as `{LOT}`": CODE128,
    "QR, 34 bytes": QR,
    "QR, 200 bytes": Label("qr", drawn((5 * "https://example.com/Lot #*?article=######&x=")[:200])),
}
SOME = ("EAN-13", "QR, 34 bytes")
LIBRARY_CALLS = {
    "labels_symbol": OF_LIBRARY,
    "labels_draw": OF_LIBRARY,
    "labels_line": SOME,
    "labels_draw, scale 3": SOME,
    "labels_bitmap, scale 3": SOME,
    "labels_read_bits, scale 3": SOME,
}
# The call that is compared with those of other libraries.
COMPARED_CALL = "labels_symbol"
# What is counted with us: programs, libraries in a loop, and calls of libraries.
PROGRAMS = (PROGRAM, "zint", "barcode", "qrencode")
SHOWN = ("zint (`--dump`)", "GNU barcode (PostScript)", "qrencode (text)")
LOOPS = {
    "libzint, picture": "libzint",
    "libzint, no picture": "libzint, no picture",
    "libqrencode, picture": "libqrencode",
}
LIBRARIES = {"libqrencode": "libqrencode", "libzint": "libzint, no picture", "qrcodegen": "qrcodegen"}
QR_ALONE = ("libqrencode", "qrcodegen")


def stop(text: str) -> NoReturn:
    print(f"{sys.argv[0]}: {text}", file=sys.stderr)
    sys.exit(2)


def ran(*command: Word, **how: Any) -> "subprocess.CompletedProcess[str]":
    """A command that has run. Stops where it fails."""
    if not shutil.which(os.fspath(command[0])):
        stop(f"not installed: {command[0]}")
    done = subprocess.run(command, stdin=subprocess.DEVNULL, stderr=subprocess.PIPE, text=True, **how)
    if done.returncode:
        stop(f"status {done.returncode} of: {' '.join(map(str, command))}\n{done.stderr}")
    return done


def output_of(*command: Word) -> str:
    return str(ran(*command, stdout=subprocess.PIPE).stdout)


def said_by_valgrind(*words: Word, environment: Environment = None) -> str:
    """What valgrind says of a command whose output is thrown away."""
    return ran("valgrind", *words, stdout=subprocess.DEVNULL, env=environment).stderr


def instructions_of(program: Word, *words: Word, environment: Environment = None) -> int:
    """The instructions of a command."""
    command = ("--tool=callgrind", "--callgrind-out-file=/dev/null", shutil.which(program) or program, *words)
    return number_in(r" Collected : (\d+)", said_by_valgrind(*command, environment=environment))


def number_in(pattern: str, said: str) -> int:
    """The number that a text has. Stops where it has none."""
    found = re.search(pattern, said, re.M)
    return int(found[1]) if found else stop(f"valgrind has counted nothing: {said}")


def command_of(program: Word, label: Label, texts: Sequence[str], *options: str) -> list[Word]:
    """The command of a program for labels of a kind, or no word; qrencode draws the first text."""
    before = f"{label.symbology} " if program == PROGRAM else ""
    Path("lines").write_text("".join(f"{before}{text}\n" for text in texts), encoding="utf-8")
    is_qr = label.symbology == "qr"
    name, of_barcode = ("QRCODE", "") if is_qr else LINEAR[label.symbology]
    kind = f"--secure={LEVELS.index(label.level) + 1}" if is_qr else "--notext"
    if program == PROGRAM:
        return [PROGRAM, *options, *(("--level", label.level) if label.level != "M" else ()), "lines"]
    if program == "zint":
        return ["zint", "-b", name, kind, "--quietzones", "--batch", "--dump", "-i", "lines"]
    if program == "barcode" and not is_qr:
        return ["barcode", "-e", of_barcode, "-n", "-o", os.devnull, "-i", "lines"]
    if program == "qrencode" and is_qr:
        return ["qrencode", "-l", label.level, "-s", "1", "-t", "ASCII", "-o", os.devnull, texts[0]]
    return []


def one_more(program: Word, label: Label, *options: str) -> Cell:
    """What one label more takes of a program, or nothing where it does not draw it."""
    command = command_of(program, label, label.texts, *options)
    if not command:
        return None
    if program == "qrencode":
        runs = [instructions_of(*command_of(program, label, [text])) for text in label.texts]
        return statistics.mean(runs) - instructions_of(program, "-V")
    if program == PROGRAM and not output_of(*command):
        stop(f"{PROGRAM} draws no label of: {label.texts}")
    few = label.texts[:1]
    less, more = (instructions_of(*command_of(program, label, texts, *options)) for texts in (few, few + label.texts))
    return (more - less) / TEXTS


def whole_run(program: Word, label: Label) -> Cell:
    """What a whole run over one label takes of a program, or nothing where it does not draw it."""
    command = command_of(program, label, label.texts[:1])
    return instructions_of(*command, environment={}) if command else None


def nothing() -> Cell:
    """What a whole run of a program takes that does nothing."""
    subprocess.run(["gcc", "-xc", "-", "-o", "nothing"], input=b"int main(void) { return 0; }", check=True)
    return instructions_of("./nothing", environment={})


def system_calls(call: str) -> Cell:
    """How often a run over 1,000 labels makes a system call, without those of a run over none."""
    counts = []
    for texts in ((), EAN.texts * (1000 // TEXTS)):
        said = said_by_valgrind("--tool=none", "--trace-syscalls=yes", *command_of(PROGRAM, EAN, texts))
        if " sys_read " not in said:
            stop("valgrind names no system call")
        counts.append(said.count(f" {call} "))
    return counts[1] - counts[0]


def memory(count: int) -> Cell:
    """The KiB that a run over EAN-13 labels has written to, which it never gives back: it is asked while it waits."""
    lines = "".join(f"ean13 {text}\n" for text in EAN.texts) * (count // TEXTS)
    with subprocess.Popen([PROGRAM], stdin=subprocess.PIPE, stdout=subprocess.DEVNULL) as run:
        if run.stdin is None:
            stop("a run without input")
        run.stdin.write(lines.encode())
        run.stdin.flush()
        status = ""
        while not re.search(r"^State:\s+S", status, re.M):
            time.sleep(0.01)
            status = sources.read(f"/proc/{run.pid}/status")
        said = sources.read(f"/proc/{run.pid}/smaps_rollup")
    return number_in(r"^Anonymous:\s+(\d+) kB", said)


def draws(call: str, label: Label) -> bool:
    """Whether a call of a library draws a label: some draw QR alone."""
    return label.symbology == "qr" or not call.startswith(QR_ALONE)


def words_of_call(call: str, label: Label) -> Iterator[str]:
    """The words by which the test program makes a call for each text; it is built where it is not there."""
    if not os.path.exists("count_calls"):
        output_of(*BUILD)
    for text in label.texts:
        yield from (call, label.symbology, label.level, text)


def of_call(call: str, label: Label) -> Cell:
    """What a call of a library takes, or nothing where it does not draw the label."""
    if not draws(call, label):
        return None
    words = ("./count_calls", *words_of_call(call, label))
    theirs = output_of(*words)
    command = ("--tool=callgrind", "--callgrind-out-file=counts", *words)
    said_by_valgrind(*command, environment={**os.environ, **NO_STOSB})
    if theirs:
        see_pictures(label, theirs)
    counts = [number_in(r"^summary: (\d+)", sources.read(f"counts.{place}")) for place in range(1, TEXTS + 1)]
    return statistics.mean(counts) / CALLS


def time_of_call(call: str, label: Label) -> Cell:
    """The microseconds of a call of a library, as text, or nothing where it does not draw the label."""
    if not draws(call, label):
        return None
    nanoseconds = output_of("./count_calls", "--time", *words_of_call(call, label)).split()
    microseconds = statistics.median(map(float, nanoseconds)) / 1000
    return f"{microseconds:,.0f}" if microseconds >= 100 else f"{microseconds:.2g}"


def see_pictures(label: Label, theirs: str) -> None:
    """Pictures of bars have to be those of `labels`, those of QR symbols as large: their masks may differ."""
    texts = [text for text in label.texts for _ in range(CALLS + 1)]
    ours = output_of(*command_of(PROGRAM, label, texts))
    if label.symbology == "qr":
        ours, theirs = (" ".join(re.findall(r"^P1\n(.*)$", pictures, re.M)) for pictures in (ours, theirs))
    if ours != theirs:
        stop(f"a library draws another picture of one of: {label.texts}")


def cells_of_call(call: str, name: str) -> list[Callable[[], Cell]]:
    """What counts the cells of a call of our library for a label: instructions, then times, each beside those of other
    libraries if it is compared with them."""
    others = LIBRARIES.values() if call == COMPARED_CALL else ()
    calls, label = [call, *others], OF_LIBRARY[name]
    counts: list[Callable[[], Cell]] = [partial(of_call, library_call, label) for library_call in calls]
    return [*counts, *(partial(time_of_call, library_call, label) for library_call in calls)]


def tables() -> Iterator[tuple[list[str], Rows]]:
    """The tables of the page: the head, and for each row what counts its cells, of which the first is ours."""
    rows: Rows = {}
    for name, label in LABELS.items():
        ours, *others = (partial(one_more, program, label) for program in PROGRAMS)
        rows[name] = [ours, *(partial(of_call, loop, label) for loop in LOOPS), *others]
    yield ["Label", "labels", *LOOPS.values(), *SHOWN], rows
    rows = {name: [partial(one_more, PROGRAM, label, *options)] for name, (label, options) in ONLY_OURS.items()}
    yield ["Label", "labels"], rows
    rows = {}
    for name, label in STARTS.items():
        ours, *others = (partial(whole_run, program, label) for program in PROGRAMS)
        rows[name] = [ours, nothing, *others]
    yield ["Start", "labels", "empty C program", *SHOWN], rows
    yield ["Calls", "labels"], {name: [partial(system_calls, call)] for name, call in SYSTEM_CALLS.items()}
    yield ["KiB", "labels"], {name: [partial(memory, count)] for name, count in MEMORY.items()}
    for is_compared in (True, False):
        rows = {}
        for call, names in LIBRARY_CALLS.items():
            if (call == COMPARED_CALL) == is_compared:
                function, *scale = call.split(", ")
                rows |= {", ".join([f"`{function}`", name, *scale]): cells_of_call(call, name) for name in names}
        libraries = list(LIBRARIES) if is_compared else []
        of_times = [f"{name}, µs" for name in ("liblabels", *libraries)]
        yield ["Call", "liblabels", *libraries, *of_times], rows


def shown(count: Cell) -> str:
    """A cell: a count in hundreds, a small one and a text as they are, or none."""
    if count is None or isinstance(count, str):
        return count or "-"
    return f"{100 * round(count / 100):,}" if count >= 1000 else f"{count:.0f}"


def counted(is_ours_alone: bool) -> Iterator[Table]:
    """The tables of the page, each with what is counted of its rows: all cells, or ours alone."""
    for head, rows in tables():
        yield head, {name: [cell() for cell in cells[: 1 if is_ours_alone else None]] for name, cells in rows.items()}


def text_of(made: Iterable[Table]) -> str:
    """Tables as the page has them, each with a blank line after it."""
    lines = []
    for head, rows in made:
        cells = [head, ["---"] * len(head), *([name, *map(shown, counts)] for name, counts in rows.items())]
        lines += [f"| {' | '.join([*row, *['-'] * (len(head) - len(row))])} |" for row in cells]
        lines.append("")
    return "\n".join(lines)


def rows_of(page: str) -> Iterator[list[str]]:
    """The cells of each row of the page's tables that are counted, those of the heads too."""
    is_counted = False
    for line in page.split("\n"):
        cells = [cell.strip() for cell in line.split("|")[1:-1]]
        is_counted = cells[:2] in HEADS or is_counted and bool(cells)
        if is_counted:
            yield cells


def shape_of(row: Sequence[str]) -> str:
    """What a row has to have on the page, whatever is counted: a head all cells, another row its name and as many."""
    return " | ".join(row) if row[:2] in HEADS else f"{row[0]} with {len(row) - 1} more cells"


def fault_of(name: str, found: Cell, wanted: str) -> str:
    """What is wrong with a count beside that of the page, or nothing."""
    if not re.fullmatch(r"[1-9][\d,]*", wanted):
        return f"{name}: the page has {wanted or 'no such row'}"
    if not isinstance(found, (int, float)):
        return f"{name}: {wanted} on the page, and nothing is counted"
    percent = 100 * found / int(wanted.replace(",", "")) - 100
    return f"{name}: {wanted} on the page, {found:,.0f} measured, {percent:+.1f} %" if abs(percent) > ROOM else ""


def faults(made: Sequence[Table], page: str) -> list[str]:
    """The counts that differ, and each line of the tables as they are printed that has another head or row than the
    page."""
    rows = [*rows_of(page)]
    found = [
        fault_of(name, counts[0], "; ".join(row[1] for row in rows if row[0] == name))
        for _, of_table in made
        for name, counts in of_table.items()
    ]
    ours = [*map(shape_of, rows_of(text_of(made)))]
    theirs = [*map(shape_of, rows)]
    differing = [line for line in difflib.ndiff(theirs, ours) if line[0] in "+-"]
    found += [f"the page (-) has other rows than are printed (+): {line}" for line in differing]
    return [*filter(None, found)]


def wrong_cases() -> Iterator[tuple[str, bool]]:
    """Tables with a count that is 6 % off or none, a row or a cell less than the page or more, each with whether this
    is reported: rows at both ends and in the middle of each kind of table."""
    for first, second in HEADS:
        head = [first, second, "others"]
        rows: dict[str, Sequence[Cell]] = {name: [1000] for name in ("one", "two", "three")}
        right: Table = head, rows
        cases: dict[str, Table] = {
            f"{name}, {count}": (head, {**rows, name: [count]}) for name in rows for count in (940, 1060)
        }
        cases |= {f"no {name}": (head, {other: rows[other] for other in rows if other != name}) for name in rows}
        cases["a cell less"] = head[:2], rows
        cases["nothing counted"] = head, {**rows, "two": [None]}
        for name, wrong in cases.items():
            for ours, page in ((wrong, right), (right, wrong)):
                yield f"{name} of {ours} beside {page}", bool(faults([ours], text_of([page])))
        yield f"the same of {right}", not faults([right], text_of([right]))


def main() -> int:
    parser = sources.parser_of(__doc__)
    parser.add_argument("--check", action="store_true", help="compare what is ours with the page")
    given = parser.parse_args()
    made: list[Table] = []
    with tempfile.TemporaryDirectory() as folder:
        os.chdir(folder)
        for table in counted(given.check):
            made.append(table)
            if not given.check:
                print(text_of([table]), flush=True)
    if not given.check:
        return 0
    found = faults(made, PAGE.read_text(encoding="utf-8"))
    return sources.ended(found, f"{sum(len(rows) for _, rows in made)} rows, {len(found)} failed", wrong_cases())


if __name__ == "__main__":
    sys.exit(main())
