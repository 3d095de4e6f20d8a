"""What drivers of CUPS send to their printers, turned back into dots: ZPL, EPL2, the language of a
Dymo LabelWriter, and PCL without compression.

A page is rows of 0 and 1. A job that has any other command raises JobError. The bars of labels are
found in a page, wherever the driver has moved them to.
"""

import re
from dataclasses import dataclass
from typing import Callable, Iterator, Sequence

import numpy

from jobs import data_of_run_lengths, Dots, JobError
from labeltools.commands.label_print import print_options
from labeltools.common.messages import Talk
from labeltools.printing.job import planned
from labeltools.printing.press import labels_of
from laying import boxes_of

# The commands of a language, and what each does. The number in it, of digits or of one byte, is
# that of the bytes or dots of a row, of rows that are skipped, or of the bytes of the row after it;
# a command may also say which row that is.
BYTES, DOTS, SKIP, ROW, END, OTHER = range(6)
NEAR = 320  # dots by which a driver may move a page: its margins
Language = Sequence[tuple[bytes, int]]
EPL: Language = (
    (rb"GW0,(?P<row>\d+),(?P<number>\d+),1\n", ROW),
    (rb"P\d+\n", END),
    (rb"[^\n]*\n", OTHER),
)
DYMO: Language = (
    (rb"\x16", ROW),
    (rb"\x1bD(.)", BYTES),
    (rb"\x1bf.(.)", SKIP),
    (rb"\x1bE", END),
    (rb"\x1b(L..|q.|\x1b*.)", OTHER),
)
PCL: Language = (
    (rb"\x1b\*r(\d+)S", DOTS),
    (rb"\x1b\*b(\d+)Y", SKIP),
    (rb"\x1b\*b(\d+)W", ROW),
    (rb"\x1b\*r0?B", END),
    (rb"\x1b[^A-Zm]*[A-Z]|\x0c", OTHER),
)


def rows_of(data: bytes, size: int) -> Dots:
    """Packed rows as dots."""
    packed = numpy.frombuffer(data, dtype=numpy.uint8).reshape(-1, size)
    return numpy.unpackbits(packed, axis=1)


def pages_of(
    job: bytes, language: Language, number_of: Callable[[bytes], int] = int
) -> Iterator[Dots]:
    """The pages of a job, row by row."""
    place = size = 0
    rows: list[bytes] = []
    while place < len(job):
        for pattern, does in language:
            command = re.compile(pattern, re.DOTALL).match(job, place)
            if command:
                break
        else:
            raise JobError(f"not understood: {job[place:place + 20]!r}")
        place = command.end()
        named = command.groupdict()
        count = named.get("number") or (command[1] if command.re.groups else b"")
        number = number_of(count) if does < END and count else size
        if does == BYTES:
            size = number
        elif does == DOTS:
            size = (number + 7) // 8
        elif does == SKIP:
            rows += [bytes(size)] * number
        elif does == ROW:
            size = max(size, number)
            if "row" in named:  # rows that are not named are white, which is 1 there
                rows += [b"\xff" * size] * (int(named["row"]) - len(rows))
            rows.append(job[place : place + number].ljust(size, b"\0"))
            place += number
        elif does == END and rows:
            yield rows_of(b"".join(rows), size)
            rows = []


def pages_of_zpl(job: bytes) -> Iterator[Dots]:
    """The pages of rastertolabel's ZPL: each a graphic with run lengths."""
    for total, size, text in re.findall(rb"~DGR:CUPS\.GRF,(\d+),(\d+),\n([^~^]*)", job):
        data = data_of_run_lengths(text.replace(b"\n", b""), int(size))
        if len(data) != int(total):
            raise JobError(f"{len(data)} of {total!r} bytes")
        yield rows_of(data, int(size))


def pages_of_epl(job: bytes) -> Iterator[Dots]:
    """The pages of EPL2: rows of dots in which 0 is dark."""
    return (1 - page for page in pages_of(job, EPL))


def pages_of_dymo(job: bytes) -> Iterator[Dots]:
    """The pages of a LabelWriter, whose numbers are bytes."""
    return pages_of(job, DYMO, ord)


def pages_of_pcl(job: bytes) -> Iterator[Dots]:
    """The pages of PCL."""
    return pages_of(job, PCL)


@dataclass(frozen=True)
class Bars:
    """The bars of a label: the number of its page, where they are on it, and their dots."""

    page: int
    left: int
    top: int
    dots: Dots


def bars_of(words: Sequence[str], lines: bytes) -> Iterator[Bars]:
    """The bars of all labels on a sheet, as label-print places them by these words."""
    options = print_options(words)
    prepared = labels_of(planned(options), "lines", lines, Talk())
    press = prepared.press(Talk())
    (part,) = press.batches(prepared.prints)
    for number, page in enumerate(part.pages):
        for item, (left, top) in page:
            box, modules = boxes_of(item)["bars"], item.record.modules
            bits = rows_of(modules.packed, modules.row_size)[:, : modules.width]
            dots = bits.repeat(box.width // modules.width, axis=1)
            dots = dots.repeat(box.height // len(bits), axis=0)
            if press.turn:  # to the right
                place = left + press.turn - box.bottom, top + box.left
                dots = numpy.rot90(dots, -1)
            else:
                place = left + box.left, top + box.top
            yield Bars(number, *place, dots)


def shift_of(page: Dots, bars: Bars) -> tuple[int, int] | None:
    """By how much bars are moved on a page, to the right and down, where each of their dots is
    there; None where they are nowhere.
    """
    high, wide = bars.dots.shape
    first = int(bars.dots.any(axis=1).argmax())  # the rows above are white, as much of the page
    wanted = bars.dots[first].tobytes()
    begin = max(0, bars.left - NEAR)
    for top in range(max(0, bars.top - NEAR), min(len(page) - high, bars.top + NEAR) + 1):
        row = page[top + first, begin : bars.left + wide + NEAR].tobytes()
        place = row.find(wanted)
        while place >= 0:
            left = begin + place
            if numpy.array_equal(page[top : top + high, left : left + wide], bars.dots):
                return left - bars.left, top - bars.top
            place = row.find(wanted, place + 1)
    return None


def with_end(page: Dots) -> Dots:
    """A page with white rows at its end, which drivers leave out."""
    return numpy.pad(page, ((0, 2 * NEAR), (0, 0)))
