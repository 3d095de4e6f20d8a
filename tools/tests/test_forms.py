"""Every form has the same dots: PDF, PNG, PBM, ZPL and ESC/POS of the same lines at one dpi.
"""

import os
import re
import unittest
from collections import Counter
from typing import Any, Iterator

import numpy

import jobs
import support
from labeltools.common.messages import Talk
from labeltools.layout.layout import LaidOut
from labeltools.printing.job import planned, PrintOptions
from labeltools.printing.press import labels_of
from laying import boxes_of
from rendering import rendered

LINES = (
    "ean13 400638133393",
    "ean8 7351353",
    "upca 03600029145",
    "code128 SHELF-7",
    "qr https://example.com/7",
)
MIXES: tuple[dict[str, Any], ...] = (
    {},
    {"title": "Seife"},
    {"price": "12,80 €"},
    {"title": "Bleistift, weich, 2B", "price": "0,80 €", "unit": "1 kg = 5,98 €", "text": ["rot"]},
)
PAPER = (80.0, 50.0)


def setUpModule() -> None:
    os.environ["LABELS"] = str(support.labels_program())


def printed(data: bytes, form: str, dpi: int, *arguments: str) -> bytes:
    """What label-print makes of a file of one label."""
    size = f"{PAPER[0]:g}x{PAPER[1]:g}"
    wide = ("--dots", "9999") if form == "escpos" else ()
    roll = ("--paper", size, "--dpi", str(dpi), "--to", form, *wide)
    done = support.printed(*roll, *arguments, input=data)
    if done.returncode:
        raise AssertionError(done.stderr.decode())
    return done.stdout


def forms_of(data: bytes, dpi: int, *arguments: str) -> Iterator[tuple[str, jobs.Dots]]:
    """The dots of a label in each form."""
    pdf = ["pdftoppm", "-r", str(dpi), "-mono", "FILE", "out"]
    yield "pdf", rendered(pdf, printed(data, "pdf", dpi, *arguments))
    yield "png", rendered(["pngtopnm", "FILE"], printed(data, "png", dpi, *arguments))
    yield "pbm", jobs.pictures_of_pbm(printed(data, "pbm", dpi, *arguments))[0]
    yield "zpl", jobs.dots_of_zpl(printed(data, "zpl", dpi, *arguments))[0]
    yield "escpos", jobs.dots_of_escpos(printed(data, "escpos", dpi, *arguments))[0]


def bars_of(data: bytes, dpi: int) -> tuple[slice, slice, jobs.Dots]:
    """Where the bars of a label are, and their dots by the modules of labels(1)."""
    options = PrintOptions(paper=PAPER, dpi=dpi, to="pbm")
    job = planned(options)
    found = labels_of(job, "lines", data, Talk())
    (item,) = found.laid_out.labels
    box = boxes_of(item)["bars"]
    left, top = job.plan.places[0]
    rows = slice(top + box.top, top + box.bottom)
    return rows, slice(left + box.left, left + box.right), modules_of(item)


def modules_of(item: LaidOut) -> jobs.Dots:
    """The dots of the bars of a label."""
    modules = item.record.modules
    bits = jobs.bits_of(modules.rows(), modules.width)
    box = boxes_of(item)["bars"]
    wide = bits.repeat(box.width // modules.width, axis=1)
    return wide.repeat(box.height // len(bits), axis=0)


class SameDots(unittest.TestCase):
    def test_bars_are_the_modules_in_every_form(self) -> None:
        """Guards too: they go on below their bars, so the rows of the bars are whole."""
        support.needs("pdftoppm", "pngtopnm")
        for line in LINES:
            for fields in MIXES:
                data = support.file_of([(line, dict(fields))])
                for dpi in (203, 300):
                    rows, columns, wanted = bars_of(data, dpi)
                    for form, dots in forms_of(data, dpi):
                        same = numpy.array_equal(dots[rows, columns], wanted)
                        self.assertTrue(same, (line, fields, dpi, form))

    def test_turned_labels(self) -> None:
        support.needs("pdftoppm")
        data = support.file_of([(LINES[0], {"title": "Seife", "price": "1,20 €"})])
        shown = dict(forms_of(data, 203, "--turn", "yes"))
        code = jobs.ink_of(shown["pbm"])
        for form, dots in shown.items():
            ink = jobs.ink_of(dots)
            self.assertTrue(
                all(abs(side - other) <= 3 for side, other in zip(ink, code)), (form, ink, code)
            )
        self.assertTrue(numpy.array_equal(shown["zpl"], shown["pbm"]))


class Zpl(unittest.TestCase):
    def job(self, labels: list[tuple[str, dict[str, Any]]], *arguments: str) -> bytes:
        """The job of labels for a roll."""
        return printed(support.file_of(labels), "zpl", 203, *arguments)

    def test_copies_are_counted_by_the_printer(self) -> None:
        """Labels that are the same and follow one another are one label with ^PQ."""
        soap = (LINES[0], {"title": "Seife", "copies": 500})
        book = (LINES[0], {"title": "Heft", "copies": 2})
        job = self.job([soap, soap, book, soap, (LINES[1], {"copies": 1})])
        self.assertEqual(re.findall(rb"\^PQ([0-9]+)\n", job), [b"1000", b"2", b"500"])
        self.assertEqual(job.count(b"^XA"), 4)
        self.assertEqual(len(jobs.dots_of_zpl(job)), 1503)
        self.assertLess(len(job), 30_000)

    def test_run_lengths_as_the_manual_has_them(self) -> None:
        """Counts of the ZPL II manual: J is 4, K 5, L 6, P 10, W 17, and X 18, of the digit that
        follows.
        """
        from labeltools.drawing.zpl import run_lengths

        rows = (
            ("FF", 24),
            ("FF", 24),
            ("", 26),
            ("", 26),
            ("0AB0000000CD", 14),
            ("0AB00000CDEF", 14),
            (22 * "F", 4),
        )
        dots = bytes.fromhex("".join(digits + zeros * "0" for digits, zeros in rows))
        text = run_lengths(dots, 13)
        self.assertEqual(text, b"FFX0L0:X0L000:0ABL00CDP0J00ABJ00CDEFP0J0WFKFJ0")
        self.assertEqual(jobs.data_of_run_lengths(text, 13), dots)

    def test_no_field_is_longer_than_a_printer_takes(self) -> None:
        """The manual has 1 to 99999 bytes for ^GF; the QR symbol of this label, which no white row or
        column parts, has more.
        """
        data = support.file_of([(f"qr {40 * 'A1b2'}", {"title": "Seife"})])
        roll = ("--paper", "200x300", "--dpi", "600", "--to")
        zpl, pbm = (support.printed(*roll, form, input=data).stdout for form in ("zpl", "pbm"))
        fields = re.findall(rb"\^FO(\d+),\d+\^GFA,(\d+),", zpl)
        below: Counter[bytes] = Counter()  # the bytes of fields that are below one another
        for left, size in fields:
            below[left] += int(size)
        self.assertGreater(max(below.values()), 99_999)
        self.assertLessEqual(max(int(size) for _, size in fields), 99_999)
        (dots,), (wanted,) = jobs.dots_of_zpl(zpl), jobs.pictures_of_pbm(pbm)
        self.assertTrue(numpy.array_equal(dots, wanted))


if __name__ == "__main__":
    unittest.main()
