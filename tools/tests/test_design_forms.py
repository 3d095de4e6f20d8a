"""The designs that are shipped, in every form and at the dots an inch of usual printers: each symbol
is read by zbar and by zxing, and has its modules.
"""

import itertools
import os
import subprocess
import tempfile
import unittest
from pathlib import Path
from typing import Any

import numpy

import designs
import jobs
import support
from labeltools.layout.layout import LaidOut
from laying import documents_of
from reading import fault_in
from rendering import rendered

DPIS = (203, 300, 600)
DOTS = ("png", "zpl", "escpos")  # the same dots as those of PBM


def setUpModule() -> None:
    os.environ["LABELS"] = str(support.labels_program())
    support.needs("gs", "pdfimages", "pdftoppm", "pngtopnm", "zbarimg")


def printed(name: str, form: str, dpi: int) -> jobs.Dots:
    """The dots of the label of a design, as a program reads them in a form."""
    design = ("--design", str(designs.FOLDER / f"{name}.svg"))
    wide = ("--dots", "9999") if form == "escpos" else ()
    words = ("--dpi", str(dpi), "--to", form, *wide)
    done = support.printed(*design, *words, input=designs.lines_of([designs.SHIPPED[name]]))
    if done.returncode or done.stderr:
        raise AssertionError(done.stderr.decode())
    if form == "pdf":
        return rendered(["pdftoppm", "-r", str(dpi), "-mono", "FILE", "out"], done.stdout)
    if form == "png":
        return rendered(["pngtopnm", "FILE"], done.stdout)
    if form == "zpl":
        return jobs.dots_of_zpl(done.stdout)[0]
    if form == "escpos":
        return jobs.dots_of_escpos(done.stdout)[0]
    return jobs.pictures_of_pbm(done.stdout)[0]


def is_same(dots: jobs.Dots, other: jobs.Dots) -> bool:
    """Whether dots are the same; paper that is wider than them is white."""
    wide = other.shape[1]
    return numpy.array_equal(dots[:, :wide], other) and not dots[:, wide:].any()


def rows_of(dots: jobs.Dots) -> list[str]:
    """The rows of dots, as texts of 0 and 1."""
    return [row.tobytes().decode() for row in (dots + ord("0")).astype(numpy.uint8)]


LINE = b"code128 A\n"


class Drawings(unittest.TestCase):
    def test_what_has_a_filter_or_a_mask_is_as_sharp_as_the_dots(self) -> None:
        """librsvg makes pictures of it, in dots of what it draws on."""
        shape = '<path d="M2 2H42V9H2Z" fill="#fff"/>'
        filtered = '<filter id="f"><feOffset/></filter><g filter="url(#f)">{}</g>'
        masked = '<mask id="m">{}</mask><path mask="url(#m)" d="M0 0H50V10H0Z"/>'
        for body in (filtered, masked):
            with tempfile.TemporaryDirectory() as folder:
                drawn = body.format(shape) + designs.CODE
                path = designs.written(Path(folder, "own.svg"), drawn)
                words = ("--design", str(path), "--dpi", "300")
                Path(folder, "a.pdf").write_bytes(support.printed(*words, input=LINE).stdout)
                listed = subprocess.run(
                    ["pdfimages", "-list", "a.pdf"], cwd=folder, stdout=subprocess.PIPE, check=True
                )
            names, _, *pictures = listed.stdout.decode().splitlines()
            column = names.split().index("x-ppi") + 1  # the number of its object is two words
            wide = [
                int(picture.split()[column]) for picture in pictures if " stencil " not in picture
            ]
            self.assertEqual({dots // 10 for dots in wide} - {29, 30}, set(), listed.stdout)
            self.assertTrue(wide)

    def test_a_pattern_is_alike_in_each_cell(self) -> None:
        """Ghostscript shows one that is drawn in two places as in the first one."""
        tile = '<path d="M0 0H2V2H0Z"/></pattern><path fill="url(#p)" d="M2 2H42V9H2Z"/>'
        body = f'<pattern id="p" patternUnits="userSpaceOnUse" width="4" height="4">{tile}'
        cells = ("--grid", "2x2", "--cell", "60x40", "--paper", "140x100")
        with tempfile.TemporaryDirectory() as folder:
            path = designs.written(Path(folder, "own.svg"), body + designs.CODE)
            words = ("--design", str(path), *cells, "--margin", "7x6", "--gap", "5x3")
            done = support.printed(*words, "--edge", "0", input=LINE * 4)
        shown = ["gs", "-q", "-sDEVICE=pbmraw", "-r254", "-o", "out", "FILE"]
        dots = rendered(shown, done.stdout)
        first, *others = (
            dots[top : top + 95, left : left + 450] for top in (60, 490) for left in (70, 720)
        )
        self.assertTrue(first.any())
        for other in others:
            self.assertLess((first != other).mean(), 0.02)

    def test_a_drawing_ends_at_the_edge_of_its_label(self) -> None:
        """What a PDF of a sheet has beyond it would be on the next label."""
        sheet: dict[str, Any] = {"cell": (60.0, 40.0), "margin": (10.0, 10.0), "paper": None}
        with tempfile.TemporaryDirectory() as folder:
            path = designs.written(
                Path(folder, "own.svg"), f'<path d="M50 1H90V9H50Z"/>{designs.CODE}'
            )
            found = designs.prepared(
                path, [("code128 A", {})], to="pdf", dpi=600, grid=(2, 2), **sheet
            )
            (document,) = documents_of(found)
        dots = rendered(["pdftoppm", "-r", "600", "-mono", "FILE", "out"], document)
        (across,) = numpy.nonzero(dots[int(15 / 25.4 * 600)])
        for end, wanted in ((across.min(), 60.0), (across.max() + 1, 70.0)):
            self.assertAlmostEqual(float(end) / 600 * 25.4, wanted, delta=0.1)


class Shipped(unittest.TestCase):
    def test_each_design_has_a_label(self) -> None:
        names = [path.stem for path in sorted(designs.FOLDER.glob("*.svg"))]
        self.assertEqual(names, sorted(designs.SHIPPED))
        for name, dpi in itertools.product(names, DPIS):
            found = self.prepared(name, dpi)
            for side, wanted in zip(found.job.plan.sheet.page, designs.size_of(name)):
                self.assertAlmostEqual(side, wanted, delta=0.5)
            self.assertEqual((len(found.labels), found.left_out, found.remarks), (1, (), ()), name)

    def prepared(self, name: str, dpi: int) -> Any:
        """The label of a design, without a page."""
        path = designs.FOLDER / f"{name}.svg"
        return designs.prepared(path, [designs.SHIPPED[name]], paper=None, dpi=dpi, is_read=False)

    @support.slow
    def test_each_symbol_is_read_in_each_form(self) -> None:
        """Each design in each form, and each form at each of the dots an inch."""
        read = 0
        for name, dpi in zip(designs.SHIPPED, itertools.cycle(DPIS)):
            (item,) = self.prepared(name, dpi).labels
            dots = {form: printed(name, form, dpi) for form in ("pbm", "pdf", *DOTS)}
            for form in DOTS:
                self.assertTrue(is_same(dots[form], dots["pbm"]), (name, dpi, form))
            for form in ("pbm", "pdf"):
                fault = fault_in(rows_of(dots[form]), item.symbols)
                self.assertIsNone(fault, (name, dpi, form))
                self.assertEqual(self.by_zbar(dots[form]), self.codes(item), (name, dpi, form))
                read += len(item.symbols)
        self.assertEqual(read, 18)

    def codes(self, item: LaidOut) -> list[str]:
        """The data of the symbols of a label, in their order."""
        return sorted(symbol.data.decode() for symbol in item.symbols)

    def by_zbar(self, dots: jobs.Dots) -> list[str]:
        """What zbar reads on a label, with white around it."""
        with tempfile.TemporaryDirectory() as folder:
            path = Path(folder, "label.pbm")
            path.write_bytes(jobs.pbm_of(numpy.pad(dots, 40)))
            return sorted(code.partition(":")[2] for code in support.read_codes(path))


if __name__ == "__main__":
    unittest.main()
