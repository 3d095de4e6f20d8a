"""label-print: sheets that programs of other people draw and read, labels for printers, and every
option.
"""

import functools
import re
import subprocess
import tempfile
import unicodedata
import unittest
from concurrent.futures import ThreadPoolExecutor
from pathlib import Path
from typing import Any, Sequence

import numpy
import zxingcpp

import jobs
import support
from labeltools.paper.stock import stock_sheet

TITLES = (
    "Bleistift, weich, 2B",
    "Heft „Größe A5“ – kariert … 32 Blatt’",
    "Zażółć gęślą jaźń 500 g",
    "Карандаш мягкий, чёрный, очень длинное название товара для детей",
    "鉛筆 2B やわらかい",
    "قلم رصاص ناعم أسود",
    "^XZ^FS ) Tj \\ %PDF €",
    "x" * 500,
    "Käse\nmild, 250 g",
)
PRICES = ("0,80 €", "2,95 €", "12,80 €", "1.299,00 €", "12.999,00 zł")
STOCKS = ("Avery L7160", "Zweckform 3475", "Herma 4464")
FOLDER: Any = None  # for all tests
RENDERERS = {
    "poppler": "pdftoppm -r {dpi} -mono {pdf} {out} && mv {out}-1.pbm {out}.pbm",
    "ghostscript": (
        "gs -q -dBATCH -dNOPAUSE -dSAFER -sDEVICE=pbmraw -r{dpi} -sOutputFile={out}.pbm {pdf}"
    ),
    "mupdf": "mutool draw -q -r {dpi} -c mono -F pbm -o {out}.pbm {pdf} 1",
}
FORMATS = zxingcpp.EAN13 | zxingcpp.EAN8 | zxingcpp.UPCA | zxingcpp.Code128 | zxingcpp.QRCode


def read(dots: jobs.Dots) -> bytes:
    """What zxing-cpp reads in dots."""
    found = zxingcpp.read_barcode(
        255 * (1 - dots), formats=FORMATS, binarizer=zxingcpp.Binarizer.BoolCast
    )
    return bytes(found.bytes) if found else b""


def shelf(count: int, prices: Sequence[str] = PRICES) -> list[tuple[str, dict[str, object]]]:
    """Lines with titles and prices, each code once."""
    return [
        (
            f"ean13 {support.ean13(400638000000 + 7919 * number)}",
            {"title": TITLES[number % len(TITLES)], "price": prices[number % len(prices)]},
        )
        for number in range(count)
    ]


def codes_of(labels: Sequence[tuple[str, object]]) -> list[str]:
    """The data of lines."""
    return [line.partition(" ")[2] for line, _ in labels]


@functools.lru_cache(maxsize=None)
def sheet_pdf(stock: str) -> Path:
    """A full sheet of a stock, in a folder that lasts as long as the tests."""
    count = 21 if stock == "Avery L7160" else 24
    done = support.printed("--stock", stock, input=support.file_of(shelf(count)))
    if done.returncode:
        raise AssertionError(done.stderr.decode())
    path = Path(FOLDER.name, f"{stock}.pdf".replace(" ", "-"))
    path.write_bytes(done.stdout)
    return path


def setUpModule() -> None:
    global FOLDER
    support.labels_program()
    FOLDER = tempfile.TemporaryDirectory()


def tearDownModule() -> None:
    FOLDER.cleanup()


def rendered(pdf: Path, renderer: str, dpi: int) -> jobs.Dots:
    """The dots of the first page of a PDF; a renderer that says anything is a failure."""
    out = Path(FOLDER.name, f"{pdf.stem}-{renderer}-{dpi}")
    command = RENDERERS[renderer].format(dpi=dpi, pdf=pdf, out=out)
    done = subprocess.run(command, shell=True, capture_output=True, timeout=support.SECONDS)
    said = (done.stdout + done.stderr).replace(b"warning: ICC support is not available\n", b"")
    if done.returncode or said:
        raise AssertionError(f"{command}: {said.decode()}")
    return jobs.pictures_of_pbm(out.with_suffix(".pbm").read_bytes())[0]


def cells_of(stock: str, dots: jobs.Dots, dpi: int) -> list[jobs.Dots]:
    """The cells of a sheet."""
    sheet, dot = stock_sheet(stock), 25.4 / dpi
    return [
        dots[
            max(0, round(y / dot)) : round((y + sheet.cell[1]) / dot),
            round(x / dot) : round((x + sheet.cell[0]) / dot),
        ]
        for x, y in sheet.places
    ]


class Sheets(unittest.TestCase):
    def test_every_reader_reads_every_renderer(self) -> None:
        support.needs("pdftoppm", "gs", "mutool", "zbarimg")
        runs = [(stock, name, dpi) for stock in STOCKS for name in RENDERERS for dpi in (300, 600)]
        for stock in STOCKS:
            sheet_pdf(stock)
        with ThreadPoolExecutor(4) as pool:
            for run, found in zip(runs, pool.map(lambda run: self.read_sheet(*run), runs)):
                wanted = codes_of(shelf(21 if run[0] == "Avery L7160" else 24))
                self.assertEqual(found, [wanted, [f"EAN-13:{code}" for code in wanted]], run)

    def read_sheet(self, stock: str, renderer: str, dpi: int) -> list[list[str]]:
        """What zxing-cpp and zbar read in the cells of a sheet, in their order."""
        cells = cells_of(stock, rendered(sheet_pdf(stock), renderer, dpi), dpi)
        paths = []
        for number, cell in enumerate(cells):
            paths.append(Path(FOLDER.name, f"{stock}-{renderer}-{dpi}-{number}.pbm"))
            # zbar takes long for a whole cell: a part of it has the bars too
            paths[-1].write_bytes(jobs.pbm_of(cell[len(cell) // 2 : len(cell) * 4 // 5]))
        return [[read(cell).decode() for cell in cells], support.read_codes(*paths)]

    def test_programs_find_nothing_wrong(self) -> None:
        support.needs("qpdf")
        for stock in STOCKS:
            done = subprocess.run(
                ["qpdf", "--check", sheet_pdf(stock)], capture_output=True, text=True
            )
            self.assertEqual((done.returncode, done.stderr), (0, ""))
            self.assertIn("No syntax or stream encoding errors", done.stdout)

    def test_texts_are_found(self) -> None:
        support.needs("pdftotext", "pdffonts")
        for stock in STOCKS:
            text = subprocess.run(
                ["pdftotext", sheet_pdf(stock), "-"], capture_output=True, check=True
            ).stdout.decode()
            found = bare(text)
            for line, fields in shelf(21):
                code, title = codes_of([(line, None)])[0], str(fields["title"])
                for part in (
                    code,
                    *str(fields["price"]).split(),  # a currency beside raised cents is apart
                    bare(title)[:20] if title[0] != "ق" else title,
                ):
                    self.assertTrue(bare(part) in found or bare(part)[::-1] in found, (stock, part))
            fonts = subprocess.run(
                ["pdffonts", sheet_pdf(stock)], capture_output=True, check=True, text=True
            ).stdout
            self.assertNotIn("Type 3", fonts)

    def test_bars_are_exact_at_twice_the_dots(self) -> None:
        support.needs("pdftoppm", "gs", "mutool")
        pdf = sheet_pdf("Avery L7160")
        modules = [
            line
            for line in support.draw(shelf(1)[0][0] + "\n", "--height", "1")[0].decode().split()[3:]
        ]
        bits = numpy.array([int(bit) for bit in "".join(modules)], dtype=numpy.int8)
        for renderer, away in (
            ("poppler", 0),
            ("ghostscript", 0),
            ("mupdf", 2),
        ):  # 2: each is within a dot
            cell = cells_of("Avery L7160", rendered(pdf, renderer, 1200), 1200)[0]
            row = cell[len(cell) * 2 // 3].astype(numpy.int8)
            inked = row.nonzero()[0]
            module = round((inked[-1] + 1 - inked[0]) / 95)
            wanted = bits.repeat(module)
            left = int(inked[0]) - 11 * module
            found = self.edges(row[left : left + len(wanted)])
            self.assertEqual(len(found), len(self.edges(wanted)), renderer)
            self.assertLessEqual(int(numpy.ptp(found - self.edges(wanted))), away, renderer)

    @staticmethod
    def edges(row: jobs.Dots) -> jobs.Dots:
        """The places at which dark and light change."""
        return numpy.diff(row.astype(numpy.int8)).nonzero()[0]

    def test_nothing_in_the_edge_and_nothing_out_of_a_cell(self) -> None:
        support.needs("pdftoppm")
        for stock in STOCKS:
            dots, dot = rendered(sheet_pdf(stock), "poppler", 600), 25.4 / 600
            left, top, right, bottom = (place * dot for place in jobs.ink_of(dots))
            self.assertGreaterEqual(min(left, top, 210 - right, 297 - bottom), 5 - dot, stock)
            for cell in cells_of(stock, dots, 600):
                left, top, right, bottom = (place * dot for place in jobs.ink_of(cell))
                self.assertGreater(min(left, top), 0.9, stock)
                self.assertLess(
                    max(right - cell.shape[1] * dot, bottom - cell.shape[0] * dot), -0.9, stock
                )

    def test_the_same_labels_give_the_same_bytes(self) -> None:
        data = support.file_of(shelf(3))
        pages = [support.printed("--stock", "l7160", input=data).stdout for _ in range(2)]
        self.assertTrue(pages[0] == pages[1] and b"Date" not in pages[0])


def bare(text: str) -> str:
    """A text without white space and marks of direction, and with letters of Arabic in their own
    form.
    """
    plain = unicodedata.normalize("NFKC", text)
    return "".join(
        letter for letter in plain if not letter.isspace() and unicodedata.category(letter) != "Cf"
    )


class Printers(unittest.TestCase):
    LINES: dict[str, list[tuple[str, Any]]] = {
        "60x40": shelf(9),
        "50x25": shelf(9),
        "40x30": [
            ("ean8 73513537", {"title": "Kaugummi", "price": "0,30 €"}),
            ("qr,level=H https://example.com/7", {"title": "Regal 7", "price": "1,20 €"}),
            ("code128 LOT-77", {"title": "Los"}),
        ],
    }

    def job(self, paper: str, dpi: int, form: str) -> tuple[list[str], bytes]:
        """The data of the labels for a paper, and the job."""
        labels = self.LINES[paper]
        wide = ("--dots", "9999") if form == "escpos" else ()
        arguments = ("--paper", paper, "--dpi", str(dpi), "--to", form, *wide)
        done = support.printed(*arguments, input=support.file_of(labels))
        self.assertEqual(done.returncode, 0, done.stderr)
        return codes_of(labels), done.stdout

    def test_every_label_is_read(self) -> None:
        for paper in self.LINES:
            for dpi in (203, 300, 600):
                if (paper, dpi) == ("40x30", 300):
                    continue  # the same as at 600 dpi
                codes, job = self.job(paper, dpi, "zpl")
                labels = jobs.dots_of_zpl(job)
                self.assertEqual([read(label).decode() for label in labels], codes, (paper, dpi))
                if (paper, dpi) == ("60x40", 203):
                    self.assertLessEqual(
                        max(map(len, re.findall(rb"\^XA.*?\^XZ\n", job, re.DOTALL))), 10240
                    )
                escpos = jobs.dots_of_escpos(self.job(paper, dpi, "escpos")[1])
                pictures = jobs.pictures_of_pbm(self.job(paper, dpi, "pbm")[1])
                for zpl, raster, picture in zip(labels, escpos, pictures):
                    self.assertTrue(numpy.array_equal(zpl, picture), (paper, dpi))
                    self.assertTrue(
                        numpy.array_equal(raster[:, : picture.shape[1]], picture), (paper, dpi)
                    )

    def test_cuts_and_widths(self) -> None:
        data = support.file_of(shelf(2))
        done = support.printed(
            "--paper", "60x40", "--dpi", "203", "--to", "escpos", "--no-cut", input=data
        )
        self.assertNotIn(jobs.CUT, done.stdout)
        self.assertEqual(done.stdout.count(jobs.RESET), 1)
        done = support.printed(
            "--paper", "60x40", "--dpi", "203", "--to", "escpos", "--dots", "384", input=data
        )
        self.assertEqual((done.returncode, done.stdout), (2, b""))
        self.assertIn(b"480 dots wide, and the printer has 384", done.stderr)


if __name__ == "__main__":
    unittest.main()
