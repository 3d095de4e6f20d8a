"""label-print: its options, what it says of labels that are not printed, and how labels are laid
out.
"""

import os
import re
import subprocess
import tempfile
import unittest
from pathlib import Path
from typing import Any

import numpy
import zxingcpp

import jobs
import support
from labeltools.drawing.dots import drawn_page
from labeltools.drawing.pen import bits_of
from labeltools.layout.layout import LaidOut
from laying import boxes_of, laid_out
from reading import fault_in

COMPARE = "compare the number with the article"
BEGINS = "a line begins with ean13, ean8, upca, code128 or qr"
SHELF = [
    (
        f"ean13 {support.ean13(400638000000 + number)}",
        {"title": f"Artikel {number}", "price": f"{number},80 €"},
    )
    for number in range(1, 9)
]
EVERY = (
    "ean13 400638133393\nean8 7351353\nupca 03600029145\ncode128 SHELF-7\n"
    "qr,level=H https://example.com/7\n"
)


def setUpModule() -> None:
    os.environ["LABELS"] = str(support.labels_program())


def codes_in(job: bytes) -> list[str]:
    """The data of the labels of a ZPL job."""
    formats = zxingcpp.EAN13 | zxingcpp.EAN8 | zxingcpp.UPCA | zxingcpp.Code128 | zxingcpp.QRCode
    read = (
        zxingcpp.read_barcode(255 * (1 - dots), formats=formats) for dots in jobs.dots_of_zpl(job)
    )
    return [found.text if found else "" for found in read]


class Rows(unittest.TestCase):
    def zpl(self, *arguments: str, data: bytes | None = None) -> tuple[int, list[str], list[str]]:
        """The status, the data of the labels and the messages for a roll of 60 by 40 mm."""
        data = support.file_of(SHELF) if data is None else data
        done = support.printed(
            "--paper", "60x40", "--dpi", "203", "--to", "zpl", *arguments, input=data
        )
        said = [message.removeprefix("label-print: ") for message in support.messages(done)]
        return done.returncode, codes_in(done.stdout), said

    def test_only(self) -> None:
        codes = [line.split()[1] for line, _ in SHELF]
        self.assertEqual(self.zpl("--only", "3,5-6"), (0, [codes[1], *codes[3:5]], []))
        said = ["the input does not have rows 20-21 (--only)"]
        self.assertEqual(self.zpl("--only", "2,20-21"), (1, codes[:1], said))
        plain = b"# remark\n\nean8 7351353\nean8 9638507\n"
        self.assertEqual(self.zpl("--only", "4", data=plain), (0, ["96385074"], []))

    def test_copies(self) -> None:
        labels = [(line, {"copies": copies}) for (line, _), copies in zip(SHELF, (0, 1, 3))]
        codes = [line.split()[1] for line, _ in labels]
        found = self.zpl(data=support.file_of(labels))
        self.assertEqual(found, (0, [codes[1], *3 * [codes[2]]], []))
        for copies in (-1, 10000, 1.5, "3", True, None):
            fields: dict[str, Any] = {"copies": copies}
            found = self.zpl(data=support.file_of([(SHELF[0][0], fields)]))
            self.assertEqual(found[:2], (1, []), copies)

    def test_captions_travel_with_their_line(self) -> None:
        """Lines in another order keep their titles: the labels are the same in another order."""
        parts = support.file_of(SHELF).splitlines(keepends=True)
        pairs = [b"".join(parts[start : start + 2]) for start in range(1, len(parts) - 1, 2)]
        turned = b"".join([parts[0], *reversed(pairs), parts[-1]])
        drawn = [
            support.printed(
                "--paper", "60x40", "--dpi", "203", "--to", "zpl", input=data
            ).stdout.split(b"^XZ\n")
            for data in (b"".join(parts), turned)
        ]
        self.assertEqual(drawn[0][:-1], drawn[1][:-1][::-1])

    def test_refused_lines_and_rows_that_were_left_out(self) -> None:
        labels: list[tuple[str, Any]] = [
            SHELF[0],
            ("ean13 4006381333932", {}),
            ("code128 " + "x" * 81, {}),
            SHELF[1],
        ]
        data = support.file_of(labels, left_out=[7, 9], left_out_count=25)
        status, codes, said = self.zpl(data=data)
        self.assertEqual(
            (status, codes), (1, [line.split()[1] for line, _ in (SHELF[0], SHELF[1])])
        )
        self.assertEqual(
            sorted(said),
            [
                f"row 3: check digit is 2, should be 1: {COMPARE}",
                "row 4: data is longer than 80 bytes: shorten the data, or draw it as qr",
                "rows 7, 9: skipped by label-table, and 23 rows more",
            ],
        )

    def test_rows_of_two_tables(self) -> None:
        first = support.file_of([("ean8 73513538", {})])
        second = support.file_of([("ean8 73513538", {}), SHELF[0]]).replace(b"articles", b"others")
        status, codes, said = self.zpl(data=first + second)
        self.assertEqual((status, len(codes)), (1, 1))
        self.assertEqual(
            said,
            [f"articles.xlsx, row 2; others.xlsx, row 2: check digit is 8, should be 7: {COMPARE}"],
        )

    def test_a_handful_of_messages(self) -> None:
        labels: list[tuple[str, Any]] = [
            (f"code128 {'x' * (25 + number % 50)}", {}) for number in range(1500)
        ]
        labels += [(f"ean8 735135{number % 100:02}", {}) for number in range(1000)]
        status, codes, said = self.zpl(data=support.file_of(labels))
        self.assertEqual((status, len(said)), (1, 9))
        self.assertIn("Code 128 is ", "".join(said))
        self.assertLess(max(map(len, said)), 400)

    def test_a_table_goes_through_label_table_first(self) -> None:
        for data in (b"EAN;Artikel\n4006381333931;Seife\n", b"PK\x03\x04" + b"\x00\n" * 9):
            status, codes, said = self.zpl(data=data)
            self.assertEqual((status, codes, len(said)), (1, [], 1), said)
            self.assertIn("a table goes through label-table first", said[0])
        status, codes, said = self.zpl(data=b"ean31 4006381333931\nean8 7351353\n")
        self.assertEqual((status, said), (1, [f"line 1: unknown symbology: {BEGINS}"]))

    def test_nothing_to_print(self) -> None:
        for data in (b"", b"# nothing\n", b"ean8 1\n", support.file_of([])):
            status, codes, said = self.zpl(data=data)
            self.assertEqual((status, codes), (1, []))
            self.assertTrue(said)

    def test_letters_that_no_font_has(self) -> None:
        labels = [
            SHELF[0],
            (SHELF[1][0], {"title": "\U00010570\U00010571"}),
            (SHELF[2][0], {"price": "1 \U00010570"}),
        ]
        status, codes, said = self.zpl(data=support.file_of(labels))
        self.assertEqual((status, codes), (1, [SHELF[0][0].split()[1]]))
        self.assertEqual(len(said), 1)
        self.assertRegex(
            said[0],
            r"^rows 3-4: no font has .* \(Vithkuqi\): "
            r"apt-get install fonts-noto-core fonts-noto-cjk$",
        )


class Cells(unittest.TestCase):
    GRID = ("--grid", "2x2", "--cell", "60x40", "--to", "pbm", "--dpi", "150")

    def pages(self, *arguments: str) -> list[jobs.Dots]:
        """The pages of a grid."""
        done = support.printed(*self.GRID, *arguments, input=support.file_of(SHELF[:3]))
        self.assertEqual(done.returncode, 0, done.stderr)
        return jobs.pictures_of_pbm(done.stdout)

    def test_first(self) -> None:
        pages, moved = self.pages(), self.pages("--first", "3")
        self.assertEqual((len(pages), len(moved)), (1, 2))
        half = pages[0].shape[0] // 2
        self.assertTrue(
            numpy.array_equal(
                pages[0][:half], numpy.roll(moved[0], -round(40 / 25.4 * 150), axis=0)[:half]
            )
        )
        self.assertFalse(moved[0][:half].any())
        done = support.printed(*self.GRID, "--first", "5", input=support.file_of(SHELF))
        self.assertEqual((done.returncode, done.stdout), (2, b""))
        done = support.printed("--paper", "60x40", "--first", "3", input=support.file_of(SHELF))
        self.assertEqual(
            done.stderr, b"label-print: a page has 1 label: begin with one of them (--first)\n"
        )

    def test_a_design_by_its_name(self) -> None:
        """One of those that come with the tools is found without its folder."""
        lines = support.file_of(SHELF)
        done = support.printed("--design", "shelf-60x40.svg", input=lines)
        self.assertTrue(done.stdout.startswith(b"%PDF"), done.stderr)

    def test_a_terminal(self) -> None:
        """A drawing is not written there."""
        own, terminal = os.openpty()
        tool = str(support.TOOLS / "label-print")
        lines = support.file_of(SHELF)
        done = subprocess.run(
            [tool, "--paper", "60x40"], input=lines, stdout=terminal, stderr=subprocess.PIPE
        )
        self.assertEqual(done.returncode, 2)
        self.assertIn(b"standard output is a terminal: add > labels.pdf", done.stderr)
        os.close(own)
        os.close(terminal)

    def test_shift_and_edge(self) -> None:
        left, top, right, bottom = jobs.ink_of(self.pages()[0])
        moved = jobs.ink_of(self.pages("--shift=2.54,-5.08")[0])
        self.assertEqual(moved, (left + 15, top - 30, right + 15, bottom - 30))
        page = ("--paper", "120x80", "--edge", "12.7")
        left, top, right, bottom = jobs.ink_of(self.pages(*page)[0])
        self.assertGreaterEqual(min(left, top), 75)
        self.assertLessEqual((right, bottom), (709 - 75, 472 - 75))

    def test_arguments(self) -> None:
        for bad in (
            (),
            ("--stock", "l7160", "--paper", "60x40"),
            ("--grid", "2x2"),
            ("--paper", "60"),
            ("--paper", "0x40"),
            ("--paper", "60x40", "--to", "zpl"),
            ("--paper", "60x40", "--only", "x"),
            ("--paper", "60x40", "--shift", "1"),
            ("--paper", "60x40", "--dpi", "0"),
            ("--grid", "9x1", "--cell", "60x40"),
            ("--paper", "60x40", "one.lines", "two.lines"),
            ("--paper", "210x297", "--grid", "3x7"),
            ("--stock", "l7160", "--gap", "1x0"),
            ("--paper", "60x40", "--margin", "1x1"),
            ("--stock", "l7160", "--cell", "63x38"),
            ("--paper", "60x40", "--cell", "50x30"),
            ("--stock", "l7160", "--gap", "0x0"),
            ("--paper", "60x40", "--dots", "384"),
            ("--paper", "60x40", "--dots", "576"),
            ("--paper", "60x40", "--dpi", "203", "--to", "zpl", "--stream", "--after", "1"),
            ("--paper", "60x40", "--to", "zpl", "--dpi", "203", "--no-cut"),
        ):
            done = support.printed(*bad, input=b"ean8 7351353\n")
            self.assertEqual((done.returncode, done.stdout), (2, b""), bad)
            self.assertTrue(done.stderr, bad)

    def test_options_of_labels(self) -> None:
        data = b"qr,level=H a\nqr \\x41\\\\\ncode128 a\\nb\n"
        done = support.printed("--paper", "60x40", "--escapes", input=data)
        self.assertEqual((done.returncode, done.stderr), (0, b""))

    def test_no_such_font(self) -> None:
        done = support.printed(
            "--paper", "60x40", "--font", "Nirgendwo Sans", input=b"ean8 7351353\n"
        )
        self.assertEqual((done.returncode, done.stdout), (1, b""))
        self.assertIn(b"there is no font Nirgendwo Sans: fc-list", done.stderr)

    def test_fonts_that_cairo_cannot_embed(self) -> None:
        """Cairo leaves the object of such a font out of a PDF, and says nothing: its letters are
        drawn as shapes.
        """
        support.needs("qpdf")
        for arguments in (
            ("--font", "OCR B"),
            ("--font", "Noto Sans CJK JP"),
        ):
            done = support.printed("--stock", "l7160", *arguments, input=support.file_of(SHELF))
            if b"there is no font OCR B" in done.stderr:
                support.skip("not installed: fonts-ocr-b")
            if b"there is no font" in done.stderr:
                continue  # fonts-droid-fallback may be installed in place of fonts-noto-cjk
            with tempfile.NamedTemporaryFile() as file:
                Path(file.name).write_bytes(done.stdout)
                checked = subprocess.run(["qpdf", "--check", file.name], capture_output=True)
            self.assertEqual((checked.returncode, checked.stderr), (0, b""), arguments)
            self.assertEqual(b"OCRB" in done.stdout, False)


class Files(unittest.TestCase):
    def setUp(self) -> None:
        folder = tempfile.TemporaryDirectory()
        self.addCleanup(folder.cleanup)
        self.folder = Path(folder.name)

    def each(self, name: str, data: bytes, *arguments: str) -> "support.Finished[bytes]":
        return support.printed(
            "--paper",
            "60x40",
            "--dpi",
            "203",
            "--each",
            f"{self.folder}/{name}",
            *arguments,
            input=data,
        )

    def test_by_number_and_by_data(self) -> None:
        done = self.each("new/%02d.png", EVERY.encode())
        self.assertEqual((done.returncode, done.stdout, done.stderr), (0, b"", b""))
        self.assertEqual(
            sorted(os.listdir(self.folder / "new")), [f"0{number}.png" for number in range(1, 6)]
        )
        found = [
            re.sub("^.*?:", "", code)
            for code in support.read_codes(*sorted((self.folder / "new").iterdir()))
        ]
        self.assertEqual(
            found[:2] + found[3:], ["4006381333931", "73513537", "SHELF-7", "https://example.com/7"]
        )
        done = self.each("data/%s.pdf", EVERY.encode())
        self.assertEqual(done.returncode, 0, done.stderr)
        names = [
            "036000291452.pdf",
            "4006381333931.pdf",
            "73513537.pdf",
            "SHELF-7.pdf",
            "https___example.com_7.pdf",
        ]
        self.assertEqual(sorted(os.listdir(self.folder / "data")), names)

    def test_the_end_of_the_name_says_the_form(self) -> None:
        for name, start in (("a/%d.PDF", b"%PDF"), ("b/%d.zpl", b"^XA"), ("c/2.5-%d", b"%PDF")):
            self.each(name, b"ean8 7351353\n")
            (written,) = (self.folder / name[0]).iterdir()
            self.assertTrue(written.read_bytes().startswith(start), name)
        done = self.each("d/%d.svg", b"ean8 7351353\n")
        self.assertEqual(done.returncode, 2)
        self.assertIn(b"not written as .svg: end the name in one of .pdf, .png", done.stderr)
        self.assertFalse((self.folder / "d").exists())
        done = self.each("d/%d.svg", b"ean8 7351353\n", "--to", "png")
        self.assertEqual(done.returncode, 0, done.stderr)

    def test_names_that_come_twice(self) -> None:
        for code, other in (("a/b", "a:b"), ("A", "a"), ("x" * 100 + "1", "x" * 100 + "2")):
            done = self.each("twice/%s.png", f"qr {code}\nqr {other}\n".encode())
            self.assertEqual(done.returncode, 1)
            self.assertIn(b"two labels would be the file", done.stderr)
            self.assertFalse((self.folder / "twice").exists())

    def test_copies_are_one_file(self) -> None:
        done = self.each("copies/%d.zpl", support.file_of([(SHELF[0][0], {"copies": 3}), SHELF[1]]))
        self.assertEqual(done.returncode, 0, done.stderr)
        self.assertEqual(sorted(os.listdir(self.folder / "copies")), ["1.zpl", "2.zpl"])
        self.assertEqual(len(jobs.dots_of_zpl((self.folder / "copies/1.zpl").read_bytes())), 1)

    def test_the_numbers_of_the_rest(self) -> None:
        """Files of a second run have no name of the first one."""
        done = self.each("rest/%d.zpl", support.file_of(SHELF[:4]), "--after", "2")
        self.assertEqual(done.returncode, 0, done.stderr)
        self.assertEqual(sorted(os.listdir(self.folder / "rest")), ["3.zpl", "4.zpl"])

    def test_old_files_are_not_among_new_ones(self) -> None:
        (self.folder / "old.png").write_bytes(b"")
        done = self.each("%d.png", b"ean8 7351353\n")
        self.assertEqual(done.returncode, 1)
        self.assertIn(b"is not empty", done.stderr)
        self.assertEqual(os.listdir(self.folder), ["old.png"])
        done = support.printed("--paper", "60x40", "--each", "%d.pdf", input=b"ean8 7351353\n")
        self.assertIn(b"need a folder: name one", done.stderr)

    def test_png(self) -> None:
        support.needs("pngtopnm", "pamfile")
        data = b"ean13 400638133393\n"
        done = support.printed("--paper", "60x40", "--dpi", "300", "--to", "png", input=data)
        pbm = support.printed("--paper", "60x40", "--dpi", "300", "--to", "pbm", input=data).stdout
        shown = subprocess.run(["pngtopnm"], input=done.stdout, capture_output=True)
        self.assertEqual((shown.stdout, shown.stderr), (pbm, b""))
        self.assertIn(b"pHYs" + (11811).to_bytes(4, "big") * 2 + b"\1", done.stdout)
        words = "--paper 60x40 --dpi 300 --to png".split()
        done = support.printed(*words, input=EVERY.encode())
        self.assertEqual((done.returncode, done.stdout), (1, b""))
        self.assertIn(b"has only one page: print fewer labels", done.stderr)


class ReadBack(unittest.TestCase):
    def test_a_wrong_label(self) -> None:
        laid = laid_out(b"ean13 400638133393\nean13 501234567890\n", (60.0, 40.0), 300)
        first, second = laid.labels
        symbol = first.symbols[0]._replace(modules=second.record.modules)
        wrong = LaidOut(first.record, (symbol,), first.texts)
        self.assertIsNone(laid.fault(first))
        self.assertEqual(laid.fault(wrong), "place code: as drawn it is read as b'5012345678900'")

    def test_bars_that_are_turned(self) -> None:
        """zxing-cpp reads a label with a third of its bars turned round; each row of dots is
        compared besides.
        """
        laid = laid_out(b"ean13 400638133393\n", (60.0, 40.0), 300)
        (item,) = laid.labels
        area = laid.prepared.laid_out.area
        picture = drawn_page((area.width, area.height), laid.pen, [(item, (0, 0))])
        bars = boxes_of(item)["bars"]
        self.assertIsNone(fault_in([bits_of(row) for row in picture.rows], item.symbols))
        rows = list(picture.rows)
        for top in range(bars.top, bars.top + bars.height // 3):
            row = "".join(f"{byte:08b}" for byte in rows[top])
            part = row[bars.left : bars.right]
            turned = row[: bars.left] + part[::-1] + row[bars.right :]
            rows[top] = int(turned, 2).to_bytes(len(rows[top]), "big")
        fault = fault_in([bits_of(row) for row in rows], item.symbols)
        self.assertEqual(fault, "place code: its bars as drawn are not those of labels")


if __name__ == "__main__":
    unittest.main()
