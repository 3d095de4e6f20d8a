"""What a shop sees on paper, by the commands alone: lines in, PDF, SVG, PNG, PBM, ZPL or ESC/POS
out.

No test here looks into label-print, so $TOOLS may name the folder of other tools.
"""

import io
import os
import re
import signal
import subprocess
import tempfile
import unittest
from pathlib import Path
from typing import Any, Iterator, NamedTuple, Sequence

import cairo
import numpy
import zxingcpp

import jobs
import support
from labeltools.common.messages import Talk
from labeltools.printing.job import planned, PrintOptions
from labeltools.printing.press import labels_of
from labeltools.window.preview import Preview

EAN = "ean13 400638133393"
QR = "qr https://example.com/7"
LINES = (EAN, "ean8 7351353", "upca 03600029145", "code128 SHELF-7")
Fields = dict[str, Any]
NO_FIELDS: Fields = {}
PRICED: Fields = {"title": "Bleistift, weich, 2B", "price": "0,80 €"}
TEXTS: Fields = {
    "title": "Ein langer Name, der in zwei Zeilen steht und nicht in eine einzige passt",
    "text": ["Art. 7"],
    "price": "12,80 €",
}
FULL: Fields = {**TEXTS, "was": "14,95 €", "unit": "1 l = 2 €"}
SHOP = (  # millimetres, dots an inch, the least height of a price of a till's label
    ((40.0, 30.0), 203, 4.0),
    ((57.0, 32.0), 300, 5.5),
    ((60.0, 40.0), 300, 7.0),
    ((100.0, 30.0), 300, 9.0),
    ((105.0, 74.0), 300, 17.0),
    ((105.0, 148.0), 300, 17.0),
)
WORD = re.compile(
    '<word xMin="([-0-9.]+)" yMin="([-0-9.]+)" xMax="([-0-9.]+)" yMax="([-0-9.]+)">(.*?)</word>'
)
MOST_MODULE = 60
FORMATS = zxingcpp.EAN13 | zxingcpp.EAN8 | zxingcpp.UPCA | zxingcpp.Code128 | zxingcpp.QRCode
Label = tuple[str, dict[str, Any]]


class Box(NamedTuple):
    """Where a code is with its quiet zones, in dots, and its module."""

    left: int
    top: int
    right: int
    bottom: int
    module: int

    @property
    def height(self) -> int:
        """The height of the bars."""
        return self.bottom - self.top


def setUpModule() -> None:
    os.environ["LABELS"] = str(support.labels_program())
    support.needs("pdftotext", "pdftoppm", "gs", "mutool", "pngtopnm")


def run(labels: Sequence[Label], *arguments: str) -> "support.Finished[bytes]":
    """Runs label-print for labels with rows 2, 3, .."""
    return support.printed(*arguments, input=support.file_of(labels))


def printed(labels: Sequence[Label], *arguments: str) -> bytes:
    """What label-print writes; every label has to be printed."""
    done = run(labels, *arguments)
    if done.returncode:
        raise AssertionError(done.stderr.decode())
    return done.stdout


def said(labels: Sequence[Label], *arguments: str) -> list[str]:
    """What label-print says of labels, one at least of which is printed."""
    done = run(labels, *arguments)
    if not done.stdout:
        raise AssertionError(done.stderr.decode())
    return [message.removeprefix("label-print: ") for message in support.messages(done)]


def roll(size: tuple[float, float], dpi: int, *arguments: str) -> list[str]:
    """The arguments for a roll."""
    return ["--paper", f"{size[0]:g}x{size[1]:g}", "--dpi", str(dpi), *arguments]


def sheet(size: tuple[float, float], dpi: int, *arguments: str) -> list[str]:
    """The arguments for a page of one cell."""
    whole = f"{size[0]:g}x{size[1]:g}"
    grid = ["--cell", whole, "--paper", whole, "--grid", "1x1", "--edge", "0"]
    return [*grid, "--dpi", str(dpi), *arguments]


def pictures(labels: Sequence[Label], *arguments: str) -> list[jobs.Dots]:
    """The dots of labels."""
    return jobs.pictures_of_pbm(printed(labels, *arguments, "--to", "pbm"))


def code_in(dots: jobs.Dots) -> str:
    """What zxing-cpp reads in dots."""
    found = zxingcpp.read_barcode(
        255 * (1 - dots), formats=FORMATS, binarizer=zxingcpp.Binarizer.BoolCast
    )
    return str(found.text) if found else ""


def modules_of(line: str) -> jobs.Dots:
    """The modules that labels(1) draws of a line, with the quiet zones at their sides."""
    drawn = support.draw(f"{line}\n", "--height", "1")[0]
    (picture,) = jobs.pictures_of_pbm(subprocess.check_output(["pnmtopnm"], input=drawn))
    return picture


def bars_in(dots: jobs.Dots, line: str) -> Box | None:
    """Where the code of a line is in dots, each row of it; None where it is nowhere."""
    modules = modules_of(line)
    rows = [*rows_that_differ(dots)]
    for module in range(min(MOST_MODULE, dots.shape[1] // modules.shape[1]), 0, -1):
        wide = modules.repeat(module, axis=1)
        middle = wide[len(wide) // 2].tobytes()
        for top, row in rows:
            # A row of less ink has no such bars; to search it takes long.
            left = row.find(middle) if row.count(1) >= middle.count(1) else -1
            if left >= 0:
                return box_of(dots, wide, module, top, left)
    return None


def rows_that_differ(dots: jobs.Dots) -> Iterator[tuple[int, bytes]]:
    """The rows of dots that are not as the row above, each with its place."""
    for top, row in enumerate(dots):
        if top == 0 or not numpy.array_equal(row, dots[top - 1]):
            yield top, row.tobytes()


def box_of(dots: jobs.Dots, wide: jobs.Dots, module: int, top: int, left: int) -> Box | None:
    """Where a code is whose middle row is first seen at a place; each of several rows is a module
    high. None where it is not whole.
    """
    right = left + wide.shape[1]
    if len(wide) == 1:
        same = (dots[top:, left:right] == wide).all(axis=1)
        high = int(numpy.argmin(same)) if not same.all() else len(same)
        return Box(left, top, right, top + high, module)
    top -= len(wide) // 2 * module
    bottom = top + len(wide) * module
    is_whole = numpy.array_equal(dots[top:bottom, left:right], wide.repeat(module, axis=0))
    return Box(left, top, right, bottom, module) if is_whole else None


def rendered(pdf: bytes, dpi: int, page: int = 1) -> jobs.Dots:
    """The dots of a page of a PDF as poppler draws it."""
    command = ["pdftoppm", "-r", str(dpi), "-f", str(page), "-l", str(page), "-mono", "-"]
    done = subprocess.run(command, input=pdf, capture_output=True, check=True)
    return jobs.pictures_of_pbm(done.stdout)[0]


def words_of(pdf: bytes) -> list[list[tuple[str, float, float, float, float]]]:
    """The words of each page with their boxes in millimetres; a box is as high as its letters'
    size.
    """
    done = subprocess.run(["pdftotext", "-bbox", "-", "-"], input=pdf, capture_output=True)
    pages = []
    for page in done.stdout.decode().split("<page ")[1:]:
        words = []
        for match in WORD.finditer(page):
            left, top, right, bottom = (float(value) / 72 * 25.4 for value in match.groups()[:4])
            words.append((match[5], left, top, right, bottom))
        pages.append(words)
    return pages


def size_of(words: Sequence[tuple[str, float, float, float, float]], text: str) -> float:
    """The size of the letters of a word, in millimetres; a price may have raised cents."""
    known = (text, text[:-2])
    return next(bottom - top for word, _, top, _, bottom in words if word in known)


def area_of(words: Sequence[tuple[str, float, float, float, float]], text: str) -> float:
    """The area of a price, in square millimetres: of all its parts where it has raised cents."""
    return sum(
        (right - left) * (bottom - top)
        for word, left, top, right, bottom in words
        if word in (text, text[:-2], text[-2:], "€")
    )


class Paper(unittest.TestCase):
    """Nothing is left out that fits, and sizes follow the label."""

    def test_labels_that_a_shop_has(self) -> None:
        """Each is printed, its bars are exact and 5 mm high at least, and it is read."""
        labels: list[Label] = [(line, TEXTS) for line in LINES]
        for size, dpi, _ in SHOP:
            for (line, _), dots in zip(labels, pictures(labels, *roll(size, dpi))):
                box = bars_in(dots, line)
                self.assertIsNotNone(box, (size, line))
                assert box is not None
                self.assertGreaterEqual(box.height * 25.4 / dpi, 5, (size, line))
                data = line.partition(" ")[2]
                self.assertIn(data, code_in(dots), (size, line))

    def test_a_price_is_what_is_seen_first(self) -> None:
        for size, dpi, least in SHOP:
            pdf = printed([(EAN, TEXTS)], *roll(size, dpi))
            words = words_of(pdf)[0]
            _, left, top, right, bottom = next(
                word for word in words if word[0] in ("12,80", "12,")
            )
            dots = rendered(pdf, 600)
            scale = 600 / 25.4
            part = dots[
                round(top * scale) : round(bottom * scale),
                round(left * scale) : round(right * scale),
            ]
            rows = part.any(axis=1).nonzero()[0]
            self.assertGreaterEqual((rows[-1] - rows[0] + 1) / scale, least, size)

    def test_all_grows_with_the_label(self) -> None:
        """On a label twice as wide and high price, title and bars are nearly twice as large."""
        label: Label = (EAN, {**TEXTS, "title": "Seife"})
        for size in ((45.0, 30.0), (50.0, 30.0), (52.0, 74.0)):
            double = (2 * size[0], 2 * size[1])
            small, large = (
                words_of(printed([label], *roll(paper, 600)))[0] for paper in (size, double)
            )
            for word in ("12,80", "Seife"):
                ratio = size_of(large, word) / size_of(small, word)
                self.assertGreaterEqual(ratio, 1.8, (size, word))

    def test_bars_follow_the_price(self) -> None:
        """For a shelf the price takes more of the paper and the bars are lower than for a till."""
        for size in ((57.0, 32.0), (63.5, 38.1), (70.0, 37.0)):
            found = []
            for design in ("article", "shelf"):
                pdf = printed([(EAN, FULL)], *roll(size, 600, "--design", design))
                (dots,) = pictures([(EAN, FULL)], *roll(size, 600, "--design", design))
                box = bars_in(dots, EAN)
                assert box is not None
                found.append((area_of(words_of(pdf)[0], "12,80"), box.height))
            self.assertGreaterEqual(found[1][0], 1.3 * found[0][0], size)
            self.assertLessEqual(found[1][1], found[0][1], size)

    def test_modules(self) -> None:
        """No EAN below 0.264 mm on a sheet; on a roll 0.25 mm is taken where it alone fits."""
        size = (40.0, 30.0)
        (dots,) = pictures([(EAN, PRICED)], *roll(size, 203))
        box = bars_in(dots, EAN)
        assert box is not None
        self.assertEqual(box.module, 2)
        done = run([(EAN, PRICED)], *sheet(size, 203), "--to", "pbm")
        self.assertEqual((done.returncode, done.stdout), (1, b""))
        for dpi in (150, 300, 360, 600):
            for arguments, least in ((sheet(size, dpi), 0.264), (roll(size, dpi), 0.249)):
                done = run([(EAN, PRICED)], *arguments, "--to", "pbm")
                for dots in jobs.pictures_of_pbm(done.stdout):
                    box = bars_in(dots, EAN)
                    assert box is not None
                    self.assertGreaterEqual(box.module * 25.4 / dpi, least, dpi)

    def test_qr_grows(self) -> None:
        """The squares of a code for phones are half a millimetre, and more on large labels."""
        modules = []
        for size in ((60.0, 60.0), (105.0, 148.0), (210.0, 297.0)):
            (dots,) = pictures([(QR, PRICED)], *roll(size, 300))
            box = bars_in(dots, QR)
            assert box is not None
            modules.append(box.module * 25.4 / 300)
        self.assertEqual(modules, sorted(modules))
        self.assertGreaterEqual(modules[0], 0.49)
        self.assertTrue(0.9 <= modules[-1] <= 1.03, modules)


class Together(unittest.TestCase):
    """The labels of a file look alike, and one does not shrink the others."""

    SIZE = (63.5, 38.1)

    def test_bars_of_all_symbologies_end_on_one_line(self) -> None:
        labels: list[Label] = [(line, PRICED) for line in LINES]
        ends = set()
        for (line, _), dots in zip(labels, pictures(labels, *roll(self.SIZE, 600))):
            box = bars_in(dots, line)
            assert box is not None
            ends.add(box.bottom)
        self.assertEqual(len(ends), 1)
        pages = words_of(printed(labels, *roll(self.SIZE, 600)))
        self.assertEqual(len({round(size_of(words, "0,80"), 2) for words in pages}), 1)

    def test_one_wide_price_shrinks_no_other(self) -> None:
        """Ten prices of six letters are as large as without one of thirteen, which is said."""
        usual: list[Label] = [
            (EAN, {"title": "Heft", "price": f"1{number},95 €"}) for number in range(10)
        ]
        wide: Label = (EAN, {"title": "Klavier", "price": "12.999,00 zł!"})
        arguments = roll((40.0, 35.0), 600)
        without = words_of(printed(usual, *arguments))
        together = words_of(printed([*usual, wide], *arguments))
        for number in range(10):
            word = f"1{number},95"
            size = size_of(without[number], word)
            self.assertGreaterEqual(size_of(together[number], word), size)
        self.assertLess(size_of(together[10], "12.999,00"), size_of(without[0], "10,95"))
        self.assertEqual(
            said([*usual, wide], *arguments), ["row 12: a wide price is smaller than the others"]
        )

    def test_a_long_address_does_not_shrink_short_ones(self) -> None:
        short: Label = (QR, PRICED)
        long: Label = (f"{QR}{'x' * 150}", PRICED)
        found = pictures([*[short] * 9, long], *roll((60.0, 40.0), 600))
        boxes = [bars_in(dots, line) for (line, _), dots in zip([*[short] * 9, long], found)]
        assert boxes[0] is not None and boxes[9] is not None
        self.assertGreater(boxes[0].module, boxes[9].module)
        alone = bars_in(pictures([short], *roll((60.0, 40.0), 600))[0], QR)
        assert alone is not None
        self.assertGreaterEqual(boxes[0].module, 0.9 * alone.module)

    def test_only_keeps_the_frame_of_the_whole_file(self) -> None:
        """A torn label that is printed again looks as it did, also if it alone had more room."""
        wide = {"title": TEXTS["title"], "price": "1.299,00 €"}
        labels: list[Label] = [(EAN, PRICED), *[(EAN, wide)] * 5]
        arguments = roll((60.0, 40.0), 300)
        whole = pictures(labels, *arguments)
        again = pictures(labels, *arguments, "--only", "2")
        alone = pictures(labels[:1], *arguments)
        self.assertTrue(numpy.array_equal(whole[0], again[0]))
        self.assertFalse(numpy.array_equal(whole[0], alone[0]))


class Said(unittest.TestCase):
    """What a shop would not see at once is said, once for a file."""

    def test_a_row_of_several_tables(self) -> None:
        table = f'#{{"labels":1}}\n#{{"row":2}}\n{EAN}\n'
        table += '#{"end":1,"lines":1,"left_out":[],"left_out_count":0}\n'
        words = [*roll((60.0, 40.0), 203), "--only", "2"]
        for count in (1, 2):
            done = support.run("label-print", *words, input=(count * table).encode())
            wanted = ["label-print: row 2: in several tables, and printed of each"]
            self.assertEqual((done.returncode, support.messages(done)), (0, wanted[: count - 1]))

    def test_a_label_that_is_named_fits(self) -> None:
        for fields, line in ((PRICED, EAN), (TEXTS, EAN), (TEXTS, f"code128 {'x' * 40}")):
            for size, dpi in (((40.0, 30.0), 203), ((60.0, 9.0), 300), ((20.0, 30.0), 600)):
                labels: list[Label] = [(line, fields)] * 3
                done = run(labels, *sheet(size, dpi))
                self.assertEqual((done.returncode, done.stdout), (1, b""))
                message = support.messages(done)[0]
                found = re.findall(r"a label of at least ([0-9.]+) by ([0-9.]+) mm", message)
                self.assertEqual(len(found), 1, message)
                self.assertIn("rows 2-4: ", message)
                self.assertEqual(", less text" in message, " is too high, " in message)
                self.assertEqual(", shorter data" in message, line != EAN)
                larger = float(found[0][0]), float(found[0][1])
                self.assertTrue(printed(labels, *sheet(larger, dpi)))

    def test_low_bars(self) -> None:
        messages = said([(EAN, PRICED)] * 2, *sheet((60.0, 20.0), 300))
        self.assertEqual(len(messages), 1)
        self.assertRegex(messages[0], r"^rows 2-3: bars of \d+\.\d mm: hand scanners read them")
        self.assertEqual(said([(EAN, PRICED)], *sheet((60.0, 20.0), 300, "--design", "shelf")), [])

    def test_dense_qr(self) -> None:
        messages = said([(f"qr {'x' * 150}", {})] * 2, *roll((20.0, 20.0), 600))
        self.assertEqual(len(messages), 1)
        self.assertRegex(messages[0], r"^rows 2-3: QR with modules of 0\.[23]\d mm: some phones")


class Forms(unittest.TestCase):
    """PDF, PNG, PBM, ZPL and ESC/POS have the same dots."""

    def boxes(self, labels: Sequence[Label], dpi: int) -> list[dict[str, Box | None]]:
        """Where the bars of each label are in some forms."""
        arguments = roll((80.0, 40.0), dpi)
        pdf = printed(labels, *arguments)
        raster = printed(labels, *arguments, "--to", "escpos", "--dots", "9999")
        of_escpos = jobs.dots_of_escpos(raster)
        of_pbm = pictures(labels, *arguments)
        found = []
        for number, (line, _) in enumerate(labels):
            shown = {
                "pdf": rendered(pdf, dpi, number + 1),
                "pbm": of_pbm[number],
                "escpos": of_escpos[number],
            }
            found.append({form: bars_in(dots, line) for form, dots in shown.items()})
        return found

    def check(self, labels: Sequence[Label]) -> None:
        """The bars of each label are in the same dots in each form."""
        for dpi in (203, 300):
            for (line, fields), boxes in zip(labels, self.boxes(labels, dpi)):
                self.assertIsNotNone(boxes["pbm"], line)
                self.assertEqual(set(boxes.values()), {boxes["pbm"]}, (line, fields, dpi))

    def test_bars_are_in_the_same_dots(self) -> None:
        """With a price and without one, which has no place of its own."""
        for fields in NO_FIELDS, {"title": "Seife"}, PRICED:
            self.check([(line, fields) for line in (*LINES, QR)])

    def test_codes_in_many_places(self) -> None:
        """Each of twenty heights is in its place in a PDF, also when it comes again."""
        heights = [*range(10, 30)] * 2
        labels: list[Label] = [(f"code128,height={high} A7", {"title": "A"}) for high in heights]
        pdf = printed(labels, *roll((60.0, 40.0), 203))
        first, again = (bars_in(rendered(pdf, 203, page), "code128 A7") for page in (1, 21))
        self.assertIsNotNone(first)
        self.assertEqual(first, again)

    def test_zpl_has_the_dots_of_pbm(self) -> None:
        """In run lengths, as drivers of Linux send them; upright at the corner, whatever the job
        before has set.
        """
        labels: list[Label] = [(line, PRICED) for line in (*LINES, QR)]
        arguments = roll((80.0, 40.0), 203)
        wanted = pictures(labels, *arguments)
        found = jobs.dots_of_zpl(printed(labels, *arguments, "--to", "zpl"))
        self.assertEqual(len(found), len(wanted))
        for dots, other in zip(found, wanted):
            self.assertTrue(numpy.array_equal(dots, other))

    def test_some_symbologies_without_a_price(self) -> None:
        self.check([(EAN, PRICED), (QR, {"title": "Regal 7"})])

    def test_a_price_that_nobody_sees(self) -> None:
        self.check([(EAN, {"title": "Seife", "price": "\u200b"})])

    def test_guards_are_below_their_bars(self) -> None:
        """As three programs draw them: guards of their own were a dot beside."""
        pdf = printed([(EAN, PRICED)], *roll((80.0, 50.0), 203))
        with tempfile.TemporaryDirectory() as folder:
            Path(folder, "sheet.pdf").write_bytes(pdf)
            for name, words in (
                ("poppler", "pdftoppm -r 203 -mono sheet.pdf out"),
                ("gs", "gs -q -dBATCH -dNOPAUSE -sDEVICE=pbmraw -r203 -sOutputFile=out sheet.pdf"),
                ("mupdf", "mutool draw -q -r 203 -c mono -F pbm -o out sheet.pdf 1"),
            ):
                subprocess.run(words.split(), cwd=folder, check=True, capture_output=True)
                (path,) = Path(folder).glob("out*")
                self.check_guards(jobs.pictures_of_pbm(path.read_bytes())[0], name)
                path.unlink()

    def check_guards(self, dots: jobs.Dots, name: str) -> None:
        box = bars_in(dots, EAN)
        assert box is not None, name
        below = dots[box.bottom + 2 * box.module, box.left : box.right]
        for guard in (11, 13, 57, 59, 103, 105):
            place = slice(guard * box.module, (guard + 1) * box.module)
            self.assertTrue(below[place].all(), (name, guard))
            self.assertFalse(below[place.start - 1] or below[place.stop], (name, guard))

    def test_guards_on_a_screen_are_one_piece(self) -> None:
        """A guard that begins where its bar ends has a light line between them."""
        job = planned(PrintOptions(paper=(80.0, 50.0), dpi=300))
        labels = labels_of(job, "lines", support.file_of([(EAN, PRICED)]), Talk())
        file = io.BytesIO()
        with cairo.SVGSurface(file, 80, 50) as surface:
            Preview(labels).draw(cairo.Context(surface), 1)
        lines = file.getvalue().decode().splitlines()
        svg = "\n".join(line for line in lines if "fill:rgb(0%" in line)
        path = r"M ([0-9.]+) ([0-9.]+) L ([0-9.]+) \2 L \3 ([0-9.]+) L \1 \4 Z"
        found = {tuple(map(float, match)) for match in re.findall(path, svg)}
        bars = {(left, right): (top, bottom) for left, top, right, bottom in sorted(found)}
        bottom = max(end for _, end in bars.values())
        guards = [place for place, (_, end) in bars.items() if end == bottom]
        top = min(start for start, _ in bars.values())
        self.assertEqual(len(guards), 6)
        self.assertEqual({bars[place][0] for place in guards}, {top})

    def test_bars_are_whole_modules_high(self) -> None:
        """A row that is stretched far loses its last dots, low on a page."""
        for size, dpi in (((105.0, 148.0), 300), ((60.0, 40.0), 203)):
            pdf = printed([(EAN, TEXTS)], *roll(size, dpi))
            box = bars_in(rendered(pdf, dpi), EAN)
            self.assertEqual(box, bars_in(pictures([(EAN, TEXTS)], *roll(size, dpi))[0], EAN))
            assert box is not None
            self.assertEqual(box.height % box.module, 0, size)

    def test_labels_of_a_file_without_a_price_are_in_the_middle(self) -> None:
        pdf = printed([(EAN, {})], *roll((80.0, 40.0), 300))
        dots = rendered(pdf, 300)
        box = bars_in(dots, EAN)
        assert box is not None
        self.assertAlmostEqual((box.left + box.right) / 2, dots.shape[1] / 2, delta=2)


class Turned(unittest.TestCase):
    """Labels are turned where more of them fit, or by an option."""

    def test_dots_and_pages(self) -> None:
        """Turned bars are the upright ones, and the page keeps its size."""
        for line in (*LINES, QR):
            labels: list[Label] = [(line, PRICED)]
            arguments = roll((50.0, 90.0), 203)
            (turned,) = pictures(labels, *arguments, "--turn", "yes")
            box = bars_in(numpy.rot90(turned), line)
            self.assertIsNotNone(box, line)
            sizes = []
            for turn in ("yes", "no"):
                pdf = printed(labels, *arguments, "--turn", turn)
                sizes.append(re.findall(rb"/MediaBox \[ ([0-9. ]+) \]", pdf))
            self.assertEqual(sizes[0], sizes[1])

    def test_labels_turn_by_themselves(self) -> None:
        line = "code128 ABCDEFGHIJKLMNOPQ"
        (turned,) = pictures([(line, PRICED)], *roll((36.0, 89.0), 300))
        self.assertIsNotNone(bars_in(numpy.rot90(turned), line))
        done = run([(line, PRICED)], *roll((36.0, 89.0), 300, "--turn", "no"))
        self.assertEqual((done.returncode, done.stdout), (1, b""))


class Shelf(unittest.TestCase):
    """What belongs on a shelf: the price of a unit, the old price, a line for all."""

    def test_unit_price_and_old_price(self) -> None:
        pdf = printed([(EAN, {"title": "Seife", **FULL})], *roll((105.0, 74.0), 600))
        words = [word[0] for word in words_of(pdf)[0]]
        for word in ("14,95", "12,", "80", "2"):  # its cents are raised
            self.assertIn(word, words)
        self.assertLess(size_of(words_of(pdf)[0], "14,95"), size_of(words_of(pdf)[0], "12,"))

    def test_the_old_price_is_struck_through_and_no_other(self) -> None:
        """`€` has three bytes and is one letter: the line ends below it."""
        labels: list[Label] = [(EAN, {"price": "12,80 €", "was": "14,95 €", "unit": "1 kg = 5 €"})]
        pdf = printed(labels, *roll((105.0, 74.0), 600))
        dots = rendered(pdf, 600)
        words = words_of(pdf)[0]
        signs = sorted(word[3] for word in words if word[0] == "€")
        _, left, top, right, bottom = next(word for word in words if word[0] == "14,95")
        end = min(place for place in signs if place > right)
        for place, is_struck in (((left, end), True), ((signs[-1] + 0.2, 105.0), False)):
            columns = slice(*(round(value / 25.4 * 600) for value in place))
            rows = slice(*(round(value / 25.4 * 600) for value in (top, bottom)))
            part = dots[rows, columns]
            longest = max(longest_run(row) for row in part)
            self.assertEqual(longest >= 0.9 * part.shape[1], is_struck, place)

    def test_a_table_has_both(self) -> None:
        table = "EAN;Name;Preis;Grundpreis;Statt\n4006381333931;Seife;2,95 €;5,90 €/kg;3,95 €\n"
        columns = "--code EAN --title Name --price Preis --unit-price Grundpreis --old-price Statt"
        done = support.run("label-table", *columns.split(), input=table.encode())
        self.assertEqual((done.returncode, done.stderr), (0, b""))
        done = support.run("label-print", *roll((60.0, 40.0), 600), input=done.stdout)
        words = [word[0] for word in words_of(done.stdout)[0]]
        self.assertTrue({"3,95", "5,90", "2,"} <= set(words), words)  # its cents are raised

    def test_a_note_is_on_each_label(self) -> None:
        labels: list[Label] = [(EAN, PRICED), (EAN, {**PRICED, "text": ["rot"]})]
        pdf = printed(labels, *roll((60.0, 40.0), 600, "--note", "Gültig ab 1.12."))
        for words in words_of(pdf):
            self.assertIn("Gültig", [word[0] for word in words])


def longest_run(row: jobs.Dots) -> int:
    """The most dots of a row that follow one another."""
    return max((len(part) for part in "".join(map(str, row)).split("0")), default=0)


class Users(unittest.TestCase):
    """Files and words that shops have, and files that are made to do harm."""

    ROLL = ("--paper", "60x40", "--dpi", "203", "--to", "zpl")

    def refused(self, data: bytes, *arguments: str) -> str:
        """The messages for what prints nothing."""
        done = support.run("label-print", *arguments or self.ROLL, input=data)
        self.assertNotEqual(done.returncode, 0)
        self.assertEqual(done.stdout, b"")
        return done.stderr.decode()

    def test_lines_that_went_through_windows(self) -> None:
        data = support.file_of([("code128 LOT-7", {}), (QR, {})])
        self.assertIn("ends in CR LF", self.refused(data.replace(b"\n", b"\r\n")))

    def test_a_table_that_is_printed(self) -> None:
        for data in (b"EAN;Artikel\n4006381333931;Seife\n", b"PK\x03\x04" + b"\x00\n" * 9):
            self.assertIn("a table goes through label-table first", self.refused(data))

    def test_sheets_by_size_and_by_two_makers(self) -> None:
        done = support.run("label-print", "--list-stock", "herma 70x37")
        self.assertIn(b"Herma 4464: 24 labels of 70.2 by 37.04 mm", done.stdout)
        done = support.run("label-print", "--list-stock", "herma", "70x37")
        self.assertEqual((done.returncode, done.stdout), (2, b""))
        done = support.run("label-print", "--list-stock", "Avery Zweckform L7160")
        self.assertIn(b"Avery L7160: 21 labels of", done.stdout)
        done = support.run("label-print", "--list-stock", "nowhere")
        self.assertEqual(support.messages(done)[0][:37], "label-print: no sheet has all of thes")

    def test_letters_that_no_font_has(self) -> None:
        """A letter of a picture has packages of its own: those of other letters lack it."""
        nothing = "FONTCONFIG_FILE"
        with tempfile.TemporaryDirectory() as folder:
            path = Path(folder, "fonts.conf")
            directory = "<dir>/usr/share/fonts/truetype/dejavu</dir>"
            path.write_text(f"<fontconfig>{directory}<cachedir>{folder}</cachedir></fontconfig>")
            data = support.file_of([(EAN, {"title": "Tee \U0001f9cb"})])
            done = support.run("label-print", *self.ROLL, input=data, **{nothing: str(path)})
        self.assertEqual((done.returncode, done.stdout), (1, b""))
        self.assertRegex(done.stderr.decode(), "apt-get install .*(symbola|emoji)")

    def test_files_that_follow_a_link(self) -> None:
        """The part of a file has a name that no label has, and no link is followed."""
        data = support.file_of([("qr a.part", {}), ("qr a", {})])
        with tempfile.TemporaryDirectory() as folder:
            each = ("--paper", "60x40", "--dpi", "203", "--to", "png", "--each", f"{folder}/new/%s")
            done = support.run("label-print", *each, input=data)
            self.assertEqual((done.returncode, done.stderr), (0, b""))
            self.assertEqual(sorted(os.listdir(f"{folder}/new")), ["a", "a.part"])

    def test_too_much(self) -> None:
        """Cells, copies and pages have bounds, with a message and without much memory."""
        label = support.file_of([("ean8 7351353", {})])
        cells = ("--cell", "1x1", "--grid", "9999x9999", "--paper", "9999x9999")
        copies = support.file_of([("ean8 7351353", {"copies": 9999})] * 101)
        for data, arguments, what in (
            (label, cells, "the maximum is 10,000; take fewer"),
            (copies, self.ROLL, "the maximum is 1,000,000;"),
        ):
            script = 'ulimit -v 600000 -t 60; exec "$@"'
            command = ["bash", "-c", script, "sh", str(support.TOOLS / "label-print"), *arguments]
            done = subprocess.run(
                command,
                input=data,
                stdout=subprocess.DEVNULL,
                stderr=subprocess.PIPE,
                env=support.environment(),
            )
            self.assertIn(what, done.stderr.decode()[-300:])

    def test_ten_thousand_marks_on_a_letter(self) -> None:
        """They are drawn in seconds of the processor, in some of the memory."""
        data = support.file_of([("ean8 7351353", {"title": "a" + "\u0301" * 10_000})])
        script = 'ulimit -v 600000 -t 60; exec "$@"'
        command = ["bash", "-c", script, "sh", str(support.TOOLS / "label-print"), *self.ROLL]
        done = subprocess.run(command, input=data, capture_output=True, env=support.environment())
        self.assertEqual(done.returncode, 0, done.stderr[-300:])
        self.assertEqual(len(jobs.dots_of_zpl(done.stdout)), 1)

    def test_control_characters(self) -> None:
        """None reaches a terminal: of an option, of a file's name, of a key in a file."""
        escape = "\x1b[2J"
        data = support.file_of([(EAN, {})])
        self.assertNotIn("\x1b", self.refused(data, "--stock", escape))
        self.assertNotIn("\x1b", self.refused(data, *self.ROLL, "--font", escape))
        self.assertNotIn("\x1b", self.refused(b"", *self.ROLL, f"{escape}.lines"))
        key = b'#{"labels":1}\n#{"\x7f\xc2\x9b2J":1}\nqr a\n#{"end":1,"lines":1}\n'
        self.assertNotIn("\x9b", self.refused(key))

    def test_a_signal_while_it_starts(self) -> None:
        """It ends by the signal and says nothing, whatever module it was loading."""
        for tool in ("label-print", "label-table"):
            for module in ("signal", "pathlib", "argparse", "json"):
                ended = self.ended_while_it_loads(tool, module)
                self.assertEqual(ended, (-signal.SIGINT, b""), (tool, module))

    def ended_while_it_loads(self, tool: str, module: str) -> tuple[int, bytes]:
        """The status and the messages of a tool that gets a signal while it loads a module."""
        with tempfile.TemporaryDirectory() as folder:
            path = Path(folder, f"{module}.py")
            path.write_text("import time\nprint('loading', flush=True)\ntime.sleep(600)\n")
            run = subprocess.Popen(
                [str(support.TOOLS / tool), "--help"],
                stdout=subprocess.PIPE,
                stderr=subprocess.PIPE,
                env={**support.environment(), "PYTHONPATH": folder},
            )
            assert run.stdout is not None
            run.stdout.readline()
            run.send_signal(signal.SIGINT)
            return run.wait(), run.communicate()[1]

    def test_a_full_disk_names_its_file(self) -> None:
        with tempfile.TemporaryDirectory() as folder:
            shell = f'trap "" XFSZ; ulimit -f 1; "$@" --each "{folder}/new/%d.pbm"'
            words = [str(support.TOOLS / "label-print"), "--paper", "90x90", "--dpi", "300"]
            done = subprocess.run(
                ["bash", "-c", shell, "sh", *words],
                input=support.file_of([("ean8 7351353", {})]),
                capture_output=True,
                env=support.environment(),
            )
            self.assertEqual(done.returncode, 1)
            self.assertIn(f"{folder}/new/1.pbm: File too large", done.stderr.decode())

    def test_a_full_temporary_folder_is_named(self) -> None:
        with tempfile.TemporaryDirectory() as folder:
            shell = 'trap "" XFSZ; ulimit -f 8; "$@" > /dev/null'
            words = [str(support.TOOLS / "label-print"), "--stock", "l7160"]
            many: list[Label] = [(f"ean13 {support.ean13(number)}", {}) for number in range(400)]
            done = subprocess.run(
                ["bash", "-c", shell, "sh", *words],
                input=support.file_of(many),
                capture_output=True,
                env={**support.environment(), "TMPDIR": folder},
            )
            self.assertEqual((done.returncode, os.listdir(folder)), (1, []))
            self.assertIn(f"{folder}: File too large; make room", done.stderr.decode())


if __name__ == "__main__":
    unittest.main()
