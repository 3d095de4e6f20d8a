"""Lines of texts: they end alike in each form."""

import random
import tempfile
import unittest
from pathlib import Path
from typing import Any, Iterator, Sequence
from unittest import mock

import designs
import support
from designs import Label
from labeltools.common.messages import Talk
from labeltools.drawing.pen import Pen
from labeltools.layout.fitting import LINE_END, Placed
from labeltools.layout.layout import LaidOut
from labeltools.printing.job import planned, PrintOptions
from labeltools.printing.press import labels_of
from laying import documents_of

WORDS = (
    "AVATAR Tafel Wörter Ägypten Ton Vase V. L'Y 12,5 Größe Übergröße Blatt kariert To Ty rot und "
    "mit Rand weich Umschlag 2B A4 Heft Lineal Karte 00017 Profi Stoff -weich A/B"
).split()


def lines_in(layout: Any) -> list[str]:
    """The lines of a layout of Pango, without the spaces and ends behind them."""
    written = layout.get_text().encode()
    parts = [(line.start_index, line.length) for line in layout.get_lines_readonly()]
    return [written[start : start + size].decode().rstrip(" " + LINE_END) for start, size in parts]


class Drawn(unittest.TestCase):
    """A text in a PDF, and how that is read back."""

    @classmethod
    def setUpClass(cls) -> None:
        support.labels_program()

    def test_a_second_line_behind_letters_of_another_font(self) -> None:
        """A line begins below the begin of the one before, not behind its last letters: the second
        one of this title would be found over the code.
        """
        place = '<rect data-place="title, middle" x="24" y="-10" width="14" height="30"/>'
        body = f'{designs.CODE}<g transform="rotate(90 30 10)">{place}</g>'
        with tempfile.TemporaryDirectory() as folder:
            design = designs.written(Path(folder, "own.svg"), body)
            title = 'AVATAR To Ty. LT "fi" fl ffi Wörter, Vögel'
            found = designs.prepared(
                design, [("ean8 7351353", {"title": title})], to="pdf", is_read=False
            )
        (document,) = documents_of(found)
        self.assertTrue(document.startswith(b"%PDF-"))


class OwnLines(unittest.TestCase):
    """Lines of texts in designs of a user's own: they end alike in each form, at any resolution."""

    FORMS = ("pdf", "pbm")
    SCRIPTS = (
        WORDS,
        "Müller & Söhne GmbH Obst und Gemüse Nord Molkerei Boskoop Karton A-12".split(),
        "تفاح أحمر من الجنوب Tea عضوي".split(),
        "茶葉 緑茶 天地玄黃宇宙洪荒 これはながい".split(),
    )

    @classmethod
    def setUpClass(cls) -> None:
        support.labels_program()

    def lines(self, design: Path, labels: Sequence[Label], form: str, dpi: int) -> list[list[str]]:
        """The lines of each text that has several, as they are drawn."""
        drawn = []
        texts = Pen.texts

        def noted(pen: Pen, item: LaidOut) -> Iterator[Placed]:
            for placed in texts(pen, item):
                rows = lines_in(placed.text.layout) if placed.text.layout else []
                drawn.extend([rows] * (len(rows) > 1))
                yield placed

        size = designs.size_of(design.stem)
        found = designs.prepared(design, labels, paper=size, to=form, dpi=dpi)
        with mock.patch.object(Pen, "texts", noted):
            documents_of(found)
        wanted = [
            text.text.replace(LINE_END, "\n").split("\n")
            for text in designs.texts_of(found)
            if text.style.lines > 1
        ]
        self.assertEqual(drawn, wanted)
        return drawn

    def test_lines_end_alike(self) -> None:
        chosen = random.Random(10)
        titles = [
            " ".join(chosen.choices(words, k=chosen.randrange(4, 12)))
            for words in self.SCRIPTS
            for _ in range(24)
        ]
        labels = [(f"code128 A-{number}", {"title": title}) for number, title in enumerate(titles)]
        with tempfile.TemporaryDirectory() as folder:
            place = '<rect data-place="title, {}" x="2" y="1" width="50" height="18"/>'
            for across, dpi in (("left", 203), ("right", 300)):
                path = Path(folder) / f"{across}-60x40.svg"
                design = designs.written(path, place.format(across) + designs.CODE)
                found = [self.lines(design, labels, form, dpi) for form in self.FORMS]
                with self.subTest(across=across, dpi=dpi):
                    self.assertGreater(len(found[0]), 60)
                    self.assertEqual(found[1], found[0])

    def test_lines_of_a_pallet(self) -> None:
        text = {**designs.PALLET, "From": "Müller & Söhne GmbH, Obst und Gemüse"}
        labels = [("code128 PAL-0004712", {"title": "4712", "text": text})]
        design = designs.FOLDER / "pallet-105x148.svg"
        for form in self.FORMS:
            with self.subTest(form=form):
                rows = self.lines(design, labels, form, 203)
                self.assertEqual(rows, [["Müller & Söhne GmbH,", "Obst und Gemüse"]])


class TitleLines(unittest.TestCase):
    """Lines of titles in the built-in designs: they end alike in each form."""

    @classmethod
    def setUpClass(cls) -> None:
        support.labels_program()

    def lines(self, data: bytes, form: str) -> list[list[int]]:
        """How many letters each line of a title has as it is drawn."""
        job = planned(PrintOptions(paper=(50.0, 40.0), dpi=203, to=form))
        found = labels_of(job, "lines", data, Talk())
        drawn = []
        for item in found.labels:
            title = next(found.pens[0].texts(item)).text
            drawn.append([len(line) for line in lines_in(title.layout)])
        return drawn

    def test_lines_end_alike(self) -> None:
        chosen = random.Random(12)
        titles = [" ".join(chosen.choices(WORDS, k=chosen.randrange(2, 9))) for _ in range(200)]
        labels: list[Label] = [
            (f"code128 A-{number}", {"title": title, "price": "1 €"})
            for number, title in enumerate(titles)
        ]
        drawings, dots = (self.lines(support.file_of(labels), form) for form in ("pdf", "zpl"))
        self.assertEqual(drawings, dots)
        self.assertGreater(sum(len(rows) > 1 for rows in dots), 60)


if __name__ == "__main__":
    unittest.main()
