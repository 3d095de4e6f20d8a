"""What a window needs: pages by their number, one document saved whole, and an end on request."""

import os
import subprocess
import tempfile
import unittest
from pathlib import Path
from typing import Any

import support
from labeltools.common.messages import Cancelled, Origin, Talk
from labeltools.common.text import Text
from labeltools.printing.job import planned, PrintOptions
from labeltools.printing.press import labels_of
from labeltools.sending.sender import save_to
from laying import documents_of

LABELS: list[tuple[str, dict[str, Any]]] = [
    (f"ean13 {support.ean13(400638000000 + number)}", {"title": f"Artikel {number}"})
    for number in range(30)
]
COPIED = [
    (line, {**fields, "copies": 1 + number % 4}) for number, (line, fields) in enumerate(LABELS)
]


def setUpModule() -> None:
    os.environ["LABELS"] = str(support.labels_program())


class Stopping(Talk):
    """A talk that stops the work at its `end`-th question."""

    def __init__(self, end: int) -> None:
        self.asked = 0
        self.end = end

    def go_on(self, done: int, total: int) -> None:
        self.asked += 1
        if self.asked == self.end:
            raise Cancelled(Text("stopped"))


class Pages(unittest.TestCase):
    def setUp(self) -> None:
        self.data = support.file_of(COPIED)
        self.options = PrintOptions(stock="l7160", first=5)
        self.job = planned(self.options)
        self.found = labels_of(self.job, "lines", self.data, Talk())

    def test_a_page_by_its_number(self) -> None:
        press = self.found.press(Talk())
        prints = self.found.prints
        (whole,) = press.batches(prints)
        self.assertEqual(len(whole.items), len(prints))
        self.assertEqual(len(whole.pages[0]), 21 - 4)
        for number, page in enumerate(whole.pages):
            self.assertEqual(press.page(number, prints), page, number)
        self.assertEqual(press.page(len(whole.pages), prints), [])

    def test_what_is_saved_is_what_the_command_writes(self) -> None:
        for form in ("pdf", "zpl", "pbm", "escpos"):
            sheet = ("--paper", "60x40", "--dpi", "203", "--to", form)
            written = support.printed(*sheet, input=self.data).stdout
            options = PrintOptions(paper=(60.0, 40.0), dpi=203, to=form)
            found = labels_of(planned(options), "lines", self.data, Talk())
            with tempfile.TemporaryDirectory() as folder:
                path = Path(folder, "labels")
                save_to(found, path, Talk())
                self.assertTrue(path.read_bytes() == written and written, form)
                self.assertEqual(os.listdir(folder), ["labels"])

    def test_labels_that_are_left_out_are_values(self) -> None:
        data = support.file_of([LABELS[0], ("ean13 4006381333932", {})])
        found = labels_of(self.job, "lines", data, Talk())
        (record,) = found.left_out
        self.assertEqual(record.origin, Origin("articles.xlsx", "row", 3))
        self.assertEqual(
            (record.data, str(record.problem.what)),
            ("4006381333932", "check digit is 2, should be 1"),
        )

    def test_work_that_is_stopped_leaves_no_file(self) -> None:
        for end in (1, 2, 3):
            with tempfile.TemporaryDirectory() as folder:
                with self.assertRaises(Cancelled):
                    save_to(self.found, Path(folder, "labels.pdf"), Stopping(end))
                self.assertEqual(os.listdir(folder), [])
        with self.assertRaises(Cancelled):
            labels_of(self.job, "lines", self.data, Stopping(1))

    def test_one_form_after_another_in_one_run(self) -> None:
        """Cairo keeps a font as it was first used: dots are the same after a PDF was drawn."""
        roll = PrintOptions(paper=(60.0, 40.0), dpi=203, to="pbm")
        found = labels_of(planned(roll), "lines", self.data, Talk())
        written = support.run(
            "label-print", "--paper", "60x40", "--dpi", "203", "--to", "pbm", input=self.data
        ).stdout
        documents_of(self.found)
        again = b"".join(documents_of(found))
        self.assertTrue(again == written and written)
        self.assertEqual(len(found.labels), 30)

    def test_a_viewer_prints_a_page_in_its_own_size(self) -> None:
        """By default it fits pages to the paper."""
        support.needs("mutool", "qpdf")
        with tempfile.TemporaryDirectory() as folder:
            path = Path(folder, "labels.pdf")
            save_to(self.found, path, Talk())
            words = ["mutool", "show", str(path), "trailer/Root/ViewerPreferences"]
            shown = subprocess.run(words, capture_output=True, check=True).stdout
            self.assertEqual(b"".join(shown.split()), b"<</PrintScaling/None>>")
            checked = subprocess.run(["qpdf", "--check", path], capture_output=True, check=True)
            self.assertIn(b"No syntax or stream encoding errors", checked.stdout)

    def test_zpl_does_not_depend_on_what_others_have_set(self) -> None:
        """Its unit, a turn, a mirror, dots that are doubled, where it begins."""
        roll = planned(PrintOptions(paper=(60.0, 40.0), dpi=203, to="zpl"))
        for label in documents_of(labels_of(roll, "lines", self.data, Talk())):
            head, _, _ = label.partition(b"^PW")
            self.assertEqual(head, b"^XA^MUD^PON^PMN^JMA^LH0,0^LS0")


if __name__ == "__main__":
    unittest.main()
