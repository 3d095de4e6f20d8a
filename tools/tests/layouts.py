#!/usr/bin/python3
"""Draws the pictures of designs/README.md that show labels of many sizes and contents.

It writes layouts-article.png and layouts-shelf.png, a picture for each design, in which labels are
drawn as label-print draws them in dots. A test reads each of these labels back.
"""

import argparse
import subprocess
from dataclasses import dataclass
from pathlib import Path
from typing import Any, Sequence

import cairo
import numpy

import support
from labeltools.paper import plan
from laying import laid_out

SCALE = 2.7  # pixels of a millimetre
WIDTH = 1000  # pixels
MARGIN = 6
NAME = 12  # pixels above a label, for its size
GRAY = 2 / 3
Labels = Sequence[tuple[str, dict[str, Any] | None]]
HEFT: dict[str, Any] = {
    "title": "Heft „Größe A5“, kariert, 32 Blatt mit Rand und Umschlag",
    "text": ["Art. 20-1187"],
    "price": "12,80 €",
    "was": "14,95 €",
    "unit": "1 kg = 5,98 €",
}
SEIFE = {"title": "Seife aus Übersee", "price": "2,95 €", "unit": "1 l = 11,80 €"}
MIXED: Labels = [
    ("ean13 978020137962", HEFT),
    ("upca 03600029145", {**SEIFE, "text": ["Art. 36-0002"]}),
    ("ean8 7351353", {"title": "Kaugummi", "price": "0,30 €", "text": ["Art. 7"]}),
    ("code128 LOT 7", {"title": "鉛筆 やわらかい 2B 赤", "price": "1,10 €"}),
    ("ean13 501234567890", {"title": "قلم رصاص ناعم", "price": "3,20 €"}),
]
QR: Labels = [
    ("qr https://example.com/artikel/20-1187", {**HEFT, "unit": ""}),
    ("qr https://example.com/" + "artikel/" * 9, SEIFE),
]
PLAIN: Labels = [
    ("ean13 978020137962", {"title": HEFT["title"], "text": HEFT["text"]}),
    ("ean13 400638133393", {"title": "Bleistift"}),
]
BARE: Labels = [("code128 SKU-10234", {})]
TINY: Labels = [("qr A7", {"title": "Ohrringe", "price": "29,00 €"})]
LONG: Labels = [("code128 ABCDEFGHIJKLMNOPQ", HEFT)]
PIANO = {"title": "Klavier, gebraucht", "price": "12.499,00 €"}
BOOK = {"title": "Heft", "price": "2,95 €"}
BOOKS = [(f"ean13 40063813{number:04}", BOOK) for number in range(11)]
WIDE: Labels = [("ean13 400638133393", PIANO), *BOOKS]


@dataclass(frozen=True)
class Case:
    """Labels of a file, the size of the label in millimetres, the dots an inch, how many of the
    labels are shown, and whether the paper is a roll.
    """

    labels: Labels
    size: tuple[float, float]
    dpi: int
    count: int
    is_roll: bool = True


CASES = (
    Case(MIXED, (40, 30), 300, 4),
    Case(QR, (40, 30), 300, 2),
    Case(PLAIN, (40, 30), 300, 1),
    Case(MIXED, (50, 25), 203, 5),
    Case(QR, (50, 25), 300, 1),
    Case(PLAIN, (50, 25), 300, 1),
    Case(MIXED, (57, 32), 300, 3),
    Case(QR, (57, 32), 300, 2),
    Case(MIXED, (60, 40), 203, 1),
    Case(MIXED, (60, 40), 300, 5),
    Case(QR, (60, 40), 300, 2),
    Case(PLAIN, (60, 40), 300, 2),
    Case(WIDE, (60, 40), 300, 2),
    Case(MIXED, (63.5, 38.1), 600, 3, False),
    Case(MIXED, (70, 37), 600, 2, False),
    Case(MIXED, (38.1, 21.2), 600, 3, False),
    Case(TINY, (20, 10), 300, 1),
    Case(WIDE, (60, 13), 300, 2),
    Case(MIXED, (100, 30), 300, 2),
    Case(QR, (100, 30), 300, 1),
    Case(PLAIN, (100, 30), 300, 1),
    Case(BARE, (100, 30), 300, 1),
    Case(QR, (38, 38), 300, 1),
    Case(MIXED, (105, 74), 300, 1),
    Case(MIXED, (36, 89), 300, 3),
    Case(QR, (36, 89), 300, 1),
    Case(LONG, (36, 89), 300, 1),
    Case(MIXED, (105, 148), 300, 1),
)


class Sheet:
    """A picture of labels, one beside another and below one another."""

    def __init__(self) -> None:
        self.surface = cairo.ImageSurface(cairo.FORMAT_RGB24, WIDTH, 4 * WIDTH)
        self.canvas = cairo.Context(self.surface)
        self.canvas.set_source_rgb(GRAY, GRAY, GRAY)
        self.canvas.paint()
        self.x = self.y = self.next = MARGIN

    def add(self, dots: Any, dpi: int) -> None:
        """Adds a label with a millimetre of white around the area in which it has ink."""
        dot = plan.MILLIMETRES / dpi
        height, width = (length * dot + 2 * plan.PAD for length in dots.shape)
        if self.x + width * SCALE > WIDTH - MARGIN:
            self.x = MARGIN
            self.y = self.next
        canvas = self.canvas
        canvas.set_source_rgb(0, 0, 0)
        canvas.move_to(self.x, self.y + NAME - 3)
        canvas.show_text(f"{width:.0f} x {height:.0f}")
        canvas.set_source_rgb(1, 1, 1)
        canvas.rectangle(self.x, self.y + NAME, width * SCALE, height * SCALE)
        canvas.fill()
        canvas.save()
        canvas.translate(self.x + plan.PAD * SCALE, self.y + NAME + plan.PAD * SCALE)
        canvas.scale(dot * SCALE, dot * SCALE)
        canvas.set_source_rgb(0, 0, 0)
        mask = cairo.SurfacePattern(surface_of(dots))
        mask.set_filter(cairo.Filter.GOOD)
        canvas.mask(mask)
        canvas.restore()
        self.next = max(self.next, round(self.y + NAME + height * SCALE + MARGIN))
        self.x += round(width * SCALE) + MARGIN

    def write(self, path: Path) -> None:
        """Writes the picture, as high as it is filled, in four shades of gray."""
        data = self.surface.get_data()[: self.next * self.surface.get_stride()]
        cut = cairo.ImageSurface.create_for_data(data, cairo.FORMAT_RGB24, WIDTH, self.next)
        cut.write_to_png(str(path))
        small = "pngtopnm | ppmtopgm | pamdepth 3 | pnmtopng -quiet -compression 9"
        command = ["bash", "-c", f"set -o pipefail; {small}"]
        ran = subprocess.run(command, input=path.read_bytes(), capture_output=True, check=True)
        path.write_bytes(ran.stdout)


def surface_of(dots: Any) -> cairo.ImageSurface:
    """Dots as a mask."""
    height, width = dots.shape
    stride = cairo.ImageSurface.format_stride_for_width(cairo.FORMAT_A8, width)
    data = bytearray(numpy.pad(255 * dots, ((0, 0), (0, stride - width))).tobytes())
    bits = memoryview(data)
    return cairo.ImageSurface.create_for_data(bits, cairo.FORMAT_A8, width, height, stride)


def main() -> None:
    """Writes both pictures into the folder that is given."""
    parser = argparse.ArgumentParser(description=__doc__)
    parser.add_argument("folder", metavar="FOLDER", type=Path, help="where the pictures go")
    folder = parser.parse_args().folder
    for design in ("article", "shelf"):
        sheet = Sheet()
        for case in CASES:
            data = support.file_of(case.labels)
            laid = laid_out(data, case.size, case.dpi, design=design, is_roll=case.is_roll)
            for item in laid.labels[: case.count]:
                sheet.add(laid.dots(item), case.dpi)
        sheet.write(folder / f"layouts-{design}.png")


if __name__ == "__main__":
    main()
