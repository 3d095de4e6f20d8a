#!/usr/bin/python3
"""Draws the pictures of the pages that show what a setting does.

It writes setting-design.png, setting-turn.png, setting-edge.png, setting-shift.png and
tickets-torn.png. The labels in them are those that label-print draws; frames, arrows and words are
put around them. A run of `label-print` with the library is needed, so the pictures are made by
draw_pictures.sh.
"""

import argparse
import io
import subprocess
from dataclasses import dataclass
from pathlib import Path
from typing import Any

import cairo

import support

SCALE = 3.4  # pixels of a millimetre
DPI = 300
PAD = 14  # pixels around all
LETTERS = 13  # pixels high
Colour = tuple[float, float, float]
Point = tuple[float, float]
BLACK: Colour = (0, 0, 0)
WHITE: Colour = (1, 1, 1)
RED: Colour = (0.78, 0.1, 0.1)
PALE: Colour = (1, 0.82, 0.82)
GRAY: Colour = (0.55, 0.55, 0.55)
GROUND: Colour = (0.9, 0.91, 0.93)
HEFT: dict[str, Any] = {
    "title": "Heft „Größe A5“, kariert",
    "text": ["Art. 20-1187"],
    "price": "2,95 €",
    "was": "3,45 €",
    "unit": "1 kg = 5,98 €",
}
GOODS = support.file_of([("ean13 978020137962", HEFT)])
JAM = support.file_of([("ean13 400638133393", {"title": "Erdbeerkonfitüre", "price": "4,20 €"})])
ARTICLES = support.file_of(
    [("ean13 400638133393", {"title": "Bleistift 2B", "price": "0,80 €"})] * 4
)


@dataclass(frozen=True)
class Box:
    """A rectangle of paper in pixels."""

    x: float
    y: float
    width: float
    height: float


def drawn(lines: bytes, *options: str) -> cairo.ImageSurface:
    """The page that label-print draws of lines."""
    form = ("--to", "png", "--dpi", str(DPI))
    ran = support.run("label-print", *options, *form, input=lines)
    assert ran.stdout, ran.stderr.decode()
    return cairo.ImageSurface.create_from_png(io.BytesIO(ran.stdout))


class Picture:
    """A picture, in pixels, and what is put on it."""

    def __init__(self, width: float, height: float) -> None:
        self.surface = cairo.ImageSurface(cairo.FORMAT_RGB24, round(width), round(height))
        self.canvas = cairo.Context(self.surface)
        self.canvas.set_source_rgb(*GROUND)
        self.canvas.paint()
        self.canvas.select_font_face("DejaVu Sans")

    def fill(self, box: Box, colour: Colour) -> None:
        """Fills a rectangle."""
        self.canvas.set_source_rgb(*colour)
        self.canvas.rectangle(box.x, box.y, box.width, box.height)
        self.canvas.fill()

    def frame(self, box: Box, colour: Colour = GRAY, dashes: tuple[float, ...] = ()) -> None:
        """Draws the outline of a rectangle."""
        self.canvas.save()
        self.canvas.set_source_rgb(*colour)
        self.canvas.set_line_width(1.5)
        self.canvas.set_dash(dashes)
        self.canvas.rectangle(box.x, box.y, box.width, box.height)
        self.canvas.stroke()
        self.canvas.restore()

    def put(self, page: cairo.ImageSurface, corner: Point, within: Box) -> None:
        """Puts a page where its paper begins, and no more of it than is within a rectangle; what is
        white in it covers nothing.
        """
        pixels = SCALE * 25.4 / DPI
        self.canvas.save()
        self.canvas.rectangle(within.x, within.y, within.width, within.height)
        self.canvas.clip()
        self.canvas.translate(*corner)
        self.canvas.scale(pixels, pixels)
        self.canvas.set_operator(cairo.Operator.MULTIPLY)
        self.canvas.set_source_surface(page)
        self.canvas.get_source().set_filter(cairo.Filter.GOOD)
        self.canvas.paint()
        self.canvas.restore()

    def say(self, words: str, start: Point, colour: Colour = BLACK, is_bold: bool = False) -> None:
        """Writes words, from a point at their left."""
        weight = cairo.FontWeight.BOLD if is_bold else cairo.FontWeight.NORMAL
        self.canvas.select_font_face("DejaVu Sans", cairo.FontSlant.NORMAL, weight)
        self.canvas.set_font_size(LETTERS)
        self.canvas.set_source_rgb(*colour)
        self.canvas.move_to(*start)
        self.canvas.show_text(words)

    def arrow(self, start: Point, end: Point) -> None:
        """Draws a red arrow, which is level or upright."""
        (x, y), (to_x, to_y) = start, end
        length = max(abs(to_x - x), abs(to_y - y))
        along = (to_x - x) / length, (to_y - y) / length
        self.canvas.set_source_rgb(*RED)
        self.canvas.set_line_width(2)
        self.canvas.move_to(x, y)
        self.canvas.line_to(to_x - 6 * along[0], to_y - 6 * along[1])
        self.canvas.stroke()
        self.canvas.move_to(to_x, to_y)
        for side in (-4, 4):
            back = to_x - 8 * along[0] + side * along[1], to_y - 8 * along[1] + side * along[0]
            self.canvas.line_to(*back)
        self.canvas.close_path()
        self.canvas.fill()

    def write(self, path: Path) -> None:
        """Writes the picture, in few colours."""
        self.surface.write_to_png(str(path))
        small = "pngtopnm | pnmquant -quiet 32 | pnmtopng -quiet -compression 9"
        command = ["bash", "-c", f"set -o pipefail; {small}"]
        ran = subprocess.run(command, input=path.read_bytes(), capture_output=True, check=True)
        path.write_bytes(ran.stdout)


def paper(x: float, y: float, size: Point) -> Box:
    """A rectangle of paper of a size in millimetres."""
    return Box(x, y, size[0] * SCALE, size[1] * SCALE)


def show_design(path: Path) -> None:
    """One article in three designs."""
    shop = str(support.TOP / "designs/shelf-60x40.svg")
    designs = {"--design article": "article", "--design shelf": "shelf", "--design yours.svg": shop}
    size = 60.0, 40.0
    step = size[0] * SCALE + PAD
    picture = Picture(PAD + 3 * step, size[1] * SCALE + 3 * PAD + LETTERS)
    for number, (words, design) in enumerate(designs.items()):
        box = paper(PAD + number * step, 2 * PAD + LETTERS, size)
        picture.say(words, (box.x, box.y - PAD / 2), is_bold=True)
        picture.fill(box, WHITE)
        picture.put(drawn(GOODS, "--paper", "60x40", "--design", design), (box.x, box.y), box)
    picture.write(path)


DYMO = 35.6, 88.9
ENDS = "1.5,6,1.5,6"


def show_turn(path: Path) -> None:
    """A long label, upright and turned."""
    step = DYMO[0] * SCALE + 4 * PAD
    picture = Picture(2 * step - 2 * PAD, DYMO[1] * SCALE + 3 * PAD + LETTERS)
    for number, turn in enumerate(("no", "yes")):
        box = paper(PAD + number * step, 2 * PAD + LETTERS, DYMO)
        picture.say(f"--turn {turn}", (box.x, box.y - PAD / 2), is_bold=True)
        picture.fill(box, WHITE)
        page = drawn(JAM, "--paper", "35.6x88.9", "--turn", turn, "--edge", ENDS)
        picture.put(page, (box.x, box.y), box)
    picture.write(path)


def show_edge(path: Path) -> None:
    """What a printer does not print at both ends of a label, and a label that keeps it free."""
    side, top = 1.5 * SCALE, 6 * SCALE
    step = DYMO[0] * SCALE + 9 * PAD
    picture = Picture(PAD + 2 * step + 2 * PAD, DYMO[1] * SCALE + 3 * PAD + LETTERS)
    for number, options in enumerate(((), ("--edge", ENDS))):
        box = paper(PAD + number * step, 2 * PAD + LETTERS, DYMO)
        inner = Box(box.x + side, box.y + top, box.width - 2 * side, box.height - 2 * top)
        picture.say(" ".join(options) or "without --edge", (box.x, box.y - PAD / 2), is_bold=True)
        picture.fill(box, PALE)
        picture.fill(inner, WHITE)
        page = drawn(JAM, "--paper", "35.6x88.9", "--turn", "yes", *options)
        picture.put(page, (box.x, box.y), inner)
        picture.frame(box)
        right = box.x + box.width + 6
        if not options:
            picture.say("not printed:", (right, box.y + top / 2), RED)
            picture.say("the code is cut", (right, box.y + top / 2 + LETTERS + 3), RED)
            continue
        picture.say("LEFT 1.5", (box.x - 5 * PAD, box.y + box.height / 2), RED)
        picture.say("TOP 6", (right, box.y + top / 2 + 5), RED)
        picture.say("RIGHT 1.5", (right, box.y + box.height / 2), RED)
        picture.say("BOTTOM 6", (right, box.y + box.height - top / 2 + 5), RED)
    picture.write(path)


def show_shift(path: Path) -> None:
    """A sheet that the printer feeds off centre, and the same sheet with --shift."""
    cell, count, off = (70.0, 37.0), 2, (-3.0, 4.0)
    shown = Box(0, 0, 1.62 * cell[0] * SCALE, 2.15 * cell[1] * SCALE)
    picture = Picture(3 * PAD + 2 * shown.width, shown.height + 3 * PAD + LETTERS)
    grid = ("--grid", "3x8", "--cell", "70x37")
    for number, shift in enumerate(((), ("--shift=3,-4",))):
        box = Box(PAD + number * (shown.width + PAD), 2 * PAD + LETTERS, shown.width, shown.height)
        picture.say(" ".join(shift) or "without --shift", (box.x, box.y - PAD / 2), is_bold=True)
        picture.fill(box, WHITE)
        corner = box.x + off[0] * SCALE, box.y + off[1] * SCALE
        page = drawn(ARTICLES, *grid, *shift)
        picture.put(page, corner, box)
        picture.canvas.save()
        picture.canvas.rectangle(box.x, box.y, box.width, box.height)
        picture.canvas.clip()
        for place in range(2 * count):
            left, down = place % count * cell[0], place // count * cell[1] + 0.5
            outline = paper(box.x + left * SCALE, box.y + down * SCALE, cell)
            picture.frame(outline, GRAY, (5, 4))
        picture.canvas.restore()
        if not shift:
            free = box.x + 1.06 * cell[0] * SCALE, box.y + 1.4 * cell[1] * SCALE
            picture.say("3 mm to the right", (free[0], free[1]), RED)
            picture.arrow((free[0], free[1] + 9), (free[0] + 3 * SCALE + 30, free[1] + 9))
            picture.say("4 mm up", (free[0] + 14, free[1] + 48), RED)
            picture.arrow((free[0] + 4, free[1] + 60), (free[0] + 4, free[1] + 30))
    picture.write(path)


def show_tickets(path: Path) -> None:
    """The last tickets before a paper jam."""
    size, step = (60.0, 40.0), 60 * SCALE + PAD
    words = ("35: the last good one", "36: torn, print it again", "37: not there, print it again")
    picture = Picture(PAD + 3 * step, size[1] * SCALE + 3 * PAD + LETTERS)
    for number, said in enumerate(words):
        box = paper(PAD + number * step, 2 * PAD + LETTERS, size)
        picture.say(said, (box.x, box.y - PAD / 2), BLACK if number == 0 else RED, number == 0)
        if number == 2:
            picture.frame(box, GRAY, (5, 4))
            continue
        ticket = [(f"qr T-00{35 + number}", {"title": f"Seat {35 + number}"})]
        page = drawn(support.file_of(ticket), "--paper", "60x40")
        picture.canvas.save()
        if number == 1:
            tear(picture.canvas, box)
        picture.fill(box, WHITE)
        picture.put(page, (box.x, box.y), box)
        picture.canvas.restore()
    picture.write(path)


def tear(canvas: cairo.Context, box: Box) -> None:
    """Leaves only the left part of a ticket, up to a line as paper tears."""
    canvas.move_to(box.x, box.y)
    for step in range(13):
        across = 0.56 + (0.05 if step % 2 else -0.03) + 0.012 * (step * 5 % 7)
        canvas.line_to(box.x + across * box.width, box.y + step / 12 * box.height)
    canvas.line_to(box.x, box.y + box.height)
    canvas.close_path()
    canvas.clip()


def main() -> None:
    """Writes the pictures into the folder that is given."""
    parser = argparse.ArgumentParser(description=__doc__)
    parser.add_argument("folder", metavar="FOLDER", type=Path, help="where the pictures go")
    folder = parser.parse_args().folder
    show_design(folder / "setting-design.png")
    show_turn(folder / "setting-turn.png")
    show_edge(folder / "setting-edge.png")
    show_shift(folder / "setting-shift.png")
    show_tickets(folder / "tickets-torn.png")


if __name__ == "__main__":
    main()
