"""Labels of a file as they are laid out and drawn, for tests."""

import itertools
import unittest
from dataclasses import dataclass
from typing import Any, Sequence

import jobs
from labeltools.common.messages import Talk
from labeltools.drawing.dots import drawn_page
from labeltools.drawing.pen import Pen
from labeltools.layout.layout import LaidOut, PlacedText
from labeltools.layout.medium import Medium
from labeltools.paper.box import Box
from labeltools.printing.job import Job, planned, PrintOptions
from labeltools.printing.press import labels_of, Prepared
from reading import fault_of

AROUND = 40  # dots of white in which ink would be seen that leaves the area
NO_EDGES = (0.0, 0.0, 0.0, 0.0)


@dataclass(frozen=True)
class Laid:
    """Labels that are laid out, and what draws them in dots."""

    job: Job
    prepared: Prepared
    pen: Pen

    @property
    def labels(self) -> Sequence[LaidOut]:
        """The labels that have a layout."""
        return self.prepared.laid_out.labels

    @property
    def reasons(self) -> list[str]:
        """Why others have none."""
        return [str(record.problem.line) for record in self.prepared.left_out]

    def millimetres(self, dots: float) -> float:
        """A length in millimetres."""
        return dots * self.prepared.laid_out.area.dot

    def fault(self, item: LaidOut) -> str | None:
        """What is wrong with a label as it is drawn, if anything."""
        return fault_of(item, self.prepared.laid_out.area, self.pen)

    def dots(self, item: LaidOut, around: int = 0, is_turned: bool = False) -> jobs.Dots:
        """The dots of a label with white around its area."""
        area = self.prepared.laid_out.area
        size = area.width + 2 * around, area.height + 2 * around
        turn = 0
        if is_turned:
            size = size[::-1]
            turn = area.height
        picture = drawn_page(size, self.pen, [(item, (around, around))], turn)
        return jobs.bits_of(list(picture.rows), picture.width)


def laid_out(data: bytes, cell: tuple[float, float], dpi: int = 300, **options: Any) -> Laid:
    """The labels of a file on a sheet of one cell; with `is_roll` on a roll."""
    if options.pop("is_roll", False):
        sheet = PrintOptions(paper=cell, dpi=dpi, to="pbm", **options)
    else:
        sheet = PrintOptions(
            cell=cell, grid=(1, 1), paper=cell, edge=NO_EDGES, dpi=dpi, to="pbm", **options
        )
    job = planned(sheet)
    prepared = labels_of(job, "lines", data, Talk())
    return Laid(job, prepared, Pen(Medium(dpi, True), prepared.pens[0].letters, job.design))


def documents_of(found: Prepared) -> list[bytes]:
    """What goes out of labels: files that are whole by themselves."""
    press = found.press(Talk())
    parts = enumerate(press.batches(found.prints))
    return [press.document(part, number == 0) for number, part in parts]


def texts_in(item: LaidOut) -> dict[str, PlacedText]:
    """The texts of a label of a built-in design, by their parts."""
    return {text.place.part: text for text in item.texts}


def sizes_of(item: LaidOut) -> dict[str, int]:
    """The letters of the parts of a label of a built-in design."""
    return {part: text.style.size for part, text in texts_in(item).items()}


def boxes_of(item: LaidOut) -> dict[str, Box]:
    """Where the parts of a label of a built-in design are in its area; a part that has room in the
    box of another one has none of its own.
    """
    (symbol,) = item.symbols
    left, top = symbol.box.left, symbol.box.top
    found = {
        name: box._replace(left=left + box.left, top=top + box.top)
        for name, box in symbol.boxes.items()
    }
    for part, text in texts_in(item).items():
        if not any(is_inside(text.box, box) for box in found.values()):
            found[part] = text.box
    return found


def is_inside(box: Box, other: Box) -> bool:
    """Whether a box is in another one."""
    is_across = other.left <= box.left and box.right <= other.right
    return is_across and other.top <= box.top and box.bottom <= other.bottom


def look(test: unittest.TestCase, laid: Laid, item: LaidOut) -> None:
    """The ink of each part of a label is in its box; boxes do not overlap, none leaves the area,
    and none is without ink.
    """
    area = laid.prepared.laid_out.area
    boxes = boxes_of(item)
    dots = laid.dots(item, AROUND)
    inside = dots[AROUND : AROUND + area.height, AROUND : AROUND + area.width]
    what = (item.record.texts, boxes)
    test.assertEqual(dots.sum(), inside.sum(), what)
    for box in boxes.values():
        test.assertGreaterEqual(min(box.left, box.top), 0, what)
        test.assertLessEqual(box.right, area.width, what)
        test.assertLessEqual(box.bottom, area.height, what)
        test.assertTrue(inside[box.top : box.bottom, box.left : box.right].any(), what)
    for box, other in itertools.combinations(boxes.values(), 2):
        is_beside = box.right <= other.left or other.right <= box.left
        is_below = box.bottom <= other.top or other.bottom <= box.top
        test.assertTrue(is_beside or is_below, (box, other, what))
    for box in boxes.values():
        inside[box.top : box.bottom, box.left : box.right] = 0
    test.assertFalse(dots.any(), what)
