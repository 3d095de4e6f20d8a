"""Shows pages and labels on a screen, by the code that prints them. Lengths are in millimetres."""

import math
from dataclasses import replace
from typing import Any

import cairo

from labeltools.common.messages import Talk
from labeltools.drawing.dots import drawn_surface
from labeltools.drawing.pen import Pen
from labeltools.layout.layout import Page
from labeltools.layout.letters import Letters
from labeltools.layout.medium import Medium
from labeltools.printing.press import Prepared, Press

USED = (0.90, 0.91, 0.92)
EDGE = (0.80, 0.83, 0.87)
FRAME = (0.21, 0.52, 0.89)
LARGE = 0.94  # of the page: a label that is shown large


class Preview:
    """Draws pages, or each label as it is in the first cell of a page. It belongs to the thread
    that made it.
    """

    def __init__(self, labels: Prepared, is_single: bool = False) -> None:
        job = labels.job
        self.prints = labels.prints
        self.sheet = job.plan.sheet
        self.size = self.sheet.page
        self.corner = (0.0, 0.0)
        self.is_single = is_single
        if is_single:
            job = replace(
                job,
                plan=replace(job.plan, places=job.plan.places[:1]),
                options=replace(job.options, first=1),
            )
            self.prints = labels.labels
            self.size = self.sheet.cell
            self.corner = self.sheet.places[0]
        self.count = max(1, job.pages_of(len(self.prints)))  # of pages
        screen = Medium(job.plan.dpi, not job.form.is_drawn, is_smooth=job.form.is_drawn)
        pen = Pen(screen, Letters(job.options.font), job.design)
        self.press = Press(job, labels.laid_out, [pen], Talk())

    def cell_at(self, x: float, y: float) -> int:
        """Returns the number of the cell at a place of a page, from 1; 0 for none."""
        width, height = self.sheet.cell
        for number, (left, top) in enumerate(self.sheet.places, 1):
            if 0 <= x - left < width and 0 <= y - top < height:
                return number
        return 0

    def page_of(self, row: str) -> int:
        """Returns the number of the page, from 1, that has the label of a row; 0 for none."""
        for number, item in enumerate(self.prints, 1):
            if str(item.record.origin.number) == row:
                return self.press.job.pages_of(number)
        return 0

    def draw(self, canvas: Any, number: int) -> None:
        """Draws a page, from 1 on, on a canvas whose unit is a millimetre; used cells are grey."""
        job = self.press.job
        canvas.set_source_rgb(1, 1, 1)
        canvas.paint()
        canvas.translate(-self.corner[0], -self.corner[1])
        canvas.set_line_width(canvas.device_to_user_distance(1, 1)[0])
        for cell, place in enumerate(self.sheet.places, 1):
            canvas.rectangle(*place, *self.sheet.cell)
            if number == 1 and cell < job.options.first:
                canvas.set_source_rgb(*USED)
                canvas.fill_preserve()
            canvas.set_source_rgb(*EDGE)
            canvas.stroke()
        canvas.set_source_rgb(0, 0, 0)
        canvas.scale(job.plan.dot, job.plan.dot)
        page = self.press.page(number - 1, self.prints)
        if job.form.is_drawn:
            self.press.draw(canvas, page)
        else:
            self.draw_seen_dots(canvas, page)

    def draw_large(self, canvas: Any, number: int, cell: int) -> None:
        """Draws the label in a cell of a page large, on the half of the page that it is not on."""
        place = (number - 1) * len(self.sheet.places) + cell - self.press.job.options.first
        (left, top), (width, height) = self.sheet.places[cell - 1], self.sheet.cell
        scale = LARGE * min(self.size[0] / width, self.size[1] / 2 / height)
        if scale < 1 or not 0 <= place < len(self.prints):
            return
        is_above = top + height / 2 < self.size[1] / 2
        middle = self.size[1] * (0.75 if is_above else 0.25)
        canvas.save()
        canvas.translate(self.size[0] / 2, middle)
        canvas.scale(scale, scale)
        canvas.rectangle(-width / 2, -height / 2, width, height)
        canvas.set_source_rgb(*FRAME)
        canvas.set_line_width(canvas.device_to_user_distance(4, 4)[0])
        canvas.stroke_preserve()
        canvas.clip()
        canvas.translate(-left - width / 2, -top - height / 2)
        self.draw(canvas, number)
        canvas.restore()

    def draw_seen_dots(self, canvas: Any, page: Page) -> None:
        """Draws the dots that are seen, on a canvas whose unit is a dot."""
        left, top, right, bottom = (math.floor(side) for side in canvas.clip_extents())
        size = right - left + 1, bottom - top + 1
        seen = [(item, (x - left, y - top)) for item, (x, y) in page]
        surface = drawn_surface(size, self.press.pen, seen, self.press.turn)
        pattern = cairo.SurfacePattern(surface)
        if canvas.user_to_device_distance(1, 1)[0] >= 2:
            pattern.set_filter(cairo.Filter.NEAREST)
        canvas.translate(left, top)
        canvas.mask(pattern)
