"""The drawing of a page of SVG below labels. Lengths are in dots."""

from functools import cache
from math import ceil
from typing import Any

import cairo

from labeltools.designs.design import Below
from labeltools.designs.svg_design import SvgDesign
from labeltools.layout.layout import Page
from labeltools.layout.medium import Medium
from labeltools.layout.place import Place, Sides
from labeltools.paper.plan import Dots, MILLIMETRES, POINTS

UPRIGHT = cairo.Matrix()


class Background(Below):
    """The drawing of a design on a medium."""

    def __init__(self, design: SvgDesign, medium: Medium) -> None:
        self.design = design
        self.medium = medium
        # dots of a unit of the drawing: in points Cairo does not scale it for each label of a PDF,
        # and loses no gradients, but what librsvg makes pictures of has as few dots
        is_in_points = medium.is_pdf and design.page.tags.isdisjoint(("filter", "mask"))
        self.unit = medium.dpi / POINTS if is_in_points else 1.0
        self.size = tuple(max(1, int(side * medium.dpi / MILLIMETRES)) for side in design.label)
        if medium.is_dots:
            design.page.check_dots(*self.size)
        self.tinted: set[Sides] = set()  # of places that have dots of a tint behind them
        self.recorded = cache(self.new_recorded)
        self.dots = cache(self.new_dots)
        # Ghostscript and MuPDF show a pattern in all places as it is in the first one
        self.has_patterns = medium.is_pdf and "pattern" in design.page.tags

    def new_recorded(self, absent: frozenset[str], _: Dots | None) -> cairo.RecordingSurface | None:
        """Returns the drawing without some parts as it is, up to the edges of a label, which a file
        has once, or once for each place that is given; None where there is no ink.
        """
        scale = self.medium.dpi / self.unit / MILLIMETRES
        area = cairo.Rectangle(0, 0, *(side * scale for side in self.design.label))
        surface = cairo.RecordingSurface(cairo.CONTENT_COLOR_ALPHA, area)
        canvas = cairo.Context(surface)
        canvas.rectangle(*area)
        canvas.clip()
        self.design.draw(canvas, scale, absent)
        return surface if min(surface.ink_extents()[2:]) > 0 else None

    def new_dots(self, absent: frozenset[str], size: Dots | None) -> cairo.ImageSurface | None:
        """Returns the drawing without some parts in black dots, on a page of a size if that is
        given; None where there is no ink.
        """
        from labeltools.designs.black_dots import BlackDots  # Pillow takes 40 ms, in PDF too

        wide, high = self.size
        scale = wide / self.design.label[0]
        light = self.design.light(scale, absent, wide, high)
        ends = {place: ends_of(place, scale) for place in self.design.places}
        drawing = BlackDots(light, (wide, high), [ends[place] for place in ends if place.is_symbol])
        self.tinted.update(place.sides for place in ends if drawing.is_tinted(ends[place]))
        has_ink = drawing.picture.getextrema()[0] == 0
        return drawing.surface(size or (wide, high)) if has_ink else None

    def draw(self, canvas: Any, page: Page) -> None:
        """Draws what is alike on the labels of a page."""
        is_dots = self.medium.is_dots
        is_first = is_dots and [place for _, place in page] == [(0, 0)]
        if is_first and canvas.get_matrix() == UPRIGHT:
            self.begin(canvas.get_target(), page[0][0].absent)
            return
        for item, place in page:
            own = place if self.has_patterns else None
            drawing = self.dots(item.absent, None) if is_dots else self.recorded(item.absent, own)
            if drawing:
                canvas.save()
                canvas.translate(*place)
                canvas.scale(self.unit, self.unit)
                if is_dots:  # which takes a quarter of the time of a mask
                    canvas.set_operator(cairo.Operator.ADD)
                canvas.set_source_surface(drawing)
                canvas.paint()
                canvas.restore()

    def is_tinted(self, place: Place) -> bool:
        """Returns whether dots of a tint are drawn in a place."""
        return place.sides in self.tinted

    def begin(self, page: cairo.ImageSurface, absent: frozenset[str]) -> None:
        """Copies the drawing to a page that is one label: Cairo would be slow."""
        drawing = self.dots(absent, (page.get_width(), page.get_height()))
        if drawing:
            page.flush()
            page.get_data()[:] = drawing.get_data()
            page.mark_dirty()


def ends_of(place: Place, scale: float) -> tuple[int, int, int, int]:
    """Returns the left, upper, right and lower ends of a place, in so many dots a millimetre."""
    ends = (place.left, place.top, place.left + place.width, place.top + place.height)
    left, top, right, bottom = (ceil(end * scale) for end in ends)
    return left, top, right, bottom
