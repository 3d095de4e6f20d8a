"""Where labels would be cut at the edges of a paper. Lengths are in millimetres."""

import math
from itertools import cycle, islice

from labeltools.common.messages import BAD_ARGUMENTS, Remedy, ToolError
from labeltools.common.text import counted, Text
from labeltools.paper.box import Box
from labeltools.paper.plan import Dots
from labeltools.printing.job import AS_GIVEN
from labeltools.printing.press import Prepared
from labeltools.sending.papers import PrinterPaper

HIDDEN = 0.2  # of a label that may be on the white edge: drivers round to points
KEEP_AWAY = Text("keep labels away from the edge")


def check_edges(printer: str, paper: PrinterPaper, found: Prepared) -> None:
    """Raises `ToolError` where codes or letters are on the edges of a paper on which a printer
    prints nothing, or where these are general ones and not taken as given.
    """
    if paper.is_general and found.job.options.is_paper_as_given:
        return
    plan, area = found.job.plan, found.laid_out.area
    left, top = (round((side - HIDDEN) / plan.dot) for side in paper.white[:2])
    right = plan.page[0] - round((paper.white[2] - HIDDEN) / plan.dot)
    bottom = plan.page[1] - round((paper.white[3] - HIDDEN) / plan.dot)

    def is_cut(box: Box, place: Dots) -> bool:
        on_page = box.turned(area.height) if area.is_turned else box
        across, down = place[0] + on_page.left, place[1] + on_page.top
        is_in = left <= across and top <= down and across + on_page.width <= right
        return not (is_in and down + on_page.height <= bottom)

    whole = Box(0, 0, area.width, area.height)
    near = {place for place in plan.places if is_cut(whole, place)}
    places = cycle(plan.places)
    used = zip(found.prints, islice(places, found.job.options.first - 1, None)) if near else ()
    cut = sum(
        place in near and any(is_cut(box, place) for box in item.boxes()) for item, place in used
    )
    if cut:
        # drivers name edges beyond the paper, too
        edges = ",".join(f"{max(0, math.ceil(10 * side)) / 10:g}" for side in paper.white)
        raise cut_error(printer, cut, edges, paper.is_general)


def cut_error(printer: str, count: int, edges: str, is_general: bool) -> ToolError:
    """Returns that a printer would cut labels at its edges, or may if it does not say its own."""
    edge = Remedy("edge", edges, KEEP_AWAY)
    if not is_general:
        cut = counted("{} label would be cut", "{} labels would be cut", count)
        where = Text("{} prints nothing on the edge of this paper", printer)
        what = Text("{}: {}", where, cut)
        return ToolError(what, status=BAD_ARGUMENTS, remedies=(edge,))
    may = counted("{} label may be cut", "{} labels may be cut", count)
    where = Text("{} does not say how near to the edge it prints", printer)
    what = Text("{}: {}", where, may)
    return ToolError(what, status=BAD_ARGUMENTS, remedies=(AS_GIVEN, edge))
