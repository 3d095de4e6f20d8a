"""What label-print is asked for, and how labels go out by that.

    options = PrintOptions(paper=(60.0, 40.0), dpi=203, to="zpl")
    labels = labels_of(planned(options), "articles.lines", data, talk)
    Sender(labels.job, StandardOutput(is_direct=True)).send_all(labels, talk)
"""

import re
from dataclasses import dataclass, replace
from typing import Iterable, Sequence

from labeltools.common.messages import BAD_ARGUMENTS, Problem, Remedy, ToolError
from labeltools.common.text import counted, NOTHING, Text
from labeltools.designs.built_in import BuiltIn
from labeltools.designs.design import Design
from labeltools.designs.svg_design import is_file, read_design, size_of_page
from labeltools.designs.svg_layout import SvgLabels
from labeltools.drawing.forms import ESCPOS, Form, FORMS, PDF
from labeltools.layout.area import Area, ARTICLE, NO_PURPOSE, PURPOSES, Wishes
from labeltools.layout.letters import FONT
from labeltools.lines.file import UNPRINTABLE
from labeltools.paper.plan import Edges, Plan, plan_of, unprinted_edges, whole_plan_of
from labeltools.paper.sizes import A4
from labeltools.paper.stock import Grid, grid_sheet, Sheet, Size, stock_sheet
from labeltools.printing.selection import Selection

NO_GAP = (0.0, 0.0)
EDGE = 5.0  # millimetres at the edge of a page of several labels where most printers print nothing
LABELS_DPI = 203  # of most label printers and receipt printers
DRAWING_DPI = 600
USUAL_DPI = (LABELS_DPI, 300, DRAWING_DPI)  # of label printers, and of others
MOST_DPI = 2400
RECEIPT_DOTS = 576  # across paper of 80 mm
AS_GIVEN = Remedy("paper-as-given", says=Text("print on this paper"))
NO_GRID = Problem(
    Text("the grid is not known"),
    Text("give the size of a cell, and how many there are"),
    tuple(map(Remedy, ("cell", "grid"))),
)
NO_PAPER = Problem(
    Text("the paper is not known"),
    Text("choose a sheet by its name, a size, or a design of SVG"),
    tuple(map(Remedy, ("stock", "paper", "cell", "design"))),
)
# options that do something only for a grid, or for receipt printers
OF_GRID = ("cell", "grid", "margin", "gap")
OF_RECEIPT = ("dots", "is_cut")
OPTIONS = {"is_cut": "no-cut"}
LIST, IS_PRINTED, _ = STATES = ("list", "printed", "missing")
ENDING = re.compile(r"\.([a-z]\w*)\Z", re.IGNORECASE)  # of the name of a file
LEAVE_OUT = Text("leave it out")


@dataclass(frozen=True)
class PrintOptions:
    """What is asked for: the arguments of label-print. Lengths are in millimetres; None is what was
    not given, and what suits the form and the paper.

    `stock` names the sheet, or `paper` is a label; or `paper` is the page of a grid: the size of a
    `cell`, and how many are side by side and below one another. `only` are the labels that are
    printed, and `after` of them are on paper already; `note` is a line of text for all labels;
    `is_escaped` is --escapes of labels(1); `state` is what is said of labels in doubt, or that all
    are listed; `queue` is any printer, and `is_paper_as_given` whether it takes the paper to its
    edges, even if its driver does not say so.
    """

    lines: str | None = None
    list_stock: str | None = None
    stock: str | None = None
    paper: Size | None = None
    cell: Size | None = None
    grid: tuple[int, int] | None = None
    margin: Size | None = None
    gap: Size | None = None
    edge: Edges | None = None
    shift: Size = (0.0, 0.0)
    design: str = ARTICLE.name
    turn: bool | None = None
    module: float | None = None
    note: str = ""
    font: str = FONT
    has_raised_cents: bool = True
    first: int = 1
    only: Selection = Selection()
    after: int = 0
    is_escaped: bool = False
    to: str | None = None
    dpi: int | None = None
    each: str | None = None
    queue: str | None = None
    is_paper_as_given: bool = False
    journal: str | None = None
    again: str | None = None
    state: str | None = None
    is_stream: bool = False
    dots: int | None = None
    is_cut: bool = True
    is_summed: bool = False

    @property
    def is_sent_singly(self) -> bool:
        """Whether labels are sent one by one, to a printer or with a journal."""
        return self.journal is not None or is_direct(self.queue or "")

    @property
    def is_grid(self) -> bool:
        """Whether the sheet is a grid of cells, and none of the list."""
        return self.stock is None and bool(self.cell or self.grid)

    def given(self, names: Sequence[str]) -> Sequence[str]:
        """Returns the options with these names that were given."""
        found = [name for name in names if getattr(self, name) != getattr(PrintOptions, name)]
        return [OPTIONS.get(name, name) for name in found]


@dataclass(frozen=True)
class Job:
    """How labels go out: what is asked for, on which sheet, in which room for each, in which form
    and design.
    """

    options: PrintOptions
    plan: Plan
    area: Area
    form: Form
    design: Design

    @property
    def is_each(self) -> bool:
        """Whether each label is a file."""
        return self.options.each is not None

    def pages_of(self, labels: int) -> int:
        """Returns how many pages so many labels take."""
        return -(-(labels + self.options.first - 1) // len(self.plan.places))


def planned(options: PrintOptions) -> Job:
    """Returns how labels go out; raises `ToolError` where options do not go together."""
    form = form_of(options)
    check_together(options, form)
    if is_file(options.design) and not (options.stock or options.paper or options.is_grid):
        options = replace(options, paper=size_of_page(options.design))
    dpi = options.dpi or DRAWING_DPI
    sheet = sheet_of(options, form)
    edges = options.edge
    if edges is None:
        edge = 0.0 if sheet.is_single else EDGE
        edges = edge, edge, edge, edge
    is_roll = options.paper is not None and not options.is_grid
    has_raised_cents = options.has_raised_cents and options.font == FONT
    wishes = (options.module, options.turn, is_roll, has_raised_cents)
    if is_file(options.design):
        white = unprinted_edges(sheet, edges)
        design: Design = SvgLabels(read_design(options.design, sheet.cell, white, options.turn))
        purpose, plan = NO_PURPOSE, whole_plan_of(sheet, dpi)
    else:
        design = BuiltIn()
        purpose, plan = PURPOSES[options.design], plan_of(sheet, dpi, edges)
    area = Area(*plan.room, plan.dot, Wishes(purpose, *wishes))
    dots = options.dots or RECEIPT_DOTS
    wide = (plan.page[0], dots)
    too_wide = Text("a label is {} dots wide, and the printer has {}", *wide)
    is_too_wide = form == ESCPOS and plan.page[0] > dots
    refuse(is_too_wide, too_wide, Text("take narrower labels"), ("dpi", "dots"))
    return Job(options, plan, area, form, design)


def refuse(is_wrong: object, what: Text, hint: Text = NOTHING, options: Iterable[str] = ()) -> None:
    """Raises `ToolError` where something is wrong that options can mend."""
    if is_wrong:
        raise ToolError(what, hint, BAD_ARGUMENTS, tuple(map(Remedy, options)))


def check_together(options: PrintOptions, form: Form) -> None:
    """Raises `ToolError` where options do not go together, or a text has what cannot be printed."""
    printer = options.queue or ""
    is_queue = bool(printer) and not is_direct(printer)
    singly = "--journal" if options.journal else "--stream" if options.is_stream else ""
    has_grid = options.is_grid or not (options.stock or options.paper or is_file(options.design))
    for names, is_used, use in (
        (OF_GRID, has_grid, Text("only a grid takes this")),
        (OF_RECEIPT, form == ESCPOS, Text("only a receipt printer takes this")),
    ):
        given = options.given(names)
        refuse(given and not is_used, use, LEAVE_OUT, given)
    one_by_one = Text("{} needs labels one by one", singly or printer)
    is_single = singly or is_direct(printer)
    rolls = Text("choose zpl or escpos")
    refuse(is_single and not form.is_roll, one_by_one, rolls, ["to"])
    no_files = Text("labels go to files, and cannot be sent one by one")
    refuse(singly and options.each, no_files, LEAVE_OUT, ["each"])
    broken = Text("CUPS prints an interrupted run again from its beginning: print past it")
    refuse(singly and is_queue, Text("{} is a queue of CUPS", printer), broken, ["print"])
    is_taken = form == PDF or form.is_roll
    not_taken = Text("printers do not take {}", form.name)
    refuse(is_queue and not is_taken, not_taken, Text("choose pdf, zpl or escpos"), ["to"])
    named = Text("name the rows or codes, and the journal")
    is_named = options.journal and options.only
    unnamed = Text("it is not known what to print again")
    refuse(options.again and not is_named, unnamed, named, ["only", "only-code", "journal"])
    chosen = options.only or options.after
    each_line = Text("a stream prints each line")
    refuse(options.is_stream and chosen, each_line, LEAVE_OUT, ["only", "only-code", "after"])
    check_dots_of(options, form)
    for name in ("note", "font", "stock"):
        text = getattr(options, name) or ""
        what = Text("there are characters that are not text")
        refuse(UNPRINTABLE.search(text), what, Text("type it again"), [name])


def check_dots_of(options: PrintOptions, form: Form) -> None:
    """Raises `ToolError` where the dots an inch are not known, or are too many."""
    hint = Text("choose the dots an inch of the printer, such as 203 or 300")
    is_known = form.is_drawn or options.dpi
    refuse(not is_known, Text("the resolution of the printer is not known"), hint, ["dpi"])
    dpi = options.dpi or 0
    refuse(dpi > MOST_DPI, Text("{} dpi: the maximum is {}", dpi, MOST_DPI), hint, ["dpi"])


def form_of(options: PrintOptions) -> Form:
    """Returns the form that is asked for, or that the names of files end in; raises `ToolError` for
    names that end in something else.
    """
    ending = ENDING.search(options.each or "")
    if options.to or not ending:
        return FORMS[options.to or PDF.name]
    name = ending[1].lower()
    what = Text("labels are not written as .{}", name)
    known = ", ".join(f".{form}" for form in FORMS)
    hint = Text("end the name in one of {}, or choose the form", known)
    refuse(name not in FORMS, what, hint, ["each", "to"])
    return FORMS[name]


def sheet_of(options: PrintOptions, form: Form) -> Sheet:
    """Returns the sheet that the options name, or a page of one of its cells where each label is a
    page; raises `ToolError` where they do not agree.
    """
    sheet = named_sheet(options)
    is_page = options.each is not None or form.is_roll
    places = ((0.0, 0.0),) if is_page else sheet.places
    has = counted("a page has {} label", "a page has {} labels", len(places))
    refuse(options.first > len(places), has, Text("begin with one of them"), ["first"])
    x, y = options.shift
    shifted = tuple((left + x, top + y) for left, top in places)
    return replace(sheet, page=sheet.cell if is_page else sheet.page, places=shifted)


def named_sheet(options: PrintOptions) -> Sheet:
    """Returns the whole sheet that the options name."""
    if options.stock is not None:
        return stock_sheet(options.stock)
    if options.is_grid:
        if not options.cell or not options.grid:
            raise ToolError.of(NO_GRID, BAD_ARGUMENTS)
        size = (options.paper or A4, options.cell, *options.grid)
        return grid_sheet(Grid(*size, options.margin, options.gap or NO_GAP))
    if options.paper:
        return Sheet(options.paper, options.paper, ((0.0, 0.0),))
    raise ToolError.of(NO_PAPER, BAD_ARGUMENTS)


def is_direct(printer: str) -> bool:
    """Returns whether a printer takes labels one by one: tcp://HOST, or a path, which no queue of
    CUPS is.
    """
    return "/" in printer
