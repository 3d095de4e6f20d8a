"""The dialog for a sheet of the keeper's own, with a drawing of it."""

from dataclasses import asdict, replace
from typing import Any, TYPE_CHECKING

from labeltools.common.language import _
from labeltools.common.messages import ToolError
from labeltools.common.text import Text, translated
from labeltools.paper.stock import grid_sheet, Size
from labeltools.window.gtk import Answers, confirmed, Gtk
from labeltools.window.memory import SHEETS
from labeltools.window.questions import in_sentences
from labeltools.window.sheets import grid_of, is_sheet, own_sheet, OwnSheet

if TYPE_CHECKING:
    from labeltools.window.window import Window

FIRST = OwnSheet(3, 8, 70.0, 36.0)  # that is shown at first
COUNTS = {"columns": (1, 50), "rows": (1, 100)}
SIZES = {"width": (5, 210), "height": (5, 297)}
MARGINS = {"left": (0, 105), "top": (0, 149)}
HIGH = 212  # pixels of the drawing
HELPED = ("list-stock", "cell")  # options of problems that such a sheet helps


class SheetDialog:
    """The dialog of a window."""

    def __init__(self, window: "Window") -> None:
        self.window = window
        self.widgets = window.widgets
        self.has_margin = False  # that was typed
        ranges = {**COUNTS, **SIZES, **MARGINS}
        self.fields = {name: getattr(self.widgets, f"sheet_{name}") for name in ranges}
        for name, field in self.fields.items():
            field.set_range(*ranges[name])
            field.connect("value-changed", self.on_changed, name)
        window.widgets.sheet_name.connect("changed", self.show_sheet)

    def answers_to(self, problem: ToolError) -> Answers:
        """Returns the answer that a sheet has another name, if that helps with a problem."""
        is_helped = any(remedy.option in HELPED for remedy in problem.remedies)
        if not is_helped or not self.widgets.sheet.get_active():
            return []
        return [(_("My sheet has another name…"), self.ask_for_sheet)]

    def ask_for_sheet(self) -> None:
        """Asks how a sheet is divided, keeps it by its name, and takes it. What is typed is a name
        for it, unless the list has a sheet by that.
        """
        name = self.widgets.stock.get_text().strip()
        own = own_sheet(name)
        is_listed = own is None and is_sheet(name)
        self.fill("" if is_listed else name, own or FIRST)
        if confirmed(self.widgets.describing):
            name = self.widgets.sheet_name.get_text().strip()
            SHEETS[name] = asdict(self.described())
            self.window.owners.take_anew()
            self.window.take_values(sheet=True, stock=name)
            self.window.make()  # it may have the name that was typed before

    def fill(self, name: str, sheet: OwnSheet) -> None:
        """Fills the fields."""
        self.has_margin = sheet.left is not None
        self.widgets.sheet_name.set_text(name)
        for name in (*COUNTS, *SIZES):
            self.fields[name].set_value(getattr(sheet, name))
        self.fill_margin(sheet.grid.margin or sheet.middle)
        self.show_sheet()

    def fill_margin(self, margin: Size) -> None:
        """Fills the fields of the margin."""
        for name, side in zip(MARGINS, margin):
            self.fields[name].set_value(side)

    def described(self) -> OwnSheet:
        """Returns the sheet that the fields describe."""
        counts = (self.fields[name].get_value_as_int() for name in COUNTS)
        sizes = (self.fields[name].get_value() for name in SIZES)
        sheet = OwnSheet(*counts, *sizes)
        left, top = (self.fields[name].get_value() for name in MARGINS)
        return replace(sheet, left=left, top=top) if self.has_margin else sheet

    def on_changed(self, _field: Any, name: str) -> None:
        """Shows another sheet; its labels are in the middle until a margin is typed."""
        middle = self.described().middle
        if name in MARGINS:
            typed = (self.fields[margin].get_value() for margin in MARGINS)
            self.has_margin = [*typed] != [max(0.0, round(side, 2)) for side in middle]
        elif not self.has_margin:
            self.fill_margin(middle)
        self.show_sheet()

    def show_sheet(self, _entry: Any = None) -> None:
        """Shows the sheet, and says how far its labels are apart, or why there is no such sheet."""
        grid = self.described().grid
        is_good = bool(self.widgets.sheet_name.get_text().strip())
        try:
            sheet = grid_sheet(grid)
            self.widgets.sheet_drawing.set_from_pixbuf(grid_of(sheet, HIGH))
            text = Text("{} labels, {:.4g} and {:.4g} mm apart.", len(sheet.places), *grid.gap)
            said = translated(text)
        except ToolError as error:
            self.widgets.sheet_drawing.clear()
            said, is_good = in_sentences(error.problem), False
        self.widgets.sheet_said.set_text(said)
        self.widgets.describing.set_response_sensitive(Gtk.ResponseType.OK, is_good)
