"""What a window shows of its labels: their pages as they are printed, and below these what there is
to say about them, with buttons that help.
"""

from typing import Any

from labeltools.common.language import _
from labeltools.common.text import Text, translated, whole_sentence
from labeltools.printing.press import Prepared
from labeltools.tables.summary import skipped
from labeltools.window.designs import without_folder
from labeltools.window.gtk import Answers, Gio, GLib, Gtk, show_answers
from labeltools.window.preview import Preview
from labeltools.window.questions import in_sentences
from labeltools.window.shop import MadeLabels

MOST_NOTES = 2000
MOST_HELPS = 3  # buttons above the notes
LOW = 700  # pixels of a window in which the list of notes is closed at first
LEAST_WRAP = 150  # pixels in which reasons are wrapped
WRAP_MARGIN = 20  # pixels of the list beside the reasons


class ShownLabels:
    """The labels of a window. A click on a page says where they begin, and the one below the
    pointer is shown large.
    """

    labels: Prepared | None = None  # that are shown
    shown: Preview

    def __init__(self, widgets: Any) -> None:
        self.widgets = widgets
        # whether each label is shown alone, as the menu says
        self.large = Gio.SimpleAction.new_stateful("large", None, GLib.Variant("b", False))
        self.large.connect("notify::state", lambda *_: self.show_pages())
        self.pointed = 0  # the cell of a page below the pointer
        widgets.paper.connect("draw", self.on_draw)
        widgets.paper.connect("button-press-event", self.on_click)
        widgets.paper.connect("motion-notify-event", self.on_pointed)
        widgets.paper.connect("leave-notify-event", lambda *_: self.point_at(0))
        widgets.number.connect("value-changed", lambda _number: widgets.paper.queue_draw())
        widgets.left_out_list.connect("size-allocate", self.on_list_size)
        widgets.left_out_list.get_selection().connect("changed", self.on_note)

    def show(self, made: MadeLabels, helps: Answers, is_new: bool) -> None:
        """Shows labels, and what helps with those that are skipped. Of a table that is new the list
        of these is open where there is room for it; later the keeper may have closed it.
        """
        self.labels = made.labels
        self.widgets.command.set_text(made.command)
        is_waiting = bool(made.asked) and not made.labels.prints  # no row is counted yet
        self.widgets.count.set_text("" if is_waiting else whole_sentence(made.summary))
        self.show_notes(made)
        show_answers(self.widgets.helps, helps[:MOST_HELPS], self.widgets.fold)
        for part in self.widgets.helps:
            part.set_can_focus(False)  # but the button in it has the focus
        if is_new:
            self.widgets.fold.set_expanded(self.widgets.fold.get_toplevel().get_size()[1] > LOW)
        self.show_pages()
        self.widgets.result.show()

    def show_notes(self, made: MadeLabels) -> None:
        """Shows why rows are skipped, and what else there is to say."""
        self.widgets.notes.clear()
        for note in made.told[:MOST_NOTES]:
            row = str(note.origin.number) if note.origin else ""
            why = without_folder(in_sentences(note.problem))
            self.widgets.notes.append([row, note.data, why])
        count = made.left_out
        name = "dialog-warning-symbolic" if count else "dialog-information-symbolic"
        self.widgets.left_out_icon.set_from_icon_name(name, Gtk.IconSize.BUTTON)
        text = Text("{}: see why", skipped(count)) if count else Text("Please look at this")
        self.widgets.left_out.set_text(translated(text))
        self.widgets.fold.get_accessible().set_name(translated(text))
        self.widgets.fold.set_visible(made.told)

    def on_list_size(self, _list: Any, area: Any) -> None:
        """Wraps the reasons at the right edge of the list."""
        width = max(LEAST_WRAP, area.width - self.widgets.why.get_x_offset() - WRAP_MARGIN)
        if width != self.widgets.reason.get_property("wrap-width"):
            self.widgets.reason.set_property("wrap-width", width)
            GLib.idle_add(self.widgets.why.queue_resize)

    def on_note(self, selection: Any) -> None:
        """Shows the label of the row that was chosen, where there is one."""
        model, row = selection.get_selected()
        page = self.shown.page_of(model[row][0]) if row else 0
        if page:
            self.widgets.number.set_value(page)

    def show_pages(self) -> None:
        """Shows pages, or each label, and how many there are, once labels are made."""
        if self.labels is None:
            return
        self.shown = Preview(self.labels, self.large.get_state().unpack())
        self.widgets.number.set_range(1, self.shown.count)
        self.widgets.of.set_text(_("of {all}").format(all=self.shown.count))
        width, height = self.shown.size
        self.widgets.desk.set_property("ratio", width / height)
        has_cells = not (self.labels.job.plan.sheet.is_single or self.shown.is_single)
        self.widgets.click_here.set_visible(has_cells and self.widgets.sheet.get_active())
        self.widgets.paper.queue_draw()

    def on_draw(self, paper: Any, canvas: Any) -> None:
        """Draws a page, or a label."""
        scale = paper.get_allocated_width() / self.shown.size[0]
        number = self.widgets.number.get_value_as_int()
        canvas.scale(scale, scale)
        canvas.save()
        self.shown.draw(canvas, number)
        canvas.restore()
        if self.pointed and not self.shown.is_single:
            self.shown.draw_large(canvas, number, self.pointed)

    def cell_below(self, event: Any) -> int:
        """Returns the cell of the page below the pointer; 0 for none."""
        scale = self.widgets.paper.get_allocated_width() / self.shown.size[0]
        return self.shown.cell_at(event.x / scale, event.y / scale)

    def on_pointed(self, _paper: Any, event: Any) -> None:
        """Shows the label large that is below the pointer."""
        self.point_at(self.cell_below(event))

    def point_at(self, cell: int) -> None:
        """Shows the label in a cell large, or none for 0."""
        if cell != self.pointed:
            self.pointed = cell
            self.widgets.paper.queue_draw()

    def on_click(self, _paper: Any, event: Any) -> None:
        """Begins at the cell of the first page that was clicked, where it is said that a click does
        that: those before it are used.
        """
        cell, number = self.cell_below(event), self.widgets.number.get_value_as_int()
        if cell and number == 1 and self.widgets.click_here.get_visible():
            self.widgets.first.set_value(cell)
