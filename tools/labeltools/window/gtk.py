"""GTK 3, and the kinds of widgets that window.ui has beside its own; raises `ImportError` where GTK
is not there.
"""

from collections.abc import Callable, Iterator, Mapping, Sequence
from dataclasses import replace
from functools import partial
from typing import Any, TYPE_CHECKING

import gi

from labeltools.common.language import _
from labeltools.common.messages import Remedy
from labeltools.common.text import whole_sentence
from labeltools.window.further import options_in, said_of, typed_with

try:
    gi.require_version("Gdk", "3.0")
    gi.require_version("Gtk", "3.0")
    from gi.repository import Gdk, GdkPixbuf, Gio, GLib, GObject, Gtk, Pango
except ValueError as error:  # there is no such version
    raise ImportError(str(error)) from error

if TYPE_CHECKING:  # GTK has no types, so that whatever is asked of its windows would be right

    class ApplicationWindow:
        """What the tools use of a window of GTK."""

        __gtype__: Any
        add_action: Callable[[Any], None]
        connect_after: Callable[[str, Callable[..., object]], int]
        destroy: Callable[[], None]
        drag_dest_add_uri_targets: Callable[[], None]
        drag_dest_set: Callable[[Any, Sequence[Any], Any], None]
        get_child: Callable[[], Any]
        get_size: Callable[[], tuple[int, int]]
        get_visible: Callable[[], bool]
        lookup_action: Callable[[str], Any]
        present: Callable[[], None]

else:
    ApplicationWindow = Gtk.ApplicationWindow

__all__ = [
    "ApplicationWindow",
    "Gdk",
    "GdkPixbuf",
    "Gio",
    "GLib",
    "GObject",
    "Gtk",
    "Pango",
    "Answer",
    "Answers",
    "add_actions",
    "add_style",
    "confirmed",
    "do_soon",
    "leave_wheel",
    "show_answers",
    "show_rows",
    "widen",
    "widgets_within",
]
Answer = tuple[str, Callable[[], object]]  # what a button shows, and does
Answers = Sequence[Answer]
LETTERS = 14  # that a choice shows at least
LINE = 30  # letters of a line of the panel, of words that are wrapped
BESIDE = 60  # pixels of an icon beside the texts of a list, and of what is between them
WIDEST = 600  # pixels of a list
SIDE = 90  # pixels of an answer that is beside another one
# the colours of events and questions, of the desktop's theme; a list of choices opens as a list,
# since a menu of them has arrows to scroll by where the window is low
STYLE = b"""
.is-success > revealer > box { background: mix(@theme_bg_color, @success_color, .28); }
.is-info > revealer > box { background: mix(@theme_bg_color, @theme_selected_bg_color, .22); }
.is-warning > revealer > box { background: mix(@theme_bg_color, @warning_color, .35); }
.is-error > revealer > box { background: mix(@theme_bg_color, @error_color, .28); }
infobar label, infobar image { color: @theme_fg_color; text-shadow: none; }
.ask { background: mix(@theme_bg_color, @warning_color, .22); padding: 8px;
  border: 1px solid @warning_color; border-radius: 4px; }
.working progressbar { color: @theme_fg_color; font-size: inherit; }
.working progress { min-height: 4px; border: none;
  background: mix(@theme_selected_bg_color, @theme_fg_color, .4); }
.working { padding: 8px; background: mix(@theme_bg_color, @theme_selected_bg_color, .12); }
.given button { padding: 0; min-width: 22px; min-height: 22px; }
combobox { -GtkComboBox-appears-as-list: 1; }
image.is-success { color: @success_color; }
image.is-warning { color: @warning_color; }
image.is-error { color: @error_color; }
"""


def add_actions(owner: Any, called: Mapping[str, Callable[..., object]], kind: str = "") -> None:
    """Adds actions by their names to a window or a program, and what each calls: if they have a
    value, whose kind is such as `s`, with that.
    """
    for name, call in called.items():
        action = Gio.SimpleAction.new(name, GLib.VariantType.new(kind) if kind else None)
        action.connect(
            "activate",
            lambda _, value, call=call: do_soon(call, *([value.unpack()] if kind else ())),
        )
        owner.add_action(action)


def do_soon(act: Callable[..., object], *values: Any) -> None:
    """Does something as soon as nothing else is under way: a screen reader that presses a button
    waits for what that does, and could read nothing in a dialog that it opens.
    """
    GLib.idle_add(lambda: act(*values) and False)


def confirmed(dialog: Any) -> bool:
    """Shows a dialog; returns whether it is confirmed, as by Enter."""
    dialog.set_default_response(Gtk.ResponseType.OK)
    answer = dialog.run()
    dialog.hide()
    return bool(answer == Gtk.ResponseType.OK)


def show_answers(box: Any, answers: Answers, beside: Any) -> None:
    """Shows a button for each answer in a box. Once one is pressed, the focus is on what is beside
    the box, since the button goes.
    """
    box.foreach(Gtk.Widget.destroy)
    for shown, act in answers:
        button = Gtk.Button(label=shown, visible=True)
        button.connect("clicked", lambda _button, act=act: answer(act, beside))
        box.add(button)
    box.set_visible(answers)


def answer(act: Callable[[], object], beside: Any) -> None:
    """Does what was answered; the focus is on what is beside the answer, which goes."""
    beside.grab_focus()
    do_soon(act)


def add_style() -> None:
    """Adds the colours to those of the desktop."""
    provider = Gtk.CssProvider()
    provider.load_from_data(STYLE)
    screen = Gdk.Screen.get_default()
    Gtk.StyleContext.add_provider_for_screen(
        screen, provider, Gtk.STYLE_PROVIDER_PRIORITY_APPLICATION
    )


def leave_wheel(control: Any, _event: Any) -> None:
    """Leaves a turn of the mouse wheel to what the control is in: it would change unseen."""
    control.stop_emission_by_name("scroll-event")


def shorten(choice: Any) -> None:
    """Lets a long row of a choice end with an ellipsis."""
    letters = next(cell for cell in choice.get_cells() if isinstance(cell, Gtk.CellRendererText))
    longest = max((len(row[0]) for row in choice.get_model()), default=LETTERS)
    letters.set_properties(ellipsize=Pango.EllipsizeMode.END, width_chars=min(LETTERS, longest))


def reveal(part: Any, area: Any) -> None:
    """Scrolls to a part that has its place."""
    part.get_ancestor(Gtk.ScrolledWindow).get_vadjustment().clamp_page(area.y, area.y + area.height)


def widen(choice: Any, *columns: int) -> None:
    """Makes the list of a choice as wide as what these columns of it say, which the choice itself
    may end with an ellipsis.
    """
    shown = choice.get_popup_accessible().get_widget()
    if isinstance(shown, Gtk.TreeView):  # and not yet a menu
        texts = ([row[column] for row in choice.get_model()] for column in columns)
        drawn = (map(shown.create_pango_layout, column) for column in texts)
        widths = (max((layout.get_pixel_size()[0] for layout in part), default=0) for part in drawn)
        beside = BESIDE + sum(max(0, cell.get_fixed_size()[0]) for cell in choice.get_cells())
        shown.set_size_request(min(sum(widths) + beside, WIDEST), -1)


def show_rows(model: Any, rows: Sequence[tuple[str, ...]]) -> None:
    """Shows rows in a list, which may be open: it is made anew only for other ids, which are at the
    end of rows.
    """
    if [row[-1] for row in model] != [row[-1] for row in rows]:
        model.clear()
        for new in rows:
            model.append(new)
    for old, new in zip(model, rows):
        if tuple(old) != new:
            model[old.iter] = new


def widgets_within(widget: Any) -> Iterator[Any]:
    """Yields a widget, and all that are in it, those of GTK's own too."""
    yield widget
    if isinstance(widget, Gtk.Container):
        parts: list[Any] = []
        widget.forall(parts.append)
        for part in parts:
            yield from widgets_within(part)


class Question(Gtk.Box):
    """A question below a control, with its answers as buttons."""

    __gtype_name__ = "LabelsQuestion"
    control = GObject.Property(type=Gtk.Widget)  # that it is about

    def __init__(self, **properties: Any) -> None:
        super().__init__(**properties)
        self.set_properties(orientation=Gtk.Orientation.VERTICAL, spacing=6, no_show_all=True)
        self.get_style_context().add_class("ask")
        self.connect("size-allocate", reveal)
        self.text = Gtk.Label(xalign=0, wrap=True, max_width_chars=30, width_chars=20)
        self.answers = Gtk.Box(spacing=6, homogeneous=True)
        icon = Gtk.Image(icon_name="dialog-question-symbolic", valign=Gtk.Align.START)
        line = Gtk.Box(spacing=8)
        for box, part in ((line, icon), (line, self.text), (self, line), (self, self.answers)):
            box.add(part)
            part.show()

    def ask(self, text: str, answers: Answers) -> None:
        """Asks, with a button for each answer."""
        self.text.set_text(text)
        show_answers(self.answers, answers, self.control)
        widest = 0
        for button in self.answers:
            label = button.get_child()
            label.set_properties(wrap=True, lines=2, max_width_chars=30)
            label.set_properties(
                ellipsize=Pango.EllipsizeMode.END, justify=Gtk.Justification.CENTER
            )
            button.get_style_context().remove_class("text-button")  # which has wide sides
            widest = max(widest, self.create_pango_layout(label.get_text()).get_pixel_size()[0])
            button.connect("clicked", lambda _button: self.hide())
        is_short = widest <= SIDE and len(answers) < 3
        kind = Gtk.Orientation.HORIZONTAL if is_short else Gtk.Orientation.VERTICAL
        self.answers.set_orientation(kind)
        self.show()


class Given(Gtk.Box):
    """The options that a button chose or the window guessed, each in words, with a button that
    takes it back; `words` are the options as they are typed.
    """

    __gtype_name__ = "LabelsGiven"
    words = GObject.Property(type=str, default="")

    def __init__(self, **properties: Any) -> None:
        super().__init__(**properties)
        self.set_properties(orientation=Gtk.Orientation.VERTICAL, spacing=4, no_show_all=True)
        self.get_style_context().add_class("given")
        self.word_by: Callable[[str], str] = lambda _codec: ""  # a word as an encoding reads it
        self.shown: list[str] = []  # what is said of each option
        self.connect("notify::words", lambda given, _property: given.show_options())

    def show_options(self) -> None:
        """Shows each option in words."""
        options = [*options_in(self.words)]
        shown = [whole_sentence(said_of(option, self.word_by)) for option in options]
        if shown != self.shown:  # else a button that has the focus would lose it
            self.shown = shown
            self.foreach(Gtk.Widget.destroy)
            for place, (option, said) in enumerate(zip(options, shown)):
                self.add(self.option_line(said, partial(self.take_back, place, option)))
        self.set_visible(self.words)

    def option_line(self, said: str, take_back: Callable[[Any], None]) -> Any:
        """Returns a line with what is said of an option, and a button that takes it back."""
        text = Gtk.Label(label=said, xalign=0, wrap=True, max_width_chars=LINE, hexpand=True)
        image = Gtk.Image(icon_name="window-close-symbolic")
        button = Gtk.Button(child=image, relief=Gtk.ReliefStyle.NONE, valign=Gtk.Align.CENTER)
        about = _("Take back: {what}").format(what=said)
        button.set_tooltip_text(about)
        button.get_accessible().set_name(about)
        button.connect("clicked", take_back)
        line = Gtk.Box(spacing=6)
        for part in (text, button):
            line.add(part)
        line.show_all()
        return line

    def take_back(self, place: int, option: Remedy, _button: Any) -> None:
        """Takes an option back; the focus goes to the next one, or else to what is below."""
        self.get_toplevel().child_focus(Gtk.DirectionType.TAB_FORWARD)
        self.words = typed_with(self.words, replace(option, is_less=True))
        if lines := self.get_children():
            lines[min(place, len(lines) - 1)].get_children()[-1].grab_focus()


class Number(Gtk.SpinButton):
    """A whole number."""

    __gtype_name__ = "LabelsNumber"

    def __init__(self, **properties: Any) -> None:
        super().__init__(**properties)
        self.connect("scroll-event", leave_wheel)
        self.set_width_chars(3)
        self.set_increments(1, 10)
        self.set_range(0, 10_000)


class Choice(Gtk.ComboBoxText):
    """A choice from a list whose rows have a text, and an id behind it. A value that is not in the
    list is shown before its last row, if `shown_of` has a text for it.
    """

    __gtype_name__ = "LabelsChoice"
    shown_of: Callable[[str], str] | None = None

    def __init__(self, **properties: Any) -> None:
        super().__init__(**properties)
        self.connect("scroll-event", leave_wheel)
        self.set_hexpand(True)
        self.set_popup_fixed_width(False)
        self.set_button_sensitivity(Gtk.SensitivityType.ON)  # else an empty list takes the focus
        self.connect("show", shorten)
        self.connect("map", widen, 0)

    def choose(self, value: str | None) -> None:
        """Chooses the row of a value, and adds it if need be."""
        rows = self.get_model()
        if value and self.shown_of and value not in [row[1] for row in rows]:
            if shown := self.shown_of(value):
                self.insert(len(rows) - 1, value, shown)
        self.set_active_id(value)

    value = GObject.Property(Gtk.ComboBoxText.get_active_id, choose, type=str)


class Caption(Gtk.Label):
    """The name of a control, beside it."""

    __gtype_name__ = "LabelsCaption"

    def __init__(self, **properties: Any) -> None:
        super().__init__(**properties)
        self.set_use_underline(True)
        self.set_xalign(1)
