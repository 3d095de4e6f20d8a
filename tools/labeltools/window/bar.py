"""What happened: one bar with the newest event, and a list of those before it behind a clock."""

import time
from dataclasses import dataclass, replace
from typing import TYPE_CHECKING

from labeltools.common.language import _
from labeltools.window.designs import without_folder
from labeltools.window.gtk import Answer, do_soon, Gtk, widgets_within

if TYPE_CHECKING:
    from labeltools.window.window import Window

MOST_EVENTS = 20  # in the list
ERROR, WARNING, SUCCESS, INFO = "error", "warning", "success", "info"
# the type of its bar, and its icon
KINDS = {
    ERROR: (Gtk.MessageType.ERROR, "dialog-error-symbolic"),
    WARNING: (Gtk.MessageType.WARNING, "dialog-warning-symbolic"),
    SUCCESS: (Gtk.MessageType.INFO, "emblem-ok-symbolic"),
    INFO: (Gtk.MessageType.INFO, "dialog-information-symbolic"),
}
BAD = (ERROR, WARNING)


@dataclass(frozen=True)
class Event:
    """What happened: its kind, a sentence, what helps if one thing does, and what it is about, such
    as a job.
    """

    kind: str
    sentence: str
    answer: Answer | None = None
    about: object = None


class Bar:
    """The bar of a window, and the list of events."""

    def __init__(self, window: "Window") -> None:
        self.window = window
        self.widgets = window.widgets
        self.event: Event | None = None  # the one that is shown
        self.widgets.bar.connect("response", lambda bar, _response: bar.hide())
        for part in widgets_within(self.widgets.bar):
            if isinstance(part, Gtk.Button) and part is not window.widgets.bar_act:
                part.get_accessible().set_name(_("Close"))
        window.widgets.bar_act.connect("clicked", lambda _button: self.act())

    def report(self, event: Event) -> None:
        """Says what happened. What is bad stays until it is closed or work begins: what is good
        about something else is only listed.
        """
        named = self.window.of_printers.with_printer_names(without_folder(event.sentence))
        event = replace(event, sentence=named)
        self.list(event)
        shown = self.event if self.widgets.bar.get_visible() else None
        is_other = shown is not None and shown.about not in (None, event.about)
        if is_other and shown is not None and shown.kind in BAD and event.kind not in BAD:
            return
        self.event = event
        kind, icon = KINDS[event.kind]
        self.widgets.bar.set_message_type(kind)
        style = self.widgets.bar.get_style_context()
        for name in KINDS:
            (style.add_class if name == event.kind else style.remove_class)(f"is-{name}")
        self.widgets.bar_icon.set_from_icon_name(icon, Gtk.IconSize.BUTTON)
        self.widgets.bar_text.set_text(event.sentence)
        self.widgets.bar_act.set_visible(event.answer)
        if event.answer:
            self.widgets.bar_act.set_label(event.answer[0])
        self.widgets.bar.show()

    def hide(self) -> bool:
        """Closes the bar; returns whether it was there."""
        was_there = bool(self.widgets.bar.get_visible())
        self.widgets.bar.hide()
        return was_there

    def act(self) -> None:
        """Does what helps, and closes the bar."""
        answer = self.event.answer if self.event else None
        self.widgets.panel.child_focus(Gtk.DirectionType.TAB_FORWARD)  # the button goes
        self.hide()
        if answer:
            do_soon(answer[1])

    def list(self, event: Event) -> None:
        """Adds an event to the list, in front of those before it."""
        rows = self.widgets.history_list
        line = Gtk.Box(spacing=8, margin=4)
        image = Gtk.Image(icon_name=KINDS[event.kind][1])
        image.get_style_context().add_class(f"is-{event.kind}")
        text = Gtk.Label(label=event.sentence, xalign=0, wrap=True, max_width_chars=48)
        for part in (image, Gtk.Label(label=time.strftime("%H:%M")), text):
            part.set_valign(Gtk.Align.START)
            line.add(part)
        line.show_all()
        rows.insert(line, 0)
        for old in rows.get_children()[MOST_EVENTS:]:
            old.destroy()
        self.widgets.history_button.set_sensitive(True)
