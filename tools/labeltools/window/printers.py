"""The list of printers of a window: the printer decides what it is sent, and at how many dots an
inch. A printer in the network is added once.
"""

from collections.abc import Mapping, Sequence
from concurrent.futures import Future, ThreadPoolExecutor
from functools import partial
from typing import Any, TYPE_CHECKING

from labeltools.common.language import _
from labeltools.common.messages import ToolError
from labeltools.common.text import translated
from labeltools.printing.job import DRAWING_DPI, is_direct, LABELS_DPI, planned, PrintOptions
from labeltools.printing.press import labels_of
from labeltools.sending.network import address_of, SCHEME
from labeltools.sending.printers import (
    default_queue,
    known_printers,
    lost_printer,
    Printer,
    QUEUE,
    USB,
)
from labeltools.sending.queue import Queue, queue_of
from labeltools.sending.sender import send_labels_to
from labeltools.window.choices import Choices, Kept
from labeltools.window.gtk import GLib, Gtk, leave_wheel, show_rows, widen
from labeltools.window.memory import PRINTERS
from labeltools.window.questions import in_sentences
from labeltools.window.shop import WindowTalk

if TYPE_CHECKING:
    from labeltools.window.window import Window

ADD, FILE, NONE = "add", "file", "-"  # rows of the list that are no printers
ICONS = {QUEUE: "printer-symbolic", USB: "printer-symbolic"}
LANGUAGES = ("zpl", "escpos")  # of printers that take labels one by one
PDF = "pdf"
NAMES = {PDF: "PDF", "zpl": "ZPL", "escpos": "ESC/POS"}
TEST = b'#{"title":"Test","price":"1,00"}\ncode128 TEST-123\n'
TEST_SIZE = (50.0, 25.0)  # millimetres of a test label


class Printers:
    """The list of a window."""

    def __init__(self, window: "Window") -> None:
        self.window = window
        self.widgets = window.widgets
        self.all: dict[str, Printer] = {}
        self.wanted = ""  # the key of the one that is chosen, or was when labels went out
        # what queues with a driver say of themselves, or why they do not, once they do
        self.answers: dict[str, Future[Queue | ToolError]] = {}
        self.thread = ThreadPoolExecutor(1)
        window.widgets.printer.set_row_separator_func(lambda model, row: model[row][3] == NONE)
        window.widgets.printer.connect("notify::popup-shown", lambda *_: self.refresh())
        window.widgets.printer.connect("scroll-event", leave_wheel)
        window.widgets.printer.connect("changed", self.on_chosen)
        window.widgets.to.connect("changed", lambda _list: window.act_soon(self.on_language))
        self.fill_list([])
        self.refresh()

    def refresh(self) -> None:
        """Looks for printers, in a thread of its own."""
        future = self.thread.submit(found_printers)
        future.add_done_callback(partial(GLib.idle_add, self.show_found))

    def show_found(self, future: "Future[tuple[Sequence[Printer], str]]") -> None:
        """Shows the printers that were found, and chooses one where none is chosen."""
        if future.exception() is not None or not self.window.get_visible():
            return
        found, default = future.result()
        was_asked = self.wanted in self.answers
        self.fill_list(found)
        if not self.wanted:
            first = default or next((printer.key for printer in found), FILE)
            first = first if first in self.all else FILE
            self.choose(first)
        elif not was_asked and self.wanted in self.answers:
            self.window.make()

    def fill_list(self, found: Sequence[Printer]) -> None:
        """Fills the list; a printer that is wanted and not there is in it, too. The queue that is
        chosen is asked what paper and which dots it has, once it is there.
        """
        self.all = {printer.key: printer for printer in found}
        if self.wanted and self.wanted not in (*self.all, FILE):
            self.all[self.wanted] = lost_printer(self.wanted)
        rows = [
            (printer.name, icon_of(printer), translated(printer.state), key)
            for key, printer in self.all.items()
        ]
        rows += [(NONE, "", "", NONE)] if rows else []
        rows.append((_("Network printer…"), "list-add-symbolic", "", ADD))
        rows.append((_("Save a file…"), "document-save-symbolic", "", FILE))
        show_rows(self.widgets.printers, rows)
        widen(self.widgets.printer, 0, 2)
        self.widgets.printer.set_active_id(self.wanted or None)
        printer = self.chosen
        is_asked = printer and printer.way == QUEUE and printer.form == PDF and not printer.is_lost
        if is_asked and self.wanted not in self.answers:
            self.answers[self.wanted] = self.thread.submit(queue_or_problem, self.wanted)

    @property
    def chosen(self) -> Printer | None:
        """The printer that is chosen; None for a file."""
        return self.all.get(self.wanted)

    @property
    def is_of_labels(self) -> bool:
        """Whether the printer that is chosen prints on a roll, and has no sheets."""
        printer = self.chosen
        if printer is None or printer.form in LANGUAGES:
            return printer is not None
        queue = self.queue
        return queue is not None and bool(queue.papers.known) and not queue.papers.is_office

    @property
    def awaited(self) -> "Future[Queue | ToolError] | None":
        """What the queue that is chosen says of itself, as long as it has not said it."""
        answer = self.answers.get(self.wanted)
        return None if answer is None or answer.done() else answer

    @property
    def queue(self) -> Queue | None:
        """The queue that is chosen, if it has said what it has."""
        answer = self.answers.get(self.wanted)
        if answer is None or not answer.done() or answer.exception():
            return None
        found = answer.result()
        return found if isinstance(found, Queue) else None

    def shown_name(self, key: str) -> str:
        """Returns the name of a printer, as the list shows it."""
        return self.all[key].name if key in self.all else key

    def with_printer_names(self, text: str) -> str:
        """Returns a text with the names of printers in the place of their addresses."""
        for key in sorted(filter(is_direct, self.all), key=len, reverse=True):
            text = text.replace(key, self.all[key].name)
        return text

    def settle(self, key: str) -> None:
        """Shows a printer as chosen; it decides nothing."""
        self.wanted = key
        self.fill_list([printer for printer in self.all.values() if not printer.is_lost])

    def key_of_language(self, chosen: Choices) -> str:
        """Returns the key by which is kept what a printer is sent, or files of sheets or of rolls;
        nothing as long as it is not known.
        """
        printer = self.chosen
        if printer is None:
            return f"{FILE} of {'a roll' if chosen.roll else 'sheets'}"
        is_known = printer.form and (self.queue or self.wanted not in self.answers)
        return printer.key if is_known else ""

    def usual_language(self, _chosen: Choices) -> Kept:
        """Returns what a printer is sent of which nothing else is kept: None where only the keeper
        knows.
        """
        return {"to": (self.chosen.form or None) if self.chosen else PDF}

    def key_of_dots(self, chosen: Choices) -> str:
        """Returns the key by which the dots of a printer are kept, or of files, in a language."""
        key = self.key_of_language(chosen)
        return dots_key(chosen.to or "", key) if key else ""

    def usual_dots(self, chosen: Choices) -> Kept:
        """Returns the dots of a printer of which no others are kept."""
        usual = LABELS_DPI if chosen.to in LANGUAGES else DRAWING_DPI
        found = self.queue.dpi_for(not chosen.roll) if self.queue and chosen.to == PDF else 0
        if self.chosen and self.chosen.form == chosen.to:
            found = self.chosen.dpi or found
        return {"dpi": str(found or usual)}

    def show_button(self) -> None:
        """Names the button after what it does, and a file after its form."""
        text = _("_Print…")
        if self.wanted == FILE:
            form = self.window.choices().to or ""
            text = _("Sa_ve {form}…").format(form=NAMES.get(form, form))
        self.widgets.print_button.set_label(text)

    def choose(self, key: str) -> None:
        """Chooses a printer: it decides the language, the dots, and sheets or a roll. A queue is
        asked again what it has; it has sheets unless it says that it has a roll.
        """
        self.answers.pop(key, None)
        self.settle(key)
        if key in self.answers:
            self.window.take_values(sheet=True)
        self.window.owners.take_anew()
        self.window.make()

    def on_chosen(self, choice: Any) -> None:
        """Does what the keeper chooses in the list, once that is closed."""
        key = choice.get_active_id()
        if key == ADD:
            self.window.act_soon(self.ask_for_printer)
        elif key not in (None, self.wanted):
            self.window.act_soon(partial(self.choose, key))

    def ask_about_chosen(self) -> None:
        """Asks once what the printer that is chosen understands, if it does not say it."""
        printer = self.chosen
        if printer is None or printer.form or printer.is_lost:
            return
        shown = (_("Labels (ZPL)"), _("Receipts (ESC/POS)"))
        answers = [
            (text, partial(self.know, printer.key, {"to": language}))
            for text, language in zip(shown, LANGUAGES)
        ]
        self.window.questions.below["printer"].ask(_("What does this printer print?"), answers)
        self.window.let_out()

    def on_language(self) -> None:
        """Makes the labels in the language that is chosen. A printer that takes labels one by one
        understands nothing else from now on, if it may be its.
        """
        printer, form = self.chosen, self.widgets.to.value
        if printer and printer.way != QUEUE and form not in (None, printer.form):
            self.know(printer.key, {"to": form} if form in LANGUAGES else {})
        else:
            self.window.keep_up()

    def know(self, key: str, more: Mapping[str, str]) -> None:
        """Keeps what is known of a printer from now on, and chooses it."""
        PRINTERS.keep(key, {**PRINTERS.get(key, {}), **more})
        if "dpi" in more:
            PRINTERS.keep(dots_key(more["to"], key), None)
        found = known_printers({key: PRINTERS.get(key, {})})
        self.all |= {printer.key: printer for printer in found if printer.key == key}
        self.choose(key)

    def ask_for_printer(self) -> None:
        """Asks for a printer in the network, and chooses it."""
        window = self.window
        window.widgets.printer.set_active_id(self.wanted or None)
        window.widgets.new_said.set_text("")
        window.widgets.new_address.grab_focus()
        tests = window.widgets.new_test.connect("clicked", lambda _button: self.test())
        window.widgets.adding.set_default_response(Gtk.ResponseType.OK)
        while window.widgets.adding.run() == Gtk.ResponseType.OK:
            key, kept = self.new()
            try:
                address_of(key)
            except ToolError as error:
                window.widgets.new_said.set_text(in_sentences(error.problem))
                continue
            self.know(key, kept)
            break
        window.widgets.new_test.disconnect(tests)
        window.widgets.adding.hide()

    def new(self) -> tuple[str, Mapping[str, str]]:
        """Returns the printer that is typed: its address, and what is kept of it."""
        address = self.widgets.new_address.get_text().strip().removeprefix(SCHEME)
        name = self.widgets.new_name.get_text().strip() or address
        form = LANGUAGES[0] if self.widgets.new_zpl.get_active() else LANGUAGES[1]
        return SCHEME + address, {
            "name": name,
            "to": form,
            "dpi": self.widgets.new_dpi.get_active_id(),
        }

    def test(self) -> None:
        """Prints a test label, and says what came of it."""
        key, kept = self.new()
        self.widgets.new_said.set_text("…")
        future = self.thread.submit(print_test, key, kept)
        future.add_done_callback(partial(GLib.idle_add, self.tested))

    def tested(self, future: "Future[None]") -> None:
        """Says what came of a test label."""
        error = future.exception()
        text = _("Sent: look whether it comes out.")
        if isinstance(error, ToolError):
            text = in_sentences(error.problem)
        elif error is not None:
            text = str(error)
        self.widgets.new_said.set_text(text)


def dots_key(form: str, printer: str) -> str:
    """Returns the key by which the dots of a printer in a language are kept."""
    return f"{form} to {printer}"


def icon_of(printer: Printer) -> str:
    """Returns the icon of a printer."""
    if not printer.is_ready:
        return "printer-warning-symbolic"
    return ICONS.get(printer.way, "printer-network-symbolic")


def found_printers() -> tuple[Sequence[Printer], str]:
    """Returns the printers, and the queue that is used if none is named."""
    return [*known_printers(PRINTERS.all())], default_queue()


def queue_or_problem(name: str) -> Queue | ToolError:
    """Returns what a queue says of itself, or why it does not."""
    try:
        return queue_of(name)
    except ToolError as error:
        return error


def print_test(key: str, kept: Mapping[str, str]) -> None:
    """Prints a test label on a printer in the network; raises `ToolError`."""
    address_of(key)
    options = PrintOptions(paper=TEST_SIZE, to=kept["to"], dpi=int(kept["dpi"]))
    talk = WindowTalk()
    send_labels_to(labels_of(planned(options), "test", TEST, talk), key, talk)
