"""The dialog before labels are printed: which of them, and from which tray. It has nothing that
would change labels, such as a scale.
"""

import webbrowser
from collections.abc import Mapping
from dataclasses import dataclass, replace
from typing import Any, TYPE_CHECKING
from urllib.parse import quote

from labeltools.common.language import _, ngettext
from labeltools.common.report import is_in_ranges, Ranges
from labeltools.common.text import whole_sentence
from labeltools.printing.job import is_direct
from labeltools.printing.press import Prepared
from labeltools.printing.selection import ranges_in
from labeltools.sending.printers import Printer
from labeltools.sending.queue import MEDIA, TRAY
from labeltools.tables.summary import skipped
from labeltools.window.gtk import confirmed, do_soon, Gio, GLib, Gtk
from labeltools.window.memory import PRINTERS
from labeltools.window.rows import labels_of_rows, parts_in, Rows

if TYPE_CHECKING:
    from labeltools.window.window import Window

PAGE = "http://localhost:631/printers/"  # of a queue, in the pages of CUPS
# the programs of desktops that have the settings of printers, with their words
SETTINGS = (
    ("gnome-control-center", "printers"),
    ("system-config-printer",),
    ("systemsettings", "kcm_printer_manager"),
)
Options = Mapping[str, Mapping[str, str]]  # of a driver: the choices of each, and what is shown


@dataclass(frozen=True)
class Printout:
    """What is to be printed: labels, with options of CUPS; a trial does not count as printed."""

    labels: Prepared
    options: Mapping[str, str]
    is_trial: bool = False


class Printing:
    """The dialog of a window."""

    def __init__(self, window: "Window") -> None:
        self.window = window
        self.widgets = window.widgets
        self.printer = ""
        for button in (
            window.widgets.print_all,
            window.widgets.print_some,
            window.widgets.print_trial,
        ):
            button.connect("toggled", self.show_what)
        for control in (window.widgets.print_rows, window.widgets.print_what):
            control.connect("changed", self.show_what)
        window.widgets.print_settings.connect(
            "activate-link", lambda _link: open_settings(self.printer)
        )
        window.widgets.print_choose.connect("clicked", lambda _button: do_soon(self.choose_rows))
        self.rows = Rows(window)

    def ask_what_is_printed(
        self, printer: Printer, labels: Prepared, options: Options
    ) -> Printout | None:
        """Asks what is to be printed; returns nothing if that is cancelled."""
        window = self.window
        self.labels, self.printer = labels, printer.key
        window.widgets.printing.set_title(_("Print on {printer}").format(printer=printer.name))
        is_roll = labels.job.form.is_roll or labels.job.plan.sheet.is_single
        trial = _("_Trial: one label") if is_roll else _("_Trial: the first sheet, on plain paper")
        window.widgets.print_trial.set_label(trial)
        window.widgets.print_all.set_label(all_text(labels, is_roll))
        window.widgets.print_all.set_active(True)
        window.widgets.print_rows.set_text("")
        window.widgets.print_what.set_active_id("rows")
        window.widgets.print_what.set_visible(not is_roll)
        window.widgets.print_some.set_label(_("_Only rows") if is_roll else _("_Only"))
        self.fill_options(options)
        self.show_what()
        window.widgets.print_yes.grab_focus()  # Enter prints
        return self.wanted() if confirmed(window.widgets.printing) else None

    def fill_options(self, options: Options) -> None:
        """Fills the choices of a driver, with those of the last time."""
        kept = PRINTERS.all().get(self.printer, {})
        for name, choice in ((TRAY, self.widgets.tray), (MEDIA, self.widgets.media)):
            choice.remove_all()
            choice.append("", _("as the printer is set"))
            for word, shown in options.get(name, {}).items():
                choice.append(word, shown)
            is_known = kept.get(name) in options.get(name, {})
            choice.set_active_id(kept[name] if is_known else "")
            for part in (choice, *choice.list_mnemonic_labels()):
                part.set_visible(name in options)
        self.widgets.print_queue.set_visible(not is_direct(self.printer))

    def choose_rows(self) -> None:
        """Asks for the rows in a list."""
        chosen = self.rows.ask_for_rows(self.labels, self.widgets.print_rows.get_text())
        if chosen is not None:
            self.widgets.print_what.set_active_id("rows")
            self.widgets.print_rows.set_text(chosen)

    def show_what(self, _control: Any = None) -> None:
        """Shows how many sheets are needed, and whether there is something to print."""
        wanted = self.wanted()
        prints, job = wanted.labels.prints, wanted.labels.job
        self.widgets.printing.set_response_sensitive(Gtk.ResponseType.OK, bool(prints))
        count = job.pages_of(len(prints))
        stock = job.options.stock or _("labels")
        text = ngettext(
            "Put {count} sheet of {stock} into the tray.",
            "Put {count} sheets of {stock} into the tray.",
            count,
        )
        if wanted.is_trial:
            text = _("Put plain paper into the tray.")
        is_sheet = not (job.form.is_roll or job.plan.sheet.is_single)
        put = text.format(count=count, stock=stock) if is_sheet else ""
        count = self.window.made.left_out
        left_out = whole_sentence(skipped(count)) if count else ""
        self.widgets.print_put.set_text("\n".join(filter(None, (put, left_out))))

    def wanted(self) -> Printout:
        """Returns what is chosen."""
        chosen = {TRAY: self.widgets.tray, MEDIA: self.widgets.media}
        options = {name: choice.get_active_id() for name, choice in chosen.items()}
        options = {name: word for name, word in options.items() if word}
        if self.widgets.print_trial.get_active():
            is_single = self.labels.job.plan.sheet.is_single or self.labels.job.form.is_roll
            first = replace(self.labels, prints=self.labels.prints[:1])
            trial = first if is_single else on_sheets(self.labels, ((1, 1),))
            return Printout(trial, {}, True)
        if not self.widgets.print_some.get_active():
            return Printout(self.labels, options)
        typed = self.widgets.print_rows.get_text()
        if self.widgets.print_what.get_active_id() == "sheets":
            return Printout(on_sheets(self.labels, ranges_in(typed.replace(" ", ""))), options)
        prints = labels_of_rows(self.labels.prints, parts_in(typed))
        return Printout(replace(self.labels, prints=prints), options)


def open_settings(queue: str) -> bool:
    """Opens the settings of printers of the desktop, or else the page of a queue of CUPS; returns
    that nothing else is to be opened.
    """
    for words in SETTINGS:
        if GLib.find_program_in_path(words[0]):
            Gio.Subprocess.new(list(words), Gio.SubprocessFlags.NONE)
            return True
    webbrowser.open(PAGE + quote(queue))
    return True


def all_text(labels: Prepared, is_roll: bool) -> str:
    """Returns how many labels and sheets all are."""
    count = len(labels.prints)
    text = ngettext("_All: {count} label", "_All: {count} labels", count).format(count=count)
    if is_roll:
        return text
    pages = labels.job.pages_of(count)
    sheets = ngettext("{count} sheet", "{count} sheets", pages).format(count=pages)
    return f"{text}, {sheets}"


def on_sheets(labels: Prepared, ranges: Ranges) -> Prepared:
    """Returns the labels that are on some sheets; only the first one may begin at a later cell."""
    job = labels.job
    pages = enumerate(labels.prints, 1)
    prints = [item for number, item in pages if is_in_ranges(job.pages_of(number), ranges)]
    first = job.options.first if is_in_ranges(1, ranges) else 1
    return replace(
        labels, prints=prints, job=replace(job, options=replace(job.options, first=first))
    )
