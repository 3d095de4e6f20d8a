#!/usr/bin/python3
"""Draws pictures of the window in its states, on a screen of its own (Xvfb).

It writes STATE.png into a folder for each state that a keeper may see, from `empty` to `happened`,
and window.png and window-steps.png for the pages. The tables, labels and pages are real; printers
and what happens to labels are made up.

    window_pictures.py FOLDER [--language de] [--size 1024x600] [--dark] [--large]
"""

import argparse
import os
import subprocess
import sys
import tempfile
import time
from collections.abc import Callable, Iterator
from pathlib import Path
from typing import Any
from unittest import mock

import cairo

import support
from printers import Printer as TestPrinter
from workbooks import rows, xlsx

NAMES = ("Pencil, red", "Pencil, blue", "Soap", "Gum", "Atlas of the sea", "Tea 100 g", "Candle")
SHOP = "EAN;Name;Price;Labels\n"
WRONG = """4,00638E+12;Rounded;1,20 €;1
A-17;No number;2,00 €;1
96385074;Gum;soon;1
4006381333931;Pencil;1E3;1
036000291452;Soap;2,95 €;many
;Nothing;1,00 €;1
"""
TWO_PRICES = "EAN;Name;Preis A;Preis B\n"
GOODS = rows(["EAN", "Name", "Price"], ["96385074", "Gum", "1,00"])
NUMBERED = (  # the widgets at the steps of the page, and where beside them the number is
    ("recent_button", 1.6, 0.5),
    ("ask_code", 0.0, 0.0),
    ("more_of_table", 0.55, 0.5),
    ("printer", 1.0, 0.5),
    ("stock", 1.0, 0.5),
    ("paper", 0.08, -0.04),
    ("left_out", 1.15, 0.5),
    ("print_button", 0.5, 1.1),
)
RED = (0.78, 0.1, 0.1)
RADIUS = 13  # pixels
MOST = 60.0  # seconds of a wait


def shop_table() -> str:
    """A table of a shop with one wrong number."""
    rows = [
        f"{support.ean13(401_234_500_000 + number)};{NAMES[number % len(NAMES)]};"
        f"{number % 23},{90 - number} €;{number % 3 + 1}\n"
        for number in range(24)
    ]
    rows.insert(5, "4006381333932;Wrong;1,20 €;1\n")
    return SHOP + "".join(rows)


class Camera:
    """A window of the tools that is shown state by state, and where its pictures are written."""

    def __init__(self, folder: Path, size: tuple[int, int], is_large: bool) -> None:
        from labeltools.window import gtk, printers, window

        self.folder, self.size = folder, size
        self.zebra: Any = None
        self.gtk, self.printers = gtk, printers
        gtk.Gtk.init([])
        gtk.add_style()
        if is_large:
            gtk.Gtk.Settings.get_default().set_property("gtk-xft-dpi", 144 * 1024)
        self.window: Any = window.Window()
        self.window.present()
        self.settle(0.5)
        head = self.window.widgets.head.get_allocated_height()  # GTK adds it to the height
        self.window.resize(size[0], size[1] - head)
        self.window.move(0, 0)
        self.window.get_window().focus(0)  # else no list is shown beside what is typed
        screen = gtk.Gdk.Screen.get_default()
        pointer = gtk.Gdk.Display.get_default().get_default_seat().get_pointer()
        pointer.warp(screen, size[0] - 1, size[1] - 1)

    def settle(self, seconds: float) -> None:
        """Lets the window work."""
        end = time.monotonic() + seconds
        while time.monotonic() < end:
            while self.gtk.Gtk.events_pending():
                self.gtk.Gtk.main_iteration_do(False)
            time.sleep(0.01)

    def until(self, is_done: Callable[[], Any]) -> None:
        """Waits for something."""
        end = time.monotonic() + MOST
        self.settle(0.05)  # what was done may be followed a little later
        while not is_done():
            if time.monotonic() > end:
                raise TimeoutError("the window did not get there")
            self.settle(0.05)

    def open(self, text: str | bytes, name: str = "Price list.csv") -> None:
        """Opens a table."""
        path = Path(tempfile.mkdtemp(dir=os.environ["XDG_CONFIG_HOME"]), name)
        path.write_bytes(text.encode() if isinstance(text, str) else text)
        self.window.open_table(path)
        self.until(lambda: self.window.has_labels or self.is_asking() or self.has_failed())
        self.settle(0.5)

    def is_asking(self) -> bool:
        """Whether the window asks something in place of the page."""
        return bool(self.window.widgets.stack.get_visible_child_name() == "asking")

    def has_failed(self) -> bool:
        """Whether the window says that it cannot read a file."""
        return self.window.path is not None and bool(self.window.widgets.bar.get_visible())

    def pixels(self) -> Any:
        """What the screen shows."""
        self.settle(0.7)
        root = self.gtk.Gdk.Screen.get_default().get_root_window()
        return self.gtk.Gdk.pixbuf_get_from_window(root, 0, 0, *self.size)

    def shot(self, name: str) -> None:
        """Writes a picture of the screen."""
        self.pixels().savev(str(self.folder / f"{name}.png"), "png", [], [])

    def while_asked(self, name: str, show: Callable[[], object]) -> None:
        """Writes a picture of the dialog that something shows, and closes that."""

        def look() -> bool:
            windows = self.gtk.Gtk.Window.list_toplevels()
            shown = [window for window in windows if window.get_visible()]
            dialogs = [window for window in shown if isinstance(window, self.gtk.Gtk.Dialog)]
            if dialogs:
                self.shot(name)
                dialogs[0].response(self.gtk.Gtk.ResponseType.CANCEL)
            return not dialogs

        self.gtk.GLib.timeout_add(300, look)
        show()

    def while_popped(self, name: str, button: Any) -> None:
        """Writes a picture of what a button of the head shows, and closes that."""
        button.set_active(True)
        self.shot(name)
        button.set_active(False)

    def type(self, text: str) -> None:
        """Types a text where the focus is: GTK shows no list beside one that is set."""
        gdk = self.gtk.Gdk
        for letter in text:
            event = gdk.Event.new(gdk.EventType.KEY_PRESS)
            event.window = self.window.get_window()
            event.keyval = gdk.unicode_to_keyval(ord(letter))
            event.set_device(gdk.Display.get_default().get_default_seat().get_keyboard())
            self.gtk.Gtk.main_do_event(event)
        self.settle(1)

    def numbered(self, name: str) -> None:
        """Writes a picture with the numbers of the steps of the page."""
        pixels = self.pixels()
        pixels.savev(str(self.folder / "plain.png"), "png", [], [])
        surface = cairo.ImageSurface.create_from_png(str(self.folder / "plain.png"))
        (self.folder / "plain.png").unlink()
        canvas = cairo.Context(surface)
        canvas.select_font_face("DejaVu Sans", cairo.FONT_SLANT_NORMAL, cairo.FONT_WEIGHT_BOLD)
        canvas.set_font_size(15)
        for number, (widget, right, down) in enumerate(NUMBERED, 1):
            draw_number(canvas, str(number), *self.place(widget, right, down))
        surface.write_to_png(str(self.folder / name))

    def place(self, name: str, right: float, down: float) -> tuple[float, float]:
        """Where a number is, as parts of the width and height of a widget."""
        if name == "ask_code":  # beside the heading
            x, y = self.window.widgets.panel.translate_coordinates(self.window, 0, 0)
            return x + 130, y + 12
        widget = self.window.builder.get_object(name)
        x, y = widget.translate_coordinates(self.window, 0, 0)
        area = widget.get_allocation()
        return x + right * area.width, y + down * area.height


def draw_number(canvas: Any, text: str, x: float, y: float) -> None:
    """Draws a number in a disc."""
    canvas.new_path()
    canvas.set_source_rgb(1, 1, 1)
    canvas.arc(x, y, RADIUS + 1.5, 0, 7)
    canvas.fill()
    canvas.set_source_rgb(*RED)
    canvas.arc(x, y, RADIUS, 0, 7)
    canvas.fill()
    canvas.set_source_rgb(1, 1, 1)
    box = canvas.text_extents(text)
    canvas.move_to(x - box.x_bearing - box.width / 2, y - box.y_bearing - box.height / 2)
    canvas.show_text(text)


def made_up(address: str) -> Iterator[Any]:
    """Yields printers that nobody has, and one of the tests."""
    from labeltools.sending.job import REASONS
    from labeltools.sending.printers import NETWORK, NOT_TRIED, Printer, QUEUE, READY, USB
    from labeltools.common.text import Text

    yield Printer("laser", "HP LaserJet 400", QUEUE, READY, True, "pdf")
    yield Printer("office", "Kyocera Büro", QUEUE, REASONS["media-empty"].what, False, "pdf")
    state = Text("{}", "192.168.1.40")
    yield Printer(address, "Zebra ZD421", NETWORK, state, True, "zpl", 203)
    yield Printer("/dev/usb/lp0", "lp0", USB, NOT_TRIED)


def show_tables(camera: Camera) -> None:
    """Pictures of tables, and of questions about them."""
    window = camera.window
    camera.shot("empty")
    camera.open(b"\xd0\xcf\x11\xe0", "Old list.xls")
    camera.shot("no-table")
    camera.open(shop_table())
    camera.shot("ordinary")
    camera.while_popped("menu", window.widgets.menu_button)
    window.widgets.fold.set_expanded(True)
    camera.shot("errors")
    window.widgets.fold.set_expanded(False)
    window.widgets.first.set_value(3)
    camera.until(lambda: window.has_labels)
    camera.shot("window")
    camera.numbered("window-steps.png")
    window.result.point_at(5)
    camera.shot("large")
    window.result.point_at(0)
    window.widgets.more_of_table.set_expanded(True)
    window.widgets.more_of_paper.set_expanded(True)
    camera.shot("more")
    window.widgets.more_of_table.set_expanded(False)
    scroll = window.widgets.panel.get_ancestor(camera.gtk.Gtk.ScrolledWindow).get_vadjustment()
    camera.settle(0.3)
    scroll.set_value(scroll.get_upper())
    camera.shot("more-below")
    window.widgets.design.popup()
    camera.shot("designs")
    window.widgets.design.popdown()
    window.widgets.more_of_paper.set_expanded(False)
    show_questions(camera)


def show_questions(camera: Camera) -> None:
    """Pictures of what the window asks about tables, and of many errors."""
    window = camera.window
    camera.open(TWO_PRICES + "96385074;Gum, red;1,20;0,80\n4006381333931;Pencil;2,00;1,20\n")
    camera.shot("doubt")
    camera.open("EAN;Name\n96385074;Füller, blau\n".encode("cp1252"))
    camera.shot("file")
    camera.open(xlsx(GOODS, ("Tea", "visible", GOODS)), "Price list.xlsx")
    camera.shot("asking")
    camera.open(shop_table() + WRONG)
    window.widgets.fold.set_expanded(True)
    camera.shot("many-errors")
    camera.open(shop_table())
    window.table.keep_printed(window.made.records_of(window.made.labels))
    camera.open(shop_table().replace("Soap", "Soap, blue"))
    window.widgets.new_only.set_active(True)
    camera.until(lambda: window.has_labels)
    camera.shot("new-only")
    window.widgets.new_only.set_active(False)
    camera.until(lambda: window.has_labels)


def show_printers(camera: Camera) -> None:
    """Pictures of the list of printers and of the dialogs."""
    from labeltools.sending.queue import MEDIA, TRAY
    from labeltools.window.presets import ask_for_name

    window = camera.window
    window.widgets.printer.popup()
    camera.shot("printers")
    window.widgets.printer.popdown()
    window.of_printers.choose("/dev/usb/lp0")
    camera.shot("language")
    window.of_printers.choose("laser")
    camera.until(lambda: window.has_labels)
    options = {
        TRAY: {"1": "Tray 1", "Manual": "Manual feed"},
        MEDIA: {"Plain": "Plain paper", "Labels": "Labels"},
    }
    printer, labels = window.of_printers.all["laser"], window.made.labels
    ask = window.ways.printing.ask_what_is_printed
    camera.while_asked("dialog", lambda: ask(printer, labels, options))
    camera.while_asked("adding", window.of_printers.ask_for_printer)
    rows = window.ways.printing.rows
    camera.while_asked("rows", lambda: rows.ask_for_rows(labels, "2-4, 9 × 5"))
    camera.while_asked("naming", lambda: ask_for_name(window))
    camera.while_asked("own-sheet", window.own_sheets.ask_for_sheet)
    camera.while_asked("one-label", lambda: window.lookup_action("type").activate(None))
    window.widgets.stock.grab_focus()
    window.widgets.stock.set_text("")
    camera.type("Avery L71")
    camera.shot("sheets")
    window.widgets.stock.set_text("Avery L7160")
    window.widgets.print_button.grab_focus()
    camera.until(lambda: window.has_labels)


def show_events(camera: Camera) -> None:
    """Pictures of what happens to labels."""
    from labeltools.common.text import Text
    from labeltools.sending.job import JobState, REASONS, SentJob, trouble_of
    from labeltools.window.ways import event_of

    window = camera.window
    job = SentJob("laser", 12)
    for name, state in (
        ("printed", JobState(Text(""), "", True, True)),
        ("no-paper", waiting_for(job, REASONS["media-empty"])),
        ("offline", waiting_for(job, REASONS["offline"])),
        ("paused", waiting_for(job, trouble_of("laser", {"printer-state-reasons": ["paused"]}))),
        ("cancelled", JobState(Text("job {} was cancelled", 12), "", True)),
        ("given-up", JobState(Text("the printer gave up job {}", 12), "", True)),
    ):
        window.events.hide()
        window.events.report(event_of(job, 49, state, "HP LaserJet 400"))
        camera.shot(name)
    zebra = camera.zebra
    window.of_printers.choose(zebra.name)
    camera.until(lambda: window.has_labels)
    camera.shot("roll")
    labels = window.made.labels
    camera.while_asked("roll-dialog", lambda: window.ways.ask_direct(window.of_printers.chosen))
    show_progress(camera)
    window.ways.send_to("tcp://127.0.0.1:9", labels)  # nobody listens there
    camera.until(lambda: window.widgets.bar.get_visible())
    camera.shot("silent")
    window.events.hide()
    window.ways.send_to(zebra.name, labels)
    camera.until(lambda: window.widgets.bar.get_visible())
    camera.shot("failed")
    camera.while_asked("in-doubt", window.events.act)
    design = support.TOP / "designs/shelf-60x40.svg"
    window.take_values(design=str(design))
    camera.until(lambda: window.has_labels)
    camera.shot("own-design")
    camera.while_popped("happened", window.widgets.history_button)


def waiting_for(job: Any, trouble: Any) -> Any:
    """The state of a job whose queue is in trouble."""
    from labeltools.common.text import Text
    from labeltools.sending.job import JobState

    what = Text("{}: {}", job.queue, trouble.what)
    return JobState(what, "", False, is_waiting=True, cure=trouble.hint)


def show_progress(camera: Camera) -> None:
    """A picture while labels are printed one by one."""
    from labeltools.window.shop import WindowTalk
    from labeltools.window.work import progress_text

    window = camera.window
    window.widgets.working.show()
    window.widgets.progress.set_fraction(23 / 49)
    talk = WindowTalk()
    talk.done, talk.total, talk.printer = 23, 49, "Zebra ZD421"
    window.widgets.progress.set_text(progress_text(talk))
    camera.shot("printing")
    window.widgets.working.hide()


def draw(options: argparse.Namespace) -> None:
    """Draws all, where there is a screen."""
    sys.path.insert(0, str(support.TOOLS))
    width, _, height = options.size.partition("x")
    zebra = TestPrinter(within=17).start()  # which breaks off once
    shown = [*made_up(zebra.name)], "laser"
    found = mock.patch("labeltools.window.printers.found_printers", return_value=shown)
    from labeltools.sending.queue import Queue

    queue = mock.patch("labeltools.window.printers.queue_of", lambda name: Queue(name, 600, {}))
    with found, queue:
        camera = Camera(Path(options.folder), (int(width), int(height)), options.large)
        camera.zebra = zebra
        camera.until(lambda: camera.window.of_printers.wanted)
        for show in (show_tables, show_printers, show_events):
            show(camera)
        camera.window.destroy()


def main() -> None:
    """Starts a screen, and draws on it."""
    parser = argparse.ArgumentParser(description=(__doc__ or "").splitlines()[0])
    parser.add_argument("folder")
    parser.add_argument("--language", default="en")
    parser.add_argument("--size", default="1024x600")
    parser.add_argument("--dark", action="store_true")
    parser.add_argument("--large", action="store_true")
    options = parser.parse_args()
    Path(options.folder).mkdir(parents=True, exist_ok=True)
    if os.environ.get("OF_WINDOW_PICTURES"):
        draw(options)
        return
    with tempfile.TemporaryDirectory() as home:
        reading, writing = os.pipe()
        words = f"Xvfb -displayfd {writing} -screen 0 {options.size}x24 -nolisten tcp".split()
        screen = subprocess.Popen(words, pass_fds=[writing], stderr=subprocess.DEVNULL)
        os.close(writing)
        with os.fdopen(reading) as file:
            number = file.readline().strip()
        environment = {
            **support.speaking(options.language, home),
            "OF_WINDOW_PICTURES": "1",
            "DISPLAY": f":{number}",
            "GDK_BACKEND": "x11",
            "NO_AT_BRIDGE": "1",
            "GSETTINGS_BACKEND": "memory",
            "XDG_CONFIG_HOME": home,
            "XDG_DATA_HOME": home,
            "DBUS_SESSION_BUS_ADDRESS": "disabled:",
            **({"GTK_THEME": "Adwaita:dark"} if options.dark else {}),
        }
        try:
            subprocess.run([sys.executable, *sys.argv], env=environment, check=True)
        finally:
            screen.terminate()
            screen.wait()


if __name__ == "__main__":
    main()
