"""Tries the window on a screen of its own (Xvfb): what it prints is what the commands print."""

import gettext
import json
import os
import random
import re
import shlex
import subprocess
import sys
import tempfile
import threading
import time
import unittest
from contextlib import contextmanager, redirect_stderr, redirect_stdout
from dataclasses import asdict, replace
from functools import partial
from importlib import import_module
from io import StringIO
from itertools import permutations, product
from pathlib import Path
from types import SimpleNamespace
from typing import Any, Callable, Iterator
from unittest import mock
from xml.etree import ElementTree

import cairo

import support
import test_german
from labeltools.commands.label_print import OPTIONS, print_options
from labeltools.commands.label_table import table_options
from labeltools.common.arguments import words_of
from labeltools.common.messages import Problem, ToolError
from labeltools.common.text import capitalized, NOTHING, Text, translated
from labeltools.drawing.forms import FORMS
from labeltools.layout.layout import LaidOut
from labeltools.paper.stock import stock_sheet
from labeltools.printing.job import planned
from labeltools.sending import cups as sending_cups, network, printers as sending
from labeltools.sending.job import JobState, SentJob
from labeltools.sending.queue import Queue
from labeltools.tables.codes import NAMES, WAYS_OF_DIGITS
from printers import Printer, READY, STATUS
from scheduler import raster_of, Scheduler, WITH_TEST
from workbooks import cell, rows, xlsx

TABLE = """Nr;EAN;Name;Price;Stock;Labels
1;4006381333931;Pencil, red;0,80 €;5000;3
2;036000291452;Soap;2,95 €;12;2
3;4006381333932;wrong;1,20 €;7;1
4;96385074;Gum, and a title that is longer than any label;1,20 €;8;1
"""
PROGRAMS = ("Xvfb", "pdftoppm", "msgfmt")
WAIT = 300.0  # seconds for work, on a busy machine too
BEAT = 10  # milliseconds between two looks at the window
SCALE = 4  # pixels of a millimetre
TYPED = ("stock", "edge", "note", "for_table", "for_print")  # GTK tells of these a moment later
LOADED = (
    "application bar choices designs further gtk owners presets printers questions sheets shop ways window"
    " work".split()
)
# What setUpModule makes.
screen: Any = None
scheduler: Any = None
folder: Any = None
application: Any = None
bar: Any = None
choices: Any = None
designs: Any = None
further: Any = None
owners: Any = None
presets: Any = None
printers: Any = None
gtk: Any = None
questions: Any = None
sheets: Any = None
shop: Any = None
ways: Any = None
window: Any = None
work: Any = None
Gdk: Any = None
Gio: Any = None
GLib: Any = None
Gtk: Any = None


def setUpModule() -> None:
    """Starts a screen and a scheduler; GTK is loaded when they are there."""
    support.labels_program()
    support.needs(*PROGRAMS)
    global screen, scheduler, folder
    support.needs_module("cups")
    scheduler = Scheduler()  # GTK finds it where it looks for printers
    folder = tempfile.TemporaryDirectory()
    reading, writing = os.pipe()
    words = f"Xvfb -displayfd {writing} -screen 0 1280x900x24 -nolisten tcp".split()
    screen = subprocess.Popen([*WITH_TEST, *words], pass_fds=[writing], stderr=subprocess.DEVNULL)
    os.close(writing)
    with os.fdopen(reading) as file:
        number = file.readline().strip()
    os.environ.update(
        DISPLAY=f":{number}",
        GDK_BACKEND="x11",
        LANGUAGE="en",
        NO_AT_BRIDGE="1",
        XDG_CONFIG_HOME=folder.name,
        XDG_DATA_HOME=folder.name,  # of the tables that were opened
        # a bus that GLib starts for this screen ends with it, and then ends this process
        DBUS_SESSION_BUS_ADDRESS="disabled:",
    )
    load()


def load() -> None:
    """Loads the window, where there is a screen. Nothing moves on it, since each step of a movement
    would be drawn.
    """
    global application, bar, choices, designs, further, gtk, owners, presets, printers, questions
    global sheets
    global shop, ways, window, work, Gdk, Gio, GLib, Gtk
    sys.path.insert(0, str(support.TOOLS))
    (
        application,
        bar,
        choices,
        designs,
        further,
        gtk,
        owners,
        presets,
        printers,
        questions,
        sheets,
        shop,
        ways,
        window,
        work,
    ) = (import_module(f"labeltools.window.{name}") for name in LOADED)
    Gdk, Gio, GLib, Gtk = gtk.Gdk, gtk.Gio, gtk.GLib, gtk.Gtk
    Gtk.init([])
    Gtk.Settings.get_default().set_property("gtk-enable-animations", False)


def tearDownModule() -> None:
    """Ends the screen."""
    screen.terminate()
    screen.wait()
    scheduler.stop()
    folder.cleanup()


def settle() -> None:
    """Lets the windows do all that waits, and what the screen answers to what they asked of it."""
    Gdk.Display.get_default().sync()
    while Gtk.events_pending():
        Gtk.main_iteration_do(False)


def until(is_done: Callable[[], Any]) -> None:
    """Lets the windows work until something is so."""
    end = time.monotonic() + WAIT
    while not is_done():
        if time.monotonic() > end:
            raise AssertionError("the window did not get there")
        settle()
        time.sleep(BEAT / 1000)


def draw(shown: Any) -> None:
    """Waits until a window is drawn as it is now: for a third time, since what is drawn may move
    what is beside it.
    """
    for _ in range(3):
        frames: list[Any] = []
        clock = shown.get_frame_clock()
        handler = clock.connect("after-paint", frames.append)
        clock.request_phase(Gdk.FrameClockPhase.PAINT)
        until(lambda: frames)
        clock.disconnect(handler)


def settle_until(is_done: Callable[[], Any]) -> None:
    """Waits in a thread of its own."""
    while not is_done():
        time.sleep(BEAT / 1000)


def inside(widget: Any) -> Any:
    """Yields a widget, and all that are in it."""
    yield widget
    if isinstance(widget, Gtk.Container):
        for child in widget.get_children():
            yield from inside(child)


def named(widget: Any) -> Any:
    """Yields the controls in a widget that a keyboard reaches, with their names."""
    kinds = (Gtk.Button, Gtk.ComboBox, Gtk.Entry, Gtk.TreeView, Gtk.DrawingArea)
    for control in inside(widget):
        if control.get_visible() and isinstance(control, kinds):
            label = getattr(control, "get_label", lambda: None)()
            relations = control.get_accessible().ref_relation_set()
            labelled = any(relations.get_relation(n) for n in range(relations.get_n_relations()))
            yield control, control.get_accessible().get_name() or label or labelled


def cut_texts(widget: Any) -> Iterator[str]:
    """Yields the texts in a widget that have less room than they need."""
    for label in gtk.widgets_within(widget):
        if isinstance(label, Gtk.Label) and label.get_mapped():
            layout, room = label.get_layout(), label.get_allocation()
            width, height = layout.get_pixel_size()
            is_cut = width > room.width + 1 or height > room.height + 1
            if is_cut or layout.is_ellipsized():
                yield label.get_text()


def show_cut_texts(path: Path) -> None:
    """Prints the texts that are cut in a window with a table, on a low screen with large letters:
    with all that it can show, and while it asks how a table is read.
    """
    load()
    gtk.add_style()
    Gtk.Settings.get_default().set_property("gtk-xft-dpi", 144 * 1024)
    shown = window.Window()
    shown.present()
    shown.resize(1024, 554)
    shown.open_table(path)
    until(lambda: shown.has_labels)
    for fold in (shown.widgets.more_of_table, shown.widgets.more_of_paper, shown.widgets.fold):
        fold.set_expanded(True)
    shown.table = shown.path = None  # it is only looked at
    given = "--variants-of Handle --encoding cp1252 --decimal point --digits lost-zeros --links"
    shown.take_values(given_table=given, given_print="--edge 1 --paper-as-given")
    for name in questions.BELOW:
        answers = [("Preis A  –  19,57", bool)] * 2
        shown.questions.below[name].ask(translated(questions.WHICH["copies"]), answers)
    draw(shown)
    print([*cut_texts(shown.get_child())])
    long = Text(
        "it is not clear how the letters of {} are stored", "Price list of the old till.csv"
    )
    asked = questions.in_sentences(Problem(long))
    shown.questions.ask_of_file(asked, asked, [("Füller", bool)] * 4)
    draw(shown)
    print([*cut_texts(shown.get_child())])


class Keeper(unittest.TestCase):
    """A shop keeper at a window: what he does, and what he sees."""

    def setUp(self) -> None:
        self.has_typed = False  # options, which a sentence may repeat
        self.raised: list[Any] = []
        hook = sys.excepthook
        sys.excepthook = lambda *error: self.raised.append(error)  # GTK goes on after an error
        self.addCleanup(setattr, sys, "excepthook", hook)
        self.folder = Path(tempfile.mkdtemp(dir=folder.name))
        memory = mock.patch("labeltools.window.memory.FOLDER", self.folder / "labels")
        memory.start()
        self.addCleanup(memory.stop)
        none = mock.patch.object(printers, "found_printers", return_value=([], ""))
        none.start()
        self.addCleanup(none.stop)
        self.table = self.folder / "articles.csv"
        self.table.write_text(TABLE)
        self.untold: set[Any] = set()  # fields whose text GTK has yet to tell of
        self.begin()

    def begin(self) -> None:
        """Shows a window, which has looked for printers."""
        self.window = window.Window()
        self.window.present()
        for name in TYPED:
            self.widgets.__dict__[name].connect("changed", self.untold.add)
            self.widgets.__dict__[name].connect("search-changed", self.untold.discard)
        self.until(lambda: self.window.of_printers.wanted)

    @property
    def widgets(self) -> Any:
        """The widgets of the window that code uses."""
        return self.window.widgets

    def tearDown(self) -> None:
        if not self.has_typed:
            self.check_sentences()
        self.window.destroy()
        settle()
        self.assertEqual(self.raised, [])

    def check_sentences(self) -> None:
        """No sentence of the window names an option."""
        shown = [*self.happened(), *(row[2] for row in self.rows()), *self.answers()]
        self.assertNotIn("--", "".join(shown) + self.problem() + self.counted())

    def shown(self) -> Any:
        """The pixels of what the window shows, and how many of them are dark."""
        shown = self.window.result.shown
        sides = (round(side * SCALE) for side in shown.size)
        surface = cairo.ImageSurface(cairo.FORMAT_RGB24, *sides)
        canvas = cairo.Context(surface)
        canvas.scale(SCALE, SCALE)
        shown.draw(canvas, self.widgets.number.get_value_as_int())
        surface.flush()
        data = bytes(surface.get_data())
        return data, data.count(bytes(3))

    def until(self, is_done: Callable[[], Any]) -> None:
        """Waits for something."""
        until(is_done)

    def rest(self) -> None:
        """Waits until nothing is under way: what is typed is told, each thread has done its work,
        and what came of it is shown.
        """
        talk = None
        while talk is not self.window.work.talk:
            talk = self.window.work.talk
            threads = self.window.work.thread, self.window.of_printers.thread
            ends = [thread.submit(int) for thread in threads]
            self.until(lambda: not self.untold and all(end.done() for end in ends))
            settle()

    def open(self, text: str | bytes | None = None, path: Path | None = None) -> None:
        """Opens the table, with another text where one is given, or another file."""
        if text is not None:
            self.table.write_bytes(text if isinstance(text, bytes) else text.encode())
        self.window.events.hide()
        self.window.open_table(path or self.table)
        self.rest()
        self.assertTrue(self.window.has_labels or self.problem())

    def closed(self) -> None:
        """Leaves the table, for a file that is not there."""
        self.window.table = self.window.before = None
        self.window.open_table(self.folder / "none.csv")
        self.until(self.problem)
        self.window.events.hide()

    def counted(self) -> Any:
        """What the window says of its labels."""
        return self.widgets.count.get_text()

    def answer(self, name: str, **values: Any) -> Any:
        """A dialog of the window that is confirmed, and has these values."""
        calls = {f"{call}.return_value": value for call, value in values.items()}
        confirmed = Gtk.ResponseType.ACCEPT if "get_filename" in values else Gtk.ResponseType.OK
        dialog = mock.Mock(**{"run.return_value": confirmed, **calls})
        setattr(self.widgets, name, dialog)

    def change(self, **choices: Any) -> None:
        """Changes choices, and waits for the labels; for other words the table is read again."""
        self.has_typed = self.has_typed or bool({"for_table", "for_print"}.intersection(choices))
        self.remade(lambda: [self.window.take_values(**{name: choices[name]}) for name in choices])

    def remade(self, change: Callable[[], Any]) -> None:
        """Changes something, and waits for its labels."""
        self.window.events.hide()
        change()
        self.rest()
        self.assertTrue(self.window.has_labels or self.problem())

    def problem(self) -> Any:
        """What the window asks, or says that it cannot do."""
        if self.widgets.stack.get_visible_child_name() == "asking":
            return f"{self.widgets.asked.get_text()}\n{self.widgets.asked_more.get_text()}"
        asked = [self.window.questions.below[name] for name in questions.BELOW]
        if texts := [box.text.get_text() for box in asked if box.get_visible()]:
            return texts[0]
        event = self.window.events.event
        is_wrong = self.widgets.bar.get_visible() and event.kind == "error"
        return event.sentence if is_wrong else ""

    def said(self) -> Any:
        """What the bar says, but for where the next labels begin; nothing where it is closed."""
        text = self.widgets.bar_text.get_text() if self.widgets.bar.get_visible() else ""
        return text.partition(" The next labels begin")[0]

    def happened(self) -> Any:
        """What the list behind the clock says, the newest first."""
        rows = [row.get_child().get_children() for row in self.widgets.history_list.get_children()]
        return [parts[-1].get_text() for parts in rows]

    def records(self) -> Any:
        """What the labels are of that are shown."""
        return [label.record for label in self.window.made.labels.labels]

    def answers(self) -> Any:
        """The buttons that help."""
        asked = [self.window.questions.below[name] for name in questions.BELOW]
        boxes = [box.answers for box in asked if box.get_visible()] + [*self.widgets.helps]
        if self.widgets.stack.get_visible_child_name() == "asking":
            boxes = [self.widgets.answers]
        seen = [button for box in boxes for button in box if button.get_visible()]
        found = {button.get_label() or button.get_child().get_text(): button for button in seen}
        act = self.widgets.bar_act
        return {**found, act.get_label(): act} if self.said() and act.get_visible() else found

    def said_after(self, work: Callable[..., Any], *values: Any) -> Any:
        """What the window says once it has saved, printed or sent labels."""
        before = self.widgets.history_list.get_children()[:1]
        work(*values)
        self.until(lambda: self.widgets.history_list.get_children()[:1] != before or self.problem())
        rows = self.widgets.history_list.get_children()
        place = rows.index(before[0]) if before else len(rows)
        return self.happened()[place - 1].removeprefix("6 labels are ")

    def saved(self, name: str) -> Any:
        """What the window saves."""
        path = self.folder / name
        self.said_after(self.window.ways.save, path)
        self.assertEqual(self.problem(), "")
        return path.read_bytes()

    def pressed(self, button: str, answer: bool | None = None) -> None:
        """Presses the button that has a text, and answers what is asked in a dialog then."""
        how = {} if answer is None else {"return_value": answer}
        with mock.patch.object(self.window, "asked_in_dialog", create=True, **how):
            self.answers()[button].clicked()
            settle()

    def chosen(self, key: str) -> None:
        """Chooses a printer, of those that are there now."""
        kept = printers.PRINTERS.all()
        self.window.of_printers.fill_list([*sending.known_printers(kept)])
        self.remade(lambda: self.window.of_printers.choose(key))

    def answered(self, printer: str, kind: str = "", which: str = "") -> Any:
        """What the window says once it has printed on a printer: all labels, a trial, or some rows
        or sheets.
        """
        self.chosen(printer)
        return self.confirmed(kind, which)

    def confirmed(self, kind: str = "", which: str = "") -> Any:
        """What the window says once Print is pressed, there and in the dialog."""
        with self.in_dialog(partial(self.confirm, kind, which)):
            return self.said_after(self.widgets.print_button.clicked)

    @contextmanager
    def in_dialog(self, act: Callable[[], Any]) -> Iterator[None]:
        """Does something in the dialog that asks what is printed, each time that it is there."""

        def look() -> bool:
            if self.widgets.printing.get_visible():
                act()
            return True

        looks = GLib.timeout_add(BEAT, look)
        try:
            yield
        finally:
            GLib.source_remove(looks)

    def confirm(self, kind: str = "", which: str = "") -> None:
        """Presses Print in the dialog."""
        self.widgets.print_trial.set_active(kind == "trial")
        if which:
            self.widgets.print_what.set_active_id(kind)
            self.widgets.print_rows.set_text(which)
        self.widgets.printing.response(Gtk.ResponseType.OK)

    def by_commands(self, *words: Any) -> Any:
        """What the commands write for the table."""
        options = [
            "--header-row",
            "1",
            "--code",
            "2",
            "--title",
            "3",
            "--price",
            "4",
            "--copies",
            "6",
        ]
        lines = support.run("label-table", *options, "--", self.table).stdout
        return support.run("label-print", *words, input=lines).stdout

    def rows(self) -> Any:
        return [tuple(row) for row in self.widgets.notes]


GUM = "EAN;Name;Price\n96385074;Gum;1,00\n"
TEA = GUM + "4006381333931;Tea;{}\n"
NOT_YET = GUM + "{};Tea;2,00\n"
PEN = "EAN;Name;Price\n4006381333931;Pen;1,00\n{};Tea;2,00\n"
TWO = "EAN;Name;Price\n{};Tea;2,00\n{};Pen;1,00\n"
IS_AUTO = {"symbology": "auto"}
OPEN = "EAN;Name;Price\n96385074;Gum;1,200\n4006381333931;Pen;2,500\n"
CARETS = "EAN^Name\n96385074^Gum\n4006381333931^Tea\n"
CARET = "EAN^13\n96385074\n4006381333931\n"
BARE = "--digits no-check"
NAMED = ["EAN", "Name", "Price"]
BOUGHT = ["96385074", "Gum", "1,00"]
LINK = '<c t="str"><f>HYPERLINK("https://example.com/7","Here")</f><v>Here</v></c>'
HIDDEN = rows(NAMED, BOUGHT, ["4006381333931", "Tea", "2,00"]).replace('r="3"', 'r="3" hidden="1"')
SHEETS = xlsx(
    rows(NAMED, BOUGHT), ("Tea", "visible", rows(NAMED, ["4006381333931", "Tea", "2,00"]))
)
NUMBERS = rows(NAMED, ["96385074", "Gum", cell(1.5, style=1)])
DAYS = rows(NAMED, ["96385074", cell(45678, style=1), "1,00"])
# a table, what is chosen before, a button that helps, and the words of label-table instead
PRESSED: tuple[tuple[str | bytes, dict[str, Any], str, str], ...] = (
    (NOT_YET.format("36000291452"), {}, "Put lost zeros back in front", "--digits lost-zeros"),
    (NOT_YET.format("4006350000000"), {}, "Take codes that end in zeros", "--allow-zeros"),
    (TWO.format("3", "4"), IS_AUTO, "Draw the codes as Code 128", "--symbology code128"),
    (TWO.format("A-1", "A-2"), IS_AUTO, "Draw the codes as QR Code", "--symbology qr"),
    (NOT_YET.format("01234565"), {}, "Draw the codes as EAN-8", "--symbology ean8"),
    (PEN.format("0000096385074"), {}, "Draw the codes as EAN-13", "--symbology ean13"),
    (
        NOT_YET.format("40063813339"),
        {"for_table": BARE},
        "Draw the codes as UPC-A",
        f"{BARE} --symbology upca",
    ),
    (NOT_YET.format("4006381333931"), {"for_table": "--symbology ean8"}, "Find their kind", ""),
    (TWO.format("400638133393", "401234500000"), {}, "Add check digits to the codes", BARE),
    (
        NOT_YET.format("4006381333931"),
        {"for_table": BARE},
        "Take the last digit as the check digit",
        "",
    ),
    (TEA.format("soon"), {}, "Take any text as a price", "--price-as text"),
    (TEA.format("2,0000"), {"price_as": ""}, "Print two decimals", "--price-as 0,00"),
    (TEA.format("Taler2,00"), {}, "Take Taler as a currency", "--currency-name Taler"),
    (
        TEA.format("2,00"),
        {"for_table": "--digits lost-zeros", "symbology": "code128"},
        "Put no zeros in front",
        "--symbology code128",
    ),
    (
        TEA.format("2,00"),
        {"for_table": "--digits lost-zeros", "symbology": "code128"},
        "Find their kind",
        "--digits lost-zeros",
    ),
    (
        TEA.format("2,00"),
        {"price": "", "for_table": "--price-as text"},
        "Print prices as in the table",
        "--code 1 --title 2",
    ),
    (TEA.format("2,00"), {"for_table": "--hidden"}, "Read it all the same", ""),
    (TEA.format("2,00"), {"for_table": "--delimiter tab"}, "Find what is between cells", ""),
    (
        "of May;;\n" + TEA.format("2,00"),
        {"for_table": "--where Name=Gum", "header_row": 1},
        "Take the names from row 2",
        "--header-row 2 --where Name=Gum",
    ),
    (
        OPEN.replace(",", "."),
        {"price_as": "€0.00"},
        "The comma, as in 1,50",
        "--decimal comma --price-as €0.00",
    ),
    (
        OPEN,
        {"price_as": "€0.00"},
        "The point, as in 1.50",
        "--decimal point --price-as €0.00",
    ),
    (CARETS, {}, "It is between cells", "--code 1 --title 2 --delimiter ^"),
    (CARET, {}, "It is data", "--code 1 --delimiter none"),
    (
        GUM.replace("Gum", "Füller").encode("cp1252"),
        {"given_table": ""},
        "Füller",
        "--encoding cp1252",
    ),
    (GUM.replace("Gum", "Füller").encode("utf-16-le"), {}, "Füller", "--encoding utf-16-le"),
    (
        GUM.replace("Gum", "Füller").encode(),
        {"for_table": "--encoding cp1252"},
        "Read the letters as they are stored",
        "",
    ),
    (SHEETS, {}, "Tea", "--sheet Tea"),
    (xlsx(HIDDEN), {}, "Print hidden rows too", "--hidden"),
    (xlsx(NUMBERS, formats=["0.00"]), {}, "1,50", "--decimal comma"),
    (xlsx(DAYS, formats=[14]), {"title": "2"}, "Print dates as 31.12.2026", "--date-as dd.mm.yyyy"),
    (
        xlsx(rows(NAMED, [LINK, "Gum", "1,00"], ["B7", "Tea", "2,00"])),
        {"symbology": "qr"},
        "Draw the address",
        "--symbology qr --links",
    ),
)


# what a button says that it changes of a label
CHANGED = {"Draw the address": "code", "Print dates as 31.12.2026": "title"}
# a table, what is chosen before, and a button that would do harm to its first row
HARMFUL: tuple[tuple[str, dict[str, Any], str], ...] = (
    (NOT_YET.format("A-1"), {}, "Draw the codes as Code 128"),
    (NOT_YET.format("3"), {}, "Draw the codes as QR Code"),
    (NOT_YET.format("0000096385074"), {}, "Draw the codes as EAN-13"),
    (PEN.format("01234565"), {}, "Draw the codes as EAN-8"),
    (NOT_YET.format("400638133393"), {}, "Add check digits to the codes"),
    (
        TWO.format("01234565", "4006381333931"),
        {"for_table": "--symbology ean8"},
        "Find their kind",
    ),
    (TEA.format("2,0000").replace("1,00", "1,00 €"), {"price_as": ""}, "Print two decimals"),
    (
        "EAN;Name;Price;Currency\n96385074;Gum;1.00;EUR\n4006381333931;Tea;soon;EUR\n",
        {"for_table": "--currency Currency"},
        "Take any text as a price",
    ),
)


# a driver, the height of labels on its roll, a button that helps, and the words of label-print
OF_PRINTERS = (
    ("edged", 40, "Keep labels away from the edge", "--edge 4.3,4.3,4.3,4.3"),
    ("general", 40, "Keep labels away from the edge", "--edge 6.4,12.7,6.4,12.7"),
    ("general", 40, "Print on this paper", "--paper-as-given"),
)


class Ids(unittest.TestCase):
    """Code finds what it uses of window.ui by its ids, and each id has a use."""

    # ids by which tests and pictures for the pages find something, and code does not
    BY_TESTS = {"recent_button"}

    def test_each_id_has_a_use_and_each_use_an_id(self) -> None:
        folder = support.TOOLS / "labeltools/window"
        tree = ElementTree.parse(folder / "window.ui")
        parts = [*tree.iter("object"), *tree.iter("menu"), *tree.iter("section")]
        ids = {part.get("id") for part in parts if part.get("id")}
        code = "".join(path.read_text() for path in folder.glob("*.py"))
        used = {*re.findall(r"widgets\.(\w+)", code), *re.findall(r'get_object\("(\w+)', code)}
        used |= {*window.CONTROLS, *(f"ask_{name}" for name in questions.BELOW)}
        used |= {f"sheet_{name}" for name in sheets.OwnSheet.__dataclass_fields__}
        used |= {"printing", "adding", "choosing", "describing", "typing"}
        self.assertEqual(used - ids, set())
        named = {part.text for part in tree.iter()}  # in the file itself
        named |= {part.get("bind-source") for part in tree.iter("property")}
        self.assertEqual(ids - used - named, self.BY_TESTS)


class Mnemonics(unittest.TestCase):
    """Alt and a letter lead to one control of the window, or of a dialog, in each language."""

    MORE = {  # what code sets there
        "printing": ("_All: {count} label", "_Trial: one label"),
        "LabelsWindow": ("Onl_y what is new or changed since {date}",),
    }
    INSTEAD = ("Sto_p",)  # while labels go out nothing is printed

    def test_each_letter_is_of_one_control(self) -> None:
        tree = ElementTree.parse(support.TOOLS / "labeltools/window/window.ui").getroot()
        for language in ("en", *test_german.LANGUAGES):
            place = support.speaking(language, folder.name).get("LABELS_LOCALE")
            words = gettext.translation("label-tools", place, [language], fallback=True)
            for part in tree:
                name = str(part.get("id") or part.get("class"))
                labels = [found.text or "" for found in part.iterfind("property[@name='label']")]
                shown = [*labels, *self.MORE.get(name, ())]
                said = [words.gettext(text) for text in shown if text not in ("", *self.INSTEAD)]
                letters = [text[text.index("_") + 1].lower() for text in said if "_" in text]
                self.assertEqual(sorted(letters), sorted({*letters}), (language, name, said))


class Sentences(unittest.TestCase):
    """No sentence of the window names an option, but for those that somebody has typed there."""

    def said_of(self, make: Callable[[Any], Any], words: Any) -> str:
        """What the window says of words that do not go together."""
        try:
            make(words)
        except ToolError as error:
            return str(questions.in_sentences(error.problem))
        return ""

    def test_what_controls_and_buttons_give_together(self) -> None:
        """Each choice of them with each other one."""
        said = set()
        for kind, pattern, price, digits in product(
            NAMES, ("", "0,00 €", "text"), ("", "3"), ("", *WAYS_OF_DIGITS)
        ):
            chosen = {"code": "1", "symbology": kind, "price": price, "price-as": pattern}
            words = words_of({**chosen, "digits": digits})
            said.add(self.said_of(table_options, [*words, "a.csv"]))
        self.assertEqual(len(said), 3)
        papers: list[dict[str, str]] = [{"paper": "60x40"}, {"paper": "5x5"}, {}]
        papers += [{"stock": "Avery L7160"}, {"stock": "-x"}]
        for form, dpi, first, edge, paper in product(
            FORMS, (72, 203, 600, 4800), (1, 9999), ("", "20,20,20,20"), papers
        ):
            words = words_of({"to": form, "dpi": dpi, "first": first, "edge": edge, **paper})
            said.add(self.said_of(lambda words: planned(print_options(words)), words))
        self.assertGreater(len(said), 8)
        self.assertEqual([text for text in said if "--" in text], [])


class Remedies(Keeper):
    """What helps is a button: it gives what the command gives with the option."""

    def test_each_is_pressed(self) -> None:
        for table, before, button, words in PRESSED:
            with self.subTest(button):
                self.closed()
                self.open(table)
                for name, value in before.items():
                    self.change(**{name: value})
                self.check_sentences()
                self.assertIn(button, self.answers())
                good = self.labels() if self.window.has_labels else {}
                typed = self.window.choices().for_table
                self.remade(self.answers()[button].clicked)
                self.until(lambda: self.window.has_labels)
                is_less = len(self.window.choices().for_table) < len(typed)
                self.assertTrue(is_less or self.window.choices().for_table == typed)
                later = self.labels()
                for row, label in good.items():  # none is worse
                    kept = {name: later[row][name] for name in label if name != CHANGED.get(button)}
                    self.assertEqual({**label, **kept}, label, (button, row))
                asked = shlex.split(words)
                if "--header-row" not in asked:
                    asked += ["--header-row", "1"]
                if "--code" not in asked:
                    asked += ["--code", "1", "--title", "2", "--price", "3"]
                lines = support.run_here("label-table", *asked, "--", self.table).stdout
                self.assertEqual(self.window.made.lines.output.decode(), lines.decode())

    def labels(self) -> dict[int, dict[str, Any]]:
        """The labels of the table by their rows: the code, the texts, the value of the price."""
        found = {}
        for line in self.window.made.lines.output.decode().splitlines():
            if line.startswith("#"):
                label = json.loads(line[1:])
            else:
                value = re.sub("[.]?0*(?![0-9.])", "", label.get("price", "").replace(",", "."))
                texts = {name: label.get(name) for name in ("title", "text", "copies")}
                found[label["row"]] = {**texts, "price": value, "code": line}
        return found

    def test_none_that_does_harm_is_offered(self) -> None:
        """A row that is right would get another code or price, or no label."""
        for table, before, button in HARMFUL:
            with self.subTest(button):
                self.closed()
                self.open(table)
                for name, value in before.items():
                    self.change(**{name: value})
                self.until(lambda: self.window.has_labels)
                self.assertEqual(self.window.made.lines.count, 1 + (button == "Print two decimals"))
                said = [capitalized(remedy.says) for remedy in self.window.made.harmful]
                self.assertIn(button, said)
                self.assertNotIn(button, self.answers())

    def test_what_a_printer_needs_is_pressed(self) -> None:
        """What is printed is what label-print makes with the option."""
        self.open()
        for number, (driver, size, button, words) in enumerate(OF_PRINTERS):
            with self.subTest(button, driver=driver):
                scheduler.add(f"queue-{number}", driver)
                self.chosen(f"queue-{number}")
                self.change(roll=True, width=60, height=size, given_print="", edge="")
                self.until(lambda: self.window.has_labels)
                with self.in_dialog(self.confirm):
                    self.widgets.print_button.clicked()
                    self.until(self.answers)
                self.check_sentences()
                self.remade(self.answers()[button].clicked)
                self.until(lambda: self.window.has_labels)
                chosen = self.window.choices()
                self.assertEqual(chosen.given_print or f"--edge {chosen.edge}", words)
                self.assertIn("sent to", self.confirmed())
                self.until(lambda: not self.window.ways.jobs)  # the next one is not told of it
                paper = ("--paper", f"60x{size}", "--dpi", "300")
                edge = words.replace("--paper-as-given", "").split()  # a file has no paper
                self.assertEqual(self.saved("a.pdf"), self.by_commands(*paper, *edge))

    def test_each_of_the_code_is_pressed(self) -> None:
        """But for whether row 1 has names, which a window always says."""
        pressed = [(button, words) for *_, button, words in (*PRESSED, *OF_PRINTERS)]
        pressed += [
            ("Read them in another way", "--encoding"),
            ("203 dpi", "--dpi"),
            ("Go on with label 3", "--after"),
        ]  # by tests of their own
        for option, text in test_german.says():
            if option != "header-row" and ">>" not in text:  # of standard output
                words = re.escape(text[:1].upper() + text[1:]).replace(r"\{\}", ".+")
                found = [option for button, option in pressed if re.fullmatch(words, button)]
                self.assertTrue(found, text)
        for row in (0, 1, 2):
            chosen = replace(self.window.choices(), code="1", header_row=row)
            self.assertIn("--header-row", choices.table_words(chosen))


TWO_CODES = """SKU;EAN;Article;Price
A-100;4006381333931;Pencil;0,80 €
A-101;4006381333932;wrong;2,95 €
A-102;96385074;Gum;1,20 €
"""
ONE, OTHER = "tcp://10.0.0.1", "tcp://10.0.0.2"  # printers that take labels one by one


class Owned(Keeper):
    """What is chosen belongs to a column, a printer or a paper, and comes and goes with it."""

    def values(self, *names: str) -> Any:
        """What is chosen."""
        chosen = self.window.choices()
        found = [getattr(chosen, name) for name in names]
        return found if len(found) > 1 else found[0]

    def known(self) -> None:
        """Makes printers known, as the dialog for one in the network does."""
        for key, kept in {ONE: {"to": "zpl"}, OTHER: {"to": "escpos"}}.items():
            printers.PRINTERS.keep(key, {"name": key[-1], **kept})

    def test_each_choice_and_each_option_has_one_owner(self) -> None:
        self.open()
        owned = [owner for owner in self.window.owners.all if not owner.options]
        found = [*owners.OF_TABLE, *owners.TYPED, *(name for one in owned for name in one.fields)]
        self.assertEqual(sorted(found), sorted(choices.TYPES))
        sharing = [one for one in self.window.owners.all if one.options]
        self.assertEqual({tuple(one.fields) for one in sharing}, {owners.TYPED})
        options = [option for one in sharing for option in one.options]
        self.assertEqual(sorted(options), sorted(owners.options_in_groups(*OPTIONS)))

    def test_a_column_has_its_kind_of_code(self) -> None:
        """Codes of another column are read as that one has them, and each wrong one is said."""
        self.open(TWO_CODES)
        self.change(code="1")
        self.remade(lambda: self.pressed("Draw the codes as Code 128"))
        self.assertEqual(self.values("symbology"), "code128")
        self.change(code="2")
        self.assertEqual(self.values("symbology"), "auto")
        self.assertIn("a digit is wrong", self.rows()[0][2])
        self.change(code="1")
        self.assertEqual(self.values("symbology"), "code128")
        self.saved("a.pdf")
        self.open()
        self.assertEqual(self.values("code", "symbology"), ["1", "code128"])
        self.change(code="2")
        self.assertEqual(self.values("symbology"), "auto")

    def test_numbers_that_are_drawn_as_text_are_said(self) -> None:
        """A wrong digit would not be seen."""
        self.open(GUM + "4006381333931;Tea;2,00\n")
        self.change(symbology="code128")
        said = "All codes are EAN or UPC numbers, and are drawn as Code 128."
        self.assertEqual(self.rows()[0], ("", "", said))
        self.remade(lambda: self.pressed("Find their kind"))
        self.assertEqual(self.values("symbology"), "auto")
        self.assertEqual(self.rows(), [])

    def test_a_sheet_has_one_owner_by_any_of_its_names(self) -> None:
        self.open()
        self.change(first=5, right=1)
        self.change(stock="l7160")
        self.assertEqual(self.values("first", "right"), [5, 1])

    def test_a_column_has_its_form_of_prices(self) -> None:
        self.open("EAN;Name;Price;Offer\n96385074;Gum;1,20;0,80\n")
        self.change(price="3", price_as="0,00 €")
        self.change(price="4")
        self.assertEqual(self.values("price_as"), "")
        self.change(price="3")
        self.assertEqual(self.values("price_as"), "0,00 €")

    def test_what_is_known_of_a_printer_counts(self) -> None:
        """A table and a preset say which printer, and no more of it."""
        self.known()
        self.open()
        self.chosen(ONE)
        self.change(width=40)
        self.answer("naming")
        self.widgets.preset_name.set_text("shelf")
        self.window.lookup_action("keep-preset").activate(None)
        settle()
        self.saved("a.zpl")
        self.open(TWO_CODES)
        self.remade(lambda: self.window.of_printers.know(ONE, {"to": "escpos", "dpi": "180"}))
        self.open(TABLE)
        self.assertEqual(self.values("printer", "to", "dpi"), [ONE, "escpos", "180"])
        self.chosen(OTHER)
        preset = GLib.Variant("s", "shelf")
        self.remade(lambda: self.window.lookup_action("preset").activate(preset))
        self.assertEqual(self.values("printer", "to", "dpi"), [ONE, "escpos", "180"])

    def test_a_printer_has_its_dots(self) -> None:
        """In a later window, too."""
        self.known()
        self.open()
        self.chosen(ONE)
        self.change(dpi="300")
        self.chosen(OTHER)
        self.assertEqual(self.values("dpi"), "203")
        self.chosen(ONE)
        self.assertEqual(self.values("dpi"), "300")
        self.window.destroy()
        self.begin()
        self.open()
        self.chosen(ONE)
        self.assertEqual(self.values("dpi"), "300")

    def test_a_printer_has_its_paper(self) -> None:
        """And a paper in it has its corrections, for each table."""
        self.known()
        scheduler.add("shifted", "plain")
        self.open()
        self.chosen(ONE)
        self.change(width=100, height=50)
        self.chosen("shifted")
        self.change(for_print="--shift=0.5,-1")
        self.chosen(OTHER)
        self.assertEqual(self.values("width", "height", "for_print"), [60, 40, ""])
        self.change(width=48)
        self.chosen(ONE)
        self.assertEqual(self.values("width", "height", "for_print"), [100, 50, ""])
        self.open(TWO_CODES)
        self.chosen("shifted")
        self.assertEqual(self.values("sheet", "for_print"), [True, "--shift=0.5,-1"])
        self.change(stock="Avery L7651")
        self.assertEqual(self.values("for_print"), "")

    def test_each_typed_option_has_its_owner(self) -> None:
        """Corrections stay with the paper, looks with the table; which rows is for one run."""
        self.known()
        self.open()
        self.change(for_print="--note New --only 2-4 --edge=7")
        self.saved("a.pdf")
        self.chosen(ONE)
        self.assertEqual(self.values("for_print"), "--note New --only 2-4")
        self.chosen(printers.FILE)
        self.remade(lambda: self.window.take_values(sheet=True))
        self.assertEqual(self.values("for_print"), "--note New --only 2-4 --edge=7")
        self.saved("a.pdf")
        self.open(TWO_CODES)
        self.assertEqual(self.values("for_print"), "--edge=7")
        self.open(TABLE)
        self.assertEqual(self.values("for_print"), "--edge=7 --note New")

    def test_what_is_changed_together_with_its_owner_counts(self) -> None:
        self.open()
        self.change(first=5)
        self.change(stock="Avery L7163", first=3, code="1", symbology="code128")
        names = ("stock", "first", "code", "symbology")
        self.assertEqual(self.values(*names), ["Avery L7163", 3, "1", "code128"])

    def test_a_job_moves_its_own_sheet(self) -> None:
        """Whatever is chosen when it ends."""
        scheduler.add("owned", "pdf")
        subprocess.run(["cupsdisable", "owned"], check=True)
        self.open()
        with mock.patch.object(ways, "WATCH", BEAT):
            self.answered("owned")
            self.change(stock="Avery L7651")
            subprocess.run(["cupsenable", "owned"], check=True)
            self.until(lambda: self.said() == "6 labels are printed on owned.")
        self.assertEqual(self.values("stock", "first"), ["Avery L7651", 1])
        self.assertNotIn("The next labels", self.widgets.bar_text.get_text())
        self.window.take_values(stock="Avery L7160")
        self.until(lambda: self.values("first") == 7)

    def test_only_what_is_new_is_for_one_run(self) -> None:
        self.open()
        self.saved("a.pdf")
        self.open(TABLE.replace("Soap", "Soap, blue"))
        self.change(new_only=True)
        self.saved("b.pdf")
        self.open()
        self.assertFalse(self.values("new_only"))
        self.assertEqual(self.problem(), "")


class Walk(Keeper):
    """Whatever a keeper does, what is shown is what would be sent, and what each owner has."""

    RUNS_APART = True

    TABLES = {"first.csv": TABLE, "second.csv": TWO_CODES}
    USUAL = dict.fromkeys(("sheets", "roll"), ("pdf", "600"))
    USUAL |= {ONE: ("zpl", "203"), OTHER: ("escpos", "203")}
    STOCKS = ("Avery L7160", "Avery L7163", "Corner shop")
    STEPS = 500

    def setUp(self) -> None:
        super().setUp()
        self.chance = random.Random(20261130)
        self.has: dict[str, dict[Any, Any]] = {
            name: {} for name in ("to", "size", "place", "first")
        }
        self.kinds: dict[str, str] = {}  # of the columns of the table that is open
        self.saved_kinds: dict[str, tuple[str, str]] = {}  # of tables: a column and its kind
        self.presets: dict[str, tuple[str, Any]] = {}
        for key, form in {ONE: "zpl", OTHER: "escpos"}.items():
            printers.PRINTERS.keep(key, {"name": key[-1], "to": form})
        for name, text in self.TABLES.items():
            (self.folder / name).write_text(text)
        sheets.SHEETS["Corner shop"] = asdict(sheets.OwnSheet(2, 8, 90.0, 34.0))

    def keys(self) -> dict[str, Any]:
        """Whose what is shown is: a language, a size, a place on paper, a first label."""
        chosen = self.window.choices()
        of_file = "roll" if chosen.roll else "sheets"
        is_file = chosen.printer == printers.FILE
        place = chosen.printer, "" if chosen.roll else chosen.stock
        language = of_file if is_file else chosen.printer
        return {"to": language, "size": chosen.printer, "place": place, "first": chosen.stock}

    def check(self, step: Any) -> None:
        """What is shown is that of its owners, and is what would be sent."""
        chosen, keys = self.window.choices(), self.keys()
        self.assertEqual(chosen, self.window.table.chosen, step)
        usual = {"to": self.USUAL[keys["to"]], "size": (60, 40), "place": (0, 0, ""), "first": 1}
        shown = {
            "to": (chosen.to, chosen.dpi),
            "size": (chosen.width, chosen.height),
            "place": (chosen.right, chosen.down, chosen.edge),
            "first": chosen.first,
        }
        wanted = {name: self.has[name].get(keys[name], usual[name]) for name in shown}
        self.assertEqual(shown, wanted, step)
        self.assertEqual(chosen.symbology, self.kinds.get(chosen.code, "auto"), step)
        self.assertEqual(self.widgets.print_button.get_sensitive(), self.window.has_labels, step)
        if self.window.has_labels:
            self.check_sent(chosen, step)

    def check_sent(self, chosen: Any, step: Any) -> None:
        """The job is that of the controls, and its labels those of the command that is shown."""
        made = self.window.made
        options, plan = made.labels.job.options, made.labels.job.plan
        self.assertEqual(
            (made.labels.job.form.name, options.dpi), (chosen.to, int(chosen.dpi)), step
        )
        self.assertEqual(options.shift, (chosen.right, chosen.down), step)
        self.assertEqual(options.design, chosen.design, step)
        if chosen.roll:
            self.assertEqual(plan.sheet.cell, (chosen.width, chosen.height), step)
        else:
            self.assertEqual(len(plan.places), {"L7160": 21, "L7163": 14}.get(chosen.stock[6:], 16))
            self.assertEqual(options.first, chosen.first, step)
        command = self.widgets.command.get_text().partition(" > ")[0]
        table, _, printed = command.partition(" | ")
        lines = support.run_here(*shlex.split(table)).stdout
        self.assertEqual(made.lines.output, lines, step)
        self.assertEqual(options, print_options(shlex.split(printed)[1:]), step)

    def do(self, act: Callable[[], Any]) -> None:
        """Does something, and waits until labels are made for what is shown, or cannot be."""
        act()
        self.rest()

    @support.slow
    def test_a_walk(self) -> None:
        self.step_open()
        names = [name for name in dir(self) if name.startswith("step_")]
        for number in range(self.STEPS):
            name = self.chance.choice(names)
            getattr(self, name)()
            self.check((number, name))

    def take(self, **values: Any) -> None:
        """Takes values, as a keeper does."""
        self.do(lambda: self.window.take_values(**values))

    def step_open(self) -> None:
        name = self.chance.choice([*self.TABLES])
        self.kinds = dict([self.saved_kinds[name]] if name in self.saved_kinds else [])
        self.do(lambda: self.window.open_table(self.folder / name))

    def step_column(self) -> None:
        self.take(code=self.chance.choice(["1", "2"]))

    def step_kind(self) -> None:
        kind = self.chance.choice(["auto", "code128", "qr"])
        self.kinds[self.window.choices().code] = kind
        self.take(symbology=kind)

    def step_printer(self) -> None:
        key = self.chance.choice([printers.FILE, ONE, OTHER])
        self.window.of_printers.fill_list([*sending.known_printers(printers.PRINTERS.all())])
        self.do(lambda: self.window.of_printers.choose(key))

    def step_sheet(self) -> None:
        stock = self.chance.choice(self.STOCKS)
        self.do(lambda: self.window.take_values(stock=stock))

    def step_roll(self) -> None:
        if self.window.choices().printer == printers.FILE:
            self.take(**{self.chance.choice(["sheet", "roll"]): True})

    def step_size(self) -> None:
        size = self.chance.choice([48, 60, 70]), self.chance.choice([40, 50])
        self.has["size"][self.keys()["size"]] = size
        self.do(lambda: self.window.take_values(**dict(zip(("width", "height"), size))))

    def step_place(self) -> None:
        place = self.chance.choice([(0.5, -1, ""), (0, 0, "7"), (0, 1.5, "")])
        self.has["place"][self.keys()["place"]] = place
        values = dict(zip(("right", "down", "edge"), place))
        self.do(lambda: self.window.take_values(**values))

    def step_first(self) -> None:
        first = self.chance.randint(1, 9)
        self.has["first"][self.keys()["first"]] = first
        self.take(first=first)

    def step_dots(self) -> None:
        dpi = self.chance.choice(["203", "300"])
        form = self.window.choices().to
        self.has["to"][self.keys()["to"]] = form, dpi
        self.take(dpi=dpi)

    def step_look(self) -> None:
        self.do(self.chance.choice([self.widgets.till, self.widgets.shelf]).clicked)

    def step_save(self) -> None:
        if self.window.has_labels:
            path = self.folder / "saved"
            self.said_after(self.window.ways.save, path)
            chosen = self.window.choices()
            self.saved_kinds[self.window.table.path.name] = chosen.code, chosen.symbology

    def step_part(self) -> None:
        """A dialog in which rows are typed, and which is cancelled."""
        if self.window.has_labels:
            self.window.ways.printing.labels = self.window.made.labels
            self.widgets.print_some.set_active(True)
            self.widgets.print_rows.set_text("2 × 4")
            prints = self.window.ways.printing.wanted().labels.prints
            self.assertEqual({item.record.origin.number for item in prints} - {2}, set())
            self.widgets.print_all.set_active(True)

    def step_keep_preset(self) -> None:
        chosen = self.window.choices()
        self.answer("naming")
        self.widgets.preset_name.set_text("walked")
        self.window.lookup_action("keep-preset").activate(None)
        settle()
        self.presets["walked"] = chosen.printer, (chosen.width, chosen.height)

    def step_preset(self) -> None:
        """It has the size of its roll, which that printer has from then on."""
        if self.presets:
            printer, size = self.presets["walked"]
            self.has["size"][printer] = size
            preset = GLib.Variant("s", "walked")
            self.do(lambda: self.window.lookup_action("preset").activate(preset))

    def step_reopen(self) -> None:
        """A new window, which knows what is kept."""
        self.window.destroy()
        self.begin()
        self.window.of_printers.fill_list([*sending.known_printers(printers.PRINTERS.all())])
        self.step_open()


class Pressed(Keeper):
    """Print that was pressed is kept, whatever makes labels once more before they go out."""

    def held(self, place: Any, name: str) -> Callable[[], Any]:
        """Holds back a function of a module, until what is returned is called."""
        go_on = threading.Event()
        function = getattr(place, name)

        def hold(*values: Any) -> Any:
            go_on.wait(WAIT)
            return function(*values)

        patch = mock.patch.object(place, name, hold)
        patch.start()
        self.addCleanup(patch.stop)
        self.addCleanup(go_on.set)
        return go_on.set

    def test_while_a_printer_says_what_it_has(self) -> None:
        """Labels are not made before, and then with its dots."""
        scheduler.add("slow", "coarse")
        self.open()
        self.window.of_printers.fill_list([*sending.known_printers({})])
        go_on = self.held(printers, "queue_of")
        with self.in_dialog(self.confirm):
            self.window.of_printers.choose("slow")
            self.widgets.print_button.clicked()
            settle()
            self.assertFalse(self.window.has_labels)
            said = self.said_after(go_on)
        self.assertEqual(said, "sent to slow.")
        self.assertEqual(self.window.made.labels.job.plan.dpi, 203)

    def test_while_a_queue_is_asked_before_the_dialog(self) -> None:
        """Labels are made once more then, as when a job before has ended."""
        scheduler.add("again", "pdf")
        self.open()
        self.chosen("again")
        go_on = self.held(ways, "queue_of")
        with self.in_dialog(self.confirm):
            self.widgets.print_button.clicked()
            settle()
            self.window.take_values(first=4)
            self.assertEqual(self.said_after(go_on), "sent to again.")
        page = ("--stock", "Avery L7160", "--dpi", "600", "--first", "4")
        self.assertEqual(scheduler.printed("again"), self.by_commands(*page))

    def test_while_the_dialog_is_open(self) -> None:
        """Then it asks once more, since other labels are shown now."""
        scheduler.add("open", "pdf")
        self.open()
        self.chosen("open")
        asked: list[int] = []

        def press() -> None:
            asked.append(self.window.ways.printing.labels.job.options.first)
            if len(asked) == 1:
                self.window.take_values(first=4)
            self.confirm()

        with self.in_dialog(press):
            said = self.said_after(self.widgets.print_button.clicked)
        self.assertEqual((said, asked), ("sent to open.", [1, 4]))
        page = ("--stock", "Avery L7160", "--dpi", "600", "--first", "4")
        self.assertEqual(scheduler.printed("open"), self.by_commands(*page))

    def test_by_a_screen_reader(self) -> None:
        """It waits until the button has done its work, and then reads the dialog."""
        scheduler.add("aloud", "pdf")
        self.open()
        self.chosen("aloud")
        self.widgets.print_button.get_accessible().do_action(0)
        self.assertFalse(self.widgets.printing.get_visible())
        with self.in_dialog(self.confirm):
            self.until(lambda: self.said() == "6 labels are printed on aloud.")

    def test_by_a_click_behind_a_number_that_is_just_typed(self) -> None:
        """The button, which takes the focus of the field, is ready all the time."""
        self.open()
        self.widgets.more_of_paper.set_expanded(True)
        self.widgets.first.grab_focus()
        self.until(self.widgets.first.has_focus)
        self.widgets.first.set_text("4")
        ready: list[Any] = []
        self.widgets.print_button.connect("notify::sensitive", lambda *_: ready.append(_))
        self.remade(self.widgets.print_button.grab_focus)
        self.assertEqual(ready, [])
        self.assertEqual(self.window.made.labels.job.options.first, 4)

    def test_behind_a_row_of_names_that_is_just_typed(self) -> None:
        """Then the table is read once more before."""
        self.open()
        path = self.folder / "a.pdf"
        self.answer("saver", get_filename=str(path))
        self.widgets.header_row.set_text("2")
        said = self.said_after(self.widgets.print_button.clicked)
        self.assertEqual(said, "2 labels are saved as a.pdf.")  # of rows 3 and 5, one of each

    def test_labels_that_go_out_are_not_stopped_by_a_job_that_ends(self) -> None:
        """Those behind its own are made once the others are out."""
        self.open()
        go_on = self.held(ways, "save_to")
        self.window.ways.save(self.folder / "a.pdf")
        self.window.ways.begin_at("Avery L7160", 7)
        self.assertEqual(self.said_after(go_on), "saved as a.pdf.")
        self.rest()
        self.assertEqual(self.window.choices().first, 7)
        self.assertEqual(self.window.made.labels.job.options.first, 7)


class WindowTest(Keeper):
    RUNS_APART = True

    def test_saves_what_the_commands_print(self) -> None:
        self.open()
        self.assertEqual(self.widgets.of.get_text(), "of 1")
        self.change(first=9)
        page = ("--stock", "Avery L7160", "--dpi", "600", "--first", "9")
        self.assertEqual(self.saved("labels.pdf"), self.by_commands(*page))
        self.change(roll=True, to="zpl", dpi="203")
        roll = ("--paper", "60x40", "--to", "zpl", "--dpi", "203")
        self.assertEqual(self.saved("labels.zpl"), self.by_commands(*roll))

    def test_a_file_of_sheets_behind_a_label_printer_is_pdf(self) -> None:
        """The language of a printer is its own, files of rolls have theirs; the button says it."""
        self.open()
        printers.PRINTERS.keep("tcp://10.0.0.1", {"to": "zpl", "dpi": "300", "name": "Till"})
        self.chosen("tcp://10.0.0.1")
        for act, form, dpi, label in (
            (lambda: self.window.of_printers.choose(printers.FILE), "pdf", "600", "Sa_ve PDF…"),
            (lambda: self.window.take_values(to="zpl"), "zpl", "203", "Sa_ve ZPL…"),
            (lambda: self.window.take_values(sheet=True), "pdf", "600", "Sa_ve PDF…"),
            (lambda: self.window.take_values(roll=True), "zpl", "203", "Sa_ve ZPL…"),
            (lambda: self.window.take_values(to="pdf"), "pdf", "600", "Sa_ve PDF…"),
        ):
            self.remade(act)
            chosen = self.window.choices()
            self.assertEqual((chosen.to, chosen.dpi), (form, dpi), label)
            self.assertEqual(self.widgets.print_button.get_label(), label)
        self.assertTrue(self.saved("labels.pdf").startswith(b"%PDF-"))

    def test_nothing_stays_of_the_printer_before(self) -> None:
        """Each way from one printer to another one ends in what that one prints."""
        scheduler.add("next-office", "plain")
        scheduler.add("next-zebra", "zebra")
        self.open()
        printers.PRINTERS.keep("tcp://10.0.0.1", {"to": "escpos", "dpi": "180", "name": "Till"})
        printers.PRINTERS.keep("tcp://10.0.0.2", {"to": "zpl", "dpi": "300", "name": "Shelf"})
        wanted = {
            "next-office": (False, "pdf", "600"),
            "next-zebra": (True, "pdf", "203"),
            "tcp://10.0.0.1": (True, "escpos", "180"),
            "tcp://10.0.0.2": (True, "zpl", "300"),
        }
        for first, then in permutations((*wanted, printers.FILE), 2):
            for key in (first, then):
                self.chosen(key)
            if then == printers.FILE and self.window.choices().roll:
                self.remade(lambda: self.window.take_values(sheet=True))
            chosen = self.window.choices()
            found = (chosen.roll, chosen.to, chosen.dpi)
            self.assertEqual(found, wanted.get(then, (False, "pdf", "600")), (first, then))

    def test_the_designs_that_come_with_it_are_a_folder_of_the_dialog(self) -> None:
        folders = self.widgets.design_opener.list_shortcut_folders()
        self.assertEqual([Path(folder).name for folder in folders], ["designs"])
        self.assertIn("rack-100x50.svg", os.listdir(folders[0]))

    def test_a_letter_among_digits_is_typed_again(self) -> None:
        """It is a typo, which no button makes a text; a text is one, if no form is chosen."""
        for price, letter in (("4,5O", "O"), ("O,50", "O"), ("1,l5", "l"), ("I,50", "I")):
            self.open(TEA.format(price))
            row, cell, why = self.rows()[0]
            self.assertEqual((row, cell), ("3", price))
            self.assertIn(f"has the letter {letter} among its digits", why)
            self.assertTrue(why.lower().endswith("type it again."), why)
            self.assertEqual([*self.answers()], [])
        self.open(TEA.format("on request"))
        self.assertIn("Take any text as a price", self.answers())
        self.change(price_as="0,00 €")
        self.assertNotIn("Take any text as a price", self.answers())

    def test_prints_the_file_that_the_command_prints(self) -> None:
        """A printer that takes PDF gets the file as it is."""
        scheduler.add("pdf", "pdf")
        self.open()
        self.assertEqual(self.answered("pdf"), "sent to pdf.")
        page = ("--stock", "Avery L7160", "--dpi", "600")
        self.assertEqual(scheduler.printed("pdf"), self.by_commands(*page))
        self.until(lambda: self.said() == "6 labels are printed on pdf.")
        self.assertEqual(len(self.printed()), 3)

    def test_the_next_labels_begin_behind_those_that_are_printed(self) -> None:
        """And the window says where once they are printed; a trial moves nothing."""
        scheduler.add("behind", "pdf")
        self.open()
        self.change(first=9)
        self.assertIn("It was a trial", self.answered("behind", "trial"))
        self.until(lambda: self.said() == "6 labels are printed on behind.")
        self.assertEqual(self.window.choices().first, 9)
        self.confirmed()
        said = "The next labels begin at label 15 of the last sheet."
        self.until(lambda: self.widgets.bar_text.get_text().endswith(said))
        self.rest()
        self.assertEqual(self.window.made.labels.job.options.first, 15)

    def test_each_job_has_labels_of_a_sheet_of_its_own(self) -> None:
        """Those of the next one are behind them as soon as it is sent; if nothing of it is printed,
        and it is the last, they are free again.
        """
        scheduler.add("two", "pdf")
        subprocess.run(["cupsdisable", "two"], check=True)
        self.addCleanup(lambda: subprocess.run(["cancel", "-a", "two"], check=True))
        self.open()
        self.change(first=10)
        with mock.patch.object(ways, "WATCH", BEAT):
            for first in (16, 1):  # the sheet has 21
                self.answered("two")
                self.rest()
                self.assertEqual(self.window.made.labels.job.options.first, first)
            earlier, later = self.window.ways.jobs
            for job, first in ((earlier, 1), (later, 16)):
                subprocess.run(["cancel", str(job.number)], check=True)
                self.until(lambda: job not in self.window.ways.jobs)
                self.assertEqual(self.window.choices().first, first)
        self.answered("two")
        (job,) = self.window.ways.jobs
        state = replace(JobState(Text("It is gone."), "", True), begun=1)
        future: Any = mock.Mock(exception=lambda: None, result=lambda: state)
        self.window.ways.show_state(job, future)
        self.rest()
        self.assertEqual(self.window.choices().first, 1)  # some may be on paper

    def test_a_file_that_is_no_table_leaves_the_open_one(self) -> None:
        """With what is chosen; the window says what the file is."""
        self.open()
        self.change(title="", price="4")
        chosen = self.window.choices()
        path = self.folder / "photo.xls"
        path.write_bytes(b"\xd0\xcf\x11\xe0")
        self.window.open_table(path)
        self.until(self.problem)
        self.until(lambda: self.window.has_labels)
        self.assertIn("photo.xls", self.problem())
        self.assertEqual((self.window.path, self.window.choices()), (self.table, chosen))
        self.assertEqual(self.widgets.head.get_subtitle(), "articles.csv")
        self.assertIn("6 labels from 3 rows", self.counted())

    def test_a_trial_does_not_count_and_chosen_rows_do(self) -> None:
        """Only those are sent, and reported."""
        scheduler.add("some", "both")
        self.open()
        for kind, which, labels, printed in (
            ("trial", "", 2, 0),
            ("rows", "3", 2, 1),
            ("sheets", "2-", 4, 3),
        ):
            with self.subTest(kind):
                if self.window.choices().first != 20:
                    self.change(first=20)  # two labels on the first sheet, four on the second
                said = self.answered("some", kind, which)
                self.assertIn(f"{labels} labels are sent to some.", said)
                self.assertEqual("It was a trial" in said, kind == "trial")
                self.until(lambda: "printed on some" in self.said())
                self.assertEqual(len(self.printed()), printed)

    def test_the_dialog_asks_for_the_tray_and_keeps_it(self) -> None:
        """A queue whose driver has none is not asked for; a trial is on plain paper."""
        scheduler.add("trays", "trays")
        self.open()
        self.chosen("trays")
        found: list[Any] = []

        def look() -> None:
            tray = [row[0] for row in self.widgets.tray.get_model()]
            kept = self.widgets.tray.get_active_id(), self.widgets.media.get_visible()
            self.widgets.tray.set_active_id("Manual")
            found[:] = tray, kept, self.widgets.print_put.get_text()
            self.widgets.printing.response(Gtk.ResponseType.OK)

        for before in ("", "Manual"):
            with self.in_dialog(look):
                self.assertIn("sent to trays", self.said_after(self.widgets.print_button.clicked))
            tray, (active, has_media), put = found
            self.assertEqual(tray, ["as the printer is set", "Auto", "Manual"])
            self.assertEqual((active, has_media), (before, False))
            self.assertIn("Put 1 sheet of Avery L7160 into the tray.", put)
            job = self.window.events.event.about
            with sending_cups.refusals("trays") as cups:
                self.assertEqual(cups.getJobAttributes(job.number)["InputSlot"], "Manual")
            self.until(lambda: "printed on trays" in self.said())
        self.answered("trays", "trial")
        with sending_cups.refusals("trays") as cups:
            job = cups.getJobAttributes(self.window.events.event.about.number)
            self.assertNotEqual(job.get("InputSlot"), "Manual")

    def test_labels_count_as_printed_once_their_job_is_over(self) -> None:
        """Not those of a job that is cancelled; a later window asks CUPS about one that waited."""
        scheduler.add("later", "both")
        subprocess.run(["cupsdisable", "later"], check=True)
        self.open()
        self.assertIn("sent to later", self.answered("later"))
        self.until(lambda: "It waits in the queue: later: it is paused" in self.said())
        self.assertEqual(self.widgets.bar.get_message_type(), Gtk.MessageType.WARNING)
        self.assertEqual([*self.answers()], ["Show the queue"])
        self.widgets.bar.response(Gtk.ResponseType.CLOSE)
        self.assertEqual(self.said(), "")
        self.answered("later")
        self.assertEqual((self.printed(), len(self.waiting())), ([], 2))
        first = min(job.number for job in self.waiting())
        subprocess.run(["cancel", str(first)], check=True)
        self.again()
        self.until(lambda: "It waits in the queue: later: it is paused" in self.said())
        self.assertEqual((self.printed(), len(self.waiting())), ([], 1))
        with mock.patch.object(ways, "WATCH", BEAT):
            subprocess.run(["cupsenable", "later"], check=True)
            self.until(lambda: "printed on later" in self.said())
        self.assertEqual((len(self.printed()), self.waiting()), (3, {}))
        self.assertEqual(self.window.events.event.kind, "success")

    def again(self) -> None:
        """Closes the window, and opens the table in a new one."""
        self.window.destroy()
        self.begin()
        self.open()

    def waiting(self) -> Any:
        """The jobs that are not known to be printed."""
        return self.window.table.waiting_jobs()

    def test_a_job_that_cups_has_forgotten_is_asked_for(self) -> None:
        scheduler.add("forgets", "both")
        subprocess.run(["cupsdisable", "forgets"], check=True)
        for number, printed in ((0, 3), (1, 3)):
            self.open()
            self.answered("forgets")
            subprocess.run(["cancel", "-a", "-x", "forgets"], check=True)
            if printed and not number:
                self.assertEqual(self.printed(), [])
            self.again()
            self.until(lambda: "does not know job" in self.said())
            self.pressed("Was it printed?", not number)
            self.assertEqual((len(self.printed()), self.waiting()), (printed, {}))
            self.assertEqual(self.problem(), "")

    def test_labels_go_on_by_a_button(self) -> None:
        """After a stop, from the next label on; the words of the command are not named."""
        codes = map(support.ean13, range(401_234_500_000, 401_234_500_040))
        self.open("EAN;Name;Price\n" + "".join(f"{code};Pen;1,00 €\n" for code in codes))
        self.change(roll=True, to="zpl", dpi="203")
        printer = Printer(stuck=2).start()
        self.addCleanup(printer.off)
        self.window.ways.send_to(printer.name, self.window.made.labels)
        self.until(lambda: len(printer.labels) > 1)
        self.window.on_stop(None)
        printer.told.set()
        self.until(self.problem)
        taken = len(printer.labels)
        self.assertNotIn("--after", self.problem())
        self.pressed(f"Go on with label {taken + 1}", False)
        self.until(lambda: f"printed on {printer.name}" in self.said())
        printer.wait(40)
        plain = self.by_columns("--paper", "60x40", "--to", "zpl", "--dpi", "203")
        self.assertEqual(b"".join(printer.labels), plain)
        self.assertEqual(len(self.printed()), 40)

    def test_what_a_printer_has_taken_and_does_not_print_is_a_warning(self) -> None:
        self.open()
        self.change(roll=True, to="zpl", dpi="203")
        printer = Printer(answers=(READY, STATUS % (1, 0, 2, 0))).start()
        self.addCleanup(printer.off)
        self.window.ways.send_to(printer.name, self.window.made.labels)
        self.until(lambda: "It has no paper: put some in" in self.said())
        self.assertEqual(self.window.events.event.kind, "warning")

    def test_a_label_in_doubt_is_asked_for(self) -> None:
        """With each answer every other label is printed once."""
        codes = [support.ean13(number) for number in range(401_234_500_000, 401_234_500_006)]
        for is_there, printed in ((True, codes[:2] + codes[3:]), (False, codes)):
            with self.subTest(is_there):
                self.open("EAN;Name;Price\n" + "".join(f"{code};Pen;1,00 €\n" for code in codes))
                if is_there:  # these choices are kept
                    self.change(roll=True, to="zpl")
                    self.change(dpi="600")
                printer = Printer(within=3).start()
                self.addCleanup(printer.off)
                self.window.ways.send_to(printer.name, self.window.made.labels)
                self.until(self.problem)
                self.pressed("Go on with label 3", is_there)
                self.until(lambda: f"printed on {printer.name}" in self.said())
                printer.wait(len(printed))
                plain = self.by_columns("--paper", "60x40", "--to", "zpl", "--dpi", "600")
                wanted = re.findall(rb"\^XA.*?\^XZ\n", plain, re.DOTALL)
                wanted = [label for label, code in zip(wanted, codes) if code in printed]
                self.assertEqual(printer.labels, wanted)
                self.assertEqual(len(self.printed()), 6)

    def test_what_went_out_counts_though_the_program_has_a_fault(self) -> None:
        codes = [support.ean13(number) for number in range(401_234_500_100, 401_234_500_106)]
        table = "EAN;Name;Price\n" + "".join(f"{code};Pen;1,00 €\n" for code in codes)
        before, sent = network.NetworkPrinter.push, []

        def push(printer: Any, line: Any, data: bytes) -> None:
            sent.append(data)
            if len(sent) == 3:
                raise KeyError
            before(printer, line, data)

        faults: list[tuple[str, Any, int]] = [
            ("labeltools.sending.network.NetworkPrinter.push", push, 2),
            (
                "labeltools.sending.watch.Watch.wait_until_printed",
                mock.Mock(side_effect=ValueError),
                6,
            ),
        ]
        for place, fault, count in faults:
            with self.subTest(place):
                self.open(table.replace("Pen", f"Pen {count}"))
                if count == 2:  # these choices are kept
                    self.change(roll=True, to="zpl", dpi="203")
                self.window.table.last_printed.unlink(missing_ok=True)
                printer = Printer().start()
                self.addCleanup(printer.off)
                with mock.patch(place, fault):
                    self.window.ways.send_to(printer.name, self.window.made.labels)
                    self.until(self.problem)
                self.assertIn(f"it took {count} labels whole", self.problem())
                self.assertIn("fault of the program: report it as", self.problem())
                self.assertEqual(len(self.printed()), count)

    def test_a_control_that_does_what_nobody_expected(self) -> None:
        self.open()
        program = SimpleNamespace(get_active_window=lambda: self.window)
        hook = partial(application.tell_fault, program)
        said = StringIO()
        with mock.patch.object(sys, "excepthook", hook), redirect_stderr(said):
            GLib.idle_add([].pop)
            self.until(self.problem)
        self.assertIn("fault of the program: report it as IndexError", self.problem())
        self.assertRegex(said.getvalue(), "^label-window: this is a fault of the program.*\n$")

    def by_columns(self, *words: Any) -> Any:
        """What the commands write for a table of codes, names and prices."""
        options = ["--header-row", "1", "--code", "1", "--title", "2", "--price", "3"]
        lines = support.run("label-table", *options, "--", self.table).stdout
        return support.run("label-print", *words, input=lines).stdout

    def test_enter_accepts_an_address_and_a_name(self) -> None:
        for box, entry in (
            (self.widgets.adding, self.widgets.new_address),
            (self.widgets.naming, self.widgets.preset_name),
        ):
            answers: list[bool] = []

            def press(entry: Any = entry, answers: list[bool] = answers) -> bool:
                entry.activate()
                return not answers

            GLib.timeout_add(10 * BEAT, press)
            answers.append(gtk.confirmed(box))
            self.assertEqual(answers, [True])

    def test_the_printer_decides_what_it_is_sent(self) -> None:
        """Its language, its dots, and sheets or a roll; one that is gone prints nothing."""
        scheduler.add("office", "plain")
        scheduler.add("zebra", "zebra")
        self.open()
        for key, roll, to, dpi in (
            ("zebra", True, "pdf", "203"),
            ("office", False, "pdf", "600"),
            ("tcp://10.0.0.1", True, "escpos", "180"),
        ):
            printers.PRINTERS.keep("tcp://10.0.0.1", {"to": "escpos", "dpi": "180", "name": "Till"})
            self.chosen(key)
            chosen = self.window.choices()
            found = (chosen.roll, chosen.to, chosen.dpi)
            self.assertEqual(found, (roll, to, dpi), key)
            self.assertEqual(self.widgets.kind.get_visible(), not roll)  # it has no sheets
        self.assertIn("Till", [row[0] for row in self.widgets.printers])
        with mock.patch.object(self.widgets.printers, "clear", create=True) as clear:
            kept = printers.PRINTERS.all()
            self.window.of_printers.fill_list([*sending.known_printers(kept)])
            clear.assert_not_called()  # an open list stays open
        self.window.take_values(to="pdf")  # it understands nothing else
        self.until(lambda: self.window.choices().to == "escpos")
        self.window.of_printers.settle("was-here")
        states = {row[3]: row[2] for row in self.widgets.printers}
        self.assertEqual(states["was-here"], "not found")
        self.assertIn("was-here is not found", self.said_after(self.window.ways.ask_and_print))

    def test_a_paused_queue_says_so_in_the_list(self) -> None:
        scheduler.add("idle", "both")
        scheduler.add("held", "both")
        subprocess.run(["cupsdisable", "held"], check=True)
        found = {printer.key: printer for printer in sending.known_printers({})}
        self.assertEqual(
            (str(found["idle"].state), str(found["held"].state)), ("ready", "it is paused")
        )
        self.assertEqual((found["idle"].is_ready, found["held"].is_ready), (True, False))

    def test_says_what_is_left_out_and_what_there_is(self) -> None:
        self.open()
        self.assertEqual(self.widgets.left_out.get_text(), "1 row skipped: see why")
        row, cell, why = self.rows()[0]
        self.assertEqual((row, cell), ("4", "4006381333932"))
        self.assertIn("a digit is wrong", why)
        said = self.counted().replace("\u00a0", " ")
        self.assertEqual(
            said,
            "6 labels from 3 rows: 1 EAN-13, 1 UPC-A, 1 EAN-8; prices 0,80 € to 2,95 €; copies 1 to 3.",
        )
        self.open(NOT_YET.format("36000291452"))
        said = "36000291452 has 11 digits, EAN-8 has 8, UPC-A has 12, EAN-13 has 13."
        self.assertEqual(self.rows()[0][2], f"{said}\nAre leading zeros lost?")

    def look(self, kind: Any, number: int = 1) -> Any:
        """Looks at a page, or at a label."""
        large = GLib.Variant("b", kind == "label")
        self.window.lookup_action("large").change_state(large)
        self.widgets.number.set_value(number)
        return self.shown()

    def test_shows_pages_and_labels(self) -> None:
        self.open()
        page, dark = self.look("page")
        self.assertGreater(dark, 500)
        label, dark = self.look("label")
        self.assertGreater(dark, 100)
        self.assertLess(len(label), len(page))
        self.assertNotEqual(hash(self.look("label", 2)[0]), hash(label))

    def test_a_click_begins_at_a_cell(self) -> None:
        self.open()
        draw(self.window)
        paper = self.widgets.paper
        scale = paper.get_allocated_width() / 210
        self.remade(
            lambda: self.window.result.on_click(paper, mock.Mock(x=100 * scale, y=70 * scale))
        )
        self.assertEqual(self.window.choices().first, 5)
        self.window.result.on_click(paper, mock.Mock(x=1, y=1))  # beside the cells
        self.assertEqual(self.window.choices().first, 5)

    def test_a_chosen_row_shows_its_label(self) -> None:
        """A row that is left out has no label, but one whose title is shortened has."""
        long = "Pencil for every shop in the country " * 9
        self.open(TABLE.replace("Soap", long))
        self.look("label")
        notes = self.widgets.notes
        (place,) = [number for number, note in enumerate(notes) if "a text is too long" in note[2]]
        self.assertEqual(notes[place][0], "3")
        self.window.builder.get_object("left_out_list").get_selection().select_path(
            Gtk.TreePath(place)
        )
        self.until(lambda: self.widgets.number.get_value_as_int() == 2)

    def test_a_table_is_an_argument(self) -> None:
        words = [support.TOOLS / "label-window", self.table]
        opened = []

        def open_and_end(one: Any, path: Any) -> Any:
            opened.append((path, one.get_application()))
            GLib.idle_add(one.get_application().lookup_action("quit").activate, None)

        with (
            mock.patch.object(sys, "argv", list(map(str, words))),
            mock.patch.object(sys, "excepthook", sys.excepthook),
            mock.patch.object(window.Window, "open_table", open_and_end),
        ):
            self.assertEqual(application.run(), 0)  # Ctrl+Q ends it
        ((path, program),) = opened
        self.assertEqual(path, self.table)
        keys = {action: program.get_accels_for_action(action) for action in application.KEYS}
        for action, key in (
            ("win.open", "<Primary>o"),
            ("win.save", "<Primary>s"),
            ("win.print", "<Primary>p"),
            ("app.help", "F1"),
            ("app.quit", "<Primary>q"),
        ):
            self.assertEqual(keys[action], [key])
        without = {name: value for name, value in os.environ.items() if name != "DISPLAY"}
        ran = subprocess.run(words, env=without, capture_output=True, text=True)
        self.assertEqual(ran.returncode, 1)
        self.assertIn("label-window: there is no screen", ran.stderr)

    def test_help_opens_the_page_about_the_window(self) -> None:
        with mock.patch.object(application.Gtk, "show_uri_on_window") as shown:
            application.Application().help()
        path = Path(Gio.File.new_for_uri(shown.call_args[0][1]).get_path())
        self.assertEqual(path, support.TOP / "help/C/label-window/index.html")

    def test_a_table_is_opened_by_the_button(self) -> None:
        self.answer("opener", get_filename=str(self.table))
        self.window.builder.get_object("open_button").clicked()
        self.until(lambda: self.window.has_labels)

    def test_the_dialog_shows_tables_of_old_systems(self) -> None:
        """Their names are in capitals; of an .xls the window says what to do."""
        info = Gtk.FileFilterInfo()
        info.contains = Gtk.FileFilterFlags.DISPLAY_NAME
        for name, is_shown in (("A.CSV", 1), ("a.xlsx", 1), ("B.Xls", 1), ("a.pdf", 0), ("csv", 0)):
            info.display_name = name
            self.assertEqual(
                self.window.builder.get_object("tables").filter(info), bool(is_shown), name
            )

    def test_a_table_is_dropped(self) -> None:
        data = mock.Mock()
        data.get_uris.return_value = [Gio.File.new_for_path(str(self.table)).get_uri()]
        self.window.on_drop(None, None, 0, 0, data, 0, 0)
        self.until(lambda: self.window.has_labels)
        data.get_uris.return_value = ["https://example.org/a.csv"]
        self.window.on_drop(None, None, 0, 0, data, 0, 0)
        self.until(self.problem)
        self.assertIn("https:", self.problem())

    def test_names_in_another_row(self) -> None:
        self.open("Prices of May;;;;;\n;;;;;\n" + TABLE)
        self.assertEqual(self.window.choices().header_row, 3)
        self.assertIn("6 labels from 3 rows", self.counted())
        self.open("4006381333931;Pencil;0,80 €\n96385074;Gum;1,20 €\n")
        self.assertEqual(self.window.choices().header_row, 0)
        self.assertIn("2 labels from 2 rows", self.counted())
        self.remade(lambda: self.widgets.header_row.set_value(1))
        self.assertIn("1 label from 1 row", self.counted())

    def test_a_printer_of_a_language_of_its_own_gets_the_file_as_it_is(self) -> None:
        """In the network, on USB, or by a queue without a driver. Its language is asked once."""
        self.open()
        device = self.folder / "lp0"
        device.touch()
        devices = mock.patch("labeltools.sending.printers.DEVICES", self.folder)
        devices.start()
        self.addCleanup(devices.stop)
        printer, other = Printer().start(), Printer().start()
        for switched in (printer, other):
            self.addCleanup(switched.off)
        scheduler.add("roll", device=other.name.replace("tcp", "socket"))
        self.window.of_printers.fill_list([*sending.known_printers({})])
        for key in (str(device), "roll"):
            self.window.of_printers.choose(key)
            self.assertEqual(self.problem(), "What does this printer print?")
            self.assertFalse(self.widgets.print_button.is_sensitive())
            self.remade(lambda: self.pressed("Labels (ZPL)"))
        self.window.of_printers.know(printer.name, {"name": "Zebra", "to": "zpl", "dpi": "203"})
        wanted = self.by_commands("--paper", "60x40", "--to", "zpl", "--dpi", "203")
        self.assertEqual(self.answered(printer.name), "printed on Zebra.")
        self.assertEqual(b"".join(printer.labels), wanted)
        self.assertEqual(self.answered(str(device)), "sent to lp0.")
        self.assertEqual(device.read_bytes(), wanted)
        self.assertIn("sent to roll", self.answered("roll"))
        other.wait(3)
        self.assertEqual(b"".join(other.labels), wanted)

    def test_a_network_printer_is_added(self) -> None:
        """Once it has printed a test label; an address that is none is asked for again."""
        self.open()
        printer = Printer().start()
        self.addCleanup(printer.off)
        said: list[str] = []

        def add() -> bool:
            entry = self.widgets.new_address
            if not self.widgets.adding.get_visible():
                return True
            if not said:
                self.widgets.adding.response(Gtk.ResponseType.OK)
                said.append(self.widgets.new_said.get_text())
                entry.set_text(printer.name[6:])
                self.widgets.new_name.set_text("Shelf")
                self.widgets.new_test.clicked()
            text = self.widgets.new_said.get_text()
            if text.startswith("Sent"):
                self.widgets.adding.response(Gtk.ResponseType.OK)
                return False
            return True

        GLib.timeout_add(10 * BEAT, add)
        self.remade(lambda: self.widgets.printer.set_active_id("add"))
        printer.wait(1)
        self.assertEqual(self.window.of_printers.chosen.name, "Shelf")
        self.assertEqual(printers.PRINTERS.all()[printer.name]["to"], "zpl")

    def test_a_queue_of_other_dots_gets_no_file_of_dots(self) -> None:
        self.open()
        scheduler.add("zebra", "zebra")
        self.chosen("zebra")
        self.change(to="zpl", dpi="300")
        with mock.patch.object(ways, "queue_of", return_value=Queue("zebra", 203, {})):
            said = self.confirmed()
        self.assertIn("prints at 203 dpi", said)
        self.remade(self.answers()["203 dpi"].clicked)
        self.assertEqual(self.window.choices().dpi, "203")
        page = ("--paper", "60x40", "--to", "zpl", "--dpi", "203")
        self.assertEqual(self.saved("a.zpl"), self.by_commands(*page))

    def test_no_printer(self) -> None:
        """Then a file is saved; a printer in the network needs no CUPS."""
        self.open()
        self.until(lambda: self.widgets.print_button.get_label() == "Sa_ve PDF…")
        keys = [row[3] for row in self.widgets.printers]
        self.assertEqual(keys, ["add", "file"])
        with mock.patch.object(sending, "connection", side_effect=ToolError(NOTHING)):
            found = [*sending.known_printers({"tcp://10.0.0.1": {"to": "zpl"}})]
        in_network = [printer.key for printer in found if printer.way == "network"]
        self.assertEqual(in_network, ["tcp://10.0.0.1"])

    def test_guesses_and_remembers_by_names(self) -> None:
        self.open()
        chosen = self.window.choices()
        self.assertEqual(
            [chosen.code, chosen.title, chosen.price, chosen.copies], ["2", "3", "4", "6"]
        )
        self.change(price="", roll=True)
        self.assertFalse((self.folder / "labels/window.json").exists())  # nothing went out
        self.saved("labels.pdf")
        later = self.folder / "next week.csv"
        later.write_text(TABLE.replace("Pencil", "Pen"))
        self.window.take_values(price="4", sheet=True)
        self.open(path=later)
        chosen = self.window.choices()
        self.assertEqual((chosen.price, chosen.roll, chosen.sheet), ("", True, False))
        for written in ('{"Nr": [1], "EAN": 3}', "[]", "{", '{"Nr\\nEAN": {"price": 7}}'):
            (self.folder / "labels/window.json").write_text(written)
            self.open(path=later)
            self.assertEqual(self.window.choices().price, "4")
        names = "Nr\\nEAN\\nName\\nPrice\\nStock\\nLabels"
        wrong = f'{{"{names}": {{"price": 7, "title": "9", "widget": 1, "copies": ""}}}}'
        (self.folder / "labels/window.json").write_text(wrong)
        self.open(path=later)
        self.assertEqual(self.window.choices().copies, "")

    def test_asks_where_only_the_keeper_knows(self) -> None:
        """Of two prices none is taken, and tables without names have nothing in common."""
        self.open("EAN;Name;Preis A;Preis B\n96385074;Gum, red;1,20;0,80\n")
        self.assertEqual(self.problem(), "Which column has the price?")
        self.assertFalse(self.window.lookup_action("save").get_enabled())
        self.change(price="4")
        self.assertIn("; price 0,80;", self.counted())
        for prices in ("0,80;1,20", "1,20;0,80"):
            self.window.has_labels = False
            self.open(f"96385074;Gum, red;{prices}\n")
            self.assertEqual(self.problem(), "Which column has the price?")
            self.change(price="3")
            self.saved(f"{prices}.pdf")

    def test_prints_only_what_is_new(self) -> None:
        """What went out is kept, and asked for once there is such a list."""
        self.open()
        self.assertFalse(self.widgets.new_only.get_visible())
        self.saved("labels.pdf")
        self.open(TABLE.replace("Soap", "Soap, blue"))
        self.assertTrue(self.widgets.new_only.get_visible())
        everything = self.window.made.lines.count
        self.change(new_only=True)
        self.assertEqual(self.window.made.lines.count, 1)
        self.assertIn("--new-since", self.widgets.command.get_text())
        self.saved("changed.pdf")
        self.open()
        self.assertEqual(self.window.made.lines.count, everything)
        self.window.take_values(new_only=True)
        self.until(lambda: self.said().startswith("Nothing is new since"))

    def test_only_labels_that_went_out_are_kept(self) -> None:
        """On a roll of 30x20 an EAN-13 does not fit: next time it is new all the same. So is what
        was not asked for.
        """
        self.open()
        self.change(roll=True, to="zpl", dpi="203", width=30, height=20)
        self.assertEqual(self.counted(), "1 label from 1 row.")
        self.saved("small.zpl")
        self.assertEqual(self.printed(), [b"96385074"])
        self.change(width=60, height=40, for_print="--only 3")
        # what is typed is read when nothing is typed any more
        self.until(lambda: {record.title for record in self.records()} == {"Soap"})
        self.saved("one.zpl")
        self.assertEqual(self.printed(), [b"96385074", b"036000291452"])
        self.open()
        self.change(new_only=True)
        self.assertEqual(self.window.made.lines.count, 1)
        self.assertIn("0,80", self.window.made.lines.totals.lowest[1])

    def printed(self) -> Any:
        """The codes that went out, as they are kept."""
        return [record.data for record in self.window.table.printed_records()]

    def test_a_second_text_is_below_the_first(self) -> None:
        self.open()
        self.change(text="3", text_2="5")
        self.saved("labels.pdf")
        texts = [record.body for record in self.records()]
        self.assertEqual(texts[0], "Pencil, red\n5000")
        self.open()  # it is kept
        self.assertEqual(self.window.choices().text_2, "5")

    def test_a_printer_of_a_language_of_its_own_has_its_usual_dots(self) -> None:
        self.open()
        self.change(roll=True, to="zpl")
        self.assertEqual(self.window.choices().dpi, "203")
        self.assertEqual(self.window.made.labels.job.plan.dpi, 203)
        self.change(dpi="300")
        self.assertEqual(self.window.made.labels.job.plan.dpi, 300)
        self.change(to="pdf")
        self.assertEqual(self.window.choices().dpi, "600")
        self.change(to="zpl", dpi="300")
        self.saved("kept.zpl")
        self.open()  # what is kept is not changed
        self.assertEqual(self.window.choices().dpi, "300")

    def test_a_design_is_a_file(self) -> None:
        """It is drawn at once, what is said of it is in the list, and it is chosen again."""
        path = self.folder / "own.svg"
        code = '<rect id="code" x="1" y="12" width="52" height="20"/>'
        title = '<rect id="title" x="1" y="1" width="{}" height="10"/>'
        size = 'width="60mm" height="40mm" viewBox="0 0 60 40"'
        whole = f'<svg xmlns="http://www.w3.org/2000/svg" {size}>{title}{code}</svg>'
        path.write_text(whole.format(58))
        self.open()
        self.change(roll=True, width=60, height=40)
        built_in, _ = self.shown()
        opener = mock.Mock()
        with mock.patch.object(self.widgets, "design_opener", opener):
            opener.run.return_value = Gtk.ResponseType.ACCEPT
            opener.get_filename.return_value = str(path)
            self.change(design="file")
            self.assertEqual(self.widgets.design.get_active_id(), str(path))
            self.assertNotEqual(self.shown()[0], built_in)
            said = [row[2] for row in self.widgets.notes]
            self.assertIn("own.svg has no rectangle for price", " ".join(said))
            self.assertIn(f"--design {path}", self.widgets.command.get_text())
            path.write_text(whole.format(70))
            self.change(design="file")
            self.assertIn("the place title extends 11.0 mm beyond the label", self.problem())
            opener.run.return_value = Gtk.ResponseType.CANCEL
            self.change(design="file")
            self.assertEqual(self.widgets.design.get_active_id(), str(path))
        self.change(design="article")
        self.assertEqual(self.shown()[0], built_in)

    def test_presets_are_named_and_picked_again(self) -> None:
        self.open()
        self.change(roll=True, width=50, height=25, to="zpl")
        self.answer("naming")
        self.widgets.preset_name.set_text("shelf roll")
        self.window.lookup_action("keep-preset").activate(None)
        settle()
        self.change(sheet=True, to="pdf", width=60)
        presets.fill_menu(self.widgets.presets_menu)
        self.assertEqual(self.in_menu()[0], "shelf roll")
        preset = GLib.Variant("s", "shelf roll")
        self.remade(lambda: self.window.lookup_action("preset").activate(preset))
        chosen = self.window.choices()
        self.assertEqual((chosen.roll, chosen.width, chosen.to), (True, 50, "zpl"))
        self.assertEqual(self.window.made.labels.job.plan.sheet.page, (50, 25))
        self.window.lookup_action("forget-preset").activate(preset)
        settle()
        presets.fill_menu(self.widgets.presets_menu)
        self.assertNotIn("shelf roll", self.in_menu())

    def in_menu(self, model: Any = None) -> Any:
        """The texts of the menu, and of its parts."""
        model = model or self.window.builder.get_object("menu")
        found = []
        for place in range(model.get_n_items()):
            text = model.get_item_attribute_value(place, "label", None)
            found += (
                [text.get_string()]
                if text and model is not self.window.builder.get_object("menu")
                else []
            )
            for link in ("section", "submenu"):
                inner = model.get_item_link(place, link)
                found += self.in_menu(inner) if inner else []
        return found

    def test_tables_that_were_opened_are_beside_the_button(self) -> None:
        self.open()
        # GTK writes the list a little later
        self.until(lambda: str(self.table) in self.recent())
        self.table.unlink()
        self.assertNotIn(str(self.table), self.recent())

    def recent(self) -> list[str]:
        """The tables that the button beside Open has."""
        return [
            item.get_uri_display() for item in self.window.builder.get_object("recent").get_items()
        ]

    def test_a_printer_of_other_dots_gets_labels_for_these(self) -> None:
        """If the dots were changed since it was chosen, the labels are looked at first."""
        scheduler.add("name", "name")
        self.open()
        self.chosen("name")
        self.assertEqual(self.widgets.dpi.get_active_id(), "360")
        self.change(dpi="600")
        said = self.confirmed()
        self.assertIn("name prints at 360 dpi: the labels are drawn for it", said)
        self.until(lambda: self.window.has_labels)
        self.assertEqual(self.window.made.labels.job.plan.dpi, 360)
        self.assertEqual(self.answered("name"), "sent to name.")
        self.assertEqual(raster_of(scheduler.printed("name"))[0], (720, 360))

    def test_a_roll_takes_the_dots_that_its_queue_has_by_itself(self) -> None:
        self.open()
        self.change(roll=True, dpi="600")
        queue = Queue("zebra", 203, {203: "203dpi", 600: "600dpi"})
        self.window.ways.ask_queue(queue)
        self.until(self.problem)
        self.assertEqual(self.widgets.dpi.get_active_id(), "203")

    def test_what_becomes_of_a_job_is_shown(self) -> None:
        """By CUPS: a queue that is paused, and jobs that are cancelled; the list has all."""
        scheduler.add("paused", "both")
        subprocess.run(["cupsdisable", "paused"], check=True)
        self.open()
        with mock.patch.object(ways, "WATCH", BEAT):
            said = self.answered("paused")
            self.assertEqual(said, "sent to paused.")
            self.until(lambda: "paused: it is paused" in self.said())
            self.answered("paused")
            self.until(lambda: str(self.happened()).count("it is paused") == 2)

            subprocess.run(["cancel", "-a", "paused"], check=True)
            self.until(lambda: str(self.happened()).count("was cancelled") == 2)
            self.assertIn("was cancelled", self.problem())
            self.answered("paused")
            self.until(lambda: "it is paused" in self.said())
            subprocess.run(["cancel", "-a", "paused"], check=True)
            self.until(lambda: "was cancelled" in self.said())
        off = JobState(Text("The printer is not responding."), "", True)
        begun = replace(off, begun=1)
        again = replace(off, begun=2, is_printed=True)  # CUPS was started again meanwhile
        twice = "CUPS has begun it twice: some labels may be there twice, look for them."
        sent = "6 labels are sent to any."
        for before, state, said in (
            (None, off, f"{sent} It was not printed: The printer is not responding."),
            (None, begun, f"{sent} Some labels may be on paper: The printer is not responding."),
            (begun, again, f"{sent} {twice}"),
        ):
            job = SentJob("any", 7)
            self.window.ways.jobs[job] = ways.Watched(6, state=before)
            future: Any = mock.Mock(
                **{"exception.return_value": None, "result.return_value": state}
            )
            self.window.ways.show_state(job, future)
            self.assertEqual(self.said(), said)

    def test_cups_that_goes_away_is_waited_for(self) -> None:
        """For a minute; then the window says how the job is looked for, and asks of it."""
        self.open()
        job = SentJob("any", 7)
        looks: list[SentJob] = []
        away: Any = mock.Mock(exception=lambda: ToolError(Text("CUPS does not answer")))
        sent = "6 labels were sent to any as job 7. CUPS does not answer any more: labels may be"
        self.window.ways.jobs[job] = ways.Watched(6)
        with mock.patch.object(self.window.ways, "watch", looks.append):
            with mock.patch.object(ways, "WATCH", BEAT):
                self.window.ways.show_state(job, away)
                self.assertEqual(self.said(), f"{sent} on paper. It is looked for again.")
                self.until(lambda: looks == [job])
                with mock.patch.object(ways, "AWAY", 0.0):
                    self.window.ways.show_state(job, away)
            shows = "Look there; once CUPS answers, lpstat -W all -o any shows the job."
            self.assertEqual(self.said(), f"{sent} on paper. {shows}")
            self.assertEqual(looks, [job])

    def test_the_window_speaks_the_language(self) -> None:
        """Its controls, and what it tells."""
        code = "import test_window; test_window.load(); shown = test_window.window.Window(); "
        code += "shown.on_stop(None); "
        code += "(name,) = shown.widgets.price_as.list_mnemonic_labels(); "
        code += "print(shown.widgets.print_button.get_label(), name.get_text(), "
        code += "shown.widgets.bar_text.get_text()); "
        code += "shown.widgets.stock.set_text('L7169'); print(shown.widgets.sheets[0][1])"
        for language, texts, sheet in (
            (
                "en",
                "_Print… Prices as Stopped: nothing was printed.",
                "Avery L7169: 4 labels of 99.1 by 139 mm on 210 by 297 mm",
            ),
            (
                "de",
                "_Drucken … Preise als Abgebrochen: es wurde nichts gedruckt.",
                "Avery L7169: 4 Etiketten von 99,1 mal 139 mm auf 210 mal 297 mm",
            ),
            (
                "fr",
                "_Imprimer… Format des prix Arrêté : rien n'a été imprimé.",
                "Avery L7169 : 4 étiquettes de 99,1 sur 139 mm, page de 210 sur 297 mm",
            ),
        ):
            environment = support.speaking(language, self.folder / "locale")
            how: Any = {"cwd": support.TESTS, "env": environment, "capture_output": True}
            ran = subprocess.run([sys.executable, "-c", code], text=True, check=True, **how)
            self.assertEqual(ran.stdout.replace("\u00a0", " "), f"{texts}\n{sheet}\n")

    def test_a_driverless_printer(self) -> None:
        scheduler.add_driverless("home")
        self.open()
        self.assertEqual(self.answered("home"), "sent to home.")
        self.assertEqual(raster_of(scheduler.printed("home"))[0], (600, 600))

    def test_a_file_is_read_next_week_as_this_week(self) -> None:
        """Its encoding is kept for its name: without it the names cannot be read."""
        self.open("EAN;Name\n96385074;Crème\n".encode("cp1252"))
        self.pressed("Crème")  # not Crčme
        self.until(lambda: self.window.has_labels)
        self.saved("labels.pdf")
        self.closed()
        self.open()
        self.assertEqual(self.problem(), "")
        self.assertEqual(self.window.choices().given_table, "--encoding cp1252")
        self.closed()
        self.open("EAN;Name\n96385074;Füller, rot\n")  # now it is UTF-8
        self.assertEqual(self.problem(), "")
        self.assertEqual(self.records()[0].title, "Füller, rot")

    def test_a_table_that_cannot_be_read_shows_nothing_of_the_last_one(self) -> None:
        self.open()
        self.assertEqual(self.window.choices().symbology, "auto")
        self.closed()
        shown = self.window.choices()
        self.assertEqual({shown.code, shown.price, shown.symbology}, {None})
        for name in ("new_only", "result"):
            self.assertFalse(getattr(self.widgets, name).get_visible(), name)

    def test_what_came_of_work_is_shown_at_once(self) -> None:
        """Nothing looks at the work again and again; how far it is, is shown twice a second."""
        wait = mock.Mock(side_effect=work.GLib.timeout_add)
        with mock.patch.object(work.GLib, "timeout_add", wait):
            self.open()
        self.assertEqual({call.args[0] for call in wait.mock_calls}, {work.PATIENCE})
        talk = work.WindowTalk("reading a.csv…")
        self.window.work.begin_work(lambda talk: settle_until(lambda: talk.stops), bool, talk)
        self.window.work.talk.go_on(1200, 0)  # how many rows a table has is not known
        self.assertFalse(self.widgets.working.get_visible())
        self.until(self.widgets.working.get_visible)
        self.assertEqual(self.widgets.progress.get_text(), "reading a.csv… 1200")
        self.window.work.talk.go_on(1200, 20000)
        self.until(lambda: self.widgets.progress.get_text() == "1200 of 20000")
        self.window.on_stop(None)
        self.assertFalse(self.widgets.working.get_visible())

    def test_stop_while_a_table_is_read_says_so(self) -> None:
        talk = work.WindowTalk()
        self.window.work.begin_work(lambda talk: settle_until(lambda: talk.stops), bool, talk)
        self.widgets.stack.set_visible_child_name("work")
        self.window.on_stop(None)
        self.assertEqual(self.widgets.stack.get_visible_child_name(), "empty")
        self.assertTrue(self.said())

    def test_a_sheet_is_looked_for_when_its_name_is_whole(self) -> None:
        self.open()
        before = self.window.made
        self.widgets.stock.grab_focus()
        self.until(self.widgets.stock.has_focus)
        self.widgets.stock.set_text("Avery L716")
        self.rest()
        self.assertIs(self.window.made, before)
        self.remade(lambda: self.widgets.stock.set_text("Avery L7163"))
        self.assertEqual(len(self.window.made.labels.job.plan.places), 14)
        self.widgets.stock.set_text("avery l7160")
        self.rest()
        self.remade(self.widgets.first.grab_focus)  # which leaves it
        self.assertEqual(len(self.window.made.labels.job.plan.places), 21)

    def test_what_is_just_typed_counts(self) -> None:
        """Also where nobody left its field: no label of another sheet is printed, or elsewhere."""
        scheduler.add("typed", "both")
        self.open()
        self.chosen("typed")
        self.widgets.stock.grab_focus()
        self.until(self.widgets.stock.has_focus)
        self.widgets.stock.set_text("Herma no such")
        self.window.lookup_action("print").activate(None)
        self.until(self.problem)
        self.assertIn("Herma no such: no such sheet", self.problem())
        self.assertFalse(self.widgets.printing.get_visible())
        self.remade(lambda: self.widgets.stock.set_text("Avery L7160"))
        self.until(lambda: self.window.has_labels)
        self.window.events.hide()
        self.widgets.stock.set_text("avery l7163")
        self.widgets.first.set_text("3")
        self.assertEqual(self.confirmed(), "sent to typed.")
        self.rest()
        page = ("--stock", "Avery L7163", "--first", "9", "--dpi", "600")  # behind these six
        self.assertEqual(self.saved("typed.pdf"), self.by_commands(*page))

    def test_sheets_that_begin_with_what_is_typed_come_first(self) -> None:
        self.widgets.stock.set_text("Herma 44")
        begin = [row[0].startswith("Herma 44") for row in self.widgets.sheets]
        self.assertEqual(begin, sorted(begin, reverse=True))
        self.assertEqual(len(set(begin)), 2)

    def test_prices_of_a_spreadsheet_get_a_currency(self) -> None:
        """It is reported that they have none, and chosen from what the column has."""
        self.open(TABLE.replace(" €", ""))
        self.assertIn("3 prices without a currency", self.counted())
        shown = [row[0] for row in self.widgets.price_as.get_model()]
        self.assertEqual(shown[:3], ["as in the table  –  0,80", "0,80 €", "€0.80"])
        self.change(price_as="€0.00")
        self.assertNotIn("currency", self.counted())
        self.assertEqual(self.records()[0].price, "€0.80")
        self.saved("labels.pdf")
        self.open()  # it is kept
        self.assertEqual(self.window.choices().price_as, "€0.00")
        self.change(price="5")
        self.assertEqual(self.window.choices().price_as, "")
        self.open(TABLE.replace("€", "CHF"))
        self.assertNotIn("0,80 €", [row[0] for row in self.widgets.price_as.get_model()])

    def test_what_is_guessed_beside_the_columns_is_taken(self) -> None:
        """Variants, lost zeros and prices as programs write them are read as label-table proposes,
        and remembered like other choices.
        """
        names = "Handle;Title;UPC;Price;Currency"
        rows = (
            *("a;Tea, green;72651101016;0.8;EUR", "a;;72651101023;49.9;EUR"),
            "b;Gum, red;72651101030;34.000000;EUR",
        )
        self.open("\n".join([names, *rows, ""]))
        self.assertEqual(
            [(record.title, record.price) for record in self.records()],
            [("Tea, green", "0.80 EUR"), ("Tea, green", "49.90 EUR"), ("Gum, red", "34.00 EUR")],
        )
        words = "--variants-of Handle --currency Currency --digits lost-zeros"
        self.assertEqual(self.window.choices().given_table, words)
        said = ["Rows of the same Handle have one title.", "The currency is in Currency."]
        self.assertEqual(self.given(), [*said, "Lost zeros are put back in front."])
        self.assertEqual(self.window.choices().price_as, "0.00 ¤")
        self.assertIn("Row 3 has the title of row 2", "".join(row[2] for row in self.rows()))
        self.remade(lambda: self.take_back(said[0]))
        following = self.widgets.given_table.get_children()[0].get_children()[1]
        self.assertIs(self.window.get_focus(), following)  # the next one to be taken back
        self.change(price_as="0,00 €")
        self.assertEqual(self.records()[0].price, "0,80 €")
        self.saved("labels.pdf")
        self.open()  # what was chosen is kept
        self.assertEqual(
            self.window.choices().given_table, "--currency Currency --digits lost-zeros"
        )
        self.assertEqual(self.window.choices().price_as, "0,00 €")

    def given(self) -> list[str]:
        """What the window says that a button chose, or that is guessed."""
        lines = [*self.widgets.given_table, *self.widgets.given_print]
        return [line.get_children()[0].get_text() for line in lines]

    def take_back(self, said: str) -> None:
        """Presses the button beside what is said."""
        lines = [*self.widgets.given_table, *self.widgets.given_print]
        (line,) = [line for line in lines if line.get_children()[0].get_text() == said]
        line.get_children()[1].grab_focus()
        line.get_children()[1].clicked()

    def focus_of(self, choice: Any) -> Any:
        """The button of a choice, which has the focus for it."""
        found = gtk.widgets_within(choice)
        return next(button for button in found if isinstance(button, Gtk.ToggleButton))

    def test_what_a_button_chose_is_in_words_and_is_taken_back(self) -> None:
        """Options have only what is typed. What an older window kept without such words is typed,
        and of what it kept of a printer nothing is left.
        """
        self.open(SHEETS)
        self.pressed("Tea")
        self.until(lambda: self.window.has_labels)
        self.assertEqual(self.given(), ["The worksheet is Tea."])
        self.assertEqual(self.widgets.for_table.get_text(), "")
        self.take_back("The worksheet is Tea.")
        self.until(lambda: "Tea" in self.answers())
        self.closed()
        names = "\n".join(TABLE.splitlines()[0].split(";"))
        old = {
            "for-table": "--currency-name Taler --where Name=Soap",
            "for-print": "--edge 1 --turn yes",
        }
        (self.folder / "labels").mkdir(exist_ok=True)
        (self.folder / "labels/window.json").write_text(json.dumps({names: old}))
        self.open(TABLE)
        self.assertEqual(self.given(), [])
        typed = self.widgets.for_table.get_text(), self.widgets.for_print.get_text()
        self.assertEqual(typed, ("--currency-name Taler --where Name=Soap", "--turn yes"))
        self.has_typed = True

    def test_each_button_and_guess_has_words(self) -> None:
        guessed = {"currency", "title", "variants-of"}
        options = test_german.remedies(True) | guessed
        options -= {*choices.CHOSEN, "after"}
        self.assertEqual(options - {*further.SAID, "encoding"}, set())
        self.assertGreater(len(options), 10)

    def test_what_is_between_cells_is_asked_for_if_it_may_be_data(self) -> None:
        """And the answer is kept; it is not asked for where a title or a price is wanted."""
        self.open("Code;Name\nA-1;Shelf\nA-2;Rack\n")
        self.change(symbology="qr", price="")
        self.assertEqual((self.problem(), self.window.made.lines.count), ("", 2))
        self.change(title="")
        self.assertIn("It is data", self.answers())
        self.remade(lambda: self.pressed("It is between cells"))
        self.assertEqual((self.problem(), self.window.made.lines.count), ("", 2))
        self.saved("a.pdf")
        self.open()
        self.assertEqual(self.problem(), "")

    def test_the_designs_that_come_with_it_are_in_the_list(self) -> None:
        """With a picture and the size of their labels, which a roll can take at once."""
        self.open()
        rows = [tuple(row) for row in self.widgets.design.get_model()]
        files = sorted((support.TOP / "designs").glob("*.svg"))
        self.assertEqual([row[1] for row in rows[2:-1]], [*map(str, files)])
        self.assertIn("for a place in a rack, 100 × 50 mm", [row[0] for row in rows])
        pictures = [designs.picture_of_design(row[1]) for row in rows[:-1]]
        self.assertEqual(len({picture.get_pixels() for picture in pictures}), len(files) + 2)
        rack = str(support.TOP / "designs/rack-100x50.svg")
        self.change(roll=True, design=rack)
        self.assertIn("rack-100x50.svg is 100 by 50 mm, and a label is 60 by 40 mm", self.problem())
        self.assertFalse(self.problem().startswith("/"))
        self.remade(self.answers()["Labels of 100 by 50 mm"].clicked)
        self.assertEqual(self.window.made.labels.job.plan.sheet.page, (100, 50))

    def test_what_the_sign_of_prices_means_is_asked_for(self) -> None:
        """In words, and not by an option, since only the keeper knows."""
        self.open("EAN;Name;Price\n96385074;Gum;1,200\n4006381333931;Pen;2,500\n")
        self.change(price_as="€0.00")
        self.assertEqual(self.problem(), "Which sign is before the cents?")
        self.assertEqual(self.counted(), "")  # not that there are none
        self.assertNotIn("--", "".join(row[2] for row in self.widgets.notes))
        self.pressed("The point, as in 1.50")
        given = "--decimal point"
        self.until(lambda: self.window.further.given == given and self.window.has_labels)
        self.assertEqual(self.given(), ["The point is before the cents."])
        self.assertIs(self.window.get_focus(), self.focus_of(self.widgets.price))
        self.assertEqual(self.records()[0].price, "€1200.00")

    def test_the_bar_closes_by_escape_and_the_list_keeps_what_it_said(self) -> None:
        """The last twenty; what is good does not take the place of what went wrong with another."""
        self.open()
        for number in range(25):
            self.window.events.report(bar.Event("info", str(number), about=number))
        self.window.events.report(bar.Event("error", "broke off", about=1))
        self.window.events.report(bar.Event("success", "printed", about=2))
        self.assertEqual(self.said(), "broke off")
        self.assertEqual(self.happened()[:3], ["printed", "broke off", "24"])
        self.assertEqual(len(self.happened()), 20)
        self.window.events.report(bar.Event("success", "printed after all", about=1))
        self.assertEqual(self.said(), "printed after all")
        found = gtk.widgets_within(self.widgets.bar)
        buttons = [button for button in found if isinstance(button, Gtk.Button)]
        shown = [button for button in buttons if button.get_visible()]
        self.assertEqual([button.get_accessible().get_name() for button in shown], ["Close"])
        self.pressed_key(Gdk.KEY_Escape)
        self.assertEqual(self.said(), "")

    def pressed_key(self, key: Any) -> None:
        """Presses a key in the window."""
        event = Gdk.Event.new(Gdk.EventType.KEY_PRESS)
        event.window = self.window.get_window()
        event.keyval = key
        self.window.event(event)

    def test_nothing_is_printed_before_the_answer(self) -> None:
        """The page is shown; Enter answers, since the focus is on the first answer."""
        rows = "96385074;Gum;1,20;0,80\n4006381333931;Pen;2,00;1,00\n"
        self.open("EAN;Name;Preis A;Preis B\n" + rows)
        self.until(lambda: self.window.has_labels)
        self.assertFalse(self.widgets.print_button.is_sensitive())
        self.assertIn("First answer", self.widgets.print_button.get_tooltip_text())
        self.assertEqual(len(self.records()), 2)
        first, *_ = self.answers()
        self.assertIs(self.window.get_focus(), self.answers()[first])
        self.remade(lambda: self.pressed(first))
        self.assertTrue(self.widgets.print_button.is_sensitive())

    def test_a_question_is_scrolled_to(self) -> None:
        self.open()
        self.widgets.more_of_table.set_expanded(True)
        self.window.resize(800, 500)
        draw(self.window)
        answers = [("Labels", bool), ("Receipts", bool)]
        self.window.questions.below["printer"].ask("What?", answers)
        draw(self.window)
        scroll = self.widgets.panel.get_ancestor(Gtk.ScrolledWindow).get_vadjustment()
        area = self.widgets.ask_printer.get_allocation()
        self.assertGreater(area.y + area.height, scroll.get_page_size())
        self.assertLessEqual(area.y + area.height, scroll.get_value() + scroll.get_page_size())

    def tab(self) -> Any:
        """The names of the controls of the panel that the Tab key reaches, in order."""
        found: list[Any] = []
        self.window.set_focus(None)
        for _ in range(60):
            self.window.child_focus(Gtk.DirectionType.TAB_FORWARD)
            control = self.window.get_focus()
            if control is None or control in found:
                break
            found.append(control)
        in_panel = [control for control in found if control.is_ancestor(self.widgets.panel)]
        names = [next(self.ids(control), "") for control in in_panel]
        return [name for name in names if name]

    def ids(self, widget: Any) -> Any:
        """The ids of window.ui of a widget, and of what it is in, up to the panel."""
        while widget is not self.widgets.panel:
            name = Gtk.Buildable.get_name(widget)
            if name and self.window.builder.get_object(name) is widget:
                yield name
            widget = widget.get_parent()

    def test_the_keyboard_goes_down_the_panel(self) -> None:
        """What is folded is left out; each control has a name."""
        self.open()
        of_label = ["code", "title", "price", "copies", "more_of_table"]
        of_paper = ["printer", "sheet", "roll", "stock", "till", "more_of_paper"]
        self.assertEqual(self.tab(), [*of_label, *of_paper])
        self.remade(lambda: self.widgets.roll.set_active(True))
        draw(self.window)
        of_roll = ["printer", "sheet", "roll", "width", "height", "till", "more_of_paper"]
        self.assertEqual(self.tab(), [*of_label, *of_roll])
        self.widgets.more_of_table.set_expanded(True)
        draw(self.window)
        self.assertEqual(self.tab()[4:7], ["more_of_table", "text", "text_2"])

    def test_the_panel_fits_a_low_screen(self) -> None:
        """In each language, with a question; 1024 by 600 pixels leave 554 for it."""
        code = "import test_window as t; t.load(); t.gtk.add_style(); shown = t.window.Window(); "
        code += "shown.widgets.stack.set_visible_child_name('work'); shown.present(); "
        code += "t.draw(shown); answers = [('VK – 19,57', bool)] * 2; "
        code += "text = t.translated(t.questions.WHICH['price']); "
        code += "shown.questions.below['price'].ask(text, answers); "
        code += "t.draw(shown); print(shown.widgets.panel.get_preferred_height()[1], end=' '); "
        code += "print(shown.widgets.panel.get_preferred_width()[1])"
        for language in ("en", "de", "fr"):
            environment = support.speaking(language, self.folder / "locale")
            how: Any = {"cwd": support.TESTS, "env": environment, "capture_output": True}
            ran = subprocess.run([sys.executable, "-c", code], text=True, check=True, **how)
            height, width = map(int, ran.stdout.split())
            self.assertLessEqual(height, 554, language)
            self.assertLessEqual(width, 420, language)

    def test_large_text_fits_a_low_screen(self) -> None:
        """In each language, on a roll, with the list of what is skipped and buttons that help, and
        with the line that says so beside all settings of a label; lists of choices are as wide as
        their texts.
        """
        more = "5;36000291452;Salt;2,00 €;1;1\n6;4006350000000;Tea;2,00 €;1;1\n"
        self.table.write_text(f"{TABLE}{more}7;96385074;Gum;soon;1;1\n")
        code = "import sys; from pathlib import Path; import test_window as t; t.load(); "
        code += "t.gtk.add_style(); settings = t.Gtk.Settings.get_default(); "
        code += "settings.set_property('gtk-xft-dpi', 144 * 1024); "
        code += "shown = t.window.Window(); shown.present(); shown.widgets.roll.set_active(True); "
        code += "shown.open_table(Path(sys.argv[1])); t.until(lambda: shown.has_labels); "
        code += "shown.widgets.fold.set_expanded(False); more = shown.widgets.more_of_paper; "
        code += "more.set_expanded(True); t.draw(shown); beside = shown.get_preferred_width()[0]; "
        code += "more.set_expanded(False); shown.widgets.fold.set_expanded(True); t.draw(shown); "
        code += "print(max(beside, shown.get_preferred_width()[0]), "
        code += "shown.get_preferred_height()[0], len(shown.widgets.helps.get_children()), "
        code += "*(list.get_popup_accessible().get_widget().get_size_request()[0] "
        code += "for list in (shown.widgets.printer, shown.widgets.title)))"
        for language in ("en", "de", "fr"):
            environment = support.speaking(language, self.folder / "locale")
            how: Any = {"cwd": support.TESTS, "env": environment, "capture_output": True}
            words = [sys.executable, "-c", code, str(self.table)]
            ran = subprocess.run(words, text=True, check=True, **how)
            width, height, buttons, *lists = map(int, ran.stdout.split())
            self.assertEqual((width <= 1024, height <= 600, buttons), (True, True, 3), language)
            self.assertGreater(min(lists), 200, language)

    def test_no_text_is_cut_on_a_low_screen(self) -> None:
        """With large letters, in each language."""
        self.table.write_text(TABLE + "5;96385074;Gum;soon;1;1\n")
        code = "import sys, pathlib, test_window; "
        code += "test_window.show_cut_texts(pathlib.Path(sys.argv[1]))"
        for language in ("en", *test_german.LANGUAGES):
            environment = support.speaking(language, self.folder / "locale")
            how: Any = {"cwd": support.TESTS, "env": environment, "capture_output": True}
            words = [sys.executable, "-c", code, str(self.table)]
            ran = subprocess.run(words, text=True, check=True, **how)
            self.assertEqual(ran.stdout, "[]\n[]\n", language)

    def test_rows_are_chosen_in_a_list(self) -> None:
        """By marks, all that are looked for at once, or those that were not printed yet."""
        self.open()
        rows = self.window.ways.printing.rows

        def choose(typed: str, *acts: Callable[[], Any]) -> Any:
            def act() -> bool:
                if not self.widgets.choosing.get_visible():
                    return True
                for do in acts:
                    do()
                self.widgets.choosing.response(Gtk.ResponseType.OK)
                return False

            GLib.timeout_add(BEAT, act)
            return rows.ask_for_rows(self.window.made.labels, typed)

        def look_for(text: str) -> Callable[[], Any]:
            return lambda: (self.widgets.rows_search.set_text(text), rows.found.refilter())

        self.assertEqual(choose("5, 2-3"), "2-3,5")
        self.assertEqual(choose("2", self.widgets.rows_all.clicked), "2-3,5")
        soap = look_for("soap"), self.widgets.rows_all.clicked
        self.assertEqual(choose("", *soap), "3")
        none = self.widgets.rows_none.clicked
        self.assertEqual(choose("2-5", none, lambda: rows.on_mark("2")), "5")
        self.saved("labels.pdf")
        self.open(TABLE.replace("Soap", "Soap, blue"))
        self.assertEqual(choose("", self.widgets.rows_new.clicked), "3")

    def test_each_row_has_its_number_of_labels(self) -> None:
        """In the list, or typed; nothing is kept of it, nor written into the table."""
        self.open()
        ways, rows = self.window.ways.printing, self.window.ways.printing.rows
        labels = self.window.made.labels

        def number() -> bool:
            if self.widgets.choosing.get_visible():
                rows.on_many(None, "1", "5")
                rows.on_many(None, "2", "0")
                self.widgets.choosing.response(Gtk.ResponseType.OK)
            return not self.widgets.choosing.get_visible()

        GLib.timeout_add(BEAT, number)
        self.assertEqual(rows.ask_for_rows(labels, "2,5"), "2,3 × 5")
        self.assertEqual(self.widgets.rows_count.get_text(), "2 rows are ticked: 8 labels")
        ways.labels, ways.printer = labels, ""
        self.widgets.print_rows.set_text("2, 3 x 5")
        found = [label.record.origin.number for label in ways.wanted().labels.prints]
        self.assertEqual(found, [2] * 3 + [3] * 5)
        self.window.made = replace(self.window.made, labels=ways.wanted().labels)
        self.saved("a.pdf")
        self.table.write_text(TABLE.replace("12;2", "12;5"))
        words = "--stock", "Avery L7160", "--only", "2,3"
        self.assertEqual((self.folder / "a.pdf").read_bytes(), self.by_commands(*words))

    def test_a_sheet_of_the_keepers_own(self) -> None:
        """By four fields, and a name by which it is kept and found; the labels touch unless a
        margin is typed.
        """
        self.open()
        self.remade(lambda: self.window.take_values(stock="Corner shop 24"))
        self.assertIn("My sheet has another name…", self.answers())

        said: list[Any] = []

        def describe() -> bool:
            if not self.widgets.describing.get_visible():
                return True
            for name, value in {"columns": 3, "rows": 7, "width": 63.5, "height": 38.1}.items():
                getattr(self.widgets, f"sheet_{name}").set_value(value)
            said.append(
                self.widgets.sheet_drawing.get_mapped() and self.widgets.sheet_left.get_value()
            )
            self.widgets.sheet_left.set_value(7.2)
            self.widgets.sheet_top.set_value(15.1)
            said.append(self.widgets.sheet_name.get_text())
            said.append(self.widgets.sheet_said.get_text())
            self.widgets.describing.response(Gtk.ResponseType.OK)
            return False

        GLib.timeout_add(10 * BEAT, describe)
        self.remade(self.answers()["My sheet has another name…"].clicked)
        self.until(lambda: self.window.has_labels)
        self.assertEqual(said, [9.75, "Corner shop 24", "21 labels, 2.55 and 0 mm apart."])
        grid = "--grid 3x7 --cell 63.5x38.1 --margin 7.2x15.1 --gap 2.55x0".split()
        self.assertEqual(self.saved("a.pdf"), self.by_commands(*grid))
        self.change(stock="Avery L7160")
        with mock.patch.object(self.widgets, "describing", mock.Mock()):
            self.window.own_sheets.ask_for_sheet()
        self.assertEqual(self.widgets.sheet_name.get_text(), "")  # the list has a sheet by that
        self.window.offer_sheets(SimpleNamespace(get_text=lambda: "corner"))
        self.assertEqual([row[0] for row in self.widgets.sheets], ["Corner shop 24"])
        self.change(stock="Corner shop 24")
        self.assertEqual(len(self.window.made.labels.job.plan.places), 21)

    def test_a_shift_and_an_edge_are_of_a_paper(self) -> None:
        """Typed into fields, kept of the printer and the sheet, and printed as label-print does."""
        self.open()
        self.change(right=0.5, down=-1, edge="7")
        words = "--stock", "Avery L7160", "--shift=0.5,-1", "--edge", "7"
        self.assertEqual(self.saved("a.pdf"), self.by_commands(*words))
        self.change(stock="Avery L7651")
        self.assertEqual(self.window.choices().edge, "")
        self.open(TWO_CODES)
        found = self.window.choices()
        self.assertEqual((found.right, found.down, found.edge), (0.5, -1, "7"))

    def test_the_line_of_a_shop_is_on_the_next_table_too(self) -> None:
        self.open()
        self.change(note="Corner shop")
        words = "--stock", "Avery L7160", "--note", "Corner shop"
        self.assertEqual(self.saved("a.pdf"), self.by_commands(*words))
        self.open(TWO_CODES)
        self.assertEqual(self.window.choices().note, "Corner shop")

    def test_two_designs_are_in_sight(self) -> None:
        self.open()
        self.assertTrue(self.widgets.till.get_active())
        self.remade(lambda: self.widgets.shelf.set_active(True))
        words = "--stock", "Avery L7160", "--design", "shelf"
        self.assertEqual(self.saved("a.pdf"), self.by_commands(*words))
        self.change(design="article")
        self.assertTrue(self.widgets.till.get_active())
        self.change(design=str(support.TOP / "designs/shelf-60x40.svg"), roll=True)
        self.assertTrue(self.widgets.till.get_inconsistent())
        self.remade(self.widgets.till.clicked)
        self.assertEqual(self.window.choices().design, "article")

    def test_one_label_is_typed(self) -> None:
        """Without a table."""

        def type_it() -> bool:
            if not self.widgets.typing.get_visible():
                return True
            if self.widgets.one_code.get_mapped():
                self.widgets.one_code.set_text("4006381333931")
            self.widgets.one_title.set_text("Pencil; red")
            self.widgets.one_price.set_text("0,80 €")
            self.widgets.one_copies.set_value(3)
            self.widgets.typing.response(Gtk.ResponseType.OK)
            return False

        GLib.timeout_add(10 * BEAT, type_it)
        self.window.lookup_action("type").activate(None)
        self.until(lambda: self.window.has_labels)
        self.assertEqual(
            self.counted().replace("\u00a0", " "),
            "3 labels from 1 row: 1 EAN-13; price 0,80 €; copies 3.",
        )
        self.assertEqual(self.records()[0].title, "Pencil; red")

    def test_the_label_below_the_pointer_is_large(self) -> None:
        self.open()
        draw(self.window)
        page, dark = self.drawn_page()
        self.window.result.on_pointed(self.widgets.paper, SimpleNamespace(x=60, y=60))
        self.assertNotEqual(self.drawn_page()[0], page)
        self.assertGreater(self.drawn_page()[1], dark)
        self.window.result.point_at(0)
        self.assertEqual(self.drawn_page()[0], page)

    def drawn_page(self) -> Any:
        """The pixels of the page in the window, and how many of them are dark."""
        area = self.widgets.paper.get_allocation()
        surface = cairo.ImageSurface(cairo.FORMAT_RGB24, area.width, area.height)
        self.window.result.on_draw(self.widgets.paper, cairo.Context(surface))
        surface.flush()
        data = bytes(surface.get_data())
        return data, data.count(bytes(3))

    def test_a_question_with_one_answer_is_none(self) -> None:
        """The only column that may have the price is taken."""
        self.open(";EAN;Name;X\n1;96385074;Gum;5.00\n2;4006381333931;Tea;7.20\n")
        self.assertEqual(self.window.choices().price, "4")
        self.assertEqual(self.problem(), "")

    def test_amounts_on_no_label_are_said(self) -> None:
        self.open("EAN;Name;Ex;Qty\n96385074;Gum;5.00;3\n4006381333931;Tea;7.20;8\n")
        self.change(price="")
        said = "Not on the labels: Ex 5.00; Qty 3.\nIf one is the price, name its column."
        self.assertEqual(self.rows()[0], ("", "", said))
        self.change(price="3")
        self.assertEqual(self.rows(), [])

    def test_numbers_of_rows_are_no_prices(self) -> None:
        self.open("Riga;EAN;Nome;Valore\n1;96385074;Gum;5\n2;4006381333931;Tea;7\n")
        self.assertEqual(self.window.choices().price, "")
        self.assertIn("Not on the labels: Valore 5.", self.rows()[0][2])

    def test_a_price_with_tax_is_taken_if_the_numbers_show_it(self) -> None:
        """It is the one that customers pay."""
        text = "EAN;Název;Prodejní;Prodejní DPH\n"
        for number, (net, whole) in enumerate(
            (("10,00", "12,10"), ("20,00", "24,20"), ("35,50", "42,96"))
        ):
            text += f"{support.ean13(859400000000 + number)};Zboží {number};{net};{whole}\n"
        self.open(text)
        self.assertEqual(self.window.choices().price, "4")

    def test_nothing_new_is_no_error(self) -> None:
        self.open()
        self.saved("a.pdf")
        self.open()
        GLib.idle_add(lambda: self.window.take_values(new_only=True))
        self.until(lambda: self.said().startswith("Nothing is new since"))
        self.assertEqual(self.window.events.event.kind, "info")
        self.assertFalse(self.widgets.print_button.get_sensitive())

    def test_sheets_have_pictures(self) -> None:
        """Of their grid, by which a keeper knows hers."""
        picture = sheets.grid_of(stock_sheet("Avery L7160"))
        self.assertEqual((picture.get_width(), picture.get_height()), (28, 40))  # A4
        pixels, row = picture.get_pixels(), picture.get_rowstride()
        size = picture.get_n_channels()
        middle = [pixels[20 * row + x * size : 20 * row + x * size + 3] for x in range(28)]
        white = "".join("x" if dot == b"\xff\xff\xff" else " " for dot in middle).split()
        self.assertEqual(len(white), 3)  # columns of labels

    def test_the_wheel_changes_no_choice(self) -> None:
        """It scrolls what the controls are in."""
        self.open()
        self.widgets.more_of_paper.set_expanded(True)
        draw(self.window)
        before = self.window.choices()
        for name in ("title", "design", "first"):
            control = self.window.controls[name]
            event = Gdk.Event.new(Gdk.EventType.SCROLL)
            event.window = control.get_window()
            event.direction = Gdk.ScrollDirection.DOWN
            self.assertFalse(control.event(event))
            self.rest()
        self.assertEqual(self.window.choices(), before)

    def test_reasons_wrap_at_the_edge_of_the_list(self) -> None:
        self.open()
        self.window.resize(800, 800)
        self.until(lambda: self.widgets.reason.get_property("wrap-width") < 400)
        self.window.resize(1180, 800)
        self.until(lambda: self.widgets.reason.get_property("wrap-width") > 400)

    def test_saves_beside_the_table(self) -> None:
        self.open()
        chooser = self.widgets.saver
        with (
            mock.patch.object(type(chooser), "run", return_value=0),
            mock.patch.object(type(chooser), "set_current_folder") as folder_of,
            mock.patch.object(type(chooser), "set_current_name") as name_of,
        ):
            self.window.lookup_action("save").activate(None)
            settle()
        folder_of.assert_called_once_with(str(self.table.parent))
        name_of.assert_called_once_with(f"{self.table.stem}-labels.pdf")

    def test_offers_sheets_and_encodings(self) -> None:
        """One that is sure is taken, which is said, and can be chosen all the same."""
        self.open("EAN;Artikel\n96385074;Füller, blau\n".encode("cp1252"))
        self.assertEqual(self.given(), ["The letters are Western European (Füller)."])
        said = 'The letters are read as Western European (ä é €), in words such as "Füller".'
        said += "\nCheck the letters."
        self.assertIn(said, [row[2] for row in self.rows()])
        self.pressed("Read them in another way")
        self.until(self.problem)
        self.assertIn("choose what reads well", self.problem())
        self.assertEqual([*self.answers()], ["Füller"])
        self.pressed("Füller")
        self.until(lambda: self.window.has_labels)
        self.assertEqual(self.problem(), "")
        self.assertEqual(self.window.choices().given_table, "--encoding cp1252")
        self.assertNotIn(said, [row[2] for row in self.rows()])

    def test_keeps_how_a_table_is_read(self) -> None:
        self.open()
        self.change(for_table="--where Name=Soap")
        self.saved("labels.pdf")
        later = self.folder / "next week.csv"
        later.write_text(TABLE)
        self.open(path=later)
        self.until(lambda: self.window.has_labels)
        self.assertEqual(self.window.choices().for_table, "--where Name=Soap")
        self.assertIn("2 labels from 1 row: ", self.counted())

    def test_a_file_that_is_no_table_is_said(self) -> None:
        for name, data in (
            ("old.xls", b"\xd0\xcf\x11\xe0"),
            ("empty.csv", b""),
            ("torn.xlsx", b"PK\x03\x04torn"),
        ):
            path = self.folder / name
            path.write_bytes(data)
            self.window.table = self.window.before = None
            self.open(path=path)
            self.assertIn(name, self.problem())
            self.assertFalse(self.widgets.print_button.is_sensitive())
        self.open(path=self.folder / "none.csv")
        self.assertIn("none.csv", self.problem())
        self.open()
        self.assertEqual(self.problem(), "")

    def test_wrong_words_are_said_and_the_page_stays(self) -> None:
        self.open()
        before = self.window.result.shown
        for words, said in (("--no-such-option", "--no-such-option"), ("'open", "quotation")):
            self.change(for_print=words)
            self.assertIn(said, self.problem())
            self.assertFalse(self.widgets.print_button.is_sensitive())
            self.assertIs(self.window.result.shown, before)
        self.change(for_print="", price="")
        self.assertEqual(self.problem(), "")
        self.change(for_table="--no-such-option")
        self.assertIn("--no-such-option", self.problem())
        self.change(for_table="--where Name=Soap")
        self.assertIn("2 labels from 1 row", self.counted())
        self.change(for_table="")
        self.assertIn("6 labels from 3 rows", self.counted())
        self.change(for_table="--where Name=Soap")
        self.until(lambda: "2 labels from 1 row" in self.counted())
        self.assertEqual(self.window.choices().price, "")
        with redirect_stdout(StringIO()):
            self.window.take_values(for_table="--help")
            self.rest()

    def test_a_wrong_picture_is_left_out(self) -> None:
        """It is said, and does not count as printed; the others do."""
        self.open()
        made = self.window.made.labels
        first = made.labels[0]
        packed = bytearray(first.record.modules.packed)
        packed[len(packed) // 2] ^= 0b00111100
        modules = first.record.modules._replace(packed=bytes(packed))
        symbol = first.symbols[0]._replace(modules=modules)
        bad = LaidOut(first.record, (symbol,), first.texts)
        prints = [bad if item is first else item for item in made.prints]
        self.window.made = replace(self.window.made, labels=replace(made, prints=prints))
        path = self.folder / "wrong.pdf"
        count = len({item.record.row for item in prints}) - 1
        self.assertIn("labels are saved as", self.said_after(self.window.ways.save, path))
        self.assertRegex(self.problem(), "^Row 2: .* report it.$")
        self.assertTrue(path.exists())
        self.assertEqual(len(self.printed()), count)
        self.assertNotIn(first.record.data, self.printed())

    def test_long_work_leaves_the_window_alone_and_stops(self) -> None:
        """It is done in another thread; a file that is stopped is not there."""
        numbers = range(401_234_500_000, 401_234_502_000)
        row = "{0};{1};Title {0};1,00 €\n"
        rows = "".join(row.format(number, support.ean13(number)) for number in numbers)
        threads: list[threading.Thread] = []
        save = ways.save_to

        def save_here(*values: Any) -> Any:
            threads.append(threading.current_thread())
            return save(*values)

        self.open("Nr;EAN;Name;Price\n" + rows)
        with mock.patch.object(ways, "save_to", save_here):
            self.window.ways.save(self.folder / "long.pdf")
            self.window.on_stop(None)
            self.until(self.said)
        self.assertEqual(self.said(), "Stopped: nothing was printed.")
        self.assertNotIn(threading.main_thread(), threads)
        self.assertEqual(list(self.folder.glob("*.pdf")), [])
        self.assertTrue(self.widgets.print_button.is_sensitive())
        self.window.take_values(price="")
        self.window.keep_up()
        self.window.on_stop(None)  # the labels that are there are not those that are chosen
        self.assertFalse(self.widgets.print_button.is_sensitive())

    def test_stop_tells_how_many_labels_a_printer_took(self) -> None:
        """While they go out nothing else is chosen or opened."""
        codes = map(support.ean13, range(401_234_500_000, 401_234_500_040))
        self.open("EAN;Name;Price\n" + "".join(f"{code};Pen;1,00 €\n" for code in codes))
        self.change(roll=True, to="zpl", dpi="203")
        printer = Printer(stuck=2).start()
        self.addCleanup(printer.off)
        self.assertEqual(
            work.progress_text(mock.Mock(total=0, printer="Shelf")), "waiting for Shelf…"
        )
        self.window.ways.send_to(printer.name, self.window.made.labels)
        self.until(lambda: len(printer.labels) > 1)
        self.assertFalse(self.widgets.stack.is_sensitive())
        self.window.open_table(self.table)
        self.window.on_stop(None)
        printer.told.set()
        self.until(self.problem)
        taken = re.search("it took ([0-9]+) labels whole", self.problem())
        self.assertEqual(int(taken[1]) if taken else 0, len(printer.labels))
        self.assertLess(len(printer.labels), 40)
        self.assertTrue(self.widgets.stack.is_sensitive())
        self.assertEqual(len(self.printed()), len(printer.labels))

    def test_the_desktop_finds_the_window(self) -> None:
        support.needs("desktop-file-validate", "appstreamcli")
        data = support.TOOLS / "data"
        entry = data / "org.labels.Window.desktop"
        about = data / "org.labels.Window.metainfo.xml"
        for words in (
            ["desktop-file-validate", str(entry)],
            ["appstreamcli", "validate", "--no-net", str(about)],
        ):
            ran = subprocess.run(words, capture_output=True, text=True)
            self.assertEqual(ran.returncode, 0, ran.stdout + ran.stderr)
        text = entry.read_text()
        self.assertIn(f"\nExec={(support.TOOLS / 'label-window').name} %f\n", text)
        self.assertIn(f"\nIcon={next(data.glob('*.svg')).stem}\n", text)
        for language in (path.stem for path in (support.TOOLS / "po").glob("*.po")):
            for key in ("Name", "Comment", "Keywords"):
                self.assertRegex(text, rf"\n{key}\[{language}\]=\w")

    def test_each_control_has_a_name_and_fits_a_small_screen(self) -> None:
        self.open()
        controls = list(named(self.window))
        self.assertGreater(len(controls), 20)
        self.assertEqual([str(control) for control, name in controls if not name], [])
        lists = [control for control, _ in controls if isinstance(control, Gtk.ComboBox)]
        aloud = [control.get_accessible().get_name() for control in lists]
        self.assertIn("Save a file…", aloud)
        ids = {
            str(value) for value in vars(self.window.choices()).values() if value not in ("", None)
        }
        self.assertEqual([name for name in aloud if name in ids], [])  # nobody should hear these
        answers = [("Prices may be any text, however long it is", bool)] * 3
        gtk.show_answers(self.widgets.helps, answers, self.widgets.fold)
        self.widgets.fold.set_expanded(True)
        draw(self.window)
        width, _ = self.window.get_preferred_width()
        height, _ = self.window.get_preferred_height()
        self.assertLessEqual((width <= 800, height <= 560), (True, True))
