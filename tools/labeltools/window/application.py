"""The program label-window: one for a desktop, with a window for each table."""

import sys
from collections.abc import Sequence
from functools import partial
from pathlib import Path
from typing import Any

from labeltools.common.arguments import Parser
from labeltools.common.language import language
from labeltools.common.messages import fault_of, ToolError, write_message
from labeltools.common.text import Text
from labeltools.window.gtk import add_actions, add_style, Gio, GLib, Gtk
from labeltools.window.window import Window

ID = "org.labels.Window"
KEYS = {
    "win.open": "<Primary>o",
    "win.save": "<Primary>s",
    "win.print": "<Primary>p",
    "win.command": "<Primary>d",
    "app.help": "F1",
    "app.quit": "<Primary>q",
}
# the help, a page of HTML for each language, as it is installed
HELP = Path(__file__).resolve().parents[3] / "help"


class Application(Gtk.Application):
    """A program whose second start opens its table in the one that runs."""

    def do_startup(self) -> None:
        """Adds what the keys do."""
        Gtk.Application.do_startup(self)
        add_style()
        add_actions(self, {"help": self.help, "quit": self.close_windows})
        for action, keys in KEYS.items():
            self.set_accels_for_action(action, [keys])

    def do_activate(self) -> Window:
        """Returns a new window without a table, which is shown."""
        window = Window(application=self)
        window.present()
        return window

    def do_open(self, files: Sequence[Any], *_hint: Any) -> None:
        """Opens each table in a window."""
        for file in files:
            self.do_activate().open_table(Path(file.get_path() or file.get_uri()))

    def help(self) -> None:
        """Opens the help in the language of the window, with the browser of the desktop."""
        page = HELP / language() / "label-window/index.html"
        window = self.get_active_window()
        try:
            Gtk.show_uri_on_window(window, page.as_uri(), Gtk.get_current_event_time())
        except GLib.Error as error:
            window.show_problem(ToolError(Text("{}: {}", page, error)))

    def close_windows(self) -> None:
        """Closes all windows, which ends the program."""
        for window in self.get_windows():
            window.destroy()


def tell_fault(application: Application, kind: type[BaseException], *error: Any) -> None:
    """Says that a control did what nobody expected: in the window, and on standard error."""
    if not issubclass(kind, Exception):
        sys.__excepthook__(kind, *error)
        return
    fault = fault_of(error[0])
    write_message("label-window", fault)
    if window := application.get_active_window():
        window.show_problem(ToolError(fault))


def run() -> int:
    """Runs label-window and returns its status."""
    about = "Prints labels from a table, in a window."
    parser = Parser("label-window", "label-window [TABLE]", about)
    parser.add_argument("table", metavar="TABLE", nargs="?", help="a table to open")
    table = parser.parse_args().table
    if not Gtk.init_check()[0]:
        raise ToolError(
            Text("there is no screen"), Text("on a terminal type label-table and label-print")
        )
    GLib.set_prgname(ID)
    words = [] if table is None else ["--", table]
    application = Application(application_id=ID, flags=Gio.ApplicationFlags.HANDLES_OPEN)
    sys.excepthook = partial(tell_fault, application)
    return int(application.run([sys.argv[0], *words]))
