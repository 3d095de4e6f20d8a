"""The list of designs, with a picture of each: those that are built in, and those that come with
the tools, as files that a keeper may also change.
"""

from collections.abc import Mapping
from contextlib import suppress
from functools import cache
from pathlib import Path
from typing import Any, NamedTuple, TYPE_CHECKING

import cairo

from labeltools.common.text import Text, translated
from labeltools.designs.svg_design import is_file
from labeltools.layout.area import ARTICLE, SHELF
from labeltools.paper.stock import Size
from labeltools.window.gtk import Gdk, GdkPixbuf, GLib, Gtk

if TYPE_CHECKING:
    from labeltools.window.window import Window

A_FILE = "file"  # the choice of a design in a file
TOOLS = Path(__file__).resolve().parents[2]  # of a checkout, or as they are installed
# the folders of the designs and of their pictures: as they are installed, and of a checkout
PLACES = (
    (TOOLS / "designs", TOOLS / "designs"),
    (TOOLS.parent / "designs", TOOLS.parent / "docs/pictures"),
)
FOLDER, PICTURES = next((pair for pair in PLACES if pair[0].is_dir()), PLACES[0])
NAMES = {
    "address": Text("for an address"),
    "jar": Text("for a jar"),
    "pallet": Text("for a pallet"),
    "rack": Text("for a place in a rack"),
    "receipt": Text("for a ticket on a receipt printer"),
    "shelf": Text("for a shelf, with a shop's name"),
    "ticket": Text("for a ticket with a stub"),
}
WIDE, HIGH = 64, 40  # pixels of the largest picture
FRAME = (0.6, 0.62, 0.65)
BARS = (0, 2, 3, 6, 8, 11, 12, 15, 17, 18, 21)  # where the bars of a drawn code begin
# the built-in designs as they are drawn small: the height of the digits of the price, and where the
# price and the bars are
DRAWN = {ARTICLE.name: (11, (34, 26), (5, 15, 18)), SHELF.name: (19, (16, 27), (5, 31, 5))}


class Shipped(NamedTuple):
    """A design that comes with the tools: its name in the list, the size of the label for which it
    is drawn, in millimetres, and the file of its picture.
    """

    name: str
    size: Size
    picture: Path


class Designs:
    """The designs of a window: a list, and two of them in sight."""

    def __init__(self, window: "Window") -> None:
        self.window = window
        self.widgets = window.widgets
        self.last = ARTICLE.name  # that was chosen
        # the buttons of the designs in sight
        self.looks: Mapping[str, Any] = {
            ARTICLE.name: self.widgets.till,
            SHELF.name: self.widgets.shelf,
        }
        if FOLDER.is_dir():
            self.widgets.design_opener.add_shortcut_folder(str(FOLDER))
        add_pictures(self.widgets.design)
        self.widgets.design.connect("changed", self.on_design)
        for name, button in self.looks.items():
            button.set_property("image", Gtk.Image.new_from_pixbuf(picture_of_design(name)))
            button.connect("clicked", self.on_look, name)

    def on_design(self, design: Any) -> None:
        """Makes the labels in another design; asks for its file where that is chosen, once the list
        of choices is closed.
        """
        name = design.get_active_id()
        if name == A_FILE:
            GLib.idle_add(self.ask_for_file)
        elif name:
            self.last = name
            self.show_look()
            self.window.follow()

    def on_look(self, button: Any, name: str) -> None:
        """Chooses one of the designs that are in sight."""
        if button.get_active():
            self.window.take_values(design=name)

    def show_look(self) -> None:
        """Shows which of the designs in sight is chosen; neither if it is another one."""
        for name, button in self.looks.items():
            button.set_inconsistent(self.last not in self.looks)
            if name == self.last:
                button.set_active(True)

    def ask_for_file(self) -> None:
        """Asks for the file of a design."""
        opener = self.widgets.design_opener
        last = Path(self.last) if is_file(self.last) else self.window.path
        opener.set_current_folder(str((last or Path()).absolute().parent))
        is_found = opener.run() == Gtk.ResponseType.ACCEPT
        self.window.take_values(design=opener.get_filename() if is_found else self.last)
        self.window.make()  # the file may have another drawing now


@cache
def shipped() -> Mapping[str, Shipped]:
    """Returns the designs that come with the tools, by their files, in whose names is the size."""
    found = {}
    for path in sorted(FOLDER.glob("*.svg")):
        name, _, size = path.stem.rpartition("-")
        wide, _, high = size.partition("x")
        shown = f"{translated(NAMES[name])}, {wide} × {high} mm"
        picture = PICTURES / f"design-{name}.png"
        found[str(path)] = Shipped(shown, (float(wide), float(high)), picture)
    return found


def without_folder(text: str) -> str:
    """Returns a text in which the designs that come with the tools are named without a folder."""
    return text.replace(f"{FOLDER}/", "")


def add_pictures(choice: Any) -> None:
    """Shows a picture of each design in a choice of them, and adds those that come with the
    tools.
    """
    rows = choice.get_model()
    for path, design in shipped().items():
        choice.insert(len(rows) - 1, path, design.name)
    for row in rows:
        row[2] = picture_of_design(row[1])
    picture = Gtk.CellRendererPixbuf(width=WIDE + 8, xalign=0)
    choice.pack_start(picture, False)
    choice.reorder(picture, 0)
    choice.add_attribute(picture, "pixbuf", 2)


@cache
def picture_of_design(design: str) -> Any:
    """Returns a picture of a design; None where there is none."""
    if design in DRAWN:
        return drawn_label(*DRAWN[design])
    with suppress(GLib.Error, KeyError):
        file = str(shipped()[design].picture)
        picture = GdkPixbuf.Pixbuf.new_from_file_at_scale(file, WIDE - 2, HIGH - 2, True)
        return with_edge(picture)
    return None


def with_edge(picture: Any) -> Any:
    """Returns a picture of a label with its edge, since paper is white."""
    surface, canvas = empty_label(picture.get_width() + 2, picture.get_height() + 2)
    Gdk.cairo_set_source_pixbuf(canvas, picture, 1, 1)
    canvas.paint()
    return Gdk.pixbuf_get_from_surface(surface, 0, 0, surface.get_width(), surface.get_height())


def drawn_label(digits: float, price: tuple[float, float], bars: tuple[float, float, float]) -> Any:
    """Returns a picture of a label of 60 by 40 mm: a title, a price of a height at a place, and
    bars of a height at another one.
    """
    surface, canvas = empty_label(60, HIGH)
    canvas.set_source_rgb(0, 0, 0)
    canvas.rectangle(5, 5, 34, 3)
    left, top, high = bars
    for place in BARS:
        canvas.rectangle(left + place, top, 1 + place % 2, high)
    canvas.fill()
    # Cairo keeps a face as it was first used, so that of pages has another name
    canvas.select_font_face("Liberation Sans ", cairo.FONT_SLANT_NORMAL, cairo.FONT_WEIGHT_BOLD)
    canvas.set_font_size(digits)
    canvas.move_to(*price)
    canvas.show_text("2,95")
    return Gdk.pixbuf_get_from_surface(surface, 0, 0, 60, HIGH)


def empty_label(wide: int, high: int) -> tuple[Any, Any]:
    """Returns an empty label with its edge, and a canvas on it."""
    surface = cairo.ImageSurface(cairo.FORMAT_ARGB32, wide, high)
    canvas = cairo.Context(surface)
    canvas.set_source_rgb(*FRAME)
    canvas.paint()
    canvas.set_source_rgb(1, 1, 1)
    canvas.rectangle(1, 1, wide - 2, high - 2)
    canvas.fill()
    return surface, canvas
