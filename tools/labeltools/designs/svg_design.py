"""A design of a user's own: an SVG page of the label's size, drawn in any program.

A rectangle with a name is the place of a part of labels, and is not drawn itself; all else is drawn
on each label as it is, but for a group with the name of a part or a column, which is drawn where a
label has that. The name is that of the part, then how it is drawn:

    <rect data-place="title, bold, middle" x="2" y="2" width="96" height="22"/>
    <rect data-place="code" x="2" y="25" width="72" height="23"/>
    <rect data-place="code-2, qr, level=Q" x="76" y="25" width="22" height="22"/>

It is the value of `data-place`, or else the name that Inkscape, Affinity or Illustrator writes, or
else the id. Lengths are in millimetres from the left upper corner of the label as it is read.
"""

import math
import re
from collections import Counter
from dataclasses import dataclass, field, replace
from typing import Any, Iterator, Mapping, NamedTuple
from xml.etree.ElementTree import Element

from labeltools.common.messages import BAD_ARGUMENTS, Problem, Remedy, ToolError
from labeltools.common.text import Text
from labeltools.designs.drawer import ask, Drawer, Drawing, light, lines, PageArea, places_in
from labeltools.designs.place_names import place_of, title_of
from labeltools.designs.svg_page import (
    drawing_of,
    HOLDERS,
    MOST_SEEN,
    OpenPage,
    read_page,
    SvgPage,
    tag_of,
)
from labeltools.layout.fitting import Colour
from labeltools.layout.place import key_of, part_of, PARTS, Place
from labeltools.paper.plan import Edges
from labeltools.paper.stock import Size, size_text

OF_EDGE = (Remedy("edge"),)
SUFFIXES = (".svg", ".svgz")
MODE = "{http://www.inkscape.org/namespaces/inkscape}groupmode"  # of layers
NEAR = 1.0  # millimetres by which a page may differ from a label
ALIKE = 0.015  # by which the proportions of a page without millimetres may
MOST_PLACES = 400
KEPT = 16  # drawings
SHAPES = ("path", "circle", "ellipse", "polygon", "polyline", "line", "image", "use", "text")
FILLED = re.compile(r"(?<![\w-])fill:\s*url\(")  # by a picture, or a gradient
THIN = "1e-7px"  # the height of what shows the upper edge of a place
TINY = 0.01  # millimetres
BLACK = (0.0, 0.0, 0.0)
WHITE = (1.0, 1.0, 1.0)
CHECKED = 12.0  # dots a millimetre, in which a drawing is looked at, and
WHITEST = bytes((254, 255))  # what symbols take behind them: a line far thinner than a dot is seen
LIGHT = bytes(range(128, 256))  # what is white in dots
# the least part of a place, but for so many millimetres at its edges, that some letters may lie on
SPOTTED = 0.05
UNREAD = 0.25  # the least part from which on they are refused
FRAME = 0.5
EDGE = 0.05  # of the place of a symbol, where the drawing may end
CONTRAST = 0.3  # between letters and what is behind them, of that between black and white


class Seen(NamedTuple):
    """A drawing as it is looked at: how light its dots are, bytes from 0 for black, of which so
    many are a row, and so many a millimetre.
    """

    light: bytes
    wide: int
    scale: float

    def behind(self, place: Place, edge: float) -> bytes:
        """Returns how light it is in a place, but for so many millimetres at its edges."""
        left, top = (math.ceil((side + edge) * self.scale) for side in (place.left, place.top))
        ends = (place.left + place.width, place.top + place.height)
        right, bottom = (math.floor((side - edge) * self.scale) for side in ends)
        starts = range(top * self.wide, max(top + 1, bottom) * self.wide, self.wide)
        after = max(left + 1, right)
        return b"".join(self.light[start + left : start + after] for start in starts)


@dataclass(frozen=True, eq=False)
class SvgDesign:
    """A design that suits a label: its page, the sides of a label as it is read, whether labels are
    turned to the right, its places, its groups, by the parts or columns with which they are drawn,
    each with what it is without a number behind it, what other shapes with a name are, by its key,
    what is said of it, and its drawing as it was looked at, without some parts.
    """

    page: SvgPage
    label: Size
    is_turned: bool
    groups: Mapping[str, str]
    shapes: Mapping[str, str]
    places: tuple[Place, ...] = ()
    remarks: tuple[Problem, ...] = ()
    looked_at: dict[frozenset[str], Seen] = field(default_factory=dict)

    def area(self, scale: float) -> PageArea:
        """Returns where its page is on a label, in so many units a millimetre."""
        size = self.page.size if self.page.is_real else self.label
        corner = ((room - side) / 2 for room, side in zip(self.label, size))
        return PageArea(*(side * scale for side in (*corner, *size)))

    def sheet(self, absent: frozenset[str]) -> str:
        """Returns the style sheet that hides what is not alike on labels without some parts."""
        hidden = [f"#place-{number}" for number in range(len(self.places))]
        hidden += [f".group-{number}" for number, key in enumerate(self.groups) if key in absent]
        return f"{','.join(hidden)}{{display:none!important}}"

    def drawing(self, scale: float, absent: frozenset[str]) -> Drawing:
        """Returns what is alike on labels without some parts, in so many units a millimetre."""
        return Drawing(self.page.file, self.page.data, self.sheet(absent), self.area(scale))

    def draw(self, canvas: Any, scale: float, absent: frozenset[str]) -> None:
        """Draws it as lines; raises `ToolError` where that takes too much: the other process draws
        the same first.
        """
        drawing = self.drawing(scale, absent)
        left, top, wide, high = drawing.area
        ask(lines, drawing, left + wide, top + high)
        Drawer(drawing).draw(canvas)

    def light(self, scale: float, absent: frozenset[str], wide: int, high: int) -> bytes:
        """Returns how light each of some dots of it is, so many a millimetre: a byte, 0 for black.
        Raises `ToolError` where that takes too much.
        """
        return ask(light, self.drawing(scale, absent), wide, high)

    def seen(self, absent: frozenset[str]) -> Seen:
        """Returns the drawing without some parts as it is looked at."""
        if absent not in self.looked_at:
            scale = min(CHECKED, math.sqrt(MOST_SEEN / (self.label[0] * self.label[1])))
            wide, high = (math.ceil(side * scale) for side in self.label)
            if len(self.looked_at) == KEPT:
                self.looked_at.clear()
            self.looked_at[absent] = Seen(self.light(scale, absent, wide, high), wide, scale)
        return self.looked_at[absent]

    def coloured(self, absent: frozenset[str]) -> dict[Place, Place]:
        """Returns the places of texts on the drawing without some parts, with the colours of
        letters there.
        """
        seen = self.seen(absent)
        texts = [place for place in self.places if not place.is_symbol]
        colours = (colour_on(place, seen.behind(place, 0.0)) for place in texts)
        return {place: replace(place, colour=colour) for place, colour in zip(texts, colours)}

    def mixed(self, absent: frozenset[str], least: float, most: float) -> list[Place]:
        """Returns the places of texts in which that part of the drawing is of the rarer kind, light
        or dark: letters cannot be read there, or hardly.
        """
        seen = self.seen(absent)
        texts = [place for place in self.places if not place.is_symbol]
        dark = [dark_part(seen.behind(place, FRAME)) for place in texts]
        return [place for place, part in zip(texts, dark) if least < min(part, 1 - part) <= most]


def is_file(design: str) -> bool:
    """Returns whether a design is a file."""
    return design.lower().endswith(SUFFIXES)


def size_of_page(file: str) -> Size:
    """Returns the size of a page; raises `ToolError` if that is not in millimetres."""
    size = ask(size_in_millimetres, drawing_of(file))
    if size is None:
        what = Text("{} has no size in millimetres", file)
        remedies = tuple(map(Remedy, ("paper", "stock", "cell")))
        raise ToolError(what, Text("choose its paper"), BAD_ARGUMENTS, remedies)
    return size


def size_in_millimetres(drawing: Drawing) -> Size | None:
    """Returns the size of a page; None if that is not in millimetres."""
    page = read_page(drawing)
    return page.size if page.is_real else None


def read_design(file: str, cell: Size, white: Edges, turn: bool | None) -> SvgDesign:
    """Returns the design of a file for cells of a size, of which `white` takes no ink; raises
    `ToolError` where it does not suit them, or is no design. The process that draws reads it.
    """
    return ask(design_in, drawing_of(file), cell, white, turn)


def design_in(drawing: Drawing, cell: Size, white: Edges, turn: bool | None) -> SvgDesign:
    """Returns the design of the bytes of a file, as `read_design`."""
    page = read_page(drawing)
    file = page.file
    is_turned = fitting_turn(page, cell, turn)
    label = cell[::-1] if is_turned else cell
    edges = (white[1], white[2], white[3], white[0]) if is_turned else white
    drawn = filter(is_drawn, page.root.iter())
    shapes = {key_of(title_of(element)): tag_of(element) for element in drawn}
    groups = marked_groups(page.root)
    places = marked_places(page)
    design = SvgDesign(page.as_drawn(), label, is_turned, groups, shapes)
    placed = tuple(located(design, places))
    check_places(file, placed, label)
    cut = tuple(inside(file, place, label, edges) for place in placed)
    lost = (
        (place.title, max(whole.width - place.width, whole.height - place.height))
        for place, whole in zip(cut, placed)
    )
    smaller = [title for title, by in lost if by > NEAR / 2 + TINY]
    design = replace(design, places=cut)
    for absent in {frozenset[str](), frozenset(groups)}:
        check_white(design, design.seen(absent))
    said = tuple(design_remarks(design, smaller, edges))
    coloured = design.coloured(frozenset())
    return replace(design, places=tuple(coloured.get(place, place) for place in cut), remarks=said)


def fitting_turn(page: OpenPage, cell: Size, turn: bool | None) -> bool:
    """Returns whether labels of a page are turned; raises `ToolError` where it does not suit."""
    for is_turned in (False, True):
        label = cell[::-1] if is_turned else cell
        if turn in (None, is_turned) and is_fitting(page, label):
            return is_turned
    label = cell[::-1] if turn else cell
    if page.is_real:
        taken = size_text(page.size)
        hint = Text("set the size of its page to that, or take other paper")
    else:
        taken = Text("{:g} by {:g} without a unit", *page.size)
        sides = f'width="{label[0]:g}mm" height="{label[1]:g}mm"'
        hint = Text("draw it in these proportions, or give it {}", sides)
    raise ToolError(Text("{} is {}, and a label is {}", page.file, taken, size_text(label)), hint)


def is_fitting(page: OpenPage, label: Size) -> bool:
    """Returns whether a page has the size of a label, or its proportions if it is in pixels."""
    if page.is_real:
        return all(abs(side - room) <= NEAR for side, room in zip(page.size, label))
    across = page.size[0] / label[0]
    down = page.size[1] / label[1]
    return abs(across - down) <= ALIKE * down


def is_drawn(element: Element) -> bool:
    """Returns whether an element with a name is drawn as it is, and is no group. A text that a
    program has named by its words is not meant.
    """
    title = title_of(element)
    words = "".join(element.itertext()) if tag_of(element) == "text" else ""
    return tag_of(element) in SHAPES and title != "" and key_of(title) != key_of(words)


def marked_groups(root: Element) -> dict[str, str]:
    """Returns the keys of the groups with a name, but for layers of Inkscape, each with its part,
    and gives these a class.
    """
    groups: dict[str, str] = {}
    for group in root.iter():
        title = title_of(group)
        if tag_of(group) == "g" and title and group.get(MODE) != "layer":
            groups.setdefault(key_of(title), part_of(title))
            number = [*groups].index(key_of(title))
            group.set("class", f"{group.get('class', '')} group-{number}")
    return groups


def marked_places(page: OpenPage) -> list[Place]:
    """Returns the rectangles that are places, and gives these an id; raises `ToolError` for a wrong
    name. But for parts, what a picture or a gradient fills is drawn, as is what stands for others.
    """
    holders = [element for element in page.root.iter() if tag_of(element) in HOLDERS]
    held = {element for holder in holders for element in holder.iter()}
    found: list[Place] = []
    for rect in page.root.iter():
        title = title_of(rect) if tag_of(rect) == "rect" else ""
        is_filled = FILLED.search(f"fill:{rect.get('fill')};{rect.get('style')}")
        if title and (part_of(title) in PARTS or not (is_filled or rect in held)):
            place = place_of(page.file, rect)
            rect.set("id", f"place-{len(found)}")
            found.append(place)
    if len(found) > MOST_PLACES:
        hint = Text("remove the names of rectangles that are no places")
        raise ToolError(Text("{} has more than {} places", page.file, MOST_PLACES), hint)
    if not any(place.part == "code" for place in found):
        hint = Text("name a rectangle code: in Inkscape by its label, which plain SVG loses")
        raise ToolError(Text("{} has no rectangle for the code", page.file), hint)
    return found


def located(design: SvgDesign, places: list[Place]) -> Iterator[Place]:
    """Yields places with their sides; raises `ToolError` for one that has none, or is askew. It
    asks librsvg where they are, and where their upper and left edges are.
    """
    names = [f"#place-{number}" for number in range(len(places))]
    edges = [f"{','.join(names)}{{{side}:{THIN}!important}}" for side in ("height", "width")]
    page = design.page
    drawing = Drawing(page.file, page.data, area=design.area(1.0))
    colours, rectangles = places_in(drawing, names, edges)
    for colour, *found in zip(colours, places, *rectangles):
        yield replace(located_place(page.file, *found), colour=colour)


def located_place(file: str, place: Place, whole: Any, upper: Any, left: Any) -> Place:
    """Returns a place with its sides and its turn, by the rectangles of it and of its upper and
    left edge; raises `ToolError`.
    """
    if min(whole.width, whole.height) < TINY:
        hint = Text("give it a width and a height, and show its layer, or remove its name")
        what = Text("{}: the place {} is hidden, or has no size", file, place.title)
        raise ToolError(what, hint)
    middle = whole.x + whole.width / 2
    if max(upper.height, left.width) <= TINY:  # one that is mirrored is upright
        is_below = upper.y > whole.y + whole.height / 2
        quarters = 2 if is_below and left.x > middle else 0
    elif max(upper.width, left.height) <= TINY:
        quarters = 3 if upper.x < middle else 1
    else:
        hint = Text("turn it by a quarter, or not at all")
        raise ToolError(Text("{}: the place {} is askew", file, place.title), hint)
    sides = {"left": whole.x, "top": whole.y, "width": whole.width, "height": whole.height}
    return replace(place, quarters=quarters, **sides)


def check_places(file: str, places: tuple[Place, ...], label: Size) -> None:
    """Raises `ToolError` where a place leaves the label, or a symbol has not its place alone."""
    for number, place in enumerate(places):
        ends = (label[0] - place.left - place.width, label[1] - place.top - place.height)
        beyond = -min(place.left, place.top, *ends)
        if beyond > NEAR / 2 + TINY:
            what = Text(
                "{0}: the place {1} extends {2:.1f} mm beyond the label", file, place.title, beyond
            )
            raise ToolError(what, Text("the page is {}", size_text(label)))
        for other in places[number + 1 :]:
            if (place.is_symbol or other.is_symbol) and place.common(other) > TINY:
                titles = place.title, other.title
                what = Text("{}: the places {} and {} overlap", file, *titles)
                hint = Text("move them apart, or remove the name of what is to be drawn")
                raise ToolError(what, hint)


def inside(file: str, place: Place, label: Size, edges: Edges) -> Place:
    """Returns the part of a place that takes ink; raises `ToolError` where nothing of it does."""
    left = max(place.left, edges[0])
    top = max(place.top, edges[1])
    wide = min(place.left + place.width, label[0] - edges[2]) - left
    high = min(place.top + place.height, label[1] - edges[3]) - top
    if min(wide, high) < TINY:
        what = Text(
            "{}: the place {} is at the edge of the paper, where printers do not print",
            file,
            place.title,
        )
        raise ToolError(what, Text("move it, or make the edge smaller"), remedies=OF_EDGE)
    return replace(place, left=left, top=top, width=wide, height=high)


def design_remarks(design: SvgDesign, smaller: list[str], edges: Edges) -> Iterator[Problem]:
    """Yields what is said of a design and its drawing, of which some places are smaller than drawn,
    since an edge takes no ink.
    """
    file = design.page.file
    seen = design.seen(frozenset())
    counts = Counter(place.key for place in design.places)
    if again := [key for key, count in counts.items() if count > 1]:
        what = Text("{}: several rectangles are named {}", file, ", ".join(again))
        yield Problem(what, Text("name the second one {}-2, or remove one", again[0]))
    if smaller:
        why = Text("the printer does not print there, at the edge of the page")
        yield Problem(Text("{}: smaller than drawn: {}", file, ", ".join(smaller)), why, OF_EDGE)
    inner = NEAR / 2 + 1 / seen.scale  # a dot may be in part beyond an edge
    left, top, right, bottom = (max(0.0, edge - inner) for edge in edges)
    wide, high = design.label
    if max(left, top, right, bottom) > 0:
        areas = ((0, 0, wide, high), (left, top, wide - left - right, high - top - bottom))
        whole, within = (seen.behind(Place("", *sides), 0.0) for sides in areas)
        if len(whole.translate(None, LIGHT)) > len(within.translate(None, LIGHT)):
            what = Text("{}: the drawing is cut at the edge", file)
            yield Problem(what, Text("move it in"), (*OF_EDGE, Remedy("shift")))
    if spotted := design.mixed(frozenset(), SPOTTED, UNREAD):
        yield Problem(mixed_text(file, ", ".join(place.title for place in spotted)))


def mixed_text(file: str, places: str) -> Text:
    """Returns that letters can hardly be read in some places."""
    what = Text(
        "{}: behind {} the drawing is partly light and partly dark, so letters of no colour can be "
        "read there",
        file,
        places,
    )
    return Text("{}; {}", what, Text("move the rectangle, or the drawing"))


def check_white(design: SvgDesign, seen: Seen) -> None:
    """Raises `ToolError` where a drawing is not white in the place of a symbol."""
    for place in design.places:
        if place.is_symbol and seen.behind(place, EDGE).translate(None, WHITEST):
            names = design.page.file, place.title
            what = Text("{}: the drawing is not white in the place {}", *names)
            raise ToolError(what, Text("a symbol needs white there, up to the edge of its place"))


def dark_part(light: bytes) -> float:
    """Returns which part of dots is dark."""
    return len(light.translate(None, LIGHT)) / max(1, len(light))


def colour_on(place: Place, behind: bytes) -> Colour:
    """Returns the colour of letters on what is behind them: that of their place where it can be
    read, or else black or white.
    """
    usual = BLACK if dark_part(behind) <= 0.5 else WHITE
    wanted = place.colour or usual
    contrast = abs(light_of(wanted) - sum(behind) / 255 / max(1, len(behind)))
    return wanted if is_light(wanted) == is_light(usual) and contrast > CONTRAST else usual


def light_of(colour: Colour) -> float:
    """Returns how light a colour is, from 0 to 1."""
    red, green, blue = colour
    return 0.3 * red + 0.59 * green + 0.11 * blue


def is_light(colour: Colour) -> bool:
    """Returns whether a colour is white in dots."""
    return light_of(colour) >= 0.5
