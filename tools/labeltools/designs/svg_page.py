"""The drawing of a design: a page of SVG, as librsvg draws it.

What a page may be made of is listed here. An element that is not in the list is refused, since
librsvg would leave it out. All else is as the preview shows it, alike on all labels. Nothing of a
page is rewritten: what is not to be seen is hidden by a style sheet.

A page is read in the process that draws it (`read_page`). Ours only has its bytes.
"""

import os
import re
import zlib
from base64 import b64decode
from dataclasses import dataclass
from io import BytesIO
from typing import NamedTuple
from xml.etree import ElementTree
from xml.etree.ElementTree import Element

from labeltools.common.budget import check_size, DOTS, PAGE
from labeltools.common.messages import OF_SYSTEM, Remedy, ToolError
from labeltools.common.text import NOTHING, Text
from labeltools.designs.drawer import DPI, Drawing, PageSides, PLAIN, SAVE_AGAIN, sides
from labeltools.paper.stock import Size

SPACE = "{http://www.w3.org/2000/svg}"
INCLUDED = "{http://www.w3.org/2001/XInclude}"  # what is of another address
BEGIN = '<svg xmlns="http://www.w3.org/2000/svg"'
LINKS = ("href", "{http://www.w3.org/1999/xlink}href")
PX = 25.4 / DPI  # millimetres
MOST_SEEN = 4_000_000  # dots of a page that is looked at
LARGEST = 4000.0  # millimetres of a page
PACKED = b"\x1f\x8b"  # what .svgz begins with
WITHIN = re.compile("#|data:image/(?:png|jpeg);base64,")
KINDS = ("PNG", "JPEG")
DRAWING = re.compile(r"data:image/svg\+xml\b")
OUTSIDE = re.compile(r"url\((?!\s*[\"']?(?:#|data:))|@import", re.IGNORECASE)
# what is drawn, and what draws nothing anywhere
ELEMENTS = frozenset(
    "a circle clipPath defs desc ellipse feBlend feColorMatrix feComponentTransfer feComposite"
    " feDisplacementMap feFlood feFuncA feFuncB feFuncG feFuncR feGaussianBlur feMerge feMergeNode"
    " feOffset feTurbulence filter g image line linearGradient marker mask metadata path pattern"
    " polygon polyline radialGradient rect script stop style svg symbol text title tspan use view"
    " animate animateColor animateMotion animateTransform color-profile cursor font font-face"
    " font-face-format font-face-name font-face-src font-face-uri glyph hkern missing-glyph mpath"
    " set vkern".split()
)
# what stands in a rectangle of its own, or of others, and is no place
HOLDERS = ("clipPath", "defs", "marker", "mask", "pattern", "symbol")


@dataclass(frozen=True, eq=False)
class SvgPage:
    """A page of SVG as it is drawn: its file, its bytes, its sides, whether these are in
    millimetres, and the tags of its elements.
    """

    file: str
    data: bytes
    size: Size
    is_real: bool
    tags: frozenset[str]

    def check_dots(self, wide: int, high: int) -> None:
        """Raises `ToolError` for a drawing in more dots than any printer's label has."""
        if wide * high > DOTS.most(len(self.data)):
            what = Text("{} has {} by {} dots, which are too many to draw", self.file, wide, high)
            remedies = (Remedy("dpi"), Remedy("to", "pdf"))
            raise ToolError(what, Text("make it smaller"), remedies=remedies)


class OpenPage(NamedTuple):
    """A page that is read: its file, its elements, and what `SvgPage` has of its sides."""

    file: str
    root: Element
    size: Size
    is_real: bool

    def as_drawn(self) -> SvgPage:
        """Returns the page with its bytes, once its places and groups are marked."""
        tags = frozenset(map(tag_of, self.root.iter()))
        data = ElementTree.tostring(self.root, "utf-8")
        return SvgPage(self.file, data, self.size, self.is_real, tags)


def read_page(drawing: Drawing) -> OpenPage:
    """Returns the page of the bytes of a file; raises `ToolError` where that is none, or would not
    be drawn.
    """
    file = drawing.file
    data = unzipped(file, drawing.data)
    try:
        root = ElementTree.fromstring(data)
    except (ElementTree.ParseError, LookupError, ValueError) as error:
        raise ToolError(Text("{} is not SVG: {}", file, error), SAVE_AGAIN) from error
    if root.tag != f"{SPACE}svg":
        raise ToolError(Text("{} is not SVG", file), Text("it begins with {}", BEGIN))
    check_elements(file, root)
    return sized_page(file, root, sides(Drawing(file, data)))


def drawing_of(file: str) -> Drawing:
    """Returns the bytes of a file, as they are to be drawn; raises `ToolError`. A FIFO is empty,
    and is not waited for.
    """
    most = PAGE.bytes.most(0)
    try:
        with open(
            file, "rb", opener=lambda name, how: os.open(name, how | os.O_NONBLOCK)
        ) as opened:
            data = opened.read(most + 1) or b""
    except OSError as error:
        what = Text("{}: {}", file, error.strerror)
        raise ToolError(what, OF_SYSTEM.get(type(error), NOTHING)) from error
    check_size(file, len(data), PAGE)
    return Drawing(file, data)


def unzipped(file: str, data: bytes) -> bytes:
    """Returns the bytes of a page, which may be packed; raises `ToolError`."""
    if not data.startswith(PACKED):
        return data
    most = PAGE.bytes.most(0)
    try:
        found = zlib.decompressobj(zlib.MAX_WBITS + 16).decompress(data, most + 1)
    except zlib.error as error:
        raise ToolError(Text("{} is not SVG: {}", file, error), SAVE_AGAIN) from error
    check_size(file, len(found), PAGE)
    return found


def sized_page(file: str, root: Element, found: PageSides) -> OpenPage:
    """Returns a page, which takes all of what it is drawn on from here on; raises `ToolError` where
    it has no size.
    """
    size = found.pixels if found.is_sized else found.box or (0.0, 0.0)
    if found.box is None:
        root.set("viewBox", "0 0 {:.6f} {:.6f}".format(*size))
    elif not min(found.box) > 0:
        size = (0.0, 0.0)
    is_real = found.is_sized and found.units != {"px"}
    width, height = (round(side * (PX if is_real else 1.0), 3) for side in size)
    if not 0 < min(width, height) <= max(width, height) < LARGEST:
        example = 'width="60mm" height="40mm" viewBox="0 0 60 40"'
        hint = Text("give it width, height and viewBox, as {}", example)
        raise ToolError(Text("{} has no size", file), hint)
    root.set("style", f"{root.get('style', '')};width:auto;height:auto")
    return OpenPage(file, root, (width, height), is_real)


def tag_of(element: Element) -> str:
    """Returns the tag of an element, without the name space of SVG."""
    return str(element.tag).removeprefix(SPACE)


def check_elements(file: str, root: Element) -> None:
    """Raises `ToolError` for what would not be drawn: elements that are not known, other files,
    pictures of other kinds.
    """
    for switch in [*root.iter(f"{SPACE}switch")]:
        if sum(not is_left_out(child) for child in switch) == 1:
            switch.tag = f"{SPACE}g"
    filled = (element for element in root.iter() if not is_left_out(element))
    tags = dict.fromkeys(map(tag_of, filled))
    of_svg = (tag for tag in tags if not tag.startswith("{") or tag.startswith(INCLUDED))
    if unknown := [tag.removeprefix(INCLUDED) for tag in of_svg if tag not in ELEMENTS]:
        raise ToolError(Text("{}: {} cannot be drawn", file, ", ".join(unknown)), PLAIN)
    for element in root.iter():
        links = [*filter(None, map(element.get, LINKS))]
        sheets = [element.text or ""] * (tag_of(element) == "style")
        styles = [*sheets, *(value for key, value in element.items() if key not in LINKS)]
        if tag_of(element) in ("a", "color-profile"):  # links in PDF fail, profiles are not used
            element.tag = f"{SPACE}g"
        elif not all(map(WITHIN.match, links)) or any(map(OUTSIDE.search, styles)):
            raise refused_link(file, tag_of(element), any(map(DRAWING.match, links)))
        elif tag_of(element) == "image":
            for link in links:
                check_picture(file, link.partition(",")[2])


def refused_link(file: str, tag: str, is_drawing: bool) -> ToolError:
    """Returns why what an element refers to is not drawn: it is an SVG, or in another file, or a
    picture of another kind.
    """
    if is_drawing:
        what = Text("{}: an SVG is embedded as a picture", file)
        return ToolError(what, Text("in Inkscape import it again as editable objects"))
    what = Text("{}: {} is of another file, or is not PNG or JPEG", file, tag)
    return ToolError(what, Text("embed it, in Inkscape by Extensions, Images, Embed Images"))


def check_picture(file: str, data: str) -> None:
    """Raises `ToolError` for a picture that is broken, which would be left out."""
    from PIL import Image  # it takes 40 ms, also of built-in designs

    Image.MAX_IMAGE_PIXELS = None  # its own limit is a warning
    try:
        if data:
            Image.open(BytesIO(b64decode(data)), formats=KINDS)
    except (OSError, ValueError) as error:
        raise ToolError(Text("{}: a picture is broken", file), Text("embed it again")) from error


def is_left_out(element: Element) -> bool:
    """Returns whether an element is never seen: empty text that flows, which Inkscape leaves
    behind, or what only Illustrator reads.
    """
    is_empty_flow = tag_of(element).startswith("flow") and not "".join(element.itertext()).strip()
    return is_empty_flow or bool(element.get("requiredExtensions"))
