"""Designs of a user's own: how labels look in them, and what is refused."""

import base64
import gzip
import os
import struct
import tempfile
import unittest
import zlib
from pathlib import Path
from typing import Any, Sequence
from unittest import mock

import numpy

import designs
import support
from designs import CODE, dots_of, Label, reasons_of, said_of, texts_of
from labeltools.common.budget import Share
from labeltools.common.messages import Talk, ToolError
from labeltools.common.text import Text
from labeltools.designs import drawer
from labeltools.designs.svg_layout import SvgLabels
from labeltools.printing.job import planned, PrintOptions
from labeltools.printing.press import labels_of, Prepared
from laying import documents_of

TITLE = '<rect id="title" {}/>' + CODE
WIDE = 'x="2" y="2" width="56" height="10"'
ONE: Label = ("code128 A", {"title": "Title"})
PICTURE = '<image x="2" y="2" width="5" height="5" href="data:image/{};base64,{}"/>' + CODE
NOT_EMBEDDED = "is of another file, or is not PNG or JPEG; embed it"
TO_PATHS = "export it as a picture, or with texts as paths"
HIDDEN = "the place title is hidden, or has no size; give it a width and a height, and show its"


def setUpModule() -> None:
    os.environ["LABELS"] = str(support.labels_program())


def png_of(width: int, height: int) -> str:
    """A white PNG in base 64; of a large one no more than 100 rows are there."""
    rows = (b"\0" + b"\xff" * ((width + 7) // 8)) * min(height, 100)
    head = struct.pack(">IIBBBBB", width, height, 1, 0, 0, 0, 0)
    parts = ((b"IHDR", head), (b"IDAT", zlib.compress(rows, 9)), (b"IEND", b""))
    data = b"\x89PNG\r\n\x1a\n"
    for kind, part in parts:
        check = struct.pack(">I", zlib.crc32(kind + part))
        data += struct.pack(">I", len(part)) + kind + part + check
    return base64.b64encode(data).decode()


def beside(dots: Any) -> Any:
    """Which dots are white and beside a black one."""
    moved = (numpy.roll(dots, step, axis) for step in (1, -1) for axis in (0, 1))
    return (sum(moved) > 0) & (dots == 0)


NOT_WHITE = "is not white in the place code"
# what is drawn on a page of 60 by 40 mm, and what it is refused with
REFUSED = (
    ("", "has no rectangle for the code; name a rectangle code: in Inkscape by its label, which"),
    (TITLE.format('x="2" y="2" width="0" height="9"'), HIDDEN),
    (f'<g style="display:none"><rect id="title" {WIDE}/></g>{CODE}', HIDDEN),
    (f'<defs><rect id="title" {WIDE}/></defs>{CODE}', HIDDEN),
    (f'<clipPath><rect id="title" {WIDE}/></clipPath>{CODE}', HIDDEN),
    (TITLE.format('x="2" y="2" width="9" height="9" transform="rotate(9)"'), "title is askew; tu"),
    (TITLE.format('x="2" y="2" width="9" height="9" transform="skewX(9)"'), "title is askew; turn"),
    (TITLE.format('x="50" y="2" width="20" height="9"'), "title extends 10.0 mm beyond the"),
    (TITLE.format('x="-1" y="2" width="20" height="9"'), "title extends 1.0 mm beyond the lab"),
    (TITLE.format('x="2" y="15" width="9" height="9"'), "title and code overlap; move"),
    (f'<rect id="code-2" x="9" y="9" width="40" height="20"/>{CODE}', "code-2 and code overlap"),
    (f'<path d="M0 30H60" stroke="black"/>{CODE}', "is not white in the place code; a symbol nee"),
    (
        f'{CODE}<path d="M2 20H58V38H2Z" fill="none" stroke="black"/>',
        "is not white in the place co",
    ),
    (f'<path d="M0 30H60" stroke="black" stroke-width="0.005"/>{CODE}', NOT_WHITE),
    (f'<path d="M4 30H50V31H4Z" fill="#fafafa"/>{CODE}', NOT_WHITE),
    (f'<path d="M0 0H60V20.1H0Z" fill="#ccc"/>{CODE}', NOT_WHITE),
    (f'<path id="title" d="M2 2H9"/>{CODE}', "title is not a rectangle (path); draw a rectangle"),
    (f'<text id="price" x="2" y="9">1</text>{CODE}', "price is not a rectangle (text); draw a"),
    (f'<image href="logo.png"/>{CODE}', f"image {NOT_EMBEDDED}"),
    (f'<use href="other.svg#logo"/>{CODE}', f"use {NOT_EMBEDDED}"),
    (f'<path d="M2 2H9" fill="url(other.svg#red)"/>{CODE}', f"path {NOT_EMBEDDED}"),
    (f'<style>@import "other.css";</style>{CODE}', f"style {NOT_EMBEDDED}"),
    (f"<style>text{{fill:url('other.svg')}}</style>{CODE}", f"style {NOT_EMBEDDED}"),
    (
        f"<switch><g/><g/></switch><foreignObject/>{CODE}",
        f"switch, foreignObject cannot be drawn; {TO_PATHS}",
    ),
    (f"<flowRoot><flowPara>Door 2</flowPara></flowRoot>{CODE}", "flowRoot, flowPara cannot be dr"),
    ("<g>" * 100_000 + "</g>" * 100_000 + CODE, "is not SVG: "),
    (
        f"<!--{'x' * 8_000_000}-->{CODE}",
        "takes too much, more than 8 MB; make its pictures smaller",
    ),
    (PICTURE.format("webp", "aGVsbG8="), f"image {NOT_EMBEDDED}"),
    (PICTURE.format("svg+xml", "PHN2Zy8+"), "an SVG is embedded as a picture; in Inkscape import"),
    (f'<image href="data:image/png,hello"/>{CODE}', f"image {NOT_EMBEDDED}"),
    (PICTURE.format("png", "iVBORw0KGgo="), "a picture is broken; embed it again"),
    ('<rect data-place="code, blod"/>', '"code, blod": "blod" is not understood; after the name'),
    ('<rect data-place="title, level=Q"/>', '"level=Q" is not understood; after the name of a t'),
    ('<rect data-place="title, size=0"/>', '"size=0" is not understood; after the name of a text'),
    (
        '<rect data-place="code, bold"/>',
        '"bold" is not understood; after the name of a symbol only',
    ),
    (
        '<rect data-place="title" inkscape:label="price"/>',
        'a rectangle is named "title" and "price"; make its label and its data-place alike, or',
    ),
    ('<rect data-place="title, qr, bold"/>', '"bold" is not understood; after the name of a symb'),
    ('<rect data-place="title, module=1"/>', '"module=1" is not understood; after the name'),
    ('<rect id="title-2"/>' * 500, "has more than 400 places"),
    ('<rect data-place="title, lines=1.5"/>', '"lines=1.5" is not understood; after the name of'),
    (f'<rect data-place="title, font=Nothing" {WIDE}/>{CODE}', "there is no font Nothing; fc-list"),
    (f"<!-- a -- b -->{CODE}", "is not SVG: not well-formed"),
)
# the attributes of a page, options, and what it is refused with
PAGES: tuple[tuple[str, dict[str, Any], str], ...] = (
    ("", {}, 'has no size; give it width, height and viewBox, as width="60mm" height="40mm"'),
    ('width="0mm" height="40mm"', {}, "has no size; give it width, height and viewBox"),
    ('width="60mm" height="40mm" viewBox="0 0 0 40"', {}, "has no size; give it width, height and"),
    ('width="60000mm" height="40mm"', {"paper": None}, "has no size; give it width, height"),
    (designs.PAGE, {"paper": (50.0, 30.0)}, "is 60 by 40 mm, and a label is 50 by 30 mm; set"),
    (designs.PAGE, {"paper": (40.0, 60.0), "turn": False}, "is 60 by 40 mm, and a label is 40 by"),
    (designs.PAGE, {"turn": True}, "is 60 by 40 mm, and a label is 40 by 60 mm; set the size of"),
    (designs.PAGE, {"edge": (5.0, 13.0, 5.0, 5.0)}, "the place title is at the edge of the paper"),
    ('viewBox="0 0 90 40"', {}, "is 90 by 40 without a unit, and a label is 60 by 40 mm; draw"),
    ('width="60" height="40"', {"paper": None}, "has no size in millimetres; choose its paper"),
)
# what is in a file that is no SVG, and what it is refused with
FILES = (
    (b"", "is not SVG: no element found: line 1, column 0"),
    (base64.b64decode(png_of(8, 8)), "is not SVG: not well-formed"),
    (b"<!doctype html><html><p>a<br></html>", "is not SVG: "),
    (f"<svg {designs.PAGE}>{CODE}</svg>".encode(), "is not SVG; it begins with <svg xmlns="),
    (f"<svg {designs.SPACE} {designs.PAGE}>{CODE}".encode(), "is not SVG: no element found"),
    (f"<svg {designs.SPACE}/>".encode("utf-16"), "has no size; give it width, height"),
    (b'<!DOCTYPE svg [<!ENTITY a SYSTEM "/etc/hosts">]><svg>&a;</svg>', "is not SVG: undefined"),
    (b'<?xml version="1.0" encoding="GB2312"?><svg>\xbb\xf5</svg>', "is not SVG: "),
    (b"\x1f\x8b\x08\x00" + bytes(9), "is not SVG: "),
    (gzip.compress(f"<svg {designs.SPACE}>".encode()), "is not SVG: no element found"),
    (gzip.compress(bytes(9_000_000)), "takes too much, more than 8 MB; make its pictures smaller"),
)


class OwnPages(unittest.TestCase):
    """A design that a test writes, and its labels."""

    def setUp(self) -> None:
        folder = tempfile.TemporaryDirectory()
        self.addCleanup(folder.cleanup)
        self.path = Path(folder.name, "own.svg")

    def found(
        self, body: str, labels: Sequence[Label] = (ONE,), page: str = designs.PAGE, **options: Any
    ) -> Prepared:
        """Labels in a design; its page has 60 by 40 mm where nothing else is said."""
        return designs.prepared(designs.written(self.path, body, page), labels, **options)

    def said(self, found: Prepared) -> list[str]:
        """What is said of labels, without the name of the design."""
        return [text.removeprefix(f"{self.path}") for text in said_of(found)]

    def sizes(self, found: Prepared) -> list[float]:
        """How large the letters of all texts are, in millimetres."""
        return [text.style.size * found.laid_out.area.dot for text in texts_of(found)]

    def ink(self, found: Prepared, number: int = 0) -> tuple[float, float, float, float]:
        """Where the ink above the code begins and ends, across and down, in millimetres."""
        dots = dots_of(found, number)[: int(19.5 / found.laid_out.area.dot)]
        down, across = numpy.nonzero(dots)
        ends = (across.min(), across.max() + 1, down.min(), down.max() + 1)
        left, right, top, bottom = (float(end * found.laid_out.area.dot) for end in ends)
        return left, right, top, bottom


class Refused(OwnPages):
    """Each message names the file and what to do."""

    def test_what_is_drawn(self) -> None:
        for body, why in REFUSED:
            with self.subTest(why=why), self.assertRaises(ToolError) as caught:
                self.found(body)
            self.assertTrue(designs.is_refused(caught.exception, why), caught.exception)

    def test_pages(self) -> None:
        for page, options, why in PAGES:
            with self.subTest(page=page, why=why), self.assertRaises(ToolError) as caught:
                self.found(TITLE.format(WIDE), page=page, **options)
            self.assertTrue(designs.is_refused(caught.exception, why), caught.exception)

    def test_a_shape_with_the_name_of_a_column(self) -> None:
        """It would be drawn as it is on each label: the same seat on each ticket."""
        body = f'<text id="Seat" x="2" y="9" font-size="4">12</text>{CODE}'
        self.assertEqual(len(self.found(body).labels), 1)
        with self.assertRaisesRegex(ToolError, r"seat is not a rectangle \(text\)"):
            self.found(body, [("code128 A", {"text": {"Seat": "7"}})])

    @mock.patch.object(drawer, "PAGE_SECONDS", Share(1, Text("seconds")))
    def test_what_takes_too_long_or_too_much_memory(self) -> None:
        blur = '<filter id="f"><feGaussianBlur stdDeviation="{}"/></filter>'
        for by in (1, 2):  # threads of the first one stay, and are not waited for
            self.found(f'{blur.format(by)}<path filter="url(#f)" d="M2 2H9V9Z"/>{CODE}')
        filtered = '<filter id="f"><feTurbulence numOctaves="2000000000"/></filter>'
        for body in (f'{filtered}<path filter="url(#f)" d="M0 0V9H9Z"/>', f"<text>{'a' * 800_000}"):
            end = "</text>" * body.startswith("<text>")
            with self.assertRaises(ToolError) as caught:
                self.found(body + end + CODE)
            why = "own.svg cannot be drawn in 1 seconds and 500 MB; export it as a picture, or"
            self.assertTrue(designs.is_refused(caught.exception, why), caught.exception)

    def test_files_that_are_no_svg(self) -> None:
        for data, why in FILES:
            self.path.write_bytes(data)
            with self.subTest(why=why), self.assertRaises(ToolError) as caught:
                planned(PrintOptions(paper=designs.PAPER, design=str(self.path)))
            self.assertTrue(str(caught.exception).startswith(f"{self.path}"))
            self.assertTrue(designs.is_refused(caught.exception, why), caught.exception)
        folder = self.path.parent / "folder.svg"
        folder.mkdir()
        fifo = self.path.parent / "fifo.svg"
        os.mkfifo(fifo)
        with self.assertRaisesRegex(ToolError, "is not SVG: no element found"):
            planned(PrintOptions(paper=designs.PAPER, design=str(fifo)))
        for path, why in ((Path("none.svg"), "No such file"), (folder, "Is a directory")):
            with self.assertRaisesRegex(ToolError, f"{path}: {why}"):
                planned(PrintOptions(paper=designs.PAPER, design=str(path)))


class Names(OwnPages):
    """Which rectangles are places, and of what."""

    def places(self, body: str) -> list[str]:
        """The names of the places but that of the code."""
        found = self.found(body + CODE)
        assert isinstance(found.job.design, SvgLabels)
        return [place.title for place in found.job.design.design.places if place.part != "code"]

    def test_a_name_is_data_place_or_the_label_or_the_id(self) -> None:
        for name in (
            'id="title"',
            'id="rect9" inkscape:label="title"',
            'data-place="title" id="x"',
            'data-place="title" inkscape:label="Title"',
        ):
            self.assertEqual(self.places(f"<rect {name} {WIDE}/>"), ["title"], name)

    def test_rectangles_with_one_name_are_said(self) -> None:
        body = f'<rect id="a" data-place="title" {WIDE}/><rect data-place="Title, bold" {WIDE}/>'
        said = ": several rectangles are named title; name the second one title-2, or remove one"
        self.assertIn(said, self.said(self.found(body + CODE)))

    def test_a_group_of_matplotlib_is_drawn(self) -> None:
        """Its id is no name of a part, of which no label has a text."""
        group = '<g id="text_{}"><path d="M2 2H9V9H2Z"/></g>'
        self.assertTrue(dots_of(self.found(group.format(1) + CODE))[:150].any())
        self.assertFalse(dots_of(self.found(group.format("") + CODE))[:150].any())

    def test_names_that_programs_give_are_none(self) -> None:
        for name in ("rect12-3", "Rectangle 5", "svg1", "shape_4", "id7"):
            found = self.found(f'<rect id="{name}" x="2" y="2" width="9" height="9"/>{CODE}')
            for end, wanted in zip(self.ink(found), (2, 11, 2, 11)):
                self.assertAlmostEqual(end, wanted, delta=0.13)

    def test_names_as_programs_write_them(self) -> None:
        affinity = 'xmlns:serif="http://www.serif.com/" id="seat-no" serif:id="Seat no, bold"'
        for name in (
            affinity,
            'id="Seat_no_bold" data-name="Seat no, bold"',
            'id="Seat_no_x002C__x0020_bold"',
            'id="Seat_no_x2C__bold"',
            'id="Seat-no,-bold"',
            'id="SEAT NO,BOLD"',
        ):
            place = f"<rect {name} {WIDE}/>{CODE}"
            found = self.found(place, [("code128 A", {"text": {"Seat no": "12"}})])
            (text,) = texts_of(found)
            self.assertEqual((text.text, text.place.is_bold), ("12", True), name)
            self.assertEqual(self.said(found), [])

    def test_what_is_drawn_and_no_place(self) -> None:
        """A picture of Figma, a text that it has named by its words, what Illustrator clips by, and
        its switch, the page of Affinity: each is drawn as it is, and a flow without words is not
        there.
        """
        box = 'x="2" y="2" width="9" height="9"'
        pattern = '<pattern id="p" width="1" height="1"><path d="M0 0H9V9H0Z"/></pattern>'
        clip = f'<defs><rect id="SVGID_1_" {box}/></defs><clipPath id="c"><use href="#SVGID_1_"/>'
        own = '<foreignObject requiredExtensions="http://ns.adobe.com/AdobeIllustrator/10.0/"/>'
        for body, said in (
            (f'<switch>{own}<g><rect {box}/><rect id="note" {WIDE}/></g></switch>', 1),
            (f'{pattern}<rect id="logo 1" {box} fill="url(#p)"/>', 0),
            (f'{clip}</clipPath><path d="M0 0H60V19H0Z" clip-path="url(#c)"/>', 0),
            (f'<flowRoot><flowPara/></flowRoot><rect id="Artboard1" {box}/>', 0),
            (f'<rect id="Rectangle-Copy 2" {box}/>', 0),
            (f'<rect id="canvas_background" {box}/>', 0),
            ('<color-profile href="a.icm"/><path d="M2 2H11V11H2Z"/>', 0),
            ('<path id="p" d="M2 2H11V11H2Z" style="fill:url(&quot;#q&quot;) black"/>', 0),
        ):
            found = self.found(body + CODE, [("code128 A", {})])
            self.assertEqual(len(self.said(found)), said, body)
            for end, wanted in zip(self.ink(found), (2, 11, 2, 11)):
                self.assertAlmostEqual(end, wanted, delta=0.13)
        word = '<text id="Price" x="2" y="9" font-size="4">Price</text>'
        self.assertTrue(dots_of(self.found(word + CODE))[:150].any())

    def test_case_and_underscores_do_not_count(self) -> None:
        for name, column in (("Seat_No", "seat no"), ("ОПИСАНИЕ", "Описание"), ("Größe", "größe")):
            place = f'<rect id="{name}" {WIDE}/>{CODE}'
            found = self.found(place, [("code128 A", {"text": {column: "12"}})])
            self.assertEqual([text.text for text in texts_of(found)], ["12"])
            self.assertEqual(self.said(found), [])

    def test_second_places_and_the_rest(self) -> None:
        rects = [
            f'<rect id="{name}" x="2" y="{2 + 4 * number}" width="56" height="4"/>'
            for number, name in enumerate(("Seat", "Seat-2", "text"))
        ]
        fields = {"text": {"Row": "3", "Seat": "12", "Block": "A"}}
        found = self.found("".join(rects) + CODE, [("code128 A", fields)], note="Door 2")
        self.assertEqual([text.text for text in texts_of(found)], ["12", "12", "3 A Door 2"])
        listed = self.found("".join(rects) + CODE, [("code128 A", {"text": ["3", "12"]})])
        self.assertEqual([text.text for text in texts_of(listed)], ["3\n12"])

    def test_columns_with_numbers_are_no_second_places(self) -> None:
        """The second line of an address is empty on a label: the first one is not there twice."""
        for second in ("Line 2", "Line-2"):
            rects = [
                f'<rect id="{name}" x="2" y="{2 + 6 * number}" width="56" height="5"/>'
                for number, name in enumerate(("Line", second.replace(" ", "_"), "ID"))
            ]
            first = {"Line": "Am Hang 1", second: "Hinterhaus", "ID": "7"}
            for other in ({"Line": "Am Hang 2"}, {"Line": "Am Hang 2", second: ""}):
                labels = [("code128 A", {"text": first}), ("code128 B", {"text": other})]
                found = self.found("".join(rects) + CODE, labels)
                texts = [*first.values(), "Am Hang 2"]
                self.assertEqual([text.text for text in texts_of(found)], texts)

    def test_a_column_is_never_taken_for_a_part(self) -> None:
        place = f'<rect id="price" {WIDE}/>{CODE}'
        found = self.found(place, [("code128 A", {"text": {"Price": "cheap"}})])
        self.assertEqual(texts_of(found), [])
        self.assertIn(" has no rectangle for Price: not on the labels", self.said(found))

    def test_what_has_no_place_does_not_count(self) -> None:
        """Neither letters that no font has, nor a text that is longer than any paper takes."""
        place = f'<rect id="Seat" {WIDE}/>{CODE}'
        for text in ("\U000f1234", "x" * 2000):
            found = self.found(place, [("code128 A", {"text": {"Seat": "1", "Other": text}})])
            self.assertEqual(len(found.labels), 1)
            self.assertEqual(self.said(found)[0], " has no rectangle for Other: not on the labels")
            found = self.found(place, [("code128 A", {"text": {"Seat": text}})])
            said = [*self.said(found), *reasons_of(found)]
            self.assertRegex(said[0], "^no font has|a text is too long")

    def test_what_has_no_place_and_places_that_have_nothing_are_said_once(self) -> None:
        labels = [("code128 A", {"title": "a", "text": {"Seat": "1"}})] * 3
        found = self.found(f'<rect id="Saet" {WIDE}/>{CODE}', labels)
        hint = "choose such a column as a text of the table, or remove the name (--text Saet)"
        lost = " has no rectangle for title, Seat: not on the labels"
        self.assertEqual(self.said(found), [lost, f": no label has anything for Saet; {hint}"])


class Texts(OwnPages):
    """How texts fit their places."""

    def test_the_page_says_the_paper(self) -> None:
        for page in ('width="6cm" height="4cm"', 'style="width:60mm;height:40mm"', designs.PAGE):
            page = page if "viewBox" in page else f'{page} viewBox="0 0 60 40"'
            found = self.found(TITLE.format(WIDE), page=page, paper=None)
            self.assertEqual(found.job.plan.sheet.page, designs.PAPER)

    def test_pages_of_other_units_and_sizes(self) -> None:
        usual = self.ink(self.found(TITLE.format(WIDE)))
        scaled = f'<g transform="scale(10)">{TITLE.format(WIDE)}</g>'
        metres = f'<g transform="scale(1e-3)">{TITLE.format(WIDE)}</g>'
        for body, page in (
            (TITLE.format(WIDE), 'width="600" height="400" viewBox="0 0 60 40"'),
            (TITLE.format(WIDE), 'viewBox="0 0 60 40"'),
            (scaled, 'viewBox="0 0 600 400"'),
            (scaled, 'width="600" height="400"'),
            (metres, 'width="60mm" height="40mm" viewBox="0 0 .06 .04"'),
        ):
            self.assertEqual(self.ink(self.found(body, page=page)), usual)
        larger = 'width="61mm" height="40mm" viewBox="0 0 61 40"'  # it is put in the middle
        self.assertAlmostEqual(
            self.ink(self.found(TITLE.format(WIDE), page=larger))[0], usual[0] - 0.5, delta=0.13
        )

    def test_letters_are_alike(self) -> None:
        labels = [("code128 A", {"title": title}) for title in ("A", "A long title of a label")]
        sizes = {text.style.size for text in texts_of(self.found(TITLE.format(WIDE), labels))}
        self.assertEqual(len(sizes), 1)

    def test_one_line_fills_its_place_by_its_ink(self) -> None:
        place = '<rect id="title" x="2" y="1" width="56" height="{}"/>' + CODE
        _, _, top, bottom = self.ink(self.found(place.format(16), [("code128 A", {"title": "A1"})]))
        self.assertTrue(15 <= bottom - top <= 16, bottom - top)
        self.assertEqual(len(self.found(place.format(0.05)).labels), 1)  # lower than a dot

    def test_where_a_text_is_in_its_place(self) -> None:
        box = 'x="10" y="4" width="40" height="12"'
        found = {
            words: self.ink(self.found(f'<rect data-place="title, size=3{words}" {box}/>{CODE}'))
            for words in ("", ", middle", ", right", ", top", ", bottom")
        }
        left, right, top, bottom = found[""]
        self.assertAlmostEqual(left, 10, delta=0.3)
        self.assertAlmostEqual(top + bottom, 20, delta=0.6)
        self.assertAlmostEqual(sum(found[", middle"][:2]), 60, delta=0.6)
        self.assertAlmostEqual(found[", right"][1], 50, delta=0.3)
        self.assertAlmostEqual(found[", top"][2], 4, delta=0.3)
        self.assertAlmostEqual(found[", bottom"][3], 16, delta=0.3)

    def test_turned_places(self) -> None:
        """Drawings of programs whose axis points upwards are mirrored: their places are upright."""
        turns = [(f"rotate({90 * quarters})", quarters) for quarters in range(4)]
        for turn, quarters in (*turns, ("scale(-1 1)", 0), ("scale(1 -1)", 0)):
            box = f'width="12" height="12" x="-6" y="-6" transform="translate(30 10) {turn}"'
            found = self.found(f'<rect data-place="title, top, size=3" {box}/>{CODE}')
            (text,) = texts_of(found)
            self.assertEqual(text.place.quarters, quarters)
            left, right, top, bottom = self.ink(found)
            edges = (top - 4, 36 - right, 16 - bottom, left - 24)
            self.assertAlmostEqual(edges[quarters], 0, delta=0.3)

    def test_texts_that_are_over_each_other_are_said(self) -> None:
        body = (
            '<rect id="title" x="2" y="2" width="56" height="8"/>'
            '<rect id="price" x="2" y="{}" width="56" height="8"/>' + CODE
        )
        fields = {"title": "a", "price": "1 €"}
        hint = "a label has a text for each: move them apart"
        said = [f": the places title and price overlap; {hint}"]
        either = [("code128 A", {"title": "a"}), ("code128 B", {"price": "1 €"})]
        for top, labels, wanted in (
            (9, [("code128 A", fields)], said),
            (9, either, []),
            (9.8, [("code128 A", fields)], []),
        ):
            self.assertEqual(self.said(self.found(body.format(top), labels)), wanted)

    def test_a_long_text_wraps_then_shrinks_then_is_cut(self) -> None:
        place = '<rect data-place="title{}" x="2" y="2" width="20" height="9"/>' + CODE
        words = "A long title that has many words"
        found = self.found(place.format(""), [("code128 A", {"title": words})])
        (text,) = texts_of(found)
        self.assertGreater(text.style.lines, 1)
        self.assertEqual(self.said(found), [])
        found = self.found(place.format(", lines=1"), [("code128 A", {"title": words})])
        self.assertEqual(
            self.said(found),
            ["line 2: a text is too long, so it ends in “…”: shorten it, or choose a larger label"],
        )
        self.assertAlmostEqual(self.sizes(found)[0], 1.8, delta=0.13)

    def test_a_text_in_another_font_is_cut(self) -> None:
        """DejaVu Serif is wider than the font of the texts."""
        sides = 'x="2.86" y="2.29" width="26.38" height="7.14"'
        place = f'<rect data-place="title, font=DejaVu Serif" {sides}/>{CODE}'
        title = "A very long title of an article that has to be wrapped into several lines, or cut"
        for form in ("pdf", "png"):
            found = self.found(place, [("code128 A", {"title": title})], to=form, dpi=600)
            self.assertEqual(
                self.said(found),
                [
                    "line 2: a text is too long, so it ends in “…”: shorten it, or choose a larger label"
                ],
            )

    def test_a_number_is_not_parted(self) -> None:
        """In two lines it would be two numbers."""
        place = f'<rect id="Count" x="2" y="2" width="6" height="7"/>{CODE}'
        words = "many words that are cut"
        for count, lines, said in (
            ("999999", 1, 1),
            ("99 99", 2, 0),
            ("abcdefghi", 3, 0),
            (f"250 g {words}", 3, 1),
            (f"{words} 1/2 {words}", 3, 1),
            (f"999999 {words}", 1, 1),
        ):
            found = self.found(place, [("code128 A", {"text": {"Count": count}})])
            shortened = [line for line in self.said(found) if "too long" in line]
            self.assertEqual((texts_of(found)[0].style.lines, len(shortened)), (lines, said), count)

    def test_one_long_text_makes_no_others_small(self) -> None:
        """It has smaller letters alone, and is cut at the least ones."""
        place = '<rect data-place="title{}" x="2" y="2" width="56" height="10"/>' + CODE
        labels = [("code128 A", {"title": title}) for title in ("Soap", "Salt", "x " * 99, "Tea")]
        for words, least in (("", 1.8), (", least=4", 4)):
            found = self.found(place.format(words), labels)
            sizes = self.sizes(found)
            short = self.sizes(self.found(place.format(words), [*labels[:2], *labels[3:]]))
            self.assertEqual([*sizes[:2], *sizes[3:]], short)
            (*_, top, _), (*_, low) = self.ink(found, 1), self.ink(found)  # of the l, of the p
            self.assertAlmostEqual(low - top, 10, delta=0.25)  # two dots
            self.assertTrue(least - 0.13 < sizes[2] < least + 0.5, sizes)
            said = [
                "line 6: a text is too long, so it ends in “…”: shorten it, or choose a larger label"
            ]
            self.assertEqual(self.said(found), said * (least == 4))

    def test_signs_are_as_small_as_letters(self) -> None:
        """A hyphen alone has the letters of a capital one, not the height of its place."""
        place = '<rect id="title" x="2" y="1" width="56" height="9"/>' + CODE
        sizes = set()
        for title in ("H", "-", ".", "…", "_"):
            (text,) = texts_of(self.found(place, [("code128 A", {"title": title})]))
            sizes.add(text.style.size)
        self.assertLess(max(sizes) / min(sizes), 1.35)  # what is below the line takes room, too
        _, _, top, bottom = self.ink(self.found(place, [("code128 A", {"title": "▲"})]))
        self.assertAlmostEqual(top, 1, delta=0.3)
        self.assertAlmostEqual(bottom, 10, delta=0.3)

    def test_line_ends_are_spaces_where_there_is_no_room_for_them(self) -> None:
        place = '<rect data-place="title{}" x="2" y="2" width="56" height="{}"/>' + CODE
        for words, high, title, wanted, is_cut in (
            ("", 9, "A\nlonger\ntitle", "A\nlonger\ntitle", False),
            ("", 3, "A\nlonger\ntitle", "A longer title", False),
            (", lines=2", 9, "A\nlonger\ntitle", "A longer title", False),
            (", lines=2", 9, "A longer\ntitle", "A longer\ntitle", False),
            (", lines=1", 9, "A long title of\n" * 9, ("A long title of " * 9), True),
        ):
            found = self.found(place.format(words, high), [("code128 A", {"title": title})])
            (text,) = texts_of(found)
            self.assertEqual(text.text.strip(), wanted.strip(), words)
            self.assertGreaterEqual(self.sizes(found)[0], 1.67)
            cut = [
                "line 2: a text is too long, so it ends in “…”: shorten it, or choose a larger label"
            ] * is_cut
            self.assertEqual(self.said(found), cut)

    def test_labels_that_are_the_same_once_shortened_are_said(self) -> None:
        place = '<rect data-place="title, lines=1" x="2" y="2" width="20" height="9"/>' + CODE
        titles = [f"A long title that has many words and ends in {end}" for end in ("red", "blue")]
        found = self.found(place, [("code128 A", {"title": title}) for title in titles])
        (shortened, same) = self.said(found)
        self.assertEqual(
            shortened,
            "lines 2, 4: a text is too long, so it ends in “…”: shorten it, or choose a larger label",
        )
        self.assertRegex(same, "^lines 2, 4: alike once shortened, .*: put what differs in front")

    def test_scripts_without_spaces_wrap(self) -> None:
        place = '<rect id="title" x="2" y="2" width="30" height="12"/>' + CODE
        for title in ("明治ブルガリアヨーグルト低糖四百五十グラム", "สวัสดีชาวโลกทุกคนที่นี่และที่นั่น"):
            found = self.found(place, [("code128 A", {"title": title})])
            if not found.labels:
                continue  # no font has these letters
            (text,) = texts_of(found)
            self.assertGreater(text.style.lines, 1)
            self.assertEqual(self.said(found), [])

    def test_a_price_is_never_cut(self) -> None:
        for part in ("price", "unit", "was"):
            body = f'<rect id="{part}" x="2" y="2" width="8" height="3"/>{CODE}'
            found = self.found(body, [("code128 A", {part: "123.456.789,00 €"})])
            self.assertEqual(len(found.labels), 0)
            why = f'"123.456.789,00 €" does not fit in the place {part}: enlarge it'
            self.assertEqual(reasons_of(found), [why])

    def test_an_empty_text_leaves_its_place_empty(self) -> None:
        labels = [("code128 A", {"text": {"Seat": "1"}}), ("code128 B", {"text": {"Seat": ""}})]
        found = self.found(f'<rect id="Seat" {WIDE}/>{CODE}', labels)
        self.assertEqual((len(found.labels), len(texts_of(found))), (2, 1))


class Drawings(OwnPages):
    """What is on all labels, and the colours of letters on it."""

    BAND = '<path d="M0 0H60V14H0Z" fill="{}"/>' + TITLE.format(WIDE)

    def test_letters_are_white_on_dark(self) -> None:
        dark, light, tinted = (
            dots_of(self.found(self.BAND.format(fill)))[:100, :479]
            for fill in ("black", "none", "#909090")
        )
        self.assertTrue(numpy.array_equal(dark, 1 - light))
        self.assertTrue((tinted >= light).all())
        self.assertLess(tinted[beside(light)].mean(), 0.05)  # in the tint 0.44

    def test_letters_at_the_lower_edge_have_no_white_edge(self) -> None:
        """Its last dots are beyond the label: they are no tint, and the line below stays whole."""
        body = '<rect id="code" x="2" y="2" width="56" height="18"/><path d="M0 38.2H60V38.7H0Z"/>'
        place = '<rect data-place="title" x="2" y="30" width="56" height="10"/>'
        dots = dots_of(self.found(body + place, [("code128 A", {"title": "gggg"})]))
        self.assertTrue(dots[306, :479].all())

    def test_tints_are_dithered_and_what_is_dark_stays_sharp(self) -> None:
        """Each takes as many dots as it is dark, but for white beside what is black."""
        around = '<path d="M0 0H60V19H0Z" fill="{}"/>'
        black = (
            '<path transform="scale(.125261)" fill="#222" d="M40 40H160V120H40Z M400 9V90H401V9Z"/>'
        )
        sharp = dots_of(self.found(black + CODE, [("code128 A", {})]))
        for colour, dark in (
            ("orange", 1 - (0.3 + 0.59 * 165 / 255)),
            ("yellow", 1 - (0.3 + 0.59)),
            ("lightgreen", 1 - (0.3 * 144 + 0.59 * 238 + 0.11 * 144) / 255),
            ("#808080", 127 / 255),
            ("#fbfbfb", 0),
        ):
            dots = dots_of(self.found(around.format(colour) + black + CODE, [("code128 A", {})]))
            self.assertAlmostEqual(dots[2:140, 170:230].mean(), dark, delta=0.01, msg=colour)
            self.assertTrue((dots >= sharp).all())
            self.assertFalse(dots[:150][beside(sharp[:150])].any(), colour)

    def test_what_is_thin_is_no_tint(self) -> None:
        """Words in a light colour are black, and those on a dark one white."""
        word = '<text x="5" y="9" font-size="4" font-family="DejaVu Sans" fill="{}">Word</text>'
        band = '<path fill="{}" d="M0 0H60V19H0Z"/>' + word
        black = dots_of(self.found(word.format("black") + CODE, [("code128 A", {})]))[:150]
        for colour in ("orange", "yellow", "lightgreen", "#999", "#ddd"):
            dots = dots_of(self.found(word.format(colour) + CODE, [("code128 A", {})]))[:150]
            self.assertGreater((dots & black).sum(), 0.5 * black.sum(), colour)
            self.assertLess(dots.sum(), 1.3 * black.sum(), colour)
        for colours in (("#003", "#06c"), ("#000", "#666"), ("blue", "red"), ("#555", "#000")):
            drawn = band.format(*colours) + CODE
            dots = 1 - dots_of(self.found(drawn, [("code128 A", {})]))[8:140, 8:470]
            near = sum(numpy.roll(black, by, (0, 1)) for by in numpy.ndindex(9, 9))
            near = numpy.roll(near > 0, (-4, -4), (0, 1))[8:140, 8:470]
            self.assertGreater(dots.sum(), 0.5 * black.sum(), colours)
            self.assertFalse((dots > near).any(), colours)

    def test_letters_have_the_colour_of_their_place_where_it_is_read(self) -> None:
        for fill, behind, colour in (
            ('fill="red"', "none", (1, 0, 0)),
            ('style="fill:#f00"', "none", (1, 0, 0)),
            ('fill="yellow"', "black", (1, 1, 0)),
            ('fill="yellow"', "none", (0, 0, 0)),
            ('fill="#d9d9d9"', "none", (0, 0, 0)),
            ('fill="red" fill-opacity="0.2"', "none", (0, 0, 0)),
            ('fill="none"', "none", (0, 0, 0)),
            ('fill="red"', "#000", (1, 1, 1)),
        ):
            found = self.found(self.BAND.format(behind).replace('id="title"', f'id="title" {fill}'))
            (text,) = texts_of(found)
            self.assertEqual(text.place.colour, colour, (fill, behind))

    def test_a_group_needs_no_place_beside_it(self) -> None:
        """The column Bio has a logo alone: its text is nowhere else. A group named after nothing
        that any label has is drawn on all.
        """
        body = '<g id="Bio"><path d="M40 2H58V9H40Z"/></g><rect id="text" x="2" y="2" {}/>' + CODE
        body = body.format('width="30" height="9"')
        labels: list[Label] = [
            ("code128 A", {"text": {"Bio": "x", "Origin": "Kiel"}}),
            ("code128 A", {"text": {"Origin": "Kiel"}}),
        ]
        found = self.found(body, labels)
        self.assertEqual([self.ink(found, number)[1] > 40 for number in (0, 1)], [True, False])
        self.assertEqual([text.text for text in texts_of(found)], ["Kiel", "Kiel"])
        self.assertEqual(self.said(found), [])
        for label in labels:  # as a stream lays them out
            self.assertGreater(self.ink(self.found(body, [label]))[1], 40)
        priced = body.replace("Bio", "was")
        prices: list[Label] = [("code128 A", {"was": "2 €", "text": ["a"]}), labels[1]]
        found = self.found(priced, prices)
        self.assertEqual([self.ink(found, number)[1] > 40 for number in (0, 1)], [True, False])
        self.assertEqual(self.said(found), [" has no rectangle for was: not on the labels"])

    def test_a_group_of_what_no_label_has(self) -> None:
        """That of a part is on none, and that of a column that is empty in the whole table."""
        body = '<g id="{}"><path d="M2 2H9V9H2Z"/></g>' + CODE
        plain: list[Label] = [("code128 A", {})]
        found = self.found(body.format("Price"), plain)
        self.assertFalse(dots_of(found)[:150].any())
        for name, is_drawn in (("Logo", False), ("logo", False), ("Bio", True)):
            path = designs.written(self.path, body.format(name))
            options = PrintOptions(paper=designs.PAPER, dpi=203, to="pbm", design=str(path))
            ends = '"lines":1,"left_out":[],"left_out_count":0,"empty":["Logo"]}'
            lines = f'#{{"labels":1}}\n#{{"row":2}}\ncode128 A\n#{{"end":1,{ends}\n'.encode()
            found = labels_of(planned(options), "lines", lines, Talk())
            self.assertEqual((dots_of(found)[:150].any(), self.said(found)), (is_drawn, []))

    def test_a_place_that_is_dark_in_part(self) -> None:
        """Letters would be black on black: it is said, or the label is left out. A line around
        letters is no such part.
        """
        place = f'<rect id="title" x="2" y="2" width="56" height="10"/>{CODE}'
        why = "behind title the drawing is partly light and partly dark, so letters of no colour "
        why += "can be read there; move the rectangle, or the drawing"
        for shape, said, left_out in (
            ("M40 0H60V14H40Z", 0, 1),
            ("M0 0H60V14H0Z M5 0H45V14H5Z", 0, 1),
            ("M0 0H15V14H0Z", 1, 0),
            ("M0 0H60V14H0Z M30 5H38V10H30Z", 1, 0),
            ("M2 2H58V12H2Z M2.3 2.3V11.7H57.7V2.3Z", 0, 0),
            ("M0 0H60V14H0Z", 0, 0),
        ):
            drawn = f'<path fill-rule="evenodd" d="{shape}"/>{place}'
            found = self.found(drawn, [ONE, ("code128 B", {})])
            self.assertEqual(self.said(found), [f": {why}"] * said, shape)
            self.assertEqual(reasons_of(found), [f"{self.path}: {why}"] * left_out, shape)

    def test_letters_that_a_group_makes_dark_in_part(self) -> None:
        """With the old price half of the title is on black: that label alone is left out."""
        place = f'<rect id="title" x="2" y="2" width="56" height="10"/>{CODE}'
        for group, behind in (("M30 0H60V14H30Z", "none"), ("M30 0H60V14H30Z", "#000")):
            drawn = f'<path d="M0 0H60V14H0Z" fill="{behind}"/><g id="was">'
            drawn += f'<path d="{group}" fill="{"#fff" if behind == "#000" else "#000"}"/></g>'
            labels: list[Label] = [ONE, ("code128 B", {"title": "b", "was": "2 €"})]
            found = self.found(drawn + place, labels)
            self.assertEqual([label.origin.number for label in found.left_out if label.origin], [4])

    def test_a_group_goes_with_its_field(self) -> None:
        word = '<g id="Best before"><path d="M2 2H9V9H2Z"/></g>'
        place = '<rect id="Best_before" x="20" y="2" width="30" height="8"/>'
        labels = [("code128 A", {"text": {"Best before": day}}) for day in ("1.9.", "")]
        found = self.found(word + place + CODE, labels)
        self.assertAlmostEqual(self.ink(found)[0], 2, delta=0.13)
        self.assertFalse(dots_of(found, 1)[:150].any())
        for group in ('<g id="other">', '<g inkscape:groupmode="layer" id="Best before">'):
            found = self.found(word.replace('<g id="Best before">', group) + place + CODE, labels)
            self.assertTrue(dots_of(found, 1)[:150].any())

    def test_letters_can_be_read_without_the_group_behind_them(self) -> None:
        """A black bar that goes with the old price has white letters on it, and black ones are
        where it is not there.
        """
        bar = '<g id="was"><path d="M0 0H60V19H0Z"/></g>'
        place = f'{bar}<rect id="title" x="2" y="2" width="56" height="12"/>{CODE}'
        for fields in ({"title": "Title"}, {"title": "Title", "was": "9"}):
            dots = dots_of(self.found(place, [("code128 A", fields)]))[20:110, 20:460]
            self.assertGreater(dots.sum(), 2000)
            self.assertGreater((1 - dots).sum(), 2000)
        white = '<path d="M0 0H60V40H0Z"/><g id="was"><path fill="#fff" d="M0 18H60V40H0Z"/></g>'
        with self.assertRaises(ToolError) as caught:
            self.found(white + CODE)
        why = "the drawing is not white in the place code"
        self.assertTrue(designs.is_refused(caught.exception, why), caught.exception)

    def test_lines_thinner_than_a_dot_are_drawn(self) -> None:
        """At 203 dpi a line of 0.08 mm between two rows of dots is nowhere darker than half."""
        frame = '<path d="M{0} {0}H{1}V{1}H{0}Z" fill="none" stroke="black" stroke-width="0.08"/>'
        for start in (2.0, 2.02, 2.0625, 2.1):
            found = self.found(frame.format(start, start + 9) + CODE, [("code128 A", {})])
            dots = dots_of(found)[:150]
            for end, wanted in zip(self.ink(found), (start, start + 9) * 2):
                self.assertAlmostEqual(end, wanted, delta=0.13)
            middle = int((start + 4) / found.laid_out.area.dot)
            self.assertEqual([dots[middle].sum(), dots[:, middle].sum()], [2, 2])

    def test_what_ends_at_the_edge_of_a_place(self) -> None:
        """A white place in a black label, wherever its edges are between the dots."""
        around = '<path fill-rule="evenodd" d="M0 0H60V40H0Z M{0} {1}h{2}v{3}h-{2}z"/>'
        place = '<rect id="code" x="{0}" y="{1}" width="{2}" height="{3}"/>'
        for sides in ((2, 20, 56, 18), (2.0749, 16.8641, 47.6377, 16.2753), (4.03, 9.07, 50, 20)):
            for grow in (0.0, 0.02):
                inside = [side + by for side, by in zip(sides, (grow, grow, -2 * grow, -2 * grow))]
                found = self.found(around.format(*inside) + place.format(*sides))
                self.assertEqual(len(found.labels), 1)

    def test_a_drawing_that_is_cut_is_said(self) -> None:
        """But for what loses no more than 0.5 mm."""
        bar = '<path d="M{}V11H{}Z"/>' + CODE
        cases: tuple[tuple[tuple[str, int], dict[str, Any], bool], ...] = (
            (("50 2H59", 50), {"shift": (3.0, 0.0)}, True),
            (("50 2H59", 50), {"edge": (0.0, 0.0, 3.0, 0.0)}, True),
            (("2 1H9", 2), {"edge": (0.0, 3.0, 0.0, 0.0)}, True),
            (("50 2H59", 50), {"edge": (0.0, 0.0, 1.4, 0.0)}, False),
            (("50 2H60", 50), {"edge": (0.0, 0.0, 3.0, 0.0)}, True),
        )
        for ends, options, is_cut in cases:
            found = self.said(self.found(bar.format(*ends), [("code128 A", {})], **options))
            cut = [line for line in found if "smaller than drawn" not in line]
            wanted = [": the drawing is cut at the edge; move it in (--edge, --shift)"] * is_cut
            self.assertEqual([line.split(": move")[0] for line in cut], wanted, (ends, options))

    def test_a_link_and_white_letters_are_drawn_in_a_pdf(self) -> None:
        link = '<a href="https://example.org"><path d="M2 15H9V19Z"/></a>'
        found = self.found(link + self.BAND.format("black"), to="pdf")
        (document,) = documents_of(found)
        self.assertTrue(document.startswith(b"%PDF"))

    def test_a_picture_is_drawn(self) -> None:
        found = self.found(PICTURE.format("png", png_of(8, 8)).replace("<image", "<path/><image"))
        self.assertEqual(len(found.labels), 1)

    def test_a_page_that_is_packed(self) -> None:
        """Inkscape writes .svgz; its name may be another one."""
        usual = self.ink(self.found(TITLE.format(WIDE)))
        path = self.path.with_name("own.svgz")
        path.write_bytes(gzip.compress(self.path.read_bytes()))
        self.assertEqual(self.ink(designs.prepared(path, [ONE])), usual)

    def test_edges_that_take_no_ink(self) -> None:
        found = self.found(TITLE.format(WIDE), edge=(5.0, 2.0, 2.0, 2.0))
        why = "the printer does not print there, at the edge of the page (--edge)"
        self.assertEqual(self.said(found), [f": smaller than drawn: title, code; {why}"])
        self.assertGreaterEqual(self.ink(found)[0], 5)


class Symbols(OwnPages):
    """Codes in their places."""

    def test_the_size_that_a_message_proposes_is_enough(self) -> None:
        body = '<rect id="code" x="1" y="1" width="{}" height="{}"/>'
        for line in ("code128 ABCDEF", "ean13 400638133393", "ean8 7351353", "qr hello"):
            (why,) = reasons_of(self.found(body.format(15, 3), [(line, {})]))
            self.assertRegex(
                why, "^(Code 128|EAN-13|EAN-8|QR Code) needs [0-9.]+ by [0-9.]+ mm, and"
            )
            wide, high = map(float, why.split(" needs ")[1].split(" mm, and")[0].split(" by "))
            self.assertEqual(len(self.found(body.format(wide, high), [(line, {})]).labels), 1, why)
            for less in ((wide - 0.3, high), (wide, high - 0.3)):
                self.assertEqual(len(self.found(body.format(*less), [(line, {})]).labels), 0, why)

    def test_a_place_that_misses_a_dot_needs_more(self) -> None:
        """A symbol of 28.0 mm has less than that where its place begins and ends within a dot."""
        body = '<rect id="code" x="1.13" y="1" width="{}" height="9"/>'
        for wide in numpy.arange(20.0, 31.0, 0.1):
            found = self.found(body.format(wide), [("code128 LOT 7", {})])
            for why in reasons_of(found):
                self.assertGreater(
                    float(why.split(" needs ")[1].split(" by ")[0]), wide - 0.01, why
                )

    def test_modules_are_as_large_as_the_place_takes(self) -> None:
        page = 'width="200mm" height="100mm" viewBox="0 0 200 100"'
        body = '<rect data-place="code{}" x="1" y="1" width="198" height="98"/>'
        for line, words, module in (
            ("ean13 400638133393", "", 0.66),
            ("qr a", "", 98 / 29),
            ("qr a", ", module=1", 1),
        ):
            found = self.found(body.format(words), [(line, {})], page, paper=(200.0, 100.0))
            (item,) = found.labels
            dot = found.laid_out.area.dot
            self.assertTrue(module - dot <= item.finest.module * dot <= module + dot / 2, line)

    def test_a_low_place_has_smaller_modules(self) -> None:
        """Bars of the width of the place would have no room for their digits."""
        body = '<rect id="code" x="2" y="2" width="56" height="12"/>'
        self.assertEqual(reasons_of(self.found(body, [("code128 A", {})])), [])

    def test_where_a_symbol_is_in_its_place(self) -> None:
        place = '<rect data-place="code, qr{}" x="10" y="2" width="40" height="17"/>'
        for words, left, right in (
            (", left", 10, None),
            ("", None, None),
            (", right", None, 50),
        ):
            (item,) = self.found(place.format(words), [("qr A", {})]).labels
            ((_, box, _, _, _, _, boxes),) = item.symbols
            bars, dot = boxes["bars"], 25.4 / 203
            ends = (10 + bars.left * dot, 10 + bars.right * dot)
            wanted = (left, right) if words else (30 - bars.width * dot / 2, None)
            for end, edge in zip(ends, wanted):
                self.assertTrue(edge is None or abs(end - edge) < 0.2, (words, ends))

    def test_second_symbols(self) -> None:
        body = f'<rect data-place="Url, qr, level=Q" x="2" y="2" width="16" height="16"/>{CODE}'
        found = self.found(body, [("code128 A", {"text": {"Url": "a\\b\nc"}})])
        symbols = found.labels[0].symbols
        self.assertEqual([symbol.data for symbol in symbols], [b"a\\b\nc", b"A"])

    def test_a_second_symbol_that_is_refused_leaves_its_label_out(self) -> None:
        body = f'<rect data-place="Ean, ean13" x="2" y="2" width="45" height="16"/>{CODE}'
        labels = [
            ("code128 A", {"text": {"Ean": ean}}) for ean in ("4006381333932", "400638133393")
        ]
        found = self.found(body, labels)
        self.assertEqual(len(found.labels), 1)
        self.assertRegex(reasons_of(found)[0], "^place Ean: .*check digit")


class Papers(OwnPages):
    """Each form is compared with its labels before it goes out."""

    def test_sheets_rolls_and_turned_labels_in_each_form(self) -> None:
        body = (
            '<path d="M1 1H59V12H1Z" fill="none" stroke="black" stroke-width="0.5"/>'
            '<rect id="title" x="2" y="2" width="30" height="9"/>'
            '<rect data-place="code-2, qr" x="-36" y="47.5" width="12" height="12"'
            ' transform="rotate(-90)"/>'
            '<rect id="code" x="1" y="20" width="46" height="18"/>'
        )
        sheet: dict[str, Any] = {"grid": (2, 3), "edge": (0.0, 0.0, 0.0, 0.0)}
        pages = ("pdf", "png", "pbm")
        cases: Sequence[tuple[str, dict[str, Any]]] = (
            *((form, {"paper": (60.0, 40.0)}) for form in (*pages, "zpl", "escpos")),
            *((form, {"paper": (40.0, 60.0)}) for form in (*pages, "zpl", "escpos")),
            *((form, {"paper": None, "cell": (60.0, 40.0), **sheet}) for form in pages),
            *((form, {"paper": None, "cell": (40.0, 60.0), **sheet}) for form in pages),
        )
        for form, paper in cases:
            found = self.found(body, [ONE, ("code128 B", {"title": "b"})], to=form, **paper)
            self.assertEqual(reasons_of(found), [], (form, paper))
            count = 2 if "cell" not in paper and form != "pdf" else 1
            self.assertEqual(len(documents_of(found)), count)


if __name__ == "__main__":
    unittest.main()
