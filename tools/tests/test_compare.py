"""What is compared before a label goes out: faults are planted, and each has to stop the job."""

import math
import re
import tempfile
import unittest
from contextlib import contextmanager
from dataclasses import dataclass, replace
from itertools import count, product
from pathlib import Path
from typing import Any, Callable, Iterator, Sequence
from unittest import mock

import zxingcpp

import jobs
import support
from labeltools.checking import compare, decode
from labeltools.checking.read_pdf import drawn_pages
from labeltools.common.messages import Talk, ToolError
from labeltools.designs import svg_layout as own_layout
from labeltools.drawing import dots, escpos, pen, zpl
from labeltools.lines import engine, library
from labeltools.lines.engine import Modules
from labeltools.lines.reasons import Refused
from labeltools.paper.box import Box
from labeltools.paper.picture import Picture
from labeltools.printing import press
from labeltools.printing.job import planned, PrintOptions
from labeltools.printing.press import labels_of, Prepared
from laying import documents_of

SHOP: list[tuple[str, dict[str, Any]]] = [
    ("ean13 4006381333931", {"title": "Bleistift, weich", "price": "0,80 €", "text": ["rot"]}),
    ("ean8 73513537", {"title": "Kaugummi", "price": "0,30 €", "was": "0,40 €"}),
    ("upca 036000291452", {"title": "Käse", "price": "12,95 €", "unit": "1 kg = 3,20 €"}),
    ("code128 PALLET-47", {"title": "Palette قلم Карандаш", "text": ["zwei\nZeilen"]}),
    ("qr,level=Q TICKET 1", {"title": "Reihe 7", "price": "9,00 €"}),
]
OWN = """<svg xmlns="http://www.w3.org/2000/svg" width="100mm" height="60mm" viewBox="0 0 100 60">
  <rect width="100" height="60" fill="white"/>
  <rect data-place="title, bold, middle" x="2" y="2" width="96" height="14"/>
  <rect data-place="code" x="1" y="18" width="60" height="18"/>
  <g transform="rotate(90 80 36)"><rect data-place="code-2" x="62" y="28" width="36" height="16"/></g>
  <g transform="rotate(180 15 48)"><rect data-place="code-3, qr" x="5" y="38" width="20" height="20"/></g>
  <g transform="rotate(270 40 48)"><rect data-place="title-2, qr, level=H" x="30" y="38" width="20" height="20"/></g>
  <rect data-place="Check, bold" x="52" y="40" width="10" height="9"/>
  <path d="M0 37 L70 37" stroke="black" stroke-width="0.3"/>
</svg>
"""
FIELD = b"^XA^MUD^PON^PMN^JMA^LH0,0^LS0^PW32^LL3\n^FO0,0^GFA,12,12,4,%b^FS\n^XZ\n"
FORMS = ("pdf", "png", "pbm", "zpl", "escpos")
DOTS = FORMS[1:]
ROLLS = FORMS[3:]


def setUpModule() -> None:
    support.labels_program()


def options_of(form: str, **others: Any) -> PrintOptions:
    """Options of a roll, or of a sheet for forms of pages."""
    sheet: dict[str, Any] = {"paper": (62.0, 40.0)}
    if form == "png":
        sheet = {"cell": (62.0, 40.0), "grid": (2, 4)}
    chosen: dict[str, Any] = {
        "dpi": 203,
        "to": form,
        "edge": (0.0, 0.0, 0.0, 0.0),
        **sheet,
        **({"dots": 900} if form == "escpos" else {}),
    }
    return PrintOptions(**{**chosen, **others})


def found_of(options: PrintOptions, labels: Sequence[Any] = SHOP) -> Prepared:
    """Labels that are laid out; none is left out."""
    lines = support.file_of(labels)
    found = labels_of(planned(options), "lines", lines, Talk())
    if found.left_out:
        raise AssertionError(str(found.left_out[0].problem.line))
    return found


@contextmanager
def own_design(drawing: str = OWN) -> Iterator[str]:
    """The name of a design: of one with symbols in each direction."""
    with tempfile.TemporaryDirectory() as folder:
        path = Path(folder) / "own.svg"
        path.write_text(drawing, encoding="utf-8")
        yield str(path)


def changed(function: Callable[..., Any], **changes: Callable[[Any], Any]) -> Callable[..., Any]:
    """A function some of whose arguments, by their names, are changed before it is called."""
    names = function.__code__.co_varnames[: function.__code__.co_argcount]

    def call(*arguments: Any, **named: Any) -> Any:
        given = {**dict(zip(names, arguments)), **named}
        for name, change in changes.items():
            if name in given:
                given[name] = change(given[name])
        return function(**given)

    return call


def moved_text(is_large: bool, across: int, down: int) -> Callable[..., Any]:
    """`Pen.texts` with prices, or titles, elsewhere."""
    texts = pen.Pen.texts

    def call(self: Any, item: Any) -> Iterator[Any]:
        for text in texts(self, item):
            box = text.box
            if text.style.is_bold and is_large == (text.style.lines == 0):
                box = box._replace(left=box.left + across, top=box.top + down)
            yield text._replace(box=box)

    return call


def drawn_with(change: Callable[[Any], Any]) -> Callable[..., Any]:
    """`Pen.draw` on a canvas that is changed first."""
    draw = pen.Pen.draw

    def call(self: Any, canvas: Any, page: Any, turn: int = 0) -> None:
        canvas.save()
        change(canvas)
        draw(self, canvas, page, turn)
        canvas.restore()

    return call


def with_a_line(self: Any, canvas: Any, page: Any, turn: int = 0) -> None:
    """`Pen.draw` that draws a line last."""
    DRAW(self, canvas, page, turn)
    canvas.move_to(0, 0)
    canvas.line_to(9, 9)
    canvas.stroke()


def drawn_grey(self: Any, canvas: Any, codes: Any, turn: int) -> None:
    """`Pen.draw_white` that leaves another colour than black."""
    DRAW_WHITE(self, canvas, codes, turn)
    canvas.set_source_rgb(0.9, 0.9, 0.9)


def is_refused(wanted: compare.Wanted, rows: Sequence[bytes]) -> bool:
    """Whether dots of a page are not those of a symbol."""
    page = Picture(8 * len(rows[0]), len(rows), b"".join(rows))
    try:
        compare.check_symbol_dots(wanted, page, 0.125)
    except decode.Different:
        return True
    return False


def of_modules(change: Callable[[bytes], bytes]) -> Callable[..., Any]:
    """`Pen.draw_modules` with other modules."""
    return changed(
        pen.Pen.draw_modules,
        modules=lambda modules: modules._replace(packed=change(modules.packed)),
    )


def twice(*arguments: Any) -> None:
    """`Pen.draw_modules`, twice in the same place."""
    DRAW_MODULES(*arguments)
    DRAW_MODULES(*arguments)


def drawn_wrong(number: int, other: Modules | Refused | None = None) -> Callable[..., Any]:
    """`Pen.draw_modules` that draws one of the symbols of the first label with a module less, or as
    another symbol.
    """
    seen = count()

    def call(self: Any, canvas: Any, modules: Any, *where: Any) -> None:
        if next(seen) == number:
            less = modules._replace(packed=without_a_module(modules.packed))
            modules = other or less
        DRAW_MODULES(self, canvas, modules, *where)

    return call


def mixed(lines: Any, is_escaped: bool, talk: Any) -> Any:
    """`drawn` that exchanges the modules of the first line and the last one."""
    first, *others, last = DRAWN(lines, is_escaped, talk)
    return [last, *others, first]


def without_zone(self: Any, line: bytes) -> Any:
    """`Engine.draw` whose code begins a module too early in its quiet zone."""
    modules = ENGINE_DRAW(self, line)
    number = int.from_bytes(modules.packed, "big") << 1
    packed = (number & (1 << 8 * len(modules.packed)) - 1).to_bytes(len(modules.packed), "big")
    return modules._replace(packed=packed)


def without_a_module(packed: bytes) -> bytes:
    """Modules of which the last dark one is light."""
    number = int.from_bytes(packed, "big")
    return (number & (number - 1)).to_bytes(len(packed), "big")


def placed(across: int) -> Callable[..., Any]:
    """`Press.page` that moves labels to the right, or puts all in the same place."""

    def page(self: Any, number: int, prints: Any) -> Any:
        found = PAGE(self, number, prints)
        first = self.job.plan.places[0]
        return [(item, (x + across, y) if across else first) for item, (x, y) in found]

    return page


def in_rows(change: Callable[[list[str], int], object]) -> Callable[..., bytes]:
    """`run_lengths` whose texts of rows, each of some bytes, are changed."""

    def call(dots: bytes, size: int) -> bytes:
        rows = [dots[start : start + size] for start in range(0, len(dots), size)]
        texts = [RUN_LENGTHS(row, size).decode() for row in rows]
        whole = [
            ":" if number and rows[number - 1] == row else text
            for number, (text, row) in enumerate(zip(texts, rows))
        ]
        change(whole, size)
        return "".join(whole).encode()

    return call


def first_letters(whole: list[str]) -> int:
    """The number of the first row with dots: that of a title."""
    return next(number for number, text in enumerate(whole) if re.search("[1-9A-F]", text))


def wrong_count(whole: list[str], size: int) -> None:
    """Makes a count of a row above all codes one more; the row keeps its length."""
    number = first_letters(whole)
    row = decode.rows_of_field(whole[number].encode(), size).hex().upper()
    whole[number] = "0" + row[:-1]


def wrong_repeat(whole: list[str], _: int) -> None:
    """Repeats the row above in the middle of letters."""
    whole[(first_letters(whole) + len(whole)) // 2] = ":"


def row_lost(whole: list[str], _: int) -> None:
    """Takes the last row away."""
    whole.pop()


def without_row(picture: Picture) -> Picture:
    """A picture whose first row with dots is blank."""
    rows = list(picture.rows)
    number = next(number for number, row in enumerate(rows) if any(row))
    rows[number] = bytes(len(rows[number]))
    return replace(picture, packed=b"".join(rows))


DRAW = pen.Pen.draw
RUN_LENGTHS = zpl.run_lengths
DRAW_MODULES = pen.Pen.draw_modules
DRAW_WHITE = pen.Pen.draw_white
DRAWN = engine.drawn
ENGINE_DRAW: Callable[..., Any] = engine.Engine.modules_of_line
PAGE = press.Press.page
IMAGE = escpos.image
FIELDS_OF = zpl.graphic_fields
PEN = "labeltools.drawing.pen."
PAIR = [SHOP[0], ("ean13 5901234123457", SHOP[0][1])]
COPIES = [(line, {**fields, "copies": 2}) for line, fields in SHOP]


@dataclass(frozen=True)
class Fault:
    """A fault: what is another one then, in which forms that matters, for which labels."""

    target: str
    wrong: Any
    forms: Sequence[str]
    labels: Sequence[Any] = tuple(SHOP)


FAULTS = {
    "a page scaled": Fault(
        PEN + "Pen.draw", drawn_with(lambda canvas: canvas.scale(1.01, 1.01)), FORMS
    ),
    "mirrored": Fault(
        PEN + "Pen.draw",
        drawn_with(lambda canvas: (canvas.translate(495, 0), canvas.scale(-1, 1))),
        ROLLS,
    ),
    "turned the other way": Fault(
        PEN + "Pen.draw",
        drawn_with(lambda canvas: (canvas.translate(495, 320), canvas.rotate(math.pi))),
        ROLLS,
    ),
    "a module lost": Fault(PEN + "Pen.draw_modules", of_modules(without_a_module), FORMS),
    "light and dark exchanged": Fault(
        PEN + "Pen.draw_modules",
        of_modules(lambda packed: bytes(255 - byte for byte in packed)),
        FORMS,
    ),
    "bits of bytes exchanged": Fault(PEN + "REVERSED", bytes(range(256)), ("pdf",)),
    "guards too short": Fault(PEN + "GUARD", 4, FORMS, PAIR),
    "a dot to the right": Fault(
        PEN + "picture_matrix",
        changed(pen.picture_matrix, box=lambda box: box._replace(left=box.left + 1)),
        ("pdf",),
    ),
    "a dot to the right in dots": Fault(
        PEN + "draw_dots",
        changed(pen.draw_dots, box=lambda box: box._replace(left=box.left + 1)),
        DOTS,
    ),
    "a row of bars short": Fault(
        PEN + "picture_matrix",
        changed(pen.picture_matrix, box=lambda box: box._replace(height=box.height - 1)),
        ("pdf",),
    ),
    "a row of bars short in dots": Fault(
        PEN + "draw_dots",
        changed(pen.draw_dots, box=lambda box: box._replace(height=box.height - 1)),
        DOTS,
    ),
    "a code twice in its place": Fault(PEN + "Pen.draw_modules", twice, ("pdf",)),
    "lines mixed up": Fault("labeltools.lines.file.drawn", mixed, FORMS, PAIR),
    "a quiet zone a module short": Fault(
        "labeltools.lines.engine.Engine.modules_of_line", without_zone, FORMS
    ),
    "a title over the code": Fault(PEN + "Pen.texts", moved_text(False, 0, 160), FORMS),
    "a price over the code": Fault(PEN + "Pen.texts", moved_text(True, -150, 40), FORMS),
    "digits over the code": Fault(
        PEN + "Pen.draw_data",
        changed(
            pen.Pen.draw_data,
            symbols=lambda symbols: [(symbol, (x, y - 30)) for symbol, (x, y) in symbols],
        ),
        DOTS,
        PAIR,
    ),
    "no white below codes": Fault(PEN + "Pen.draw_white", lambda *_: None, ("pdf",)),
    "no white below guards": Fault(
        PEN + "white_boxes", lambda symbol: (symbol.boxes["bars"],), ("pdf",), PAIR
    ),
    "white that is cut off": Fault(
        PEN + "white_boxes",
        lambda symbol: (symbol.boxes["bars"]._replace(width=9),),
        ("pdf",),
    ),
    "white where it is not": Fault(
        PEN + "Pen.fill_white",
        changed(
            pen.Pen.fill_white,
            whites=lambda whites: [(boxes, (left + 1, top)) for boxes, (left, top) in whites],
        ),
        ("pdf",),
        PAIR,
    ),
    "codes in another colour": Fault(PEN + "Pen.draw_white", drawn_grey, ("pdf",)),
    "something drawn last": Fault(PEN + "Pen.draw", with_a_line, ("pdf",)),
    "a cell off the sheet": Fault(
        "labeltools.printing.press.Press.page", placed(900), ("pdf", "pbm")
    ),
    "labels overlapping": Fault("labeltools.printing.press.Press.page", placed(0), ("png",)),
    "copies lost": Fault(
        "labeltools.printing.press.zpl", changed(zpl.zpl, copies=lambda copies: 1), ("zpl",), COPIES
    ),
    "a wrong count in a row without a code": Fault(
        "labeltools.drawing.zpl.run_lengths", in_rows(wrong_count), ("zpl",)
    ),
    "a row repeated where letters begin": Fault(
        "labeltools.drawing.zpl.run_lengths", in_rows(wrong_repeat), ("zpl",)
    ),
    "a row lost": Fault("labeltools.drawing.zpl.run_lengths", in_rows(row_lost), ("zpl",)),
    "a wrong byte in an image": Fault(
        "labeltools.drawing.escpos.image", lambda rows: IMAGE(rows)[:-1] + b"\x01", ("escpos",)
    ),
    "a field at the left": Fault(
        "labeltools.drawing.zpl.graphic_fields",
        lambda picture: [re.sub(rb"\^FO\d+", b"^FO8", field) for field in FIELDS_OF(picture)],
        ("zpl",),
    ),
    "an image without its last row": Fault(
        "labeltools.drawing.escpos.image", lambda rows: IMAGE(rows[:-1] or rows), ("escpos",)
    ),
    "pages exchanged": Fault(
        "labeltools.printing.press.Press.pages_of_batch",
        lambda self, part: part.pages[::-1],
        ("pdf",),
    ),
    "a page lost": Fault(
        "labeltools.printing.press.Press.pages_of_batch",
        lambda self, part: part.pages[1:],
        ("pdf",),
    ),
    "a row of a pbm blank": Fault(
        "labeltools.printing.press.pbm",
        lambda picture: dots.pbm(without_row(picture)),
        ("pbm",),
    ),
    "a row of a png blank": Fault(
        "labeltools.printing.press.png",
        lambda picture, dot: dots.png(without_row(picture), dot),
        ("png",),
    ),
}


class Planted(unittest.TestCase):
    """Each fault stops the job, with status 3 and the row, in each form that it reaches."""

    def test_each_fault_in_each_form(self) -> None:
        for name, fault in FAULTS.items():
            for form in fault.forms:
                with self.subTest(name=name, form=form), mock.patch(fault.target, fault.wrong):
                    found = found_of(options_of(form), fault.labels)
                    with self.assertRaises(ToolError) as caught:
                        documents_of(found)
                    self.assertEqual(caught.exception.status, 3)
                    self.assertRegex(str(caught.exception.what), r"^row \d+: ")

    def test_nothing_is_stopped_without_a_fault(self) -> None:
        for form in FORMS:
            with self.subTest(form=form):
                self.assertTrue(documents_of(found_of(options_of(form), COPIES)))

    def test_a_line_through_a_text_is_no_code(self) -> None:
        """Of an old price that nothing is drawn behind but the code."""
        for form in FORMS:
            with self.subTest(form=form):
                found = found_of(options_of(form), [("qr abc", {"was": "62,99 €"})])
                self.assertTrue(documents_of(found))


class Named(unittest.TestCase):
    """A symbol in the place of another one is said with its place, in each direction."""

    def message(self, form: str, labels: Sequence[Any], **others: Any) -> str:
        """The message of two labels whose symbols are mixed up."""
        with mock.patch("labeltools.lines.file.drawn", mixed):
            found = found_of(options_of(form, **others), labels)
        with self.assertRaises(ToolError) as caught:
            documents_of(found)
        return str(caught.exception.what)

    def test_in_each_form_and_direction(self) -> None:
        pairs = [
            ("ean13 4006381333931", "ean13 5901234123457"),
            ("ean8 73513537", "ean8 96385074"),
            ("upca 036000291452", "upca 012345678905"),
            ("code128 PALLET-47", "code128 PALLET-48"),
            ("qr TICKET 1", "qr TICKET 2"),
        ]
        for form, lines, turn in product(FORMS, pairs, (False, True)):
            sheet: dict[str, Any] = {}
            if turn:
                is_page = form == "png"
                sheet = {"cell" if is_page else "paper": (40.0, 62.0)}
            with self.subTest(form=form, lines=lines, turn=turn):
                labels = [(line, {"title": "A"}) for line in lines]
                message = self.message(form, labels, turn=turn, **sheet)
                self.assertRegex(message, r"^row 2: its code .* mm from the left, .* mm down$")


class OwnDesigns(unittest.TestCase):
    """Designs of the user's own: each symbol, turned or not, is compared in each form."""

    LABELS = [
        ("code128 A-12-03", {"title": "A-12-03", "text": {"Check": "K"}}),
        ("ean8 73513537", {"title": "Kaugummi", "text": {"Check": "7"}}),
    ]

    def found(self, form: str, turn: bool | None, is_sheet: bool) -> Prepared:
        size = (60.0, 100.0) if turn else (100.0, 60.0)
        sheet = {"cell": size, "grid": (1, 2), "paper": None}
        chosen = sheet if is_sheet else {"paper": size, "cell": None}
        with own_design() as design:
            return found_of(options_of(form, design=design, turn=turn, **chosen), self.LABELS)

    def test_each_symbol_in_each_form(self) -> None:
        for form in FORMS:
            sheets = (True,) if form == "png" else (False, form in ("pdf", "pbm"))
            for turn, is_sheet in product((None, True), sheets):
                with self.subTest(form=form, turn=turn, is_sheet=is_sheet):
                    self.assertTrue(documents_of(self.found(form, turn, is_sheet)))

    def test_a_fault_in_any_symbol_is_seen(self) -> None:
        """The symbols of a label in their order: the code, and three others."""
        for form, number in product(FORMS, range(4)):
            with self.subTest(form=form, number=number):
                found = self.found(form, None, form == "png")
                wrong = drawn_wrong(number)
                with mock.patch(PEN + "Pen.draw_modules", wrong):
                    with self.assertRaisesRegex(ToolError, "^row 2: its code is wrong"):
                        documents_of(found)

    def test_another_symbol(self) -> None:
        lines = (b"code128 B-12-03", b"code128 B-12-03", b"qr B-12-03", b"qr,level=H B-12-03")
        for form, (number, line) in product(FORMS, enumerate(lines)):
            with self.subTest(form=form, line=line):
                found = self.found(form, None, form == "png")
                wrong = drawn_wrong(number, engine.Engine(False).modules_of_line(line))
                with mock.patch(PEN + "Pen.draw_modules", wrong):
                    with self.assertRaisesRegex(ToolError, "^row 2: its code is wrong"):
                        documents_of(found)

    def test_texts_of_another_row(self) -> None:
        """A second symbol that says another row's text."""

        def texts(label: Any, note: str, own: Any) -> Any:
            return values(label if note else first, note, own)

        values = own_layout.values_of
        with own_design() as design:
            options = options_of("zpl", design=design, paper=(100.0, 60.0))
            job = planned(options)
            lines = support.file_of(self.LABELS)
            first = labels_of(job, "lines", lines, Talk()).labels[0].record
            with mock.patch("labeltools.designs.svg_layout.values_of", texts):
                found = labels_of(job, "lines", lines, Talk())
        with self.assertRaisesRegex(ToolError, "^row 3: its code says other data than its line"):
            documents_of(found)

    def test_a_symbol_has_all_of_its_text(self) -> None:
        """Letters have eight marks at most, and a symbol those of its line."""
        title = "e" + "\u0301" * 12
        with own_design() as design:
            options = options_of("zpl", design=design, paper=(100.0, 60.0))
            found = found_of(options, [("code128 A", {"title": title, "text": {"Check": "7"}})])
        (dots,) = jobs.dots_of_zpl(b"".join(documents_of(found)))
        symbol = 255 * (1 - dots[300:470, 236:404])  # at 38 and 30 mm
        self.assertEqual(zxingcpp.read_barcode(symbol).bytes, title.encode())

    def test_a_title_over_a_symbol(self) -> None:
        """In dots it is seen; in a drawing symbols are over it."""
        for form in DOTS:
            found = self.found(form, None, form == "png")
            lower = changed(pen.Pen.draw_text, place=lambda place: (place[0], place[1] + 150))
            with self.subTest(form=form), mock.patch(PEN + "Pen.draw_text", lower):
                with self.assertRaisesRegex(ToolError, "^row 2: its code is wrong"):
                    documents_of(found)


class LongTexts(unittest.TestCase):
    """Texts in any script whose strings Cairo parts over lines of a PDF."""

    SCRIPTS = {
        "Han": "這是一個非常長的標題沒有任何空格用來測試換行與縮小",
        "Kana": "これはとてもながいなまえでテストです",
        "Latin": "Äpfel (rot) aus \\ Süden ",
        "Greek": "Ελληνικά μήλα ",
        "Arabic": "تفاح أحمر من الجنوب ",
        "mixed": "Tea 茶 чай (شاي) ",
    }
    LENGTHS = (*range(10, 60, 7), 100, 200, 400)
    PAGES: Sequence[dict[str, Any]] = (
        {"paper": (100.0, 60.0)},
        {"paper": (100.0, 60.0), "design": "shelf"},
        {"stock": "Avery L7160", "paper": None},
        {"stock": "Avery L7160", "paper": None, "design": "shelf"},
    )

    def found(self, text: str, **chosen: Any) -> Prepared:
        """Labels whose titles are a text and the beginnings of it."""
        long = text * 40
        titles = [long[:length].strip() for length in self.LENGTHS]
        labels = [(f"code128 A-{number}", {"title": title}) for number, title in enumerate(titles)]
        return found_of(options_of("pdf", **chosen), labels)

    def in_own_design(self, text: str, is_sheet: bool) -> Prepared:
        """These labels in a design of the user's own."""
        sheet = {"cell": (100.0, 60.0), "grid": (2, 4), "paper": None}
        chosen = sheet if is_sheet else {"paper": (100.0, 60.0)}
        with own_design(OWN.replace("title-2", "code-4")) as design:
            return self.found(text, design=design, **chosen)

    def test_each_is_drawn(self) -> None:
        for script, text in self.SCRIPTS.items():
            for chosen in self.PAGES:
                with self.subTest(script=script, **chosen):
                    self.assertTrue(documents_of(self.found(text, **chosen)))
            for is_sheet in (False, True):
                with self.subTest(script=script, is_sheet=is_sheet):
                    self.assertTrue(documents_of(self.in_own_design(text, is_sheet)))

    def test_a_fault_is_seen(self) -> None:
        """The code of another label."""
        other = engine.Engine(False).modules_of_line(b"code128 A-1")
        for script, is_sheet in product(self.SCRIPTS, (False, True)):
            found = self.in_own_design(self.SCRIPTS[script], is_sheet)
            with self.subTest(script=script, is_sheet=is_sheet):
                with mock.patch(PEN + "Pen.draw_modules", drawn_wrong(0, other)):
                    with self.assertRaisesRegex(ToolError, r"^row \d+: its code is wrong"):
                        documents_of(found)


class Again(unittest.TestCase):
    """What comes on many labels is made twice, and then kept."""

    def test_a_drawing_that_is_copied(self) -> None:
        """Its dots are those that Cairo paints."""
        with own_design() as design:
            options = options_of("zpl", design=design, paper=(100.0, 60.0))
            found = found_of(options, OwnDesigns.LABELS)
        copied = documents_of(found)
        with mock.patch("labeltools.designs.background.UPRIGHT", None):
            self.assertEqual(documents_of(found), copied)


def rows_of(symbol: Any) -> tuple[list[str], list[str], int]:
    """The rows of modules of a symbol with its quiet zones, four of bars and five of longer guards;
    those that are looked at; and how many of them have no guards alone.
    """
    before, behind, above, below = symbol.quiet_zones
    dots = symbol.modules.translate(bytes.maketrans(b"\0\1", b"01")).decode()
    modules = [dots[start : start + symbol.width] for start in range(0, len(dots), symbol.width)]
    wide = before + symbol.width + behind
    rows = [f"{'0' * before}{row}{'0' * behind}" for row in modules]
    if symbol.rows > 1:
        rows = ["0" * wide] * above + rows + ["0" * wide] * below
        return rows, ["1" * wide] * len(rows), len(rows)
    guards = compare.GUARDS.get(symbol.symbology, ())
    own = {before + place for first, last in guards for place in range(first, last)}
    longer = ["".join("01"[place in own] for place in range(wide))] * (5 if guards else 0)
    return rows * (4 + len(longer)), ["1" * wide] * 4 + longer, 4


def whites_of(symbol: Any, scale: int, quarters: int, corner: tuple[int, int]) -> tuple[Box, ...]:
    """Where a symbol is on a page, turned, in dots: all of it but for its longer guards, and each
    of these.
    """
    rows, _, high = rows_of(symbol)
    found = [Box(0, 0, len(rows[0]), high)]
    for first, last in compare.GUARDS.get(symbol.symbology, ()):
        found.append(Box(symbol.quiet_zones[0] + first, high, last - first, 5))
    boxes = [compare.turned_box(box, (len(rows[0]), len(rows)), quarters) for box in found]
    dots = [[scale * side for side in box] for box in boxes]
    return tuple(Box(left + corner[0], top + corner[1], *size) for left, top, *size in dots)


class Read(unittest.TestCase):
    """What is read back is what was written."""

    def test_dots_are_read_as_they_were(self) -> None:
        rows = [bytes([row % 7 * 36, 255 * (row % 3 == 0), 0]) for row in range(40)]
        picture = Picture(24, 80, b"".join(rows) + bytes(40 * 3))
        for form, data, copies in (
            ("zpl", zpl.zpl(picture, 2), 2),
            ("escpos", escpos.escpos(picture, True, True), 1),
            ("pbm", dots.pbm(picture), 1),
            ("png", dots.png(picture, 0.125), 1),
        ):
            with self.subTest(form=form):
                self.assertEqual(decode.read_dots(form, data, 24), (picture, copies))

    def test_rows_by_the_manual(self) -> None:
        """Counts as the ZPL II manual has them: G is 1, M is 7, Y is 19, g is 20, z is 400; those that
        are written before F are before no 0.
        """
        row = decode.rows_of_field(b"1G0Y0M0FF", 15)
        self.assertEqual(row.hex().upper(), "1" + "0" * 27 + "FF")
        row = decode.rows_of_field(b"WFg0KFz0OF1", 226)
        self.assertEqual(
            row.hex().upper(), "F" * 17 + "0" * 20 + "F" * 5 + "0" * 400 + "F" * 9 + "1"
        )
        rows = decode.rows_of_field(b"F0L0:12345678N012J0451234567G0", 4)
        wanted = "F0000000 F0000000 12345678 00000000 12000045 12345670"
        self.assertEqual(rows.hex(" ", 4).upper(), wanted)
        # runs that go on in the next row
        over = b"1234567H02345678:", b"12345KF345678:", b"Y012345", b"12K0345678"
        wrong = b"F0F", b"12345678F", b"GZ", b"12:", b"M:", b"12 3", b"12345678:\n:", b":12345678"
        others = b"N1::", b"gJ0", b"MG0::", b"123456,::", b"1234567f::", b"1234567N::"
        for text in (*wrong, *over, *others):
            with self.subTest(text=text), self.assertRaises(decode.Different):
                decode.read_dots("zpl", FIELD % text, 32)

    def test_dots_of_symbols(self) -> None:
        """Of each size, in each direction, from any dot of a byte on: any dot that differs is seen,
        but for those between longer guards.
        """
        lines = (b"ean13 4006381333931", b"ean8 73513537", b"code128 LOT-7", b"qr X")
        for line, scale, quarters, left in product(lines, (1, 3), range(4), (0, 5)):
            symbol = library.labels_library().line(line, height=1)
            dark, looked, high = rows_of(symbol)
            wide = len(dark[0])
            dark, looked = (
                ["".join(module * scale for module in row) for row in rows for _ in range(scale)]
                for rows in (dark, looked)
            )
            for _ in range(quarters):
                dark, looked = (
                    ["".join(column) for column in zip(*rows[::-1])] for rows in (dark, looked)
                )
            box = Box(left, 2, len(dark[0]), len(dark))
            record = mock.sentinel.record
            whites = whites_of(symbol, scale, quarters, (left, 2))
            where = compare.Where(box, whites, quarters, scale, wide, high)
            wanted = compare.Wanted(record, symbol, where)
            size = (box.right + 7) // 8
            behind = 8 * size - box.right
            drawn = [(int(row, 2) << behind).to_bytes(size, "big") for row in dark]
            rows = [bytes(size)] * 2 + drawn
            with self.subTest(line=line, scale=scale, quarters=quarters, left=left):
                self.assertFalse(is_refused(wanted, rows))
                for down, across in product(range(len(dark)), range(0, len(dark[0]), 11)):
                    bit = 1 << behind + len(dark[0]) - 1 - across
                    row = int.from_bytes(rows[2 + down], "big") ^ bit
                    other = [*rows]
                    other[2 + down] = row.to_bytes(size, "big")
                    is_seen = looked[down][across] == "1"
                    self.assertEqual(is_refused(wanted, other), is_seen)

    def test_a_picture_that_is_another_one(self) -> None:
        pen.bar_boxes.cache_clear()  # of boxes by another test, whose guards are short
        found = found_of(options_of("pdf"), PAIR[:1])
        comparison = found.press(Talk()).comparison
        (page,) = drawn_pages(documents_of(found)[0], 203, 1, [1])
        (code,) = page.codes
        wanted = [*comparison.wanted_on([(found.labels[0], found.job.plan.places[0])])]
        corners = tuple((x + 0.5, y) for x, y in code.corners)
        changes: Sequence[dict[str, Any]] = (
            {"width": code.width - 1},
            {"height": code.height - 1},
            {"modules": code.modules[:-1]},
            {"corners": corners},
        )
        for change in changes:
            other = page._replace(codes=[code._replace(**change)])
            with self.subTest(change=change), self.assertRaises(decode.Different):
                compare.check_codes(wanted, other, 0.125)
        with self.assertRaises(decode.Different):
            compare.check_codes(wanted, page._replace(whites=page.whites[:-1]), 0.125)
        compare.check_codes(wanted, page, 0.125)

    def test_fields_that_are_not_whole(self) -> None:
        """Each field ends, is on the label, and over no other one."""
        label = b"^XA^MUD^PON^PMN^JMA^LH0,0^LS0^PW32^LL3\n%b^XZ\n"
        first = b"^FO0,0^GFA,4,4,2,1200:^FS\n"
        for field in (
            b"^FO0,0^GFA,12,12,4,12345678::",
            b"^FO0,0^GFA,12,12,4,12345678::^FS",
            b"^FO0,0^GFA,12,12,4,12345678::^FR\n",
            b"^FO8,0^GFA,12,12,4,12345678::^FS\n",
            b"^FO3,0^GFA,3,3,1,12::^FS\n",
            b"^FO0,1^GFA,12,12,4,12345678::^FS\n",
            b"^FO0,0^GFA,12,13,4,12345678::^FS\n",
            b"^FO0,0^GFA,12,12,3,12345678::^FS\n",
            b"^FO0,0^GFA,8,8,4,12345678::^FS\n",
            b"^FO0,0^GFA,16,16,4,12345678:::^FS\n",
            b"^FO0,0^GFA,0,0,0,^FS\n",
            first + b"^FO0,1^GFA,2,2,2,3400^FS\n",
            first + b"^FO0,0^GFA,6,6,2,0000::^FS\n",
        ):
            with self.subTest(field=field), self.assertRaises(decode.Different):
                decode.read_dots("zpl", label % field, 32)
        fields = first + b"^FO16,0^GFA,6,6,2,1234::^FS\n^FO0,2^GFA,1,1,1,FF^FS\n"
        whole, _ = decode.read_dots("zpl", label % fields, 32)
        self.assertEqual(whole.packed.hex(" ", 4), "12001234 12001234 ff001234")


if __name__ == "__main__":
    unittest.main()
