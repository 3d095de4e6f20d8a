"""Designs of a user's own that tests write, and labels for those that are shipped."""

import json
from pathlib import Path
from typing import Any, Sequence

import jobs
import support
from labeltools.common.messages import Talk
from labeltools.drawing.pen import Pen
from labeltools.layout.layout import PlacedText
from labeltools.layout.medium import Medium
from labeltools.printing.job import planned, PrintOptions
from labeltools.printing.press import labels_of, Prepared
from reading import fault_of

FOLDER = support.TOP / "designs"
SPACE = 'xmlns="http://www.w3.org/2000/svg"'
INKSCAPE = 'xmlns:inkscape="http://www.inkscape.org/namespaces/inkscape"'
PAGE = 'width="60mm" height="40mm" viewBox="0 0 60 40"'
PAPER = (60.0, 40.0)
CODE = '<rect id="code" x="2" y="20" width="56" height="18"/>'
Label = tuple[str, dict[str, Any]]
# labels for each design that is shipped, by the parts and columns that it has
PALLET = {"From": "Kiel", "Article": "Tea", "Quantity": "9", "Batch": "7", "Best before": "1.9."}
TICKET = {"Block": "A", "Row": "B", "Seat": "12"}
SHIPPED: dict[str, Label] = {
    "address-88x25": ("qr a", {"title": "Zoë", "text": ["Am Hang 1", "12345 Köln"]}),
    "jar-38x21": ("qr a", {"title": "Honig", "text": {"Filled": "1.9.2026", "Weight": "500 g"}}),
    "pallet-105x148": ("code128 PAL-4711", {"title": "4711", "text": PALLET}),
    "rack-100x50": ("code128 A-01-F", {"title": "A-01", "text": {"Arrow": "▲", "Check": "F"}}),
    "receipt-72x60": ("qr T1", {"title": "Zoë", "price": "9 €", "text": {"Seat": "12"}}),
    "shelf-60x40": (
        "ean13 4006381333931",
        {"title": "Pen", "price": "1 €", "unit": "1 €", "was": "2 €"},
    ),
    "ticket-210x148": ("qr T1", {"title": "Zoë", "price": "9 €", "text": TICKET}),
}


def size_of(name: str) -> tuple[float, float]:
    """The sides of a design that is shipped, as its name says them, in millimetres."""
    wide, high = name.split("-")[-1].split("x")
    return float(wide), float(high)


def lines_of(labels: Sequence[Label]) -> bytes:
    """A file of lines."""
    rows = []
    for line, fields in labels:
        rows += [f"#{json.dumps(fields)}"] * bool(fields) + [line]
    return "".join(f"{row}\n" for row in rows).encode()


def written(path: Path, body: str, page: str = PAGE) -> Path:
    """A design that is written to a file."""
    path.write_text(f"<svg {SPACE} {INKSCAPE} {page}>{body}</svg>", encoding="utf-8")
    return path


def prepared(
    design: Path, labels: Sequence[Label], is_read: bool = True, **options: Any
) -> Prepared:
    """Labels in a design, each read as it is drawn."""
    chosen: dict[str, Any] = {"paper": PAPER, "dpi": 203, "to": "pbm"}
    chosen |= {"design": str(design), **options}
    wished = PrintOptions(**chosen)
    found = labels_of(planned(wished), "lines", lines_of(labels), Talk())
    pen = Pen(Medium(found.job.plan.dpi, True), found.pens[0].letters, found.job.design)
    for item in found.labels if is_read else ():
        if fault := fault_of(item, found.laid_out.area, pen):
            raise AssertionError(fault)
    return found


def dots_of(found: Prepared, number: int = 0) -> jobs.Dots:
    """The dots of a label on its page, as they go out."""
    press = found.press(Talk())
    document = press.document(press.batch_of_same([found.labels[number]]))
    return jobs.pictures_of_pbm(document)[0]


def texts_of(found: Prepared) -> list[PlacedText]:
    """The texts of all labels."""
    return [text for item in found.labels for text in item.texts]


def is_refused(message: object, why: str) -> bool:
    """Whether a message says why; its hint is behind a colon or a semicolon."""
    return why.replace("; ", ": ") in str(message).replace("; ", ": ")


def reasons_of(found: Prepared) -> list[str]:
    """Why labels are left out."""
    return [str(record.problem.line) for record in found.left_out]


def said_of(found: Prepared) -> list[str]:
    """What is said of labels that are printed."""
    return [str(remark.problem.line) for remark in found.remarks]
