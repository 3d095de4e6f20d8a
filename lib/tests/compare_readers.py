"""Draws random data in random ways, and has each picture read: compare_readers.py SEED COUNT

Each call draws a symbol of random data and options as PNG, SVG, data URI, bitmap or PBM, with digits or without.
`read` of the module has to read its data, to a dot, and so has a scanner, ZXing. librsvg draws the SVG; of one with
digits, whose letters are those of a font, `read` gets the bars. In every tenth picture the data of the one before is
looked for, too, and must not be read. PYTHONPATH and LABELS_LIBRARY name the module and the library. The last line
counts; the status is 1 if a picture is not read as its data, or if a wrong case is not seen.
"""

import base64
import importlib
import io
import random
import sys
from collections import Counter
from dataclasses import dataclass

import cairo
import gi
import liblabels
import numpy
import zxingcpp
from PIL import Image

DIGITS_OF = {"ean13": 12, "ean8": 7, "upca": 11}
FORMATS = {
    "ean13": zxingcpp.BarcodeFormat.EAN13,
    "ean8": zxingcpp.BarcodeFormat.EAN8,
    "upca": zxingcpp.BarcodeFormat.UPCA,
    "code128": zxingcpp.BarcodeFormat.Code128,
    "qr": zxingcpp.BarcodeFormat.QRCode,
}
DIGITS = "0123456789"
ALPHANUMERIC = DIGITS + "ABCDEFGHIJKLMNOPQRSTUVWXYZ $%*+-./:"
PRINTED = "".join(map(chr, range(32, 127)))
ASCII = "".join(map(chr, range(128)))
LETTERS = PRINTED + "äöüßéèñŁł€Ωд日本"
FORMS = ("png", "svg", "png uri", "svg uri", "bitmap", "draw")
Dots = numpy.ndarray[tuple[int, int], numpy.dtype[numpy.uint8]]  # grey
MARGIN = 10  # modules of white around a picture, for the scanners
EACH_WRONG = 10


@dataclass(frozen=True)
class Call:
    """What is drawn, and in which form."""

    symbology: str
    data: bytes
    full: bytes
    form: str
    scale: int
    has_digits: bool
    height: int
    level: str
    min_version: int
    mask: int | None


def some_text(rng: random.Random, alphabets: tuple[str, ...], most: int) -> str:
    """Parts of different characters, as names and numbers are, of at most so many bytes."""
    text = ""
    for _ in range(rng.randint(1, 4)):
        text += "".join(rng.choices(rng.choice(alphabets), k=rng.randint(1, 20)))
    while len(text.encode()) > most:
        text = text[:-1]
    return text


def with_check_digit(digits: str) -> str:
    """The digits with the check digit that GS1's rule gives."""
    weighted = sum(int(digit) * (3, 1)[place % 2] for place, digit in enumerate(reversed(digits)))
    return digits + str(-weighted % 10)


def some_data(rng: random.Random, symbology: str) -> tuple[bytes, bytes]:
    """Data, and what its symbol has to say."""
    if symbology in DIGITS_OF:
        digits = "".join(rng.choices(DIGITS, k=DIGITS_OF[symbology]))
        full = with_check_digit(digits).encode()
        return rng.choice((digits.encode(), full)), full
    if symbology == "code128":
        data = some_text(rng, (DIGITS, ALPHANUMERIC, PRINTED, ASCII), 80).encode()
    elif rng.random() < 0.25:
        data = rng.randbytes(rng.randint(1, 60))
    else:
        data = some_text(rng, (DIGITS, ALPHANUMERIC, LETTERS), 100).encode()
    return data, data


def some_call(rng: random.Random) -> Call:
    symbology = rng.choice(tuple(FORMATS))
    data, full = some_data(rng, symbology)
    form = rng.choice(FORMS)
    return Call(
        symbology=symbology,
        data=data,
        full=full,
        form=form,
        scale=rng.randint(2, 8 if form == "draw" else 12) if symbology == "qr" else rng.randint(2, 4),
        has_digits=symbology != "qr" and form not in ("bitmap", "draw") and rng.random() < 0.5,
        height=rng.randint(15, 60),
        level=rng.choice(liblabels.LEVELS),
        min_version=rng.choice((1, 1, rng.randint(1, 10))),
        mask=rng.choice((None, None, rng.randint(0, 7))),
    )


def of_svg(svg: bytes) -> Dots:
    """The grey dots of an SVG on white paper, as librsvg draws it."""
    handle = RSVG.Handle.new_from_data(svg)
    _, width, height = handle.get_intrinsic_size_in_pixels()
    surface = cairo.ImageSurface(cairo.FORMAT_RGB24, round(width), round(height))
    context = cairo.Context(surface)
    context.set_source_rgb(1, 1, 1)
    context.paint()
    paper = RSVG.Rectangle()
    paper.x, paper.y, paper.width, paper.height = 0, 0, width, height
    handle.render_document(context, paper)
    rows: Dots = numpy.ndarray((surface.get_height(), surface.get_stride()), numpy.uint8, surface.get_data())
    return numpy.ascontiguousarray(rows[:, : 4 * surface.get_width() : 4])


def of_file(file: bytes) -> Dots:
    """The grey dots of a file that Pillow reads."""
    return numpy.asarray(Image.open(io.BytesIO(file)).convert("L"))


def drawn(call: Call) -> Dots:
    """The grey dots of a picture."""
    height, level, min_version, mask = call.height, call.level, call.min_version, call.mask
    if call.form == "draw":
        return of_file(
            liblabels.draw(
                call.symbology,
                call.data,
                scale=call.scale,
                height=height,
                level=level,
                min_version=min_version,
                mask=mask,
            )
        )
    if call.form == "bitmap":
        bits = liblabels.bitmap(
            call.symbology,
            call.data,
            scale=call.scale,
            height=height,
            level=level,
            min_version=min_version,
            mask=mask,
        )
        return of_file(b"P4 %d %d\n%s" % (bits.width, bits.height, bits.bits))
    symbol = liblabels.symbol(
        call.symbology, call.data, height=height, level=level, min_version=min_version, mask=mask
    )
    kind, _, is_uri = call.form.partition(" ")
    file = io.BytesIO()
    if is_uri:
        uri = symbol.data_uri(kind, digits=call.has_digits, scale=call.scale)
        file.write(base64.b64decode(uri.partition(",")[2], validate=True))
    else:
        symbol.save(file, kind, digits=call.has_digits, scale=call.scale)
    return of_file(file.getvalue()) if kind == "png" else of_svg(file.getvalue())


def by_module(call: Call, dots: Dots) -> bytes | None:
    """What `read` says of a picture: its data, if symbology and scale are right, too."""
    if call.has_digits and call.form.startswith("svg"):
        dots = dots[: call.height * call.scale]
    reading = liblabels.read(dots)
    if reading is None or (reading.symbology, reading.scale, reading.turns) != (call.symbology, call.scale, 0):
        return None
    return reading.data


def by_scanner(call: Call, dots: Dots) -> list[bytes]:
    """What ZXing reads in a picture on white paper."""
    paper = numpy.pad(dots, MARGIN * call.scale, constant_values=255)
    found = zxingcpp.read_barcodes(paper, formats=FORMATS[call.symbology], try_rotate=False, try_downscale=False)
    return [bytes(barcode.bytes) for barcode in found]


def main() -> int:
    seed, count = map(int, sys.argv[1:])
    rng = random.Random(seed)
    counts: Counter[str] = Counter()
    before = b""
    for number in range(count):
        call = some_call(rng)
        dots = drawn(call)
        read, scanned = by_module(call, dots), by_scanner(call, dots)
        if (read, scanned) != (call.full, [call.full]):
            print(f"{call}: read as {read!r}, scanned as {scanned!r}")
            counts["wrong"] += 1
        counts.update([call.form, call.symbology])
        counts["with digits"] += call.has_digits
        if number % EACH_WRONG == 1 and before != call.full:
            counts["wrong cases"] += 1
            counts["unseen"] += before in (read, *scanned)
        before = call.full
    print(", ".join(f"{counts[name]} {name}" for name in (*FORMATS, *FORMS, "with digits")))
    print(f"{count} pictures: {counts['wrong']} wrong; {counts['wrong cases']} wrong cases, {counts['unseen']} unseen")
    return 1 if counts["wrong"] or counts["unseen"] or not counts["wrong cases"] else 0


gi.require_version("Rsvg", "2.0")
RSVG = importlib.import_module("gi.repository.Rsvg")

if __name__ == "__main__":
    sys.exit(main())
