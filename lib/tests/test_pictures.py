"""SVG and PNG of a symbol: each dot is that of the proved picture, zbar and zxing-cpp read the data, and digits."""

import os
import tempfile
import unittest
from pathlib import Path

from support import PYTHON, WithLibrary

LINES = """
LINES = {
    "qr,level=Q HELLO": ("QRCode", "HELLO"),
    "qr,level=H,mask=3,min-version=4 https://example.com/article/000123": (
        "QRCode",
        "https://example.com/article/000123",
    ),
    "ean13,height=40 400638133393": ("EAN13", "4006381333931"),
    "ean8 7351353": ("EAN8", "73513537"),
    "upca 03600029145": ("UPCA", "036000291452"),
    "code128,height=30 LOT-1/x": ("Code128", "LOT-1/x"),
}
"""
# The dots of a PNG are those of the plain PBM that labels(1) prints; Pillow reads them and the size.
DOTS = (
    LINES
    + """
import io, liblabels, numpy
from PIL import Image
for line in LINES:
    symbol = liblabels.line(line)
    for scale in (1, 3, 8):
        _, size, dots = liblabels.draw_line(line, scale=scale).split(b"\\n", 2)
        width, height = map(int, size.split())
        light = numpy.frombuffer(dots.replace(b"\\n", b""), numpy.uint8).reshape(height, width) == 48
        for png in (symbol.png(scale, dpi=300), liblabels.bitmap_line(line, scale=scale).png(dpi=300)):
            image = Image.open(io.BytesIO(png))
            assert (image.mode, image.size, round(image.info["dpi"][0])) == ("1", (width, height), 300), line
            assert (numpy.array(image) == light).all(), line
        assert "dpi" not in Image.open(io.BytesIO(symbol.png(scale))).info
        assert tuple(side * scale for side in symbol.size()) == (width, height)
    area = numpy.zeros((symbol.height, symbol.width), bool)
    for x, y, wide, high in symbol.bars():
        assert wide and high and not area[y : y + high, x : x + wide].any()
        area[y : y + high, x : x + wide] = True
    rows = numpy.frombuffer(symbol.modules, bool).reshape(symbol.rows, symbol.width)
    assert (area == numpy.repeat(rows, symbol.height // symbol.rows, 0)).all()
for wrong in ({"scale": 101}, {"scale": 0}, {"dpi": 0}, {"dpi": float("nan")}, {"border": -1}):
    try:
        symbol.png(**wrong)
    except ValueError as why:
        assert next(iter(wrong)) in str(why), why
    else:
        raise AssertionError(wrong)
for wrong in ({"unit": "furlong"}, {"scale": 0}, {"scale": float("nan")}, {"border": 101}):
    try:
        symbol.svg(**wrong)
    except ValueError as why:
        assert next(iter(wrong)) in str(why), why
    else:
        raise AssertionError(wrong)
"""
)
# The bytes that versions 1 to 10 hold at level H, at which they hold fewest: ISO/IEC 18004, table 7.
SIZES = """
import liblabels
HELD = (7, 14, 24, 34, 44, 58, 64, 84, 98, 119)
for size in range(1, HELD[-1] + 1):
    first = next(version for version, held in enumerate(HELD, 1) if size <= held)
    for lowest in (1, 5, 10):
        symbol = liblabels.symbol("qr", size * b"\\xff", level="H", min_version=lowest)
        assert symbol.version == max(first, lowest), (size, lowest)
        assert symbol.width == symbol.rows == 17 + 4 * symbol.version, (size, lowest)
"""
# Two readers read the PNG, and the SVG as rsvg-convert draws it.
READ = (
    LINES
    + """
import io, liblabels, subprocess, sys
import zxingcpp
from xml.etree import ElementTree
from PIL import Image
def by_zbar(png):
    words = ["zbarimg", "-q", "--raw", "-Supca.enable", "-Sean13.enable", "-Sean8.enable", "-"]
    return subprocess.run(words, input=png, capture_output=True).stdout.decode().rstrip("\\n")
def by_zxing(png):
    image = Image.open(io.BytesIO(png)).convert("L")
    return [(found.format.name, found.text) for found in zxingcpp.read_barcodes(image)]
strange = ElementTree.fromstring(liblabels.symbol("qr", b"a").svg(light="\\"<&'"))
assert strange[0].get("fill") == "\\"<&'"
for line, (name, data) in LINES.items():
    symbol = liblabels.line(line)
    svg = symbol.svg(4, light="white").encode()
    assert svg.decode() == symbol._repr_svg_()
    drawn = subprocess.run(["rsvg-convert"], input=svg, capture_output=True, check=True).stdout
    clear = subprocess.run(["rsvg-convert", "-b", "white"], input=symbol.svg(4).encode(), capture_output=True).stdout
    for png in (symbol.png(4), drawn, clear):
        assert data in by_zbar(png), (line, by_zbar(png))
        assert [(name, data)] == by_zxing(png), (line, by_zxing(png))
"""
)
# The digits of EAN and UPC below: each group in the middle of its bars, below them and within the picture; only the
# guard bars are longer. The text of Code 128 is below it, whatever its characters, and QR has none.
DIGITS = (
    LINES
    + """
import liblabels, re, subprocess
from xml.etree import ElementTree
BAR = re.compile(r"M(\\d+) (\\d+)h(\\d+)v(\\d+)h")
TEXT = re.compile(r'<text x="([\\d.]+)" y="(\\d+)">(\\d+)</text>')
def text_of(symbol):
    root = ElementTree.fromstring(symbol.svg(digits=True))
    return root, [(element.get("x"), int(element.get("y")), element.text) for element in root[-1]]
for line, (name, data) in LINES.items():
    symbol = liblabels.line(line)
    of = liblabels.layout(symbol.symbology)
    if name == "QRCode":
        try:
            symbol.svg(4, digits=True)
        except ValueError as why:
            assert "QR code has no text" in str(why)
            continue
        raise AssertionError(line)
    plain, svg = symbol.svg(4), symbol.svg(4, digits=True)
    assert "".join(text for _, _, text in text_of(symbol)[1]) == data
    if name == "Code128":
        assert [(float(middle), foot) for middle, foot, _ in text_of(symbol)[1]] == [(symbol.size()[0] / 2, 39)]
        continue
    for (middle, foot, text), (first, last, begin, end) in zip(TEXT.findall(svg), of.digits, strict=True):
        assert (float(middle), text) == ((begin + end) / 2, data[first:last])
        assert f'height="{4 * (int(foot) + 1)}"' in svg and int(foot) > symbol.height + 5
    for before, after in zip(BAR.findall(plain), BAR.findall(svg), strict=True):
        is_guard = any(first <= int(before[0]) < last for first, last in of.guards)
        assert after == (*before[:3], str(int(before[3]) + 5 * is_guard)), (line, before)
    drawn = subprocess.run(["rsvg-convert", "-b", "white"], input=svg.encode(), capture_output=True, check=True).stdout
    words = ["zbarimg", "-q", "--raw", "-Supca.enable", "-"]
    assert data in subprocess.run(words, input=drawn, capture_output=True).stdout.decode(), line
strange = r"a  b<&>'\\x22\\x01\\x7f"
root, [(_, _, text)] = text_of(liblabels.line("code128 " + strange, escapes=True))
assert text == "a  b<&>'\\"\\u2401\\u2421"
assert root[-1].get("{http://www.w3.org/XML/1998/namespace}space") == "preserve"
long = liblabels.symbol("code128", "0123456789" * 8)
root, lines = text_of(long)
assert [text for _, _, text in lines] == ["0123456789" * 4] * 2 and [foot for _, foot, _ in lines] == [59, 69]
assert root.get("height") == "70"
for call in (long.svg, long.png, long.image):
    try:
        call(digits=True, border=20)
    except ValueError as why:
        assert str(why) == "digits are in the quiet zones: leave out border"
    else:
        raise AssertionError
"""
)
# With a border the modules of a symbol are as they are, and light modules are around them: in PNG, in an image, and in
# SVG as rsvg-convert draws it.
BORDERS = (
    LINES
    + """
import io, liblabels, numpy, subprocess
from PIL import Image
def dark_of(png):
    return ~numpy.array(Image.open(io.BytesIO(png)).convert("1"))
for line in LINES:
    symbol = liblabels.line(line)
    modules = numpy.asarray(symbol)
    drawn = numpy.repeat(modules, symbol.height // symbol.rows, 0)
    for border in (0, 3, numpy.int64(100)):
        wanted = numpy.pad(drawn, int(border))
        svg = symbol.svg(border=border, light="white").encode()
        by_rsvg = subprocess.run(["rsvg-convert"], input=svg, capture_output=True, check=True).stdout
        assert numpy.array_equal(dark_of(by_rsvg), wanted), (line, border)
        for scale in (1, 5, 9):
            large = numpy.kron(wanted, numpy.ones((scale, scale), bool))
            assert numpy.array_equal(dark_of(symbol.png(scale, border=border)), large), (line, border, scale)
            assert numpy.array_equal(~numpy.array(symbol.image(scale, border=border)), large), (line, border, scale)
"""
)
# The dots of a picture in colours are those of the black and white one, in PNG, in an image and in SVG as rsvg-convert
# draws it; without a light colour they are transparent where they are light.
COLOURS = (
    LINES
    + """
import io, liblabels, numpy, subprocess
from PIL import Image
COLOURED = {"dark": "#1A2b3c", "light": "#fec"}
DARK, LIGHT, BLACK = (26, 43, 60, 255), (255, 238, 204, 255), (0, 0, 0, 255)
def dots_of(png):
    return numpy.array(Image.open(io.BytesIO(png)).convert("RGBA"))
def by_rsvg(svg):
    return dots_of(subprocess.run(["rsvg-convert"], input=svg.encode(), capture_output=True, check=True).stdout)
for line, (_, data) in LINES.items():
    symbol = liblabels.line(line)
    for digits in {False, symbol.symbology != "qr"}:
        is_light = numpy.array(symbol.image(3, digits))
        coloured = symbol.png(3, digits=digits, **COLOURED)
        pictures = [dots_of(coloured), numpy.array(symbol.image(3, digits, **COLOURED).convert("RGBA"))]
        pictures += [] if digits else [by_rsvg(symbol.svg(3, **COLOURED))]
        for picture in pictures:
            assert (picture[is_light] == LIGHT).all() and (picture[~is_light] == DARK).all(), line
        clear = dots_of(symbol.png(3, digits=digits, light=None))
        assert not clear[is_light][:, 3].any() and (clear[~is_light] == BLACK).all(), line
        assert liblabels.read(coloured).text == liblabels.read(symbol.png(light=None)).text == data, line
digits_of_svg = by_rsvg(liblabels.symbol("ean8", "7351353").svg(4, digits=True, **COLOURED))[230:]
assert (digits_of_svg == DARK).all(2).any() and not (digits_of_svg == BLACK).all(2).any()
for wrong in ({"dark": "red"}, {"light": "#12"}, {"dark": "#12345g"}, {"light": ""}):
    try:
        symbol.png(**wrong)
    except ValueError as why:
        ((name, colour),) = wrong.items()
        assert str(why) == f"{name} is {colour!r}: PNG takes black, white, and colours such as #1a2b3c", why
    else:
        raise AssertionError(wrong)
"""
)
# How many dots are nearest to a module of a length, by hand, and that the file says of them what they were made for.
LENGTHS = """
import io, liblabels
from PIL import Image
symbol = liblabels.symbol("ean13", "400638133393")
for scale, unit, dpi, dots in (
    (0.33, "mm", 300, 4),
    (0.33, "mm", 203, 3),
    (0.25, "mm", 203, 2),
    (0.033, "cm", 600, 8),
    (0.01, "in", 300, 3),
    (2, "pt", 144, 4),
    (0.043, "mm", 300, 1),
    (8.5, "mm", 300, 100),
    (4, "px", 300, 4),
):
    picture = symbol.png(scale, unit=unit, dpi=dpi)
    assert picture == symbol.png(dots, dpi=dpi), (scale, unit, dpi)
    image = Image.open(io.BytesIO(picture))
    assert image.width == 113 * dots and round(image.info["dpi"][0]) == round(image.info["dpi"][1]) == dpi
    assert symbol.image(scale, unit=unit, dpi=dpi).size == image.size
for wrong, said in (
    ({"unit": "mm"}, "a scale in mm needs dpi: how many dots of an inch the picture is printed with"),
    ({"unit": "furlong", "dpi": 300}, "unknown unit 'furlong': one of px, mm, cm, in, pt, or none"),
    ({"unit": "mm", "dpi": 300, "scale": 0.04}, "scale is 0.04 mm, which is 0.472441 dots, and has to be 1 to 100"),
    ({"unit": "in", "dpi": 300, "scale": 0.4}, "scale is 0.4 in, which is 120 dots, and has to be 1 to 100"),
    ({"unit": "mm", "dpi": float("nan")}, "scale is 1 mm, which is nan dots, and has to be 1 to 100"),
):
    try:
        symbol.png(**wrong)
    except ValueError as why:
        assert str(why) == said, why
    else:
        raise AssertionError(wrong)
"""
# The image of Pillow is that of the PNG; `show` gives it to the program that shows pictures on a desktop.
SHOWN = (
    LINES
    + """
import io, liblabels, numpy, os, pathlib, time
from PIL import Image
for line in LINES:
    symbol = liblabels.line(line)
    for digits in {False, symbol.symbology != "qr"}:
        image = symbol.image(3, digits)
        wanted = Image.open(io.BytesIO(symbol.png(3, digits=digits)))
        assert image.mode == "1" and numpy.array_equal(numpy.array(image), numpy.array(wanted)), line
    assert numpy.array_equal(numpy.array(liblabels.bitmap_line(line).image()), numpy.array(symbol.image())), line
symbol = liblabels.symbol("ean13", "400638133393")
symbol.show(digits=True)
shown = pathlib.Path("shown.png")
ends = time.monotonic() + 300
while not shown.exists() and time.monotonic() < ends:
    time.sleep(0.05)
assert numpy.array_equal(numpy.array(Image.open(shown)), numpy.array(symbol.image(4, digits=True)))
"""
)
VIEWER = """#!/bin/sh
cp "$1" part.png && mv part.png shown.png
"""
# What a terminal shows is read by zxing-cpp: each character as the dots that Unicode says it has, and light around it.
TERMINAL = (
    LINES
    + """
import contextlib, io, liblabels, numpy, zxingcpp
from PIL import Image
UPPER, LOWER, LEFT, RIGHT = "\u2580", "\u2584", "\u258c", "\u2590"
DOTS = {
    " ": ((0, 0), (0, 0)),
    "\u2588": ((1, 1), (1, 1)),
    UPPER: ((1, 1), (0, 0)),
    LOWER: ((0, 0), (1, 1)),
    LEFT: ((1, 0), (1, 0)),
    RIGHT: ((0, 1), (0, 1)),
}
for line, (name, data) in LINES.items():
    symbol = liblabels.line(line)
    printed = io.StringIO()
    with contextlib.redirect_stdout(printed):
        assert symbol.terminal() is None
    given = io.StringIO()
    symbol.terminal(given)
    assert given.getvalue() == printed.getvalue()
    lines = printed.getvalue().splitlines()
    black_on_white, plain = "\x1b[38;5;16;48;5;231m", "\x1b[0m"
    assert all(text.startswith(black_on_white) and text.endswith(plain) for text in lines), line
    texts = [text.removeprefix(black_on_white).removesuffix(plain) for text in lines]
    dark = numpy.block([[numpy.array(DOTS[character], bool) for character in text] for text in texts])
    is_qr = name == "QRCode"
    width, height = symbol.size()
    assert len(texts[0]) == (width if is_qr else -(-width // 2)), line
    assert len(texts) == (-(-height // 2) if is_qr else -(-height // 4)), line
    shape = (4, 2) if is_qr else (8, 4)  # a character is twice as high as it is wide
    large = numpy.kron(dark, numpy.ones(shape, bool))
    seen = Image.fromarray(numpy.where(large, 0, 255).astype(numpy.uint8))
    found = [(read.format.name, read.text) for read in zxingcpp.read_barcodes(seen)]
    assert found == [(name, data)], (line, found)
"""
)
# The same in PNG, where the module draws the digits: bars are as without, guards are longer by five modules, and each
# digit is in the seven modules of its own, with as many holes as it has in print, and no other.
DRAWN_DIGITS = (
    LINES
    + """
import io, liblabels, numpy, subprocess
from PIL import Image, ImageDraw
HOLES = (1, 0, 0, 0, 0, 0, 1, 0, 2, 1)
def dark_of(png):
    return ~numpy.array(Image.open(io.BytesIO(png)))
def holes_of(dark):
    image = Image.fromarray(numpy.pad(~dark, 1, constant_values=True).astype(numpy.uint8)).copy()
    found = -1  # what is around it is none
    while image.getbbox():
        found += 1
        ImageDraw.floodfill(image, tuple(map(int, numpy.argwhere(numpy.array(image).T == 1)[0])), 0)
    return found
for line, (name, data) in LINES.items():
    symbol = liblabels.line(line)
    of = liblabels.layout(symbol.symbology)
    for scale in (2, 5, 11):
        if not of.digits:
            continue
        plain, png = dark_of(symbol.png(scale)), symbol.png(scale, digits=True)
        dark = dark_of(png)
        height, width = plain.shape
        assert dark.shape == (height + 10 * scale, width) and numpy.array_equal(dark[:height], plain)
        columns = numpy.arange(width) // scale
        guards = plain[0] & numpy.any([(first <= columns) & (columns < last) for first, last in of.guards], 0)
        below = dark[height:]
        for row in below[: 5 * scale]:
            assert (row & guards).sum() == guards.sum()
        below[: 5 * scale] &= ~guards
        assert not below[:scale].any() and not below[-scale:].any()
        drawn = {}
        for first, last, begin, end in of.digits:
            for place in range(first, last):
                middle = begin + end + 7 * (2 * place - first - last + 1)
                left = (middle - 7) * scale // 2
                digit = below[:, left : left + 7 * scale].copy()
                below[:, left : left + 7 * scale] = False
                assert numpy.array_equal(drawn.setdefault(data[place], digit), digit), line
        assert not below.any(), line
        assert len({digit.tobytes() for digit in drawn.values()}) == len(drawn), line
        for digit, dots in drawn.items():
            assert holes_of(dots) == HOLES[int(digit)], (digit, scale)
        words = ["zbarimg", "-q", "--raw", "-Supca.enable", "-"]
        assert data in subprocess.run(words, input=png, capture_output=True).stdout.decode(), (line, scale)
"""
)
# The text below Code 128 in PNG: bars are as without, each character is in the seven modules of its own, in lines of
# ten modules, and has as many holes and pieces as it has in print. A zero among letters has a dot. A control character
# is a frame.
DRAWN_TEXT = """
import io, liblabels, numpy
from PIL import Image, ImageDraw
ONE_HOLE = "ADOPQRabdegopq069#"
TWO_PIECES = '!":;=?ij'
OF_MANY_FORMS = "$%&@"
def dark_of(png):
    return ~numpy.array(Image.open(io.BytesIO(png)))
def pieces_of(light):
    image = Image.fromarray(numpy.pad(light, 1, constant_values=True).astype(numpy.uint8)).copy()
    found = 0
    while image.getbbox():
        found += 1
        ImageDraw.floodfill(image, tuple(map(int, numpy.argwhere(numpy.array(image).T == 1)[0])), 0)
    return found
def fields_of(data, scale, count):
    symbol = liblabels.symbol("code128", data, height=9)
    plain, dark = dark_of(symbol.png(scale)), dark_of(symbol.png(scale, digits=True))
    height, width = plain.shape
    assert numpy.array_equal(dark[:height], plain), data
    below = dark[height:]
    lines = [below[start : start + 10 * scale] for start in range(0, len(below), 10 * scale)]
    assert len(lines) == count, data
    for line, first in zip(lines, range(0, len(data), -(-len(data) // count))):
        assert not line[:scale].any(), data
        text = data[first : first + -(-len(data) // count)]
        for place in range(len(text)):
            left = (width - 7 * scale * len(text)) // 2 + place * 7 * scale
            yield text[place], line[:, left : left + 7 * scale].copy()
            line[:, left : left + 7 * scale] = False
        assert not line.any(), data
for scale in (4, 9):
    forms = dict(fields_of(bytes(range(33, 90)).decode(), scale, 1))
    forms |= dict(fields_of(bytes(range(90, 127)).decode(), scale, 1))
    assert len({form.tobytes() for form in forms.values()}) == len(forms) == 94
    for character, form in forms.items():
        if character not in OF_MANY_FORMS:
            holes = 2 if character in "8B" else int(character in ONE_HOLE)
            light_parts = pieces_of(~form) - 1
            assert light_parts == holes, (character, scale, light_parts)
            pieces = pieces_of(numpy.pad(form, 1)) - 1
            is_dotted = character == "0"
            assert pieces == 1 + (character in TWO_PIECES or is_dotted), (character, scale, pieces)
    assert not [form for character, form in fields_of("  ", scale, 1) if form.any()]
    (_, only_digits), *_ = fields_of("00", scale, 1)
    assert pieces_of(numpy.pad(only_digits, 1)) - 1 == 1
    (_, control), (_, other), (_, letter) = fields_of("\\x01\\x7fa", scale, 1)
    assert numpy.array_equal(control, other) and pieces_of(~control) == 2 and not numpy.array_equal(control, letter)
    digits = dict(fields_of("0123456789" * 8, scale, 2))
    assert all(numpy.array_equal(form, forms[digit]) for digit, form in digits.items() if digit != "0")
"""
# A scale that the module draws is one that the library draws, dot for dot, where it has both; a larger one is read.
SCALES = (
    LINES
    + """
import io, liblabels, subprocess
for line, (name, data) in LINES.items():
    once = liblabels.bitmap_line(line)
    for scale in range(1, 9):
        assert once.enlarged(scale) == liblabels.bitmap_line(line, scale=scale), (line, scale)
    for scale in (9, 40, 100):
        drawn = liblabels.bitmap_line(line, scale=scale)
        found = liblabels.read(drawn)
        assert (found.scale, found.data) == (scale, data.encode()), (line, scale)
    symbol = liblabels.line(line)
    assert symbol.png(40) == liblabels.bitmap_line(line, scale=40).png(), line
    words = ["zbarimg", "-q", "--raw", "-Supca.enable", "-"]
    assert data in subprocess.run(words, input=symbol.png(9), capture_output=True).stdout.decode(), line
for call, given in ((liblabels.draw, ("qr", "x")), (liblabels.draw_line, ("qr x",))):
    try:
        call(*given, scale=9)
    except ValueError as why:
        assert "1 to 8 as labels(1) has it: png, save and bitmap take 100" in str(why), why
    else:
        raise AssertionError(call)
for wrong in (0, 101):
    for call, given in ((liblabels.bitmap, ("qr", "x")), (liblabels.bitmap_line, ("qr x",))):
        try:
            call(*given, scale=wrong)
        except ValueError as why:
            assert str(why) == f"scale is {wrong}, and has to be 1 to 100", why
        else:
            raise AssertionError(wrong)
"""
)


class Pictures(WithLibrary):
    def test_versions(self) -> None:
        """The modules of QR symbols of each size have room, whatever their lowest version."""
        self.run_ok(PYTHON, "-c", SIZES)

    def test_dots(self) -> None:
        self.run_ok(PYTHON, "-c", DOTS)
        for right, wrong in (
            ("255 - byte", "byte"),
            ("(picture.width + 7) // 8", "(picture.width + 8) // 8"),
            ("yield row, first, end\n", "yield row, first, end + 1\n"),
        ):
            module = self.library.changed(("python/liblabels/_pictures.py", right, wrong)) / "python"
            self.assert_fails(*self.with_module(module), "-c", DOTS)

    def test_readers(self) -> None:
        self.run_ok(PYTHON, "-c", READ)
        module = (
            self.library.changed(("python/liblabels/_pictures.py", "M{left + x}", "M{left + x + y % 2}")) / "python"
        )
        self.assert_fails(*self.with_module(module), "-c", READ)

    def test_digits(self) -> None:
        self.run_ok(PYTHON, "-c", DIGITS)
        for file, right, wrong in (
            ("_pictures.py", "(begin + end) / 2", "begin"),
            ("_pictures.py", "html.escape(text.translate(_PICTURES_OF_CONTROLS))", "html.escape(text)"),
            ("_pictures.py", ' xml:space="preserve"', ""),
            ("_layout.py", "int(width / _ROOM_OF_CHARACTER)", "width"),
            ("__init__.py", "left + x in guard", "x in guard"),
            ("__init__.py", "5 * any", "4 * any"),
        ):
            with self.subTest(right):
                module = self.library.changed((f"python/liblabels/{file}", right, wrong)) / "python"
                self.assert_fails(*self.with_module(module), "-c", DIGITS)

    def test_digits_drawn(self) -> None:
        self.run_ok(PYTHON, "-c", DRAWN_DIGITS)
        for file, right, wrong in (
            ("_pictures.py", "_LONGER = 5", "_LONGER = 4"),
            ("_pictures.py", "last & guarded", "last"),
            ("_pictures.py", "(begin + end -", "(begin + end + 2 -"),
            ("_glyphs.py", "1.8, 3.2, 0, 360", "1.8, 3.2, 0, 270"),
            ("_glyphs.py", "1.85, 1.7, 0, 360", "1.85, 1.7, 0, 270"),
        ):
            module = self.library.changed((f"python/liblabels/{file}", right, wrong)) / "python"
            self.assert_fails(*self.with_module(module), "-c", DRAWN_DIGITS)

    def test_text_drawn(self) -> None:
        self.run_ok(PYTHON, "-c", DRAWN_TEXT)
        for file, right, wrong in (
            ("_glyphs.py", '"e": "1555 ', '"e": "'),
            ("_glyphs.py", '"i": "233338 2848 3030"', '"i": "233338 2848"'),
            ("_glyphs.py", '(*_DIGITS[0], _stroke_of("3434"))', "_DIGITS[0]"),
            ("_pictures.py", "has_letters and", "True and"),
            ("_layout.py", "-(-len(text) // count)", "most"),
        ):
            with self.subTest(right):
                module = self.library.changed((f"python/liblabels/{file}", right, wrong)) / "python"
                self.assert_fails(*self.with_module(module), "-c", DRAWN_TEXT)

    def test_borders(self) -> None:
        self.run_ok(PYTHON, "-c", BORDERS)
        module = (
            self.library.changed(("python/liblabels/_pictures.py", "row >> right << new_right", "row << new_right"))
            / "python"
        )
        self.assert_fails(*self.with_module(module), "-c", BORDERS)

    def test_colours(self) -> None:
        self.run_ok(PYTHON, "-c", COLOURS)
        for right, wrong in (
            ("[_OPAQUE, _CLEAR]", "[_CLEAR, _OPAQUE]"),
            ("<path{ink} d=", "<path d="),
            ("{font}{ink}", "{font}"),
        ):
            module = self.library.changed(("python/liblabels/_pictures.py", right, wrong)) / "python"
            self.assert_fails(*self.with_module(module), "-c", COLOURS)

    def test_lengths(self) -> None:
        self.run_ok(PYTHON, "-c", LENGTHS)
        module = self.library.changed(("python/liblabels/_pictures.py", "int(dots + 0.5)", "int(dots)")) / "python"
        self.assert_fails(*self.with_module(module), "-c", LENGTHS)

    def test_shown(self) -> None:
        folder = Path(tempfile.mkdtemp(dir=self.library.folder))
        viewer = folder / "xdg-open"
        viewer.write_text(VIEWER, encoding="utf-8")
        viewer.chmod(0o755)
        with_viewer = ("env", "-C", folder, f"PATH={folder}:{os.environ['PATH']}")
        self.run_ok(*with_viewer, PYTHON, "-c", SHOWN)

    def test_terminal(self) -> None:
        self.run_ok(PYTHON, "-c", TERMINAL)
        for right, wrong in (("rows[1::2])", "rows[::2])"), ("_BARS_OF_A_LINE = 4", "_BARS_OF_A_LINE = 2")):
            module = self.library.changed(("python/liblabels/_pictures.py", right, wrong)) / "python"
            self.assert_fails(*self.with_module(module), "-c", TERMINAL)

    def test_scales(self) -> None:
        self.run_ok(PYTHON, "-c", SCALES)
        for right, wrong in (
            ('"1" * scale', '"1" * (scale - 1) + "0"'),
            ("for _ in range(scale)", "for _ in range(2)"),
        ):
            module = self.library.changed(("python/liblabels/_pictures.py", right, wrong)) / "python"
            self.assert_fails(*self.with_module(module), "-c", SCALES)


if __name__ == "__main__":
    unittest.main()
