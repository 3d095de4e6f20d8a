"""Dots read back by the Python module: what is drawn, in each symbology, images of each kind, and wrong ones."""

import unittest

from support import PYTHON, WithLibrary

# What each symbology says of its data: EAN and UPC with the check digit, which GS1's rule gives.
DRAWN = """
import liblabels
DRAWN = {
    ("ean13", "400638133393"): b"4006381333931",
    ("ean8", "7351353"): b"73513537",
    ("upca", "03600029145"): b"036000291452",
    ("code128", "LOT-1/x"): b"LOT-1/x",
    ("code128", "0123456789" * 8): b"0123456789" * 8,
    ("qr", "HELLO"): b"HELLO",
    ("qr", "gr\\u00fcn"): b"gr\\xc3\\xbcn",
    ("qr", b"\\0\\n\\xff"): b"\\0\\n\\xff",
}
"""
# Each dot of the smallest pictures is turned, and some dots of the others.
READ = (
    DRAWN
    + """
def turned(picture, place):
    head, size, dots = picture.split(b"\\n", 2)
    dots = bytearray(dots.replace(b"\\n", b""))
    dots[place] ^= 1
    return b"%s\\n%s\\n%s" % (head, size, dots), len(dots)
for (symbology, data), full in DRAWN.items():
    for scale in (1, 2, 3, 4):
        for height in (1, 7):
            picture = liblabels.draw(symbology, data, scale=scale, height=height)
            found = {other: liblabels.read(other, picture) for other in liblabels.SYMBOLOGIES}
            assert found.pop(symbology) == full, (symbology, data, scale)
            assert set(found.values()) == {None}, (symbology, data, scale, found)
            assert liblabels.read(picture) == liblabels.Reading(symbology, scale, 0, full), (symbology, data, scale)
            assert liblabels.read(symbology, picture, scale) == full
            assert liblabels.read(symbology, picture, scale + 1) is None
            _, count = turned(picture, 0)
            for place in range(0, count, 1 if scale == height == 1 else 997):
                changed, _ = turned(picture, place)
                assert liblabels.read(changed) is None, (symbology, scale, place)
                assert liblabels.read(symbology, changed, scale) is None, (symbology, scale, place)
# Version 3 has seven remainder modules, the last of the walk; ISO/IEC 18004, table 1.
picture = liblabels.draw("qr", "https://example.com/article/000123")
unseen = [liblabels.read("qr", turned(picture, place)[0]) for place in range(37 * 37)]
assert [data for data in unseen if data is not None] == 7 * [b"https://example.com/article/000123"]
for version in range(1, 11):
    for level in liblabels.LEVELS:
        picture = liblabels.draw("qr", "abc", scale=2, level=level, min_version=version)
        assert liblabels.read("qr", picture) == b"abc", (version, level)
assert liblabels.read("qr", liblabels.draw("qr", 652 * "7", level="L")) == 652 * b"7"
"""
)
# The same dots as truth values that are dark or light, as grey, as images, as a bitmap, and as files of each kind and
# their names; and grey with light and dark exchanged, and dots with a margin too many, which are not read.
IMAGES = (
    DRAWN
    + """
import io, itertools, numpy, pathlib, tempfile
from PIL import Image
kept = tempfile.TemporaryDirectory()
folder = pathlib.Path(kept.name)
for ((symbology, data), full), scale in itertools.product(DRAWN.items(), (3, 8)):
    bitmap = liblabels.bitmap(symbology, data, scale=scale, height=9)
    picture = Image.frombytes("1", (bitmap.width, bitmap.height), bitmap.bits, "raw", "1;I")
    light = numpy.array(picture)
    grey = numpy.where(light, 128, 127).astype(numpy.uint8)
    binary = b"P4 # dots\\n%d %d\\n%s" % (bitmap.width, bitmap.height, bitmap.bits)
    file = io.BytesIO()
    picture.save(file, "ppm")
    plain = liblabels.draw(symbology, data, scale=scale, height=9)
    by_column = numpy.asfortranarray(~light)
    truths = (~light, light, light.astype(numpy.uint8), (~light).astype(numpy.uint8), numpy.asarray(picture))
    arrays = (*truths, grey, by_column, (~light)[::-1][::-1])
    images = (picture, picture.convert("L"), picture.convert("P"), picture.convert("RGB"), Image.fromarray(grey))
    # A palette of white and black; and all black, seen through where it is light: on paper that is white.
    palette = Image.fromarray((~light).astype(numpy.uint8), "P")
    palette.putpalette([255, 255, 255, 0, 0, 0])
    clear = Image.new("RGBA", picture.size)
    clear.putalpha(Image.fromarray(255 - 255 * light.astype(numpy.uint8)))
    images += (palette, clear, clear.convert("LA"))
    black = palette.copy()
    black.putpalette([0, 0, 0, 0, 0, 0])
    png = io.BytesIO()
    black.save(png, "png", transparency=bytes([0, 255]))
    for name, dots in (("dots.png", bitmap.png()), ("dots.pbm", plain)):
        (folder / name).write_bytes(dots)
    files = (binary, file.getvalue(), plain, bytearray(plain), bitmap.png(), png.getvalue())
    names = (*folder.iterdir(), *map(str, folder.iterdir()))
    for image in (*arrays, *images, *files, bitmap, *names):
        assert liblabels.read(image) == liblabels.Reading(symbology, scale, 0, full), (symbology, type(image))
        assert liblabels.read(symbology, image) == full, (symbology, type(image))
        assert liblabels.read(symbology, image, scale) == full, (symbology, type(image))
        assert liblabels.read(symbology, image, numpy.int64(scale)) == full, (symbology, type(image))
    for image in (255 - grey, numpy.pad(~light, 3), (~light)[:, 1:], (~light)[:, :0], (~light)[:0]):
        assert liblabels.read(image) is None, (symbology, type(image))
    # Turned against the clock, and read after as many turns with it. A mirror turns bars by half a turn.
    for turns in (1, 2, 3):
        turned = numpy.rot90(~light, turns)
        assert liblabels.read(turned) == liblabels.Reading(symbology, scale, turns, full), (symbology, turns)
        assert liblabels.read(symbology, turned) is None
    mirrored = liblabels.read((~light)[:, ::-1])
    assert mirrored == (None if symbology == "qr" else liblabels.Reading(symbology, scale, 2, full)), symbology
"""
)
# Bars with their digits or text below, as they are drawn, in each direction; and each dot of the smallest turned.
WITH_TEXT = (
    DRAWN
    + """
import io, numpy
from PIL import Image
del DRAWN["qr", "HELLO"], DRAWN["qr", "gr\\u00fcn"], DRAWN["qr", b"\\0\\n\\xff"]
DRAWN["code128", b"a\\0 b\\x7f"] = b"a\\0 b\\x7f"
for (symbology, data), full in DRAWN.items():
    for scale, height in ((1, 1), (2, 50), (9, 3)):
        png = liblabels.symbol(symbology, data, height=height).png(scale, digits=True)
        light = numpy.array(Image.open(io.BytesIO(png)))
        assert liblabels.read(png) == liblabels.Reading(symbology, scale, 0, full), (symbology, scale)
        assert liblabels.read(symbology, png, scale) == full
        for turns in (1, 2, 3):
            turned = numpy.rot90(~light, turns)
            assert liblabels.read(turned) == liblabels.Reading(symbology, scale, turns, full), (symbology, turns)
        places = range(0, light.size, 1 if scale == 1 else 997)
        for place in places:
            light.flat[place] ^= True
            assert liblabels.read(~light) is None, (symbology, scale, place)
            light.flat[place] ^= True
        for other in (light[:-1], light[: -10 * scale - 1], numpy.pad(light, ((0, 1), (0, 0)), constant_values=True)):
            assert liblabels.read(~other) is None, (symbology, scale, other.shape)
codes = [liblabels.symbol("ean8", data).png(2, digits=True) for data in ("7351353", "1234567")]
first, second = (numpy.array(Image.open(io.BytesIO(png))) for png in codes)
assert liblabels.read(~numpy.vstack([first[:100], second[100:]])) is None
"""
)
WRONG = """
import liblabels, numpy, pathlib
from PIL import Image
truths = numpy.zeros((3, 3), bool)
for error, said, symbology, image, scale in (
    (ValueError, "unknown symbology", "pdf417", truths, None),
    (ValueError, "scale is 0", "qr", truths, 0),
    (ValueError, "scale is 4294967297", "qr", truths, 2**32 + 1),
    (ValueError, "not bool of 1", "qr", numpy.zeros(9, bool), None),
    (ValueError, "not float64 of 2", "qr", numpy.zeros((3, 3)), None),
    (ValueError, "not uint8 of 3", "qr", numpy.zeros((3, 3, 3), numpy.uint8), None),
    (ValueError, "mode of an image is CMYK", "qr", Image.new("CMYK", (3, 3)), None),
    (ValueError, "have to be PNG, or PBM", "qr", b"P5\\n1 1\\n255\\n\\0", None),
    (ValueError, "have to be PNG, or PBM", "qr", b"", None),
    (ValueError, "has to have 6 bytes of them, not 5", "qr", liblabels.Bitmap(9, 3, b"12345"), None),
    (TypeError, "not int", "qr", liblabels.Bitmap(9, 3, 27), None),
    (OSError, "cannot identify", "qr", b"\\x89PNG\\r\\n\\x1a\\n", None),
    (OSError, "No such file", "qr", pathlib.Path("no such file"), None),
    (ValueError, "as many digits 0 and 1", "qr", b"P1\\n2 2\\n011\\n", None),
    (ValueError, "as many digits 0 and 1", "qr", b"P1\\n2 2\\n0112\\n", None),
    (ValueError, "has to have 2 bytes of them, not 3", "qr", b"P4\\n2 2\\n123", None),
    (OSError, "No such file", "qr", "no such file", None),
    (OSError, "No such file", "no such file", None, None),
    (TypeError, "a picture has to be the name or the bytes of a file", "qr", 3, None),
):
    try:
        liblabels.read(symbology, image, scale)
    except error as why:
        assert said in str(why), why
    else:
        raise AssertionError(said)
"""
# Wrong texts of the module, and what takes their place.
MUTANTS = (
    (READ, "out.raw[: answer.length]", "out.value"),
    (READ, "not in (None, found.scale)", "is None"),
    (READ, "found.symbology != symbology", "found.symbology is None"),
    (IMAGES, "found.turns or found", "found"),
    (IMAGES, "found.turns, out", "0, out"),
    (IMAGES, "grey < _FIRST_LIGHT", "grey <= _FIRST_LIGHT"),
    (IMAGES, "_DARK = 1", "_DARK = 0"),
    (IMAGES, ' and "transparency" not in image.info', ""),
    (IMAGES, '"A" not in image.mode and ', ""),
    (IMAGES, "_WHITE - opaque for", "opaque for"),
    (IMAGES, "text.startswith(PNG_HEAD)", "not text"),
    (IMAGES, "_FIRST_LIGHT = 128", "_FIRST_LIGHT = 127"),
    (IMAGES, "height, width = array.shape", "width, height = array.shape"),
    (IMAGES, "return (width + 7) // 8", "return (width + 8) // 8"),
    (WITH_TEXT, "below) == picture", "below).width == picture.width"),
    (WITH_TEXT, "turned(bits, reading.turns), high", "turned(bits, 0), high"),
    (WITH_TEXT, "width if reading.turns % 2 else height", "height"),
    (WITH_TEXT, "yield 0, height - bottom, width, bottom", "pass"),
    (WITH_TEXT, "yield 0, 0, left, height", "pass"),
    (WITH_TEXT, "yield width - right, 0, right, height", "pass"),
    (WRONG, "digits.translate", "digits[:3].translate"),
    (IMAGES, "not dots.startswith", "dots.startswith"),
    (IMAGES, "not dots.translate(None", "'bool' == kind and not dots.translate(None"),
)


class Reading(WithLibrary):
    def test_what_is_drawn_is_read(self) -> None:
        self.run_ok(PYTHON, "-c", READ)

    def test_images(self) -> None:
        self.run_ok(PYTHON, "-c", IMAGES)

    def test_with_text(self) -> None:
        self.run_ok(PYTHON, "-c", WITH_TEXT)

    def test_wrong_images(self) -> None:
        self.run_ok(PYTHON, "-c", WRONG)

    def test_wrong_modules_are_seen(self) -> None:
        for test, old, new in MUTANTS:
            with self.subTest(new):
                module = self.library.changed(("python/liblabels/_reading.py", old, new)) / "python"
                self.assert_fails(*self.with_module(module), "-c", test)


if __name__ == "__main__":
    unittest.main()
