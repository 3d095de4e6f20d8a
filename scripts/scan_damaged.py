#!/usr/bin/python3
"""Damages labels of the program `labels`, and lets two third-party scanners read them: zbar and zxing-cpp.

The proofs say what the standards' reading rules make of a damaged label: its full data or nothing. This step looks at
what third-party scanners make of it. Each label is read as drawn; turned by a quarter, a half and three
quarters, and in a mirror; and damaged at random, by a fixed seed, up to what the proofs allow:

- modules turned (dark for light), as many as the limit of the symbology: the same ones in each row of a bar code, or
  other ones in each row; anywhere in a QR symbol
- wrong pixels, one fewer than a module more would have

A scanner may read the full data or nothing. Other data is a misreading; each is printed, and the status is then 1.
There is one exception. Where whole modules of a bar code are turned, the reading rules of the standards read nothing,
but these scanners guess: they take widths that no character has for the nearest one, and look for no quiet zone. Such
guesses are printed and counted apart, and scripts/counts.txt has their number. In each run labels of each symbology
are shown in place of others that differ from them at one end, and an EAN-13 in place of one from which two modules
tell it apart, as the worked values say; the run fails unless both scanners read them as the other one and are caught.

The last line is `N damaged labels, read twice: F as drawn, U not, M misread, G of S guessed; of K of each kind`:
symbology, level and version. Status 2: bad arguments, no such program.
"""

import random
import sys
from collections import Counter
from dataclasses import replace
from typing import Iterator

import numpy
import zbar
import zxingcpp
from segno import consts

import sources
from compare_symbols import code128_of_one_set, ean_and_upc, qr_of_one_mode
from pictures import Label, Pixels, box_of, gray, kinds_of, pictures_of, with_check_digit

SEED = 15417
SCALE = 3
# White around a picture, in pixels.
MARGIN = 10 * SCALE
# One in how many labels is damaged: compare_symbols.py draws each version and level of QR with eight masks.
EACH = 8
# How many modules may be turned in each row of a bar code, and in a QR symbol.
TURNED_IN_A_ROW = {"ean13": 1, "ean8": 3, "upca": 3, "code128": 1}
MOST_TURNED_IN_QR = 13
SCANNERS = ("zbar", "zxing-cpp")
# Labels, and others that must not pass as them: their first or last characters differ.
OTHERS = (
    ("ean13", "243130913525", ("745230913525", "243130913526")),
    ("ean8", "7351353", ("1351353", "7351354")),
    ("upca", "03600029145", ("13600029145", "03600029146")),
    ("code128", "LOT 7", ("ROT 7", "LOT 8")),
    ("qr,level=L,min-version=1", "LOT 7", ("ROT 7", "LOT 8")),
)


class Picture:
    """A label as drawn: its pixels, 1 where dark, where its symbol is in them, and how many modules may be turned."""

    def __init__(self, label: Label, pixels: Pixels) -> None:
        self.label = label
        self.pixels = pixels
        left, top, right, bottom = box_of(pixels)
        self.symbol = slice(top, bottom), slice(left, right)
        symbology, *settings = label.head.split(",")
        self.is_qr = symbology == "qr"
        if self.is_qr:
            level, version, *_ = (setting.partition("=")[2] for setting in settings)
            block = consts.ECC[int(version)][consts.ERROR_MAPPING[level]][0]
            self.limit = min(MOST_TURNED_IN_QR, block.num_total - block.num_data)
        else:
            self.limit = TURNED_IN_A_ROW[symbology]

    def no_modules(self) -> Pixels:
        """The rows of modules, of which none is to be turned."""
        return numpy.zeros_like(self.pixels[self.symbol][::SCALE, ::SCALE])

    def turned(self, modules: Pixels) -> Pixels:
        """The pixels with the modules turned that are 1 here."""
        pixels = self.pixels.copy()
        pixels[self.symbol] ^= modules.repeat(SCALE, 0).repeat(SCALE, 1)
        return pixels


def some_labels() -> list[Label]:
    """Labels that compare_symbols.py draws, one in EACH, at one scale: of QR of each version and level."""
    draw = random.Random(SEED)
    parts = (*ean_and_upc(draw), *code128_of_one_set(draw), *qr_of_one_mode(draw))
    return [replace(label, scale=SCALE) for label in parts][::EACH]


def pictures(program: str, labels: list[Label]) -> Iterator[Picture]:
    """The labels as the program draws them."""
    for label, pixels in zip(labels, pictures_of(program, labels, "--scale", str(SCALE))):
        yield Picture(label, pixels)


def turn_modules(picture: Picture, draw: random.Random, count: int) -> Pixels:
    """Turns modules: of a bar code in all its rows, of a QR symbol anywhere."""
    modules = picture.no_modules()
    if picture.is_qr:
        modules.flat[draw.sample(range(modules.size), count)] = 1
    else:
        modules[:, draw.sample(range(len(modules[0])), count)] = 1
    return picture.turned(modules)


def turn_in_each_row(picture: Picture, draw: random.Random, count: int) -> Pixels:
    """Turns modules of a bar code, other ones in each row of modules."""
    modules = picture.no_modules()
    for row in modules:
        row[draw.sample(range(len(row)), count)] = 1
    return picture.turned(modules)


def turn_pixels(picture: Picture, draw: random.Random, count: int) -> Pixels:
    """Turns pixels anywhere in the picture."""
    pixels = picture.pixels.copy()
    pixels.flat[draw.sample(range(pixels.size), count)] ^= 1
    return pixels


def positions(pixels: Pixels) -> Iterator[Pixels]:
    """The picture turned by a quarter, a half and three quarters, and each of the four in a mirror."""
    for quarters in range(1, 5):
        turned = numpy.rot90(pixels, -quarters)
        yield turned
        yield numpy.fliplr(turned)


def within(picture: Picture, draw: random.Random) -> Iterator[tuple[Pixels, bool]]:
    """What is damaged up to the limits, and whether the reading rules of the standard read nothing of it."""
    limit = picture.limit
    for count in sorted({1, (limit + 1) // 2, limit}):
        yield turn_modules(picture, draw, count), not picture.is_qr
    pixels_of_a_module = SCALE * (SCALE if picture.is_qr else len(picture.pixels))
    yield turn_pixels(picture, draw, (limit + 1) * pixels_of_a_module - 1), False
    if not picture.is_qr:
        yield turn_in_each_row(picture, draw, limit), True


class Scanners:
    """zbar and zxing-cpp, each set to all five symbologies, and what they made of labels."""

    def __init__(self) -> None:
        self.zbar = zbar.ImageScanner()
        self.zbar.parse_config("disable")
        for name in ("ean13", "ean8", "upca", "code128", "qrcode"):
            self.zbar.parse_config(f"{name}.enable")
        kinds = zxingcpp.BarcodeFormat
        self.formats = kinds.EAN13 | kinds.EAN8 | kinds.UPCA | kinds.Code128 | kinds.QRCode

    def read(self, pixels: Pixels) -> tuple[set[bytes], set[bytes]]:
        """What each scanner reads in a picture, with white around it."""
        grays = gray(pixels, MARGIN, MARGIN)
        image = zbar.Image(grays.shape[1], grays.shape[0], "Y800", grays.tobytes())
        self.zbar.scan(image)
        found = zxingcpp.read_barcode(grays, formats=self.formats)
        return {symbol.data.encode() for symbol in image}, {found.bytes} if found else set()

    def scan(self, picture: Picture, pixels: Pixels, is_guess: bool = False, is_shown: bool = True) -> list[str]:
        """What each scanner made of a picture: `read`, `unread`, or for other data `misread`, and `guessed` where the
        reading rules of the standard read nothing; such data is shown."""
        results, wrong = [], "guessed" if is_guess else "misread"
        for scanner, found in zip(SCANNERS, self.read(pixels)):
            is_right = {*map(plain, found)} == {plain(picture.label.full)}
            if found and not is_right and is_shown:
                print(f"{picture.label.line()!r}: {scanner} {wrong} {sorted(found)!r}")
            if found:
                results.append("read" if is_right else wrong)
            else:
                results.append("unread")
        return results

    def wrong_cases(self, program: str) -> Iterator[tuple[str, bool]]:
        """Pictures of labels in place of those of others, each with whether both scanners are caught."""
        for head, data, others in OTHERS:
            full = [with_check_digit(text) if text.isdigit() else text for text in (data, *others)]
            first, *rest = pictures(program, [Label(head, text.encode(), text.encode(), SCALE) for text in full])
            for other in rest:
                for label, drawn in ((first, other), (other, first)):
                    found = self.scan(label, drawn.pixels, is_shown=False)
                    yield f"{drawn.label.line()!r} as {label.label.line()!r}", found == ["misread"] * len(SCANNERS)


def plain(data: bytes) -> bytes:
    """Data in which the EAN-13 of a UPC-A symbol, which has the same bars, is the UPC-A."""
    return data[1:] if len(data) == 13 and data.isdigit() and data.startswith(b"0") else data


def main() -> int:
    program = sources.program_given(__doc__)
    draw, scanners = random.Random(SEED), Scanners()
    labels = some_labels()
    cases, faults = [*scanners.wrong_cases(program)], list[str]()
    guesses, found, looked_at = 0, Counter[str](), list[str]()
    for picture in pictures(program, labels):
        if "read" not in scanners.scan(picture, picture.pixels):
            faults.append(f"{picture.label.line()!r} is read by no scanner as it is drawn")
        for pixels, is_guess in [*((turned, False) for turned in positions(picture.pixels)), *within(picture, draw)]:
            found.update(scanners.scan(picture, pixels, is_guess))
            looked_at.append(sources.sum_of([repr(picture.label), pixels.tobytes()]))
            guesses += is_guess
    faults += [f"{found['misread']} damaged labels are read as other data"] if found["misread"] else []
    faults += [] if found["read"] else ["no damaged label is read"]
    counts = f"{found['read']} as drawn, {found['unread']} not, {found['misread']} misread, "
    counts += f"{found['guessed']} of {guesses} guessed; of {kinds_of(labels)}; sum {sources.sum_of(looked_at)}"
    return sources.ended(faults, f"{found.total() // len(SCANNERS)} damaged labels, read twice: {counts}", cases)


if __name__ == "__main__":
    sys.exit(main())
