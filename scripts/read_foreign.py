#!/usr/bin/python3
"""Reads symbols that third-party programs drew by the proved reading rules, and compares each with what was asked for.

zint, segno, qrencode, ZXing and GNU barcode draw the symbols: EAN-13, EAN-8, UPC-A and Code 128, and QR symbols of
each version from 1 to 10, level, mask and mode. They are the same in every run. The crate `reading` reads each of them
in its quiet zone, at 1, 2 or 3 dots a module. It corrects nothing: every module has to be as the rules want it.

A few hundred are damaged too: one to seven modules are turned, in a linear symbol one. These have to be read as the
data or not at all. In each run the comparison is shown wrong cases of each symbology, which it has to report: a symbol
of other data, a damaged one that is read as other data, and one that is not read, before, between and behind right
ones.

The symbols are read by `liblabels.read` of Python, which calls the proved rules: the library is made of what `rt lib
--cpu x86-64` leaves, or is the file of LABELS_LIBRARY. The last line is `N symbols: R read as asked; M damaged: D
data, E nothing`. Any other symbol is printed, and the status is then 1. Status 2: bad arguments, or no library.
"""

import itertools
import random
import re
import sys
from dataclasses import dataclass, replace
from typing import Iterator

import numpy
import segno
import zxingcpp

import pictures
import sources
from pictures import ALPHANUMERIC, DIGITS, LETTERS, LEVELS, NUMBERS, VERSIONS, Pixels, capacity

# The quiet zones of each symbology: left, right, above and below, in modules.
QUIET_ZONES = {
    "ean13": (11, 7, 0, 0),
    "ean8": (7, 7, 0, 0),
    "upca": (9, 9, 0, 0),
    "code128": (10, 10, 0, 0),
    "qr": (4, 4, 4, 4),
}
# What GNU barcode calls a number, and ZXing each symbology.
OF_BARCODE = {"ean13": "ean13", "ean8": "ean8", "upca": "upc", "code128": "code128"}
OF_ZXING = {
    "ean13": zxingcpp.BarcodeFormat.EAN13,
    "ean8": zxingcpp.BarcodeFormat.EAN8,
    "upca": zxingcpp.BarcodeFormat.UPCA,
    "code128": zxingcpp.BarcodeFormat.Code128,
    "qr": zxingcpp.BarcodeFormat.QRCode,
}
PRINTABLE = "".join(map(chr, range(0x20, 0x7F)))
MODES = (("numeric", DIGITS), ("alphanumeric", ALPHANUMERIC), ("byte", f"{LETTERS.lower()}{pictures.OTHERS}"))
WIDTHS = re.compile(r"widths \(space first\): (\S+) -->")


@dataclass(frozen=True)
class Symbol:
    """A symbol: who drew it, its symbology, the data that were asked for, and its rows of modules, 1 where dark."""

    drawer: str
    symbology: str
    data: bytes
    modules: Pixels

    def dots(self, scale: int) -> Pixels:
        """The symbol in its quiet zone, its modules squares of dots."""
        left, right, above, below = QUIET_ZONES[self.symbology]
        framed = numpy.pad(self.modules, ((above, below), (left, right)))
        return framed.repeat(scale, axis=0).repeat(scale, axis=1)

    def told(self, found: bytes | None) -> str:
        read = "not read" if found is None else f"read as {found!r}"
        return f"{self.symbology} of {self.drawer}, {self.data!r}: {read}"


def of_zint(head: str, data: str) -> Symbol:
    return Symbol("zint", head.partition(",")[0], data.encode(), pictures.drawn_by_zint(head, data))


def of_barcode(symbology: str, data: str) -> Symbol:
    """A symbol of GNU barcode, which prints the widths of spaces and bars in turn, the margin first."""
    found = WIDTHS.search(pictures.printed("barcode", "-S", "-n", "-e", OF_BARCODE[symbology], "-b", data))
    if not found:
        sys.exit(f"GNU barcode printed no widths of {data!r}")
    widths = [int(width) for width in found[1]][1:]
    bits = "".join("10"[place % 2] * width for place, width in enumerate(widths))
    return Symbol("GNU barcode", symbology, data.encode(), pictures.modules_in([bits]))


def of_zxing(symbology: str, data: str, level: int = -1) -> Symbol:
    """A symbol of ZXing, one dot a module."""
    dots = numpy.array(zxingcpp.write_barcode(OF_ZXING[symbology], data, 0, 0, 0, level))
    modules = (dots == 0).astype(numpy.uint8)
    return Symbol("ZXing", symbology, data.encode(), modules if symbology == "qr" else modules[:1])


def of_segno(data: str | bytes, version: int, level: str, mode: str, mask: int | None = None) -> Symbol:
    """A symbol of segno, of one mode."""
    made = segno.make_qr(data, level, version, mode, mask, boost_error=False)
    modules = numpy.array([[*row] for row in made.matrix], numpy.uint8)
    return Symbol("segno", "qr", data if isinstance(data, bytes) else data.encode(), modules)


def of_qrencode(data: str, version: int, level: str) -> Symbol:
    """A symbol of qrencode, which prints two characters a module."""
    options = ("-t", "ASCII", "-m", "0", "-v", str(version), "-l", level, "-o", "-")
    rows = [row[::2] for row in pictures.printed("qrencode", *options, "--", data).splitlines()]
    bits = ["".join(str(int(letter == "#")) for letter in row) for row in rows]
    return Symbol("qrencode", "qr", data.encode(), pictures.modules_in(bits))


def numbers(draw: random.Random) -> Iterator[Symbol]:
    """EAN and UPC symbols with every first digit, of three programs."""
    for symbology, number in itertools.product(NUMBERS, range(120)):
        digits = pictures.digits_of(draw, symbology, number)
        full = pictures.with_check_digit(digits)
        for drawn in (of_zint(symbology, digits), of_barcode(symbology, digits), of_zxing(symbology, full)):
            yield replace(drawn, data=full.encode())


def code128(draw: random.Random) -> Iterator[Symbol]:
    """Code 128 symbols of digits, letters and mixtures, of three programs."""
    alphabets = (DIGITS, PRINTABLE, DIGITS * 4 + PRINTABLE, LETTERS)
    for number in range(160):
        data = "".join(draw.choices(alphabets[number % 4], k=1 + number % 40)).strip() or "7"
        yield of_zint("code128", data)
        yield of_barcode("code128", data)
        yield of_zxing("code128", data)


def qr_of_one_mode(draw: random.Random) -> Iterator[Symbol]:
    """QR symbols of each version, level, mask and mode, of two programs."""
    cases = itertools.product(VERSIONS, LEVELS, range(8), enumerate(MODES))
    for version, level, mask, (mode, (name, letters)) in cases:
        data = "".join(draw.choices(letters, k=1 + draw.randrange(capacity(version, level, mode))))
        yield of_segno(data, version, level, name, mask)
        if mode == mask % 3:
            yield of_zint(f"qr,level={level},min-version={version},mask={mask}", data)


def qr_of_mixed_modes(draw: random.Random) -> Iterator[Symbol]:
    """QR symbols of digits, letters and bytes in turn, whose segments the programs choose."""
    for version, level, _ in itertools.product(VERSIONS, LEVELS, range(3)):
        parts = ["".join(draw.choices(letters, k=draw.randrange(1, 4 + 5 * version))) for _, letters in MODES]
        draw.shuffle(parts)
        data = "".join(parts)[: capacity(version, level, 2)]
        yield of_qrencode(data, version, level)
        yield of_zxing("qr", data, 2 * LEVELS.index(level) + 1)


def qr_of_bytes(draw: random.Random) -> Iterator[Symbol]:
    """QR symbols of any bytes."""
    for version, level in itertools.product(VERSIONS, LEVELS):
        data = bytes(draw.choices(range(256), k=capacity(version, level, 2)))
        yield of_segno(data, version, level, "byte")


def all_symbols() -> list[Symbol]:
    draw = random.Random(15417)
    parts = (numbers, code128, qr_of_one_mode, qr_of_mixed_modes, qr_of_bytes)
    return [symbol for part in parts for symbol in part(draw)]


def damaged(symbols: list[Symbol], count: int) -> Iterator[Symbol]:
    """Some of the symbols with modules turned: up to seven of a QR symbol, one of a linear one."""
    draw = random.Random(15420)
    for symbol in draw.sample(symbols, count):
        most = draw.randrange(1, 8) if symbol.symbology == "qr" else 1
        places = draw.sample(range(symbol.modules.size), most)
        yield replace(symbol, modules=pictures.with_turned(symbol.modules, places))


def scaled(symbols: list[Symbol]) -> Iterator[tuple[Symbol, int]]:
    """Each of the symbols, with its dots a module: 1, 2 or 3."""
    return zip(symbols, itertools.cycle((1, 2, 3)))


def readings(symbols: list[Symbol]) -> list[bytes | None]:
    """What each of the symbols is read as; nothing of another symbology or scale."""
    read = sources.library().read
    return [read(symbol.symbology, symbol.dots(scale) != 0, scale) for symbol, scale in scaled(symbols)]


def faults(symbols: list[Symbol], are_damaged: bool) -> list[str]:
    """The symbols that are read otherwise than they should be."""
    found = zip(symbols, readings(symbols))
    return [symbol.told(read) for symbol, read in found if read != symbol.data and not (are_damaged and read is None)]


def wrong_cases(symbol: Symbol) -> Iterator[tuple[str, bool]]:
    """Wrong symbols before, between and behind right ones, each with whether the comparison reports it alone."""
    others = [replace(symbol, data=data) for data in pictures.with_other_bytes(symbol.data)]
    light = replace(symbol, modules=numpy.zeros_like(symbol.modules))
    for other, are_damaged in (*itertools.product(others, (False, True)), (light, False)):
        for place in range(3):
            found = faults([symbol] * place + [other] + [symbol] * (2 - place), are_damaged)
            where = f"number {place} of three{', damaged' if are_damaged else ''}"
            yield f"{where}: {other.told(symbol.data)}", len(found) == 1
    yield "a damaged symbol that is not read, which is right", not faults([light], True)


def main() -> int:
    sources.parser_of(__doc__).parse_args()
    symbols = all_symbols()
    turned = [*damaged(symbols, 450)]
    wrong, torn = faults(symbols, False), faults(turned, True)
    one_of_each = {symbol.symbology: symbol for symbol in symbols}.values()
    cases = [case for symbol in one_of_each for case in wrong_cases(symbol)]
    nothing = readings(turned).count(None)
    last = f"{len(symbols)} symbols: {len(symbols) - len(wrong)} read as asked; {len(turned)} damaged: "
    looked_at = (
        part for symbol, scale in scaled([*symbols, *turned]) for part in (symbol.data, symbol.dots(scale).tobytes())
    )
    last += f"{len(turned) - len(torn) - nothing} data, {nothing} nothing; sum {sources.sum_of(looked_at)}"
    return sources.ended([*wrong, *torn], last, cases)


if __name__ == "__main__":
    sys.exit(main())
