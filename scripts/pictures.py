"""Labels, the pictures that the program `labels` draws of them, and the modules of these and of zint's symbols."""

import random
import subprocess
import sys
from collections import Counter
from dataclasses import dataclass
from typing import Iterable

import numpy
from numpy.typing import NDArray
from segno import consts

Pixels = NDArray[numpy.uint8]
DIGITS = "0123456789"
LETTERS = "ABCDEFGHIJKLMNOPQRSTUVWXYZ"
ALPHANUMERIC = f"{DIGITS}{LETTERS} $%*+-./:"
OTHERS = "!#&()<=>?@[]_{|}~"
LEVELS = "LMQH"
VERSIONS = range(1, 11)
# The digits of a number without its check digit, and what zint calls each symbology.
NUMBERS = {"ean13": 12, "ean8": 7, "upca": 11}
OF_ZINT = {"ean13": "EANX", "ean8": "EANX", "upca": "UPCA", "code128": "CODE128", "qr": "QRCODE"}
# Of digits, alphanumeric characters and bytes: how many of them take how many bits, and the bits of their count in
# versions 1 to 9 and in version 10 (ISO/IEC 18004, clause 7.4).
MODES = ((3, 10, 10, 12), (2, 11, 9, 11), (1, 8, 8, 16))
MODE_BITS = 4


@dataclass(frozen=True)
class Label:
    """One label: its line's head, the data, what a reader must return, how the run is set, and whether the standards
    leave no choice, so that zint's symbol is the same."""

    head: str
    data: bytes
    full: bytes
    scale: int
    escapes: bool = False
    has_no_choice: bool = False

    def line(self) -> bytes:
        return self.head.encode() + b" " + (escaped(self.data) if self.escapes else self.data) + b"\n"


def kinds_of(labels: Iterable[Label]) -> str:
    """How many labels there are of each symbology, level, version and mask, as their heads ask for them."""
    found: Counter[str] = Counter()
    for label in labels:
        symbology, *settings = label.head.split(",")
        kinds = [symbology, *(setting for setting in settings if not setting.startswith("height="))]
        found.update(kind.replace("min-version=", "version ").replace("=", " ") for kind in kinds)
    return ", ".join(f"{found[kind]} {kind}" for kind in sorted(found))


def escaped(data: bytes) -> bytes:
    """The data as units of `--escapes`, in each of their forms."""
    units = []
    for place, byte in enumerate(data):
        if byte == 0x5C:
            units.append(b"\\\\")
        elif byte == 0x0A and place % 2 == 0:
            units.append(b"\\n")
        elif byte < 0x20 or byte >= 0x7F:
            units.append((b"\\x%02x" if place % 3 else b"\\x%02X") % byte)
        else:
            units.append(bytes([byte]))
    return b"".join(units)


def with_check_digit(digits: str) -> str:
    """The digits and their check digit (ISO/IEC 15420)."""
    total = sum(int(digit) * (3 if place % 2 == 0 else 1) for place, digit in enumerate(reversed(digits)))
    return digits + str(-total % 10)


def digits_of(draw: random.Random, symbology: str, number: int) -> str:
    """Digits of a symbology without their check digit, with every first digit in turn."""
    return str(number % 10) + "".join(draw.choices(DIGITS, k=NUMBERS[symbology] - 1))


def capacity(version: int, level: str, mode: int) -> int:
    """The most characters of one mode that a QR symbol holds."""
    characters, bits, *bits_of_count = MODES[mode]
    room = consts.SYMBOL_CAPACITY[version][consts.ERROR_MAPPING[level]] - MODE_BITS - bits_of_count[version == 10]
    return int(room * characters // bits)


def with_other_bytes(data: bytes) -> tuple[bytes, bytes, bytes]:
    """Data with another first byte, with another last one, and without the last one."""
    return bytes([data[0] ^ 1]) + data[1:], data[:-1] + bytes([data[-1] ^ 1]), data[:-1]


def pictures_of(program: str, labels: list[Label], *options: str) -> list[Pixels]:
    """The pixels of the pictures of a run over these labels, 1 where dark: its output is cut before each line `P1`."""
    lines = b"".join(label.line() for label in labels)
    ran = subprocess.run([program, *options], input=lines, capture_output=True)
    pictures = [pixels_of(text) for text in ran.stdout.split(b"P1\n")[1:]]
    if ran.returncode != 0 or len(pictures) != len(labels):
        found = f"status {ran.returncode} and {len(pictures)} pictures"
        sys.exit(f"{len(labels)} labels gave {found}\n{ran.stderr.decode()}")
    return pictures


def pixels_of(text: bytes) -> Pixels:
    """The pixels of a plain PBM without its first line."""
    header, _, digits = text.partition(b"\n")
    width, height = map(int, header.split())
    return numpy.frombuffer(digits.replace(b"\n", b""), numpy.uint8).reshape(height, width) & numpy.uint8(1)


def box_of(pixels: Pixels) -> tuple[int, int, int, int]:
    """Where the dark pixels of a picture begin and end: left, top, right, bottom."""
    columns, rows = pixels.any(axis=0).nonzero()[0], pixels.any(axis=1).nonzero()[0]
    return int(columns[0]), int(rows[0]), int(columns[-1]) + 1, int(rows[-1]) + 1


def gray(pixels: Pixels, above: int, beside: int = 0) -> Pixels:
    """A picture in grays from 0 to 255, with white above and below it and at its sides."""
    return numpy.where(numpy.pad(pixels, ((above, above), (beside, beside))), numpy.uint8(0), numpy.uint8(255))


def modules_of(pixels: Pixels) -> Pixels:
    """The modules of a picture at one pixel a module, without its quiet zone, of bars one row."""
    left, top, right, bottom = box_of(pixels)
    symbol = pixels[top:bottom, left:right]
    return symbol[:1] if (symbol == symbol[0]).all() else symbol


def with_turned(modules: Pixels, places: Iterable[int]) -> Pixels:
    """A copy of modules of which some are turned, dark for light, by their numbers."""
    turned = modules.copy()
    turned.flat[[*places]] ^= numpy.uint8(1)
    return turned


# ---- other programs


def printed(*command: str) -> str:
    """What a program prints. Stops where it fails or is not there."""
    try:
        return subprocess.run(command, capture_output=True, encoding="utf-8", check=True).stdout
    except (OSError, subprocess.CalledProcessError) as fault:
        print(f"{' '.join(command)}: {fault}", file=sys.stderr)
        sys.exit(2)


def modules_in(rows: Iterable[str]) -> Pixels:
    """The modules of rows of 0 and 1."""
    return numpy.array([[int(bit) for bit in row] for row in rows], numpy.uint8)


def drawn_by_zint(head: str, data: str) -> Pixels:
    """The modules of zint's symbol for a line, of bars one row: it adds the check digit, and prints each row in
    hexadecimal digits, with zeros after it. The head of a QR symbol has its level, version and mask."""
    symbology, *settings = head.split(",")
    options = ["-b", OF_ZINT[symbology]]
    if symbology == "qr":
        level, version, mask = (setting.partition("=")[2] for setting in settings)
        options += [f"--secure={LEVELS.index(level) + 1}", f"--vers={version}", f"--mask={mask}"]
    rows = printed("zint", "--dump", *options, "-d", data[: NUMBERS.get(symbology)]).splitlines()
    bits = [bin(int("1" + row.replace(" ", ""), 16))[3:] for row in rows]
    side = len(bits) if symbology == "qr" else len(bits[0].rstrip("0"))
    return modules_in(row[:side] for row in bits)
