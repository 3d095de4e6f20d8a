#!/usr/bin/python3
"""Draws some hundred labels with the program `labels`, and compares them with two third-party programs.

zbarimg reads each label back: it must give the full data, digits with their check digit or all bytes. A reader
corrects errors, so zint draws the labels in which the standards leave no choice, and its modules must be the same: EAN
and UPC; Code 128 data of one code set; QR data of one mode, with its version, level and mask given.

The labels are the same in every run: all five symbologies, every error correction level, mask and QR version from 1 to
10, short data and the longest that fits, control characters, all 256 bytes, with escapes and without, at 2, 3 and 4
pixels a module. For zbarimg there is white above and below, which a linear label lacks.

The last line is `N labels: R read back, S of T as zint draws them; of those read back K of each kind`: symbology,
level, version and mask. Any other label is printed with its line, and the status is then 1, as where there are no
labels. In each run both comparisons are shown wrong cases of each symbology that they have to report: pictures with
one turned module, at both ends of the symbol too, and data that differ in the first or the last byte. Status 2: bad
arguments, no such program, a third-party program missing.
"""

import dataclasses
import itertools
import random
import subprocess
import sys
from typing import Iterator, Sequence

import numpy

import pictures
import sources
from pictures import ALPHANUMERIC, DIGITS, LETTERS, LEVELS, NUMBERS, VERSIONS, Label, Pixels, capacity, pictures_of

# The reader that zbarimg has for each symbology. It reads UPC-A as the EAN-13 of the same bars.
READERS = {"ean13": "ean13", "ean8": "ean8", "upca": "ean13", "code128": "code128", "qr": "qrcode"}
# A label of each symbology, in whose picture and data wrong cases are made.
SHOWN = (
    Label("ean13", b"400638133393", b"4006381333931", 2),
    Label("ean8", b"7351353", b"73513537", 2),
    Label("upca", b"03600029145", b"0036000291452", 2),
    Label("code128", b"WRONG", b"WRONG", 2),
    Label("qr,level=L,min-version=1,mask=0", b"WRONG", b"WRONG", 2),
)


def ean_and_upc(draw: random.Random) -> Iterator[Label]:
    """EAN and UPC labels, each length in turn, with every first digit."""
    for name in NUMBERS:
        for number in range(60 if name == "ean13" else 50):
            digits = pictures.digits_of(draw, name, number)
            full = pictures.with_check_digit(digits)
            data = full if number % 2 else digits
            read = "0" + full if name == "upca" else full
            head = name if number % 5 else f"{name},height={30 + number}"
            yield Label(head, data.encode(), read.encode(), 2 + number % 3, has_no_choice=True)


def code128(draw: random.Random) -> Iterator[Label]:
    """Code 128 labels: digits, printable text, control characters and mixtures of 1 to 80 bytes."""
    alphabets = (
        b"0123456789",
        bytes(range(0x20, 0x7F)),
        bytes(range(0x00, 0x60)),
        bytes(range(0x80)),
        b"0123456789" * 4 + bytes(range(0x80)),
        b"abcdefgh\x01\x02",
        b"ABCDEFGH\x01\x02a",
    )
    lengths = (1, 2, 3, 4, 5, 6, 7, 10, 17, 25, 40, 79, 80)
    for number, (alphabet, length) in enumerate((a, n) for a in alphabets for n in lengths):
        data = bytes(draw.choices(alphabet, k=length))
        is_plain = b"\n" not in data and number % 2 == 0
        yield Label("code128", data, data, 2 + number % 3, not is_plain)


def code128_of_one_set(draw: random.Random) -> Iterator[Label]:
    """Code 128 labels of one code set: B without and with lower case, and C."""
    for number in range(60):
        letters = LETTERS + " !#$%&()*+,-./:;<=>?@" + ("abcdefghijklmnopqrstuvwxyz{|}~`" if number % 3 == 1 else "")
        data = "".join(draw.choices(letters, k=1 + number))
        if number % 3 == 2:
            data = "".join(draw.choices(DIGITS, k=2 * (2 + number // 2)))
        yield Label("code128", data.encode(), data.encode(), 2 + number % 3, has_no_choice=True)


def qr_of_one_mode(draw: random.Random) -> Iterator[Label]:
    """QR labels of one mode: each version with each level and each mask."""
    alphabets = (DIGITS, f"{LETTERS} $%*+-./:", f"{LETTERS.lower()}{pictures.OTHERS}")
    for version, level, mask in itertools.product(VERSIONS, LEVELS, range(8)):
        kind = (version + LEVELS.index(level) + mask) % 3
        length = 1 + draw.randrange(capacity(version, "H", kind))
        data = "".join(draw.choices(alphabets[kind], k=length)).encode()
        head = f"qr,level={level},min-version={version},mask={mask}"
        yield Label(head, data, data, 2 + mask % 3, has_no_choice=True)


def qr_by_capacity(draw: random.Random) -> Iterator[Label]:
    """QR labels that fill versions 1, 5 and 10 to the last character, one mode each."""
    alphabets = (DIGITS, LETTERS, LETTERS.lower())
    for level, (number, version), mode in itertools.product(LEVELS, enumerate((1, 5, 10)), range(3)):
        data = "".join(draw.choices(alphabets[mode], k=capacity(version, level, mode))).encode()
        yield Label(f"qr,level={level}", data, data, 2 + number)


def qr_of_bytes(draw: random.Random) -> Iterator[Label]:
    """QR labels of any bytes: each of the 256, and mixtures with digits and letters."""
    for first in range(0, 256, 64):
        data = bytes(range(first, first + 64))
        yield Label("qr,level=Q", data, data, 3, True)
    for number in range(24):
        parts = [
            bytes(draw.choices(range(256), k=draw.randrange(1, 12))),
            "".join(draw.choices(DIGITS, k=draw.randrange(1, 30))).encode(),
            "".join(draw.choices(ALPHANUMERIC, k=draw.randrange(1, 20))).encode(),
        ]
        draw.shuffle(parts)
        data = b"".join(parts)
        yield Label(f"qr,level={LEVELS[number % 4]}", data, data, 2 + number % 3, True)


def all_labels() -> list[Label]:
    draw = random.Random(18004)
    parts = (ean_and_upc, code128, code128_of_one_set, qr_of_one_mode, qr_by_capacity, qr_of_bytes)
    return [label for part in parts for label in part(draw)]


def reading_of(label: Label, picture: Pixels) -> bytes:
    """The bytes that zbarimg reads in a picture by the reader of this symbology; none where it reads nothing."""
    rows = pictures.gray(picture, 10 * label.scale)
    reader = f"-S{READERS[label.head.split(',')[0]]}.enable"
    command = ["zbarimg", "--nodbus", "--quiet", "-Sdisable", reader, "-Sbinary", "-"]
    ran = subprocess.run(command, input=b"P5\n%d %d\n255\n" % rows.shape[::-1] + rows.tobytes(), capture_output=True)
    # It ends with status 4 where it read nothing.
    if ran.returncode not in (0, 4):
        sys.exit(f"zbarimg ended with status {ran.returncode}:\n{ran.stderr.decode()}")
    return ran.stdout


def readings(program: str, labels: Sequence[Label]) -> Iterator[tuple[Label, bytes]]:
    """Each label, and what is read of it."""
    for scale, escapes in sorted({(label.scale, label.escapes) for label in labels}):
        group = [label for label in labels if (label.scale, label.escapes) == (scale, escapes)]
        options = ["--escapes"] if escapes else []
        for label, picture in zip(group, pictures_of(program, group, "--scale", str(scale), *options)):
            yield label, reading_of(label, picture)


def is_as_zint(label: Label, modules: Pixels) -> bool:
    """Whether each module is that of zint's symbol."""
    return numpy.array_equal(modules, pictures.drawn_by_zint(label.head, label.data.decode()))


def wrong_cases(program: str) -> Iterator[tuple[str, bool]]:
    """Cases of each symbology, wrong ones that the comparisons have to report and right ones that they must not: each
    with whether they do so."""
    for label in SHOWN:
        modules = pictures.modules_of(*pictures_of(program, [label]))
        yield f"{label.head}: the right picture as zint's", is_as_zint(label, modules)
        for name, place in (("first", 0), ("middle", modules.size // 2), ("last", modules.size - 1)):
            is_same = is_as_zint(label, pictures.with_turned(modules, [place]))
            yield f"{label.head}: a picture whose {name} module is turned as zint's", not is_same
        ((_, reading),) = readings(program, [label])
        yield f"{label.head}: the right picture as read back", is_read_back(label, reading)
        for other in pictures.with_other_bytes(label.full):
            is_read = is_read_back(dataclasses.replace(label, full=other), reading)
            yield f"{label.head}: a picture of {label.full!r} as read back as {other!r}", not is_read


def is_read_back(label: Label, reading: bytes) -> bool:
    return reading == label.full


def main() -> int:
    program = sources.program_given(__doc__)
    labels = all_labels()
    with_zint = [label for label in labels if label.has_no_choice]
    pairs = [*zip(with_zint, map(pictures.modules_of, pictures_of(program, with_zint)))]
    same = [label for label, modules in pairs if is_as_zint(label, modules)]
    found = [*readings(program, labels)]
    read = [label for label, reading in found if is_read_back(label, reading)]
    faults = [f"zint draws another symbol: {label}" for label in with_zint if label not in same]
    faults += [
        f"{label.line()!r}: read as {reading!r}" for label, reading in found if not is_read_back(label, reading)
    ]
    last = f"{len(labels)} labels: {len(read)} read back, {len(same)} of {len(with_zint)} as zint draws them"
    last += f"; of those read back {pictures.kinds_of(read) or 'none'}"
    total = sources.sum_of([repr(labels), *(modules.tobytes() for _, modules in pairs)])
    return sources.ended(faults, f"{last}; sum {total}", wrong_cases(program))


if __name__ == "__main__":
    sys.exit(main())
