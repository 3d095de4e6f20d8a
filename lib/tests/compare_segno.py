"""Compares QR symbols of liblabels with those that segno draws of the same segments: compare_segno.py

segno is told the segments, the version, the level and the mask, and chooses nothing. What liblabels has to choose is
found here by the slow form of each rule: the mask by the penalty of each, the segments by listing all. PYTHONPATH and
LABELS_LIBRARY name the module and the library. The last line counts; the status is 1 where something differs, or where
a symbol with one turned module does not.
"""

import re
import sys
from collections.abc import Iterator
from dataclasses import dataclass
from functools import cache
from itertools import product

import liblabels
from segno import consts, encoder
from segno.encoder import Buffer

NUMERIC, ALPHANUMERIC, BYTE = consts.MODE_NUMERIC, consts.MODE_ALPHANUMERIC, consts.MODE_BYTE
CHARACTERS = {NUMERIC: rb"[0-9]+", ALPHANUMERIC: rb"[0-9A-Z $%*+./:-]+", BYTE: rb"(?s).+"}
# ISO/IEC 18004, table 3: the bits of a count in versions 1 to 9, and in version 10.
BITS_OF_COUNT = {NUMERIC: (10, 12), ALPHANUMERIC: (9, 11), BYTE: (8, 16)}
FINDERS = re.compile("(?=10111010000|00001011101)")
RUNS = re.compile("0{5,}|1{5,}")
LEVELS = {"L": consts.ERROR_LEVEL_L, "M": consts.ERROR_LEVEL_M, "Q": consts.ERROR_LEVEL_Q, "H": consts.ERROR_LEVEL_H}
Segments = tuple[tuple[bytes, int], ...]


def of_bytes(data: bytes) -> Segments:
    return ((data, BYTE),)


@dataclass(frozen=True)
class Row:
    """Data, and the version and the segments that it has at a level, from a smallest version on."""

    data: bytes
    level: str
    version: int
    segments: Segments
    min_version: int = 1


A = b"a"
# Where each mode begins and ends, ties, and what just fits, of ISO/IEC 18004, tables 3 and 7.
ROWS = (
    Row(b"a123456789", "H", 1, ((A, BYTE), (b"123456789", NUMERIC))),
    Row(b"ab1234567890cd", "Q", 1, ((b"ab", BYTE), (b"1234567890", NUMERIC), (b"cd", BYTE))),
    Row(b"a123", "M", 1, of_bytes(b"a123")),
    Row(b"a12b", "M", 1, of_bytes(b"a12b")),
    Row(A + 644 * b"1", "L", 10, ((A, BYTE), (644 * b"1", NUMERIC))),
    Row(41 * b"1", "L", 1, ((41 * b"1", NUMERIC),)),
    Row(42 * b"1", "L", 2, ((42 * b"1", NUMERIC),)),
    Row(652 * b"1", "L", 10, ((652 * b"1", NUMERIC),)),
    Row(17 * A, "L", 1, of_bytes(17 * A)),
    Row(18 * A, "L", 2, of_bytes(18 * A)),
    Row(271 * A, "L", 10, of_bytes(271 * A)),
    Row(30 * A, "Q", 5, of_bytes(30 * A), min_version=5),
    Row(b"HELLO WORLD", "Q", 1, ((b"HELLO WORLD", ALPHANUMERIC),)),
    Row(b"01234567", "M", 1, ((b"01234567", NUMERIC),)),
)
TOO_LONG = (A + 645 * b"1", 272 * A, 653 * b"1")


def payload(mode: int, size: int) -> int:
    """The bits of so many characters of a mode (ISO/IEC 18004, 7.4.3 to 7.4.5)."""
    if mode == NUMERIC:
        return 10 * (size // 3) + (0, 4, 7)[size % 3]
    if mode == ALPHANUMERIC:
        return 11 * (size // 2) + 6 * (size % 2)
    return 8 * size


def cost(segments: Segments, version: int) -> int:
    """The bits of segments."""
    return sum(4 + BITS_OF_COUNT[mode][version == 10] + payload(mode, len(part)) for part, mode in segments)


def add_padding_bits(bits: Buffer, version: int, length: int) -> None:
    """Adds zeros up to a whole codeword (7.4.10): segno 1.4.1 adds eight of them where it is whole."""
    del version
    bits.extend([0] * (-length % 8))


def drawn_by_segno(segments: Segments, version: int, level: str, mask: int) -> list[str]:
    """The modules of a symbol, row by row."""
    code = encoder.encode(
        list(segments), error=LEVELS[level], version=version, mask=mask, boost_error=False, micro=False
    )
    return ["".join(map(str, row)) for row in code.matrix]


def penalty(rows: list[str]) -> int:
    """The penalty of a symbol (docs/SPECIFICATION.md, QR symbols), module by module."""
    lines = [*rows, *map("".join, zip(*rows))]
    size = len(rows)
    runs = sum(len(run) - 2 for line in lines for run in RUNS.findall(line))
    finders = sum(len(FINDERS.findall(line)) for line in lines)
    squares = sum(
        len({above[x], above[x + 1], below[x], below[x + 1]}) == 1
        for above, below in zip(rows, rows[1:])
        for x in range(size - 1)
    )
    dark = "".join(rows).count("1")
    return runs + 3 * squares + 40 * finders + 10 * (abs(20 * dark - 10 * size * size) // (size * size))


@cache
def all_masks(segments: Segments, version: int, level: str) -> list[list[str]]:
    return [drawn_by_segno(segments, version, level, mask) for mask in range(8)]


def wanted(segments: Segments, version: int, level: str, mask: int | None) -> tuple[int, list[str]]:
    """The mask of a symbol and its modules: without a mask those of the lowest penalty, the first of equal ones."""
    symbols = all_masks(segments, version, level)
    used = min(range(8), key=lambda number: penalty(symbols[number])) if mask is None else mask
    return used, symbols[used]


def drawn(row: Row, mask: int | None) -> tuple[int, int | None, list[str]]:
    """The version, the mask and the modules of what liblabels draws."""
    symbol = liblabels.symbol("qr", row.data, level=row.level, min_version=row.min_version, mask=mask)
    digits = symbol.modules.translate(bytes.maketrans(b"\0\1", b"01")).decode()
    return symbol.version or 0, symbol.mask, re.findall("." * symbol.width, digits)


def every_symbol() -> Iterator[Row]:
    """Symbols of each version and level that are full of bytes: all 0, all 255, and bytes of all bits."""
    for version, level in product(range(1, 11), LEVELS):
        bits = consts.SYMBOL_CAPACITY[version][LEVELS[level]] - 4 - BITS_OF_COUNT[BYTE][version == 10]
        for filling in (bytes(271), 271 * b"\xff", bytes(7 * place % 256 for place in range(271))):
            data = filling[: bits // 8]
            yield Row(data, level, version, of_bytes(data), version)


def lists_of(text: bytes) -> Iterator[Segments]:
    """All lists of segments of a text."""
    if not text:
        yield ()
    for size in range(1, len(text) + 1):
        for mode, characters in CHARACTERS.items():
            if re.fullmatch(characters, text[:size]):
                for rest in lists_of(text[size:]):
                    yield ((text[:size], mode), *rest)


def short_texts() -> Iterator[Row]:
    """Each text of 1 to 6 of three characters with its cheapest segments: of equal lists the one whose first segment
    is longest, then that whose mode has fewer characters.
    """
    for size in range(1, 7):
        for letters in product(b"1Aa", repeat=size):
            text = bytes(letters)
            cheapest = min(
                lists_of(text),
                key=lambda segments: (cost(segments, 1), [(-len(part), mode) for part, mode in segments]),
            )
            yield Row(text, "M", 1, cheapest)


def is_refused(data: bytes) -> bool:
    try:
        liblabels.symbol("qr", data, level="L")
    except liblabels.Refused as why:
        return str(why) == "data does not fit version 10-L"
    return False


def main() -> int:
    encoder.write_padding_bits = add_padding_bits
    wrong = [f"{data[:9]!r}: not refused" for data in TOO_LONG if not is_refused(data)]
    asked = [(row, mask) for row in (*every_symbol(), *ROWS) for mask in (None, *range(8))]
    asked += [(row, 0) for row in short_texts()]
    shown = 0
    for row, mask in asked:
        used, modules = wanted(row.segments, row.version, row.level, mask)
        found = drawn(row, mask)
        if found != (row.version, used, modules):
            wrong.append(f"{row.data[:9]!r}, version {row.version}-{row.level}, mask {mask}: differs")
        turned = [*modules[:-1], modules[-1][:-1] + "10"[int(modules[-1][-1])]]
        shown += found != (row.version, used, turned)
    print(*wrong, sep="\n", end="\n" * bool(wrong))
    print(f"{len(asked)} symbols: {len(wrong)} differ; {shown} wrong cases shown")
    return int(bool(wrong) or shown < len(asked))


if __name__ == "__main__":
    sys.exit(main())
