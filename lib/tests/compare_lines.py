"""Compares liblabels with the program on random lines: compare_lines.py PROGRAM SEED COUNT [OPTION..]

The options go to the program alone, so that a test can see what a difference looks like. PYTHONPATH and
LABELS_LIBRARY name the module and the library. The last line counts; the status is 1 where something differs.
"""

import random
import subprocess
import sys
from collections import Counter
from dataclasses import dataclass, field

import liblabels
import random_lines

GROUPS = 8  # of lines, each with options of its own
LEVEL_OF_BITS = {1: "L", 0: "M", 3: "Q", 2: "H"}
FORMAT_MASK = 0b10101


@dataclass(frozen=True)
class Options:
    """Options of a run, and the format and the scale of its pictures."""

    height: int
    level: str
    min_version: int
    mask: int | None
    escapes: bool
    format: str
    scale: int

    def words(self) -> list[str]:
        """These options as the program has them, without format and scale."""
        numbers = ["--height", str(self.height), "--level", self.level, "--min-version", str(self.min_version)]
        mask = [] if self.mask is None else ["--mask", str(self.mask)]
        return [*numbers, *mask, *["--escapes"] * self.escapes]


@dataclass
class Found:
    """What the module gave for some lines."""

    pictures: list[bytes] = field(default_factory=list)
    symbols: list[liblabels.Symbol] = field(default_factory=list)
    messages: list[bytes] = field(default_factory=list)
    skipped: int = 0
    wrong_bits: int = 0


def some_options(rng: random.Random) -> Options:
    return Options(
        height=rng.choice((1, 50, 500, rng.randint(1, 99))),
        level=rng.choice("LMQH"),
        min_version=rng.choice((1, 1, rng.randint(1, 10))),
        mask=rng.choice((None, None, rng.randint(0, 7))),
        escapes=rng.random() < 0.5,
        format=rng.choice(("pbm", "ascii")),
        scale=rng.choice((1, 1, 2, 3, 8)),
    )


def by_program(program: str, words: list[str], text: bytes) -> tuple[bytes, bytes]:
    """The pictures and the messages of a text."""
    done = subprocess.run([program, *words], input=text, capture_output=True, check=False)
    return done.stdout, done.stderr


def by_module(lines: list[bytes], given: Options) -> Found:
    found = Found()
    for number, line in enumerate(lines, 1):
        try:
            symbol = liblabels.line(
                line,
                height=given.height,
                level=given.level,
                min_version=given.min_version,
                mask=given.mask,
                escapes=given.escapes,
            )
            bits = liblabels.bitmap_line(
                line,
                scale=given.scale,
                height=given.height,
                level=given.level,
                min_version=given.min_version,
                mask=given.mask,
                escapes=given.escapes,
            )
            picture = liblabels.draw_line(
                line,
                format=given.format,
                scale=given.scale,
                height=given.height,
                level=given.level,
                min_version=given.min_version,
                mask=given.mask,
                escapes=given.escapes,
            )
        except liblabels.Refused as refusal:
            found.messages.append(b"line %d: %s\n" % (number, str(refusal).encode()))
            continue
        if symbol is None or picture is None:
            found.skipped += 1
        else:
            found.symbols.append(symbol)
            found.pictures.append(picture)
            found.wrong_bits += bits is None or (given.format == "pbm" and not is_same(bits, picture))
    return found


def is_same(bits: liblabels.Bitmap, picture: bytes) -> bool:
    """Whether bits show the dots of a plain PBM picture."""
    _, size, dots = picture.split(b"\n", 2)
    pixels = dots.replace(b"\n", b"")
    rows = [pixels[start : start + bits.width] for start in range(0, len(pixels), bits.width)]
    stride = (bits.width + 7) // 8
    packed = b"".join(int(row.ljust(stride * 8, b"0"), 2).to_bytes(stride, "big") for row in rows)
    return size == b"%d %d" % (bits.width, bits.height) and packed == bits.bits


def is_shown(symbol: liblabels.Symbol, text: bytes) -> bool:
    """Whether a picture as text shows the modules of a symbol, with its quiet zones, version, level and mask."""
    left, right, top, bottom = symbol.quiet_zones
    rows = [[line[column : column + 2] == b"##" for column in range(0, len(line), 2)] for line in text.split(b"\n")]
    inner = [row[left : len(row) - right] for row in rows[top : len(rows) - bottom]]
    starts = range(0, len(symbol.modules), symbol.width)
    modules = [list(map(bool, symbol.modules[start : start + symbol.width])) for start in starts]
    if symbol.symbology != "qr":
        return len(inner) == symbol.height and symbol.rows == 1 and all(row == modules[0] for row in inner)
    bits = sum(dark << (4 - place) for place, dark in enumerate(inner[8][:5])) ^ FORMAT_MASK
    is_numbered = symbol.mask == bits & 7 and symbol.level == LEVEL_OF_BITS[bits >> 3]
    return inner == modules and is_numbered and symbol.version is not None and len(inner) == 17 + 4 * symbol.version


def compare_group(program: str, rng: random.Random, count: int, more: list[str], counts: Counter[str]) -> None:
    """Compares lines under some options, and adds to the counts."""
    given = some_options(rng)
    lines = [random_lines.line(rng, given.escapes) for _ in range(count)]
    text = b"".join(line + b"\n" for line in lines)
    found = by_module(lines, given)
    of_picture = ["--format", given.format, "--scale", str(given.scale)]
    images, messages = by_program(program, [*given.words(), *of_picture, *more], text)
    in_text, _ = by_program(program, [*given.words(), "--format", "ascii", *more], text)
    shown = in_text.split(b"\n\n")[:-1]
    counts["drawn"] += len(found.pictures)
    counts["refused"] += len(found.messages)
    counts["skipped"] += found.skipped
    counts["differ"] += b"".join(found.pictures) != images
    counts["differ"] += b"".join(found.messages) != messages
    counts["differ"] += found.wrong_bits
    counts["differ"] += len(shown) != len(found.symbols)
    counts["differ"] += sum(not is_shown(symbol, picture) for symbol, picture in zip(found.symbols, shown))


def main() -> int:
    program, seed, count, *more = sys.argv[1:]
    rng = random.Random(int(seed))
    counts: Counter[str] = Counter()
    for _ in range(GROUPS):
        compare_group(program, rng, int(count) // GROUPS, more, counts)
    print(", ".join(f"{counts[name]} {name}" for name in ("drawn", "refused", "skipped", "differ")))
    return 1 if counts["differ"] or not all(counts[name] for name in ("drawn", "refused", "skipped")) else 0


if __name__ == "__main__":
    sys.exit(main())
