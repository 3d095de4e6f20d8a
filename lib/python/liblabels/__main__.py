"""Writes symbols as PNG or SVG: to standard output, or a file for each.

python3 -m liblabels ean13 400638133393 > code.png
"""

import argparse
import os
import re
import signal
import sys
from collections.abc import Iterator
from dataclasses import dataclass
from pathlib import Path

from . import LEVELS, SYMBOLOGIES, Refused, Symbol, symbol, version

REFUSED, FAILED = 1, 3  # statuses, as those of labels(1)
_USAGE = """%(prog)s SYMBOLOGY DATA > FILE.png
       %(prog)s SYMBOLOGY [-o NAME] [OPTION..] DATA.. | -i FILE"""
_EXAMPLES = """
Examples:
  %(prog)s ean13 --digits -o pencil.png 400638133393
  %(prog)s code128 --digits -o 'codes/%%s.svg' LOT-1 LOT-2
  %(prog)s ean13 --digits -o 'codes/%%s.png' -i numbers.txt

The status is 0 if all is written, 1 if data was refused, 2 if the words are wrong, and 3 if a file cannot be read or
written."""
_PLACES = re.compile(r"%(0?\d?)d|%s")
_UNSAFE = re.compile(r"[^\w.-]|^[.-]", re.ASCII)
_KINDS = (".png", ".svg")
_MOST_OF_NAME = 100  # characters of the data in the name of a file
_BYTE_ORDER_MARK = b"\xef\xbb\xbf"
_STANDARD_INPUT = "-"


@dataclass(frozen=True)
class Given:
    """Data, its number from 1 on, and how a message names it."""

    number: int
    name: str
    data: bytes


def _parser() -> argparse.ArgumentParser:
    parser = argparse.ArgumentParser(
        "python3 -m liblabels",
        usage=_USAGE,
        description="Writes symbols as PNG or SVG, to standard output or a file for each.",
        epilog=_EXAMPLES,
        formatter_class=argparse.RawDescriptionHelpFormatter,
    )
    parser.add_argument("symbology", choices=SYMBOLOGIES, help=", ".join(SYMBOLOGIES), metavar="SYMBOLOGY")
    parser.add_argument("data", nargs="*", metavar="DATA", help="after -- it may begin with a hyphen")
    parser.add_argument("-i", "--input", metavar="FILE", help="the data, one a line; - is standard input")
    parser.add_argument(
        "-o", "--output", metavar="NAME", help="a .png or .svg file; for each its own: %%s is its data, %%d its number"
    )
    parser.add_argument("--svg", action="store_true", help="SVG to standard output")
    parser.add_argument("--digits", action="store_true", help="the digits of EAN and UPC, the text of Code 128, below")
    parser.add_argument(
        "--scale",
        type=int,
        default=4,
        metavar="N",
        help="how wide a module is: dots of PNG, 1 to 100, or pixels of SVG (default: 4)",
    )
    parser.add_argument("--dpi", type=float, metavar="N", help="PNG: how many dots of an inch it is printed with")
    parser.add_argument("--height", type=int, default=50, metavar="N", help="how many modules high bars are (50)")
    parser.add_argument("--level", type=str.upper, choices=LEVELS, default="M", help="of QR (default: M)")
    parser.add_argument("--version", action="version", version=version())
    return parser


def _lines_of(name: str) -> Iterator[Given]:
    """Yields the data of a file, a line each. Empty lines have none."""
    text = sys.stdin.buffer.read() if name == _STANDARD_INPUT else Path(name).read_bytes()
    for number, line in enumerate(text.removeprefix(_BYTE_ORDER_MARK).split(b"\n"), 1):
        data = line.removesuffix(b"\r")
        if data:
            yield Given(number, f"line {number}", data)


def _file_name(name: str, item: Given, data: bytes) -> str:
    """The name of the file of a symbol that says `data`."""
    safe = _UNSAFE.sub("_", data.decode("latin-1"))[:_MOST_OF_NAME]
    return _PLACES.sub(lambda place: safe if place[0] == "%s" else f"{item.number:{place[1]}d}", name)


def _names_of(name: str, drawn: list[tuple[Given, Symbol]]) -> list[str]:
    """The name of each file; raises ValueError if the name is of no kind, or two pictures would have the same."""
    if Path(name).suffix.lower() not in _KINDS:
        raise ValueError(f"the name of a file has to end with .svg or .png: {name}")
    names = [_file_name(name, item, code.data) for item, code in drawn]
    data_of: dict[str, bytes] = {}
    for file, (_, code) in zip(names, drawn):
        if data_of.setdefault(file.lower(), code.data) != code.data:
            raise ValueError(f"two pictures would be the file {file}: put %d into the name")
    return names


def _drawn(items: list[Given], asked: argparse.Namespace) -> Iterator[tuple[Given, Symbol]]:
    """Yields the symbol of each item that has one, and reports the others."""
    for item in items:
        try:
            yield item, symbol(asked.symbology, item.data, height=asked.height, level=asked.level)
        except Refused as why:
            print(f"{item.name}: {why}", file=sys.stderr)


def _picture(code: Symbol, asked: argparse.Namespace, is_svg: bool) -> bytes:
    if is_svg:
        return code.svg(asked.scale, digits=asked.digits).encode()
    return code.png(asked.scale, asked.dpi, asked.digits)


def _written(items: list[Given], asked: argparse.Namespace) -> int:
    """Writes the picture of each item, and returns the status. Raises ValueError for words that are wrong, and
    OSError for what cannot be written."""
    if asked.output is None and len(items) > 1:
        raise ValueError("more than one picture needs -o NAME")
    drawn = [*_drawn(items, asked)]
    if asked.output is None:
        for _, code in drawn:
            _write(_picture(code, asked, asked.svg), None)
    else:
        is_svg = asked.output.lower().endswith(".svg")
        for file, (_, code) in zip(_names_of(asked.output, drawn), drawn):
            _write(_picture(code, asked, is_svg), Path(file))
    return 0 if len(drawn) == len(items) else REFUSED


def _write(picture: bytes, file: Path | None) -> None:
    """Writes a picture to a file, or to standard output."""
    if file is None:
        with open(sys.stdout.fileno(), "wb", closefd=False) as output:
            output.write(picture)
    else:
        file.parent.mkdir(parents=True, exist_ok=True)
        file.write_bytes(picture)


def main() -> int:
    """Writes the symbols that the arguments ask for, and returns the status."""
    parser = _parser()
    asked = parser.parse_intermixed_args()
    if bool(asked.data) == bool(asked.input):
        parser.error("give DATA, or -i FILE")
    try:
        if asked.input:
            items = [*_lines_of(asked.input)]
        else:
            items = [Given(number, data, os.fsencode(data)) for number, data in enumerate(asked.data, 1)]
        return _written(items, asked)
    except ValueError as why:
        parser.error(str(why))
    except OSError as why:
        print(f"{parser.prog}: {why.filename or 'standard output'}: {why.strerror}", file=sys.stderr)
        return FAILED


if __name__ == "__main__":
    signal.signal(signal.SIGPIPE, signal.SIG_DFL)  # a reader that has seen enough ends this, as other filters
    sys.exit(main())
