"""The files of drivers (PPD) that Debian has, of which some are drawn by a seed.

They are in packages that are unpacked into a folder, and not installed.
"""

import base64
import importlib.machinery
import importlib.util
import lzma
import os
import random
import re
import subprocess
from collections.abc import Iterator, Mapping, Sequence
from dataclasses import dataclass
from pathlib import Path
from typing import Any

PACKAGES = (
    "foomatic-db-compressed-ppds openprinting-ppds hplip-data printer-driver-postscript-hp "
    "printer-driver-escpr printer-driver-fujixerox printer-driver-ptouch printer-driver-dymo "
    "printer-driver-brlaser printer-driver-splix printer-driver-c2esp printer-driver-hpcups "
    "printer-driver-oki printer-driver-cups-pdf printer-driver-pxljr "
    "printer-driver-gutenprint libgutenprint9 libgutenprint-common"
).split()
LIBRARIES = "usr/lib/x86_64-linux-gnu"
BLOCK = 1 << 24  # bytes that are unpacked at once
FOREIGN = re.compile(r"Fax|Braille|index", re.IGNORECASE)  # no printers of paper


@dataclass(frozen=True)
class Origin:
    """Where the file of a driver is: in an archive, from a byte on, or a file of its own, or what
    a program writes.
    """

    archive: str
    name: str
    start: int = 0
    size: int = 0
    is_written: bool = False


def fetch(folder: Path) -> None:
    """Downloads the packages, and unpacks them."""
    if (folder / "usr").is_dir():
        return
    packed = folder / "packages"
    packed.mkdir(parents=True)
    subprocess.run(["apt-get", "download", *PACKAGES], cwd=packed, check=True)
    for package in sorted(packed.glob("*.deb")):
        subprocess.run(["dpkg", "-x", str(package), str(folder)], check=True)


def contents(script: Path) -> Mapping[str, Any]:
    """What an archive of pyppd says that it has."""
    name = f"archive_{re.sub('[^a-z0-9]', '_', script.name)}"
    loader = importlib.machinery.SourceFileLoader(name, str(script))
    spec = importlib.util.spec_from_loader(name, loader)
    assert spec
    module = importlib.util.module_from_spec(spec)
    loader.exec_module(module)
    found: Mapping[str, Any] = module.load()
    return found


def drivers_in(folder: Path) -> Iterator[Origin]:
    """All drivers of the packages, in order."""
    for script in sorted((folder / "usr/lib/cups/driver").iterdir()):
        if not script.read_bytes().startswith(b"#!/usr/bin/"):
            listed = written_by(script, folder, "list").decode().splitlines()
            yield from (Origin(str(script), line.split('"')[1], is_written=True) for line in listed)
            continue
        for name, (start, size, _) in sorted(
            item for item in contents(script).items() if item[0] != "ARCHIVE"
        ):
            yield Origin(str(script), name, start, size)
    for path in sorted((folder / "usr/share/ppd").rglob("*.ppd")):
        yield Origin(str(path), path.name)
    made = folder / "made"
    for source in sorted((folder / "usr/share/cups/drv").glob("*.drv")):
        place = made / source.stem
        if not place.is_dir():
            subprocess.run(["ppdc", "-d", str(place), str(source)], capture_output=True)
        for path in sorted(place.rglob("*.ppd")):
            yield Origin(str(path), path.name)


def written_by(program: Path, folder: Path, *words: str) -> bytes:
    """What Gutenprint's program writes, by the files of its packages."""
    found = {
        "LD_LIBRARY_PATH": folder / LIBRARIES,
        "STP_MODULE_PATH": folder / LIBRARIES / "gutenprint/5.3/modules",
        "STP_DATA_PATH": folder / "usr/share/gutenprint/5.3/xml",
    }
    env = {**os.environ, **{name: str(path) for name, path in found.items()}}
    return subprocess.run([program, *words], env=env, capture_output=True, check=True).stdout


def drawn(folder: Path, seed: int, count: int, word: str) -> Sequence[Origin]:
    """Some drivers whose names have a word, drawn by a seed."""
    found = [
        origin
        for origin in drivers_in(folder)
        if not FOREIGN.search(origin.name) and re.search(word, f"{origin.archive} {origin.name}")
    ]
    return random.Random(seed).sample(found, min(count, len(found)))


def texts_of(folder: Path, origins: Sequence[Origin]) -> Mapping[Origin, bytes]:
    """The files of some drivers: each archive is unpacked once, block by block."""
    found: dict[Origin, bytes] = {}
    for origin in origins:
        if origin.is_written:
            found[origin] = written_by(Path(origin.archive), folder, "cat", origin.name)
        elif not origin.size:
            found[origin] = Path(origin.archive).read_bytes()
    for archive in sorted({origin.archive for origin in origins if origin.size}):
        wanted = [origin for origin in origins if origin.archive == archive and origin.size]
        packed = base64.b64decode(contents(Path(archive))["ARCHIVE"].encode())
        unpacker = lzma.LZMADecompressor()
        texts = {origin: bytearray() for origin in wanted}
        place, data = 0, unpacker.decompress(packed, BLOCK)
        while data:
            for origin in wanted:
                start = max(0, origin.start + len(texts[origin]) - place)
                left = origin.size - len(texts[origin])
                if origin.start < place + len(data) and left:
                    texts[origin] += data[start : start + left]
            place += len(data)
            data = b"" if unpacker.eof else unpacker.decompress(b"", BLOCK)
        found.update({origin: bytes(text) for origin, text in texts.items()})
    return found
