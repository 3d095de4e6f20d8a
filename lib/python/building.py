"""Builds the wheel of the package liblabels. Nothing but Python is needed for it, so pip needs no network.

pip calls `build_wheel`, as pyproject.toml says, and lib/Makefile calls this as a program: building.py FOLDER
"""

import base64
import hashlib
import re
import sys
import zipfile
from pathlib import Path

HERE = Path(__file__).resolve().parent
TAG = "py3-none-any"
WHEEL = f"Wheel-Version: 1.0\nGenerator: labels\nRoot-Is-Purelib: true\nTag: {TAG}\n"
VERSION = re.compile(r'^__version__ = "(.*)"$', re.M)
READABLE = 0o100644 << 16  # of a file in an archive: everybody may read it


def version() -> str:
    """Returns the version of the package."""
    found = VERSION.search((HERE / "liblabels/__init__.py").read_text(encoding="utf-8"))
    assert found is not None
    return found[1]


def files_of(number: str) -> dict[str, bytes]:
    """Returns the files of the wheel but its list of them, by their names."""
    modules = [*sorted((HERE / "liblabels").glob("*.py")), HERE / "liblabels/py.typed"]
    files = {f"liblabels/{module.name}": module.read_bytes() for module in modules}
    metadata = (HERE / "METADATA").read_text(encoding="utf-8").replace("@VERSION@", number)
    return {**files, f"{folder_of(number)}/METADATA": metadata.encode(), f"{folder_of(number)}/WHEEL": WHEEL.encode()}


def folder_of(number: str) -> str:
    """Returns the folder of what is known of the package."""
    return f"liblabels-{number}.dist-info"


def record_of(name: str, content: bytes) -> str:
    """Returns the line of a file in the list of all."""
    digest = base64.urlsafe_b64encode(hashlib.sha256(content).digest()).rstrip(b"=").decode()
    return f"{name},sha256={digest},{len(content)}\n"


def build_wheel(wheel_directory: str, config_settings: object = None, metadata_directory: object = None) -> str:
    """Writes the wheel into a folder, and returns its name. The same files make the same wheel, byte for byte."""
    number = version()
    files = files_of(number)
    name = f"{folder_of(number)}/RECORD"
    files[name] = ("".join(record_of(*file) for file in files.items()) + f"{name},,\n").encode()
    wheel = f"liblabels-{number}-{TAG}.whl"
    with zipfile.ZipFile(Path(wheel_directory, wheel), "w", zipfile.ZIP_DEFLATED) as archive:
        for place, content in files.items():
            entry = zipfile.ZipInfo(place)
            entry.external_attr = READABLE
            archive.writestr(entry, content, zipfile.ZIP_DEFLATED)
    return wheel


if __name__ == "__main__":
    build_wheel(sys.argv[1])
