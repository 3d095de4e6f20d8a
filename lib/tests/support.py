"""What the tests of the library share: the proved files, and liblabels built and installed below a folder."""

import atexit
import functools
import os
import shutil
import subprocess
import tempfile
import unittest
from pathlib import Path

LIB = Path(__file__).resolve().parents[1]
TOP = LIB.parent
# What `rt run --cpu x86-64` and `rt lib --cpu x86-64` leave, or other files of these environment variables.
PROGRAM = Path(os.environ.get("LABELS") or TOP / "crates/labels/out/labels").resolve()
PROVED = Path(os.environ.get("PROVED") or TOP / "crates/labels_c/out/liblabels_c.a").resolve()
# What `rt lib --target aarch64-unknown-linux-gnu` leaves; scripts/plain_builds.py puts it there.
PROVED_ARM64 = Path(os.environ.get("PROVED_ARM64") or TOP / "crates/labels_c/out/arm64/liblabels_c.a").resolve()
# Where Debian has the files.
LIBDIR = "usr/lib/x86_64-linux-gnu"
PYTHONDIR = "usr/lib/python3/dist-packages"
PYTHON = "/usr/bin/python3"
MYPY = (PYTHON, "-m", "mypy", "--strict", "--no-error-summary")


def run(
    *command: str | Path, given: bytes = b"", environment: dict[str, str] | None = None
) -> "subprocess.CompletedProcess[bytes]":
    """Runs a command that gets these bytes, with more variables of the environment, and keeps what it writes."""
    return subprocess.run(
        list(map(str, command)),
        input=given,
        stdout=subprocess.PIPE,
        stderr=subprocess.PIPE,
        env={**os.environ, **(environment or {})},
        check=False,
    )


def text_of(done: "subprocess.CompletedProcess[bytes]") -> str:
    return (done.stdout + done.stderr).decode(errors="replace")


class Installed:
    """liblabels as it is installed, below a folder of its own."""

    def __init__(self) -> None:
        for file, command in ((PROGRAM, "rt run"), (PROVED, "rt lib")):
            if not file.is_file():
                raise AssertionError(f"{file} is not built: {command} --cpu x86-64 makes it")
        self.folder = Path(tempfile.mkdtemp(prefix="test-liblabels-"))
        self.root = self.folder / "root"
        self.built = self.folder / "built"
        done = self.make(LIB, self.built, "install")
        if done.returncode != 0:
            raise AssertionError(text_of(done))
        self.libdir = self.root / LIBDIR
        self.shared = self.libdir / "liblabels.so.1"
        self.environment = {
            "LABELS_LIBRARY": str(self.shared),
            "LD_LIBRARY_PATH": str(self.libdir),
            "PKG_CONFIG_PATH": str(self.libdir / "pkgconfig"),
            "PKG_CONFIG_SYSROOT_DIR": str(self.root),
            "PYTHONPATH": str(self.root / PYTHONDIR),
            "PYTHONDONTWRITEBYTECODE": "1",
            "PATH": f"{PROGRAM.parent}:{os.environ['PATH']}",
        }

    def make(self, source: Path, out: Path, target: str, *words: str) -> "subprocess.CompletedProcess[bytes]":
        places = ("PREFIX=/usr", f"LIBDIR=/{LIBDIR}", f"PYTHONDIR=/{PYTHONDIR}", f"DESTDIR={self.root}")
        return run("make", "-s", "-C", source, f"PROVED={PROVED}", f"OUT={out}", *places, *words, target)

    def changed(self, *changes: tuple[str, str, str]) -> Path:
        """A copy of lib/ with changes: a file, a text that is in it, and the text that takes its place there."""
        copy = Path(tempfile.mkdtemp(dir=self.folder)) / "lib"
        shutil.copytree(LIB, copy)
        for name, old, new in changes:
            file = copy / name
            text = file.read_text(encoding="utf-8")
            if old not in text:
                raise AssertionError(f"{name} does not have: {old}")
            file.write_text(text.replace(old, new), encoding="utf-8")
        return copy

    def remove(self) -> None:
        shutil.rmtree(self.folder)


@functools.cache
def installed() -> Installed:
    """The library as it is installed, which is built once for all tests of a run."""
    library = Installed()
    atexit.register(library.remove)
    return library


def prepare() -> None:
    """Builds the library before processes of their own run the tests."""
    installed()


class WithLibrary(unittest.TestCase):
    """Tests of the library as it is installed."""

    library: Installed

    @classmethod
    def setUpClass(cls) -> None:
        cls.library = installed()

    def run_ok(self, *command: str | Path, given: bytes = b"") -> bytes:
        """What a command writes, which must end with status 0."""
        done = run(*command, given=given, environment=self.library.environment)
        self.assertEqual(done.returncode, 0, f"{command}: {text_of(done)}")
        return done.stdout

    def wrong_module(self, old: str, new: str) -> Path:
        """A folder with a module in which a text has another in its place."""
        return self.library.changed(("python/liblabels/__init__.py", old, new)) / "python"

    def with_module(self, folder: Path) -> "tuple[str, ...]":
        """The words that run Python with the module in a folder."""
        return ("env", f"PYTHONPATH={folder}", PYTHON)

    def assert_fails(self, *command: str | Path) -> None:
        done = run(*command, environment=self.library.environment)
        self.assertNotEqual(done.returncode, 0, f"{command}: {text_of(done)}")
