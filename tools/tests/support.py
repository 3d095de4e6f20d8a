"""What the tests of the tools share: paths, how a tool is run, and what a test needs from
elsewhere.

The tests run by Debian's Python, which alone sees Cairo: /usr/bin/python3 -m unittest discover -s
tools/tests The program `labels` that they draw with is $LABELS, or else crates/labels/out/labels. A
test that needs what is not there is skipped, with a message; NO_SKIP=1 makes it fail.
"""

import compileall
import importlib.util
import io
import json
import os
import py_compile
import resource
import shutil
import signal
import subprocess
import sys
import tempfile
import unittest
from functools import cache, partial
from importlib import import_module
from pathlib import Path
from typing import Any, NoReturn, Sequence
from unittest import mock

import folders

TESTS, OURS, TOP = folders.TESTS, folders.OURS, folders.TOP
TOOLS = Path(os.environ.get("TOOLS") or OURS)
LOCALES = ("C", "C.UTF-8")
SECONDS = 600  # that a program may take on a busy machine: one that hangs is ended
# The modules of the tools that can run in this process.
MODULES = {
    "label-print": "labeltools.commands.label_print",
    "label-table": "labeltools.commands.label_table",
}
os.environ["LC_ALL"] = "C.UTF-8"  # of these too: their dates are those of the locale

# Under nohup, or `&` of a script, programs that a test starts would ignore them too, and never end.
for ending in (signal.SIGHUP, signal.SIGINT, signal.SIGTERM):
    if signal.getsignal(ending) == signal.SIG_IGN:
        signal.signal(ending, lambda *_: None)

Finished = subprocess.CompletedProcess
# A test that takes seconds of a processor: `make quick` leaves it to the gate, which runs all.
slow = unittest.skipIf(os.environ.get("QUICK"), "takes seconds: the gate runs it")


def run(
    tool: str | Path,
    *arguments: str | bytes | Path,
    input: bytes = b"",
    locale: str = "C.UTF-8",
    cwd: str | Path | None = None,
    **variables: str,
) -> "Finished[bytes]":
    """Runs a tool of tools/ (or a program by its whole path) and returns its status, standard
    output and error.
    """
    return subprocess.run(
        [str(TOOLS / tool), *arguments],
        input=input,
        capture_output=True,
        cwd=cwd,
        env={**environment(locale), **variables},
        timeout=SECONDS,
    )


def processor_seconds() -> float:
    """The processor time, in seconds, of all programs that this process ran to their end."""
    used = resource.getrusage(resource.RUSAGE_CHILDREN)
    return used.ru_utime + used.ru_stime


def environment(locale: str = "C.UTF-8") -> dict[str, str]:
    """The environment of a tool under test: LC_ALL alone chooses the language; tools/ and `labels`
    are found.
    """
    dropped = ("LANG", "LC_", "PYTHONIO", "PYTHONSAFE", "PYTHONUN", "PYTHONUTF8", "SOURCE_DATE")
    kept = {name: value for name, value in os.environ.items() if not name.startswith(dropped)}
    path = f"{TOOLS}{os.pathsep}{os.environ['PATH']}"
    return {**kept, "LC_ALL": locale, "PATH": path, "LABELS": str(program_path())}


def speaking(language: str, folder: str | Path) -> dict[str, str]:
    """The environment of who speaks a language, with its translation in a folder; English is the
    language of the tools.
    """
    needs("msgfmt")
    path = Path(folder, language, "LC_MESSAGES/label-tools.mo")
    if language != "en" and not path.exists():
        path.parent.mkdir(parents=True)
        words = ["msgfmt", "--check-format", "-o", str(path), str(TOOLS / f"po/{language}.po")]
        subprocess.run(words, check=True)
    return {**environment(), "LANGUAGE": language, "LABELS_LOCALE": str(folder)}


def messages(finished: "Finished[bytes]") -> list[str]:
    """The lines that a tool wrote on standard error."""
    return finished.stderr.decode("utf-8").splitlines()


def program_path() -> Path:
    """Where the program `labels` is, or would be: $LABELS, else crates/labels/out/labels."""
    return Path(os.environ.get("LABELS") or TOP / "crates/labels/out/labels").resolve()


def labels_program() -> Path:
    """The program `labels`; skips the test where there is none."""
    program = program_path()
    if not os.access(program, os.X_OK):
        skip(
            f"{program} is not built: run (cd crates/labels && rt run < /dev/null), or set $LABELS"
        )
    make_library()
    return program


def prepare() -> None:
    """Makes what all tests need, before processes of their own run them: the library, and the
    bytecode of the tools, a third of what hundreds of processes take to start. Python compares the
    sum of each source with it, and takes no other one.
    """
    by_sum = py_compile.PycInvalidationMode.CHECKED_HASH
    compileall.compile_dir(OURS / "labeltools", quiet=1, invalidation_mode=by_sum)
    make_library()


@cache
def make_library() -> None:
    """Makes liblabels of the sources, by which the tools draw, where its proved part is built and
    $LABELS_LIBRARY names no other one.
    """
    proved = TOP / "crates/labels_c/out/liblabels_c.a"
    if proved.exists() and not os.environ.get("LABELS_LIBRARY"):
        words = (
            "make",
            "-s",
            "-C",
            TOP / "lib",
            f"PROVED={proved}",
            f"OUT={TOP / 'out/lib'}",
            "all",
        )
        subprocess.run(words, check=True, stdout=subprocess.DEVNULL)


def draw(lines: str | bytes, *options: str) -> tuple[bytes, bytes, int]:
    """What `labels` makes of lines: standard output, standard error, status; skips the test where
    it is not built.
    """
    data = lines.encode() if isinstance(lines, str) else lines
    done = subprocess.run(
        [str(labels_program()), *options], input=data, capture_output=True, timeout=SECONDS
    )
    return done.stdout, done.stderr, done.returncode


def help_of(command: str) -> str:
    """The help text of the program or of a tool."""
    if command in MODULES:
        return run_here(command, "--help").stdout.decode()
    return run(labels_program() if command == "labels" else command, "--help").stdout.decode()


def needs(*programs: str) -> None:
    """Skips the test where one of these third-party programs is missing."""
    missing = [program for program in programs if shutil.which(program) is None]
    if missing:
        skip(f"not installed: {', '.join(missing)}")


def needs_module(name: str) -> None:
    """Skips a test where a module of Debian's Python is not there."""
    if importlib.util.find_spec(name) is None:
        skip(f"{name} is not there")


def skip(message: str) -> NoReturn:
    """Skips the test; with $NO_SKIP set, the test fails."""
    raise AssertionError(message) if os.environ.get("NO_SKIP") else unittest.SkipTest(message)


def read_codes(*pictures: str | Path) -> list[str]:
    """What zbarimg reads in pictures, a line of SYMBOLOGY:DATA for each code; skips where it is
    missing.
    """
    needs("zbarimg")
    command: Sequence[str] = ("zbarimg", "--nodbus", "--quiet", *map(str, pictures))
    done = subprocess.run(command, capture_output=True, timeout=SECONDS)
    return done.stdout.decode("utf-8", "replace").splitlines()


def ean13(number: int) -> str:
    """An EAN-13 of a number of up to twelve digits."""
    digits = f"{number:012}"
    total = sum(int(digit) * (3 if place % 2 else 1) for place, digit in enumerate(digits))
    return f"{digits}{-total % 10}"


def file_of(labels: Sequence[tuple[str, dict[str, Any] | None]], **end: Any) -> bytes:
    """The file between the tools: lines, and before each the object that belongs to it, with row 2,
    3, ..
    """
    parts = ['#{"labels":1,"table":"articles.xlsx"}\n']
    for row, (line, fields) in enumerate(labels, 2):
        parts.append(f"#{json.dumps({'row': row, **(fields or {})}, ensure_ascii=False)}\n{line}\n")
    left_out = {"left_out": [], "left_out_count": 0}
    parts.append(f"#{json.dumps({'end': 1, 'lines': len(labels), **left_out, **end})}\n")
    return "".join(parts).encode("utf-8")


def run_here(
    tool: str, *arguments: str | Path, input: bytes = b"", **variables: str
) -> "Finished[bytes]":
    """Runs a tool of tools/ in this process: the same result as of `run`, in a quarter of the
    time.
    """
    if TOOLS != OURS:
        return run(tool, *arguments, input=input, **variables)
    words = [str(TOOLS / tool), *map(str, arguments)]
    sys.stdout.flush()
    sys.stderr.flush()
    kept = os.dup(1), os.dup(2)
    with tempfile.TemporaryFile() as out, tempfile.TemporaryFile() as err:
        os.dup2(out.fileno(), 1)
        os.dup2(err.fileno(), 2)
        error = open(2, "w", errors="backslashreplace", closefd=False)
        streams: dict[str, Any] = {
            "argv": words,
            "stdin": io.TextIOWrapper(io.BytesIO(input)),
            "stdout": open(1, "w", closefd=False),
            "stderr": error,
        }
        signals = mock.patch("signal.signal", mock.MagicMock())
        changed = mock.patch.dict(os.environ, {**environment(), **variables})
        try:
            with signals, changed, mock.patch.multiple(sys, **streams):
                status = status_of(tool)
                if sys.stderr is not error:  # of a stream: else Python warns of it
                    sys.stderr.close()
        finally:
            for number, copy in enumerate(kept, 1):
                os.dup2(copy, number)
                os.close(copy)
        out.seek(0)
        err.seek(0)
        return Finished(words, status, out.read(), err.read())


printed = partial(run_here, "label-print")


def status_of(tool: str) -> int:
    """The status with which a tool ends in this process."""
    try:
        import_module("labeltools.common.process").start(tool, MODULES[tool])
    except SystemExit as end:
        return int(end.code or 0)
    raise AssertionError(f"{tool} has no end")
