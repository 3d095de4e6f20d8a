"""What the scripts share: the repository, its crates and files, and how a command is run."""

import argparse
import functools
import glob
import hashlib
import importlib
import os
import subprocess
import sys
from typing import Any, Iterable, Sequence

# Debian's Python, which has the modules that the tools need, whatever is first on the path.
PYTHON = "/usr/bin/python3"
TOP = os.path.dirname(os.path.dirname(os.path.abspath(__file__)))
# How the line begins that names a test which passes only by itself.
UNSTEADY = "unsteady: "


def run(command: Sequence[str], folder: str | None = None, **more: str) -> tuple[int, str]:
    """The status of a command in a folder (that of the repository), and what it wrote. A program that is not there is
    status 127."""
    environment = {**os.environ, "PYTHONDONTWRITEBYTECODE": "1", **more}
    try:
        done = subprocess.run(
            command,
            env=environment,
            cwd=folder or TOP,
            stdin=subprocess.DEVNULL,
            stdout=subprocess.PIPE,
            stderr=subprocess.STDOUT,
            encoding="utf-8",
            errors="replace",
        )
    except FileNotFoundError:
        return 127, f"not installed: {command[0]}\n"
    return done.returncode, done.stdout


def parser_of(description: str | None) -> argparse.ArgumentParser:
    """A parser of the arguments of a script."""
    return argparse.ArgumentParser(description=description, formatter_class=argparse.RawDescriptionHelpFormatter)


def program_given(description: str | None) -> str:
    """The program `labels` that an argument names, the proved one where none does. Stops where it is not there."""
    parser = parser_of(description)
    default = os.path.join(TOP, "crates", "labels", "out", "labels")
    parser.add_argument(
        "program",
        nargs="?",
        default=default,
        metavar="PROGRAM",
        help="the program (crates/labels/out/labels, which `rt run` in crates/labels makes)",
    )
    program = os.path.abspath(str(parser.parse_args().program))
    if not os.path.isfile(program) or not os.access(program, os.X_OK):
        parser.error(f"{program} is no program: run `rt run < /dev/null` in crates/labels, or name another one")
    return program


def crates_of(top: str) -> list[str]:
    """The crates of crates.txt, in its order. Stops where one has no code, or a folder with code is not listed."""
    with open(os.path.join(top, "crates.txt"), encoding="utf-8") as lines:
        listed = [line.partition(":")[0].split()[0] for line in lines if line.strip() and not line.startswith("#")]
    there = {path.split(os.sep)[-2] for path in glob.glob(os.path.join(top, "crates", "*", "src"))}
    if there != {*listed} or not listed:
        sys.exit(f"crates.txt and the folders crates/*/src differ in: {' '.join(sorted(there ^ {*listed})) or 'none'}")
    return listed


@functools.cache
def library() -> Any:
    """The Python module `liblabels` over the library of LABELS_LIBRARY, which else is made of the proved one."""
    if not os.environ.get("LABELS_LIBRARY"):
        status, said = run(["make", "-s", "-C", "lib", f"OUT={TOP}/out/lib", "all"])
        if status:
            print(said, file=sys.stderr)
            sys.exit(2)
        (os.environ["LABELS_LIBRARY"],) = glob.glob(f"{TOP}/out/lib/liblabels.so.*")
    sys.path.insert(0, f"{TOP}/lib/python")
    return importlib.import_module("liblabels")


def ended(faults: Iterable[str], last: str, cases: Iterable[tuple[str, bool]] = ()) -> int:
    """Prints what a script found wrong, and its last line. Returns its status: 1 where something was wrong.

    `cases` are the wrong cases that it was shown, each with whether it reported it: one that it did not is wrong too.
    The last line says how many there were, and so does the file of counts: none is left out unseen."""
    shown = [*cases]
    found = [*faults, *(f"this wrong case is not reported: {name}" for name, is_reported in shown if not is_reported)]
    print(*found, f"{last}; {len(shown)} wrong cases shown" if shown else last, sep="\n", flush=True)
    return 1 if found else 0


def sum_of(parts: Iterable[bytes | str]) -> str:
    """A checksum of what a step looked at. Its last line has it, and so has the file of counts: others are seen."""
    return whole_sum_of(parts)[:8]


def whole_sum_of(parts: Iterable[bytes | str]) -> str:
    """The whole of such a checksum, by which verdicts are kept."""
    total = hashlib.sha256()
    for part in parts:
        total.update((part.encode() if isinstance(part, str) else part) + b"\0")
    return total.hexdigest()


def cached(*names: str) -> str:
    """A path in the user's cache folder, which each copy of the repository has."""
    return os.path.join(os.environ.get("XDG_CACHE_HOME") or os.path.expanduser("~/.cache"), "labels", *names)


def read(path: str) -> str:
    with open(path, encoding="utf-8") as file:
        return file.read()


def write(path: str, text: str) -> None:
    os.makedirs(os.path.dirname(path), exist_ok=True)
    with open(path, "w", encoding="utf-8") as file:
        file.write(text)


def write_at_once(path: str, text: str) -> None:
    """Writes a file that is there as a whole or not at all: another process may read it."""
    write(f"{path}.{os.getpid()}", text)
    os.replace(f"{path}.{os.getpid()}", path)


def files_below(folder: str, ending: str | tuple[str, ...]) -> list[str]:
    """The files below a folder with this ending, or one of these, sorted by path."""
    found: list[str] = []
    for where, folders, names in os.walk(folder):
        folders[:] = [name for name in folders if name not in ("out", "__pycache__")]
        found += [os.path.join(where, name) for name in names if name.endswith(ending)]
    return sorted(found)
