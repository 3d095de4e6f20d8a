#!/usr/bin/python3
"""Refuses memory to the program `labels`, one growth a run, and looks at what it then does.

The arguments and the input are those of the stored run (crates/labels/args and stdin), from standard input and from a
FILE; then other arguments. A test of crates/hostile is tried like them, as `rt ci` built it: it makes the calls that
the program makes, over a sink in memory. In run N the Nth call of malloc or realloc is refused, by a small library
that is loaded before the C library (it needs glibc and a C compiler). N goes up to the first run that makes fewer than
N such calls.

A run is good where it does what it does when no growth is refused, with the same output, messages and status; or
where it writes nothing on standard output and `labels: no memory` on standard error, and ends with status 3, as a run
of each command has to. For the test the latter is to say that memory ran out before the run, with no image. Any other
run is reported, and makes the status of this script 1.

In each run it is shown ends of runs that it has to report: output that is lost without a word where one growth is
refused, the first, the middle or the last, another message, and growths of which none ends with `no memory`. The last
line is `N growths: K no memory, L unaffected, M wrong; S wrong cases shown`. Status 2: bad arguments, no such program,
no C compiler.
"""

import contextlib
import io
import itertools
import os
import subprocess
import sys
import tempfile
from collections import Counter
from pathlib import Path
from typing import Iterable, Iterator, Sequence

import sources

CRATE = Path(sources.TOP, "crates/labels")
STORED = (CRATE / "args").read_text(encoding="utf-8").splitlines()
OTHERS = (
    "--format ascii --scale 2 --height 3 --level Q --min-version 3 --mask 5 --escapes stdin".split(),
    ["--help"],
    ["--scale", "9"],
    ["--no-such-argument"],
    ["no-such-file"],
)
# The status of a run, what it wrote on standard output, and on standard error.
End = tuple[int, bytes, bytes]
NO_MEMORY = (3, b"", b"labels: no memory\n")
# The tests of a crate as a program, its argument, and how it ends where memory is there, and where it is not.
TESTS = Path(sources.TOP, "crates/hostile/out/hostile_tests")
TEST = "readers_and_writers::a_file_or_no_memory"
PASSED = "{}\n\ntest result: ok\n"
WITH_MEMORY = (0, PASSED.format("compared the image of a file").encode(), b"")
WITHOUT_MEMORY = (0, PASSED.format("no memory before the run").encode(), b"")
# The source of the small library.
REFUSE = Path(sources.TOP, "scripts/refuse_growth.c")


def build(file: Path) -> None:
    """Builds the library that refuses growths."""
    status, said = sources.run(["cc", "-O2", "-fPIC", "-shared", str(REFUSE), "-o", str(file)])
    if status:
        print(said, file=sys.stderr)
        sys.exit(2)


def ends_of(folder: Path, command: Sequence[str | Path], where: Path = CRATE) -> Iterator[End]:
    """How a command ends where no growth is refused, and where each of its growths is, one after the other."""
    mark = folder / "mark"
    for growth in itertools.count():
        more = {"GROWTH": str(growth), "MARK": str(mark), "LD_PRELOAD": f"{folder}/refuse"}
        with open(CRATE / "stdin", "rb") as lines:
            done = subprocess.run(command, stdin=lines, capture_output=True, cwd=where, env={**os.environ, **more})
        if growth and not mark.exists():
            return
        mark.unlink(missing_ok=True)
        yield done.returncode, done.stdout, done.stderr


def kind_of(done: End, whole: End, without: End) -> str:
    """What came of a run, beside what the command does where nothing is refused, and where memory runs out."""
    if done == whole:
        return "unaffected"
    return "no memory" if done == without else "wrong"


def judged(name: str, whole: End, ends: Iterable[End], without: End = NO_MEMORY) -> Counter[str]:
    """What comes of the growths of a command, which ends as `whole` where none is refused, and as `without` where
    memory runs out."""
    found: Counter[str] = Counter()
    for growth, done in enumerate(ends, 1):
        kind = kind_of(done, whole, without)
        found[kind] += 1
        if kind == "wrong":
            status, out, err = done
            print(f"{name}: growth {growth}: status {status}, {len(out)} bytes on standard output, and {err!r}")
    if not found["no memory"]:
        print(f"{name}: none of its growths ended with 'no memory'")
        found["wrong"] += 1
    return found


def wrong_cases() -> Iterator[tuple[str, bool]]:
    """Ends of three growths of which one is wrong, the first, the middle or the last, and of which none is that of no
    memory: each with whether it is reported."""
    whole = 0, b"all", b""
    wrong_ends = (0, b"", b""), (3, b"", b"labels: no memory!\n"), (3, b"half", NO_MEMORY[2])
    for place, wrong in itertools.product(range(3), wrong_ends):
        ends = [wrong if growth == place else NO_MEMORY for growth in range(3)]
        with contextlib.redirect_stdout(io.StringIO()) as said:
            found = judged("shown", whole, ends)
        told = f"shown: growth {place + 1}: status {wrong[0]}, {len(wrong[1])} bytes"
        yield f"{wrong} at growth {place + 1}", found == {"no memory": 2, "wrong": 1} and told in said.getvalue()
    for count in (3, 0):
        with contextlib.redirect_stdout(io.StringIO()) as said:
            found = judged("shown", whole, [whole] * count)
        yield f"{count} growths that are unaffected", found["wrong"] == 1 and "none of its" in said.getvalue()
    yield "a test that draws nothing with all its memory", bool(faults_of(WITHOUT_MEMORY))


def faults_of(whole: End) -> list[str]:
    """A fault where the test does not draw its label with all its memory."""
    return [] if whole == WITH_MEMORY else [f"{TEST}: with all its memory it ends so: {whole}"]


def of_test(folder: Path) -> tuple[Counter[str], list[str]]:
    """What comes of the growths of the test, and its faults."""
    if not TESTS.is_file():
        sys.exit(f"there is no {TESTS}: run `rt test` in crates/hostile")
    whole, *ends = ends_of(folder, [TESTS, TEST], folder)
    return judged(TEST, whole, ends, WITHOUT_MEMORY), faults_of(whole)


def main() -> int:
    program = sources.program_given(__doc__)
    found, wholes = Counter[str](), list[str]()
    with tempfile.TemporaryDirectory() as name:
        folder = Path(name)
        build(folder / "refuse")
        for arguments in (STORED, [*STORED, "stdin"], *OTHERS):
            whole, *ends = ends_of(folder, [program, *arguments])
            found += judged(f"{arguments}", whole, ends)
            wholes.append(f"{arguments} {whole}")
        of_calls, faults = of_test(folder)
    found += of_calls
    faults += [f"{found['wrong']} growths are wrong"] if found["wrong"] else []
    kinds = ", ".join(f"{found[kind]} {kind}" for kind in ("no memory", "unaffected", "wrong"))
    return sources.ended(faults, f"{found.total()} growths: {kinds}; sum {sources.sum_of(wholes)}", wrong_cases())


if __name__ == "__main__":
    sys.exit(main())
