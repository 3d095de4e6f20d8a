"""The examples of docs/PYTHON.md, LIBRARY.md and PIPE.md: programs in six languages, whose pictures zbar reads, the
options and errors of Python, and clients over a pipe."""

import json
import os
import re
import select
import subprocess
import tempfile
import unittest
from pathlib import Path

from support import LIB, MYPY, PROGRAM, PYTHON, WithLibrary, run, text_of

EXAMPLES = LIB / "examples"
STRICT = ("-O2", "-Wall", "-Wextra", "-pedantic", "-Werror")
LABEL = b"ean13 4006381333931\n"
URL = "https://debian.org"
LINE_OF_URL = f"qr,level=Q {URL}"
# The examples of the page in Python: each option is one of the calls, and none is left out; each error is that.
OPTIONS_OF_PAGE = """
import inspect, json, liblabels, sys
symbol = liblabels.symbol("ean13", "400638133393")
named = {}
for kind, name, code in json.load(sys.stdin):
    assert f"{name}=" in code, code
    eval(code)
    named.setdefault(kind, set()).add(name)
def options_of(*calls):
    return {name for call in calls for name in inspect.signature(call).parameters} - {"text", "options"}
of_code = options_of(liblabels.line, liblabels.draw_line, liblabels.bitmap_line) - {"scale"}
of_picture = options_of(symbol.png, symbol.svg, symbol.image, symbol.show)
assert named == {"code": of_code, "picture": of_picture}, named
"""
ERRORS_OF_PAGE = """
import json, liblabels, sys
symbol = liblabels.symbol("ean13", "400638133393")
for code, said in json.load(sys.stdin):
    try:
        eval(code)
    except Exception as why:
        assert f"{type(why).__name__}: {why}" == said, why
    else:
        raise AssertionError(code)
"""
LINES = 10_000
SECONDS = 300  # that an answer may take on a busy machine


def rows_of_page(heading: str) -> list[list[str]]:
    """The code in each cell of the table in docs/PYTHON.md that has this heading, row by row."""
    page = (LIB.parent / "docs/PYTHON.md").read_text(encoding="utf-8")
    rows = page.partition(f"{heading}\n|---")[2].partition("\n\n")[0].splitlines()[1:]
    return [[cell.strip(" `") for cell in row.strip("|").split(" | ")] for row in rows]


def drawn(lines: bytes, *words: str) -> bytes:
    """The pictures that the program draws of some lines."""
    return run(PROGRAM, *words, given=lines).stdout


class Examples(WithLibrary):
    def flags(self, *words: str) -> list[str]:
        return self.run_ok("pkg-config", "--cflags", "--libs", *words, "labels").decode().split()

    def compiled(self, *command: str | Path, source: "Path | None" = None) -> Path:
        """The program that a compiler makes with these words, and of a source that has to come last."""
        program = Path(tempfile.mkdtemp(dir=self.library.folder)) / "program"
        self.run_ok(*command, "-o", program, *([source] if source else []))
        return program

    def test_c(self) -> None:
        program = self.compiled("gcc", "-std=c99", *STRICT, EXAMPLES / "draw.c", *self.flags())
        self.assertEqual(self.run_ok(program), drawn(LABEL))
        self.assertNotEqual(self.run_ok(program), drawn(b"ean13 4006381333917\n"))

    def test_c_static(self) -> None:
        """The static library needs no other one, and no library of ours when it runs."""
        program = self.compiled("gcc", "-std=c99", *STRICT, EXAMPLES / "draw.c", "-static", *self.flags("--static"))
        self.assertEqual(run(program).stdout, drawn(LABEL))

    def test_c_without_the_library(self) -> None:
        done = run("gcc", EXAMPLES / "draw.c", "-o", self.library.folder / "none")
        self.assertNotEqual(done.returncode, 0, text_of(done))

    def read(self, picture: bytes) -> list[str]:
        """What zbar reads of a PNG, or of an SVG as rsvg-convert draws it."""
        if b"<svg" in picture:
            picture = self.run_ok("rsvg-convert", given=picture)
        return sorted(self.run_ok("zbarimg", "-q", "--raw", "-", given=picture).decode().splitlines())

    def assert_reads(self, picture: bytes, *data: str) -> None:
        self.assertEqual(self.read(picture), sorted(data))

    def test_c_png(self) -> None:
        program = self.compiled("gcc", "-std=c99", *STRICT, EXAMPLES / "png.c", *self.flags("libpng"))
        picture = self.run_ok(program)
        self.assertEqual(picture[:8], b"\x89PNG\r\n\x1a\n")
        self.assert_reads(picture, URL)
        done = run("sh", "-c", f"{program} > /dev/full", environment=self.library.environment)
        self.assertEqual(done.returncode, 1, text_of(done))

    def test_python(self) -> None:
        """It prints what its comments say, and zbar reads the picture too."""
        folder = Path(tempfile.mkdtemp(dir=self.library.folder))
        said = self.run_ok("env", "-C", folder, PYTHON, EXAMPLES / "draw.py").decode().splitlines()
        comments = re.findall("# (.*)", (EXAMPLES / "draw.py").read_text(encoding="utf-8"))
        self.assertEqual(said, [comment.partition(": ")[0] for comment in comments])
        self.assert_reads((folder / "code.png").read_bytes(), "4006381333931")

    def test_python_table(self) -> None:
        """A picture for each number that has a code; the other rows are named, and the status is 1."""
        folder = Path(tempfile.mkdtemp(dir=self.library.folder))
        rows = "EAN,Name\n4006381333931,Pencil\n4006381333932,Soap\n,Gum\n978-0-306-40615-7,Book\n"
        (folder / "table.csv").write_text(rows, encoding="utf-8-sig")
        command = ("env", "-C", folder, PYTHON, EXAMPLES / "table.py", "table.csv", "EAN")
        done = run(*command, environment=self.library.environment)
        self.assertEqual(done.stderr.decode(), "row 2: check digit is 2, should be 1\nrow 3: no data\n")
        self.assertEqual(done.returncode, 1)
        self.assertEqual(sorted(path.stem for path in folder.glob("*.png")), ["4006381333931", "9780306406157"])
        self.assert_reads((folder / "4006381333931.png").read_bytes(), "4006381333931")

    def test_python_options(self) -> None:
        tables = [
            ("code", rows_of_page("| Option | What it is | Example |")),
            ("picture", rows_of_page("| Option of a picture | What it is | Example |")),
        ]
        given = [(kind, name, code) for kind, rows in tables for name, _, code in rows]
        self.run_ok(PYTHON, "-c", OPTIONS_OF_PAGE, given=json.dumps(given).encode())
        for other in (given[1:], [("code", "level", "liblabels.symbol('qr', 'x', level='X')"), *given]):
            done = run(
                PYTHON, "-c", OPTIONS_OF_PAGE, given=json.dumps(other).encode(), environment=self.library.environment
            )
            self.assertNotEqual(done.returncode, 0)

    def test_python_errors(self) -> None:
        errors = rows_of_page("| What raises it | Error |")
        self.run_ok(PYTHON, "-c", ERRORS_OF_PAGE, given=json.dumps(errors).encode())
        wrong = [[code, said + "."] for code, said in errors]
        self.assertGreater(len(wrong), 10)
        done = run(
            PYTHON, "-c", ERRORS_OF_PAGE, given=json.dumps(wrong).encode(), environment=self.library.environment
        )
        self.assertNotEqual(done.returncode, 0)

    def test_python_reads(self) -> None:
        """A file is read as its data; one with a dark dot too many is named, and the files after it are read."""
        files = [Path(tempfile.mkdtemp(dir=self.library.folder)) / name for name in ("a.pbm", "b.pbm", "c.pbm")]
        picture = drawn(LABEL, "--scale", "2")
        for file, text in zip(files, (picture, picture.removesuffix(b"0\n") + b"1\n", picture), strict=True):
            file.write_bytes(text)
        self.assertEqual(self.run_ok(PYTHON, EXAMPLES / "read.py", files[0]), b"4006381333931\n")
        done = run(PYTHON, EXAMPLES / "read.py", *files, environment=self.library.environment)
        self.assertEqual((done.returncode, done.stdout), (1, 2 * b"4006381333931\n"))
        self.assertEqual(done.stderr.decode(), f"{files[1]} is not read\n")

    def test_cpp(self) -> None:
        program = self.compiled("g++", "-std=c++17", *STRICT, EXAMPLES / "svg.cpp", *self.flags())
        self.assert_reads(self.run_ok(program), URL)

    def test_rust(self) -> None:
        flags = ("--edition", "2021", "-D", "warnings", "-L", self.library.libdir, "-l", "labels")
        program = self.compiled("rustc", *flags, EXAMPLES / "svg.rs")
        words = ("ean8 7351353", "# a remark", "qr,level=H HELLO", "pdf x", "ean13,height=80 4006381333931")
        done = run(program, *words, environment=self.library.environment)
        self.assertEqual(done.stderr, b"unknown symbology\n")
        self.assert_reads(done.stdout, "73513537", "HELLO", "4006381333931")

    def test_go(self) -> None:
        kept = ("env", f"GOCACHE={self.library.folder / 'go'}", "GOFLAGS=-mod=mod", "GO111MODULE=off")
        program = self.compiled(*kept, "go", "build", source=EXAMPLES / "png.go")
        self.assert_reads(self.run_ok(program, LINE_OF_URL), URL)
        done = run(program, "ean8 73513530", environment=self.library.environment)
        self.assertEqual((done.returncode, done.stdout), (1, b""))
        self.assertIn(b"check digit is 0, should be 7", done.stderr)

    def test_luajit(self) -> None:
        """LuaJIT reads labels.ffi.h as it is installed."""
        header = self.library.root / "usr/include/labels.ffi.h"
        script = (EXAMPLES / "svg.lua", header)
        self.assertNotIn("__attribute__", header.read_text(encoding="utf-8"))  # which LuaJIT reads, and cffi does not
        self.assert_reads(self.run_ok("luajit", *script, LINE_OF_URL), URL)
        done = run("luajit", *script, "qr", environment=self.library.environment)
        self.assertEqual((done.returncode, done.stdout, done.stderr), (1, b"", b"no data\n"))
        self.assert_fails("luajit", EXAMPLES / "svg.lua", LIB / "labels.h", LINE_OF_URL)

    def test_another_picture_is_seen(self) -> None:
        """zbar reads nothing of a picture whose rows are shifted, and other data of another one."""
        picture = self.run_ok(
            "luajit", EXAMPLES / "svg.lua", self.library.root / "usr/include/labels.ffi.h", "qr other"
        )
        self.assertEqual(self.read(picture), ["other"])
        wrong = picture.replace(b"h1v", b"h2v").replace(b"h-1z", b"h-2z")
        self.assertNotEqual(run("zbarimg", "-q", "-", given=self.run_ok("rsvg-convert", given=wrong)).returncode, 0)


class Clients(WithLibrary):
    """The clients get each picture and each message, and neither hang nor mix up labels."""

    good: list[str]
    pictures: bytes
    bad = ("", "# a remark", "qr Jo\nean8 7351353", "pdf x", "ean13 4006381333930", "qr " + "x" * 2000)
    messages = (
        "not one line with a label",
        "not one line with a label",
        "not one line with a label",
        "line 1: unknown symbology",
        "line 2: check digit is 0, should be 1",
        "line 3: line is longer than 1100 bytes",
    )

    @classmethod
    def setUpClass(cls) -> None:
        super().setUpClass()
        cls.good = [f"qr ticket {number}" if number % 9 == 0 else f"code128 {number:05}" for number in range(LINES)]
        cls.pictures = drawn("".join(line + "\n" for line in cls.good).encode())

    def ended_program(self) -> str:
        """A PATH whose `labels` ends after its first line."""
        folder = Path(tempfile.mkdtemp(dir=self.library.folder))
        (folder / "labels").write_text(f"#!/bin/sh\nhead -n 1 | {PROGRAM}\n", encoding="utf-8")
        (folder / "labels").chmod(0o755)
        return f"{folder}:{os.environ['PATH']}"

    def test_python(self) -> None:
        done = run(PYTHON, EXAMPLES / "client.py", *self.bad, *self.good, environment=self.library.environment)
        self.assertEqual(done.stderr.decode().splitlines(), list(self.messages))
        self.assertEqual(done.returncode, 1)
        self.assertTrue(done.stdout == self.pictures, "other pictures")

    def test_python_sees_the_end(self) -> None:
        environment = {**self.library.environment, "PATH": self.ended_program()}
        done = run(PYTHON, EXAMPLES / "client.py", *["ean8 7351353"] * 9, environment=environment)
        self.assertEqual((done.returncode, done.stderr), (2, b"labels has ended\n"))

    def client_in_c(self) -> Path:
        program = self.library.folder / "client"
        if not program.exists():
            posix = ("-std=c99", "-D_POSIX_C_SOURCE=200809L")
            self.run_ok("gcc", *posix, *STRICT, EXAMPLES / "client.c", "-o", program)
        return program

    def test_c(self) -> None:
        done = run(self.client_in_c(), *self.bad, *self.good, environment=self.library.environment)
        self.assertEqual(done.stderr.decode().splitlines(), list(self.messages))
        self.assertEqual(done.returncode, 1)
        self.assertTrue(done.stdout == self.pictures, "other pictures")

    def test_c_sees_the_end(self) -> None:
        environment = {**self.library.environment, "PATH": self.ended_program()}
        done = run(self.client_in_c(), *["ean8 7351353"] * 9, environment=environment)
        self.assertEqual((done.returncode, done.stderr), (2, b"labels has ended\n"))

    def test_types(self) -> None:
        self.run_ok(*MYPY, "--cache-dir", self.library.folder / "mypy", EXAMPLES / "client.py")

    def test_traps_of_lines(self) -> None:
        """A line feed makes two labels, a comment none, a carriage return is data, and the order holds."""
        text = b"qr Jo\nean8 7351353\n# x\n\npdf x\nean8 7351353\n"
        output = run("sh", "-c", f"{PROGRAM} 2>&1", given=text).stdout
        picture = drawn(b"ean8 7351353\n")
        self.assertEqual(output, drawn(b"qr Jo\n") + picture + b"line 5: unknown symbology\n" + picture)
        self.assertNotEqual(drawn(b"qr Jo\r\n"), drawn(b"qr Jo\n"))
        refused = run(PROGRAM, given=b"ean8 7351353\r\n")
        self.assertEqual((refused.stdout, refused.stderr), (b"", b"line 1: not a digit at byte 8\n"))

    def test_statuses(self) -> None:
        """Status 1 says that a line was refused; what ends a run begins with another word, and has status 3."""
        self.assertEqual([run(PROGRAM, given=line).returncode for line in (LABEL, b"pdf x\n" + LABEL)], [0, 1])
        ended = run("sh", "-c", f"{PROGRAM} > /dev/full", given=LABEL)
        self.assertEqual((ended.returncode, ended.stderr.startswith(b"labels: ")), (3, True), text_of(ended))

    def test_bytes_of_a_picture(self) -> None:
        for line, words in ((b"ean13 4006381333931\n", ()), (b"qr x\n", ("--scale", "8"))):
            magic, size, rest = drawn(line, *words).split(b"\n", 2)
            width, height = map(int, size.split())
            self.assertEqual((magic, len(rest)), (b"P1", height * (width + (width + 69) // 70)))

    def started(self) -> "subprocess.Popen[bytes]":
        """The program with a pipe for each stream."""
        pipe = subprocess.PIPE
        process = subprocess.Popen([PROGRAM], bufsize=0, stdin=pipe, stdout=pipe, stderr=pipe)
        self.addCleanup(process.communicate)
        return process

    def test_two_pipes(self) -> None:
        """A refused line has its message, and nothing on the pipe of the pictures; a line waits for its end."""
        process = self.started()
        assert process.stdin and process.stdout and process.stderr
        process.stdin.write(b"pdf x\nean8 7351353")
        self.assertTrue(select.select([process.stderr], [], [], SECONDS)[0])
        self.assertFalse(select.select([process.stdout], [], [], 0)[0])
        process.stdin.write(b"\n")
        self.assertTrue(select.select([process.stdout], [], [], SECONDS)[0])

    def test_nobody_reads(self) -> None:
        """Who writes all lines before reading is stopped by full pipes."""
        process = self.started()
        assert process.stdin
        os.set_blocking(process.stdin.fileno(), False)
        left = "".join(line + "\n" for line in self.good).encode()
        waited = 0.0
        while left and waited < 1:
            if select.select([], [process.stdin], [], 0.2)[1]:
                left = left[process.stdin.write(left[:4096]) or 0 :]
                waited = 0.0
            else:
                waited += 0.2
        self.assertTrue(left, "all lines were taken")


if __name__ == "__main__":
    unittest.main()
