"""The Python module: its types, its docstrings, with numpy and Pillow, and against the program on random lines."""

import json
import re
import shutil
import tempfile
import unittest
from pathlib import Path

from support import LIB, MYPY, PROGRAM, PYTHON, PYTHONDIR, WithLibrary, run

LINES = 1000
TESTS = LIB / "tests"
DOCSTRINGS = """
import doctest, liblabels, sys
for module in (liblabels, liblabels._layout, liblabels._pictures, liblabels._reading):
    failed, tried = doctest.testmod(module)
    if failed or not tried:
        sys.exit(1)
"""
WITH_LIBRARIES = """
import liblabels, numpy
from PIL import Image
symbol = liblabels.line("qr,level=Q https://example.com/article/000123")
array = numpy.asarray(symbol)
assert (array == numpy.frombuffer(symbol.modules, bool).reshape(symbol.rows, symbol.width)).all()
assert array.dtype == bool
assert numpy.asarray(liblabels.symbol("ean8", "7351353")).shape == (1, 67)
image = Image.frombytes("1", (symbol.width, symbol.rows), symbol.packed(), "raw", "1;I")
bitmap = liblabels.bitmap_line("qr,level=Q https://example.com/article/000123")
framed = Image.frombytes("1", (bitmap.width, bitmap.height), bitmap.bits, "raw", "1;I")
assert symbol.packed(quiet_zones=True) == bitmap.bits
light = numpy.array(framed)
assert (numpy.array(image) == ~array).all() and (light[4:-4, 4:-4] == ~array).all()
assert light[:4].all() and light[-4:].all() and light[:, :4].all() and light[:, -4:].all()
"""
# What `save` writes into files, by name and open ones, in the folder that it runs in; and data URIs.
SAVED = """
import base64, io, liblabels, pathlib
symbol = liblabels.symbol("qr", "gr\u00fcn", level="H")
symbol.save("code.png", scale=3, dpi=300)
symbol.save(pathlib.Path("code.SVG"), scale=0.5, unit="mm")
assert pathlib.Path("code.png").read_bytes() == symbol.png(3, 300)
assert pathlib.Path("code.SVG").read_text() == symbol.svg(0.5, "mm")
for name in ("code", "code.jpg", "png"):
    try:
        symbol.save(name)
    except ValueError as why:
        assert name in str(why) and not pathlib.Path(name).exists()
    else:
        raise AssertionError(name)
def into(file, kind=None, **options):
    symbol.save(file, kind, **options)
    return file.getvalue()
assert into(io.BytesIO(), "png", scale=3) == symbol.png(3)
assert into(io.BytesIO(), "SVG", scale=2).decode() == into(io.StringIO(), "svg", scale=2) == symbol.svg(2)
with open("named.png", "wb") as file:
    symbol.save(file)
symbol.save("as-svg.png", kind="svg")
assert pathlib.Path("named.png").read_bytes() == symbol.png()
assert pathlib.Path("as-svg.png").read_text() == symbol.svg()
for file, kind, said in (
    (io.BytesIO(), None, "kind='png' or kind='svg'"),
    (io.BytesIO(), "gif", "unknown kind 'gif': one of png, svg"),
    (io.StringIO(), "png", "mode 'wb'"),
    (open("no-kind", "wb"), None, "kind='png' or kind='svg'"),
    (3, None, "end with .svg or .png: 3"),
):
    try:
        symbol.save(file, kind)
    except ValueError as why:
        assert said in str(why), why
        assert not hasattr(file, "getvalue") or not file.getvalue()
    else:
        raise AssertionError(said)
for kind, head, picture in (
    ("png", "data:image/png;base64,", symbol.png(5)),
    ("svg", "data:image/svg+xml;base64,", symbol.svg(light="white").encode()),
):
    options = {"scale": 5} if kind == "png" else {"light": "white"}
    uri = symbol.data_uri(kind, **options)
    assert uri.startswith(head) and base64.b64decode(uri.removeprefix(head), validate=True) == picture
assert symbol.data_uri() == symbol.data_uri("svg")
"""
# The module as a program.
PROGRAM_OF_MODULE = """
import liblabels, os, pathlib, subprocess, sys
def program(*words, given=None, output=subprocess.PIPE):
    command = [sys.executable, "-m", "liblabels", *words]
    return subprocess.run(command, input=given, stdout=output, stderr=subprocess.PIPE)
"""
# What it writes to standard output, and how it refuses.
WRITTEN = (
    PROGRAM_OF_MODULE
    + """
symbol = liblabels.symbol("qr", "gr\u00fcn", level="H")
for words, picture in (
    ("--level H --scale 3 --dpi 300", symbol.png(3, 300)),
    ("--level H", symbol.png(4)),
    ("--level h --scale 30", symbol.png(30)),
    ("--level H --svg", symbol.svg(4).encode()),
    ("--level H --svg --scale 7", symbol.svg(7).encode()),
):
    done = program("qr", "gr\u00fcn", *words.split())
    assert (done.returncode, done.stdout, done.stderr) == (0, picture, b""), done
number = liblabels.symbol("ean8", "7351353", height=9)
assert program("ean8", "7351353", "--height", "9").stdout == number.png(4)
assert program("ean8", "7351353", *"--height 9 --svg --digits".split()).stdout == number.svg(4, digits=True).encode()
assert program("ean8", "7351353", *"--height 9 --digits".split()).stdout == number.png(4, digits=True)
for words, status, said in (
    ("ean13 4006381333930", 1, b"4006381333930: check digit is 0, should be 1"),
    ("qr x --scale 101", 2, b"scale is 101"),
    ("qr x --digits", 2, b"QR code has no text"),
    ("pdf x", 2, b"choice"),
    ("qr", 2, b"give DATA, or -i FILE"),
    ("qr x -i numbers", 2, b"give DATA, or -i FILE"),
    ("qr x y", 2, b"more than one picture needs -o NAME"),
    ("qr x -o code.gif", 2, b"has to end with .svg or .png: code.gif"),
    ("qr x y -o code.png", 2, b"two pictures would be the file code.png: put %d into the name"),
    ("qr -i no-such-file", 3, b"no-such-file: No such file or directory"),
    ("qr x -o /dev/full/code.png", 3, b"/dev/full"),
):
    done = program(*words.split())
    assert (done.returncode, done.stdout) == (status, b"") and said in done.stderr, done
    assert b"Traceback" not in done.stderr and not pathlib.Path("new").exists(), done
with open("/dev/full", "wb") as full:
    done = program("qr", "x", output=full)
no_space = b"python3 -m liblabels: standard output: No space left on device\\n"
assert (done.returncode, done.stderr) == (3, no_space), done
# A reader that has seen enough ends it without a word.
command = f"{sys.executable} -m liblabels code128 --scale 100 --height 500 {80 * 'x'} | head -c 1"
assert subprocess.run(command, shell=True, capture_output=True).stderr == b""
"""
)
# Many files by one process, named after the data; a line that is refused is named, and the others are written.
MANY_WRITTEN = (
    PROGRAM_OF_MODULE
    + """
done = program("code128", "--digits", "-o", "codes/%s.png", "LOT/1", "-x-", ".a")
assert done.returncode == 2 and not pathlib.Path("codes").exists(), done  # -x- is an option
done = program("code128", "--digits", "-o", "codes/%s.png", "--", "LOT/1", "-x-", ".a")
assert (done.returncode, done.stdout, done.stderr) == (0, b"", b""), done
assert sorted(os.listdir("codes")) == ["LOT_1.png", "_a.png", "_x-.png"]
code = liblabels.symbol("code128", "LOT/1")
assert pathlib.Path("codes/LOT_1.png").read_bytes() == code.png(4, digits=True)
for data in (("x/y", "x?y"), ("A", "a")):
    done = program("qr", "-o", "new/%s.png", *data)
    assert done.returncode == 2 and not pathlib.Path("new").exists(), done
numbers = b"4006381333931\\r\\n\\n4006381333930\\n400638133393\\r\\n4006381333931"
pathlib.Path("numbers").write_bytes(b"\\xef\\xbb\\xbf" + numbers)
for name, words, given in (("file", "numbers", None), ("pipe", "-", pathlib.Path("numbers").read_bytes())):
    done = program("ean13", "--output", f"{name}-%03d.svg", "--input", words, given=given)
    assert (done.returncode, done.stderr) == (1, b"line 3: check digit is 0, should be 1\\n"), done
    files = sorted(str(file) for file in pathlib.Path(".").glob(f"{name}-*.svg"))
    assert files == [f"{name}-{number}.svg" for number in ("001", "004", "005")], files
    number = liblabels.symbol("ean13", "4006381333931")
    assert {pathlib.Path(file).read_text() for file in files} == {number.svg(4)}
done = program("ean13", "--digits", "-o", "%s.svg", "-i", "numbers")
assert not pathlib.Path("400638133393.svg").exists()
assert pathlib.Path("4006381333931.svg").read_text() == number.svg(4, digits=True)
"""
)
WRONG_OPTIONS = """
import liblabels
for bad in ({"height": 501}, {"level": "X"}, {"mask": 8}, {"height": -1}, {"min_version": 2**40}, {"min_version": 0}):
    try:
        liblabels.line("qr x", **bad)
    except liblabels.Refused:
        raise
    except ValueError as why:
        assert next(iter(bad)) in str(why), why
    else:
        raise AssertionError(bad)
for bad in ({"scale": 1.5}, {"scale": "4"}, {"height": 50.0}, {"mask": "3"}):
    for call in (liblabels.draw, liblabels.bitmap):
        try:
            call("qr", "x", **bad)
        except TypeError as why:
            ((name, number),) = bad.items()
            assert str(why) == f"{name} has to be a whole number, not {number!r}", why
        else:
            raise AssertionError(bad)
for line in ("ean13 1\\n2", "qr \\n\\n"):
    try:
        liblabels.line(line)
    except liblabels.Refused as why:
        assert (why.code, str(why)) == (15, "the line has a line feed"), why
    else:
        raise AssertionError(line)
"""

# A line of each symbology and level is drawn as what its name says, by proved code; other names and numbers are none.
NAMES = """
import liblabels
from liblabels._binding import LIBRARY
DATA = {"ean13": "400638133393", "ean8": "7351353", "upca": "03600029145", "code128": "A", "qr": "A"}
assert liblabels.SYMBOLOGIES == tuple(DATA) and liblabels.LEVELS == ("L", "M", "Q", "H")
for number, (name, data) in enumerate(DATA.items()):
    assert liblabels.line(f"{name} {data}").symbology == name
    assert LIBRARY.labels_symbology_name(number) == name.encode()
    assert LIBRARY.labels_symbology_named(name.encode()) == number
for number, name in enumerate(liblabels.LEVELS):
    assert liblabels.line(f"qr,level={name} A").level == name
    assert {liblabels.symbol("qr", "A", level=told).level for told in (name, name.lower())} == {name}
    assert LIBRARY.labels_level_name(number) == name.encode()
    assert LIBRARY.labels_level_named(name.encode()) == number
for name, digits in (("ean13", 13), ("ean8", 8), ("upca", 12), ("code128", 0), ("qr", 0)):
    layout = liblabels.layout(name)
    printed = [place for first, last, *_ in layout.digits for place in range(first, last)]
    assert printed == list(range(digits)) and len(layout.guards) == (3 if digits else 0), layout
for wrong in (b"", b"ean1", b"ean133", b"EAN13", b"l", b"LM", None):
    assert (LIBRARY.labels_symbology_named(wrong), LIBRARY.labels_level_named(wrong)) == (-1, -1), wrong
for wrong in (-(2**31), -1, 5, 2**31 - 1):
    assert (LIBRARY.labels_symbology_name(wrong), LIBRARY.labels_level_name(wrong)) == (None, None), wrong
"""


# For each code of a refusal a line that has it, and its message.
REFUSALS = {
    "LABELS_BAD_SYMBOLOGY": ("pdf x", "unknown symbology"),
    "LABELS_NO_DATA": ("qr", "no data"),
    "LABELS_NOT_A_DIGIT": ("ean13 40063813339x1", "not a digit at byte 12"),
    "LABELS_WRONG_NUMBER_OF_DIGITS": ("ean8 12", "wrong number of digits: 2"),
    "LABELS_WRONG_CHECK_DIGIT": ("ean13 4006381333930", "check digit is 0, should be 1"),
    "LABELS_DATA_TOO_LONG": ("code128 " + 81 * "x", "data is longer than 80 bytes"),
    "LABELS_NOT_ASCII": ("code128 \u00e4", "byte 1 is not ASCII"),
    "LABELS_DOES_NOT_FIT": ("qr,level=H " + 200 * "x", "data does not fit version 10-H"),
    "LABELS_LINE_TOO_LONG": ("qr " + 1200 * "x", "line is longer than 1100 bytes"),
    "LABELS_BAD_SETTING": ("qr,size=3 x", "unknown setting 1"),
    "LABELS_BAD_ESCAPE": ("qr \\q", "bad escape at byte 1"),
    "LABELS_NOT_ONE_LINE": ("qr x\ny", "the line has a line feed"),
}
CODES = """
import json, sys, liblabels
for name, (line, message) in json.loads(sys.argv[1]).items():
    try:
        liblabels.line(line, escapes=True)
    except liblabels.Refused as why:
        print(name, why.code, message == str(why))
"""

# What labels_code_text says of each code.
TEXTS = {
    "LABELS_OK": "done",
    "LABELS_NO_ROOM": "the room is too small",
    "LABELS_BAD_OPTION": "an option is out of its range",
    "LABELS_BAD_SYMBOLOGY": "unknown symbology",
    "LABELS_NO_DATA": "no data",
    "LABELS_NOT_A_DIGIT": "not a digit",
    "LABELS_WRONG_NUMBER_OF_DIGITS": "wrong number of digits",
    "LABELS_WRONG_CHECK_DIGIT": "wrong check digit",
    "LABELS_DATA_TOO_LONG": "data is longer than 80 bytes",
    "LABELS_NOT_ASCII": "a byte is not ASCII",
    "LABELS_DOES_NOT_FIT": "data does not fit version 10",
    "LABELS_LINE_TOO_LONG": "line is longer than 1100 bytes",
    "LABELS_BAD_SETTING": "bad setting",
    "LABELS_BAD_ESCAPE": "bad escape",
    "LABELS_SKIPPED": "an empty line or a comment",
    "LABELS_NOT_ONE_LINE": "the line has a line feed",
    "LABELS_BAD_ARGUMENT": "a pointer is NULL, a size is too large, or the room overlaps the data",
    "LABELS_NOT_READ": "the dots are no symbol of the symbology",
}
CODE_TEXTS = """
import ctypes, json, os, sys
code_text = ctypes.CDLL(os.environ["LABELS_LIBRARY"]).labels_code_text
code_text.restype = ctypes.c_char_p
print(json.dumps([code_text(code).decode() for code in range(-1, int(sys.argv[1]) + 1)]))
"""


def names_of_codes() -> list[str]:
    """The names of the codes in labels.h, in the order of their numbers."""
    header = (LIB / "labels.h").read_text(encoding="utf-8")
    enum = header.partition("enum labels_code {")[2].partition("};")[0]
    return re.findall(r"^ +(LABELS_\w+)", enum, re.M)


# The version as pip knows it, of the module and of the library, and where the module is.
VERSIONS = """
import importlib.metadata, liblabels
print(importlib.metadata.version("liblabels"), liblabels.__version__, liblabels.version(), liblabels.__file__)
"""


class Module(WithLibrary):
    def test_types(self) -> None:
        mypy = (*MYPY, "--cache-dir", self.library.folder / "mypy")
        self.run_ok(*mypy, LIB / "python/liblabels")
        self.assert_fails(*mypy, self.wrong_module("-> Symbol | None:", "-> Symbol:") / "liblabels")

    def test_types_of_a_user(self) -> None:
        """A program that uses the installed package is checked with its types, which py.typed says."""
        folder = Path(tempfile.mkdtemp(dir=self.library.folder))
        self.run_ok(PYTHON, "-m", "venv", "--without-pip", folder / "venv")
        [packages] = (folder / "venv/lib").glob("python*/site-packages")
        shutil.copytree(self.library.root / PYTHONDIR, packages, dirs_exist_ok=True)
        python = ("--python-executable", folder / "venv/bin/python", "--cache-dir", folder / "mypy")
        for text, is_right in (
            ("liblabels.draw('qr', 'x').hex()", True),
            ("liblabels.draw('qr', 'x').encode()", False),
        ):
            (folder / "use.py").write_text(f"import liblabels\n{text}\n", encoding="utf-8")
            self.assertEqual(run(*MYPY, *python, folder / "use.py").returncode == 0, is_right)
        (packages / "liblabels/py.typed").unlink()
        (folder / "use.py").write_text("import liblabels\n", encoding="utf-8")
        self.assertNotEqual(run(*MYPY, *python, folder / "use.py").returncode, 0)

    def test_docstrings(self) -> None:
        self.run_ok(PYTHON, "-c", DOCSTRINGS)
        self.assert_fails(*self.with_module(self.wrong_module("(21, 1, 'Q', 2,", "(21, 1, 'Q', 3,")), "-c", DOCSTRINGS)

    def test_with_numpy_and_pillow(self) -> None:
        self.run_ok(PYTHON, "-c", WITH_LIBRARIES)
        self.assert_fails(PYTHON, "-c", WITH_LIBRARIES.replace("1;I", "1"))

    def test_what_is_written(self) -> None:
        self.run_ok(*self.in_new_folder(), PYTHON, "-c", WRITTEN)
        old = "signal.signal(signal.SIGPIPE, signal.SIG_DFL)"
        module = self.library.changed(("python/liblabels/__main__.py", old, "pass")) / "python"
        self.assert_fails(*self.in_new_folder(), *self.with_module(module), "-c", WRITTEN)

    def test_many_files(self) -> None:
        self.run_ok(*self.in_new_folder(), PYTHON, "-c", MANY_WRITTEN)
        for old, new in (
            ("[^\\w.-]|^[.-]", "/"),
            ("!= code.data", "== b''"),
            ('removesuffix(b"\\r")', "removesuffix(b'')"),
            ("removeprefix(_BYTE_ORDER_MARK)", "removeprefix(b'')"),
            ("else REFUSED", "else 0"),
        ):
            with self.subTest(old):
                module = self.library.changed(("python/liblabels/__main__.py", old, new)) / "python"
                self.assert_fails(*self.in_new_folder(), *self.with_module(module), "-c", MANY_WRITTEN)

    def in_new_folder(self) -> tuple[str, ...]:
        return ("env", "-C", tempfile.mkdtemp(dir=self.library.folder))

    def test_what_is_saved(self) -> None:
        self.run_ok(*self.in_new_folder(), PYTHON, "-c", SAVED)
        for old, new in (
            ("self.png(**options)", "self.png()"),
            ("kind or _kind_of(file)", "_kind_of(file)"),
            ("file.write(picture.decode())", "file.write(str(picture))"),
            ('"image/svg+xml"', '"image/svg"'),
        ):
            with self.subTest(new):
                with_module = self.with_module(self.wrong_module(old, new))
                self.assert_fails(*self.in_new_folder(), *with_module, "-c", SAVED)

    def test_installed_by_pip(self) -> None:
        """In an environment that has nothing but Python, without a network: from the source and from the wheel come
        the same files as `make install` puts there, and the same version."""
        [wheel] = (self.library.root / "usr/share/python-wheels").iterdir()
        for given in (self.library.changed() / "python", wheel):
            with self.subTest(given.name):
                folder = Path(tempfile.mkdtemp(dir=self.library.folder))
                self.run_ok(PYTHON, "-m", "venv", "--without-pip", folder)
                python = folder / "bin/python"
                pip = (PYTHON, "-m", "pip", "--python", python, "install", "--quiet", "--no-index", "--no-compile")
                self.run_ok("env", "-u", "PYTHONPATH", *pip, given)
                [packages] = folder.glob("lib/python*/site-packages")
                for ours in (self.library.root / PYTHONDIR / "liblabels").iterdir():
                    self.assertEqual((packages / "liblabels" / ours.name).read_bytes(), ours.read_bytes(), ours.name)
                said = self.run_ok("env", "-u", "PYTHONPATH", python, "-c", VERSIONS).decode().split()
                self.assertEqual(said[:2], [said[1], said[2]])
                self.assertTrue(Path(said[3]).is_relative_to(folder), said)

    def test_wrong_arguments(self) -> None:
        self.run_ok(PYTHON, "-c", WRONG_OPTIONS)

    def test_codes(self) -> None:
        """The numbers of the refusals are those that labels.h has for them."""
        names = names_of_codes()
        said = self.run_ok(PYTHON, "-c", CODES, json.dumps(REFUSALS)).decode().splitlines()
        self.assertEqual(said, [f"{name} {names.index(name)} True" for name in REFUSALS])

    def test_texts_of_codes(self) -> None:
        names = names_of_codes()
        below, *texts, above = json.loads(self.run_ok(PYTHON, "-c", CODE_TEXTS, str(len(names))))
        self.assertEqual(dict(zip(names, texts, strict=True)), TEXTS)
        self.assertEqual((below, above), ("unknown code", "unknown code"))

    def test_lines_of_the_program(self) -> None:
        self.run_ok(PYTHON, TESTS / "compare_lines.py", PROGRAM, "1", str(LINES))

    def test_other_pictures_and_messages_are_seen(self) -> None:
        for more in (["--mask", "0"], ["--escapes"]):
            self.assert_fails(PYTHON, TESTS / "compare_lines.py", PROGRAM, "1", "200", *more)

    def test_symbols_of_segno(self) -> None:
        """Each version, level and mask, and the masks and segments that are chosen."""
        self.run_ok(PYTHON, TESTS / "compare_segno.py")

    def test_names(self) -> None:
        self.run_ok(PYTHON, "-c", NAMES)

    def test_wrong_names_are_seen(self) -> None:
        """Two names that change places, and a name that ends earlier."""
        for old, new in (('"ean13", "ean8"', '"ean8", "ean13"'), ("return *one == *other;", "return !*one;")):
            out = Path(tempfile.mkdtemp(dir=self.library.folder))
            made = self.library.make(self.library.changed(("labels.c", old, new)), out, "all")
            self.assertEqual(made.returncode, 0)
            [shared] = out.glob("liblabels.so.*")
            self.assert_fails("env", f"LABELS_LIBRARY={shared}", PYTHON, "-c", NAMES)

    def test_no_library(self) -> None:
        none = self.library.folder / "none.so"
        self.assert_fails("env", f"LABELS_LIBRARY={none}", PYTHON, "-c", "import liblabels")


if __name__ == "__main__":
    unittest.main()
