"""The program `labels`: its arguments, files that cannot be opened, and lines of each kind, in pieces.

Expected values come from the standards, the man page, and other programs: none of them is output of `labels` itself.
"""

import contextlib
import errno
import fcntl
import re
import resource
import struct
import subprocess
import tempfile
import termios
import time
import unittest
from pathlib import Path
from typing import Iterator, Sequence

import support
from program_lines import DRAWN, EAN8, OPTIONS, pbm, REFUSED

Ran = tuple[int, bytes, bytes]

# How the format information of level M and of level H begins under mask 0 (ISO/IEC 18004, Annex C).
M_0 = "101010"
H_0 = "001011"

BAD_ARGUMENTS = (2, b"", b"labels: bad words\n")
NO_FILE = (3, b"", b"labels: cannot open file\n")
NO_MEMORY = (3, b"", b"labels: no memory\n")

# A library that is loaded before the C library: the first opening of a file fails with the error of this number, and
# each later one for want of permission, since the system's call is made anew where it was interrupted.
REFUSING = """
#include <errno.h>
#include <stdlib.h>

static int refuse(void) {
    static int calls;
    errno = calls++ ? EACCES : atoi(getenv("ERROR"));
    return -1;
}

int open(const char *path, int flags, ...) { return refuse(); }
int open64(const char *path, int flags, ...) { return refuse(); }
int openat(int folder, const char *path, int flags, ...) { return refuse(); }
int openat64(int folder, const char *path, int flags, ...) { return refuse(); }
"""


def text(rows: Sequence[str]) -> bytes:
    """The text picture of rows of pixels: two letters for a pixel, and an empty line at the end."""
    return ("\n".join(rows).replace("0", "  ").replace("1", "##") + "\n\n").encode()


def scaled(rows: Sequence[str], scale: int) -> list[str]:
    """Rows of `scale` by `scale` pixels a module."""
    wide = ["".join(scale * pixel for pixel in row) for row in rows]
    return [row for row in wide for _ in range(scale)]


def rows_of(picture: bytes) -> list[str]:
    """The rows of pixels of one plain PBM."""
    mark, size, *lines = picture.decode().split("\n")
    width, height = map(int, size.split())
    pixels = "".join(lines)
    assert (mark, len(pixels)) == ("P1", width * height)
    return [pixels[start : start + width] for start in range(0, len(pixels), width)]


def format_bits(rows: Sequence[str]) -> str:
    """The first six bits of a QR symbol's format information: below its upper left finder pattern, from the left."""
    return rows[4 + 8][4 : 4 + 6]


def ran(*arguments: str, data: bytes = b"", cwd: str = ".", **variables: str) -> Ran:
    """The status, standard output and standard error of a run."""
    done = support.run(support.labels_program(), *arguments, input=data, cwd=cwd, **variables)
    return done.returncode, done.stdout, done.stderr


class InFolder(unittest.TestCase):
    folder: str

    @classmethod
    def setUpClass(cls) -> None:
        """A folder with a file of one label."""
        cls.folder = cls.enterClassContext(tempfile.TemporaryDirectory())
        Path(cls.folder, "a-file").write_bytes(b"ean8 7351353\n")

    def ran(self, *arguments: str, **variables: str) -> Ran:
        return ran(*arguments, data=b"", cwd=self.folder, **variables)


class Arguments(InFolder):
    def test_no_arguments(self) -> None:
        """Plain PBM at scale 1 and height 50 of standard input, level M, version 1, mask 0 for this symbol."""
        self.assertEqual(ran(data=b"ean8 7351353\n"), (0, pbm(50 * [EAN8]), b""))
        status, out, err = ran(data=b"qr 01234567\n")
        self.assertEqual(
            (status, len(rows_of(out)), format_bits(rows_of(out)), err), (0, 29, M_0, b"")
        )
        # A backslash is a plain byte: three characters of Code 128, its start, check and stop, and quiet zones.
        self.assertEqual(ran(data=b"code128 a\\x\n")[1][:9], b"P1\n88 50\n")

    def test_each_option(self) -> None:
        """`-` is the name of a file. What options say of a QR symbol, a line's settings say as well."""
        Path(self.folder, "-").write_bytes(b"ean8 7351353\nqr a\\x41\n")
        drawing = (
            "--format ascii --scale=8 --height 1 --level H --min-version 10 --mask 0 --escapes -"
        )
        status, out, err = ran(data=b"qr,level=H,min-version=10,mask=0 aA\n")
        symbol = rows_of(out)
        self.assertEqual((status, len(symbol), format_bits(symbol), err), (0, 65, H_0, b""))
        pictures = text(scaled([EAN8], 8)) + text(scaled(symbol, 8))
        self.assertEqual(self.ran(*drawing.split()), (0, pictures, b""))

    def test_many_arguments_are_bad(self) -> None:
        for argument in ("--no-such-option", "-x", "--scale=9", "--scale=2", "--escapes", "a-file"):
            for count in (2, 3, 15, 16, 1000):
                self.assertEqual(self.ran(*count * [argument]), BAD_ARGUMENTS, (argument, count))

    def test_the_most_arguments(self) -> None:
        """Each option and a file are taken, and no argument more."""
        options = "--format pbm --scale 1 --height 50 --level M --min-version 1 --mask 7 --escapes -- a-file"
        self.assertEqual(self.ran(*options.split()), (0, pbm(50 * [EAN8]), b""))
        self.assertEqual(self.ran(*options.split(), 5000 * "a"), BAD_ARGUMENTS)


class Files(InFolder):
    def test_a_file_is_read(self) -> None:
        """And not the input."""
        Path(self.folder, "two").write_bytes(b"ean8 7351353\npdf x\n")
        found = ran("--height", "1", "two", data=b"upca 03600029145\n", cwd=self.folder)
        self.assertEqual(found, (1, pbm([EAN8]), b"line 2: unknown symbology\n"))

    def test_what_is_left_of_the_input(self) -> None:
        """All of it, but after a run over it: a script may read it before and after."""
        script = '"$@" > pictures 2> messages; echo $?; cat'
        lines = b"ean8 7351353\nupca 03600029145\n"
        for words, status, left in (
            (["a-file"], 0, lines),
            (["there-is-no-such-file"], 3, lines),
            (["."], 3, lines),
            (["--scale", "9"], 2, lines),
            (["a-file", "a-file"], 2, lines),
            (["--help"], 0, lines),
            (["-h", "a-file"], 0, lines),
            (["--height", "1"], 0, b""),
        ):
            command = ["-c", script, "sh", str(support.labels_program()), *words]
            done = support.run("/bin/sh", *command, input=lines, cwd=self.folder)
            self.assertEqual(done.stdout, b"%d\n%s" % (status, left), words)

    def test_a_folder_cannot_be_read(self) -> None:
        """The system opens a folder, and then fails to read it."""
        self.assertEqual(self.ran("."), (3, b"", b"labels: read failed\n"))

    def test_names_of_no_file(self) -> None:
        names = ["", "there-is-no-such-folder/a-file", "there-is-no-such-file"]
        for name in [*names, *(count * "a" for count in (255, 256, 4095, 4096, 5000))]:
            self.assertEqual(self.ran(name), NO_FILE, name)

    def test_only_an_error_of_memory_is_no_memory(self) -> None:
        """Each error that the system has, at the opening of a file that is there."""
        support.needs("cc")
        library = Path(self.folder, "refusing.so")
        command = ["cc", "-shared", "-fPIC", "-o", str(library), "-x", "c", "-"]
        subprocess.run(command, input=REFUSING.encode(), check=True)
        for number, name in sorted(errno.errorcode.items()):
            wanted = NO_MEMORY if number == errno.ENOMEM else NO_FILE
            found = self.ran("a-file", LD_PRELOAD=str(library), ERROR=str(number))
            self.assertEqual(found, wanted, name)


# Arguments, an input and its messages: lengths that just fit and one more, and what ends a line.
FITTING = (
    ("--level L", b"qr " + 271 * b"a" + b"\nqr " + 652 * b"1", b""),
    ("--level L", b"qr " + 272 * b"a" + b"\n", b"line 1: data does not fit version 10-L\n"),
    ("--level L", b"qr " + 653 * b"1" + b"\n", b"line 1: data does not fit version 10-L\n"),
    ("", b"ean8 7351353\r\n", b"line 1: not a digit at byte 8\n"),
    ("", 1101 * b"a" + b"\n#" + 2000 * b"a", b"line 1: line is longer than 1100 bytes\n"),
    ("", 1100 * b"a" + b"\n", b"line 1: unknown symbology\n"),
)


class Lines(unittest.TestCase):
    """What lines of each kind make: test_calls reads the same ones in pieces, cut anywhere."""

    def test_lines_are_drawn(self) -> None:
        data = b"".join(line + b"\n" for line, _ in DRAWN)
        for words, picture_of in (((), pbm), (("--format", "ascii"), text)):
            pictures = b"".join(picture_of(rows) for _, rows in DRAWN)
            self.assertEqual(ran(*OPTIONS, *words, data=data), (0, pictures, b""))

    def test_lines_are_refused(self) -> None:
        data = b"".join(line + b"\n" for line, _ in REFUSED)
        faults = enumerate([fault for _, fault in REFUSED], 1)
        said = b"".join(b"line %d: %s\n" % (number, fault) for number, fault in faults)
        self.assertEqual(ran(*OPTIONS, data=data), (1, b"", said))

    def test_what_fits_and_where_a_line_ends(self) -> None:
        for arguments, data, said in FITTING:
            status, _, messages = ran(*arguments.split(), data=data)
            self.assertEqual((status, messages), (1 if said else 0, said), (arguments, data[:9]))

    def test_lines_of_ten_million_letters(self) -> None:
        """A line that is too long, a comment, and a label that no line feed ends."""
        letters = 10_000_000 * b"a"
        data = b"\n".join((letters, b"#" + letters, b"ean8 7351353"))
        said = b"line 1: line is longer than 1100 bytes\n"
        self.assertEqual(ran("--height", "1", data=data), (1, pbm([EAN8]), said))


def is_read(pipe: int) -> bool:
    """Whether nothing is left in a pipe."""
    return struct.unpack("i", fcntl.ioctl(pipe, termios.FIONREAD, struct.pack("i", 0))) == (0,)


def ran_in_two(first: bytes, second: bytes) -> Ran:
    """A run that is given the second piece of its input once it has read the first."""
    command = [str(support.labels_program()), *OPTIONS]
    with subprocess.Popen(command, stdin=-1, stdout=-1, stderr=-1, bufsize=0) as running:
        assert running.stdin
        running.stdin.write(first)
        until = time.monotonic() + support.SECONDS
        while not is_read(running.stdin.fileno()) and time.monotonic() < until:
            time.sleep(0.0002)
        out, err = running.communicate(second, timeout=support.SECONDS)
        return running.returncode, out, err


@contextlib.contextmanager
def limited_files(size: int) -> Iterator[None]:
    """Meanwhile a write beyond this size of a file fails, also in programs that begin then."""
    before = resource.getrlimit(resource.RLIMIT_FSIZE)
    resource.setrlimit(resource.RLIMIT_FSIZE, (size, before[1]))
    try:
        yield
    finally:
        resource.setrlimit(resource.RLIMIT_FSIZE, before)


def code128_of_one(byte: int) -> str:
    """The row of Code 128 of one ASCII character (ISO/IEC 15417): set B, and set A for a control character, where it
    comes after the others."""
    table = support.TOP / "crates/linear/specs/Tables.antt"
    widths = re.findall(r"\b[1-4]{6,7}\b", table.read_text(encoding="utf-8"))
    start, value = (103, byte + 64) if byte < 32 else (104, byte - 32)
    shown = [widths[number] for number in (start, value, (start + value) % 103, 106)]
    bars = "".join("10"[place % 2] * int(width) for place, width in enumerate("".join(shown)))
    return f"{10 * '0'}{bars}{10 * '0'}"


@support.slow
class Pieces(unittest.TestCase):
    """Inputs and outputs that are cut at every place."""

    def test_each_cut_of_the_input(self) -> None:
        """Into two pieces, which are read one after the other: a line is cut at each of its bytes."""
        refused = [*REFUSED[:2], *REFUSED[4:7]]
        data = b"#\n" + b"\n".join(line for line, _ in [*refused, *DRAWN[4:]])
        pictures = b"".join(pbm(rows) for _, rows in DRAWN[4:])
        faults = enumerate([fault for _, fault in refused], 2)
        said = b"".join(b"line %d: %s\n" % fault for fault in faults)
        for cut in range(len(data) + 1):
            found = ran_in_two(data[:cut], data[cut:])
            self.assertEqual(found, (1, pictures, said), data[:cut])

    def test_each_byte_in_a_line(self) -> None:
        """A character that is drawn, one that is not ASCII, and a line feed, which ends a line without data."""
        data = b"".join(b"code128 %c\n" % byte for byte in range(256))
        pictures = b"".join(pbm([code128_of_one(byte)]) for byte in range(128) if byte != 10)
        faults = [(11, "no data"), *((byte + 2, "byte 1 is not ASCII") for byte in range(128, 256))]
        said = "".join(f"line {number}: {fault}\n" for number, fault in faults).encode()
        self.assertEqual((len(pictures), len(faults)), (9525, 129))
        self.assertEqual(ran("--height", "1", data=data), (1, pictures, said))

    def test_each_end_of_the_output(self) -> None:
        """The file that takes the pictures is full after each byte: those before are whole, and of the last one there
        is a beginning."""
        command = [str(support.labels_program()), *OPTIONS]
        data = b"\n".join(line for line, _ in DRAWN)
        pictures = b"".join(pbm(rows) for _, rows in DRAWN)
        with tempfile.TemporaryFile() as taken, tempfile.TemporaryFile() as given:
            given.write(data)
            for size in range(len(pictures)):
                taken.seek(0)
                taken.truncate()
                given.seek(0)
                # Python ignores the signal of a full file, and so does the program. The limit is set here, and not in
                # a fork, which would copy this process each time.
                with limited_files(size):
                    done = subprocess.run(
                        command,
                        stdin=given,
                        stdout=taken,
                        stderr=-1,
                        timeout=support.SECONDS,
                        restore_signals=False,
                    )
                taken.seek(0)
                found = done.returncode, taken.read(), done.stderr
                self.assertEqual(found, (3, pictures[:size], b"labels: write failed\n"))


if __name__ == "__main__":
    unittest.main()
