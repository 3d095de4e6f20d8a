"""The calls of the system that the program `labels` makes: their order, their number, how much each
moves, and what follows one that fails.

A library that is loaded before the C library notes each opening, each read and each write. No
clause says what is seen here: a clause speaks of one device alone, and std's clauses do not say
when a call fails, or what the system opens.
"""

import errno
import os
import subprocess
import tempfile
import unittest
from dataclasses import dataclass
from pathlib import Path
from typing import Sequence

import support
from program_lines import DRAWN, EAN8, OPTIONS, pbm, REFUSED

# A call: where it reads or writes, how many bytes it asks for, and how many it moves; -1 where it
# fails.
Call = tuple[int, int, int]
# A line, and the picture and the message that it makes.
Line = tuple[bytes, bytes, bytes]

INPUT, IMAGES, MESSAGES = range(3)
# How many bytes the program asks for at each read, and how many of its pictures it keeps until it
# writes them.
BUFFER = 4096
ROOM = 32768
ALL = 1 << 30
TOO_LONG = b"line is longer than 1100 bytes"
ENDS = {
    INPUT: b"labels: read failed\n",
    IMAGES: b"labels: write failed\n",
    MESSAGES: b"labels: write failed\n",
}

# Notes the name of each file that is opened, and each read and each write; these move at most so
# many bytes, and fail at the call of this number, counted from 1.
NOTING = """
#include <errno.h>
#include <fcntl.h>
#include <limits.h>
#include <stdio.h>
#include <stdlib.h>
#include <sys/syscall.h>
#include <unistd.h>

static void note(const char *line, int length) {
    if (syscall(SYS_write, atoi(getenv("RECORD")), line, length) != length)
        abort();
}

static int opened(int folder, const char *path, int flags) {
    char line[PATH_MAX];
    note(line, snprintf(line, sizeof line, "open %s\\n", path));
    return syscall(SYS_openat, folder, path, flags);
}

int open(const char *path, int flags, ...) { return opened(AT_FDCWD, path, flags); }
int open64(const char *path, int flags, ...) { return opened(AT_FDCWD, path, flags); }
int openat(int folder, const char *path, int flags, ...) { return opened(folder, path, flags); }
int openat64(int folder, const char *path, int flags, ...) { return opened(folder, path, flags); }

static ssize_t move(long call, int file, const void *bytes, size_t asked, const char *most) {
    static int calls;
    char line[80];
    size_t count = atol(getenv(most)) < (long) asked ? atol(getenv(most)) : asked;
    int fails = ++calls == atoi(getenv("FAILING"));
    long moved = fails ? -1 : count ? syscall(call, file, bytes, count) : 0;
    note(line, snprintf(line, sizeof line, "%d %zu %ld\\n", file, asked, moved));
    errno = atoi(getenv("ERROR"));
    return moved;
}

ssize_t read(int file, void *bytes, size_t asked) {
    return move(SYS_read, file, bytes, asked, "READ");
}

ssize_t write(int file, const void *bytes, size_t asked) {
    return move(SYS_write, file, bytes, asked, "WRITTEN");
}
"""


@dataclass(frozen=True)
class Ran:
    """The calls of a run, its status, what it wrote, and the files that it opened, in order."""

    calls: list[Call]
    status: int
    images: bytes
    messages: bytes
    opened: tuple[str, ...] = ()


@dataclass(frozen=True)
class Most:
    """The most bytes that a read and a write move."""

    read: int = ALL
    written: int = ALL

    def calls_of(self, file: int, length: int) -> list[Call]:
        """The calls that write so many bytes."""
        places = range(0, length, self.written)
        return [(file, length - place, min(length - place, self.written)) for place in places]


def told(lines: Sequence[Line]) -> list[Line]:
    """The same lines, each with the number of its line before its message."""
    numbered = enumerate(lines, 1)
    return [
        (line, image, b"line %d: %s\n" % (number, said) if said else b"")
        for number, (line, image, said) in numbered
    ]


def input_of(lines: Sequence[Line]) -> bytes:
    """The input of these lines. No line feed ends the last one."""
    return b"\n".join(line for line, *_ in lines)


def right_run(lines: Sequence[Line], most: Most) -> Ran:
    """The run over lines: pictures are written before each read and each message that follows
    them, at the end, and where no more can be kept.
    """
    data = input_of(lines)
    calls: list[Call] = []
    place = end = kept = 0
    for line, image, said in lines:
        end += len(line) + 1
        while place < end:
            calls += most.calls_of(IMAGES, kept)
            kept = 0
            given = min(most.read, BUFFER, len(data) - place)
            calls.append((INPUT, BUFFER, given))
            # A read that gives nothing ends the last line, as a line feed ends another one.
            place += given or 1
        kept += len(image)
        while kept > ROOM:
            calls += most.calls_of(IMAGES, ROOM)
            kept -= ROOM
        if said:
            calls += most.calls_of(IMAGES, kept) + most.calls_of(MESSAGES, len(said))
            kept = 0
    calls += most.calls_of(IMAGES, kept)
    _, images, messages = map(b"".join, zip(*lines))
    return Ran(calls, int(bool(messages)), images, messages)


# Lines of each kind: those that are drawn, that are refused, and that are skipped.
KINDS: list[Line] = [
    *((line, pbm(rows), b"") for line, rows in DRAWN),
    *((line, b"", said) for line, said in REFUSED),
    *((line, b"", b"") for line in (b"", b"# a comment", b"#" + 1200 * b"a")),
    (1101 * b"a", b"", TOO_LONG),
    (1100 * b"a", b"", b"unknown symbology"),
]
LINES = told(15 * [KINDS[place * 7 % len(KINDS)] for place in range(len(KINDS))])
EAN8_LINE: Line = (b"ean8 7351353", pbm([EAN8]), b"")
PDF_LINE: Line = (b"pdf x pdf x ", b"", b"unknown symbology")
# Lines of 13 bytes each, in turn; and a line that is too long, a comment and a label.
IN_TURN = told([EAN8_LINE, PDF_LINE, EAN8_LINE, PDF_LINE, EAN8_LINE])
TWICE_DRAWN = told([EAN8_LINE, EAN8_LINE])
TWICE_REFUSED = told([PDF_LINE, PDF_LINE])
LONG = told([(1101 * b"a", b"", TOO_LONG), (b"#" + 2000 * b"a", b"", b""), EAN8_LINE])


class Calls(unittest.TestCase):
    folder: str

    @classmethod
    def setUpClass(cls) -> None:
        """The library that notes the calls."""
        support.needs("cc")
        cls.folder = cls.enterClassContext(tempfile.TemporaryDirectory())
        command = ["cc", "-shared", "-fPIC", "-o", f"{cls.folder}/noting.so", "-x", "c", "-"]
        subprocess.run(command, input=NOTING.encode(), check=True)

    def ran(
        self,
        lines: Sequence[Line],
        most: Most,
        failing: int = 0,
        error: int = errno.EIO,
        command: Sequence[str] = (),
    ) -> Ran:
        """A run over lines, of whose calls the one of this number fails with an error; or of
        another command, to which they are given.
        """
        Path(self.folder, "input").write_bytes(input_of(lines))
        with open(f"{self.folder}/input", "rb") as given, open(
            f"{self.folder}/record", "w+"
        ) as record:
            done = subprocess.run(
                command or [str(support.labels_program()), *OPTIONS],
                stdin=given,
                capture_output=True,
                pass_fds=[record.fileno()],
                timeout=support.SECONDS,
                env={
                    **os.environ,
                    "LD_PRELOAD": f"{self.folder}/noting.so",
                    "RECORD": str(record.fileno()),
                    "READ": str(most.read),
                    "WRITTEN": str(most.written),
                    "FAILING": str(failing),
                    "ERROR": str(error),
                },
            )
            record.seek(0)
            noted = [line.rstrip("\n").partition(" ") for line in record]
        opened = tuple(rest for word, _, rest in noted if word == "open")
        moves = [(int(word), *map(int, rest.split())) for word, _, rest in noted if word != "open"]
        calls = [(file, asked, moved) for file, asked, moved in moves]
        return Ran(calls, done.returncode, done.stdout, done.stderr, opened)

    def assert_stops(
        self, right: Ran, lines: Sequence[Line], most: Most, failing: int, error: int = errno.EIO
    ) -> None:
        """What was done before the call that fails is done, and after it the line of the end alone
        is written: a second call of the same kind would succeed.
        """
        before, (file, asked, _) = right.calls[: failing - 1], right.calls[failing - 1]
        ends = most.calls_of(MESSAGES, len(ENDS[file]))
        moved = [
            sum(moved for where, _, moved in before if where == output)
            for output in (IMAGES, MESSAGES)
        ]
        calls = [*before, (file, asked, -1), *ends]
        wanted = Ran(calls, 3, right.images[: moved[0]], right.messages[: moved[1]] + ENDS[file])
        self.assertEqual(self.ran(lines, most, failing, error), wanted, (failing, error))

    def test_the_calls_of_300_lines_are_in_order(self) -> None:
        """Reads of fewer bytes than the program asks for, of as many, and writes of few; each is
        asked for all.
        """
        self.assertEqual(len(LINES), 300)
        for most in (Most(1), Most(13), Most(BUFFER), Most(), Most(BUFFER, 10), Most(1, 1)):
            self.assertEqual(self.ran(LINES, most), right_run(LINES, most), most)

    def test_pictures_are_written_when_no_more_can_be_kept(self) -> None:
        """All that are kept are one write then, also where a call moves fewer bytes."""
        picture = pbm(50 * [EAN8])
        for count in range(1, 30):
            lines = told(count * [(b"ean8,height=50 7351353", picture, b"")])
            for most in (Most(), Most(BUFFER, 4096)):
                self.assertEqual(self.ran(lines, most), right_run(lines, most), (count, most))

    def test_nothing_follows_a_call_that_fails(self) -> None:
        """Each call of a run fails once."""
        for lines, most in (
            (IN_TURN, Most(13)),
            (IN_TURN, Most(1)),
            (IN_TURN, Most()),
            (IN_TURN, Most(BUFFER, 50)),
            (TWICE_DRAWN, Most(BUFFER, 1)),
            (TWICE_REFUSED, Most(BUFFER, 1)),
            (LONG, Most(100)),
            (LONG, Most(BUFFER, 1)),
        ):
            right = right_run(lines, most)
            self.assertEqual(self.ran(lines, most), right)
            for failing in range(1, len(right.calls) + 1):
                self.assert_stops(right, lines, most, failing)

    def test_each_error_is_a_failure(self) -> None:
        """Each error of the system, at a read, at a write of pictures and at one of messages."""
        most = Most(13)
        right = right_run(IN_TURN, most)
        first = [[file for file, *_ in right.calls].index(file) + 1 for file in ENDS]
        for number in sorted(errno.errorcode):
            for failing in first:
                self.assert_stops(right, IN_TURN, most, failing, number)

    def test_only_a_named_file_is_opened_and_read(self) -> None:
        """Once, and nothing of the input. A program that opens two files is seen to do it."""
        named, other = f"{self.folder}/named", f"{self.folder}/other"
        Path(named).write_bytes(input_of(IN_TURN))
        program = str(support.labels_program())
        for command, status, opened in (
            ([program, named], 1, (named,)),
            ([program, other], 3, (other,)),
            ([program, named, named], 2, ()),
            ([program, "--scale=9", named], 2, ()),
            ([program, "--help"], 0, ()),
            (["cat", named, named], 0, (named, named)),
        ):
            ran = self.ran(IN_TURN, Most(), command=command)
            self.assertEqual((ran.status, ran.opened), (status, opened), command)
            self.assertNotIn(INPUT, [file for file, *_ in ran.calls], command)

    def test_a_write_that_takes_nothing_fails(self) -> None:
        ran = self.ran(IN_TURN, Most(13, 0))
        end = (MESSAGES, len(ENDS[IMAGES]), 0)
        self.assertEqual(ran, Ran([(INPUT, BUFFER, 13), (IMAGES, 91, 0), end], 3, b"", b""))


if __name__ == "__main__":
    unittest.main()
