"""A desk for tests: label-print on a roll by a journal and printers, as a command or a stream."""

import fcntl
import os
import sqlite3
import struct
import subprocess
import tempfile
import termios
import time
import unittest
from contextlib import closing
from pathlib import Path
from types import MappingProxyType
from typing import Any, IO, Mapping, Sequence
from unittest import mock

import jobs
import support
from labeltools.lines.file import read_lines
from labeltools.sending.database import Database
from labeltools.sending.journal import BEGIN, Journal
from printers import LABEL

PIPE, NULL = subprocess.PIPE, subprocess.DEVNULL
ROLL = ("--paper", "60x40", "--dpi", "203", "--to", "zpl")
TICKETS = b"".join(b"qr T%05d\n" % number for number in range(1, 31))
# What code before the tool can call.
START = """
import fcntl, os, resource, signal, sys
from labeltools.common.process import start
from labeltools.common.text import Text
from labeltools.sending import journal, network, stream
from labeltools.sending.outlets import Broken, StandardOutput

def end():
    os.kill(os.getpid(), signal.SIGTERM)

def broken():
    raise Broken(Text("it is off"))

def limit(size):
    resource.setrlimit(resource.RLIMIT_FSIZE, (size, size))

{code}
start("label-print", "labeltools.commands.label_print")
"""
# Where the lines of a program come from, and what it writes goes: a file or its number, PIPE, NULL.
End = int | IO[bytes]


def printed(*words: str, input: bytes = TICKETS) -> "support.Finished[bytes]":
    """Runs label-print on a roll, in this process."""
    return support.printed(*ROLL, *words, input=input)


def labels_in(done: "support.Finished[bytes]") -> list[bytes]:
    """The labels on standard output."""
    return LABEL.findall(done.stdout)


def on_paper(done: "support.Finished[bytes]") -> list[bytes]:
    """The dots of the labels on standard output, each as often as it is printed."""
    return [dots.tobytes() for dots in jobs.dots_of_zpl(done.stdout)]


def entry(
    state: str, code: str, place: str = "line 1", printer: str = "tcp://a"
) -> tuple[str, str, str, str]:
    """A label of a journal, of a run that has ended."""
    return code, state, printer, place


def program(code: str = "") -> Sequence[str]:
    """The command label-print, with some code before it."""
    tool = [str(support.TOOLS / "label-print")]
    return ["/usr/bin/python3", "-c", START.format(code=code)] if code else tool


class Program(subprocess.Popen[bytes]):
    """A program that runs, with its pipes."""

    stdin: IO[bytes]
    stdout: IO[bytes]
    stderr: IO[bytes]

    def end(self) -> None:
        """Kills it, waits for its end, and closes its pipes."""
        self.kill()
        for pipe in (self.stdin, self.stdout, self.stderr):
            if pipe is not None:
                pipe.close()
        self.wait(support.SECONDS)

    def done(self, input: bytes = TICKETS) -> "support.Finished[bytes]":
        """What becomes of it, once it has these lines."""
        output, said = self.communicate(input, support.SECONDS)
        return support.Finished(self.args, self.returncode, output, said)

    def write(self, lines: bytes) -> None:
        """Writes lines."""
        self.stdin.write(lines)
        self.stdin.flush()

    def answer(self, line: bytes = b"") -> str:
        """The next answer of a stream, after a line is written."""
        if line:
            self.write(line)
        return self.stderr.readline().decode()


def open_files(run: Program, path: str) -> int:
    """How many open files of a program are this one."""
    names = Path(f"/proc/{run.pid}/fd").iterdir()
    return sum(name.exists() and name.samefile(path) for name in names)


class Desk(unittest.TestCase):
    """Tests with a folder and the name of a journal in it."""

    def setUp(self) -> None:
        folder = tempfile.TemporaryDirectory()
        self.addCleanup(folder.cleanup)
        self.folder = folder.name
        self.path = f"{self.folder}/journal"
        self.records = read_lines(TICKETS, "lines").records
        # A printer of these tests has its time on a busy machine too.
        for name, seconds in (("FAREWELL", float(support.SECONDS)), ("ANSWER", 10.0)):
            patient = mock.patch(f"labeltools.sending.network.{name}", seconds)
            self.addCleanup(patient.stop)
            patient.start()

    def events(self) -> list[str]:
        """What became last of each label of the journal."""
        return [state for (state,) in self.select("SELECT state FROM labels ORDER BY rowid")]

    def select(self, statement: str, *values: Any) -> list[Any]:
        """What a statement finds in the journal, or does there."""
        with closing(sqlite3.connect(self.path, isolation_level=None)) as base:
            return base.execute(statement, values).fetchall()

    def add(self, entry: tuple[str, str, str, str]) -> None:
        """Adds a label to the journal."""
        code, state, printer, place = entry
        ((run,),) = self.select(BEGIN, printer)
        columns = "labels (code, state, run, turn, place)"
        self.select(f"INSERT INTO {columns} VALUES (?, ?, ?, 1, ?)", code, state, run, place)

    def remove(self) -> None:
        """Removes the journal."""
        for end in ("", "-wal", "-shm"):
            Path(f"{self.path}{end}").unlink(missing_ok=True)

    def journal(self, *entries: tuple[str, str, str, str]) -> str:
        """Writes a new journal, and returns its name."""
        self.remove()
        Database(self.path)
        for found in entries:
            self.add(found)
        return self.path

    def keeper(self, *words: str) -> "support.Finished[bytes]":
        """What a keeper says of labels in doubt: the command needs no paper, and no lines."""
        return support.run_here("label-print", "--journal", self.path, *words)

    def said(self, done: "support.Finished[bytes]", status: int, pattern: str) -> None:
        """Compares a status and a message."""
        text = done.stderr.decode()
        self.assertEqual(done.returncode, status, text)
        self.assertRegex(text, pattern)

    def is_doubtful(self, journal: Journal, number: int) -> bool:
        """Whether the label of a line of TICKETS, from 0, is in doubt."""
        return self.records[number].code_line in journal.doubtful()

    # ---- programs

    def begin(
        self,
        *words: str,
        code: str = "",
        stdin: End = PIPE,
        stdout: End = NULL,
        stderr: End = PIPE,
        variables: Mapping[str, str] = MappingProxyType({}),
    ) -> Program:
        """Starts label-print on a roll, with some code before it; it ends with the test."""
        run = Program(
            [*program(code), *ROLL, *words],
            stdin=stdin,
            stdout=stdout,
            stderr=stderr,
            env={**support.environment(), **variables},
            cwd=support.TOOLS,
        )
        self.addCleanup(run.end)
        return run

    def other(self, code: str, *words: str) -> Program:
        """Starts other code, which can have a journal of its own; it ends with the test."""
        command = ["/usr/bin/python3", "-c", START.rpartition("start(")[0].format(code=code)]
        run = Program([*command, *words], stdin=PIPE, stdout=PIPE, cwd=support.TOOLS)
        self.addCleanup(run.end)
        return run

    def holding(self) -> Program:
        """A run that keeps the journal until its standard input ends."""
        code = (
            "base = journal.Database(sys.argv[1]).base; base.execute('BEGIN EXCLUSIVE')\n"
            "print('locked', flush=True); sys.stdin.read()\n"
        )
        lane = self.other(code, self.path)
        self.assertEqual(lane.stdout.readline(), b"locked\n")
        return lane

    # ---- streams

    def answers(self, input: bytes, *words: str) -> list[str]:
        """The answers to lines."""
        done = printed("--stream", *words, input=input)
        self.assertEqual(done.stderr.count(b"\n"), len(done.stderr.splitlines()))
        return done.stderr.decode().splitlines()

    def fifo(self) -> str:
        """A new FIFO in the folder."""
        path = f"{self.folder}/till"
        os.mkfifo(path)
        return path

    def written(self, stream: Program, fifo: str, data: bytes) -> None:
        """Writes into a FIFO, as a writer that comes and goes, and waits until its stream has read
        that, and waits for the next writer, as one itself.
        """
        reader = os.open(fifo, os.O_RDONLY | os.O_NONBLOCK)
        Path(fifo).write_bytes(data)
        while unread(reader) or open_files(stream, fifo) < 2:
            time.sleep(0.01)
        os.close(reader)


def unread(file: int) -> int:
    """How many bytes are in a FIFO."""
    found = fcntl.ioctl(file, termios.FIONREAD, struct.pack("i", 0))
    return int(struct.unpack("i", found)[0])
