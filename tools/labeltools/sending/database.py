"""The file of a journal: a database of SQLite, which several runs of one computer share.

Each statement is a step of its own. Steps are added to a log beside the file: what has to be there
if the power fails is synced once, and a step that is not comes to the disk with the next one, or is
lost as a whole.

The log has an index in memory, which two computers that share a disk do not share: each would print
the same labels. So a run locks a byte of its computer, too, and a run of another one is refused.
A run locks the byte of its number, far behind the end of the file, for as long as it goes on.
"""

import errno
import fcntl
import os
import sqlite3
import stat
import struct
from collections.abc import Iterator
from contextlib import contextmanager
from pathlib import Path
from typing import Any

from labeltools.common.messages import ToolError
from labeltools.common.text import NOTHING, Text
from labeltools.sending.text_journal import HEAD, read_text_journal

APPLICATION = 0x6C61626C  # in the head of the file: it is a journal
TABLES = """
CREATE TABLE IF NOT EXISTS runs (
    number INTEGER PRIMARY KEY AUTOINCREMENT,
    printer TEXT NOT NULL
);
CREATE TABLE IF NOT EXISTS labels (
    code TEXT PRIMARY KEY,
    state TEXT NOT NULL DEFAULT 'sent',
    run INTEGER NOT NULL REFERENCES runs,
    turn INTEGER NOT NULL,
    place TEXT NOT NULL,
    time TEXT NOT NULL DEFAULT CURRENT_TIMESTAMP
);
"""
SCHEMA = f"BEGIN IMMEDIATE; PRAGMA application_id = {APPLICATION}; {TABLES} COMMIT"
ADD_RUN = "INSERT INTO runs (printer) VALUES (?) RETURNING number"
ADD_LABEL = "INSERT INTO labels (code, state, run, turn, place, time) VALUES (?, ?, ?, 0, ?, ?)"
LOG = "wal"  # the mode of a database with a log
FAR = 1 << 62  # of a file: bytes that are locked and never written
COMPUTERS = 1 << 61
MOST_COMPUTERS = 1 << 48
BOOT = Path("/proc/sys/kernel/random/boot_id")  # another one for each computer that is running
LOCK = struct.Struct("hhqqi4x")  # the kind of a lock, what its byte is counted from, and who has it
WAIT = 60.0  # seconds that a run may wait for another one
PRIVATE, OTHERS = 0o600, 0o066
NO_JOURNAL = Text("give a file that is a journal, or a new name")
NOT_WRITTEN = Text("make it writable, and its folder")
NO_LOCKS = Text("put the journal on a disk that locks files")
HINTS = {
    sqlite3.SQLITE_NOTADB: NO_JOURNAL,
    sqlite3.SQLITE_BUSY: Text("is another run stopped? continue it or end it"),
    sqlite3.SQLITE_READONLY: NOT_WRITTEN,
    sqlite3.SQLITE_CANTOPEN: NOT_WRITTEN,
    sqlite3.SQLITE_FULL: Text("make room there"),
}


class Database:
    """An open database; `has_others` is whether other users than its owner may read or write it."""

    def __init__(self, path: str) -> None:
        """Opens it, or makes it; raises `ToolError` if it is no journal, or another computer has it
        open, and `OSError`.
        """
        self.path = path
        self.file = journal_file(path)  # never closed: SQLite would lose its locks
        while os.pread(self.file, len(HEAD), 0) == HEAD:
            self.replace_text()
            os.close(self.file)  # which SQLite does not know yet
            self.file = journal_file(path)
        self.lock_computer()
        with self.errors():
            self.base = sqlite3.connect(path, WAIT, isolation_level=None)
            self.check()
            ((mode,),) = self.base.execute(f"PRAGMA journal_mode = {LOG}")
        if mode != LOG:
            what = Text("{}: this disk does not take a journal", path)
            raise ToolError(what, Text("put it on a disk of this computer"))
        self.has_others = bool(os.fstat(self.file).st_mode & OTHERS)

    def check(self) -> None:
        """Makes the tables of an empty file; raises `ToolError` if it has other ones."""
        (count,) = self.base.execute("SELECT count(*) FROM sqlite_schema").fetchone()
        (kind,) = self.base.execute("PRAGMA application_id").fetchone()  # which comes with them
        if not count:
            self.base.executescript(SCHEMA)
        elif kind != APPLICATION:
            raise ToolError(Text("{} is not a journal", self.path), NO_JOURNAL)

    def lock_computer(self) -> None:
        """Shows other computers that this one has the file open; raises `ToolError` if one of them
        does.
        """
        own = COMPUTERS + 1 + int(BOOT.read_text().replace("-", ""), 16) % MOST_COMPUTERS
        self.lock(fcntl.F_OFD_SETLK, fcntl.F_RDLCK, own)
        for first, last in ((COMPUTERS, own), (own + 1, COMPUTERS + MOST_COMPUTERS + 1)):
            if self.is_locked(fcntl.F_WRLCK, first, last - first):
                what = Text("{}: another computer has it open", self.path)
                hint = Text("print from one computer at a time, or use a journal on PostgreSQL")
                raise ToolError(what, hint)

    def replace_text(self) -> None:
        """Makes a database of a journal of text, which is kept beside it; raises `ToolError`."""
        self.lock(fcntl.F_OFD_SETLKW, fcntl.F_WRLCK, FAR)  # as its runs lock it to write
        if not is_in_place(self.path, self.file):
            return
        if self.is_locked(fcntl.F_WRLCK, FAR + 1, 1 << 32):
            what = Text("{}: a run of an older version goes on", self.path)
            raise ToolError(what, Text("wait until it has ended"))
        new = f"{self.path}.new"
        Path(new).unlink(missing_ok=True)
        os.close(journal_file(new))
        with self.errors():
            base = sqlite3.connect(new, isolation_level=None)
            base.executescript(SCHEMA)
            base.execute("BEGIN")
            runs: dict[str, int] = {}
            known = read_text_journal(self.path, self.file)
            for code, (state, printer, place, when) in known.items():
                if printer not in runs:
                    ((runs[printer],),) = base.execute(ADD_RUN, (printer,)).fetchall()
                base.execute(ADD_LABEL, (code, state, runs[printer], place, when))
            base.execute("COMMIT")
            base.close()
        kept = Path(f"{self.path}.text")
        if not (kept.exists() and kept.samefile(self.path)):
            os.link(self.path, kept)
        os.replace(new, self.path)

    def require_place(self) -> None:
        """Raises `ToolError` if another file has its name: other runs read that one."""
        if not is_in_place(self.path, self.file):
            what = Text("{}: another program has changed it", self.path)
            raise ToolError(what, Text("put back the file that was there, or all is printed again"))

    def do(self, statement: str, *values: str | int, is_synced: bool = True) -> list[Any]:
        """Does a step, which is on the disk then if it is synced, and returns its rows; raises
        `ToolError`.
        """
        with self.errors():
            self.base.execute(f"PRAGMA synchronous = {'FULL' if is_synced else 'NORMAL'}")
            return self.base.execute(statement, values).fetchall()

    def hold(self, run: int) -> None:
        """Shows others that a run goes on, until it is released or the process ends."""
        self.lock(fcntl.F_OFD_SETLK, fcntl.F_WRLCK, FAR + run)

    def release(self, run: int) -> None:
        """Shows others that a run has ended."""
        self.lock(fcntl.F_OFD_SETLK, fcntl.F_UNLCK, FAR + run)

    def is_held(self, run: int) -> bool:
        """Returns whether another process shows that a run goes on. Who may only read the file has
        another kind of lock.
        """
        return self.is_locked(fcntl.F_RDLCK, FAR + run, 1)

    def close(self) -> None:
        """Closes it: then the file has all that was in the log."""
        with self.errors():
            self.base.close()

    def is_locked(self, asked: int, first: int, count: int) -> bool:
        """Returns whether another process has a lock of some bytes that keeps out one that is asked
        for.
        """
        found = self.lock(fcntl.F_OFD_GETLK, asked, first, count)
        return bool(LOCK.unpack(found)[0] != fcntl.F_UNLCK)

    def lock(self, command: int, kind: int, first: int, count: int = 1) -> bytes:
        """Does something with the lock of some bytes; raises `ToolError`."""
        try:
            asked = LOCK.pack(kind, os.SEEK_SET, first, count, 0)
            return fcntl.fcntl(self.file, command, asked)
        except OSError as error:
            hint = NO_LOCKS if error.errno in (errno.ENOLCK, errno.EINVAL) else NOTHING
            raise ToolError(Text("{}: {}", self.path, error.strerror), hint) from error

    @contextmanager
    def errors(self) -> Iterator[None]:
        """Raises `ToolError` in place of an error of SQLite."""
        try:
            yield
        except sqlite3.Error as error:
            self.require_place()  # which says more
            hint = HINTS.get(getattr(error, "sqlite_errorcode", 0) & 0xFF, NOTHING)
            raise ToolError(Text("{}: {}", self.path, str(error)), hint) from error


def journal_file(path: str) -> int:
    """Opens a file, or makes it, and returns its number; raises `ToolError` if it is no file of a
    disk, and `OSError`.
    """
    flags = os.O_RDWR | os.O_CREAT | os.O_CLOEXEC | os.O_NONBLOCK  # it waits for no FIFO
    file = os.open(path, flags, PRIVATE)
    if not stat.S_ISREG(os.fstat(file).st_mode):
        raise ToolError(Text("{} is not a journal", path), NO_JOURNAL)
    return file


def is_in_place(path: str, file: int) -> bool:
    """Returns whether an open file has its name still: an editor may write a new one."""
    try:
        return os.path.samestat(os.stat(path), os.fstat(file))
    except FileNotFoundError:
        return False
