"""Where labels go: standard output, files, a printer that is a file of the system; and what is
collected in a temporary file until all of it is there.
"""

import errno
import os
import re
import select
import stat
import tempfile
import time
from collections.abc import Callable, Sequence, Sized
from contextlib import nullcontext, suppress
from dataclasses import dataclass
from io import BytesIO, FileIO
from pathlib import Path
from typing import Any, BinaryIO, IO

from labeltools.common.files import events_of, save_file, temporary, Unwritten, write_whole
from labeltools.common.messages import Problem, Remedy, Talk, ToolError
from labeltools.common.process import standard_output
from labeltools.common.signals import hold_signals
from labeltools.common.text import NOTHING, Text
from labeltools.layout.layout import LaidOut
from labeltools.sending.answers import Query, Reply

OF_EACH = (Remedy("each"),)
OUTPUT = "standard output"
STUCK = 60.0  # seconds in which a printer takes nothing
LONGEST = 900.0  # seconds that it may take for one label, however much it takes at a time
QUIET = 5.0  # seconds of these before it is said
STOPPED = 2.0  # seconds of these if somebody has stopped the work
LOOK = 0.1  # seconds between two looks at a file that takes nothing
MOST_NAME = 100  # letters of the data in the name of a file
NUMBERED = re.compile(r"%0?\d?d", re.ASCII)
HINTS = {
    FileNotFoundError: Text("is it switched on, and connected?"),
    PermissionError: Text("sudo adduser $USER lp, then log in again"),
}


class Unreachable(ToolError):
    """A way out that is not there: nothing was sent."""


class Untaken(ToolError):
    """A way out that did not take a label: nothing of it is there."""


class Broken(Untaken):
    """A way out that took a part of a label, or all of it without saying so."""


class Outlet:
    """Where labels go. `is_direct` is whether each is there for certain once it was sent, whatever
    comes after it; `is_kept` is whether what was sent is in a file on a disk, `is_synced` whether
    each label has to be there before the next one, and `is_collected` whether nothing of it goes
    out before all is there. `open` is called before a label is written into the journal. `line` is
    what is open, if it has to be closed; `on_way` are the labels that went out since it is, and may
    be thrown away, and `done` is how many labels are before the next one. `came` has something once
    somebody has stopped the work, and `say` says that a printer is waited for. `broken` is what is
    said of its name and an error of the system.
    """

    name: str
    is_direct = False
    is_kept = False
    is_synced = True
    is_collected = False
    line: Any = None
    on_way: list[LaidOut]
    done = 0
    came: Sized = ()
    say: Callable[[Problem], object] = Talk().say
    broken = Text("{}: {}", "", "")

    def open(self) -> Any:
        """Returns the way out, which is made again after a good end; raises `ToolError` if nothing
        can be sent.
        """
        return self

    def send(self, data: bytes) -> None:
        """Sends what is whole by itself; raises `Untaken` if nothing of it is there, `Broken` if a
        part of it may have gone out, and what `open` does.
        """
        line = self.line or self.open()
        try:
            self.push(line, data)
        except Exception as error:
            self.drop()
            if not isinstance(error, OSError):
                raise
            kind = Untaken if isinstance(error, Unwritten) else Broken
            raise kind(self.broken.with_fields(self.name, error.strerror)) from error

    def push(self, line: Any, data: bytes) -> None:
        """Sends all bytes by what is open, here a file, for which a signal waits; what goes into
        one on a disk is there then, if it is synced. Raises `OSError`, and `Broken`.
        """
        file = line.fileno()
        with hold_signals() if self.name == OUTPUT else nullcontext():  # not in a window
            self.is_kept = stat.S_ISREG(os.fstat(file).st_mode)
            write_whole(data, file)
            if self.is_synced and self.is_kept:
                os.fdatasync(file)

    def ask(self, _question: Query) -> Reply | None:
        """Returns what a printer answers to a question; None if it does not. Raises `Broken`."""
        return None

    def close(self) -> None:
        """Ends the way out after what was sent; raises `Broken` if it broke off before."""
        try:
            self.drop()
        except OSError as error:
            raise Broken(self.broken.with_fields(self.name, error.strerror)) from error

    def drop(self) -> None:
        """Ends the way out at once."""
        line, self.line = self.line, None
        if line is not None:
            line.close()


@dataclass
class Patience:
    """The time of a printer that takes nothing of a label: a minute, but only moments if somebody
    stops the work then. One that takes something has a quarter of an hour for the label.
    """

    outlet: Outlet
    seconds: float
    left: int = -1  # bytes, at the last look
    since: float = 0.0
    begun: float = 0.0  # with the first look
    is_said: bool = False

    def check_progress(self, left: int) -> None:
        """Takes how many bytes are left; says once that it waits; raises `Broken` when its time is
        over.
        """
        now = time.monotonic()
        if self.left < 0:
            self.begun = now
        if left != self.left:
            self.left = left
            self.since = now
        waited = now - self.since
        name = self.outlet.name
        if self.outlet.came and waited > min(STOPPED, self.seconds):
            raise Broken(Text("{}: stopped while the printer took nothing", name))
        if waited > self.seconds:
            seconds = f"{self.seconds:.0f}"
            raise Broken(Text("{}: the printer has taken nothing for {} seconds", name, seconds))
        if now > self.begun + LONGEST:
            raise Broken(Text("{}: the printer takes the label too slowly", name))
        if waited > QUIET and not self.is_said:
            self.is_said = True
            what = Text("{}: the printer takes nothing: it is waited for", name)
            self.outlet.say(Problem(what, Text("is it switched on, and has it paper?")))


@dataclass
class StandardOutput(Outlet):
    """Standard output, which is closed at the end of the tool."""

    name = OUTPUT
    is_direct: bool = False
    is_synced: bool = False

    def open(self) -> BinaryIO:
        """Returns it; raises `ToolError` if it is closed."""
        return standard_output()


@dataclass
class Device(Outlet):
    """A printer named by a path, such as /dev/usb/lp0, or a file that is there, to which labels are
    added if it is empty or begins as they do. A label counts as taken once the system has all of
    its bytes; a printer without paper takes none, and is waited for as one in the network is.
    """

    is_direct = True
    name: str
    begin: bytes
    stuck: float = STUCK

    def open(self) -> Any:
        """Returns the open file, and opens it if it is not open; raises `Unreachable`."""
        if self.line is None:
            flags = os.O_WRONLY | os.O_APPEND | os.O_NONBLOCK
            try:
                self.line = FileIO(os.open(self.name, flags), "wb")
            except OSError as error:
                what = Text("{}: {}", self.name, error.strerror)
                if error.errno == errno.ENXIO:  # of a FIFO
                    what = Text("{}: no program reads it", self.name)
                raise Unreachable(what, HINTS.get(type(error), NOTHING)) from error
            self.on_way = []
            self.require_labels(self.line)
        return self.line

    def require_labels(self, line: FileIO) -> None:
        """Raises `Unreachable` if a file on a disk has something else than labels."""
        found = os.fstat(line.fileno())
        if not stat.S_ISREG(found.st_mode) or not found.st_size:
            return
        with open(self.name, "rb") as labels:
            is_ours = labels.read(len(self.begin)) == self.begin
        if not is_ours:
            self.drop()
            what = Text("{} is a file that has no labels", self.name)
            raise Unreachable(what, Text("name a printer, or a new file that is empty"))

    def push(self, line: Any, data: bytes) -> None:
        """Writes bytes until all have gone out, however slowly; raises `OSError` and `Broken`. The
        last ones of a printer on USB have once it would take more.
        """
        file = line.fileno()
        if stat.S_ISREG(os.fstat(file).st_mode):
            super().push(line, data)
            return
        rest = memoryview(data)
        patience = Patience(self, self.stuck)
        while True:
            found = events_of(file, select.POLLOUT, LOOK)
            if found and not rest:
                if found != select.POLLOUT:
                    raise BrokenPipeError(errno.EPIPE, os.strerror(errno.EPIPE))
                return
            if found:
                with suppress(BlockingIOError):
                    rest = rest[os.write(file, rest) :]
            patience.check_progress(len(rest))


class Files(Outlet):
    """A file for each label, whose data are given in the order of the labels; `name` has %d for the
    number of one, from `first` on, or %s for its data.
    """

    def __init__(self, name: str, data: Sequence[bytes], first: int) -> None:
        """Makes their folder, if it is not there; raises `ToolError` if it is not empty, or if two
        files have one name.
        """
        self.name = name
        folder = Path(name).parent
        if folder == Path() or "%" in str(folder):
            what = Text("the files of labels need a folder")
            raise ToolError(what, Text("name one, as in labels/%s.png"), remedies=OF_EACH)
        paths: dict[str, Path] = {}
        for number, label in enumerate(data, first):
            path = Path(file_name(name, number, label))
            if paths.setdefault(path.name.lower(), path) is not path:
                what = Text("two labels would be the file {}", path)
                raise ToolError(what, Text("put %d into the name"), remedies=OF_EACH)
        folder.mkdir(parents=True, exist_ok=True)
        if any(folder.iterdir()):
            what = Text("the folder {} is not empty", folder)
            hint = Text("old labels would be among the new ones: name another one")
            raise ToolError(what, hint, remedies=OF_EACH)
        self.paths = dict(enumerate(paths.values(), first))

    def send(self, data: bytes) -> None:
        """Writes the file of the next label, for which a signal waits; raises `OSError`."""
        number = self.done + 1
        with hold_signals():
            save_file(BytesIO(data), self.paths[number], number)


class Collected(Outlet):
    """A temporary file, which is given away once all labels are in it: by a function whose result
    is kept.
    """

    is_collected = True

    def __init__(self, name: str, give: Callable[[IO[bytes]], Any]) -> None:
        """Raises `ToolError` if there is no room for temporary files."""
        self.name = name
        self.give = give
        self.given: Any = None
        with temporary():
            self.file = tempfile.TemporaryFile()

    def send(self, data: bytes) -> None:
        """Collects what is whole; raises `ToolError`."""
        with temporary():
            self.file.write(data)

    def close(self) -> None:
        """Gives all away; raises what the function does."""
        with self.file:
            with temporary():
                self.file.seek(0)
            self.given = self.give(self.file)


def has_reader(file: int) -> bool:
    """Returns whether what is written may be read: False if the other end of a pipe, of a
    connection or of a terminal has gone.
    """
    return not events_of(file, 0)


def file_name(name: str, number: int, data: bytes) -> str:
    """Returns the name of the file of a label."""
    for form in {*NUMBERED.findall(name)}:
        name = name.replace(form, form % number)
    text = data.decode("latin-1")
    safe = re.sub(r"[^\w.-]|^[.-]", "_", text, flags=re.ASCII)[:MOST_NAME]
    return name.replace("%s", safe)
