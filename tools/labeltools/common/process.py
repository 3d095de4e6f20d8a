"""How a tool starts and ends: standard input and output, messages and statuses."""

import os
import select
import stat
import sys
import time
from contextlib import suppress
from dataclasses import dataclass, field
from importlib import import_module
from io import RawIOBase, TextIOWrapper
from typing import Any, BinaryIO, Callable, NoReturn

from labeltools.common.budget import check_size, Kind, LINES
from labeltools.common.files import events_of
from labeltools.common.messages import (
    BadArguments,
    fault_of,
    of_system,
    Origin,
    Problem,
    sentence,
    Talk,
    ToolError,
    UNEXPECTED,
    visible,
    write_message,
)
from labeltools.common.signals import on_signals
from labeltools.common.text import Text, translated

STANDARD_ERROR = 2
SHOWN = 60  # letters of what is waited for
BLOCK = 1 << 22  # bytes that are read at once
WRITER = 10.0  # seconds in which a FIFO has a writer, if it gets one
QUIET, BETWEEN = 1.0, 0.3  # seconds before progress is shown, and until it is shown again
DRAWING = ("python3-gi-cairo", "gir1.2-pango-1.0")  # the packages that draw labels


@dataclass
class CommandTalk(Talk):
    """The talk of a command: what it is told is written on standard error."""

    tool: str
    begun: float = field(default_factory=time.monotonic)
    shown: float = 0.0  # when progress was

    def note(self, origin: Origin, cell: str, problem: Problem) -> None:
        """Writes why a row or line is left out."""
        write_message(self.tool, Text("{}: {}", origin.text, problem.line))

    def say(self, problem: Problem) -> None:
        """Writes something about the whole."""
        write_message(self.tool, problem.line)

    def go_on(self, done: int, total: int) -> None:
        """Shows on a terminal how many of the labels are done, or how many rows, until another
        message takes its place.
        """
        now = time.monotonic()
        if done and now >= max(self.begun + QUIET, self.shown + BETWEEN) and sys.stderr.isatty():
            self.shown = now
            count = f"{done} of {total} labels" if total else f"{done} rows"
            print(f"{self.tool}: {count}", end="\r", file=sys.stderr, flush=True)

    def show_waiting(self, what: Text) -> None:
        """Shows on a terminal what is waited for, until another message takes its place."""
        if sys.stderr.isatty():
            shown = visible(translated(what)).ljust(SHOWN)[:SHOWN]
            print(f"{self.tool}: {shown}", end="\r", file=sys.stderr, flush=True)


def read_input(path: str | None, kind: Kind = LINES) -> tuple[str, bytes]:
    """Returns the name and bytes of a file, or of standard input where it is None or `-`.

    Raises `ToolError` if it is empty or has more than its kind, and `OSError`.
    """
    is_standard = path is None or path == "-"
    if is_standard and sys.stdin is None:
        raise ToolError(Text("standard input is closed"))
    name = translated(Text("standard input")) if is_standard else str(path)
    if is_standard:
        data = read_all(sys.stdin.buffer, name, kind)
    else:
        data = read_file(str(path), kind)
    if not data:
        hint = Text("is it the right file?")
        if is_standard:
            hint = Text("did the command that wrote it report an error?")
        raise ToolError(Text("{} is empty: nothing is printed", name), hint)
    return name, data


def read_file(path: str, kind: Kind = LINES) -> bytes:
    """Returns the bytes of a file; of a FIFO it waits for a writer, but not for ever. Raises as
    `read_input`, but for one that is empty.
    """
    with open(path, "rb", opener=lambda name, how: os.open(name, how | os.O_NONBLOCK)) as file:
        if stat.S_ISFIFO(os.fstat(file.fileno()).st_mode):
            if not events_of(file.fileno(), select.POLLIN, WRITER):
                raise ToolError(Text("{}: no program writes to it", path))
        os.set_blocking(file.fileno(), True)
        return read_all(file, path, kind)


def read_all(file: BinaryIO, name: str, kind: Kind) -> bytes:
    """Returns what is in a file, up to its end; raises `TooMuch` if that is more than its kind has,
    of a file before it is read: one with holes has bytes that nobody sent.
    """
    with suppress(OSError):  # it is no file of the system
        check_size(name, os.fstat(file.fileno()).st_size, kind)
    found = []
    size = 0
    while data := file.read(BLOCK):
        found.append(data)
        size += len(data)
        check_size(name, size, kind)
    return b"".join(found)


def standard_output() -> BinaryIO:
    """Returns standard output for bytes; inside `main_of` its `write` takes all of them or
    fails.
    """
    if sys.stdout is None:
        raise ToolError(Text("standard output is closed"))
    return sys.stdout.buffer


def start(tool: str, module: str, *packages: str) -> NoReturn:
    """Runs the tool of a module to its end; if this computer lacks what the module needs, a message
    names packages: those that are given, and those that draw labels.
    """

    def run() -> int | None:
        try:
            command = import_module(module)
        except (ImportError, ValueError) as missing:
            if isinstance(missing, ImportError) and is_own(missing.name or ""):
                raise  # no package has it: it is a fault of the tool
            names = " ".join((*packages, *DRAWING))
            raise ToolError(Text("{}", missing), Text("apt-get install {}", names)) from missing
        status: int | None = command.run()
        return status

    main_of(tool, run)


def is_own(module: str) -> bool:
    """Returns whether a module is one of the tools'."""
    return module.partition(".")[0] == __name__.partition(".")[0]


def main_of(tool: str, function: Callable[[], int | None]) -> NoReturn:
    """Runs a tool and ends with its status (None is 0), or with a message and a status for
    ToolError and OSError.
    """
    on_signals()
    fill_standard_streams()
    make_streams_wait()
    if sys.stderr is None:  # Python would write messages to standard output, which may be a printer
        sys.stderr = open(os.devnull, "w", encoding="utf-8")
    status = status_of(tool, function)
    for stream in (sys.stdout, sys.stderr):
        flush_or_forget(stream)
    sys.exit(status)


def fill_standard_streams() -> None:
    """Opens /dev/null by the numbers of standard streams that are closed: a file that got one would
    have in it what libraries of the system write on standard error.
    """
    while (file := os.open(os.devnull, os.O_RDWR)) <= STANDARD_ERROR:
        pass
    os.close(file)


def make_streams_wait() -> None:
    """Makes standard input, output and error streams that wait: who gave them may have made them
    such as do not.
    """
    for stream in (sys.stdin, sys.stdout, sys.stderr):
        with suppress(AttributeError, OSError):  # it is closed, or it is no file
            os.set_blocking(stream.fileno(), True)


def status_of(tool: str, function: Callable[[], int | None]) -> int:
    """Returns the status of a tool; its messages are written."""
    try:
        buffer_output()
        try:
            status = function() or 0
        except SystemExit as end:  # argparse ends so after a help text
            status = int(end.code or 0)
        if sys.stdout is not None:
            sys.stdout.flush()
        return status
    except BadArguments as error:
        help_words = f"{tool} --help"
        has_hint = error.hint or error.remedies
        what = error.problem.line if has_hint else sentence(error.what, Text("try {}", help_words))
        write_message(tool, Text("error: {}", what))
        return error.status
    except ToolError as error:
        write_message(tool, error.problem.line)
        return error.status
    except OSError as error:
        write_message(tool, of_system(error).problem.line)
        return 1
    except Exception as error:
        write_message(tool, fault_of(error))
        return UNEXPECTED


def buffer_output() -> None:
    """Gives standard output a buffer where PYTHONUNBUFFERED left it without one: its writes may
    take a part only.
    """
    if sys.stdout is not None and isinstance(sys.stdout.buffer, RawIOBase):
        whole = open(sys.stdout.fileno(), "wb", closefd=False)
        sys.stdout = TextIOWrapper(whole, sys.stdout.encoding)


def keep_standard_error() -> None:
    """Leaves standard error to the tool alone, where each line is an answer: what the libraries of
    the system write there, such as warnings about fonts, goes nowhere.
    """
    own = os.dup(sys.stderr.fileno())
    null = os.open(os.devnull, os.O_WRONLY)
    os.dup2(null, sys.stderr.fileno())
    os.close(null)
    sys.stderr = open(own, "w", encoding=sys.stderr.encoding, errors="backslashreplace")


def flush_or_forget(stream: Any) -> None:
    """Flushes a stream, or sends what is left nowhere: Python's last flush would change the status
    to 120.
    """
    try:
        if stream is not None:
            stream.flush()
    except OSError:
        os.dup2(os.open(os.devnull, os.O_WRONLY), stream.fileno())
