"""Files that are whole or not there, errors that name them, and what happens to open ones."""

import os
import select
import stat
import tempfile
from contextlib import contextmanager
from pathlib import Path
from typing import IO, Iterator

from labeltools.common.messages import ToolError
from labeltools.common.text import Text

# a name that no label has, since those begin with no dot, and no other process
PART = ".{process}-{number}.part"
BLOCK = 1 << 20


class Unwritten(OSError):
    """An error at which nothing was written, or all of it was taken back."""


@contextmanager
def temporary() -> Iterator[None]:
    """Names the folder of temporary files in a `ToolError` where an error names no file."""
    try:
        yield
    except OSError as error:
        if error.filename is not None:
            raise
        hint = Text("make room there, or name another folder in $TMPDIR")
        reason = error.strerror or str(error)
        folder = tempfile.tempdir or "$TMPDIR"  # none that can be written was found
        raise ToolError(Text("{}: {}", folder, reason), hint) from error


def save_file(file: IO[bytes], path: Path, number: int = 1) -> None:
    """Writes a whole file, which has its name once it is whole; raises `OSError` with its name. It
    has no name before, where the disk can do so: nothing is left of it if the tool is ended.
    """
    part = path.with_name(PART.format(process=os.getpid(), number=number))
    try:
        with nameless(path.parent) or part.open("xb") as stream:
            while data := file.read(BLOCK):
                stream.write(data)
            stream.flush()
            if stream.name != str(part):
                part.unlink(missing_ok=True)  # of a tool that was ended in this moment
                own = stream.fileno()
                os.link(f"/proc/self/fd/{own}", part, src_dir_fd=own)  # so that it follows the link
        part.rename(path)
    except OSError as error:
        if not isinstance(error, FileExistsError):
            part.unlink(missing_ok=True)
        raise OSError(error.errno, error.strerror, str(path)) from error
    except BaseException:
        part.unlink(missing_ok=True)
        raise


def nameless(folder: Path) -> IO[bytes] | None:
    """Returns a new file without a name in a folder; None where the disk has none."""
    try:
        return open(os.open(folder, os.O_TMPFILE | os.O_WRONLY | os.O_CLOEXEC, 0o666), "wb")
    except OSError:
        return None


def events_of(file: int, wanted: int, seconds: float = 0.0) -> int:
    """Returns which of some events an open file has, or its break or end, in some seconds at most;
    0 for none.
    """
    look = select.poll()  # it takes any number of open files, unlike select
    look.register(file, wanted)
    return sum(event for _, event in look.poll(seconds * 1000))


def write_whole(data: bytes, output: int) -> None:
    """Writes bytes to an open file, which gets nothing where it does not take all; raises
    `Unwritten` where that is so, and `OSError`.
    """
    size = os.fstat(output).st_size
    rest = memoryview(data)
    try:
        while rest:
            rest = rest[os.write(output, rest) :]
    except OSError as error:
        if take_out_last(output, size, len(data) - len(rest)):
            raise Unwritten(error.errno, error.strerror) from error
        raise


def take_out_last(output: int, size: int, done: int) -> bool:
    """Takes the last `done` bytes out of an open file that had a size before them, unless another
    program has written to it since; what is written next follows what is there. Returns whether
    nothing of them is left.
    """
    state = os.fstat(output)
    if done and stat.S_ISREG(state.st_mode) and state.st_size == size + done:
        os.ftruncate(output, size)
        os.lseek(output, -done, os.SEEK_CUR)
        done = 0
    return not done
