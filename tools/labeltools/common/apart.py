"""Reads what a stranger made in another process, which the system ends if it takes too much:
nothing that the reading does has to count what it takes.
"""

import fcntl
import os
import pickle
import resource
import select
import signal
from dataclasses import dataclass, field
from functools import partial
from pathlib import Path
from typing import Any, Callable, NamedTuple, NoReturn, TypeVar

from labeltools.common.budget import Kind, Share, TABLE, too_much, TooMuch
from labeltools.common.messages import (
    fault_of,
    Origin,
    Problem,
    RowError,
    Talk,
    ToolError,
    UNEXPECTED,
)

Result = TypeVar("Result")
HowAsked = TypeVar("HowAsked")
PATIENCE = 100  # milliseconds after which a window is asked whether somebody still waits
LENGTH = 8  # bytes, of how long what follows is
MESSAGES = 256  # that are sent together
DATA = 5  # the place of private memory in what the system says of a process, in pages


class Ended(TooMuch):
    """Why the system has ended the work on an input."""


class Input(NamedTuple):
    """An input: its name, how many bytes it has, and its kind."""

    name: str
    size: int
    kind: Kind = TABLE

    def refusal(self, share: Share) -> Ended:
        """Returns why it is not read."""
        return Ended.of(too_much(self.name, self.size, self.kind, share).problem)


@dataclass
class Pipe(Talk):
    """What another process is told by; the talk of a copy of this one. Messages go many at a time:
    each by itself would take as long as the reading of its row.
    """

    pipe: int
    waiting: list[tuple[str, tuple[Any, ...]]] = field(default_factory=list)

    def note(self, origin: Origin, cell: str, problem: Problem) -> None:
        """Tells why a row is left out."""
        self.keep("note", origin, cell, problem)

    def say(self, problem: Problem) -> None:
        """Tells something about the whole."""
        self.keep("say", problem)

    def go_on(self, done: int, total: int) -> None:
        """Tells how far the work is."""
        self.tell("go_on", done, total)

    def keep(self, what: str, *found: Any) -> None:
        """Keeps a message until there are many, or something else is told."""
        self.waiting.append((what, found))
        if len(self.waiting) >= MESSAGES:
            self.send()

    def tell(self, what: str, *found: Any) -> None:
        """Tells something at once, behind the messages that wait."""
        self.waiting.append((what, found))
        self.send()

    def send(self) -> None:
        """Sends what waits."""
        data = pickle.dumps(self.waiting, pickle.HIGHEST_PROTOCOL)
        self.waiting = []
        rest = memoryview(len(data).to_bytes(LENGTH, "big") + data)
        while rest:
            rest = rest[os.write(self.pipe, rest) :]


def apart(source: Input, work: Callable[[Talk], Result], talk: Talk) -> Result:
    """Returns what work on an input returns, which a copy of this process does. Raises what it
    raises, `TooMuch`, and what the talk raises, which ends it at once.
    """
    kind = source.kind
    reading, writing = os.pipe()
    alive = os.pipe()
    child = os.fork()
    if not child:
        os.close(alive[1])
        end_with(alive[0])
        do_work(source, work, Pipe(writing))
    os.close(writing)
    os.close(alive[0])
    try:
        result: Result = result_of(reading, talk)
    except EOFError:  # the system has ended it
        ended = os.waitstatus_to_exitcode(os.waitpid(child, 0)[1])
        child = 0
        is_time = ended == -signal.SIGXCPU
        raise source.refusal(kind.seconds if is_time else kind.memory) from None
    finally:
        os.close(reading)
        os.close(alive[1])
        if child:
            os.kill(child, signal.SIGKILL)
            os.waitpid(child, 0)
    return result


def read_apart(
    work: Callable[[bytes, str, HowAsked, Talk], Result],
    data: bytes,
    name: str,
    asked: HowAsked,
    talk: Talk,
) -> Result:
    """Returns what a work makes of a table, as `apart` does it."""
    return apart(Input(name, len(data)), partial(work, data, name, asked), talk)


def do_work(source: Input, work: Callable[[Talk], Any], talk: Pipe) -> NoReturn:
    """Does work within the limits of an input, tells what comes of it, and ends this process."""
    try:
        kind = source.kind
        limit(kind.seconds.most(source.size), kind.memory.most(source.size))
        try:
            talk.tell("result", work(talk))
        except MemoryError:
            talk.tell("error", source.refusal(kind.memory))
        except (ToolError, RowError, OSError) as error:
            talk.tell("error", error)
        except Exception as error:
            talk.tell("error", ToolError(fault_of(error), status=UNEXPECTED))
    finally:
        os._exit(0)


def end_with(pipe: int) -> None:
    """Lets the system end this process once nobody holds the other end of a pipe: who began it has
    ended.
    """
    fcntl.fcntl(pipe, fcntl.F_SETOWN, os.getpid())
    fcntl.fcntl(pipe, fcntl.F_SETFL, os.O_ASYNC | os.O_NONBLOCK)


def limit(seconds: int, memory: int) -> None:
    """Lets the system end this process after so many seconds of a processor, and give it so many
    bytes of memory beside what it has. Limits that it has already, and that are less, stay.
    """
    has = int(Path("/proc/self/statm").read_text().split()[DATA]) * resource.getpagesize()
    limits = (
        (resource.RLIMIT_CORE, 0, 0),
        (resource.RLIMIT_DATA, has + memory, 0),
        (resource.RLIMIT_CPU, seconds + 1, 1),  # a second before its end the system says what it is
    )
    for kind, most, before in limits:
        allowed = resource.getrlimit(kind)[1]
        hard = most if allowed == resource.RLIM_INFINITY else min(most, allowed)
        resource.setrlimit(kind, (max(0, hard - before), hard))


def result_of(pipe: int, talk: Talk) -> Any:
    """Returns the result that another process tells, and tells a talk what it says before that.
    Raises its error; `EOFError` where there is none; and what the talk raises.
    """
    how_far = (0, 0)
    waiting = select.poll()
    waiting.register(pipe, select.POLLIN)
    while True:
        while not waiting.poll(PATIENCE):
            talk.go_on(*how_far)
        for what, found in told(pipe):
            if what == "result":
                return found[0]
            if what == "error":
                raise found[0]
            if what == "go_on":
                how_far = found
            getattr(talk, what)(*found)


def told(pipe: int) -> list[tuple[str, Any]]:
    """Returns what is told next, each with its kind; raises `EOFError` at the end."""
    found: list[tuple[str, Any]] = pickle.loads(
        whole(pipe, int.from_bytes(whole(pipe, LENGTH), "big"))
    )
    return found


def whole(pipe: int, size: int) -> bytes:
    """Returns so many bytes; raises `EOFError` where they end before."""
    found = bytearray()
    while len(found) < size:
        data = os.read(pipe, size - len(found))
        if not data:
            raise EOFError
        found += data
    return bytes(found)
