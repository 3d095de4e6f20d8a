"""Prints on a printer in the network that takes bytes on a port, mostly 9100.

A label counts as taken once the printer's system has acknowledged its last byte. Whether it came
out on paper the port does not say. A connection that is broken off at its end, in place of being
closed, says that bytes were thrown away which the system had acknowledged.
"""

import fcntl
import re
import select
import socket
import struct
import termios
import time
from contextlib import suppress

from labeltools.common.files import events_of
from labeltools.common.messages import BAD_ARGUMENTS, ToolError
from labeltools.common.text import Text
from labeltools.sending.answers import Query, Reply
from labeltools.sending.outlets import Broken, LOOK, Outlet, Patience, STUCK, Unreachable

SCHEME = "tcp://"  # begins the name of a printer in the network
NAME = re.compile(r"tcp://(\[[0-9A-Fa-f:.%]+\]|[^\s/:\[\]]+)(?::([0-9]{1,5}))?/?", re.ASCII)
PORT = 9100
CONNECT = 10.0  # seconds
FAREWELL = 2.0  # seconds that a printer may take to end the connection after the last label
FIRST = 0.005  # seconds in which it is seen that the printer ends it first
REGRET = 0.05  # seconds in which a printer that did so may still break it off
BREAK = 0  # no event but that a connection breaks off
SHORT = 0.0005  # seconds between two looks, at first
LONG = 0.02  # and later
HEARD = 65_536  # bytes that are read at a time of what a printer says
ANSWER = 1.0  # seconds in which a printer answers a question, if it does
MOST_ANSWER = 4096  # bytes of an answer


def address_of(name: str) -> tuple[str, int]:
    """Returns the host and the port of a printer named as tcp://HOST[:PORT]; raises `ToolError`
    where the name is none.
    """
    found = NAME.fullmatch(name)
    port = int(found[2] or PORT) if found else 0
    host = found[1].strip("[]") if found else ""
    with suppress(UnicodeError):
        host.encode("idna")  # as the system asks for it
        if 0 < port < 65536:
            return host, port
    what = Text("{}: write it as tcp://HOST or tcp://HOST:9100", name)
    raise ToolError(what, status=BAD_ARGUMENTS)


class NetworkPrinter(Outlet):
    """A printer named as tcp://HOST[:PORT]; `stuck` are seconds in which it may take nothing."""

    is_direct = True
    broken = Text("{}: the printer broke off", "")
    line: socket.socket | None = None

    def __init__(self, name: str, stuck: float = STUCK) -> None:
        self.address = address_of(name)
        self.name = name
        self.stuck = stuck
        self.on_way = []

    def open(self) -> socket.socket:
        """Returns the connection, which is made where there is none, or the printer has ended it;
        raises `Unreachable`, and `Broken` where the printer breaks off meanwhile.
        """
        if self.line is not None and has_ended(self.line):
            self.close()
        if self.line is None:
            try:
                self.line = socket.create_connection(self.address, CONNECT)
            except OSError as error:
                reason = error.strerror or str(error)
                hint = Text("is it switched on, and in the network?")
                raise Unreachable(Text("{}: {}", self.name, reason), hint) from error
            self.line.setblocking(False)
            self.on_way = []
        return self.line

    def push(self, line: socket.socket, data: bytes) -> None:
        """Sends bytes until all are acknowledged, however slowly they are taken. What the printer
        says meanwhile is read: one that nobody hears may stop taking. Raises `OSError` and
        `Broken`.
        """
        rest = memoryview(data)
        patience = Patience(self, self.stuck)
        pause = SHORT
        while True:
            with suppress(BlockingIOError):
                line.recv(HEARD)
            require_whole(line)
            with suppress(BlockingIOError):
                rest = rest[line.send(rest) :] if rest else rest
            left = len(rest) + unacknowledged_bytes(line)
            if not left:
                break
            patience.check_progress(left)
            if rest:
                events_of(line.fileno(), select.POLLOUT, pause)
            else:
                time.sleep(pause)
            pause = min(2 * pause, LONG)
        require_whole(line)

    def ask(self, question: Query) -> Reply | None:
        """Returns what the printer answers to a question; None if it gives no answer in a second,
        or somebody stops the work. One that ends the connection gets another one, unless labels
        were sent by this one. Raises `Unreachable`, and `Broken` if it breaks off.
        """
        line = self.line or self.open()
        answer = None
        try:
            with suppress(BlockingIOError):
                line.recv(HEARD)  # what it said before
            # to a question behind its end it would break off, as if it had thrown labels away
            if not events_of(line.fileno(), select.POLLRDHUP, REGRET if self.on_way else FIRST):
                with suppress(BlockingIOError):
                    line.send(question.data)
                answer = self.heard(line, question)
            if not self.on_way and events_of(line.fileno(), select.POLLRDHUP):
                self.drop()
        except OSError as error:
            self.drop()
            raise Broken(self.broken.with_fields(self.name)) from error
        return answer

    def heard(self, line: socket.socket, question: Query) -> Reply | None:
        """Returns the answer to a question that was sent; raises `OSError`."""
        heard = b""
        end = time.monotonic() + ANSWER
        while time.monotonic() < end and not self.came and len(heard) < MOST_ANSWER:
            if not events_of(line.fileno(), select.POLLIN, min(LOOK, ANSWER)):
                continue
            data = line.recv(HEARD)
            if not data:
                return None
            heard += data
            if answer := question.read(heard):
                return answer
        return None

    def close(self) -> None:
        """Ends the connection after what was sent; raises `Broken` where the printer breaks it off.
        What the printer says is read until it ends: with something unread the system would break
        off, and the printer might forget labels.
        """
        if self.line is None:
            return
        end = time.monotonic() + FAREWELL
        try:
            if events_of(self.line.fileno(), select.POLLRDHUP, FIRST):
                events_of(self.line.fileno(), BREAK, REGRET)
                require_whole(self.line)  # once we have ended it too, the system does not say so
            self.line.shutdown(socket.SHUT_WR)
            while (left := end - time.monotonic()) > 0:
                self.line.settimeout(left)
                if not self.line.recv(HEARD):
                    break
        except TimeoutError:
            pass  # all labels are acknowledged
        except OSError as error:
            raise Broken(Text("{}: the printer broke off at the end", self.name)) from error
        finally:
            self.drop()


def has_ended(line: socket.socket) -> bool:
    """Returns whether the other side has ended a connection, as printers do that wait in vain; one
    that it has broken off is left to `send`, which says so.
    """
    return events_of(line.fileno(), select.POLLRDHUP) == select.POLLRDHUP


def require_whole(line: socket.socket) -> None:
    """Raises `OSError` where the other side has broken off."""
    if error := line.getsockopt(socket.SOL_SOCKET, socket.SO_ERROR):
        raise OSError(error, "broken off")


def unacknowledged_bytes(line: socket.socket) -> int:
    """Returns how many bytes are not acknowledged."""
    found = fcntl.ioctl(line.fileno(), termios.TIOCOUTQ, struct.pack("i", 0))
    return int(struct.unpack("i", found)[0])
