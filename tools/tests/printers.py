#!/usr/bin/python3
"""Printers of ZPL on this machine, for tests: they break off, hang, are slow or talk.

usage: printers.py PORT FILE [NUMBER]: plays a printer in the background, which adds the labels that
it takes to a file, and breaks off once within the label of this number. It ends when nobody has
printed for a while.
"""

import os
import re
import socket
import struct
import sys
import threading
import time

LABEL = re.compile(rb"\^XA.*?\^XZ\n", re.DOTALL)
QUESTION = re.compile(rb"~HS|~HI|(?:\x10\x04.){2}", re.DOTALL)
# what ~HS answers: whether the paper is out, whether it is paused, how many labels wait, and
# whether the head is open
STATUS = (
    b"\x02030,%d,%d,0320,%03d,0,0,0,000,0,0,0\x03\r\n"
    b"\x02001,0,%d,0,0,2,4,0,00000000,1,000\x03\r\n"
    b"\x020000,0\x03\r\n"
)
READY = STATUS % (0, 0, 0, 0)
QUIET = 600.0  # seconds without a connection after which the program ends
BROKEN = struct.pack("ii", 1, 0)  # a connection that is closed so is reset
LEAST = 512  # bytes


class Printer:
    """A printer in the network. After `cut` labels it breaks off once, and once `within` the label
    of this number, which has to be longer than what the system takes by itself; the connection of
    the number `torn` it breaks off within the first label; after `stuck` labels it waits to be told
    before it goes on, one that `waits` before it reads anything, and one that `lingers` before it
    ends a connection; `slow` are the seconds that it takes for each piece; `says` is what it
    sends. `rude` breaks each connection off at its end, `hangs_up` before it reads anything; one
    that `ends` ends it after a label. It answers a question by the next of `answers`, of which the
    last one stays, after `late` seconds; nothing where there is none. ~HI is answered by its `dots`
    a millimetre. One that `is_shy` ends its first connection at a question.
    """

    def __init__(
        self,
        cut: int = 0,
        within: int = 0,
        torn: int = 0,
        stuck: int = 0,
        slow: float = 0.0,
        says: bytes = b"",
        port: int = 0,
        rude: bool = False,
        hangs_up: bool = False,
        waits: bool = False,
        lingers: bool = False,
        ends: bool = False,
        answers: tuple[bytes, ...] = (READY,),
        late: float = 0.0,
        is_shy: bool = False,
        dots: int = 0,
    ) -> None:
        self.server = socket.create_server(("127.0.0.1", port))
        # of each connection from its beginning, so that the system takes little by itself
        self.server.setsockopt(socket.SOL_SOCKET, socket.SO_RCVBUF, LEAST if within else 4096)
        self.port = self.server.getsockname()[1]
        self.name = f"tcp://127.0.0.1:{self.port}"
        self.cut = cut
        self.within = within
        self.torn = torn
        self.stuck = stuck
        self.slow = slow
        self.says = says
        self.rude = rude
        self.hangs_up = hangs_up
        self.waits = waits
        self.lingers = lingers
        self.ends = ends
        self.answers = [*answers]
        self.late = late
        self.is_shy = is_shy
        self.dots = dots
        self.asked: list[bytes] = []
        self.connections = 0
        self.ended = 0
        self.pieces = 0
        self.at_end = threading.Event()
        self.told = threading.Event()
        self.label = LABEL
        self.labels: list[bytes] = []
        self.file = ""

    def start(self) -> "Printer":
        """Begins to take labels."""
        threading.Thread(target=self.work, daemon=True).start()
        return self

    def work(self) -> None:
        """Takes one connection after another until it is switched off."""
        while True:
            try:
                line, _ = self.server.accept()
            except OSError:
                return
            threading.Thread(target=self.read, args=(line,), daemon=True).start()

    def read(self, line: socket.socket) -> None:
        """Reads labels until the connection ends."""
        self.connections += 1
        with line:
            self.read_labels(line)
        self.ended += 1

    def ends_early(self, line: socket.socket) -> bool:
        """Whether the connection ends before a label is read."""
        self.torn -= 1
        if self.hangs_up:
            line.recv(1, socket.MSG_PEEK)  # it is there, and unread
        elif self.torn == 0:
            while not self.answered(line, line.recv(100)):
                pass  # until a label begins
            line.setsockopt(socket.SOL_SOCKET, socket.SO_LINGER, BROKEN)
        elif self.is_shy:
            self.is_shy = False
            line.recv(10)
        else:
            return False
        return True

    def read_labels(self, line: socket.socket) -> None:
        """Reads labels; a part of one is no label."""
        buffer = b""
        if self.ends_early(line):
            return
        if self.waits:
            self.told.wait()
        while data := self.received(line):
            buffer = self.answered(line, buffer + data)
            found = self.label.findall(buffer)
            self.keep(found)
            buffer = self.answered(line, buffer[sum(map(len, found)) :])
            if self.stuck and len(self.labels) >= self.stuck:
                self.told.wait()
            if self.breaks(buffer):
                line.setsockopt(socket.SOL_SOCKET, socket.SO_LINGER, BROKEN)
                return
            if self.ends and found:
                return
        if self.rude:
            line.setsockopt(socket.SOL_SOCKET, socket.SO_LINGER, BROKEN)
        if self.lingers:
            self.at_end.set()
            self.told.wait()

    def answered(self, line: socket.socket, buffer: bytes) -> bytes:
        """What is left of some bytes behind questions, which are answered."""
        while found := QUESTION.match(buffer):
            buffer = buffer[found.end() :]
            self.asked.append(found[0])
            time.sleep(self.late)
            if found[0] == b"~HI":
                line.sendall(b"\x02TEST,V1.0,%d,2104KB\x03\r\n" % self.dots)
            elif self.answers:
                line.sendall(self.answers[0])
                del self.answers[: len(self.answers) > 1]
        return buffer

    def breaks(self, begun: bytes) -> bool:
        """Whether it breaks off now, which it does once; a label may have begun."""
        if self.cut and len(self.labels) >= self.cut:
            self.cut = 0
            return True
        if self.within and len(self.labels) == self.within - 1 and begun:
            self.within = 0
            return True
        return False

    def keep(self, labels: list[bytes]) -> None:
        """Keeps labels, in a file where one is named."""
        self.labels += labels
        if self.file:
            with open(self.file, "ab") as file:
                file.writelines(labels)

    def received(self, line: socket.socket) -> bytes:
        """A piece of what comes in; nothing at its end, or where the other side broke off."""
        try:
            if self.says:
                line.sendall(self.says)
            time.sleep(self.slow)
            self.pieces += 1
            return line.recv(LEAST if self.within else 2048)
        except OSError:
            return b""

    def off(self) -> None:
        """Switches it off."""
        self.server.shutdown(socket.SHUT_RDWR)
        self.server.close()

    def wait(self, count: int) -> None:
        """Waits until so many labels have come."""
        while len(self.labels) < count:
            time.sleep(0.01)


def main() -> None:
    """Plays a printer in the background."""
    if len(sys.argv) not in (3, 4):
        sys.exit(__doc__)
    port, file, *within = sys.argv[1:]
    try:
        printer = Printer(within=int(within[0]) if within else 0, port=int(port))
    except (OSError, ValueError, OverflowError) as error:
        sys.exit(f"printers.py: no printer at port {port}: {error}; name another port")
    printer.file = file
    open(file, "wb").close()
    if os.fork():
        os._exit(0)  # it listens already
    for number in range(3):
        os.dup2(os.open(os.devnull, os.O_RDWR), number)
    printer.server.settimeout(QUIET)
    printer.work()


if __name__ == "__main__":
    main()
