#!/usr/bin/python3
"""Cuts the power of a computer and its printer together, at random moments of a run or a stream by a
journal. The printer has labels in its memory, and the computer what it had not synced: both are
gone. Then the same command goes on, and each label that is on no paper has to be named by it, each
time, until a person says which are there.

usage: power.py RUNS [SEED]: prints how often, and what was found.
"""

import random
import re
import shutil
import signal
import socket
import subprocess
import sys
import tempfile
import threading
import time
from collections.abc import Iterator, Sequence
from dataclasses import dataclass, field
from pathlib import Path

import support
from printers import BROKEN, LABEL, Printer, STATUS

TICKETS = 60
MEMORY = 30  # labels that a printer takes before it has printed one
PACE = 0.03  # seconds that it takes to print one
ROLL = ("--paper", "60x40", "--dpi", "203", "--to", "zpl")
NAMED = re.compile(r"(.*): may be missing, sent to ")
SETTLING = re.compile(r"^label-print: if missing, .*: (label-print .*)$", re.MULTILINE)
SHADOW = ".synced"


class Memory(Printer):
    """A printer with labels in its memory, of which its answer has the number, if it answers."""

    def __init__(self, port: int = 0, is_silent: bool = False) -> None:
        super().__init__(port=port)
        self.is_silent = is_silent
        self.memory: list[bytes] = []
        self.has_power = True
        self.lines: list[socket.socket] = []
        threading.Thread(target=self.print_labels, daemon=True).start()

    def print_labels(self) -> None:
        """Prints what is in its memory, one label after another."""
        while self.has_power:
            time.sleep(PACE)
            if self.memory and self.has_power:
                self.keep([self.memory[0]])
                del self.memory[0]

    def read_labels(self, line: socket.socket) -> None:
        """Takes labels into its memory, as long as there is room."""
        self.lines.append(line)
        buffer = b""
        while data := self.received(line):
            buffer = self.heard(line, buffer + data)
            while (found := LABEL.match(buffer)) and self.has_power:
                if len(self.memory) < MEMORY:
                    self.memory.append(found[0])
                    buffer = self.heard(line, buffer[found.end() :])
                else:
                    time.sleep(PACE / 4)

    def heard(self, line: socket.socket, buffer: bytes) -> bytes:
        """What is left of some bytes behind questions."""
        self.answers = [] if self.is_silent else [STATUS % (0, 0, len(self.memory), 0)]
        return self.answered(line, buffer)

    def cut_power(self) -> None:
        """Forgets what is in its memory, and breaks off."""
        self.has_power = False
        self.server.shutdown(socket.SHUT_RDWR)
        self.server.close()
        self.memory.clear()
        for line in self.lines:
            try:
                line.setsockopt(socket.SOL_SOCKET, socket.SO_LINGER, BROKEN)
                line.shutdown(socket.SHUT_RDWR)
            except OSError:
                pass  # it has ended


def synced_files(folder: str, path: str) -> dict[str, str]:
    """The variables with which a program keeps what it has synced of files by this name."""
    library = f"{folder}/synced.so"
    source = str(support.TESTS / "synced.c")
    subprocess.run(["gcc", "-shared", "-fPIC", "-o", library, source], check=True)
    return {"LD_PRELOAD": library, "SYNCED": path}


@dataclass
class Found:
    """What the trials have found."""

    runs: int = 0
    twice: int = 0
    missing: int = 0
    unnamed: int = 0
    named: int = 0
    lost_after_all: int = 0
    said: list[str] = field(default_factory=list)

    def __str__(self) -> str:
        counts = f"{self.missing} labels missing, {self.unnamed} of them not named"
        return f"{self.runs} power cuts: {counts}; {self.named} named; {self.twice} twice"


class Trial:
    """A folder with a journal and lines, in which the power is cut."""

    def __init__(self, folder: str, seed: int) -> None:
        self.folder = Path(folder)
        self.journal = f"{folder}/journal"
        self.lines = f"{folder}/lines"
        self.random = random.Random(seed)
        self.found = Found()
        self.variables = synced_files(folder, self.journal)

    def words(self, printer: Printer) -> list[str]:
        """The command, but for its lines."""
        tool = str(support.TOOLS / "label-print")
        return [tool, *ROLL, "--journal", self.journal, "--print", printer.name]

    def cut(self, is_stream: bool, is_silent: bool) -> None:
        """Cuts the power once, in a run or a stream, of a printer that may answer or not."""
        for path in self.folder.glob("journal*"):
            path.unlink()
        codes = [f"P{self.found.runs:03}-{number:03}" for number in range(TICKETS)]
        Path(self.lines).write_text("".join(f"qr {code}\n" for code in codes))
        printer = Memory(is_silent=is_silent)
        printer.start()
        run = self.begun(printer, is_stream)
        moment = self.random.randrange(1, TICKETS)
        while self.taken(printer) < moment and run.poll() is None:
            time.sleep(0.001)
        time.sleep(self.random.uniform(0.0, 2 * PACE))
        if self.random.random() < 0.5:
            run.send_signal(signal.SIGKILL)
            printer.cut_power()
        else:
            printer.cut_power()
            run.send_signal(signal.SIGKILL)
        run.communicate()
        self.lose_unsynced()
        self.go_on(printer)

    def begun(self, printer: Memory, is_stream: bool) -> "subprocess.Popen[bytes]":
        """Begins a run, or a stream."""
        words = self.words(printer) + (["--stream"] if is_stream else []) + [self.lines]
        environment = {**support.environment(), **self.variables}
        return subprocess.Popen(words, stderr=subprocess.PIPE, env=environment)

    def taken(self, printer: Memory) -> int:
        """How many labels a printer has taken."""
        return len(printer.labels) + len(printer.memory)

    def lose_unsynced(self) -> None:
        """Leaves of each file what was synced, or all of it: a disk may have written more."""
        Path(f"{self.journal}-shm").unlink(missing_ok=True)
        for name in (self.journal, f"{self.journal}-wal"):
            kept = Path(name + SHADOW)
            if self.random.random() < 0.7 and Path(name).exists():
                if kept.exists():
                    shutil.copy(kept, name)
                else:
                    Path(name).write_bytes(b"")

    def go_on(self, before: Memory) -> None:
        """Gives the same command twice, settles what it names, and counts what is on paper."""
        printer = Memory(port=before.port, is_silent=before.is_silent)
        printer.start()
        wanted = self.wanted()
        says = ""
        for _ in range(2):
            says = self.run(printer)
            on_paper = [*before.labels, *self.when_printed(printer)]
            missing = {line for line, label in wanted.items() if label not in on_paper}
            self.found.unnamed += len(missing - named_lines(says))
            if missing - named_lines(says):
                self.found.said.append(says)
        self.found.missing += len(missing)
        self.found.named += len(named_lines(says))
        self.settle(printer, missing, says)
        on_paper = [*before.labels, *self.when_printed(printer)]
        self.found.twice += len(on_paper) - len(set(on_paper))
        self.found.lost_after_all += len(set(wanted.values()) - set(on_paper))
        self.found.runs += 1
        printer.off()

    def run(self, printer: Memory) -> str:
        """What the same command says."""
        words = [*self.words(printer), self.lines]
        done = subprocess.run(words, capture_output=True, env=support.environment())
        says = done.stderr.decode()
        if done.returncode != int(bool(named_lines(says))):
            self.found.said.append(f"status {done.returncode}: {says}")
        return says

    def settle(self, printer: Memory, missing: set[int], says: str) -> None:
        """Says of each label that is named whether it is on paper, and prints the rest."""
        rows = ",".join(map(str, sorted(missing)))
        for command in SETTLING.findall(says):
            if rows:
                self.shell(re.sub("--only [0-9,-]+", f"--only {rows}", command))
            self.shell(command.replace("--state missing", "--state printed"))
        if "may be missing" in self.run(printer):
            self.found.said.append("still in doubt")

    def shell(self, line: str) -> None:
        """Does what a message says."""
        subprocess.run(["sh", "-c", line], env=support.environment(), stderr=subprocess.DEVNULL)

    def wanted(self) -> dict[int, bytes]:
        """Each label by its line."""
        words = [str(support.TOOLS / "label-print"), *ROLL, self.lines]
        done = subprocess.run(words, capture_output=True, check=True, env=support.environment())
        return dict(enumerate(LABEL.findall(done.stdout), 1))

    def when_printed(self, printer: Memory) -> Sequence[bytes]:
        """The labels of a printer, once it has nothing left."""
        while printer.memory:
            time.sleep(PACE)
        return printer.labels


def named_lines(said: str) -> set[int]:
    """The lines that messages name as doubtful, such as `lines 1, 7-9`."""
    found: set[int] = set()
    for listed in re.findall(r"lines? ([0-9, -]+): may be missing", said):
        for part in listed.split(", "):
            first, _, last = part.partition("-")
            found.update(range(int(first), int(last or first) + 1))
    return found


def kinds() -> Iterator[tuple[bool, bool]]:
    """Runs and streams, and printers that answer or not, for ever."""
    while True:
        yield from ((False, True), (False, False), (True, True), (True, False))


def main() -> int:
    """Cuts the power as often as is asked for."""
    runs, seed = int(sys.argv[1]), int((sys.argv[2:] or ["1"])[0])
    with tempfile.TemporaryDirectory() as folder:
        trial = Trial(folder, seed)
        for _, (is_stream, is_silent) in zip(range(runs), kinds()):
            trial.cut(is_stream, is_silent)
            print(trial.found, flush=True)
        print(*trial.found.said, sep="\n")
    found = trial.found
    return int(bool(found.twice or found.unnamed or found.lost_after_all or found.said))


if __name__ == "__main__":
    sys.exit(main())
