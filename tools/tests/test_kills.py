"""Lanes that are killed at random moments, with one journal: each label is on paper once, or it is
named. The seed is fixed; the moments are those of the machine.
"""

import os
import random
import signal
import sqlite3
import sys
import time
import unittest
from contextlib import suppress
from pathlib import Path

import desk
import power
import support
from printers import LABEL, Printer

KILLS = 100
POWER_CUTS = 4
TICKETS = 40
SEED = 73
ENDED = os.WEXITED | os.WNOHANG | os.WNOWAIT


def setUpModule() -> None:
    support.labels_program()


@support.slow
class Kills(desk.Desk):
    """Two lanes are killed a hundred times."""

    most = KILLS

    def setUp(self) -> None:
        super().setUp()
        self.lines = f"{self.folder}/lines"
        self.random = random.Random(SEED)
        self.kills = 0

    def words(self, printer: Printer) -> list[str]:
        return [*desk.ROLL, "--journal", self.path, "--print", printer.name, self.lines]

    def lane(self, printer: Printer) -> int:
        """Starts a lane, which prints until it is killed, as a process; returns its number."""
        process = os.fork()
        if process:
            return process
        status = 1
        try:
            null = os.open(os.devnull, os.O_RDWR)
            for number in range(3):
                os.dup2(null, number)
            # the streams of the process, not those in which a runner keeps what tests print
            sys.stdin, sys.stdout, sys.stderr = sys.__stdin__, sys.__stdout__, sys.__stderr__
            sys.argv = ["label-print", *self.words(printer)]
            status = support.status_of("label-print")
        finally:
            os._exit(status)

    def killed(self, printers: list[Printer]) -> None:
        """Runs both lanes and kills them, one after the other, each at a random moment after some
        events of the journal: a machine that is slow gets as far as another one.
        """
        lanes = [self.lane(printer) for printer in printers]
        for process in lanes:
            last = self.count() + self.random.randrange(8)
            while self.count() < last and not os.waitid(os.P_PID, process, ENDED):
                time.sleep(0.001)
            time.sleep(self.random.uniform(0.0, 0.01))
            os.kill(process, signal.SIGKILL)
        for process in lanes:
            _, state = os.waitpid(process, 0)
            self.kills += os.WIFSIGNALED(state)

    def count(self) -> int:
        """How many events the journal has."""
        with suppress(sqlite3.Error):  # which is not made yet
            return sum(1 + (state != "sent") for state in self.events())
        return 0

    def doubtful_lines(self) -> set[int]:
        """The lines that the journal has as doubtful: a message names only the first of many."""
        places = self.select("SELECT place FROM labels WHERE state != 'printed'")
        return {int(place.removeprefix("line ")) for (place,) in places}

    def test_each_label_is_on_paper_once_or_named(self) -> None:
        support.printed(input=b"")  # all modules are there before the first lane begins
        batch = doubtful = 0
        while self.kills < self.most:
            batch += 1
            self.assertLess(batch, self.most, "lanes end by themselves, before they are killed")
            self.remove()
            codes = [f"B{batch:02}-{number:03}" for number in range(TICKETS)]
            Path(self.lines).write_text("".join(f"qr {code}\n" for code in codes))
            printers = [Printer().start(), Printer().start()]
            for _ in range(8):
                self.killed(printers)
            done = support.printed(*self.words(printers[0]))
            named = done.stderr.decode()
            labels = [label for printer in printers for label in printer.labels]
            self.assertEqual(len(labels), len(set(labels)), "a label is there twice")
            wanted = support.printed(*self.words(printers[0])[:6], self.lines)
            missing = self.missing(wanted.stdout, labels)
            said = power.named_lines(named) if " in all)" not in named else self.doubtful_lines()
            self.assertEqual(missing - said, set(), named)
            self.assertEqual(done.returncode, int(bool(said)), named)
            doubtful += len(said)
            for printer in printers:
                printer.off()
        self.assertGreater(doubtful, 0, "no kill met a label that was going out")

    def missing(self, wanted: bytes, labels: list[bytes]) -> set[int]:
        """The lines whose labels are on no paper."""
        found = LABEL.findall(wanted)
        return {line for line, label in enumerate(found, 1) if label not in labels}


@support.slow
class Power(desk.Desk):
    """The power of the computer and of the printer is cut."""

    def test_what_was_in_the_memory_of_a_printer_is_named(self) -> None:
        """By each later run, of runs and of streams; tools/tests/power.py cuts it more often."""
        support.needs("gcc")
        trial = power.Trial(self.folder, SEED)
        for _, (is_stream, is_silent) in zip(range(POWER_CUTS), power.kinds()):
            trial.cut(is_stream, is_silent)
        found = trial.found
        self.assertEqual((found.unnamed, found.twice, found.lost_after_all), (0, 0, 0), found.said)
        self.assertEqual(found.said, [])
        self.assertGreater(found.missing, 0)

    def test_a_label_waits_for_the_disk_once(self) -> None:
        """Where it takes long to sync, a printer of tickets would else wait for it."""
        support.needs("gcc")
        variables = power.synced_files(self.folder, self.path)
        done = self.begin("--journal", self.path, stdout=desk.PIPE, variables=variables).done()
        self.assertEqual((done.returncode, len(desk.labels_in(done))), (0, 30))
        self.assertLess(len(Path(f"{self.path}.count").read_bytes()), 30 + 15)


if __name__ == "__main__":
    unittest.main()
