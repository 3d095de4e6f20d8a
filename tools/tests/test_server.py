"""A journal of several computers: a real server of PostgreSQL, which is started and ended here."""

import os
import shutil
import signal
import socket
import subprocess
import tempfile
import unittest
from pathlib import Path
from typing import Any
from unittest import mock

import desk
import support
import test_kills
from printers import Printer

PROGRAMS = "/usr/lib/postgresql"
OWNER = "postgres"  # as root runs no server


def setUpModule() -> None:
    support.labels_program()


class Server(desk.Desk):
    """Tests whose journal is on a server."""

    programs: Path
    place: str
    address: str

    @classmethod
    def setUpClass(cls) -> None:
        found = sorted(Path(PROGRAMS).glob("*/bin/pg_ctl"))
        if not found:
            support.skip("postgresql is not installed")
        cls.programs = found[-1].parent
        folder = tempfile.TemporaryDirectory()
        cls.addClassCleanup(folder.cleanup)
        cls.place = f"{folder.name}/base"
        if os.getuid() == 0:
            shutil.chown(folder.name, OWNER)
        with socket.create_server(("127.0.0.1", 0)) as free:
            port = free.getsockname()[1]
        cls.address = f"postgresql://{OWNER}@127.0.0.1:{port}/postgres"
        cls.call("initdb", "-D", cls.place, "-A", "trust", "-U", OWNER, "--no-sync")
        settings = f"port={port}\nlisten_addresses='127.0.0.1'\nunix_socket_directories=''\n"
        with open(f"{cls.place}/postgresql.conf", "a") as file:
            file.write(settings)
        cls.start()
        cls.addClassCleanup(cls.stop)

    @classmethod
    def call(cls, name: str, *words: str) -> None:
        """Calls a program of the server, as a user that it takes."""
        user = ["runuser", "-u", OWNER, "--"] if os.getuid() == 0 else []
        command = [*user, str(cls.programs / name), *words]
        subprocess.run(command, check=True, stdout=subprocess.DEVNULL, cwd="/")

    @classmethod
    def start(cls) -> None:
        cls.call("pg_ctl", "-D", cls.place, "-l", f"{cls.place}.log", "-w", "start")

    @classmethod
    def stop(cls) -> None:
        cls.call("pg_ctl", "-D", cls.place, "-m", "immediate", "-w", "stop")

    def setUp(self) -> None:
        super().setUp()
        self.path = self.address
        self.addCleanup(self.remove)

    def remove(self) -> None:
        """Takes the tables away."""
        self.select("DROP TABLE IF EXISTS labels, runs")

    def select(self, statement: str, *values: Any) -> list[Any]:
        """What a statement finds in the journal, or does there."""
        import psycopg2

        with psycopg2.connect(self.address) as base, base.cursor() as cursor:
            cursor.execute(statement, values)
            found = cursor.fetchall() if cursor.description else []
        base.close()
        return [*found]


class Runs(Server):
    """Runs and streams by a server."""

    def test_each_label_is_printed_once(self) -> None:
        """By two runs at the same time; a keeper sees where."""
        printers = [Printer().start(), Printer().start()]
        words = [("--journal", self.path, "--print", printer.name) for printer in printers]
        runs = [self.begin(*printer) for printer in words]
        for run in runs:
            run.stdin.write(desk.TICKETS)
            run.stdin.close()
        for run in runs:
            said = run.stderr.read()
            self.assertEqual(run.wait(support.SECONDS), 0, said)
        labels = [label for printer in printers for label in printer.labels]
        self.assertEqual((len(labels), len(set(labels))), (30, 30))
        shown = support.run_here(
            "label-print", "--journal", self.path, "--state", "list"
        ).stdout.decode()
        self.assertEqual(shown.count(",printed,"), 30)
        self.assertEqual(shown.count(printers[0].name), len(printers[0].labels))

    def test_a_stream_that_was_killed_is_named(self) -> None:
        """Until its labels are settled."""
        printer = Printer(answers=()).start()
        stream = self.begin("--stream", "--journal", self.path, "--print", printer.name)
        self.assertRegex(stream.answer(b"qr T00001\n"), "^taken 1 ")
        other = desk.printed("--journal", self.path, "--only", "1")
        self.said(other, 0, "nothing to print: 1 label is in postgresql://")
        stream.send_signal(signal.SIGKILL)
        stream.wait(support.SECONDS)
        done = desk.printed("--journal", self.path, "--only", "2")
        self.said(done, 1, f"line 1: may be missing, sent to {printer.name}: look there\n")
        self.said(
            self.keeper("--only", "1", "--state", "missing"), 0, "1 label is in doubt no more"
        )
        done = desk.printed("--journal", self.path, "--only", "1-2")
        self.assertEqual((done.returncode, len(desk.labels_in(done))), (0, 1), done.stderr)

    def test_a_server_that_is_started_again(self) -> None:
        """The stream connects again, and others see that it goes on."""
        printer = Printer().start()
        stream = self.begin("--stream", "--journal", self.path, "--print", printer.name)
        self.assertRegex(stream.answer(b"qr T00001\n"), "^taken 1 ")
        self.stop()
        self.start()
        self.assertRegex(stream.answer(b"qr T00002\n"), "^taken 2 ")
        done = desk.printed("--journal", self.path, "--only", "1-2")
        self.said(done, 0, "nothing to print: 2 labels are in postgresql://")
        self.assertEqual(len(printer.labels), 2)

    def test_a_server_that_is_gone(self) -> None:
        """Nothing is sent."""
        stream = self.begin(
            "--stream",
            *("--journal", self.path),
            code="from labeltools.sending import server; server.AWAY = 0.5",
        )
        self.assertRegex(stream.answer(b"qr T00001\n"), "^taken 1 ")
        self.stop()
        self.addCleanup(self.start)
        self.assertRegex(stream.answer(b"qr T00002\n"), "^unsent 2 .*onnection ")

    def test_no_message_has_a_password(self) -> None:
        """Other users see it in the list of processes: it is not taken."""
        name = self.address.replace("@", ":sesame@")
        for address in (name, f"{self.address}?password=sesame"):
            done = desk.printed("--journal", address)
            self.said(done, 1, "has a password, which other users can see: leave it out, and write")
            self.assertNotIn(b"sesame", done.stderr)
        password = Path(self.folder, "pgpass")
        password.write_text("*:*:*:*:sesame\n")
        password.chmod(0o600)
        with mock.patch.dict(os.environ, {"PGPASSFILE": str(password)}):
            done = desk.printed("--journal", self.path)
            self.assertEqual(len(desk.labels_in(done)), 30)
            self.assertNotIn(b"sesame", desk.printed("--journal", self.path).stderr)


class Kills(test_kills.Kills, Server):
    """Two lanes are killed, whose journal is on a server."""

    most = 20

    def events(self) -> list[str]:
        """What became last of each label of the journal, if it is made."""
        is_made = self.select("SELECT to_regclass('labels')") != [(None,)]
        return [state for (state,) in self.select("SELECT state FROM labels")] if is_made else []


if __name__ == "__main__":
    unittest.main()
