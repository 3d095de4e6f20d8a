"""What goes wrong at a desk, and what is known then: printers that hang up or talk, journals that
an editor has changed, lanes that end, streams that are ended or that nobody reads.
"""

import errno
import fcntl
import os
import random
import re
import signal
import socket
import time
import unittest
from pathlib import Path
from typing import Any, Sequence
from unittest import mock

import support
from desk import Desk, entry, labels_in, NULL, on_paper, PIPE, printed, Program, ROLL, TICKETS
from jobs import CUT
from labeltools.common.messages import ToolError
from labeltools.common.text import Text
from labeltools.sending.journal import Journal
from labeltools.sending.network import NetworkPrinter
from labeltools.sending.outlets import Broken, Unreachable
from printers import BROKEN, LABEL, Printer

SEED = 20
TAKEN = re.compile(b"^taken ", re.MULTILINE)
# a label of ESC/POS, to its cut
RECEIPT = re.compile(b".*?" + re.escape(CUT), re.DOTALL)
ENDINGS = (signal.SIGTERM, signal.SIGINT, signal.SIGHUP)


def setUpModule() -> None:
    support.labels_program()


class Printers(Desk):
    """Printers that hang up, that talk, and those that have no name."""

    def test_what_is_broken_off_at_the_end(self) -> None:
        """A connection that is reset says that bytes were thrown away: those of the labels after
        the printer has said that it has none left.
        """
        printer = Printer(rude=True).start()
        done = printed("--print", printer.name)
        self.said(done, 1, "the printer broke off at the end: it took 30 labels whole; lines 1-30 ")
        self.said(done, 1, "may be missing: .*, and go on \\(--after N\\)\n")
        done = printed("--print", printer.name, "--journal", self.path)
        self.said(done, 1, f"lines 21-30: may be missing, sent to {printer.name}: look there\n")

    def test_a_stream_to_one_that_hangs_up(self) -> None:
        """Its system takes each label, and it reads none."""
        printer = Printer(hangs_up=True).start()
        done = printed("--stream", "--print", printer.name, "--journal", self.path)
        words = [line.split()[0] for line in done.stderr.decode().splitlines()]
        self.assertEqual(words, ["doubtful"] * 30)
        self.assertEqual(self.events(), ["sent"] * 30)
        self.assertEqual(printer.labels, [])

    def test_a_label_that_takes_longer_than_a_printer_may_rest(self) -> None:
        printer = Printer().start()
        outlet = NetworkPrinter(printer.name, stuck=50.0)
        outlet.open().setsockopt(socket.SOL_SOCKET, socket.SO_SNDBUF, 4096)  # on their way at most
        clock = mock.Mock(monotonic=lambda: float(printer.pieces), sleep=time.sleep)
        with mock.patch("labeltools.sending.network.time", clock):
            outlet.send(b"\0" * 300_000)
            outlet.close()
        self.assertGreater(printer.pieces, 100)

    def test_a_label_that_is_taken_without_end(self) -> None:
        """Some bytes each few seconds: the wait ends all the same."""
        printer = Printer().start()
        outlet = NetworkPrinter(printer.name, stuck=50.0)
        outlet.open().setsockopt(socket.SOL_SOCKET, socket.SO_SNDBUF, 4096)  # on their way at most
        clock = mock.Mock(monotonic=lambda: 20.0 * printer.pieces, sleep=time.sleep)
        with mock.patch("labeltools.sending.outlets.time", clock):
            with self.assertRaisesRegex(Broken, "takes the label too slowly"):
                outlet.send(b"\0" * 1_000_000)

    def test_what_a_variable_without_a_value_leaves_empty(self) -> None:
        for word in ("--journal", "--again", "--only-code"):
            self.said(printed(word, ""), 2, f"argument {word}: it is empty")

    def test_copies_to_one_that_ends_each_connection(self) -> None:
        """Each copy of ESC/POS is a label, and the advice counts it."""
        lines = support.file_of([("qr A", {"copies": 3})])
        printer = Printer(ends=True).start()
        printer.label = RECEIPT
        words = ("--to", "escpos", "--print", printer.name)
        status = 1
        while status and (before := len(printer.labels)) < 3:
            done = printed(*words, "--after", f"{before}", input=lines)
            status = done.returncode
            after = re.findall("--after ([0-9])", done.stderr.decode())
            self.assertTrue(all(int(number) > before for number in after), done.stderr)
        printer.wait(3)
        self.assertEqual(len(printer.labels), 3)
        answer = self.answers(b'#{"copies":3}\nqr A\n', "--to", "escpos")
        self.assertRegex(answer[0], "^taken 2 ")


class Rows(Desk):
    """The rows that a message says to go on from, and rows that no table has."""

    def broken_off(self, lines: bytes, *words: str) -> str:
        """What is said where a printer breaks off in its third label."""
        printer = Printer(cut=3).start()
        done = printed("--print", printer.name, *words, input=lines)
        self.said(done, 1, "the printer broke off")
        return done.stderr.decode()

    def test_the_rest_whatever_chose_the_labels(self) -> None:
        """The same command with --after prints what was not taken, and nothing else."""
        codes = [word for row in (2, 5, 9, 12, 15) for word in ("--only-code", f"T{row:05}")]
        any_order = b"".join(b'#{"row":%d}\nqr R%d\n' % (row, row) for row in (9, 3, 8, 2, 7))
        rows = [(f"qr {table}{row}", {"row": row}) for table in "AB" for row in (2, 3, 4, 5)]
        tables = support.file_of(rows[:4]).replace(b"articles.xlsx", b"A.csv")
        tables += support.file_of(rows[4:])
        chosen = [word for code in ("A2", "B3", "B4", "B5") for word in ("--only-code", code)]
        alike = tables.replace(b"qr B", b"qr A")
        copies = support.file_of([(f"qr {row}", {"copies": row}) for row in range(1, 6)])
        cases: Sequence[tuple[bytes, Sequence[str]]] = (
            (TICKETS, ["--only", "2-9,20"]),
            (TICKETS, codes),
            (TICKETS, ["--only", "20-22", *codes]),
            (any_order, []),
            (tables, []),
            (tables, chosen),
            (alike, []),
            (copies, []),
        )
        for lines, words in cases:
            with self.subTest(words=words, lines=lines):
                said = self.broken_off(lines, *words)
                found = re.search(r"; ([^;]+) may be on paper: .* \(--after (\d+)\)", said)
                assert found is not None, said
                rest = printed(*words, "--after", found[2], input=lines)
                every = on_paper(printed(*words, input=lines))
                self.assertEqual(on_paper(rest), every[int(found[2]) :])
                first = f"the first label is {found[1]}\n"
                self.assertIn(first, rest.stderr.decode())

    def test_copies_that_are_on_paper(self) -> None:
        """They are counted, each of them; after all labels there is none."""
        lines = support.file_of([("qr A", {"copies": 3}), ("qr B", {"copies": 2})])
        every = on_paper(printed(input=lines))
        for count in range(5):
            done = printed("--after", f"{count}", input=lines)
            self.assertEqual(on_paper(done), every[count:])
        for many in ("5", "10000"):
            self.said(printed("--after", many, input=lines), 1, "there is no label to print")

    def test_labels_that_go_out_as_one(self) -> None:
        """All that have the same dots are named."""
        done = printed("--print", Printer(torn=1).start().name, input=b"qr A\nqr A\nqr B\n")
        self.said(done, 1, "; lines 1-2 may be (on paper|missing): ")

    def test_what_is_broken_off_at_an_error_of_the_journal(self) -> None:
        """The labels before it are named, as at any other end."""
        printer = Printer(rude=True).start()
        claims = [True, True, ToolError(Text("no space"))]
        with mock.patch.object(Journal, "claim", mock.Mock(side_effect=claims)):
            done = printed("--print", printer.name, "--journal", self.path)
        self.said(done, 1, "at the end: it took 2 labels whole\n")

    def test_labels_of_a_journal_in_several_tables(self) -> None:
        """Those that may be missing are chosen by their printer: several have the same row."""
        rows = [(f"qr {table}{row}", {"row": row}) for table in "AB" for row in (2, 3, 4, 5)]
        lines = support.file_of(rows[:4]).replace(b"articles.xlsx", b"A.csv")
        said = self.broken_off(lines + support.file_of(rows[4:]), "--journal", self.path)
        self.assertRegex(
            said, r"A.csv, rows? 2.*: may be missing, (.*\n)*.* --print tcp://\S+ --state printed\n"
        )

    def test_again_with_a_journal_that_is_full(self) -> None:
        """Here, too, the same command would print the first of them twice."""
        printed("--journal", self.path, input=TICKETS[:50])
        words = ("--journal", self.path, "--only", "1-5", "--again", "standard output")
        marks = [None, None, ToolError(Text("no space"))]
        with mock.patch.object(Journal, "write_taken", mock.Mock(side_effect=marks)):
            done = printed(*words)
        self.said(done, 1, "lines 1-3: may be missing, sent to standard output(.*\n)*.*--after 2")

    def test_a_signal_after_the_last_label(self) -> None:
        """Without a word it would look as if nothing had gone out."""
        printer = Printer(lingers=True).start()
        run = self.begin("--print", printer.name, code=f"network.FAREWELL = {support.SECONDS}.0")
        run.stdin.write(TICKETS)
        run.stdin.close()
        printer.at_end.wait()
        run.send_signal(signal.SIGTERM)
        printer.told.set()
        said = run.stderr.read()
        self.assertEqual(run.wait(support.SECONDS), -signal.SIGTERM)
        self.assertIn(b"it took 30 labels whole, and these are all\n", said)

    def test_one_that_is_off_after_some(self) -> None:
        """A printer that ends its connection between labels, and takes no new one."""
        open_line, done = NetworkPrinter.open, []

        def look(line: NetworkPrinter) -> socket.socket:
            done.append(line)
            if len(done) % 5 == 4:  # the first is for a question
                line.drop()
                raise Unreachable(Text("{}: Connection refused", line.name))
            return open_line(line)

        printer = Printer().start()
        again = ("--journal", self.path, "--only", "3-9", "--again", printer.name)
        with mock.patch.object(NetworkPrinter, "open", look):
            first = printed("--print", printer.name, "--journal", self.path)
            self.said(first, 1, "line 3 and what follows it were not sent; the same command pri")
            done.clear()
            printed("--print", printer.name, "--journal", self.path)
            done.clear()
            pattern = "line 5 .* not sent; .*go on with label 3 .--after 2.\n"
            self.said(printed("--print", printer.name, *again), 1, pattern)

    def test_labels_of_a_roll_on_a_full_disk(self) -> None:
        with open("/dev/full", "wb") as output:
            done = self.begin(stdout=output).done()
        self.said(done, 1, "No space left on device: it took 0 labels whole: line 1 and what follo")
        self.said(done, 1, "were not sent; the same command begins with it\n")
        with open(self.path, "wb") as output:
            done = self.begin(code="limit(3000)", stdout=output).done()
        self.said(
            done, 1, "sent; go on with label [2-9] by the same command, with >> .--after [1-9].\n"
        )

    def test_a_pipe_whose_reader_ends(self) -> None:
        """What it has not read is gone."""
        run = self.begin(stdout=PIPE)
        run.stdin.write(TICKETS * 20)
        run.stdin.close()
        run.stdout.read(1)
        run.stdout.close()
        self.assertRegex(
            run.stderr.read(), b"lines? 1.* may be missing: look which label came out last"
        )

    def test_rows_that_no_table_has(self) -> None:
        for rows in ("9-7", "0-", "0", "2,0-3", "00"):
            self.said(printed("--only", rows), 2, f"'{rows}': write rows as 2,7-9 or 7-")


class Files(Desk):
    """What becomes of the file of a journal."""

    def test_blanks_at_the_end_of_a_code_are_its_own(self) -> None:
        lines = b"qr A\nqr A \nqr A  \n"
        for count in (3, 0):
            done = printed("--journal", self.path, input=lines)
            self.assertEqual((done.returncode, len(labels_in(done))), (0, count), done.stderr)

    def test_a_journal_that_goes_while_a_label_goes_out(self) -> None:
        """What follows it is not sent, until the file is there again."""
        moved = f"{self.folder}/moved"
        with mock.patch(
            "labeltools.sending.outlets.write_whole", lambda *_: os.rename(self.path, moved)
        ):
            done = printed("--journal", self.path)
        said = "journal: another program has changed it: line 2 and what follows it were not sent"
        self.said(done, 1, f"{said}; put back the file that was there, ")
        os.rename(moved, self.path)
        done = printed("--journal", self.path)
        self.assertEqual((done.returncode, len(labels_in(done))), (0, 29), done.stderr)

    def test_a_disk_without_locks(self) -> None:
        locks = (fcntl.F_OFD_SETLK, fcntl.F_OFD_SETLKW, fcntl.F_OFD_GETLK)
        before = fcntl.fcntl

        def without_locks(file: int, command: int, asked: int | bytes = 0) -> int | bytes:
            if command in locks:
                raise OSError(errno.ENOLCK, "No locks available")
            return before(file, command, asked)

        with mock.patch("fcntl.fcntl", without_locks):
            done = printed("--journal", self.path)
        self.said(done, 1, "No locks available; put the journal on a disk that locks files")

    def written_to(self, path: str, mode: str = "wb") -> "support.Finished[bytes]":
        """Runs label-print with a file as standard output."""
        with open(path, mode) as output:
            return self.begin("--journal", self.path, stdout=output).done()

    def test_standard_output(self) -> None:
        for pattern in ("^$", "journal has labels of an earlier file: with > that file has lost"):
            self.said(self.written_to(f"{self.folder}/labels"), 0, pattern)
        os.unlink(f"{self.folder}/labels")
        self.said(
            self.written_to(f"{self.folder}/labels", "ab"), 0, "^label-print: nothing to print: "
        )


class Lanes(Desk):
    """Lanes that end, and others that go on."""

    def test_a_label_that_is_given_up(self) -> None:
        """Others see so, though the run goes on."""
        journal = Journal(self.journal(entry("sent", "qr T00001")), "tcp://b")
        self.assertTrue(journal.claim(self.records[1]))
        journal.give_up()
        done = support.run("label-print", *ROLL, "--journal", self.path, input=TICKETS)
        self.said(done, 1, "line 1: may be missing, sent to tcp://a")
        self.said(done, 1, "line 2: may be missing, sent to tcp://b")
        self.assertEqual(len(labels_in(done)), 28)

    def test_a_lane_that_is_stopped(self) -> None:
        """It may keep the journal: the other one says so, and goes on when it is free."""
        Journal(self.path, "tcp://a")
        other = self.holding()
        with mock.patch("labeltools.sending.database.WAIT", 0.2):
            done = printed("--journal", self.path)
        self.said(
            done,
            1,
            "journal: database is locked: line 1 and .*; is another run stopped[?] continue",
        )
        self.assertEqual(labels_in(done), [])
        other.stdin.close()
        self.assertEqual(len(labels_in(printed("--journal", self.path))), 30)


class Reprints(Desk):
    """--again by another printer, which breaks off."""

    def test_what_was_taken_and_is_missing_is_printed_by_the_name_of_that_printer(self) -> None:
        """The labels that it took are its own in the journal: `--again` of the first has none."""
        printed("--journal", self.path)
        printer = Printer(cut=10).start()
        words = ("--journal", self.path, "--print", printer.name)
        done = printed(*words, "--only", "3-", "--again", "standard output")
        last, first = self.events_of(printer.name)
        self.said(done, 1, f"lines 3-{first}: may be missing, sent to {printer.name}: look there")
        self.said(done, 1, f"; go on with label {last - 1} .--after {last - 2}")
        thrown = len(printer.labels)
        done = printed(*words, "--only", f"3-{last}", "--again", printer.name)
        self.said(done, 1, f"{last - 2} labels printed by {printer.name}")
        self.assertEqual(len(printer.labels), thrown + last - 2)

    def events_of(self, printer: str) -> tuple[int, int]:
        """The lines of the last label that a printer took, and of the last that it was sent."""
        places = "SELECT place FROM labels JOIN runs ON run = number WHERE printer = ?"
        taken = [
            int(place.split()[1])
            for (place,) in self.select(f"{places} AND state <> 'sent'", printer)
        ]
        sent = [int(place.split()[1]) for (place,) in self.select(places, printer)]
        return max(taken), max(sent)


class Streams(Desk):
    """Streams that are ended, that nobody reads, and whose journal goes."""

    def test_a_label_in_doubt_stays_so(self) -> None:
        """Until it is printed by another command, while the stream goes on."""
        printer = Printer(hangs_up=True).start()
        words = ("--journal", self.path, "--print", printer.name)
        stream = self.begin("--stream", *words)
        self.assertRegex(stream.answer(b"qr T00001\n"), "^doubtful 1 .* broke off")
        printer.hangs_up = False
        self.assertRegex(stream.answer(b"qr T00001\n"), "^doubtful 2 may be missing, sent to")
        again = ("--only-code", "T00001", "--again", printer.name)
        done = support.run("label-print", *ROLL, *words, *again, input=TICKETS)
        self.said(done, 0, "1 label printed by")
        self.assertEqual(stream.answer(b"qr T00001\n"), "known 3 qr T00001\n")
        self.assertRegex(stream.answer(b"qr T00002\n"), "^taken 4 ")
        self.assertEqual(len(printer.labels), 2)

    def test_nobody_reads_the_answers_any_more(self) -> None:
        """It ends before the next label, which would be there without an answer."""
        printer = Printer().start()
        ours, theirs = socket.socketpair()
        for answers in (PIPE, theirs.fileno()):
            stream = self.begin(
                "--stream", "--print", printer.name, "--journal", self.path, stderr=answers
            )
            stream.write(b"qr %d\n" % (answers == PIPE))
            said = stream.stderr if stream.stderr else ours.makefile("rb")
            self.assertRegex(said.readline(), b"^taken 1 ")
            said.close()
            for end in (ours, theirs) if answers != PIPE else ():
                end.close()
            stream.write(b"qr T00002\n")
            self.assertEqual(stream.wait(support.SECONDS), 1)
        self.assertEqual(self.events(), ["printed"] * 2)
        self.assertEqual(len(printer.labels), 2)

    def test_nobody_reads_the_labels_any_more(self) -> None:
        """The label has not gone out, and is not in doubt."""
        stream = self.begin("--stream", "--journal", self.path, stdout=PIPE)
        self.assertRegex(stream.answer(b"qr A\n"), "^taken 1 ")
        stream.stdout.close()
        said = "unsent 2 standard output: Broken pipe\n"
        self.assertEqual(stream.answer(b"qr B\n"), said)
        self.assertEqual(stream.wait(support.SECONDS), 1)
        self.assertEqual(self.events(), ["taken"])

    @support.slow
    def test_a_signal_waits_for_the_answer(self) -> None:
        """The moments are those of the machine, the seed is fixed."""
        moments = random.Random(SEED)
        for _ in range(12):
            printer = Printer().start()
            stream = self.begin("--stream", "--print", printer.name)
            stream.write(TICKETS)
            printer.wait(1)
            time.sleep(moments.uniform(0.0, 0.1))
            stream.send_signal(moments.choice(ENDINGS))
            answers = stream.stderr.read().splitlines()
            self.assertLess(stream.wait(support.SECONDS), 0)
            self.assertEqual({line.split()[0] for line in answers}, {b"taken"})
            self.assertEqual(len(printer.labels), len(answers))

    def test_half_a_line_of_a_writer_that_has_gone(self) -> None:
        """It is not one line with that of the next writer."""
        fifo = self.fifo()
        stream = self.begin("--stream", fifo)
        for line, pattern in (
            (b"qr A\n", b"taken 1 "),
            (b"qr T000", b"refused 2 cut off before its line end"),
            (b"qr B\n", b"taken 3 "),
            (b"qr " + b"C" * 70_000, b"refused 4 cut off before its line end"),
            (b"qr D\n", b"taken 5 "),
        ):
            Path(fifo).write_bytes(line)
            self.assertRegex(stream.stderr.readline(), b"^" + pattern)
        size = stream_size(stream, fifo, b"qr E\n")
        self.assertEqual(stream_size(stream, fifo, b"qr E\n"), size)
        self.assertGreater(stream_size(stream, fifo, b'#{"title":"Stuhl"} qr E\n'), size)

    def test_programs_that_share_a_fifo(self) -> None:
        """What one leaves there changes no label of another one, and is answered."""
        fifo = self.fifo()
        stream = self.begin("--stream", fifo)
        size = stream_size(stream, fifo, b"qr E\n")
        apart = b"a remark has to be on one line with its label here\n$"
        with open(fifo, "wb", buffering=0) as first, open(fifo, "wb", buffering=0) as second:
            for data in (b'#{"price":"0,01","copies":50}\n', b"#", b"qr E\n", b"qr E\n"):
                (second if data.startswith(b"qr") else first).write(data)
            for number in (2, 3):
                self.assertRegex(stream.stderr.readline(), b"^refused %d " % number + apart)
            word, number_of_line, size_of_last, *_ = stream.stderr.readline().split()
        self.assertEqual((word, number_of_line), (b"taken", b"4"))
        self.assertEqual(int(size_of_last), size)

    def test_labels_and_answers_that_are_read_late(self) -> None:
        """By streams that do not wait."""
        lines = Path(self.folder, "lines")
        lines.write_bytes(b"".join(b"qr W%05d\n" % number for number in range(400)))
        for words, name, pattern in (((), "stdout", LABEL), (["--stream"], "stderr", TAKEN)):
            source, target = pipe_that_does_not_wait()
            end: dict[str, Any] = {name: target}
            run = self.begin(*words, str(lines), stdin=NULL, **end)
            os.close(target)
            time.sleep(1)
            with open(source, "rb") as file:
                self.assertEqual(len(pattern.findall(file.read())), 400)
            self.assertEqual(run.wait(support.SECONDS), 0)

    def test_a_client_that_breaks_off(self) -> None:
        """Its line is printed and answered, and what cannot be read is not standard output."""
        with socket.create_server(("127.0.0.1", 0)) as server:
            client = socket.create_connection(server.getsockname())
            line, _ = server.accept()
        with line:
            run = self.begin("--stream", stdin=line.fileno())
        client.sendall(b"qr A\n")
        self.assertRegex(run.stderr.readline(), b"^taken 1 ")
        client.setsockopt(socket.SOL_SOCKET, socket.SO_LINGER, BROKEN)
        client.close()
        said = run.stderr.read()
        self.assertEqual(run.wait(support.SECONDS), 1)
        self.assertRegex(said, b"^label-print: the lines cannot be read: Connection reset by peer")

    def test_a_journal_that_another_program_has_written(self) -> None:
        """Nothing is sent until the file is there again."""
        stream = self.begin("--stream", "--journal", self.path)
        self.assertRegex(stream.answer(b"qr A\n"), "^taken 1 ")
        os.rename(self.path, f"{self.path}.old")
        Path(self.path).touch()
        self.assertRegex(stream.answer(b"qr B\n"), "^unsent 2 .*another program has changed it")
        os.rename(f"{self.path}.old", self.path)
        self.assertRegex(stream.answer(b"qr B\n"), "^taken 3 ")

    def test_a_label_that_is_drawn_wrongly(self) -> None:
        """It is refused, as each later one is."""
        with mock.patch("labeltools.printing.press.zpl", lambda picture, copies: b"^XA^XZ\n"):
            done = printed("--stream", input=b"qr A\nqr B\n")
        self.said(done, 1, r"\Arefused 1 line 1: .*\nrefused 2 line 2: .*\n\Z")
        self.assertEqual(done.stdout, b"")


def stream_size(stream: Program, fifo: str, lines: bytes) -> int:
    """The bytes of the label that a stream prints for what a writer writes into its FIFO."""
    Path(fifo).write_bytes(lines)
    return int(stream.stderr.readline().split()[2])


def pipe_that_does_not_wait() -> tuple[int, int]:
    """A small pipe whose writer gets an error where it is full."""
    source, target = os.pipe()
    os.set_blocking(target, False)
    fcntl.fcntl(target, fcntl.F_SETPIPE_SZ, 4096)
    return source, target


if __name__ == "__main__":
    unittest.main()
