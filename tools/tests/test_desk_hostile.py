"""A desk among programs that do as they like: printers that end a connection in their own time,
lanes that end while others look, outputs that fill up, FIFOs that are replaced, libraries that talk.
"""

import os
import signal
import socket
import subprocess
import threading
import time
import unittest
from pathlib import Path
from typing import Callable
from unittest import mock

import support
from desk import Desk, entry, labels_in, open_files, PIPE, printed, program, ROLL, TICKETS
from labeltools.common import files
from labeltools.sending import network, outlets, stream
from labeltools.sending.database import Database
from labeltools.sending.journal import Journal
from labeltools.sending.network import NetworkPrinter
from labeltools.sending.outlets import Broken
from printers import LABEL, Printer

MANY_FILES = """
_, most = resource.getrlimit(resource.RLIMIT_NOFILE)
resource.setrlimit(resource.RLIMIT_NOFILE, (min(2048, most), most))
for _ in range(1024):  # select() takes fewer
    os.dup(0)
"""
# A printer may take nothing for longer than another program takes to start.
PATIENT = f"network.FAREWELL = {support.SECONDS}.0"
NO_FOLDER = """
import tempfile

def gettempdir():
    raise FileNotFoundError(2, "none")

tempfile.gettempdir = gettempdir
"""


def setUpModule() -> None:
    support.labels_program()


class Connections(Desk):
    """Connections that a printer ends, and one that a stream has no more need of."""

    def test_one_that_a_printer_has_ended_is_made_again(self) -> None:
        """Nothing of the next label goes into the old one: it would be in doubt for nothing."""
        printer = Printer(ends=True)
        outlet = NetworkPrinter(printer.start().name)
        label = labels_in(printed(input=TICKETS[:10]))[0]
        for _ in range(2):
            line = outlet.open()
            outlet.send(label)
            while not network.has_ended(line):
                time.sleep(0.001)
        outlet.close()
        self.assertEqual((printer.connections, printer.labels), (2, [label] * 2))

    def test_one_that_a_printer_has_broken_off_is_not(self) -> None:
        """It says that bytes were thrown away, which may be those of the label before."""
        printer = Printer(cut=1, waits=True).start()
        outlet = NetworkPrinter(printer.name)
        label = labels_in(printed(input=TICKETS[:10]))[0]
        line = outlet.open()
        outlet.send(label)  # its system has taken the label, and it reads it then
        printer.told.set()
        self.assertTrue(files.events_of(line.fileno(), network.BREAK, support.SECONDS))
        outlet.open()
        with self.assertRaises(Broken):
            outlet.send(label)
        self.assertEqual(printer.labels, [label])

    def test_one_that_a_printer_ends_first_and_then_breaks_off(self) -> None:
        """It says goodbye, and throws bytes away: only while we have not ended it is that seen."""
        for is_read in (True, False):
            with socket.create_server(("127.0.0.1", 0)) as server:
                outlet = NetworkPrinter(f"tcp://127.0.0.1:{server.getsockname()[1]}")
                line = outlet.open()
                printer, _ = server.accept()
            outlet.send(b"label")
            printer.recv(5 if is_read else 1)
            printer.shutdown(socket.SHUT_WR)
            while not network.has_ended(line):
                time.sleep(0.001)
            late = threading.Timer(0.02, printer.close)  # it breaks off with something unread
            late.start()
            if is_read:
                outlet.close()
                continue
            with mock.patch("labeltools.sending.network.REGRET", float(support.SECONDS)):
                self.assertRaises(Broken, outlet.close)
            late.join()

    def test_a_stream_leaves_a_printer_to_the_lane_that_has_the_label(self) -> None:
        """It finds that another lane was first."""
        printer = Printer()
        words = ("--print", printer.start().name, "--journal", self.path)
        stream = self.begin("--stream", *words)
        self.assertRegex(stream.answer(b"qr T00001\n"), "^taken 1 ")
        done = printed(*words, "--only", "2")
        self.assertEqual(done.returncode, 0, done.stderr)
        self.assertEqual(stream.answer(b"qr T00002\n"), "known 2 qr T00002\n")
        while printer.ended < 3:
            time.sleep(0.01)
        self.assertEqual(printer.connections, 3)  # a question, and a label of each lane
        self.assertRegex(stream.answer(b"qr T00003\n"), "^taken 3 ")

    def test_more_open_files_than_select_takes(self) -> None:
        """A program that starts the tool may hand on as many as it has."""
        fifo = self.fifo()
        printer = Printer(slow=0.02).start()
        stream = self.begin(
            "--stream", "--print", printer.name, "--dpi", "600", fifo, code=MANY_FILES
        )
        Path(fifo).write_bytes(b"qr A\n")
        self.assertRegex(stream.stderr.readline(), b"^taken 1 ")


class Doubts(Desk):
    """Labels that are in doubt, and those that are not."""

    def waiting(self, printer: str) -> str:
        """A journal with the first label of TICKETS in doubt."""
        return self.journal(entry("sent", "qr T00001", printer=printer))

    def test_a_lane_that_has_ended_since_the_journal_was_read(self) -> None:
        """Its label was taken meanwhile: nobody has to look for it."""
        ours = Journal(self.waiting("tcp://b"), "tcp://a")
        self.add(entry("sent", "qr T00002"))
        take = "UPDATE labels SET state = 'printed' WHERE code = 'qr T00001'"

        def look(base: Database, _: object) -> bool:
            self.select(take)
            return False

        self.assertTrue(self.is_doubtful(ours, 0))
        with mock.patch.object(Database, "is_held", look):
            self.assertFalse(self.is_doubtful(ours, 0))
            self.assertTrue(self.is_doubtful(ours, 1))

    def test_two_runs_that_print_once_more(self) -> None:
        """Each label that is sent after a run began is not for that run."""
        self.journal(entry("printed", "qr T00001"), entry("sent", "qr T00002"))
        one, other = (Journal(self.path, "tcp://a", "tcp://a") for _ in range(2))
        for first, second, record in ((one, other, 0), (other, one, 1)):
            self.assertTrue(first.claim(self.records[record]))
            first.write_taken(self.records[record])
            self.assertFalse(second.claim(self.records[record]))

    def test_one_of_another_input(self) -> None:
        """An input that has it settles it."""
        self.waiting("tcp://a")
        done = printed("--journal", self.path, input=b"qr X\n")
        self.said(done, 1, "qr T00001, of another input: may be missing, sent to tcp://a: look")
        self.said(done, 1, "journal --only-code 'qr T00001' --state printed\n")
        done = self.keeper("--only-code", "qr T00001", "--state", "printed")
        self.said(done, 0, "1 label is in doubt no more")
        self.said(printed("--journal", self.path, input=b"qr X\n"), 0, "1 label is in .* already")

    def test_those_outside_of_what_is_printed(self) -> None:
        """Each run names all of a journal, until they are printed or their lines say `taken`."""
        for words in (("--only", "3-"), ("--only-code", "T00002"), ()):
            done = printed("--journal", self.waiting("tcp://a"), *words)
            hint = "label-print: if on paper: .* --only 1 --state printed\n.* --only 1 --state missing\n"
            self.said(done, 1, f"line 1: may be missing, sent to tcp://a: look there\n{hint}")
        done = printed("--journal", self.path, "--only", "1", "--again", "tcp://a")
        self.assertNotIn(b"may be missing", done.stderr)
        self.said(
            printed("--journal", self.path, "--only", "3-"), 0, "28 labels are in .* already\n$"
        )

    def test_one_whose_data_stands_in_two_symbologies(self) -> None:
        """What the message says prints that label alone."""
        lines = b"code128 X1\nqr X1\n"
        printed("--journal", self.path, "--only", "1", input=lines)
        self.add(entry("sent", "qr X1", "line 2", "standard output"))
        words = ("--journal", self.path)
        said = self.answers(b"qr X1\n", *words)
        self.assertIn("look there; then write #printed qr X1 or #missing qr X1", said[-1])
        done = printed(*words, input=lines)
        self.said(done, 1, "line 2: may be missing, sent to (.*\n)*.* --only 2 --state missing")
        for choice in (("--only", "2"), ("--only-code", "qr X1")):
            self.select("DELETE FROM labels WHERE code = 'qr X1'")
            self.add(entry("sent", "qr X1", "line 2", "standard output"))
            done = printed(*words, *choice, "--again", "standard output", input=lines)
            self.assertEqual((done.returncode, len(labels_in(done))), (0, 1), done.stderr)

    def test_those_of_rows_that_several_tables_have(self) -> None:
        """A row is chosen in each table, a code of a journal once."""
        lines = b"".join(
            support.file_of([(f"qr {name}1", {}), (f"qr {name}2", {})]).replace(
                b"articles", name.encode()
            )
            for name in "ab"
        )
        done = printed("--journal", self.journal(entry("sent", "qr b2", "row 3")), input=lines)
        self.said(
            done, 1, "b.xlsx, row 3: may be missing, (.*\n)*.* --only-code 'qr b2' --state printed"
        )

    def test_those_of_many_printers(self) -> None:
        """The printer of each is named, and those of one printer are together."""
        names = [f"tcp://lane-{number % 12}" for number in range(1, 25)]
        self.journal(
            *(
                entry("sent", f"qr T{number:05}", f"line {number}", name)
                for number, name in enumerate(names, 1)
            )
        )
        done = printed("--journal", self.path)
        for number in range(12):
            rows = f"{number or 12}, {(number or 12) + 12}"
            self.said(done, 1, f"lines {rows}: may be missing, sent to tcp://lane-{number}: l")

    def test_one_that_another_lane_is_sending(self) -> None:
        """That lane may break off: whoever is told `known` would tick it off."""
        printer = Printer(stuck=2).start()
        words = ("--print", printer.name, "--journal", self.path)
        busy = self.begin("--stream", *words, code=PATIENT)
        busy.write(b"qr T00001\nqr T00002\n")
        self.assertRegex(busy.stderr.readline(), b"^taken 1 ")
        while self.events() != ["printed", "sent"]:
            time.sleep(0.01)
        other = self.begin("--stream", "--journal", self.path)
        self.assertEqual(other.answer(b"qr T00001\n"), "known 1 qr T00001\n")
        text = "is sending it: send the line again to see whether it was taken"
        self.assertEqual(other.answer(b"qr T00002\n"), f"doubtful 2 {printer.name} {text}\n")
        busy.kill()
        busy.wait()
        self.assertRegex(other.answer(b"qr T00002\n"), "^doubtful 3 may be missing, sent to")

    def test_a_mark_of_a_stream_that_cannot_be_written(self) -> None:
        """The stream goes on; another command names the label, and prints it by --again."""
        printer = Printer().start()
        words = ("--print", printer.name, "--journal", self.path)
        code = "journal.Journal.write_taken = lambda *_, **__: broken()"
        stream = self.begin("--stream", *words, code=code)
        self.assertRegex(stream.answer(b"qr T00001\n"), "^doubtful 1 .*it is off")
        lines = TICKETS[:10]
        done = support.run("label-print", *ROLL, *words, input=lines)
        self.said(done, 1, "line 1: may be missing, sent to tcp://")
        again = ("--only", "1", "--again", printer.name)
        done = support.run("label-print", *ROLL, *words, *again, input=lines)
        self.said(done, 0, "1 label printed by")
        self.assertEqual(stream.answer(b"qr T00001\n"), "known 2 qr T00001\n")

    def test_a_stream_to_standard_output_goes_on(self) -> None:
        """What is in doubt is one label, and standard output takes others."""
        done = printed("--stream", "--journal", self.waiting("tcp://a"), input=TICKETS[:20])
        self.said(
            done, 1, r"\A(label-print: .*\n){3}doubtful 1 may be missing, sent.*\ntaken 2 .*\n\Z"
        )

    def test_a_line_that_a_stream_has_printed_itself(self) -> None:
        """Whoever is told to send it again would print it twice."""
        stream = self.begin("--stream", "--journal", self.path)
        self.assertRegex(stream.answer(b"qr T00001\n"), "^taken 1 ")
        self.assertRegex(stream.answer(b"qr T00001\n"), "^known 2 ")


class Ends(Desk):
    """Signals, and disks that are full."""

    def test_a_signal_leaves_no_label_in_doubt(self) -> None:
        """It comes when the label is in the journal, and has not gone out yet."""
        code = (
            "claim = journal.Journal.claim\n"
            "journal.Journal.claim = lambda *given: (claim(*given), end())[0]"
        )
        done = self.begin("--journal", self.path, code=code, stdout=PIPE).done()
        self.said(done, -signal.SIGTERM, "it took 1 label whole: line 2 and what follows it were")
        self.said(done, -signal.SIGTERM, "not sent; the same command prints the rest\n")
        self.assertEqual((len(labels_in(done)), self.events()), (1, ["printed"]))

    def test_a_way_out_that_breaks_off_after_a_signal(self) -> None:
        """The signal ends the tool, and the row is named all the same."""
        done = self.begin(
            code="StandardOutput.send = lambda outlet, data: end() or broken()", stdout=PIPE
        ).done()
        self.said(done, -signal.SIGTERM, "it is off: it took 0 labels whole; line 1 may be on pap")
        self.said(done, -signal.SIGTERM, "; the same command begins with it\n")

    def test_a_way_out_that_breaks_off_before_a_label(self) -> None:
        """As of a printer that has ended the connection: of that label nothing was sent."""
        code = "ways = [sys.stdout.buffer] * 4\n"
        code += "StandardOutput.open = lambda outlet: ways.pop() if ways else broken()"
        done = self.begin("--journal", self.path, code=code, stdout=PIPE).done()
        self.said(done, 1, "it is off: it took 2 labels whole: line 3 and what follows it were not")
        self.said(done, 1, "lines 1-2: may be missing, sent to standard output: look there\n")
        self.assertEqual(self.events(), ["taken"] * 2)

    def limited_answers(self, path: str, room: int, lines: bytes, *words: str) -> bytes:
        """The answers of a stream to a file that takes so many bytes."""
        with open(path, "wb") as output:
            words = ("--stream", *words)
            done = self.begin(*words, code=f"limit({room})", stdout=output).done(lines)
        self.assertEqual(done.returncode, 1)
        return done.stderr

    def test_a_stream_to_a_standard_output_that_is_full(self) -> None:
        """The label can be sent again: nothing of it is there. That is not known where its first
        copy is there, or the journal has it as sent.
        """
        path = f"{self.folder}/labels"
        label, other = labels_in(printed(input=b"qr A\nqr B\n"))
        size_of_two = len(label + other)
        for name, room in (("/dev/full", 9), (path, len(label) - 1), (path, size_of_two - 1)):
            found = self.limited_answers(name, room, b"qr A\nqr B\n").splitlines()
            self.assertRegex(found[-1], rb"^unsent (1|2) standard output: (No space|File too)")
            self.assertEqual([line[:7] for line in found[:-1]], [b"taken 1"] * (room >= len(label)))
        self.assertEqual(Path(path).read_bytes(), label)
        copies = b'#{"copies":2}\nqr A\n'
        size = len(printed("--to", "escpos", input=b"qr A\n").stdout)
        answer = self.limited_answers(path, size + 9, copies, "--to", "escpos")
        self.assertRegex(answer, b"^doubtful 2 standard output: File too large\n$")
        answer = self.limited_answers("/dev/full", 99_999, b"qr A\n", "--journal", self.path)
        self.assertRegex(answer, b"^doubtful 1 standard output: No space left on device\n$")

    def test_what_is_on_the_disk_when_the_power_fails(self) -> None:
        """Each step of the journal once it is done, and each label of a file before its mark."""
        order: list[str] = []

        def note(word: str) -> Callable[..., None]:
            return lambda *_, **__: order.append(word)

        with open(f"{self.folder}/labels", "wb") as labels:
            with mock.patch.multiple(Journal, write_taken=note("taken")):
                with mock.patch.multiple("os", fsync=note("synced"), fdatasync=note("synced")):
                    with mock.patch.multiple(outlets, standard_output=lambda: labels):
                        done = printed("--journal", self.path, input=TICKETS[:20])
        self.assertEqual(done.returncode, 1, done.stderr)
        self.assertEqual(order, ["synced", "taken"] * 2)
        ((synced,),) = Database(self.path).do("PRAGMA synchronous")
        self.assertEqual(synced, 2)  # what ends each step, too

    def test_a_journal_in_place_of_a_stream_that_is_closed(self) -> None:
        """What a library writes on standard error is not in it."""
        Path(self.folder, "lines").write_bytes(TICKETS)
        command = program(
            "claim = journal.Journal.claim\n"
            "journal.Journal.claim = lambda *given: os.write(2, b'warning') and claim(*given)"
        )
        words = [*command, *ROLL, "--journal", self.path, f"{self.folder}/lines"]
        env = support.environment()
        closed = ["/bin/sh", "-c", 'exec "$@" <&- 2>&-', "sh", *words]
        done = subprocess.run(closed, stdout=PIPE, env=env, cwd=support.TOOLS)
        self.assertEqual((done.returncode, len(LABEL.findall(done.stdout))), (0, 30))
        self.assertEqual(self.events(), ["printed"] * 30)

    def test_no_folder_for_temporary_files(self) -> None:
        """The message names no other file, and has what to do."""
        done = self.begin("--to", "pdf", code=NO_FOLDER, stdout=PIPE).done()
        self.said(done, 1, r"label-print: \$TMPDIR: none; make room there, or name another folder")

    def test_labels_of_others_in_the_same_file(self) -> None:
        """What another lane has added to a file since is not taken out with a label that does not
        fit; and what is written later follows what is there.
        """
        path = Path(self.folder, "labels")
        for added, left in ((b"", b"old"), (b"other", b"oldnewother")):
            path.write_bytes(b"old")
            with path.open("r+b", buffering=0) as file:
                file.seek(0, os.SEEK_END)
                file.write(b"new")
                with path.open("ab") as other:
                    other.write(added)
                files.take_out_last(file.fileno(), 3, 3)
                self.assertEqual(path.read_bytes(), left)
                if not added:
                    file.write(b"later")
                    self.assertEqual(path.read_bytes(), b"oldlater")


class Streams(Desk):
    """Answers, FIFOs and objects of a stream."""

    def test_a_writer_that_goes_while_a_label_is_on_its_way(self) -> None:
        """Its half line is not one with the line of the next writer."""
        fifo = self.fifo()
        printer = Printer(waits=True).start()
        stream = self.begin("--stream", "--print", printer.name, fifo)
        for line in (b"qr A\n", b"qr T000", b"qr B\n"):
            self.written(stream, fifo, line)
        printer.told.set()
        for pattern in (b"^taken 1 ", b"^refused 2 cut off before its line end$", b"^taken 3 "):
            self.assertRegex(stream.stderr.readline(), pattern)

    def test_what_goes_wrong_while_lines_are_read_ahead(self) -> None:
        """It ends the stream, once the lines before it are printed."""
        path = f"{self.folder}/fifo"
        os.mkfifo(path)
        for error in (MemoryError(), ValueError("bad")):
            reads = [b"qr A\n", error]
            waiting = mock.patch.object(stream.Fifo, "wait_for_writer")
            with waiting, mock.patch("labeltools.sending.stream.os.fdopen") as reader:
                reader.return_value.readline.side_effect = reads
                lines = stream.Fifo(path)
                self.assertEqual(lines.readline(), b"qr A\n")
                with self.assertRaises(type(error)):
                    lines.readline()

    def test_what_libraries_say_is_no_answer(self) -> None:
        """Fontconfig warns of this locale, which a ssh from another system may set."""
        stream = self.begin("--stream", variables={"LC_ALL": "UTF-8"})
        self.assertRegex(stream.answer(b"qr A\n"), "^taken 1 ")
        stream = self.begin("--stream", variables={"FONTCONFIG_FILE": "/no/such"})
        self.assertRegex(stream.answer(b"qr A\n"), "^taken 1 ")

    def test_standard_error_is_closed(self) -> None:
        command = ["/bin/sh", "-c", 'exec "$@" 2>&-', "sh", *program(), *ROLL, "--stream"]
        done = subprocess.run(command, input=TICKETS, stdout=PIPE, env=support.environment())
        self.assertEqual((done.returncode, done.stdout), (1, b""))

    def test_two_objects_before_a_line(self) -> None:
        """One of them is that of a line which got lost: a plain run refuses such a file, too."""
        lines = b'#{"title":"A"}\n#{"title":"B"}\nqr A\n#{"title":"C"}\nqr C\n'
        done = printed("--stream", input=lines)
        refused, taken = done.stderr.decode().splitlines()
        self.assertRegex(refused, "^refused 3 .*: something is missing before line 2")
        self.assertRegex(taken, "^taken 5 .* qr C$")
        self.assertEqual(labels_in(done), labels_in(printed(input=b'#{"title":"C"}\nqr C\n')))
        self.said(printed(input=lines), 1, "something is missing before line 2")

    def test_what_is_wrong_with_an_object_names_its_line(self) -> None:
        lines = b'qr A\n#{"title":1}\n\n# remark\nqr B\n'
        Path(self.folder, "lines").write_bytes(lines)
        for name, path in (("standard input", "-"), ("lines", f"{self.folder}/lines")):
            done = printed("--stream", path, input=lines)
            self.said(
                done, 1, f"\nrefused 5 (.*/)?{name}: line 2: not understood: .title.; make it"
            )

    def test_the_places_in_a_journal_are_those_of_the_lines(self) -> None:
        lines = b'qr A\n\n#{"row":7}\nqr B\n#{"title":"C"}\n# remark\nqr C\n'
        printed("--stream", "--journal", self.path, input=lines)
        places = [place for (place,) in self.select("SELECT place FROM labels ORDER BY rowid")]
        self.assertEqual(places, ["line 1", "row 7", "line 7"])

    def test_a_fifo_that_another_file_has_replaced(self) -> None:
        """Nobody can write to it any more."""
        fifo = Path(self.folder, "till")
        makers: tuple[Callable[[], object], ...] = (fifo.touch, lambda: os.mkfifo(fifo), os.sync)
        for make in makers:
            os.mkfifo(fifo)
            stream = self.begin("--stream", str(fifo), code="stream.LOOK = 0.1")
            with fifo.open("wb", buffering=0) as writer:
                writer.write(b"qr A\n")
                self.assertRegex(stream.stderr.readline(), b"^taken 1 ")
                fifo.unlink()
                make()
            self.assertEqual(stream.wait(support.SECONDS), 1)
            self.assertRegex(stream.stderr.read(), b"till: another program has changed it; make")
            fifo.unlink(missing_ok=True)

    def test_a_fifo_that_a_writer_has_taken_for_itself(self) -> None:
        """It has opened it, and taken its name away: it may write whenever it likes."""
        fifo = Path(self.folder, "till")
        os.mkfifo(fifo)
        stream = self.begin("--stream", str(fifo), code="stream.LOOK = 0.1")
        with fifo.open("wb", buffering=0) as writer:
            while open_files(stream, str(fifo)) < 1:
                time.sleep(0.01)
            time.sleep(0.3)  # longer than the name may be missing
            fifo.unlink()
            for number in (1, 2):
                time.sleep(0.3)
                writer.write(b"qr A\n")
                self.assertRegex(stream.stderr.readline(), b"^taken %d " % number)


class Choices(Desk):
    """Rows and codes of large files."""

    def test_all_that_is_missing_is_counted(self) -> None:
        """In one message, however much it is."""
        codes = [word for number in range(12) for word in ("--only-code", f"X{number:02}")]
        done = printed("--only", "1", *codes)
        named = ", ".join(f"X{number:02}" for number in range(10))
        self.said(done, 1, rf"\Alabel-print: the input does not have {named} .. \(12 in all\)")


if __name__ == "__main__":
    unittest.main()
