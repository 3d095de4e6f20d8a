"""label-print at a desk: chosen labels, a printer in the network, the journal, lines as they come."""

import csv
import errno
import functools
import os
import re
import signal
import socket
import time
import unittest
from pathlib import Path
from unittest import mock

import designs
import support
from desk import Desk, entry, labels_in, PIPE, printed, TICKETS
from labeltools.lines.escapes import escaped
from labeltools.lines.file import read_lines
from labeltools.printing.selection import codes_named, ranges_in, Selection
from labeltools.sending.network import NetworkPrinter
from printers import Printer, READY, STATUS

RECEIPT = re.compile(rb".*?\x1dV\x42\x00", re.DOTALL)  # up to its cut


def setUpModule() -> None:
    support.labels_program()


class Chosen(Desk):
    """--only and --only-code; each code once; the library; a line that is cut off."""

    def rows(self, rows: str, *codes: str) -> list[int]:
        only = Selection(ranges_in(rows), codes_named(codes))
        records = read_lines(b"ean13 4006381333931\n" + TICKETS, "lines").records
        return [record.number for record in records if only and only.has_label(record)]

    def test_rows_and_codes(self) -> None:
        self.assertEqual(self.rows("2,29-"), [2, 29, 30, 31])
        self.assertEqual(self.rows("3-4", "T00030", "400638133393"), [1, 3, 4, 31])
        for digits in ("400638133393", "4006381333931"):
            self.assertEqual(self.rows("", f"ean13 {digits}", f"qr {digits}"), [1])
        codes = Path(self.folder, "codes")
        for data in (b"T00005\r\n\nT00001\n", b"\xef\xbb\xbfT00001\r\nT00005"):
            codes.write_bytes(data)
            self.assertEqual(self.rows("", f"@{codes}"), [2, 6])
        codes.write_bytes(b"\n")  # without codes all labels would be chosen
        self.said(
            printed("--only-code", f"@{codes}"),
            1,
            "codes: there is no code; write a code on each line\n$",
        )

    def test_each_code_once(self) -> None:
        lines = b"qr 4006381333931\nean13 4006381333931\nean13 400638133393\nqr A\nqr A\n"
        done = printed("--journal", self.journal(), input=lines)
        self.said(
            done, 1, "line 3: has the code of line 2\n(.*\n)*.*line 5: has the code of line 4"
        )
        self.assertEqual(len(labels_in(done)), 3)
        copies = support.file_of([("qr A", {"copies": 2}), ("qr B", {})])
        done = printed("--journal", self.journal(), input=copies)
        self.said(done, 1, "row 2: has copies")
        none = support.file_of([("qr A", {"copies": 0}), ("qr A", {})])
        done = printed("--journal", self.journal(), input=none)
        self.assertEqual(len(labels_in(done)), 1)

    def test_the_bars_of_upca_are_those_of_an_ean13(self) -> None:
        """A code is one, however its line has it."""
        lines = b"upca 03600029145\nean13 003600029145\nean13 4006381333931\n"
        done = printed("--journal", self.journal(), input=lines)
        self.said(done, 1, "line 2: has the code of line 1")
        found = self.answers(lines, "--journal", self.journal())
        self.assertEqual([line.split()[0] for line in found], ["taken", "known", "taken"])
        self.remove()
        for line in lines.splitlines(keepends=True)[:2]:
            for digits in ("0036000291452", "003600029145", "036000291452", "03600029145"):
                done = printed("--only-code", digits, input=line)
                self.assertEqual((done.returncode, len(labels_in(done))), (0, 1), done.stderr)
            done = printed("--journal", self.path, input=line)
            self.assertEqual(done.returncode, 0, done.stderr)
        self.assertEqual(self.events(), ["printed"])
        self.said(printed("--only-code", "00360002914", input=lines), 1, "the input does not have")

    def test_a_last_line_that_may_be_cut_off(self) -> None:
        done = printed(input=b"code128 PALLET-4711\ncode128 PALLET-47")
        self.said(done, 1, "line 2: has no line end, so it may be cut off")
        self.assertEqual(len(labels_in(done)), 1)


class Network(Desk):
    """--print tcp://HOST."""

    def test_each_label_arrives(self) -> None:
        """At a slow printer too, at one that talks, and at one that waits until it is heard. What
        talks before it answers may be understood or not, as its words and the question meet.
        """
        says = b"\x02030,0,0\x03\r\n"
        for printer, words in (
            (Printer(), "printed by"),
            (Printer(slow=0.02), "printed by"),
            (Printer(says=says * 200), "(printed by|sent to)"),
            (Printer(says=says * 40_000), "(printed by|sent to)"),
        ):
            seconds = 0.3 if printer.says else 10.0
            with mock.patch("labeltools.sending.network.ANSWER", seconds):
                done = printed("--print", printer.start().name)
            self.said(done, 0, f"30 labels {words} tcp://127")
            self.assertEqual(len(set(printer.labels)), 30)

    def test_off(self) -> None:
        printer = Printer().start()
        printer.off()
        done = printed("--print", printer.name, "--journal", self.path)
        self.said(done, 1, "refused: line 1 and what follows it were not sent; is it switched on")
        self.assertEqual(self.events(), [])
        self.said(printed("--print", "tcp://no.invalid"), 1, "line 1 and what follows it")

    def test_one_that_does_not_answer(self) -> None:
        """Whoever waits at a desk hears so while he still waits."""
        error = TimeoutError(errno.ETIMEDOUT, "Connection timed out")
        with mock.patch("socket.create_connection", side_effect=error) as connect:
            done = printed("--print", "tcp://till-3")
        self.said(done, 1, "timed out: line 1 and what follows it were not sent; is it switched on")
        self.assertEqual(connect.call_args[0], (("till-3", 9100), 10))

    def test_one_that_hangs(self) -> None:
        printer = Printer(stuck=3).start()
        short = functools.partial(NetworkPrinter, stuck=0.5)
        with mock.patch("labeltools.sending.sender.NetworkPrinter", short):
            done = printed("--print", printer.name, "--dpi", "600")
        self.said(done, 1, "has taken nothing for 0 seconds: it took .* may be missing: look which")

    def test_names(self) -> None:
        for name, address in (("[::1]:9101", ("::1", 9101)), ("till-3", ("till-3", 9100))):
            self.assertEqual(NetworkPrinter(f"tcp://{name}").address, address)
        long = "x" * 64
        for name in (
            *("tcp://", "tcp://a:b", "tcp://a:70000", "tcp://a/b", "tcp://a:0", "tcp://a..b"),
            *(f"tcp://{long}", "tcp://\u00fc..b", "tcp://[::1", "", " "),
            *("socket://till-3", "ipp://till-3/ipp"),
        ):
            self.said(printed("--print", name), 2, "argument --print: ")

    def test_a_queue_and_other_forms_are_refused(self) -> None:
        for words in (("--journal", self.path), ("--stream",)):
            self.said(printed(*words, "--print", "Q"), 2, "is a queue of CUPS: .*--print")
            done = support.printed("--paper", "60x40", *words, input=TICKETS)
            self.said(done, 2, "needs labels one by one: choose zpl or escpos")


def left(count: int, is_paper_out: bool = False, is_open: bool = False) -> bytes:
    """What ~HS answers of a printer with labels that it has not printed yet."""
    return STATUS % (is_paper_out, 0, count, is_open)


class Answers(Desk):
    """What printers answer before a run and after it."""

    def result(self, printer: Printer, status: int, pattern: str, seconds: float = 10.0) -> None:
        """Runs label-print on a printer, which answers in some seconds or not at all."""
        with mock.patch("labeltools.sending.network.ANSWER", seconds):
            done = printed("--print", printer.start().name)
        self.said(done, status, pattern)
        self.assertEqual(len(set(printer.labels)), 30)

    def test_what_is_wrong_is_said_before(self) -> None:
        open_head = left(0, is_open=True)
        said = r"its head is open; close it\nlabel-print: 30 labels printed by tcp://\S+\n$"
        self.result(Printer(answers=(open_head, READY)), 0, said)
        said = r": 7 labels are left in the printer\nlabel-print: 30 labels printed by"
        self.result(Printer(answers=(left(7), READY)), 0, said)

    def test_labels_are_printed_once_the_printer_has_none_left(self) -> None:
        printer = Printer(answers=(READY, left(30), left(3), left(1), READY))
        self.result(printer, 0, "^label-print: 30 labels printed by tcp://127")
        self.assertEqual(printer.asked.count(b"~HS"), 5)

    def test_a_printer_of_other_dots(self) -> None:
        """Its labels would be two thirds as large, and be read by no scanner or by some."""
        printer = Printer(dots=12).start()
        done = printed("--print", printer.name)
        said = (
            "prints at 300 dpi, and the labels have 203: line 1 and what follows it were not sent"
        )
        self.said(done, 2, f"{said}; choose its resolution; 300 dpi .--dpi 300.\n")
        self.assertEqual(printer.labels, [])
        for dots, dpi in ((8, "203"), (8, "200"), (12, "300"), (24, "600")):
            words = ("--dpi", dpi, "--print", Printer(dots=dots).start().name)
            self.said(printed(*words, input=TICKETS[:10]), 0, "1 label printed by")

    def test_a_stream_for_a_printer_of_other_dots(self) -> None:
        """It does not begin; if the printer was off then, no label is sent."""
        printer = Printer(dots=12).start()
        words = ("--stream", "--print", printer.name)
        self.said(printed(*words), 2, "^label-print: .* prints at 300 dpi, and the labels have 203")
        with socket.create_server(("127.0.0.1", 0)) as free:
            port = free.getsockname()[1]
        stream = self.begin("--stream", "--print", f"tcp://127.0.0.1:{port}")
        self.assertRegex(stream.answer(b"qr A\n"), "^unsent 1 .*Connection refused")
        late = Printer(dots=12, port=port).start()
        self.assertRegex(stream.answer(b"qr A\n"), "^unsent 2 .* prints at 300 dpi")
        self.assertEqual((printer.labels, late.labels), ([], []))
        other = Printer(dots=8).start()
        answers = self.answers(b"qr A\nqr B\n", "--print", other.name)
        self.assertEqual([answer.split()[0] for answer in answers], ["taken", "taken"])
        self.assertEqual(other.asked, [b"~HI"])

    def test_a_slow_printer_is_asked_as_long_as_it_prints(self) -> None:
        printer = Printer(answers=(READY, *map(left, range(8, 0, -1)), READY))
        with mock.patch.multiple("labeltools.sending.watch", IDLE=2.0, LOOKS=(0.4, 0.4)):
            self.result(printer, 0, "^label-print: 30 labels printed by tcp://127")

    def test_what_is_left_and_why(self) -> None:
        for printer, said in (
            (
                Printer(answers=(READY, left(4, is_paper_out=True))),
                "30 labels sent to .*; 4 labels are left in the printer; it has no paper: put so",
            ),
            (Printer(answers=(READY, left(4))), "; 4 labels are left in the printer\n$"),
            (Printer(answers=(READY, left(1))), "; 1 label is left in the printer\n$"),
        ):
            with mock.patch("labeltools.sending.watch.IDLE", 0.5):
                self.result(printer, 1, said)

    def test_others_are_printed_on_as_before(self) -> None:
        """Those that answer late, or something else, or nothing; they are not asked again. One that
        ends the connection has its time: on a busy machine it would else end the next one.
        """
        for printer, seconds in (
            (Printer(late=1.0), 0.2),
            (Printer(answers=(b"HTTP/1.0 400 Bad Request\r\n\r\n",)), 0.2),
            (Printer(answers=(b"\x02000,0\x03\r\n" * 3,)), 0.2),
            (Printer(answers=()), 0.2),
            (Printer(is_shy=True), 10.0),
        ):
            self.result(printer, 0, r"^label-print: 30 labels sent to tcp://\S+\n$", seconds)
            self.assertLessEqual(len(printer.asked), 1)

    def test_receipt_printers(self) -> None:
        """They do not say whether they have printed all."""
        for answers, status, said in (
            ((b"\x12\x12",), 0, r"^label-print: 2 labels sent to tcp://\S+\n$"),
            ((b"\x16\x12", b"\x12\x12"), 0, "a cover is open; close it\n.* 2 labels sent to"),
            ((b"\x12\x12", b"\x12\x72"), 1, "2 labels sent to .*; it has no paper: put some in"),
        ):
            printer = Printer(answers=answers).start()
            printer.label = RECEIPT
            words = ("--to", "escpos", "--print", printer.name)
            self.said(printed(*words, input=TICKETS[:20]), status, said)
            self.assertEqual(len(printer.labels), 2)

    def test_a_signal_ends_the_waiting(self) -> None:
        printer = Printer(answers=(READY, left(5))).start()
        run = self.begin(
            "--print",
            printer.name,
            code="from labeltools.sending import watch; " f"watch.IDLE = {support.SECONDS}.0",
        )
        run.stdin.write(TICKETS)
        run.stdin.close()
        printer.wait(30)
        while len(printer.asked) < 4:
            time.sleep(0.01)
        run.send_signal(signal.SIGTERM)
        said = run.stderr.read()
        self.assertEqual(run.wait(support.SECONDS), -signal.SIGTERM)
        self.assertIn(b"it took 30 labels whole, and these are all\n", said)


class Devices(Desk):
    """--print PATH."""

    def test_a_file_of_something_else(self) -> None:
        """No labels are added to a table; they are to a new file, and to other labels."""
        path = Path(self.folder, "shop.csv")
        path.write_bytes(b"Code;Name\n")
        said = (
            "shop.csv is a file that has no labels: line 1 and what follows it were not sent; name"
        )
        self.said(printed("--print", str(path)), 1, said)
        self.assertEqual(path.read_bytes(), b"Code;Name\n")
        for words in (("--to", "zpl"), ("--to", "escpos")):
            path.write_bytes(b"")
            for count in (1, 2):
                done = printed(*words, "--print", str(path), input=TICKETS[:10])
                self.assertEqual(done.returncode, 0, done.stderr)
        self.said(printed("--print", str(path)), 1, "shop.csv is a file that has no labels")


class Journals(Desk):
    """--journal and --again."""

    def test_a_code_goes_out_once(self) -> None:
        for count in (30, 0):
            done = printed("--journal", self.path)
            self.assertEqual((done.returncode, len(labels_in(done))), (0, count))
        self.said(done, 0, "nothing to print: 30 labels are in .*/journal already")
        done = printed("--journal", self.path, "--only", "5-6", "--again", "standard output")
        self.assertEqual((done.returncode, len(labels_in(done))), (0, 2), done.stderr)
        self.assertEqual(self.events(), ["printed"] * 30)

    def test_again_by_a_name_that_is_not_there(self) -> None:
        printed("--journal", self.path)
        done = printed("--journal", self.path, "--only", "5", "--again", "tcp://lane-1")
        self.said(
            done, 1, "has no label of tcp://lane-1: the journal has these printers: standard output"
        )
        self.said(printed("--journal", self.path, "--again", "tcp://lane-1"), 2, "--only")

    def test_a_jam(self) -> None:
        """Two lanes; the first forgets the labels in its memory, and those alone are printed once
        more: the last good ticket is the fourth one.
        """
        lanes = Printer().start(), Printer().start()
        for printer, rows in zip(lanes, ("1-8", "9-15")):
            words = ("--journal", self.path, "--print", printer.name, "--only", rows)
            self.assertEqual(printed(*words).returncode, 0)
        paper = [*lanes[0].labels[:4], *lanes[1].labels]
        lanes[0].labels.clear()
        again = ("--only", "5-", "--again", lanes[0].name)
        done = printed("--journal", self.path, "--print", lanes[0].name, *again)
        self.said(done, 0, "19 labels printed")
        paper += lanes[0].labels
        self.assertEqual(sorted(paper), sorted(labels_in(printed())))

    def test_a_roll_that_runs_out(self) -> None:
        """The printer breaks off: all that it took in this run is named, by each run, until a
        person says what is on paper. The commands are those of the message, and need no lines.
        """
        printer = Printer(cut=12).start()
        words = ("--journal", self.path, "--print", printer.name)
        done = printed(*words)
        self.said(done, 1, r": it took \d+ labels whole; the same command prints the rest\n$")
        named = r"lines 1-(\d+): may be missing, sent to (tcp://\S+): look there\n"
        self.said(done, 1, rf"\Alabel-print: {named}")
        last = int(re.findall(named, done.stderr.decode())[0][0])
        paper = printer.labels[:10]  # the others were in its memory
        printer.labels.clear()
        for _ in range(2):
            self.said(printed(*words), 1, named)
        self.assertEqual(len(printer.labels), 30 - last)
        settle = f"label-print --journal {self.path} --only 1-{last}"
        there = f"label-print: if on paper: {settle} --state printed\n"
        gone = f"if missing, to be printed again: {settle} --state missing\n"
        self.said(printed(*words), 1, f"{there}label-print: {gone}")
        done = self.keeper("--only", f"11-{last}", "--state", "missing")
        self.said(done, 0, f"{last - 10} labels are in doubt no more: the same command as bef")
        self.said(self.keeper("--state", "printed"), 0, "10 labels are in doubt no more\n")
        self.said(printed(*words), 0, "labels printed by")
        self.assertEqual(sorted([*paper, *printer.labels]), sorted(labels_in(printed())))
        self.said(self.keeper("--state", "printed"), 1, "0 labels are in doubt no more")

    def test_other_files_are_kept(self) -> None:
        for data in (b"Code;Name\n", b"#labels journal 2\n", b"\0" * 99):
            Path(self.path).write_bytes(data)
            self.said(
                printed("--journal", self.path), 1, "not a (journal:|database;) give a file that"
            )
            self.assertEqual(Path(self.path).read_bytes(), data)
        os.unlink(self.path)
        self.select("CREATE TABLE labels (code)")  # of another program
        self.said(printed("--journal", self.path), 1, "journal is not a journal: give a file that")
        os.unlink(self.path)
        os.mkfifo(self.path)
        self.said(printed("--journal", self.path), 1, "journal is not a journal")
        self.said(printed("--journal", "/dev/null"), 1, "/dev/null is not a journal")
        self.said(printed("--journal", self.folder), 1, "Is a directory")
        self.said(printed("--journal", f"{self.folder}/no/journal"), 1, "No such file")

    def test_each_byte_comes_back(self) -> None:
        """By Python's own escapes, which these are. A blank at the end cannot get lost."""
        for data in (bytes(range(256)), b" a  ", b"\\x41"):
            text = escaped(data).decode()
            self.assertEqual(text.encode().decode("unicode_escape").encode("latin-1"), data)
            self.assertTrue(text.isascii() and text.isprintable() and text.rstrip() == text)

    def test_a_journal_is_shown_as_csv(self) -> None:
        """What was printed, when and where, of all printers; no file is made for that."""
        printed("--journal", self.path, "--only", "2-3")
        self.add(entry("sent", "qr A,B", "row 7", "tcp://a"))
        shown = support.run_here("label-print", "--journal", self.path, "--state", "list")
        rows = [*csv.reader(shown.stdout.decode().splitlines())]
        self.assertEqual(rows[0], ["code", "state", "time", "printer", "place"])
        found = [(code, state, printer, place) for code, state, _, printer, place in rows[1:]]
        wanted = [("qr T00002", "printed", "standard output", "line 2")]
        wanted += [("qr T00003", "printed", "standard output", "line 3")]
        self.assertEqual(found, [*wanted, ("qr A,B", "sent", "tcp://a", "row 7")])
        self.assertRegex(rows[1][2], r"^\d{4}-\d\d-\d\d \d\d:\d\d:\d\d")
        done = support.run_here("label-print", "--journal", f"{self.folder}/no", "--state", "list")
        self.said(done, 1, "no: No such file or directory; is its name right")
        self.assertFalse(Path(self.folder, "no").exists())

    def test_a_journal_of_text_is_read_once_and_kept(self) -> None:
        """As older versions wrote it; its last line was cut off when the power failed."""
        step = "2026-11-27T09:30:00Z\t{}\tlane 1\ttcp://a\tline {}\t{}\n"
        lines = [step.format("sending", number, f"qr T0000{number}") for number in (1, 2)]
        lines += [step.format("taken", 1, "qr T00001"), step.format("taken", 2, "qr T00002")[:40]]
        text = "".join(["#labels journal 1\n", *lines])
        Path(self.path).write_text(text)
        for _ in range(2):
            done = printed("--journal", self.path)
            self.said(done, 1, "line 2: may be missing, sent to tcp://a")
        self.assertEqual(Path(f"{self.path}.text").read_text(), text)
        self.assertEqual(self.events(), ["printed", "sent", *["printed"] * 28])
        Path(self.path).write_text("#labels journal 1\nqr T00001\n")
        self.said(printed("--journal", self.path), 1, "line 2 is not a line of a journal; correct")

    def test_a_journal_that_two_computers_share(self) -> None:
        """Each would print all, since they do not share the memory of its log."""
        boot = Path(self.folder, "boot")
        boot.write_text("11111111-2222-3333-4444-555555555555\n")
        code = (
            f"from labeltools.sending import database; database.BOOT = database.Path({str(boot)!r})"
        )
        stream = self.begin("--stream", "--journal", self.path)
        self.assertRegex(stream.answer(b"qr T00001\n"), "^taken 1 ")
        done = self.begin("--journal", self.path, code=code, stdout=PIPE).done()
        self.said(done, 1, "journal: another computer has it open; print from one computer at a t")
        self.assertEqual(labels_in(done), [])
        stream.stdin.close()
        stream.wait(support.SECONDS)
        done = self.begin("--journal", self.path, code=code, stdout=PIPE).done()
        self.assertEqual(len(labels_in(done)), 29)


class FullDisks(Desk):
    """A journal that takes no more bytes than a limit."""

    def test_each_size(self) -> None:
        """The disk is full when the journal is made, before a label, or at its mark; with room
        again the same command prints what is missing, and names what may be there.
        """
        for size in (4, 600, 4_000, 4_096, 5_000, 9_000, 13_000, 17_000, 21_000):
            with self.subTest(size=size):
                self.remove()
                done = self.begin("--journal", self.path, code=f"limit({size})", stdout=PIPE).done()
                went = labels_in(done)
                self.assertEqual(done.returncode, int(len(went) < 30), done.stderr)
                rest = printed("--journal", self.path)
                labels = [*went, *labels_in(rest)]
                self.assertEqual((len(labels), len(set(labels))), (30, 30))
                self.assertEqual(rest.returncode, int(b"may be missing" in rest.stderr))


class Streams(Desk):
    """--stream."""

    def test_answers_and_bytes(self) -> None:
        lines = [
            b"qr A\n",
            b'#{"row":7,"title":"Heft"}\nean13 400638133393\n',
            b"ean13 4006381333932\n",
        ]
        stream = self.begin("--stream", "--journal", self.path, stdout=PIPE)
        for line, word in zip([*lines, b"qr A\n"], ("taken", "taken", "refused", "known")):
            stream.write(line)
            answer = stream.stderr.readline().decode().split()
            self.assertEqual(answer[0], word)
            if word == "taken":
                alone = printed(input=line).stdout
                self.assertEqual(stream.stdout.read(int(answer[2])), alone)
        stream.stdin.write(b"qr CUT")
        stream.stdin.close()
        self.assertEqual(stream.stderr.read(), b"refused 6 cut off before its line end\n")
        self.assertEqual(stream.wait(), 1)

    def test_what_is_reported_of_a_design(self) -> None:
        """Once, but of each text that is shortened; these lines are no answers."""
        place = '<rect data-place="title, lines=1" x="2" y="2" width="20" height="4"/>'
        titles = ("A long title of many words", "A", "Another long title of words")
        lines = "".join(f'#{{"title":"{title}","price":"1,00"}}\nqr A\n' for title in titles)
        path = designs.written(Path(self.folder, "own.svg"), place + designs.CODE)
        words = ("--design", str(path), "--to", "zpl", "--dpi", "203", "--stream")
        done = support.printed(*words, input=lines.encode())
        said = done.stderr.decode().splitlines()
        note = "label-print:"
        firsts = [word for line in said if (word := line.split()[0]) in (note, "taken")]
        self.assertEqual(firsts, [note, note, "taken", "taken", note, "taken"], said)
        self.assertEqual(sum(": not on the labels" in line for line in said), 1)
        self.assertEqual(
            sum(
                line.endswith(
                    ": a text is too long, so it ends in “…”: shorten it, or choose a larger label"
                )
                for line in said
            ),
            2,
        )

    def test_the_status(self) -> None:
        """Each line was taken, or one was not, though it is known."""
        for status, word in ((0, "taken"), (1, "known")):
            done = printed("--stream", "--journal", self.path, input=b"qr A\n")
            self.said(done, status, f"^{word} 1 ")

    def test_lines_that_have_no_label(self) -> None:
        lines = {
            b"qr " + b"A" * 1098: "refused 1 line is longer than 1100 bytes",
            b"qr " + b"A" * 70_000: "refused 1 line is longer than 1100 bytes",
            b"PALLET": "refused 1 unknown symbology",
            b'#{"row":"x"}\nqr A': "refused 2 .*not understood: .row.",
            b'#{"row":1,"copies":0}\nqr A': "refused 2 none is printed: it has 0 copies",
            b"code128 " + b"A" * 60: "refused 1 Code 128 is .* mm wide",
        }
        for line, pattern in lines.items():
            first, second = self.answers(line + b"\nqr B\n")
            self.assertRegex(first, f"^{pattern}")
            self.assertRegex(second, r"^taken \d \d+ qr B$")

    def test_any_bytes_are_one_line(self) -> None:
        lines = b"qr A\0\x1b[2J\r\n# remark\n\nqr \xff\xe2\x80\xa8\n"
        self.assertEqual([line.split()[0] for line in self.answers(lines)], ["taken", "taken"])

    def test_each_word_by_a_printer(self) -> None:
        """Its second label is more than the systems of both sides take; before them it is asked."""
        printer = Printer(torn=3).start()
        long = b"#" + b'{"title":"%s"}' % (b"Wegeplan " * 60)
        lines = b"qr T1\n" + long + b"\nqr T2\nqr T3\n"
        paper = ("--paper", "100x150", "--dpi", "1200", "--print", printer.name)
        words = (*paper, "--journal", self.path)
        found = self.answers(lines, *words)
        self.assertEqual([line.split()[0] for line in found], ["taken", "doubtful", "taken"])
        self.assertRegex(found[1], "^doubtful 3 tcp://.*: the printer broke off$")
        *_, known, doubtful = self.answers(b"qr T1\nqr T2\n", *words)
        self.assertEqual(known, "known 1 qr T1")
        self.assertRegex(doubtful, "^doubtful 2 may be missing, sent to tcp://.*: look there; then")
        printer.off()
        *_, new, old = self.answers(b"qr NEW\nqr T1\n", *words)
        self.assertRegex(new, "^unsent 1 tcp://.*refused; is it switched on")
        self.assertEqual(old, "known 2 qr T1")
        self.assertEqual(self.events(), ["printed", "sent", "printed"])

    def test_a_doubt_is_settled_by_a_line(self) -> None:
        """Of a label that is printed, and of one that is missing: its line can be sent again."""
        codes = ("qr T00001", "qr T00002", "qr T00003")
        self.journal(*(entry("taken", code) for code in codes))
        lines = b"qr T00001\n#printed qr T00001\n#missing qr T00002\nqr T00002\n#missing qr X\n"
        said = self.answers(lines, "--journal", self.path)
        self.assertIn("qr T00001, qr T00002, qr T00003, of another input: may be missing", said[0])
        self.assertRegex(said[-5], "^doubtful 1 may be missing, sent to tcp://a: look there; then")
        self.assertEqual(said[-4:-2], ["known 2 qr T00001", "unsent 3 qr T00002"])
        self.assertRegex(said[-2], "^taken 4 ")
        self.assertEqual(said[-1], "refused 5 qr X is not in doubt")
        self.assertEqual(self.answers(b"#missing qr X\n")[0], "refused 1 qr X is not in doubt")
        self.assertEqual(self.events(), ["printed", "taken", "printed"])

    def test_a_stream_that_never_ended(self) -> None:
        """What it printed is named by the next one; not after a signal, which ends it well."""
        printer = Printer(answers=()).start()
        words = ("--journal", self.path, "--print", printer.name)
        for number, end, status in ((1, signal.SIGTERM, 0), (2, signal.SIGKILL, 1)):
            stream = self.begin("--stream", *words)
            self.assertRegex(stream.answer(b"qr T%05d\n" % number), "^taken 1 ")
            stream.send_signal(end)
            self.assertEqual(stream.wait(support.SECONDS), -end)
            for way, lines in (("--stream", b""), ("--turn=no", b"qr X%d\n" % number)):
                done = printed(way, "--journal", self.path, input=lines)
                self.assertEqual(done.returncode, status, done.stderr)
                named = b"qr T00002, of another input: may be missing"
                self.assertEqual(named in done.stderr, end == signal.SIGKILL)

    def test_a_printer_that_says_what_it_has_left(self) -> None:
        """Only that is in doubt if the run breaks off."""
        answers = (READY, left(0), left(3))
        printer = Printer(answers=answers, cut=45).start()
        lines = b"".join(b"qr T%05d\n" % number for number in range(1, 61))
        done = printed("--journal", self.path, "--print", printer.name, input=lines)
        self.said(done, 1, "lines 37-4[5-9]: may be missing, sent to tcp://")

    def test_an_input_that_does_not_wait(self) -> None:
        """A supervisor may hand on a pipe that it does not wait for itself."""
        source, target = os.pipe()
        os.set_blocking(source, False)
        stream = self.begin("--stream", stdin=source, stdout=PIPE)
        os.close(source)
        for code in (b"A", b"B"):
            os.write(target, b"qr " + code + b"\n")
            answer = stream.stderr.readline().split()
            self.assertEqual(answer[3:], [b"qr", code])
            stream.stdout.read(int(answer[2]))
        os.close(target)
        self.assertEqual(stream.stderr.read(), b"")
        self.assertEqual(stream.wait(), 0)

    @support.slow
    def test_memory_and_descriptors_are_level(self) -> None:
        stream = self.begin("--stream", stdout=PIPE)
        status = Path(f"/proc/{stream.pid}/status")
        found = []
        for number in range(900):
            stream.write(b"ean13 400638133393\n" if number % 4 == 0 else b"qr %d\n" % number)
            answer = stream.stderr.readline().split()
            stream.stdout.read(int(answer[2]))
            if number in (300, 899):
                size = int(status.read_text().split("VmRSS:")[1].split()[0])
                found.append((size, len(os.listdir(f"/proc/{stream.pid}/fd"))))
        self.assertEqual(found[0][1], found[1][1])
        self.assertLess(found[1][0], found[0][0] * 1.05)


if __name__ == "__main__":
    unittest.main()
