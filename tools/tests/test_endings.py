"""label-print from input to end: files that are cut, full disks, closed pipes,
signals, streams.
"""

import fcntl
import json
import os
import signal
import subprocess
import sys
import tempfile
import time
import unittest
from contextlib import suppress
from pathlib import Path
from typing import Any, Callable, Sequence
from unittest import mock

import desk
import jobs
import support
from labeltools.common.messages import ToolError
from labeltools.common.process import CommandTalk
from labeltools.lines.file import read_lines, Record

LABELS = [
    (
        f"ean13 {support.ean13(400638000000 + number)}",
        {"title": f"Artikel {number}", "price": "1,80 €"},
    )
    for number in range(40)
]
ROLL = ("--paper", "60x40", "--dpi", "203", "--to")
ENDINGS = (signal.SIGTERM, signal.SIGINT, signal.SIGHUP)
ROWS = (("articles", 2), ("articles", 3), ("b", 2))
HEAD, END = (
    '#{"labels":1,"table":"t.csv"}\n',
    '#{"end":1,"lines":1,"left_out":[],"left_out_count":0}\n',
)


def setUpModule() -> None:
    os.environ["LABELS"] = str(support.labels_program())


def takes(run: "subprocess.Popen[bytes]", number: int) -> bool:
    """Whether a process has a handler of its own for a signal."""
    status = Path(f"/proc/{run.pid}/status").read_text()
    caught = int(status.partition("SigCgt:")[2].split()[0], 16)
    return bool(caught >> (number - 1) & 1)


def said_after(form: str, labels: int) -> tuple[str, ...]:
    """What may be said where a signal came after so many labels of LABELS: of a printer's form the
    row to go on from, or that all went out, unless nothing had begun, or all was done before.
    """
    if form == "pbm":
        return ("",)
    whole = "1 label" if labels == 1 else f"{labels} labels"
    if labels == len(LABELS):
        return "", f"label-print: standard output: it took {whole} whole, and these are all\n"
    row = labels + 2
    message = (
        f"label-print: standard output: it took {whole} whole: row {row} and what follows it were"
        f" not sent; go on with label {labels + 1} (--after {labels})\n"
    )
    return (message,) if labels else ("", message)


def records_of(data: bytes) -> tuple[Record, ...]:
    """The lines of a file."""
    return read_lines(data, "lines").records


class FileBetween(unittest.TestCase):
    def test_a_cut_file_prints_nothing(self) -> None:
        data = support.file_of(LABELS[:3])
        for end in (0, 1, 20, 60, len(data) // 2, len(data) - 60, len(data) - 1):
            done = support.printed("--stock", "l7160", input=data[:end])
            self.assertEqual((done.returncode, done.stdout), (1, b""), end)
            self.assertTrue(done.stderr, end)
        done = support.printed("--stock", "l7160", input=data[:-60])
        self.assertIn(
            b'to print it all the same, take out its lines that begin with #{"labels" and #{"end"',
            done.stderr,
        )

    def test_parts_one_after_another(self) -> None:
        """After `cat a b` each part is whole, and its rows are those of its own table."""
        first, second = support.file_of(LABELS[:2]), support.file_of(
            LABELS[2:3], left_out=[7], left_out_count=1
        )
        lines = read_lines(first + b"qr plain\n" + second.replace(b"articles", b"b"), "lines")
        found = [label.origin for label in lines.records]
        self.assertEqual(
            found[:2] + found[3:], [(f"{name}.xlsx", "row", row) for name, row in ROWS]
        )
        self.assertEqual(found[2], ("", "line", 7))
        self.assertEqual((lines.left_out, lines.left_out_count), ((("b.xlsx", "row", 7),), 1))
        for data in (first[:-60] + second, first + second[:-60], first.split(b"\n", 1)[1]):
            self.assertRaises(ToolError, records_of, data)

    def test_remarks_that_are_not_understood(self) -> None:
        for remark in ("#{}\n", "#{\n", "#{]\n", '#{"row":2}\n#{"row":3}\n', '#{"row":2}\n' + HEAD):
            with self.subTest(remark=remark):
                data = f"{HEAD}{remark}ean8 73513537\n{END}".encode()
                self.assertRaises(ToolError, records_of, data)
        for text in (
            HEAD.replace("1", "2", 1) + "qr a\n" + END,
            HEAD + "qr a\n" + END.replace('"lines":1', '"lines":2'),
            HEAD + "qr a\n" + '#{"row":2}\n' + END,
            HEAD + "qr a\n" + '#{"row":2}\n',
            HEAD + "qr a\n" + END[:-1],
            "\ufeff" + HEAD + "qr a\n" + END,
            END,
            '#{"row":2}\n',
        ):
            with self.subTest(text):
                self.assertRaises(ToolError, records_of, text.encode())

    def test_lines_end_at_a_line_feed_alone(self) -> None:
        fields = {
            "title": "a\x85b".replace("\x85", "\u00a0"),
            "text": ["c\nd", " "],
            "price": " 1 € ",
        }
        line = f"qr \x0b\x1c\u2028\n{END}"
        data = f"{HEAD}# of others\r\x0b\x0c\n\n#{json.dumps(fields)}\n{line}".encode()
        (record,) = records_of(data)
        self.assertEqual((record.number, record.data.decode()), (5, "\x0b\x1c\u2028"))
        found = (record.title, record.text, record.price, record.copies)
        self.assertEqual(found, ("a\u00a0b", ("c\nd",), "1 €", 1))

    def test_files_and_standard_input(self) -> None:
        data = support.file_of(LABELS[:2])
        with tempfile.TemporaryDirectory() as folder:
            path = Path(folder, "Käse.lines")
            path.write_bytes(data)
            outputs = [
                support.printed(*ROLL, "zpl", path).stdout,
                support.printed(*ROLL, "zpl", "-", input=data).stdout,
                support.printed(*ROLL, "zpl", input=data).stdout,
            ]
        self.assertTrue(outputs[0] and len(set(outputs)) == 1)
        done = support.printed(*ROLL, "zpl", "nothing.lines")
        self.assertEqual((done.returncode, done.stdout), (1, b""))
        self.assertEqual(
            support.messages(done),
            ["label-print: nothing.lines: No such file or directory; is its name right?"],
        )


def in_shell(
    shell: str, *words: str, data: bytes = b"", **variables: str
) -> "support.Finished[bytes]":
    """Runs label-print in a shell, as `"$@"`."""
    tool = ("sh", str(support.TOOLS / "label-print"))
    return support.run("/bin/bash", "-c", shell, *tool, *words, input=data, **variables)


class Running(unittest.TestCase):
    def test_from_any_folder_by_a_link_and_with_a_safe_path(self) -> None:
        with tempfile.TemporaryDirectory() as folder:
            link = Path(folder, "label-print")
            link.symlink_to(support.TOOLS / "label-print")
            for tool in (link, support.TOOLS / "label-print"):
                variables = {"PYTHONSAFEPATH": "1", "HOME": "/nonexistent"}
                done = support.run(
                    tool, *ROLL, "zpl", input=support.file_of(LABELS[:1]), cwd=folder, **variables
                )
                self.assertEqual((done.returncode, done.stderr), (0, b""))
                self.assertEqual(len(jobs.dots_of_zpl(done.stdout)), 1)
        self.assertEqual(
            [path for path in support.TOOLS.rglob("__pycache__") if path.parent == support.TOOLS],
            [],
        )

    def test_a_full_disk(self) -> None:
        for form in ("pdf", "png", "pbm", "zpl", "escpos"):
            done = in_shell('"$@" > /dev/full', *ROLL, form, data=b"ean8 7351353\n")
            self.assertEqual((done.returncode, done.stdout), (1, b""), form)
            self.assertRegex(
                done.stderr, b"^label-print: standard output: No space left on device[\n:]"
            )

    def test_a_pdf_that_does_not_fit_leaves_nothing(self) -> None:
        with tempfile.TemporaryDirectory() as folder:
            shell = f'trap "" XFSZ; ulimit -f 8; "$@" > "{folder}/sheet.pdf"'
            data = support.file_of(LABELS)
            done = in_shell(shell, "--stock", "l7160", data=data, TMPDIR=folder)
            size = Path(folder, "sheet.pdf").stat().st_size
            self.assertEqual((done.returncode, size), (1, 0), done.stderr)
            self.assertEqual(os.listdir(folder), ["sheet.pdf"])

    def test_a_closed_pipe_and_closed_streams(self) -> None:
        data = support.file_of(LABELS)
        for form in ("pdf", "zpl"):
            done = in_shell('"$@" | true; exit "${PIPESTATUS[0]}"', *ROLL, form, data=data)
            self.assertEqual((done.returncode, done.stdout), (1, b""), form)
            self.assertRegex(done.stderr, b"^label-print: standard output: Broken pipe[\n:]", form)
        self.assertEqual(in_shell('"$@" >&-', *ROLL, "zpl", data=data).returncode, 1)
        done = in_shell('"$@" <&-', *ROLL, "zpl", data=data)
        self.assertEqual((done.returncode, done.stdout), (1, b""))
        for shell in ('"$@" 2>&-', '"$@" 2> /dev/full'):
            done = in_shell(shell, *ROLL, "zpl", data=data + b"ean8 1\n")
            found = done.returncode, len(jobs.dots_of_zpl(done.stdout)), done.stderr
            self.assertEqual(found, (1, len(LABELS), b""), shell)

    def test_what_is_missing_is_named_with_its_package(self) -> None:
        with tempfile.TemporaryDirectory() as folder:
            Path(folder, "gi.py").write_text("raise ImportError('No module named here')\n")
            words = (*ROLL, "zpl")
            done = support.run("label-print", *words, input=b"ean8 7351353\n", PYTHONPATH=folder)
            self.assertEqual((done.returncode, done.stdout), (1, b""))
            self.assertIn(b"apt-get install python3-gi-cairo", done.stderr)
            self.assertNotIn(b"Traceback", done.stderr)

    def test_progress_on_a_terminal(self) -> None:
        own, terminal = os.openpty()
        with open(terminal, "w") as stream, mock.patch("sys.stderr", stream):
            for tool, total in (("label-table", 0), ("label-print", 3)):
                with mock.patch("labeltools.common.process.QUIET", 0.0):
                    talk = CommandTalk(tool)
                    for done in (0, 1, 2):
                        talk.go_on(done, total)
        shown = b""
        with suppress(OSError):  # of a terminal that is closed
            while part := os.read(own, 999):
                shown += part
        self.assertEqual(shown, b"label-table: 1 rows\rlabel-print: 1 of 3 labels\r")
        os.close(own)


class Signals(desk.Desk):
    """A signal at twenty moments of each form: a label is whole or is not there, a document too."""

    MOMENTS = 20

    def setUp(self) -> None:
        super().setUp()
        self.lines = f"{self.folder}/lines"
        Path(self.lines).write_bytes(support.file_of(LABELS))

    def test_labels_are_whole(self) -> None:
        forms: Sequence[tuple[str, Callable[[bytes], Sequence[Any]]]] = (
            ("zpl", jobs.dots_of_zpl),
            ("escpos", jobs.dots_of_escpos),
            ("pbm", jobs.pictures_of_pbm),
        )
        for form, decode in forms:
            whole = support.printed(*ROLL, form, self.lines).stdout
            seen = set()
            for moment in range(self.MOMENTS):
                found, said = self.stopped(form, len(whole) * moment // self.MOMENTS, moment)
                self.assertTrue(whole.startswith(found), (form, moment))
                count = len(decode(found)) if found else 0
                self.assertIn(said, said_after(form, count), (form, moment))
                seen.add(count)
            self.assertGreater(len(seen), 3, form)

    def stopped(self, form: str, size: int, moment: int) -> tuple[bytes, str]:
        """The output and the messages of a run that gets a signal after so many bytes of it were
        read, while it waits, and whose reader goes on then.
        """
        run = self.begin("--to", form, self.lines, stdin=desk.NULL, stdout=desk.PIPE)
        found = run.stdout.read(size)
        ending = ENDINGS[moment % len(ENDINGS)]
        run.send_signal(ending)
        found += run.stdout.read()
        said = run.stderr.read().decode()
        self.assertIn(run.wait(support.SECONDS), (0, -ending), said)
        return found, said

    def test_documents_are_whole_or_not_there(self) -> None:
        whole = support.printed(*ROLL, "pdf", self.lines).stdout
        self.assertTrue(whole)
        output = Path(self.folder, "sheet.pdf")
        for moment in range(self.MOMENTS):
            with output.open("wb") as stream:
                run = self.begin("--to", "pdf", self.lines, stdin=desk.NULL, stdout=stream)
                time.sleep(0.03 * moment)
                run.terminate()
                run.wait(support.SECONDS)
            self.assertIn(output.read_bytes(), (b"", whole), moment)

    def test_files_of_each_are_whole(self) -> None:
        for moment in range(self.MOMENTS // 2):
            files = Path(self.folder, f"new-{moment}")
            each = ("--to", "png", "--each", f"{files}/%d.png", self.lines)
            run = self.begin(*each, stdin=desk.NULL)
            while run.poll() is None and len(list(files.glob("*"))) < moment:
                time.sleep(0.002)
            run.send_signal(signal.SIGINT)
            run.wait(support.SECONDS)
            for path in files.glob("*"):
                self.assertRegex(path.name, r"^[0-9]+\.png$")
                self.assertTrue(path.read_bytes().endswith(b"IEND\xaeB`\x82"), path)

    def test_a_second_signal_ends_it_at_once(self) -> None:
        reader, writer = os.pipe()
        fcntl.fcntl(writer, fcntl.F_SETPIPE_SZ, 4096)
        run = self.begin("--to", "pbm", self.lines, stdin=desk.NULL, stdout=writer)
        os.close(writer)
        os.read(reader, 1)  # a label is larger than the pipe: its write waits
        self.assertTrue(takes(run, signal.SIGTERM))
        run.terminate()
        while takes(run, signal.SIGTERM):
            time.sleep(0.01)
        self.assertIsNone(run.poll())
        run.terminate()
        self.assertEqual(run.wait(support.SECONDS), -signal.SIGTERM)
        os.close(reader)

    def test_a_signal_is_not_lost_where_it_is_held_back_no_longer(self) -> None:
        """It comes just before the system heeds it again."""
        code = (
            "import os, signal\n"
            "from labeltools.common import signals\n"
            "heed = signals.on_signals\n"
            "def heed_late(action=signal.SIG_DFL):\n"
            "    signals.on_signals = heed\n"
            "    os.kill(os.getpid(), signal.SIGTERM)\n"
            "    heed(action)\n"
            "with signals.hold_signals():\n"
            "    signals.on_signals = heed_late\n"
            "print('it goes on')\n"
        )
        command = [sys.executable, "-c", code]
        done = subprocess.run(command, cwd=support.TOOLS, capture_output=True)
        self.assertEqual((done.returncode, done.stdout), (-signal.SIGTERM, b""), done.stderr)

    def test_an_ignored_signal_stays_ignored(self) -> None:
        printing = " ".join([*desk.program(), *desk.ROLL, self.lines])
        done = in_shell(f'trap "" HUP; {printing} & kill -HUP $!; wait $!')
        self.assertEqual((done.returncode, len(jobs.dots_of_zpl(done.stdout))), (0, len(LABELS)))


if __name__ == "__main__":
    unittest.main()
