"""Files, printers and users that are strangers: what they are given takes little, says why it is
refused, and what is private stays so.
"""

import gzip
import json
import os
import random
import re
import resource
import signal
import subprocess
import sys
import tempfile
import time
import unittest
from base64 import b64encode
from importlib import import_module
from io import BytesIO
from pathlib import Path
from typing import Any, Callable, Sequence
from unicodedata import normalize
from unittest import mock

import numpy
from PIL import Image

import support
from desk import Desk, entry, printed, ROLL, TICKETS
from jobs import pictures_of_pbm
from labeltools.commands.label_print import print_options
from labeltools.commands.label_table import command_for, table_options, table_parser, words_for
from labeltools.common import files, process
from labeltools.common.apart import apart, Input, result_of
from labeltools.common.budget import CSV, Kind, MEGABYTE, MEMORY, Share, TABLE, TooMuch
from labeltools.common.messages import (
    Cancelled,
    Origin,
    Problem,
    Remedy,
    Talk,
    ToolError,
    UNEXPECTED,
    visible,
)
from labeltools.common.text import shell_line, Text, translated
from labeltools.designs import drawer, svg_page
from labeltools.drawing.pen import Pen
from labeltools.lines.file import read_lines
from labeltools.lines.library import own_files
from labeltools.printing.job import planned, PrintOptions
from labeltools.printing.press import labels_of
from labeltools.sending import stream, watch
from labeltools.sending.answers import QUERIES, Query, read_status, Reply
from labeltools.sending.job import trouble_of
from labeltools.sending.outlets import Outlet
from labeltools.sending.queue import lp_line
from labeltools.sending.sender import Sender, settling_line
from labeltools.sheets.encoding import OTHER_BYTES, OTHER_WORD, other_words
from labeltools.sheets.rows import Row
from labeltools.sheets.workbook import rows_of_chosen, Worksheet
from labeltools.tables.code_readings import CodeReading
from labeltools.tables.codes import CodeRules
from labeltools.tables.columns import column_word
from labeltools.tables.guess import Guess
from labeltools.tables.table import lines_of_table
from labeltools.window.memory import Memory, write_own
from printers import Printer
from test_examples import entry_of
from workbooks import ods, ods_cell, packed, rows, table, unpacked, xlsx

SIGNS = "'\"`$\\;&|<>(){}[]*?!#~%=+-.,:/@^ \t\nab1éß$''"
LETTERLESS = ["'; . ./*; '", "';${!#}<<<x;'", "$(())", "`:`", "'", "!", "~", "-", "--", "=", "''"]
CHANCE = random.Random(12)
VALUES = [
    *LETTERLESS,
    *("".join(CHANCE.choices(SIGNS, k=CHANCE.randint(1, 12))) for _ in range(2000)),
]
CODE = "4006381333931"
SECONDS_OF_A_BOMB = 40  # of a processor; each took more than twice as many, or did not end
MARKS = "\u0301\u0316" * 300_000  # which take hours in Python's own code
HOLD = """
import fcntl, os, sys
os.setgroups([]); os.setgid(65534); os.setuid(65534)
try:
    file = os.open(sys.argv[1], os.O_RDONLY)
    for byte in sys.argv[2:]:
        byte = (1 << 62) + int(byte)
        fcntl.lockf(file, fcntl.LOCK_SH, 1, byte)
    print("held", flush=True)
    sys.stdin.read()
except OSError as error:
    print(error.strerror)
"""


def ean(number: int) -> str:
    """The EAN-13 of a number."""
    digits = f"400{number:09d}"
    total = sum(int(digit) * (3 if place % 2 else 1) for place, digit in enumerate(digits))
    return digits + str(-total % 10)


class Words(unittest.TestCase):
    """What a message proposes is pasted into a shell."""

    def in_bash(self, line: str) -> list[str]:
        """The words that bash makes of a line, which does nothing else."""
        with tempfile.TemporaryDirectory() as folder, tempfile.NamedTemporaryFile() as script:
            script.write(f"printf '%s\\0' {line}".encode())
            script.flush()
            Path(folder, "do").write_text("touch PWNED")
            for words in (["bash", "-n"], ["bash"]):
                done = subprocess.run(
                    [*words, script.name], check=True, capture_output=True, cwd=folder
                )
            self.assertEqual(os.listdir(folder), ["do"])
        return done.stdout.decode().split("\0")[:-1]

    def check(self, said: Sequence[Text], wanted: Sequence[Sequence[str]]) -> None:
        """Compares the words of what messages propose, as they are written, with what was meant."""
        lines = [visible(translated(text)) for text in said]
        words = [word for line in wanted for word in line]
        self.assertEqual(self.in_bash(" ".join(lines)), words)

    def test_remedies(self) -> None:
        remedies = [Remedy("sheet", value) for value in VALUES]
        said = [Text("{}", remedy) for remedy in remedies]
        self.check(said, [remedy.words for remedy in remedies])

    def test_sheets(self) -> None:
        said = []
        for value in VALUES:
            sheets = [Worksheet(name, True, iter([Row(1, ["x"])])) for name in ("A", value)]
            with self.assertRaises(ToolError) as caught:
                list(rows_of_chosen(sheets, None))
            said += [Text("{}", remedy) for remedy in caught.exception.remedies[1:]]
        self.check(said, [Remedy("sheet", value).words for value in VALUES])

    def test_columns_and_files(self) -> None:
        said, wanted = [], []
        arguments = table_parser().parse_args([])
        for value, other in zip(VALUES, reversed(VALUES)):
            names = [value.strip() or "x", "EAN"]
            guess = Guess(names, {"code": 1, "title": 0}, {1: CodeReading()}, 1, ["", ""])
            line = command_for(guess, guess.columns, CodeRules(), ["--", other], arguments)
            said.append(Text("{}", shell_line(["label-table", *line])))
            title = column_word(names, 0)
            titles = [f"--title={title}"] if title.startswith("-") else ["--title", title]
            wanted.append(["label-table", "--code", "EAN", *titles, "--", other])
            said.append(Text("{}", words_for(guess, [0, 1])))
            wanted.append([f"{title},", "EAN"])
        self.check(said, wanted)

    def test_printers_and_codes(self) -> None:
        said, wanted = [], []
        for value in VALUES:
            trouble = trouble_of(value, {"printer-state": 5})
            assert trouble is not None
            line = str(trouble.hint).partition(", or by ")[2]
            said.append(Text("{}", line))
            wanted.append(["cupsenable", value])
            said.append(Text("{}", settling_line(value, ["--print", value, "--state", "printed"])))
            wanted.append(
                ["label-print", "--journal", value, "--print", value, "--state", "printed"]
            )
        self.check(said, wanted)

    def test_a_line_of_lp(self) -> None:
        job = planned(print_options(["--stock", "Avery L7160", "--dpi", "600"]))
        lines = [lp_line(job, value).partition(" -o ")[0] for value in VALUES]
        self.check([Text("{}", line) for line in lines], [["lp", "-d", value] for value in VALUES])

    def test_quotes_that_a_person_would_type(self) -> None:
        self.assertEqual(str(Remedy("price", "Prix d'achat")), '--price "Prix d\'achat"')
        self.assertEqual(str(Remedy("price", "l'$HOME")), "--price 'l'\"'\"'$HOME'")

    def test_a_sheet_whose_name_is_a_command(self) -> None:
        name = "'; . ./*; '"
        data = xlsx(rows(["EAN"], [CODE]), (name, "visible", rows(["EAN"], [CODE])))
        done = support.run("label-table", "--code", "EAN", input=data)
        given = support.messages(done)[-1].rpartition("(--sheet ")[2]
        self.assertEqual(self.in_bash(given.removesuffix(")")), [name])

    def test_a_queue_whose_name_is_a_command(self) -> None:
        states: list[dict[str, Any]] = [{"printer-state-reasons": ["paused"]}, {"printer-state": 5}]
        for state in states:
            trouble = trouble_of("a;do&b", state)
            assert trouble is not None
            line = str(trouble.hint).partition(", or by ")[2]
            self.assertEqual(self.in_bash(line), ["cupsenable", "a;do&b"])


class Bombs(unittest.TestCase):
    """Small files that would keep a computer busy."""

    def ended(self, data: bytes, *words: str) -> str:
        """The last message of label-table, which has so many seconds and so much memory."""
        with tempfile.NamedTemporaryFile() as file:
            file.write(data)
            file.flush()

            def limit() -> None:
                resource.setrlimit(resource.RLIMIT_AS, (600 << 20,) * 2)
                resource.setrlimit(resource.RLIMIT_CPU, (SECONDS_OF_A_BOMB,) * 2)

            command = [str(support.TOOLS / "label-table"), *words, file.name]
            done = subprocess.run(
                command, capture_output=True, env=support.environment(), preexec_fn=limit
            )
        self.assertIn(done.returncode, (0, 1, 2), done.stderr[-300:])
        self.assertNotIn(b"fault", done.stderr)
        return support.messages(done)[-1] if done.stderr else ""

    def test_rows_of_ods_that_are_repeated(self) -> None:
        wide = '<table:table-cell table:number-columns-repeated="16382"/>' + ods_cell("x")
        row = f'<table:table-row table:number-rows-repeated="61000">{wide}</table:table-row>'
        said = self.ended(ods(table(["EAN"], [CODE], end=row * 17)), "--code", "EAN")
        self.assertIn("takes too much, more than", said)

    def test_cells_of_ods_that_are_repeated(self) -> None:
        empty = (
            '<table:table-cell office:value-type="string" table:number-columns-repeated="16384"/>'
        )
        end = f"<table:table-row>{empty * 11_000}</table:table-row>" * 9
        self.assertEqual(self.ended(ods(table(["EAN"], [CODE], end=end)), "--code", "EAN"), "")

    def test_cells_far_to_the_right(self) -> None:
        row = '<row r="{0}"><c r="XFD{0}"><v>1</v></c></row>'
        far = "".join(row.format(number) for number in range(3, 100_000))
        said = self.ended(xlsx(rows(["EAN"], [CODE]) + far), "--code", "EAN")
        self.assertIn("takes too much, more than", said)

    def test_columns_that_are_hidden_again_and_again(self) -> None:
        columns = '<cols><col min="1" max="16384" hidden="1"/>' + (
            '<col min="1" max="16384" hidden="1"/>' * 100_000 + "</cols>"
        )
        said = self.ended(xlsx(rows(["EAN"], [CODE]), before=columns), "--code", "EAN")
        self.assertIn("takes too much, more than", said)

    def test_strings_that_no_cell_has(self) -> None:
        data = xlsx(rows(["EAN"], [CODE]), strings="<si><t>ab</t></si>" * 3_000_000)
        self.assertIn("takes too much, more than", self.ended(data, "--code", "EAN"))

    def test_hidden_sheets_are_not_read(self) -> None:
        """Many may name one part."""
        data = xlsx(rows(["EAN"], [CODE]), before="<x>" + "<a/>" * 400_000 + "</x>")
        parts = unpacked(data)
        book = parts["xl/workbook.xml"]
        element = book[book.index("<sheet ") : book.index("/>", book.index("<sheet ")) + 2]
        name = element[element.index('name="') + 6 :].partition('"')[0]
        others = [
            re.sub(' state="[a-z]*"', "", element)
            .replace(f'"{name}"', f'"h{number}"')
            .replace("<sheet ", '<sheet state="hidden" ')
            for number in range(300)
        ]
        parts["xl/workbook.xml"] = book.replace(element, element + "".join(others))
        self.assertEqual(self.ended(packed(parts), "--code", "EAN"), "")

    def test_a_word_without_an_end(self) -> None:
        code, word = CODE.encode(), b"a" * 300_000
        self.ended(b"EAN;Name\n%b;K\xe4se\n%b;%b\n" % (code, code, word))

    def test_words_are_found_as_before(self) -> None:
        text = 'Käse, "für" 1;ab  ×2\u00a0é ab é|xé,\nzé'
        wanted = ["Käse", "für", "×2", "é", "é", "xé", "zé"]
        self.assertEqual(OTHER_WORD.findall(text), wanted)
        old = text.encode("cp1252")
        found = [part.decode("cp1252") for part in OTHER_BYTES.findall(old)]
        self.assertEqual(found, ["Käse", "für", "×2\u00a0é", "é|xé", "zé"])
        self.assertEqual(other_words(old, ["cp1252"]), {tuple(dict.fromkeys(wanted)): ["cp1252"]})
        words = ("ポット", "ソース")  # letters that have the bytes of a bar and of a backslash
        old = "ポット|ソース;Tea".encode("cp932")
        self.assertEqual(other_words(old, ["cp932"]), {words: ["cp932"]})

    def test_many_columns_of_prices_or_codes(self) -> None:
        count = 250
        prices = ["EAN;Artikel;" + ";".join(f"Preis {column}" for column in range(count))]
        codes = [";".join(f"EAN {column}" for column in range(count))]
        for row in range(60):
            amounts = (f"{column % 97 + 1},{row % 100:02d} €" for column in range(count))
            prices.append(f"{ean(row)};Tee {row};" + ";".join(amounts))
            codes.append(";".join([ean(row)] * count))
        for lines in (prices, codes):
            self.ended("\n".join(lines).encode())

    def test_a_row_of_cells_with_line_ends(self) -> None:
        row = ";".join(['"a\nb"'] * 6000)
        said = self.ended(f"EAN;Name\n{CODE};a\n{row}\n".encode(), "--code", "EAN")
        self.assertIn("row 3: the row has 6000 cells", said)

    def test_a_style_sheet_of_many_rules(self) -> None:
        """The page is in memory once at a time, of which it takes 140 MB."""
        with tempfile.TemporaryDirectory() as folder:
            path = Path(folder, "page.svg")
            rules = "a{fill:red}" * 100_000
            path.write_text(
                '<svg xmlns="http://www.w3.org/2000/svg" width="60mm" height="40mm" viewBox="0 0 '
                f'60 40"><style>{rules}</style><rect data-place="code" x="2" y="12" width="56" '
                'height="26" fill="none"/></svg>'
            )
            code = (
                "import resource, sys; from labeltools.designs import drawer, svg_design\n"
                "drawer.asked.is_here = True\n"  # the work of another process, in this one
                "svg_design.read_design(sys.argv[1], (60.0, 40.0), (0.0,) * 4, None)\n"
                "print(resource.getrusage(resource.RUSAGE_SELF).ru_maxrss >> 10)\n"
            )
            command = [sys.executable, "-c", code, str(path)]
            done = subprocess.run(command, capture_output=True, cwd=support.OURS)
        self.assertLess(int(done.stdout or 9999), 260, done.stderr)

    def test_small_files_whose_texts_or_numbers_take_long(self) -> None:
        """Marks that stack, merges of all columns, and numbers of a million zeros."""
        marks = MARKS[:130_000]
        merges = "".join(f'<mergeCell ref="A{row}:XFD{row + 1_000_000}"/>' for row in range(2, 252))
        numbers = [[CODE, '<c s="1"><v>1E-999900</v></c>']] * 2000
        files = (
            xlsx(rows(["EAN", "P"], *[[CODE, f"1{marks}"]] * 12, [CODE, "1,20"])),
            xlsx(rows(["EAN", "P", f"a{MARKS[:480_000]}"], [CODE, "1,20"])),
            xlsx(
                rows(["EAN", "P"], *[[CODE, "1"]] * 3000),
                after=f"<mergeCells>{merges}</mergeCells>",
            ),
            xlsx(rows(["EAN", "P"], *numbers), formats=["0.00"]),
            xlsx(rows(["EAN", "P"], *numbers), formats=["General"]),
        )
        for data in files:
            self.assertLess(len(data), 20_000)
            self.ended(data, "--code", "EAN", "--price", "P", "--decimal", "comma")
        word = f"EAN\n{'a' * 60_000} é\nb\n".encode()
        self.assertIn('show "é" wrongly', self.ended(word, "--code", "EAN", "--symbology", "qr"))

    @support.slow
    def test_many_styles(self) -> None:
        """They take no more memory than their file may."""
        style = '<style:style style:name="s{}" style:family="table-cell"/>'
        styles = "".join(map(style.format, range(3_000_000)))
        said = self.ended(ods(table(["EAN"], [CODE]), styles=styles), "--code", "EAN")
        self.assertIn("MB of memory", said)

    def test_a_large_file_of_csv_with_many_cells_a_row(self) -> None:
        """It is read, or it is said what was too much, and what to do: of a fortieth of 40 MB a
        fortieth of the text is taken, or less memory than its rows take.
        """
        rows_of = [f"{CODE}{';ab' * 8000}\n" for _ in range(45)]
        data = "".join([f"EAN{';x' * 8000}\n", *rows_of]).encode()
        self.assertGreater(len(data), MEGABYTE)
        words = "label-table", "--code", "EAN"
        done = support.run_here(*words, input=data)
        self.assertEqual((done.returncode, done.stdout.count(CODE.encode())), (0, 45))
        said = (
            "label-table: standard input takes too much, more than {}: split it into several tables"
        )
        for share, most, problem in ((CSV, 1, "1 MB of text"), (MEMORY, 8, "8 MB of memory")):
            with mock.patch.dict(vars(share), least=most * MEGABYTE, each=0.0):
                done = support.run_here(*words, input=data)
            self.assertEqual((done.returncode, done.stdout), (1, b""))
            self.assertEqual(support.messages(done), [said.format(problem)])

    def test_the_limits_of_the_system(self) -> None:
        """They hold where no code of ours could look at a clock."""
        words = Text("split it")
        small = Kind(
            TABLE.bytes, words, words, Share(1, Text("s")), Share(MEGABYTE << 8, Text("B"))
        )
        works: dict[str, Callable[[Talk], object]] = {
            "a.csv takes too much, more than 1 s": lambda _: normalize("NFC", "a" + MARKS),
            "a.csv takes too much, more than 268,435,456 B": lambda _: bytes(300 * MEGABYTE),
        }
        for said, work in works.items():
            with self.assertRaisesRegex(TooMuch, said):
                apart(Input("a.csv", 10, small), work, Talk())

    def test_what_another_process_says(self) -> None:
        talk = mock.Mock(Talk)
        source = Input("a.csv", 10)
        odd = [Problem(Text("{} is odd", number)) for number in range(1000)]

        def work(talk: Talk) -> int:
            for problem in odd:
                talk.say(problem)
            return 12

        self.assertEqual(apart(source, work, talk), 12)
        self.assertEqual([call.args for call in talk.say.call_args_list], [(said,) for said in odd])
        with self.assertRaisesRegex(ToolError, "no row: look") as caught:
            apart(source, mock.Mock(side_effect=ToolError(Text("no row"), Text("look"))), talk)
        self.assertEqual(caught.exception.hint, Text("look"))
        with self.assertRaisesRegex(ToolError, "report it as KeyError") as caught:
            apart(source, mock.Mock(side_effect=KeyError("a")), talk)
        self.assertEqual(caught.exception.status, UNEXPECTED)

    def test_work_that_nobody_wants_any_more(self) -> None:
        """It ends at once, also where it asks nobody."""
        talk = mock.Mock(Talk)
        talk.go_on.side_effect = Cancelled(Text("stopped"))
        with self.assertRaises(Cancelled):  # else the system would end it, for its time
            apart(Input("a.csv", 10), lambda _: normalize("NFC", "a" + MARKS), talk)


class Rows(unittest.TestCase):
    """One row stops no other."""

    def rows(self, data: bytes, *words: str) -> tuple[list[int], str]:
        """The rows of a table that have labels, and what is said."""
        done = support.run("label-table", "--code", "EAN", *words, input=data)
        self.assertIn(done.returncode, (0, 1), done.stderr)
        said = done.stderr.decode()
        self.assertNotIn("fault", said)
        return [record.row for record in read_lines(done.stdout, "a").records], said

    def test_a_cell_that_is_odd(self) -> None:
        """Each of these ended a table of which no row was named."""
        begin, end = "EAN;N\n" + f"{CODE};1\n", f"{ean(7)};2\n"
        self.check(begin.encode() + b"';1\n" + end.encode())
        found, said = self.rows(f"{begin}{ean(3)};{'0' * 5000}\n{end}".encode(), "--copies", "N")
        self.assertEqual(found, [2, 3, 4], said)
        large = ods_cell("1,20", "float", 'office:value="1E300"')
        moment = ods_cell("x", "date", 'office:date-value="2026-11-25T10:00:00Z"')
        for odd, words in (
            (large, ("--price", "N")),
            (moment, ("--text", "N", "--date-as", "d.m")),
        ):
            data = ods(table(["EAN", "N"], [CODE, "1,00"], [ean(3), odd], [ean(7), "2,00"]))
            self.check(data, *words)

    def check(self, data: bytes, *words: str) -> None:
        """Looks that the second of three rows is left out, by its number."""
        found, said = self.rows(data, *words)
        self.assertEqual(found, [2, 4], said)
        self.assertIn("row 3: ", said)

    def test_a_number_of_many_digits(self) -> None:
        """It is shown as its format says."""
        odd = '<c s="1"><v>1E300</v></c>'
        lines = (["EAN", "N"], [CODE, "a"], [ean(3), odd], [ean(7), "b"])
        data = xlsx(rows(*lines), formats=["0." + "0" * 240])
        self.assertEqual(self.rows(data, "--text", "N")[0], [2, 3, 4])

    def test_what_nobody_foresaw(self) -> None:
        """Of a price, and of a line that is written."""
        data = f"EAN;P\n{CODE};1,00\n{ean(3)};6,66\n{ean(7)};2,00\n".encode()
        for place in ("table.DraftReader.draft", "line_writer.LineWriter.price_as_printed"):
            module, name, method = place.split(".")
            owner = getattr(import_module(f"labeltools.tables.{module}"), name)
            before = getattr(owner, method)

            def broken(self: Any, *found: Any) -> Any:
                if "6,66" in str(found):
                    raise KeyError("a")
                return before(self, *found)

            options = table_options(["--code", "EAN", "--price", "P"])
            with self.subTest(place), mock.patch.object(owner, method, broken):
                made = lines_of_table(data, "a", options, Talk())
            self.assertEqual((made.count, made.left_out), (2, (3,)))

    def test_a_label_that_cannot_be_laid_out(self) -> None:
        support.labels_program()  # what is drawn needs the program and its library
        from labeltools.layout.measured import need_of as before

        def broken(label: Any, letters: Any) -> Any:
            if label.number == 2:
                raise KeyError("a")
            return before(label, letters)

        job = planned(print_options(ROLL))
        with mock.patch("labeltools.designs.common_places.need_of", broken):
            found = labels_of(job, "a", b"qr A\nqr B\nqr C\n", Talk())
        self.assertEqual([item.record.number for item in found.prints], [1, 3])
        (left_out,) = found.left_out
        self.assertEqual(left_out.origin, Origin("", "line", 2))

    def test_prices_of_any_length(self) -> None:
        """One that no paper takes leaves out its label, at once."""
        support.labels_program()  # what is drawn needs the program and its library

        def seconds(size: int) -> float:
            prices = ("1,00", "1" + "\u0e35" * size, "9" * 9 * size, "2,00")
            data = support.file_of([(f"qr {price[:1]}", {"price": price}) for price in prices])
            begin = time.process_time()
            found = labels_of(planned(print_options(ROLL)), "a", data, Talk())
            self.assertEqual([item.record.row for item in found.prints], [2, 3, 5])
            return time.process_time() - begin

        short, long = (min(seconds(size) for _ in range(3)) for size in (6_250, 100_000))
        self.assertLess(long, 40 * short)  # 16 times as long a text; its square is 256 times

    def drawn_wrongly(self, *words: str) -> "subprocess.CompletedProcess[bytes]":
        """What label-print prints, and its status in the last line, if it draws T00002 wrongly."""
        support.labels_program()  # what is drawn needs the program and its library
        code = (
            "from labeltools.commands.label_print import run\n"
            "from labeltools.drawing.pen import Pen\n"
            "before = Pen.draw_modules\n"
            "def draw(self, canvas, modules, symbol, corner):\n"
            "    if symbol.data != b'T00002':\n"
            "        before(self, canvas, modules, symbol, corner)\n"
            "Pen.draw_modules = draw\n"
            "print(run())"
        )
        return subprocess.run(
            [sys.executable, "-c", code, *words],
            input=TICKETS,
            capture_output=True,
            cwd=support.OURS,
            env=support.environment(),
        )

    def test_a_label_of_a_stream_that_is_drawn_wrongly(self) -> None:
        """It is refused, and each other line has its label."""
        said = self.drawn_wrongly(*ROLL, "--stream").stderr.decode().splitlines()
        answers = [line.split()[:2] for line in said]
        count = TICKETS.count(b"\n")
        others = [["taken", str(number)] for number in range(3, count + 1)]
        self.assertEqual(answers, [["taken", "1"], ["refused", "2"], *others])

    def test_a_label_that_is_drawn_wrongly(self) -> None:
        """Of a roll and of a page: the others go out, and the status tells of it."""
        for words in (ROLL, ("--paper", "60x40")):
            done = self.drawn_wrongly(*words)
            said = support.messages(done)
            self.assertEqual(done.stdout[-2:], b"1\n", done.stderr)
            self.assertEqual(len(said), 1, said)
            self.assertRegex(said[0], "line 2: .* output.* report it")

    def test_a_label_of_a_sheet_that_is_drawn_wrongly(self) -> None:
        """Its place stays empty, and the others have theirs."""
        support.labels_program()  # what is drawn needs the program and its library
        options = PrintOptions(stock="l7160", dpi=300, to="pbm")
        found = labels_of(planned(options), "a", TICKETS, Talk())
        before = Pen.draw_modules

        def draw(pen: Pen, canvas: Any, modules: Any, symbol: Any, corner: Any) -> None:
            if symbol.data != b"T00002":
                before(pen, canvas, modules, symbol, corner)

        outlets = Kept(), Kept()
        sender = Sender(found.job, outlets[0])
        sender.send_all(found, Talk())
        with mock.patch.object(Pen, "draw_modules", draw):
            wrong = Sender(found.job, outlets[1])
            wrong.send_all(found, Talk())
        self.assertEqual([*wrong.progress.wrong], [2])
        self.assertEqual(wrong.progress.taken, sender.progress.taken - 1)
        dots = [pictures_of_pbm(b"".join(outlet.kept))[0] for outlet in outlets]
        (places,) = numpy.nonzero((dots[0] != dots[1]).any(axis=0))
        across = 63.5 + 2.5  # millimetres from a label of this sheet to the next one
        self.assertGreater(places[0] / 300 * 25.4, across)
        self.assertLess(places[-1] / 300 * 25.4, 7.2 + 2 * across)


class Kept(Outlet):
    """It keeps what goes out."""

    def __init__(self) -> None:
        self.kept: list[bytes] = []

    def send(self, data: bytes) -> None:
        self.kept.append(data)


class Library(unittest.TestCase):
    """The library is taken from no folder that others may write to."""

    def test_a_checkout_in_a_shared_folder(self) -> None:
        with tempfile.TemporaryDirectory() as folder:
            package = Path(folder, "labels/tools/labeltools")
            for place in ("lib", "labels/out/lib"):
                Path(folder, place).mkdir(parents=True)
            Path(folder, "lib/liblabels.so.1").touch()
            Path(folder, "lib/liblabels.so.1.2.0").touch()
            self.assertIsNone(own_files(package)[1])
            built = Path(folder, "labels/out/lib/liblabels.so.1.2.0")
            built.touch()
            self.assertEqual(own_files(package)[1], built)

    def test_one_that_is_installed_has_its_exact_name(self) -> None:
        with tempfile.TemporaryDirectory() as folder:
            Path(folder, "lib").mkdir()
            Path(folder, "lib/liblabels.so.1.evil").touch()
            package = Path(folder, "share/label-tools/labeltools")
            self.assertIsNone(own_files(package)[1])
            Path(folder, "lib/liblabels.so.1").touch()
            self.assertEqual(own_files(package)[1], Path(folder, "lib/liblabels.so.1"))


class Inputs(unittest.TestCase):
    """Files that are no tables."""

    def setUp(self) -> None:
        folder = tempfile.TemporaryDirectory()
        self.addCleanup(folder.cleanup)
        self.path = Path(folder.name, "input")

    def test_a_file_with_holes(self) -> None:
        with self.path.open("wb") as file:
            file.truncate(1 << 40)
        for tool, words in (("label-table", ["--code", "EAN"]), ("label-print", ROLL)):
            done = support.run(tool, *words, str(self.path))
            self.assertEqual(done.returncode, 1)
            self.assertIn("takes too much, more than 512 MB", support.messages(done)[-1])

    def test_a_fifo_that_nobody_writes_to(self) -> None:
        os.mkfifo(self.path)
        with mock.patch.object(process, "WRITER", 0.05):
            self.assertRaisesRegex(
                ToolError, "no program writes", process.read_file, str(self.path)
            )

    def test_numbers_of_many_digits(self) -> None:
        for key in ("row", "left_out_count", "lines"):
            line = f'#{{"labels":1}}\n#{{"{key}":{"9" * 4299}}}\nean13 {CODE}\n'
            with self.assertRaisesRegex(ToolError, "not understood"):
                read_lines(line.encode(), "a.lines")

    def test_signs_that_turn_letters(self) -> None:
        for sign in "\u202a\u202e\u2066\u2069":
            line = f"#{json.dumps({'row': 1, 'price': f'{sign}1,20'})}\nean13 {CODE}\n"
            with self.assertRaisesRegex(ToolError, "not understood: .price."):
                read_lines(line.encode(), "a.lines")

    def test_a_link_that_is_a_part(self) -> None:
        """It has no TargetMode: the name of the part would be drawn as an address."""
        after = '<hyperlinks><hyperlink ref="A2" r:id="h1"/></hyperlinks>'
        data = xlsx(rows(["Link"], ["see"]), after=after)
        parts = unpacked(data)
        rels = (
            '<Relationships xmlns="http://schemas.openxmlformats.org/package/2006/relationships">'
            '<Relationship Id="h1" Target="https://example.org/a" Type="http://schemas.openxml'
            'formats.org/officeDocument/2006/relationships/hyperlink"{}/></Relationships>'
        )
        (sheet,) = (name for name in parts if "sheets/" in name and "_rels" not in name)
        place = f"xl/worksheets/_rels/{Path(sheet).name}.rels"
        if "xmlns:r=" not in parts[sheet]:
            space = "http://schemas.openxmlformats.org/officeDocument/2006/relationships"
            parts[sheet] = parts[sheet].replace("<worksheet ", f'<worksheet xmlns:r="{space}" ', 1)
        words = ("--code", "Link", "--symbology", "qr", "--links")
        for mode, is_there in (' TargetMode="External"', True), ("", False):
            done = support.run(
                "label-table", *words, input=packed({**parts, place: rels.format(mode)})
            )
            self.assertEqual(b"qr https://example.org/a\n" in done.stdout, is_there, done.stderr)
            self.assertNotIn(b"worksheets", done.stdout)

    def test_what_is_saved_has_no_name_before_it_is_whole(self) -> None:
        code = (
            "import os, signal, sys; from pathlib import Path\n"
            "from labeltools.common import files\n"
            "class Ended:\n"
            "    def read(self, _):\n"
            "        print(os.listdir(sys.argv[1]), flush=True)\n"
            "        os.kill(os.getpid(), signal.SIGKILL)\n"
            "files.save_file(Ended(), Path(sys.argv[1], 'a.pdf'))\n"
        )
        command = [sys.executable, "-c", code, str(self.path.parent)]
        done = subprocess.run(command, capture_output=True, cwd=support.OURS)
        self.assertEqual((done.returncode, done.stdout), (-signal.SIGKILL, b"[]\n"), done.stderr)
        self.assertEqual(os.listdir(self.path.parent), [])
        before = os.umask(0o027)
        try:
            files.save_file(BytesIO(b"1"), self.path)
            files.save_file(BytesIO(b"22"), self.path)
        finally:
            os.umask(before)
        self.assertEqual(self.path.read_bytes(), b"22")
        self.assertEqual(self.path.stat().st_mode & 0o777, 0o640)

    def test_a_save_that_was_ended_stops_no_later_one(self) -> None:
        """On a disk where each file has a name, part of the file is left beside it."""
        code = (
            "import os, signal, sys; from io import BytesIO; from pathlib import Path\n"
            "from labeltools.common import files\n"
            "files.nameless = lambda folder: None\n"
            "class Ended:\n"
            "    def read(self, _):\n"
            "        os.kill(os.getpid(), signal.SIGKILL)\n"
            "data = Ended() if sys.argv[2] == 'ended' else BytesIO(b'22')\n"
            "files.save_file(data, Path(sys.argv[1], 'a.pdf'))\n"
        )
        for word, status in (("ended", -signal.SIGKILL), ("whole", 0)):
            command = [sys.executable, "-c", code, str(self.path.parent), word]
            done = subprocess.run(command, capture_output=True, cwd=support.OURS)
            self.assertEqual(done.returncode, status, done.stderr)
        self.assertEqual((self.path.parent / "a.pdf").read_bytes(), b"22")

    def test_data_that_are_ways_to_other_folders(self) -> None:
        """Each file is in the folder that is named."""
        support.labels_program()  # what is drawn needs the program and its library
        data = support.file_of([("qr ../../x", {}), ("qr ..", {}), ("qr /etc/passwd", {})])
        folder = self.path.parent / "labels"
        words = ("--paper", "60x40", "--dpi", "203", "--to", "png", "--each", f"{folder}/%s")
        done = support.printed(*words, input=data)
        self.assertEqual(done.returncode, 0, done.stderr)
        self.assertEqual(len(os.listdir(folder)), 3)
        self.assertEqual(os.listdir(self.path.parent), ["labels"])


class Private(Desk):
    """Files that others may not read."""

    @classmethod
    def setUpClass(cls) -> None:
        support.labels_program()  # what is drawn needs the program and its library

    def mode(self, path: str | Path) -> int:
        """What a file allows."""
        return os.stat(path).st_mode & 0o777

    def test_a_journal(self) -> None:
        before = os.umask(0o022)
        self.addCleanup(os.umask, before)
        self.assertEqual(printed("--journal", self.path).returncode, 0)
        modes = {self.mode(path) for path in Path(self.folder).iterdir()}
        self.assertEqual(modes, {0o600})

    def test_a_journal_of_others_is_named_with_what_mends_it(self) -> None:
        self.assertEqual(printed("--journal", self.path).returncode, 0)
        for mode in (0o660, 0o606, 0o620, 0o644):
            os.chmod(self.path, mode)
            said = support.messages(printed("--journal", self.path))[0]
            self.assertIn("other users may read or write", said)
            command = said.partition(", and stop it: ")[2].removesuffix(" makes it private")
            subprocess.run(["bash", "-c", command], check=True)
            self.assertEqual(self.mode(self.path), 0o600)
        self.assertNotIn(b"other users", printed("--journal", self.path).stderr)

    @unittest.skipIf(os.getuid(), "is not built: run it as root")
    def test_a_lane_that_somebody_else_has_locked(self) -> None:
        """Who may only read the file is no lane: the label is in doubt as without the lock."""
        os.chmod(self.folder, 0o755)
        self.journal(entry("sent", "qr T00002", "line 2"))
        os.chmod(self.path, 0o644)
        with subprocess.Popen(
            [sys.executable, "-c", HOLD, self.path, "1"],
            stdin=subprocess.PIPE,
            stdout=subprocess.PIPE,
            cwd="/",
        ) as other:
            assert other.stdout is not None
            self.assertEqual(other.stdout.readline(), b"held\n")
            done = printed("--journal", self.path)
            self.said(done, 1, "line 2: may be missing, sent to tcp://a: look there")
            other.kill()

    def test_a_printer_whose_name_has_the_end_of_a_line(self) -> None:
        """The next run reads what was written."""
        printer = Path(self.folder, "a\n2026\tb")
        for number in range(2):
            printer.touch()
            done = printed("--journal", self.path, "--print", str(printer))
            self.assertEqual(done.returncode, 0, done.stderr)
        self.assertIn("30 labels are in", support.messages(done)[-1])

    def test_what_the_window_keeps(self) -> None:
        before = os.umask(0o022)
        self.addCleanup(os.umask, before)
        folder = Path(self.folder, "config", "labels")
        with mock.patch("labeltools.window.memory.FOLDER", folder):
            memory = Memory("files.json", str)
            memory.keep("a", "b")
            write_own(folder / "a.lines", b"")
            os.chmod(folder / "files.json", 0o644)
            memory.keep("c", "d")
            self.assertEqual(memory.all(), {"a": "b", "c": "d"})
            os.chmod(folder, 0o755)
            memory.keep("e", "f")
        modes = [self.mode(path) for path in (folder, *sorted(folder.iterdir()))]
        self.assertEqual(modes, [0o700, 0o600, 0o600])


class Swinging(Outlet):
    """A printer that has one label left, or two."""

    name = "tcp://a"
    asked = 0

    def ask(self, _question: Query) -> Reply:
        """It is asked for ever."""
        self.asked += 1
        if self.asked > 3000:
            raise AssertionError("asked for ever")
        return Reply((), 1 + self.asked % 2)


class Falling(Swinging):
    """A printer that has one label less at each question, of more than any printer has."""

    def ask(self, question: Query) -> Reply:
        """It is asked for ever."""
        super().ask(question)
        return Reply((), 999_999_999 - self.asked)


class Printers(Desk):
    """Printers that answer as they like, and lines that do not end."""

    @classmethod
    def setUpClass(cls) -> None:
        support.labels_program()  # what is drawn needs the program and its library

    def status(self, left: bytes) -> bytes:
        """What a printer of ZPL answers that has so many labels left."""
        lines = (
            b"030,0,0,0320,%b,0,0,0,000,0,0,0" % left,
            b"001,0,0,0,0,2,4,0,00000000,1,000",
            b"0000,0",
        )
        return b"".join(b"\x02%b\x03\r\n" % line for line in lines)

    def test_a_count_of_many_digits(self) -> None:
        self.assertEqual(read_status(self.status(b"002")), Reply([], 2))
        for count in (10, 4300, 5000):
            self.assertIsNone(read_status(self.status(b"9" * count)))

    def test_a_count_that_never_comes_to_its_end(self) -> None:
        """It is not asked for ever, whether it goes up and down or only falls."""
        for outlet in (Swinging(), Falling()):
            watcher = watch.Watch(outlet, QUERIES["zpl"])
            short = mock.patch.multiple(watch, IDLE=0.2, LOOKS=(0.001, 0.001), LONGEST=0.3)
            with short, mock.patch.object(watch, "SLOWEST", 0.01):
                watcher.wait_until_printed(3)
            self.assertTrue(watcher.is_stuck)

    def test_a_line_without_an_end(self) -> None:
        longest = 2 * stream.LONGEST_LINE
        lines = b"qr A\nqr " + b"B" * 10_000_000 + b"\nqr C\n#{" + b"D" * 10_000_000
        found = [*stream.labels_of_lines(BytesIO(lines))]
        self.assertEqual([parts[-1][0] for parts in found], [1, 2, 3, 4])
        self.assertLess(max(len(line) for parts in found for _, line in parts), longest)
        words = [answer.split()[:2] for answer in self.answers(lines)]
        wanted = [["taken", "1"], ["refused", "2"], ["taken", "3"], ["refused", "4"]]
        self.assertEqual(words, wanted)

    def test_many_remarks_before_a_line(self) -> None:
        (parts,) = stream.labels_of_lines(BytesIO(b'#{"row":1}\n' * 60_000 + b"qr A\n"))
        self.assertEqual([number for number, _ in parts], [1, 60_000, 60_001])

    def test_an_exception_that_nobody_expected(self) -> None:
        """It is said as one message, with what went out, and what is in doubt."""
        printer = Printer().start()
        broken = (
            "from labeltools.sending import network\n"
            "before, sent = network.NetworkPrinter.push, []\n"
            "def push(self, line, data):\n"
            "    sent.append(data)\n"
            "    if len(sent) == 3:\n"
            "        [].pop()\n"
            "    before(self, line, data)\n"
            "network.NetworkPrinter.push = push\n"
        )
        done = self.begin("--print", printer.name, code=broken).done()
        said = (
            "report it as IndexError in line .*: it took 2 labels whole; .*line 3 may be on paper"
        )
        self.said(done, UNEXPECTED, said)
        self.said(done, UNEXPECTED, "go on with label 3 .--after 2")
        self.assertNotIn(b"Traceback", done.stderr)
        done = self.begin("--print", printer.name, "--journal", self.path, code=broken).done()
        self.said(done, UNEXPECTED, "lines 1-3: may be missing, sent to tcp://")

    def test_one_at_the_end(self) -> None:
        printer = Printer().start()
        broken = (
            "from labeltools.sending import watch\n"
            "def end(self, _):\n"
            "    raise ValueError\n"
            "watch.Watch.wait_until_printed = end\n"
        )
        done = self.begin("--print", printer.name, code=broken).done()
        self.said(done, UNEXPECTED, "report it as ValueError in line .*: it took 30 labels whole")

    def test_one_of_a_stream(self) -> None:
        """Each line has its answer."""
        for place, word in (
            ("Sender.send_batch", "unsent"),
            ("outlets.StandardOutput.send", "doubtful"),
        ):
            with mock.patch(
                f"labeltools.sending.{'sender.' if 'Sender' in place else ''}{place}",
                side_effect=KeyError("a"),
            ):
                done = printed("--stream", input=b"qr A\nqr B\n")
            self.said(
                done, UNEXPECTED, f"^{word} 1 this is a fault of the program: report it as KeyE"
            )
            self.assertEqual(len(done.stderr.splitlines()), 1)


class Drawings(unittest.TestCase):
    """Pages that are cheap where they are tried, and dear where they are drawn."""

    @classmethod
    def setUpClass(cls) -> None:
        support.labels_program()  # what is drawn needs the program and its library

    def page(self, side: float) -> str:
        folder = tempfile.TemporaryDirectory()
        self.addCleanup(folder.cleanup)
        path = Path(folder.name, "page.svg")
        path.write_text(
            f'<svg xmlns="http://www.w3.org/2000/svg" width="{side}mm" height="{side}mm" viewBox="'
            f'0 0 {side} {side}"><rect data-place="code" x="2" y="12" width="56" height="26" fill='
            '"none"/></svg>'
        )
        return str(path)

    def test_dots_are_counted_before_they_are_drawn(self) -> None:
        words = ("--design", self.page(800), "--dpi", "600", "--to", "zpl")

        def limit() -> None:
            resource.setrlimit(resource.RLIMIT_AS, (700 << 20,) * 2)

        command = [str(support.TOOLS / "label-print"), *words]
        done = subprocess.run(
            command,
            input=TICKETS,
            capture_output=True,
            env=support.environment(),
            preexec_fn=limit,
        )
        self.assertEqual(done.returncode, 1)
        self.assertIn("18897 by 18897 dots, which are too many", support.messages(done)[-1])

    def test_dots_are_drawn_by_another_process_alone(self) -> None:
        with mock.patch.object(drawer, "Drawer", side_effect=AssertionError):
            self.drawn("--design", self.page(100), "--dpi", "600", "--to", "zpl")

    def test_what_is_dear_only_as_it_is_drawn(self) -> None:
        """Other bytes than those of the file, since elements are changed."""
        path = self.page(60)
        body = Path(path).read_text()
        turbulence = '<feTurbulence baseFrequency="0.9" numOctaves="2000000"/>'
        dear = f'<filter id="f">{turbulence}</filter><path filter="url(#f)" d="M0 0H9V9Z"/></svg>'
        for tag in ("color-profile", "switch"):
            rest = dear.replace("<path", f'<{tag}><g systemLanguage="xx"><path')
            rest = rest.replace("</svg>", f"</g></{tag}></svg>")
            Path(path).write_text(body.replace("</svg>", rest))
            for to in ("zpl", "pdf"):
                with self.assertRaisesRegex(ToolError, "cannot be drawn in 5 seconds"):
                    self.drawn("--design", path, "--dpi", "203", "--to", to, "--paper", "60x60")

    def test_a_design_is_read_by_another_process_alone(self) -> None:
        """Neither XML, nor a picture, nor what is packed comes to a library of ours."""
        path = self.page(60)
        picture = BytesIO()
        Image.new("1", (8, 8)).save(picture, "PNG")
        link = f"data:image/png;base64,{b64encode(picture.getvalue()).decode()}"
        body = Path(path).read_text().replace("</svg>", f'<image href="{link}"/></svg>')
        Path(path).write_bytes(gzip.compress(body.encode()))
        planted = (
            mock.patch("xml.etree.ElementTree.fromstring", side_effect=AssertionError),
            mock.patch("PIL.Image.open", side_effect=AssertionError),
            mock.patch("zlib.decompressobj", side_effect=AssertionError),
        )
        with planted[0], planted[1], planted[2]:
            self.drawn("--design", path, "--dpi", "203", "--to", "zpl", "--paper", "60x60")

    def test_a_small_packed_design_whose_name_takes_long(self) -> None:
        """Marks that stack in the name of a place, which are unpacked first."""
        path = self.page(60)
        body = Path(path).read_text().replace('"code"', f'"code{MARKS[:480_000]}"')
        packed = gzip.compress(body.encode())
        self.assertLess(len(packed), 20_000)
        Path(path).write_bytes(packed)
        with self.assertRaisesRegex(ToolError, "has no rectangle for the code"):
            self.drawn("--design", path, "--dpi", "203", "--to", "zpl", "--paper", "60x60")

    def test_a_design_is_asked_once(self) -> None:
        with mock.patch.object(drawer, "result_of", side_effect=result_of) as answers:
            job = planned(print_options(["--design", self.page(60), "--paper", "60x60"]))
            labels_of(job, "a", TICKETS, Talk())
        self.assertEqual(answers.call_count, 1)

    def test_what_another_address_has_is_refused(self) -> None:
        """It is a drawing that says it is a picture, so it would be drawn and not looked at."""
        path = self.page(60)
        drawing = b64encode(b'<svg xmlns="http://www.w3.org/2000/svg"><path d="M0 0H9V9Z"/></svg>')
        link = f"data:image/png;base64,{drawing.decode()}"
        include = f'<xi:include xmlns:xi="http://www.w3.org/2001/XInclude" href="{link}"/>'
        Path(path).write_text(Path(path).read_text().replace("</svg>", f"<g>{include}</g></svg>"))
        with self.assertRaisesRegex(ToolError, "include cannot be drawn"):
            self.drawn("--design", path, "--dpi", "203", "--to", "zpl", "--paper", "60x60")

    def test_limits_that_are_harder_than_ours(self) -> None:
        """Of time, and of memory."""

        def limit() -> None:
            resource.setrlimit(resource.RLIMIT_CPU, (4, 4))
            resource.setrlimit(resource.RLIMIT_DATA, (300 << 20,) * 2)

        words = ("--design", self.page(60), "--dpi", "203", "--to", "zpl", "--paper", "60x60")
        command = [str(support.TOOLS / "label-print"), *words]
        done = subprocess.run(
            command,
            input=TICKETS[:10],
            capture_output=True,
            env=support.environment(),
            preexec_fn=limit,
        )
        self.assertEqual(done.returncode, 0, done.stderr)

    def test_marks_of_one_title(self) -> None:
        """They are drawn up to some, in any script, and stop no other label."""
        titles = ["Tea", "\u0e01" + "\u0e35" * 400, "Pen", "\u0f40" + "\u0fb2\u200d" * 400]
        lines = [(f"qr {title[:1]}", {"title": title}) for title in titles]
        data = support.file_of(
            [(f"qr {number}", record) for number, (_, record) in enumerate(lines)]
        )
        for to in ("zpl", "pdf"):
            done = support.printed("--paper", "60x40", "--dpi", "203", "--to", to, input=data)
            self.assertEqual(done.returncode, 0, done.stderr)
        done = printed("--stream", input=data)
        self.assertEqual(done.stderr.count(b"taken "), 4, done.stderr)

    def test_the_least_letters_of_a_design(self) -> None:
        """One title leaves out its row, and does not make the others smaller."""
        path = self.page(60)
        place = '<rect data-place="title, least=3" x="2" y="2" width="56" height="5" fill="none"/>'
        Path(path).write_text(Path(path).read_text().replace("</svg>", f"{place}</svg>"))
        titles = ["Tea", "\u0e01" + "\u0e49" * 20, "Pen"]
        data = support.file_of(
            [(f"qr {number}", {"title": title}) for number, title in enumerate(titles)]
        )
        words = ("--design", path, "--dpi", "203", "--to", "zpl", "--paper", "60x60")
        found = labels_of(planned(print_options(words)), "a", data, Talk())
        sizes = [item.texts[0].style.size for item in found.labels]
        self.assertEqual(len(sizes), 2)
        self.assertGreaterEqual(min(sizes) * 25.4 / 203, 3)
        self.assertEqual([left.origin.number for left in found.left_out if left.origin], [3])

    def drawn(self, *words: str) -> None:
        """Draws a label."""
        job = planned(print_options(words))
        found = labels_of(job, "a", TICKETS[:10], Talk())
        press = found.press(Talk())
        for part in press.batches(found.prints):
            press.document(part)

    def test_pictures_of_other_kinds_are_not_opened(self) -> None:
        file = BytesIO()
        Image.new("1", (8, 8)).save(file, "GIF")
        with self.assertRaisesRegex(ToolError, "a picture is broken"):
            svg_page.check_picture("a.svg", b64encode(file.getvalue()).decode())


class Installed(unittest.TestCase):
    """What is installed beside the tools."""

    def test_the_service_has_few_rights(self) -> None:
        """It is no root, and sees little of the computer: of 10 points of exposure it has 3."""
        support.needs("systemd-analyze")
        path = support.TOP / "examples/labels-till-3.service"
        self.assertLessEqual(self.exposure(path.read_text()), 3.0)
        for line in ("DynamicUser=yes\n", "ProtectSystem=strict\n"):
            self.assertIn(line, path.read_text())
        self.assertGreater(self.exposure("[Service]\nExecStart=/bin/true\n"), 9.0)

    def exposure(self, service: str) -> float:
        """What systemd makes of the rights of a service, from 0 to 10 for all of them."""
        with tempfile.TemporaryDirectory() as folder:
            path = Path(folder, "labels-till-3.service")
            path.write_text(service)
            words = ["systemd-analyze", "security", "--offline=true", str(path)]
            done = subprocess.run(words, capture_output=True, text=True)
        self.assertEqual(done.stderr, "")
        return float(done.stdout.rpartition(": ")[2].split()[0])

    def test_two_services_share_nothing(self) -> None:
        """A copy of another name has a user, a folder and a FIFO of its own."""
        service = entry_of("examples/labels-till-3.service")["Service"]
        self.assertNotIn("User", service)  # it is named as the service
        self.assertEqual({service["RuntimeDirectory"], service["CacheDirectory"]}, {"%N"})
        for name in ("ExecStartPre", "ExecStart"):
            self.assertTrue(service[name].endswith(" %t/%N/lines"), service[name])

    def test_no_folder_is_trusted_for_every_package(self) -> None:
        page = (support.TOP / "docs/INSTALL.md").read_text()
        self.assertNotIn("deb [trusted=yes]", page)


if __name__ == "__main__":
    unittest.main()
