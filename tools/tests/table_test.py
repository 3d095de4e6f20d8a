"""What the tests of label-table share: numbers in print, and steps over a table."""

import functools
import json
import re
import tempfile
import unittest
from pathlib import Path
from typing import Any, Callable, Sequence

import support
from workbooks import rows, xlsx

REFUSED = "refused: "
PENCIL = "4006381333931"
BOOK = "9780306406157"
SMALL = "73513537"
SOAP = "036000291452"
Label = dict[str, Any]


def parts_of(output: bytes) -> tuple[Label, list[tuple[Label, str]], Label]:
    """The first remark, each line behind its remark, and the last remark; raises where the output
    is anything else.
    """
    if not output:
        return {}, [], {}
    *texts, rest = output.decode("utf-8").split("\n")
    remarks = [json.loads(text.removeprefix("#")) for text in (texts[0], *texts[1::2])]
    for text, remark in zip((texts[0], *texts[1::2]), remarks):
        if text != "#" + json.dumps(remark, ensure_ascii=False, separators=(",", ":")):
            raise AssertionError(f"not as a remark is written: {text}")
    for remark in remarks:
        if "text" in remark:
            remark["text"] = list(remark["text"].values())
    if rest or len(texts) % 2 or any(line.startswith("#") for line in texts[2::2]):
        raise AssertionError(f"no remark before each line, or no line end: {output!r}")
    return remarks[0], list(zip(remarks[1:-1], texts[2::2])), remarks[-1]


class TableTest(unittest.TestCase):
    """Steps that the tests share."""

    def setUp(self) -> None:
        folder = tempfile.TemporaryDirectory()
        self.addCleanup(folder.cleanup)
        self.folder = Path(folder.name)

    def check(
        self,
        table: str | bytes,
        arguments: Sequence[str],
        lines: Sequence[str] = (),
        problems: Sequence[str] = (),
        status: int = 0,
        locales: Sequence[str] = (),
    ) -> None:
        """Runs label-table over standard input, in each locale or else here; compares lines,
        messages and status.

        Where there are lines or rows are left out, the output has to be whole: a remark before each
        line, and at the end how many lines there are and which rows were left out.
        """
        data = table.encode() if isinstance(table, str) else table
        runs: list[Callable[..., support.Finished[bytes]]] = [
            functools.partial(support.run, locale=locale) for locale in locales
        ]
        no_notice = "^row ([0-9]+): (?!some scanners show)"
        left_out = [int(row) for row in re.findall(no_notice, "\n".join(problems), re.MULTILINE)]
        for run in runs or [support.run_here]:
            with self.subTest(run=run, table=data[:60], arguments=arguments):
                done = run("label-table", *arguments, input=data)
                self.assertEqual(
                    support.messages(done), [f"label-table: {problem}" for problem in problems]
                )
                first, labels, last = parts_of(done.stdout)
                self.assertEqual([line for _, line in labels], list(lines))
                if lines or left_out:
                    self.assertEqual(first, {"labels": 1})
                    end = {
                        "end": 1,
                        "lines": len(lines),
                        "left_out": left_out[:20],
                        "left_out_count": len(left_out),
                    }
                    self.assertEqual(last, end)
                self.assertEqual(done.returncode, status)

    def labels(self, table: str | bytes, *arguments: str, said: Sequence[str] = ()) -> list[Label]:
        """What belongs to each line of a table of which no row is left out, and about which this is
        said.
        """
        data = table.encode() if isinstance(table, str) else table
        done = support.run_here("label-table", *arguments, input=data)
        messages = [f"label-table: {text}" for text in said]
        self.assertEqual((done.returncode, support.messages(done)), (0, messages))
        return [label for label, _ in parts_of(done.stdout)[1]]

    def check_cells(self, arguments: Sequence[str], wanted: dict[str, str]) -> None:
        """A column of cells, each in quotes, and the line that each gives, or REFUSED and the
        message for its row.
        """
        table = "".join(f'"{cell}";x\n' for cell in wanted)
        results = list(enumerate(wanted.values(), 2))
        lines = [result for _, result in results if not result.startswith(REFUSED)]
        problems = [
            f"row {row}: {result[len(REFUSED):]}"
            for row, result in results
            if result.startswith(REFUSED)
        ]
        status = 1 if problems else 0
        self.check(f"code;name\n{table}", ["--code", "code", *arguments], lines, problems, status)

    def check_usage(self, arguments: Sequence[str], text: str) -> None:
        """Bad arguments: the reason, how to get help, status 2, and nothing is written."""
        done = support.run_here("label-table", *arguments, input=b"code\n")
        self.assertEqual((done.returncode, done.stdout), (2, b""), arguments)
        (message,) = support.messages(done)
        found = message.removesuffix("; try label-table --help").removesuffix(
            ": try label-table --help"
        )
        self.assertEqual(found, f"label-table: error: {text}", arguments)


class WorkbookTest(TableTest):
    """Steps that the tests share."""

    def found(self, data: bytes, *arguments: str) -> list[tuple[Label, str]]:
        """The labels and lines of a file of which no row is left out."""
        done = support.run_here("label-table", "--code", "EAN", *arguments, input=data)
        self.assertEqual((done.returncode, support.messages(done)), (0, []))
        return parts_of(done.stdout)[1]

    def refused(self, data: bytes, problem: str, *arguments: str, status: int = 1) -> None:
        """A file of which nothing is written."""
        done = support.run_here("label-table", "--code", "EAN", *arguments, input=data)
        self.assertEqual(support.messages(done), [f"label-table: standard input {problem}"])
        self.assertEqual((done.returncode, done.stdout), (status, b""))

    def check_codes(
        self, cells: dict[str, str], symbology: str, formats: Sequence[str | int] = ()
    ) -> None:
        """Cells of .xlsx, and of each the line, or `refused: ` and the message for its column."""
        data = xlsx(rows(["EAN"], *([text] for text in cells)), formats=formats)
        results = list(enumerate(cells.values(), 2))
        lines = [result for _, result in results if not result.startswith("refused: ")]
        problems = [
            f'row {row}: column 1 ("EAN") {text[9:]}'
            for row, text in results
            if text.startswith("refused: ")
        ]
        self.check(
            data, ["--code", "EAN", "--symbology", symbology], lines, problems, 1 if problems else 0
        )
