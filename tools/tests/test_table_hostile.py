"""Files that are made to do harm: each ends with a message, within 500 MB and seconds of the processor
on a machine by itself; on a busy one each second does less.
"""

import io
import resource
import subprocess
import unittest
import zipfile

import support
from table_test import SMALL, TableTest
from workbooks import cell, ods, ods_cell, packed, rows, table, unpacked, xlsx

SECONDS = 90
MEMORY = 500 << 20
MANY = 8_000_000


class Hostile(TableTest):
    def ended(self, data: bytes, *arguments: str) -> str:
        """The last message of label-table with these limits; a traceback or a signal fails."""
        path = self.folder / "hostile"
        path.write_bytes(data)
        command = [str(support.TOOLS / "label-table"), "--code", "EAN", *arguments, str(path)]

        def limit() -> None:
            resource.setrlimit(resource.RLIMIT_AS, (MEMORY, MEMORY))
            resource.setrlimit(resource.RLIMIT_CPU, (SECONDS, SECONDS))

        env = support.environment()
        done = subprocess.run(command, capture_output=True, env=env, preexec_fn=limit)
        self.assertNotIn(b"Traceback", done.stderr)
        self.assertIn(done.returncode, (0, 1, 2), done.stderr[-300:])
        return support.messages(done)[-1] if done.stderr else ""

    @support.slow
    def test_one_cell_many_times(self) -> None:
        wide = ods_cell("x" * 100_000, more='table:number-columns-repeated="16383"')
        self.assertIn("more than 1 MB", self.ended(ods(table(["EAN", wide]))))
        row = (
            "<table:table-row"
            f' table:number-rows-repeated="1000000">{ods_cell(SMALL)}</table:table-row>'
        )
        self.assertIn("more than 1 MB", self.ended(ods(table(["EAN"], end=row))))
        line = "".join('<c t="s"><v>0</v></c>' for _ in range(10_000))
        data = xlsx(f'<row r="1">{line}</row>', strings=f"<si><t>{'x' * 1_000_000}</t></si>")
        self.assertIn("more than 1 MB", self.ended(data))

    @support.slow
    def test_one_text_in_many_rows(self) -> None:
        line = [SMALL, '<c t="s"><v>0</v></c>']
        data = xlsx(
            rows(["EAN", "Name"], *[line] * 20_000), strings=f"<si><t>{'x' * 100_000}</t></si>"
        )
        self.assertIn("more than 128 MB of texts", self.ended(data, "--title", "Name"))

    @support.slow
    def test_a_format_that_is_no_format(self) -> None:
        for number_format in ("[$" * 16_000, "[$" * 120, '"' * 16_000, "0" * 16_000, "\\" * 255):
            data = xlsx(
                rows(["EAN", "x"], *([SMALL, cell(7, style=1)] for _ in range(50))),
                formats=[number_format],
            )
            self.assertIn("which is not understood", self.ended(data, "--text", "x"))

    @support.slow
    def test_many_elements_that_are_none_of_ours(self) -> None:
        parts = unpacked(xlsx(rows(["EAN"], [SMALL])))
        sheet = "xl/worksheets/sheet1.xml"
        begin, end = parts[sheet].split("<sheetData>")
        stream = io.BytesIO(packed({name: text for name, text in parts.items() if name != sheet}))
        with zipfile.ZipFile(stream, "a", zipfile.ZIP_DEFLATED) as archive:
            archive.writestr(sheet, f"{begin}{'<a/>' * MANY}<sheetData>{end}")
        self.assertIn("takes too much", self.ended(stream.getvalue()))

    @support.slow
    def test_lines_of_csv(self) -> None:
        self.assertIn("more than 40 MB of text", self.ended(b"EAN;" + b"a," * 30_000_000))
        self.assertIn("more than 1 MB in a line", self.ended(b"EAN;" + b"a," * 15_000_000))
        self.assertIn(
            "more than 1 MB in a line", self.ended(b"EAN;" + b"\xf0\x9f\x98\x80" * 9_000_000)
        )
        text = f'EAN;Name\n{SMALL};"' + "abcdefghijklmno\n" * 1_100_000
        self.assertIn("a quote is not closed", self.ended(text.encode()))
        self.assertIn("no column", self.ended(b"\n" * 1_100_000 + b"x;y\n"))

    @support.slow
    def test_all_rows_are_wrong(self) -> None:
        text = "EAN;Name\n" + "x;y\n" * 150_000
        self.assertIn("skipped for the same reason as row 2", self.ended(text.encode()))


if __name__ == "__main__":
    unittest.main()
