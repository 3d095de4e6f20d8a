"""Tests of what the tools share: messages, the table of symbologies, and the file between the two
commands.
"""

import io
import re
import sys
import unittest
from operator import attrgetter
from unittest import mock

import support
from labeltools.common.messages import Origin, ToolError, write_message
from labeltools.common.text import Text
from labeltools.lines.file import first_remark, last_remark, read_lines, Record, record_lines
from labeltools.lines.symbologies import SYMBOLOGIES

# the keys of settings of each symbology, as the filter's own source has them
KEY_OF = support.TOP / "crates/labelcore/src/settings.rt"
CODE = "4006381333931"


class Messages(unittest.TestCase):
    def written(self, message: str) -> str:
        stream = io.StringIO()
        with mock.patch.object(sys, "stderr", stream):
            write_message("label-table", Text("{}", message))
        return stream.getvalue()

    def test_a_message_is_one_line_that_changes_no_terminal(self) -> None:
        self.assertEqual(self.written("Käse: 1\u202f299 €"), "label-table: Käse: 1\u202f299 €\n")
        for sign in ("\x1b", "\x07", "\x9b", "\r", "\n", "\u202e", "\u2028", "\udce4"):
            shown = f"label-table: a<U+{ord(sign):04X}>b\n"
            self.assertEqual(self.written(f"a{sign}b"), shown)

    def test_what_a_message_says_and_what_to_do(self) -> None:
        error = ToolError(Text("there is no sheet"), Text("make one"), 2)
        self.assertEqual(
            (str(error), str(error.what)),
            ("there is no sheet: make one", "there is no sheet"),
        )
        self.assertEqual(str(ToolError(Text("there is no sheet"))), "there is no sheet")


class Symbologies(unittest.TestCase):
    def keys_of_the_filter(self) -> dict[str, tuple[str, ...]]:
        """The keys that each symbology takes in `key_of`, by the arms of its match."""
        body = KEY_OF.read_text("utf-8").split("fn key_of(", 1)[1].split("\n}\n", 1)[0]
        found = {}
        for arm in re.split(r"(?=\n        Symbology::)", body)[1:]:
            names, _, rest = arm.partition("=>")
            keys = tuple(re.findall('is_word\\(name, b"([a-z-]+)"\\)', rest))
            for name in re.findall("Symbology::([A-Za-z0-9]+)", names):
                found[name.lower()] = keys
        return found

    def test_the_keys_of_settings_are_those_of_the_filter(self) -> None:
        wanted = {name: symbology.settings for name, symbology in SYMBOLOGIES.items()}
        self.assertEqual(self.keys_of_the_filter(), wanted)

    def test_the_modules_are_those_that_labels_draws(self) -> None:
        examples = {"ean13": CODE, "ean8": "73513537", "upca": "036000291452"}
        for name, data in examples.items():
            picture, said, status = support.draw(
                f"{name} {data}\n", "--scale", "1", "--height", "1"
            )
            self.assertEqual((said, status), (b"", 0))
            row = "".join(picture.decode().split("\n")[2:])
            symbology = SYMBOLOGIES[name]
            left, right = symbology.quiet
            self.assertEqual(row[: left + 1], "0" * left + "1")
            self.assertEqual(row[-right - 1 :], "1" + "0" * right)
            for first, end in symbology.guards:
                self.assertIn("1", row[first:end])
            places = [place.last - place.first for place in symbology.places]
            self.assertEqual(sum(places), symbology.digits)


class LinesFile(unittest.TestCase):
    LABELS = (
        Record(2, "Pencil\n2B", ("red",), "0,80 €", "8 €/kg", "1,00 €", 3),
        Record(4),
    )

    def file(self) -> bytes:
        lines = [first_remark("articles.xlsx")]
        lines.append(record_lines(self.LABELS[0], f"ean13 {CODE[:-1]}", True))
        lines.append(record_lines(self.LABELS[1], "qr,level=Q a\\nb", False))
        lines.append(last_remark(2, [3, 5]))
        return "".join(lines).encode()

    def test_what_is_written_is_read(self) -> None:
        found = read_lines(self.file(), "x")
        label = attrgetter("row", "printed_beside", "copies", "names")
        self.assertEqual([*map(label, found.records)], [*map(label, self.LABELS)])
        places = [record.origin for record in found.records]
        self.assertEqual(places, [Origin("articles.xlsx", "row", row) for row in (2, 4)])
        data = [(record.number, record.symbology, record.data) for record in found.records]
        self.assertEqual(data, [(3, "ean13", CODE.encode()), (5, "qr", b"a\\nb")])
        self.assertEqual([str(place.text) for place in found.left_out], ["row 3", "row 5"])
        self.assertEqual(found.left_out_count, 2)
        self.assertEqual(read_lines(self.file(), "x", has_escapes=True).records[1].data, b"a\nb")

    def test_lines_of_no_table(self) -> None:
        found = read_lines(b"# a remark\nqr a\r\n\nean8 7351353\n", "x")
        self.assertEqual([record.data for record in found.records], [b"a\r", b"73513537"])
        places = [str(record.origin.text) for record in found.records]
        self.assertEqual(places, ["line 2", "line 4"])

    def refused(self, data: bytes) -> str:
        with self.assertRaises(ToolError) as caught:
            read_lines(data, "x")
        return str(caught.exception)

    def test_a_file_that_is_cut_anywhere_is_refused(self) -> None:
        data = self.file()
        for end in range(2, len(data)):
            self.assertRegex(self.refused(data[:end]), "^x(: line [0-9]+: | is not whole)")

    def test_a_file_that_windows_has_changed(self) -> None:
        problem = "x: line 1 ends in CR LF: a program of Windows has changed the file; "
        problem += "take the file as label-table wrote it"
        self.assertEqual(self.refused(self.file().replace(b"\n", b"\r\n")), problem)
        changed = self.file().replace(b"a\\nb\n", b"a\\nb\r\n")
        self.assertEqual(self.refused(changed), problem.replace("line 1", "line 5"))

    def test_objects_that_are_not_understood(self) -> None:
        for key, value in (
            ("colour", '"red"'),
            ("was", '"1\\n2"'),
            ("unit", "3"),
            ("copies", "10000"),
            ("copies", "true"),
            ("row", "-1"),
            ("row", '"2"'),
            ("row", "true"),
            ("title", "1"),
            ("title", '"a\\u0007"'),
            ("title", '"a\\u0000b"'),
            ("title", '"a\\u2028b"'),
            ("title", '"\\ud800"'),
            ("text", '"no list"'),
            ("text", "[1]"),
        ):
            text = self.file().replace(b'"row":4', f'"row":4,"{key}":{value}'.encode())
            self.assertRegex(self.refused(text), "^x: line 4: not understood: ")


if __name__ == "__main__":
    unittest.main()
