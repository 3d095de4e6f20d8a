"""What examples/ and the entry of the window say, each by its own rule."""

import configparser
import re
import shlex
import subprocess
import unittest

import support

EXAMPLES = support.TOP / "examples"
LETTERS = "ABCDEFGHJKLMNPQRSTUVWXYZ"
SIGNS = "0123456789ABCDEFGHIJKLMNOPQRSTUVWXYZ-"
# The types that IANA and the OASIS standard name for the files that label-table reads.
TABLES = [
    "application/vnd.openxmlformats-officedocument.spreadsheetml.sheet",
    "application/vnd.oasis.opendocument.spreadsheet",
    "text/csv",
]


def check_letter(place: str) -> str:
    """The letter of the sum of the signs, each times its place from 1 on, modulo 23, a prime."""
    total = sum(number * (SIGNS.index(sign) + 1) for number, sign in enumerate(place, 1))
    return LETTERS[total % 23]


def entry_of(path: str) -> configparser.ConfigParser:
    """A file of sections and names."""
    found = configparser.ConfigParser(interpolation=None, strict=False)
    setattr(found, "optionxform", str)
    found.read(support.TOP / path, encoding="utf-8")
    return found


class Examples(unittest.TestCase):
    def test_places(self) -> None:
        """Each has its check letter, and no exchange of two neighbours has the same one."""
        done = subprocess.run([EXAMPLES / "places.sh"], capture_output=True, check=True, text=True)
        head, *rows = done.stdout.split()
        self.assertEqual((head, len(rows)), ("Place,Check", 144))
        for place, letter in (row.split(",") for row in rows):
            self.assertEqual(letter, check_letter(place), place)
            for left in range(len(place) - 1):
                other = place[:left] + place[left + 1] + place[left] + place[left + 2 :]
                self.assertTrue(other == place or check_letter(other) != letter, (place, other))

    def test_service(self) -> None:
        """Its options are taken: with no line to print, the run ends well."""
        words = shlex.split(entry_of("examples/labels-till-3.service")["Service"]["ExecStart"])
        self.assertEqual(words[0], "/usr/bin/label-print")
        fifo = re.search(
            r"(\S+)$", entry_of("examples/labels-till-3.service")["Service"]["ExecStartPre"]
        )
        self.assertEqual(fifo and fifo[1], words[-1])
        done = support.run("label-print", *words[1:-1], "/dev/null")
        self.assertNotEqual(done.returncode, 2, done.stderr)

    def test_entry_of_the_window(self) -> None:
        entry = entry_of("tools/data/org.labels.Window.desktop")["Desktop Entry"]
        self.assertEqual(entry["MimeType"].rstrip(";").split(";"), TABLES)
        self.assertEqual(entry["Exec"], "label-window %f")


if __name__ == "__main__":
    unittest.main()
