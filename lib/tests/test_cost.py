"""What labels_read_bits() costs at most, in instructions for each dot: by the dots alone, whatever they show."""

import re
import tempfile
import unittest
from pathlib import Path

from support import LIB, PROVED, WithLibrary, run, text_of

FLAGS = ("-std=c11", "-O2", "-g", "-Wall", "-Wextra", "-Werror", f"-I{LIB}", f"-I{LIB}/tests")
PICTURES = "blank row column dot last corner dark rows columns squares noise below".split()
# Of the smallest QR version and of the largest, in each direction.
SYMBOLS = [f"{symbol}-{turns}" for symbol in ("ean8", "qr", "large") for turns in range(4)]
# A QR symbol with a finder pattern more, one whose fixed modules are right in all four directions, and symbols that
# are right but for the last dot.
WRONG = ("qr-finders", "qr-corners", "ean8-spot", "qr-spot", "large-spot")
# The number of divisors of a side is that of the scales that it has room for.
MANY_DIVISORS, PRIME = 360, 359
# No picture that we found costs more than `qr-corners` at scale 1: it is read up to its codewords in each direction.
MOST_FOR_A_DOT = 75
NOT_READ = 17


class Cost(WithLibrary):
    def setUp(self) -> None:
        self.program = Path(tempfile.mkdtemp(dir=self.library.folder)) / "read_cost"
        done = run("gcc", *FLAGS, LIB / "tests/read_cost.c", LIB / "labels.c", PROVED, "-o", self.program)
        self.assertEqual(done.returncode, 0, text_of(done))

    def counted(self, picture: str, side: int, *words: str) -> tuple[int, float]:
        """The code of the call, and the instructions for each dot of a picture: of its side, or at this scale."""
        tool = ("valgrind", "--tool=callgrind", "--toggle-collect=labels_read*", "--callgrind-out-file=/dev/null")
        done = run(*tool, self.program, picture, str(side), *words)
        collected = re.search(rb"Collected : (\d+)", done.stderr)
        self.assertTrue(done.returncode == 0 and collected, text_of(done))
        assert collected
        code, dots = map(int, done.stdout.split())
        return code, int(collected[1]) / dots

    def test_pictures_without_a_symbol(self) -> None:
        for picture in PICTURES:
            with self.subTest(picture):
                code, cost = self.counted(picture, MANY_DIVISORS)
                self.assertEqual(code, NOT_READ)
                self.assertLess(cost, MOST_FOR_A_DOT)

    def test_symbols_in_each_direction(self) -> None:
        for scale in (1, 2, 8):
            for picture in (*SYMBOLS, *WRONG):
                with self.subTest(picture, scale=scale):
                    code, cost = self.counted(picture, scale)
                    self.assertEqual(code, NOT_READ if picture in WRONG else 0)
                    self.assertLess(cost, MOST_FOR_A_DOT)

    def test_divisors_of_the_side_cost_nothing(self) -> None:
        for picture in ("blank", "row", "column"):
            with self.subTest(picture):
                _, many = self.counted(picture, MANY_DIVISORS)
                _, few = self.counted(picture, PRIME)
                self.assertLess(many, 1.1 * few)

    def test_each_scale_tried_is_seen(self) -> None:
        _, cost = self.counted("blank", MANY_DIVISORS, "each")
        self.assertGreater(cost, MOST_FOR_A_DOT)


if __name__ == "__main__":
    unittest.main()
