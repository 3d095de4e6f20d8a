"""Bent tables, workbooks, designs, lines and printers' answers: a small run of bend.py, the same in
each run of the gate.
"""

import unittest

import bend
import support


class Bent(unittest.TestCase):
    """What nobody has written so on purpose."""

    @support.slow
    def test_some_cases(self) -> None:
        done = support.run(support.TESTS / "bend.py", "--cases", "400", "--seed", "7")
        self.assertEqual(done.returncode, 0, done.stdout.decode())
        self.assertIn(b": 0 wrong; 3 wrong ones shown\n", done.stdout)

    def test_wrong_cases_are_seen(self) -> None:
        self.assertTrue(bend.shown_wrong())


if __name__ == "__main__":
    unittest.main()
