"""QR codes with letters that some scanners show wrongly: each program says so once."""

import unittest

import support

TABLE = "Code,Name\nBüro 7,Desk\nRegal 8,Rack\nŁódź 9,Map\n".encode()
SAID = 'rows 2, 4: some scanners show "Büro" wrongly; a QR code without accents is safe'
WORDS = ("--header-row", "1", "--code", "1", "--title", "2", "--symbology", "qr")
ROLL = ("--paper", "60x40", "--dpi", "203", "--to", "zpl")


class Accents(unittest.TestCase):
    @classmethod
    def setUpClass(cls) -> None:
        support.labels_program()  # what is drawn needs the program and its library

    def test_a_table_is_told_of_once(self) -> None:
        done = support.run("label-table", *WORDS, input=TABLE)
        self.assertEqual(done.stderr.decode().count("scanners"), 1)
        self.assertIn(SAID, done.stderr.decode())
        printed = support.run("label-print", *ROLL, input=done.stdout)
        self.assertEqual((printed.returncode, printed.stderr), (0, b""))

    def test_lines_of_a_program_are_told_of(self) -> None:
        done = support.run("label-print", *ROLL, input="qr Büro 7\nqr Regal 8\n".encode())
        self.assertIn(SAID.replace("rows 2, 4", "line 1"), done.stderr.decode())

    def test_other_codes_are_not(self) -> None:
        rows = TABLE.replace("ü".encode(), b"u").replace("Łódź".encode(), b"Lodz")
        done = support.run("label-table", *WORDS, input=rows)
        self.assertNotIn("scanners", done.stderr.decode())


if __name__ == "__main__":
    unittest.main()
