"""Every price of prices_right.txt is one, with its value, and no text of prices_wrong.txt is one.

A line without a value is right, but needs --price-as text: the grammar says so. `~`, `^` and `_` are
spaces of Unicode.
"""

import re
import unittest
from decimal import Decimal
from itertools import product
from unittest import mock

import support
from labeltools.tables import money

SPACES = str.maketrans({"~": "\u00a0", "^": "\u202f", "_": "\u2009"})


def lines_of(name: str) -> list[str]:
    lines = (support.TESTS / name).read_text(encoding="utf-8").split("\n")
    return [line for line in lines if line and not line.startswith("# ")]


def outcome(text: str) -> object:
    """The price of a text, or why it is none."""
    try:
        return money.read_price.__wrapped__(text)
    except money.NotMoney as error:
        return str(error.what)


class Prices(unittest.TestCase):
    def test_prices(self) -> None:
        count = 0
        for line in lines_of("prices_right.txt"):
            cell, bar, value = line.translate(SPACES).rpartition("|")
            if value and bar:
                with self.subTest(cell):
                    price = money.read_price(cell)
                    readings = [price.value, price.value / 1000] if price.is_open else [price.value]
                    self.assertIn(Decimal(value), readings)
                    self.assertEqual(price.text, cell.strip())
                    count += 1
            elif bar:
                with self.assertRaises(money.NotMoney, msg=cell):
                    money.read_price(cell)
        self.assertGreater(count, 500)

    @support.slow
    def test_common_prices_are_those_of_the_grammar(self) -> None:
        numbers = ("0", "7", "10", "999", "1234", "123456", "1234567", "007")
        groups = ("1.234", "1,234", "1'234", "12.345", "999,000", "1.23", "0.123", "1.234.567")
        ends = ("", " €", "€", "\u00a0€", " $", " CHF", "/kg", "-", "0")
        taken = 0
        for whole, point, decimals, end in product(
            numbers + groups, ".,':", ("00", "05", "99", "5", "125"), ends
        ):
            text = f"{whole}{point}{decimals}{end}"
            with self.subTest(text):
                price = outcome(text)
                taken += money.COMMON.fullmatch(text) is not None
                with mock.patch.object(money, "COMMON", re.compile("(?!)")):
                    self.assertEqual(price, outcome(text))
        self.assertGreater(taken, 200)

    def test_no_prices(self) -> None:
        lines = lines_of("prices_wrong.txt")
        self.assertGreater(len(lines), 300)
        for line in lines:
            cell = line.replace("\\n", "\n").replace("\\ufffd", "\ufffd")
            with self.subTest(cell), self.assertRaises(money.NotMoney):
                money.read_price(cell)


if __name__ == "__main__":
    unittest.main()
