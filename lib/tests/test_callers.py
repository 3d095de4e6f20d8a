"""Odd callers in Python: data of any bytes-like type, subclasses that misstate, pools of processes, fork."""

import unittest

from support import PYTHON, WithLibrary

BYTES = """
import liblabels
class Longer(bytes):
    def __len__(self):
        return 200
class Other(str):
    def encode(self):
        return b"other"
wanted = liblabels.symbol("qr", b"abc")
for data in ("abc", bytearray(b"abc"), memoryview(b"abc"), memoryview(b"a-b-c")[::2], Longer(b"abc"), Other("abc")):
    assert liblabels.symbol("qr", data) == wanted, data
    assert liblabels.bitmap("qr", data).bits == wanted.packed(quiet_zones=True), data
    assert liblabels.draw("qr", data) == liblabels.draw("qr", b"abc"), data
assert liblabels.line(r"qr \\x41", escapes=2**32) == liblabels.symbol("qr", "A")
for wrong in (3, ["a"], {"a": 1}):
    try:
        liblabels.symbol("qr", wrong)
    except TypeError:
        continue
    raise AssertionError(wrong)
"""
# What a table has that pandas has read without dtype=str: of numpy and of Python, and as text.
FROM_PANDAS = """
import liblabels, numpy, pickle
for wrong, said in (
    (4006381333931, "not int: pandas reads a table without losing digits with dtype=str"),
    (numpy.int64(36000291452), "not int64: pandas reads a table without losing digits with dtype=str"),
    (4006381333931.0, "not float: pandas reads a table without losing digits with dtype=str"),
    (numpy.float64(73513537), "not float64: pandas reads a table without losing digits with dtype=str"),
    (True, "not bool: pandas reads a table without losing digits with dtype=str"),
    (["73513537"], "not list"),
):
    try:
        liblabels.symbol("ean13", wrong)
    except TypeError as why:
        assert str(why) == f"data has to be str or bytes, {said}", why
    else:
        raise AssertionError(wrong)
def notes_of(call, *given):
    try:
        call(*given)
    except liblabels.Refused as why:
        assert str(why).startswith("not a digit at byte "), why
        assert getattr(pickle.loads(pickle.dumps(why)), "__notes__", []) == getattr(why, "__notes__", [])
        return getattr(why, "__notes__", [])
    raise AssertionError(given)
CURE = ["this looks like a number of pandas: read the table with dtype=str"]
for call, *given in (
    (liblabels.symbol, "ean13", "4006381333931.0"),
    (liblabels.bitmap, "ean8", "nan"),
    (liblabels.line, "upca 36000291452.0"),
    (liblabels.draw_line, "ean13,height=3 nan"),
):
    assert notes_of(call, *given) == CURE, given
for data in ("40063813339x", "4006381333931.50", "banan"):
    assert notes_of(liblabels.symbol, "ean13", data) == [], data
"""
# What an empty cell is in pandas, in its nullable columns, in numpy and in openpyxl.
EMPTY_CELLS = """
import liblabels, numpy
class NAType:
    pass
for empty in (float("nan"), numpy.float64("nan"), None, NAType()):
    for call in (liblabels.symbol, liblabels.bitmap, liblabels.draw):
        for symbology in liblabels.SYMBOLOGIES:
            try:
                call(symbology, empty)
            except liblabels.Refused as why:
                assert (why.code, str(why)) == (4, "no data"), why
            else:
                raise AssertionError(empty)
    assert liblabels.line(empty) is None
"""
# Numbers in groups, as on the back of a book (ISO 2108) and below bars; other hyphens and spaces are refused.
GROUPS = """
import liblabels
for symbology, data, digits in (
    ("ean13", "978-0-306-40615-7", "9780306406157"),
    ("ean13", "979-10-90636-07-1", "9791090636071"),
    ("ean13", "978 0 306 40615 7", "9780306406157"),
    ("ean13", "4 006381 333931", "4006381333931"),
    ("ean8", "7351 3537", "73513537"),
    ("upca", "0 36000 29145 2", "036000291452"),
):
    assert liblabels.symbol(symbology, data).data == digits.encode(), data
    assert liblabels.bitmap(symbology, data.encode()) == liblabels.bitmap(symbology, digits), data
    assert liblabels.draw(symbology, bytearray(data.encode())) == liblabels.draw(symbology, digits), data
for symbology, data, said in (
    ("ean13", "978-0-306-40615-8", "check digit is 8, should be 7"),
    ("ean13", "978-0-306-4061x-7", "not a digit at byte 4"),
    ("ean13", "4006381-333931", "not a digit at byte 8"),
    ("ean13", "400638133393 1", "not a digit at byte 13"),
    ("ean13", "978--0-306-40615-7", "not a digit at byte 4"),
    ("ean8", "7351353 7", "not a digit at byte 8"),
    ("ean8", "978-0-306-40615-7", "wrong number of digits: 13"),
):
    try:
        liblabels.symbol(symbology, data)
    except liblabels.Refused as why:
        assert str(why) == said, why
    else:
        raise AssertionError(data)
for symbology in ("code128", "qr"):
    assert liblabels.symbol(symbology, "978-0-306-40615-7").data == b"978-0-306-40615-7"
try:
    liblabels.line("ean13 978-0-306-40615-7")
except liblabels.Refused as why:
    assert str(why) == "not a digit at byte 4", why
else:
    raise AssertionError
"""
# What a symbol and a reading say as text.
TEXTS = """
import liblabels
for symbology, data, text in (
    ("ean13", "400638133393", "4006381333931"),
    ("code128", b"LOT-1/x", "LOT-1/x"),
    ("qr", "gr\u00fcn".encode(), "gr\u00fcn"),
):
    assert liblabels.symbol(symbology, data).text == text
    assert liblabels.read(liblabels.draw(symbology, data)).text == text
symbol = liblabels.symbol("qr", b"\\xff")
for wrong in (symbol, liblabels.read(symbol.png())):
    try:
        wrong.text
    except UnicodeDecodeError:
        continue
    raise AssertionError(wrong)
"""
PICKLED = """
import liblabels, pickle
try:
    liblabels.draw("ean13", "40063813339x")
except liblabels.Refused as refused:
    again = pickle.loads(pickle.dumps(refused))
    assert type(again) is liblabels.Refused
    assert (again.code, again.at, str(again)) == (5, 12, "not a digit at byte 12"), again
"""
# A wrong line is each hundredth: its check digit is not that of the digits before it.
POOL = """
import liblabels, multiprocessing
def digits(number):
    return liblabels.symbol("ean13", "%012d" % number).data
def line(number):
    full = digits(number)
    check = (full[12] - 48 + (number % 100 == 0)) % 10
    return b"ean13 %s%d" % (full[:12], check)
symbols, refusals = [], []
with multiprocessing.Pool(4) as pool:
    for asked in [pool.apply_async(liblabels.line, (line(number),)) for number in range(1000)]:
        try:
            symbols.append(asked.get(60))
        except liblabels.Refused as refused:
            refusals.append((refused.code, refused.at, str(refused)[:14]))
assert (len(symbols), refusals) == (990, [(7, 0, "check digit is")] * 10), (len(symbols), refusals)
assert [symbol.data for symbol in symbols] == [digits(number) for number in range(1000) if number % 100]
"""
FORKED = """
import liblabels, os, threading
wanted = liblabels.draw("qr", "fork", scale=8)
stop = threading.Event()
def draw():
    while not stop.is_set():
        assert liblabels.draw("qr", "fork", scale=8) == wanted
threads = [threading.Thread(target=draw) for _ in range(2)]
for thread in threads:
    thread.start()
statuses = []
for _ in range(20):
    child = os.fork()
    if not child:
        os._exit(0 if liblabels.draw("qr", "fork", scale=8) == wanted else 1)
    statuses.append(os.waitstatus_to_exitcode(os.waitpid(child, 0)[1]))
stop.set()
for thread in threads:
    thread.join()
assert statuses == [0] * 20, statuses
"""
# A usual QR code is drawn once, at each scale.
ROOMS = """
import liblabels
from liblabels._binding import first_room, options_of
for scale in range(1, 9):
    picture = liblabels.draw("qr", "https://example.com/article/000123", scale=scale)
    assert len(picture) <= first_room(options_of("pbm", scale, 50, "M", 1, None, False)), scale
"""


class Callers(WithLibrary):
    def test_data(self) -> None:
        """Data of any bytes-like type, and no subclass that says how long it is or what it is encoded as."""
        self.run_ok(PYTHON, "-c", BYTES)
        for right, wrong in (("bytes(memoryview(data))", "data"), ("str.encode(data)", "data.encode()")):
            module = self.library.changed(("python/liblabels/_binding.py", right, wrong)) / "python"
            self.assert_fails(*self.with_module(module), "-c", BYTES)

    def test_numbers_of_pandas(self) -> None:
        """A message names what keeps the digits: of a number, and of the text of one and of an empty cell."""
        self.run_ok(PYTHON, "-c", FROM_PANDAS)

    def test_empty_cells(self) -> None:
        """One `except` is enough for the rows of a table: an empty cell has no data."""
        self.run_ok(PYTHON, "-c", EMPTY_CELLS)

    def test_digits_in_groups(self) -> None:
        self.run_ok(PYTHON, "-c", GROUPS)
        for right, wrong in (
            ("symbology in _OF_DIGITS and not", "not"),
            ("(?:[- ]?\\d){10}", "[- \\d]+"),
        ):
            module = self.library.changed(("python/liblabels/_binding.py", right, wrong)) / "python"
            self.assert_fails(*self.with_module(module), "-c", GROUPS)

    def test_texts(self) -> None:
        self.run_ok(PYTHON, "-c", TEXTS)

    def test_first_room(self) -> None:
        self.run_ok(PYTHON, "-c", ROOMS)
        module = (
            self.library.changed(("python/liblabels/_binding.py", "2048 * scale * scale", "2048 * scale")) / "python"
        )
        self.assert_fails(*self.with_module(module), "-c", ROOMS)

    def test_a_refusal_is_pickled(self) -> None:
        self.run_ok(PYTHON, "-c", PICKLED)
        module = self.wrong_module("super().__init__(code, text, at)", "super().__init__(text)")
        self.assert_fails(*self.with_module(module), "-c", PICKLED)

    def test_pool(self) -> None:
        """A pool of four processes gives each symbol, and a refusal for each wrong line."""
        self.run_ok(PYTHON, "-c", POOL)

    def test_fork(self) -> None:
        """A process that is forked while other threads draw can draw."""
        self.run_ok(PYTHON, "-c", FORKED)


if __name__ == "__main__":
    unittest.main()
