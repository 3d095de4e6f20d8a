"""Whatever the module draws, in each form and with each option, `read` and a scanner read as its data."""

import unittest

from support import LIB, PYTHON, WithLibrary

CALLS, CALLS_OF_WRONG_MODULES = 10_000, 300
COMPARE = LIB / "tests/compare_readers.py"
# Wrong texts of the module: a file, a text, and what takes its place.
WRONG = (
    ("_pictures.py", "M{left + x}", "M{left + x + y % 2}"),
    ("_pictures.py", "255 - byte", "byte"),
    ("_pictures.py", "line == above", "line is not above"),
    ("_reading.py", "out.raw[: answer.length]", "out.value"),
    ("__init__.py", "            self.data,\n", "            self.data[:-1],\n"),
    ("__init__.py", "base64.b64encode", "base64.urlsafe_b64encode"),
    ("__init__.py", "dots.height, bits.raw", "dots.height, bits.raw[::-1]"),
    ("__init__.py", "return ctypes.string_at(out, answer.length)", 'return ctypes.string_at(out) + b"1"'),
)


class RandomPictures(WithLibrary):
    def test_each_is_read_as_its_data(self) -> None:
        self.run_ok(PYTHON, COMPARE, "1", str(CALLS))

    def test_wrong_modules_are_seen(self) -> None:
        for file, right, wrong in WRONG:
            with self.subTest(wrong):
                module = self.library.changed((f"python/liblabels/{file}", right, wrong)) / "python"
                self.assert_fails(*self.with_module(module), COMPARE, "1", str(CALLS_OF_WRONG_MODULES))


if __name__ == "__main__":
    unittest.main()
