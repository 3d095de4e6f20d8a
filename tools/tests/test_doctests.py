"""The examples in the modules of the tools and of their completions: each is what a function returns."""

import doctest
import sys
import unittest
from importlib import import_module

import support

sys.path.insert(0, str(support.TOP / "completions"))


class Examples(unittest.TestCase):
    """Those of a module. It is loaded when they are tried: GTK looks for a screen when it is loaded,
    and would not look again in the tests of the window, which are run by copies of this process.
    """

    def __init__(self, module: str) -> None:
        super().__init__("test_each")
        self.module = module

    def id(self) -> str:
        return f"{__name__}.{self.module}"

    def test_each(self) -> None:
        failed, attempted = doctest.testmod(import_module(self.module))
        self.assertEqual(failed, 0)
        self.assertGreater(attempted, 0)


def load_tests(
    _loader: unittest.TestLoader, _tests: unittest.TestSuite, _pattern: object
) -> unittest.TestSuite:
    """Takes each module that has examples."""
    paths = [*(support.OURS / "labeltools").rglob("*.py"), support.TOP / "completions/make.py"]
    found = unittest.TestSuite()
    for path in sorted(path for path in paths if ">>> " in path.read_text(encoding="utf-8")):
        top = support.OURS if support.OURS in path.parents else path.parent
        found.addTest(Examples(".".join(path.relative_to(top).with_suffix("").parts)))
    return found


if __name__ == "__main__":
    unittest.main()
