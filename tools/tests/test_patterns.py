"""Each pattern in the code takes time that grows with a text, and not with its square."""

import ast
import importlib
import re
import time
import unittest
from itertools import product
from typing import Any, Callable, Iterator, NamedTuple

import support

LONG = 4_000  # letters
SHORTER = 16  # times: so many fewer letters are tried beside them
MOST = 40  # times as long: with the square of a text it is some 256
NOTICED = 0.003  # seconds: of less nobody knows how it grows
MUCH = 0.1  # seconds
SIGNS = "a0 1.,-\\\"'[(<&#=:;\n\tXéก\u0301€%*/~_\r?!@|"
PAIRS = ("1 ", "a ", "0,", "0.", '"a', "\\x", "a=", "1-", " \n", "é ", "[$", "_a", "&a", "a;", "((")
PIECES = (*SIGNS, *PAIRS)
BEFORE = ("", "a", "1", '"', "0.", "[", "<")
END = "\0"  # which no pattern wants
BOUNDED = {"number_format.py": 255}  # the most letters that come to the patterns of a file
METHODS = ("search", "match", "fullmatch", "findall", "finditer", "sub", "split")


class Use(NamedTuple):
    """A pattern, how it is used, and where."""

    pattern: re.Pattern[Any]
    method: str
    where: str


def uses() -> Iterator[Use]:
    """The patterns in the code, each as it is used."""
    root = support.OURS / "labeltools"
    for path in sorted(root.rglob("*.py")):
        source = path.read_text()
        if "import re\n" not in source or "window" in path.parts:
            continue
        name = ".".join(path.relative_to(support.OURS).with_suffix("").parts)
        module = importlib.import_module(name)
        for call in ast.walk(ast.parse(source)):
            if isinstance(call, ast.Call) and isinstance(call.func, ast.Attribute):
                yield from uses_in(call, module, f"{path.name}:{call.lineno}")


def uses_in(call: ast.Call, module: Any, where: str) -> Iterator[Use]:
    """The pattern that a call uses, if it uses one."""
    function = call.func
    assert isinstance(function, ast.Attribute)
    if function.attr not in METHODS or not isinstance(function.value, ast.Name):
        return
    owner = getattr(module, function.value.id, None)
    if isinstance(owner, re.Pattern):
        yield Use(owner, function.attr, where)
    elif owner is re and isinstance(call.args[0], ast.Constant):
        flags = [word.value for word in call.keywords if word.arg == "flags"]
        named = [*flags, *(arg for arg in call.args if is_flag(arg))]
        flag = sum(int(getattr(re, flag.attr)) for flag in named if isinstance(flag, ast.Attribute))
        yield Use(re.compile(call.args[0].value, flag), function.attr, where)


def is_flag(node: ast.expr) -> bool:
    """Whether an argument is a flag of a pattern."""
    return isinstance(node, ast.Attribute) and node.attr in ("IGNORECASE", "DOTALL", "S", "I")


def seconds(use: Use, text: str) -> float:
    """How long a pattern takes for a text."""
    data: Any = text.encode() if isinstance(use.pattern.pattern, bytes) else text
    work: Callable[..., Any] = getattr(use.pattern, use.method)
    begin = time.process_time()
    found = work(data[:0], data) if use.method == "sub" else work(data)
    if use.method == "finditer":
        for _ in found:
            pass
    return time.process_time() - begin


def grows(use: Use, before: str, piece: str) -> bool:
    """Whether a pattern takes more than the length of a text says; or much for the longest text, if
    that is not long.
    """
    most = BOUNDED.get(use.where.partition(":")[0], LONG)
    texts = [before + piece * (size // len(piece)) + END for size in (most // SHORTER, most)]
    if most < LONG or seconds(use, texts[1]) < NOTICED:
        return seconds(use, texts[1]) > MUCH
    short, long = (min(seconds(use, text) for _ in range(3)) for text in texts)
    return long > max(NOTICED, MOST * short)


class Patterns(unittest.TestCase):
    """What is given to them may have any length."""

    @support.slow
    def test_each_pattern(self) -> None:
        found = {(use.pattern, use.method): use for use in uses()}
        self.assertGreater(len(found), 50)
        for use, (before, piece) in product(found.values(), product(BEFORE, PIECES)):
            said = f"{use.where}: {use.method} of {use.pattern.pattern!r}: {before!r}, {piece!r}"
            self.assertFalse(grows(use, before, piece), said)

    def test_one_that_grows_is_seen(self) -> None:
        wrong = Use(re.compile(r" (?= *\Z)"), "search", "")
        self.assertTrue(grows(wrong, "", " "))


if __name__ == "__main__":
    unittest.main()
