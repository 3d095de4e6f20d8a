"""Draws lines as labels(1) does, by the proved library liblabels in this process."""

from typing import Any, Callable, Iterable, Iterator, NamedTuple

from labeltools.common.messages import Talk
from labeltools.lines.library import labels_library
from labeltools.lines.reasons import Refused, refused_line

LABELS_FAILED = 3  # the status of a tool that is not in order
ASKED = 256  # lines between two calls of `go_on`


class Modules(NamedTuple):
    """The modules of a code with its quiet zones.

    `width` and `height` are in modules; `packed` are its rows, each of whole bytes from the left,
    in which 1 is dark. Rows that are all the same are there once: bars have one, whatever their
    height.
    """

    width: int
    height: int
    packed: bytes

    @property
    def row_size(self) -> int:
        """The bytes of a row."""
        return bytes_a_row(self.width)

    def rows(self) -> list[bytes]:
        """Returns the rows."""
        size = self.row_size
        return [self.packed[start : start + size] for start in range(0, len(self.packed), size)]


def bytes_a_row(width: int) -> int:
    """Returns the bytes of a row of `width` dots or modules."""
    return (width + 7) // 8


class Engine:
    """Draws one line after another, as labels(1) does, with --escapes or without."""

    def __init__(self, is_escaped: bool) -> None:
        """Raises `ToolError` where the library is not there."""
        self.is_escaped = is_escaped
        self.module = labels_library()
        self.line: Callable[..., Any] = self.module.line

    def symbol(self, line: bytes) -> Any:
        """Returns the symbol of a line that has data, as the library gives it, or why the line is
        `Refused`.
        """
        try:
            return self.line(line, height=1, escapes=self.is_escaped)
        except self.module.Refused as refused:
            return refused_line(refused.code, str(refused))

    def modules_of_line(self, line: bytes) -> Modules | Refused:
        """Returns the modules of a line that has data, or why it is refused."""
        symbol = self.symbol(line)
        if isinstance(symbol, Refused):
            return symbol
        left, right, top, bottom = symbol.quiet_zones
        high = symbol.height if symbol.rows == 1 else top + symbol.rows + bottom
        return Modules(left + symbol.width + right, high, symbol.packed(quiet_zones=True))


def drawn(lines: Iterable[bytes], is_escaped: bool, talk: Talk) -> Iterator[Modules | Refused]:
    """Yields the modules of each line, all of which have data, or why it is refused; `is_escaped`
    is --escapes of labels(1).

    Raises `ToolError` where the library is not there, and what `talk.go_on` raises.
    """
    engine = Engine(is_escaped)
    for done, line in enumerate(lines):
        if done % ASKED == 0:
            talk.go_on(0, 0)
        yield engine.modules_of_line(line)
