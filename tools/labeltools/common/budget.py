"""What the reading of one input may take: so much, and more for each of its bytes. A small file of
a stranger so keeps no computer busy, and a large one of a shop is read. The system keeps the limits
of time and memory (apart.py).
"""

from dataclasses import dataclass
from math import inf

from labeltools.common.messages import ToolError
from labeltools.common.text import NOTHING, Text

MEGABYTE = 1 << 20
MILLION = 1_000_000


@dataclass(frozen=True, eq=False)
class Share:
    """How much of something an input may take, in any case and for each of its bytes, and what
    messages call it, `unit` of it at a time: far more than files have that people make.
    """

    least: float
    name: Text
    each: float = 0.0
    unit: int = 1
    largest: float = inf

    def most(self, size: int) -> int:
        """Returns how much of it an input of so many bytes may take."""
        return int(min(self.least + self.each * size, self.largest))


MEGABYTES = Text("MB")
ANY_INPUT = Share(512 * MEGABYTE, MEGABYTES, unit=MEGABYTE)
CSV = Share(40 * MEGABYTE, Text("MB of text"), unit=MEGABYTE)
LINE = Share(MEGABYTE, Text("MB in a line"), unit=MEGABYTE)
LINE_OF_STREAM = Share(1 << 16, Text("KB"), unit=1 << 10)
DOTS = Share(75 * MILLION, NOTHING)  # A3 at 600 dpi has 70 million
SECONDS = Share(20, Text("seconds of the processor"), 40 / MILLION)
MEMORY = Share(512 * MEGABYTE, Text("MB of memory"), 24, MEGABYTE, 2048 * MEGABYTE)

# cells by which columns are guessed, of a large table a part
LOOKED_AT = Share(80_000, NOTHING, 0.01)
NAMES_LOOKED_AT = Share(200_000, NOTHING, 0.01)  # for names in many encodings

# each drawing of a page
PAGE_SECONDS = Share(5, SECONDS.name)
PAGE_MEMORY = Share(500 * MILLION, MEGABYTES, unit=MILLION)


@dataclass(frozen=True)
class Kind:
    """A kind of input: how many bytes it may have, what helps if a large one takes too much, or a
    small one, and how much time and memory the system gives to its reading.
    """

    bytes: Share
    large: Text
    small: Text
    seconds: Share = SECONDS
    memory: Share = MEMORY


SPLIT = Text("split it into several tables")
TABLE = Kind(ANY_INPUT, SPLIT, Text("is it a table?"))
# each line is a label, which takes as much however short it is
OF_LINES = Share(512 * MEGABYTE, MEMORY.name, 64, MEGABYTE, 2048 * MEGABYTE)
LINES = Kind(ANY_INPUT, SPLIT, Text("is it the right file?"), memory=OF_LINES)
SMALLER = Text("make its pictures smaller")
END_LINES = Text("end each line with a line feed")
SINGLE_LINE = Kind(ANY_INPUT, END_LINES, END_LINES)
BYTES_OF_PAGE = Share(8 * MILLION, MEGABYTES, unit=MILLION)
PAGE = Kind(BYTES_OF_PAGE, SMALLER, SMALLER, PAGE_SECONDS, PAGE_MEMORY)


class TooMuch(ToolError):
    """Why an input is not read: it takes too much of something."""


def too_much(name: str, size: int, kind: Kind, share: Share) -> TooMuch:
    """Returns why an input of a name and so many bytes is not read."""
    most = share.most(size) // share.unit
    what = Text("{} takes too much, more than {:,} {}", name, most, share.name)
    return TooMuch(what, kind.large if size > MILLION else kind.small)


def check_size(name: str, size: int, kind: Kind, share: Share | None = None) -> None:
    """Raises `TooMuch` for an input that has more bytes than its kind, or than a share."""
    share = share or kind.bytes
    if size > share.most(size):
        raise too_much(name, size, kind, share)
