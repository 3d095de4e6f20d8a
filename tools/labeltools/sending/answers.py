"""What printers in the network answer when they are asked how they are: those of ZPL (`~HS`) and
of ESC/POS (`DLE EOT`).

Many do not answer, and some answer something else: of these nothing is known.
"""

import re
from collections.abc import Callable, Mapping, Sequence
from dataclasses import dataclass

from labeltools.common.messages import Problem
from labeltools.common.text import counted, Text
from labeltools.drawing.forms import ESCPOS, ZPL


NO_PAPER = Problem(Text("it has no paper"), Text("put some in: it goes on by itself"))
NO_RIBBON = Problem(Text("it has no ribbon"), Text("put one in"))
OPEN_HEAD = Problem(Text("its head is open"), Text("close it"))
OPEN_COVER = Problem(Text("a cover is open"), Text("close it"))
PAUSED = Problem(Text("it is paused"), Text("press its pause button"))
TOO_HOT = Problem(Text("its head is too hot"), Text("let it cool: it goes on by itself"))
TOO_COLD = Problem(Text("its head is too cold"), Text("let it warm up: it goes on by itself"))
FAULT = Problem(Text("it reports an error"), Text("look at its display"))


@dataclass(frozen=True)
class Reply:
    """What a printer says: what keeps it from printing, how many labels it still has (None: it does
    not say), and its dots a millimetre (0: it does not say).
    """

    troubles: Sequence[Problem] = ()
    left: int | None = None
    dots: int = 0

    @property
    def is_empty(self) -> bool:
        """Whether it says that nothing is left in it, and that nothing is wrong."""
        return self.left == 0 and not self.troubles

    @property
    def problems(self) -> Sequence[Problem]:
        """The labels that are left in it, and what keeps it from printing."""
        if not self.left:
            return self.troubles
        left = counted(
            "{} label is left in the printer", "{} labels are left in the printer", self.left
        )
        return [Problem(left), *self.troubles]


@dataclass(frozen=True)
class Query:
    """A question, and what reads the answer to it: None if it is none, or not whole."""

    data: bytes
    read: Callable[[bytes], Reply | None]


# ZPL II: `~HS` answers three lines between STX and ETX, of numbers with commas between them
STATUS = re.compile(rb"\x02([0-9,]+)\x03\s*\x02([0-9,]+)\x03\s*\x02([0-9,]+)\x03")
LEAST_FIELDS = 12, 11, 2
MOST_DIGITS = 9  # of a count
# the fields that are 1 where something is wrong, by their line and place
FLAGS: Mapping[tuple[int, int], Problem] = {
    (0, 1): NO_PAPER,
    (1, 2): OPEN_HEAD,
    (1, 3): NO_RIBBON,
    (0, 2): PAUSED,
    (0, 10): TOO_COLD,
    (0, 11): TOO_HOT,
}
LEFT = (0, 4), (1, 8)  # labels that wait, and those of the count of the label that is printed
# `~HI` answers its model, its version, and its dots a millimetre
HOST = re.compile(rb"\x02[^,\x03]*,[^,\x03]*,([0-9]{1,2}),[^\x03]*\x03")
# ESC/POS: `DLE EOT n` answers a byte whose bits of FIXED are those of SET
DLE_EOT = b"\x10\x04"
ASKED = b"\x02\x04"  # why it does not print, and its paper
FIXED, SET = 0x93, 0x12
CAUSES: Sequence[Mapping[int, Problem]] = (
    {0x04: OPEN_COVER, 0x20: NO_PAPER, 0x40: FAULT},
    {0x60: NO_PAPER},
)


def read_status(heard: bytes) -> Reply | None:
    """Reads what ~HS answers.

    >>> lines = (b"030,1,0,0320,002,0,0,0,000,0,0,0", b"001,0,0,0,0,2,4,0,00000003,1,000", b"0,0")
    >>> answer = read_status(b"".join(b"\\x02%b\\x03\\r\\n" % line for line in lines))
    >>> [str(trouble.what) for trouble in answer.troubles], answer.left
    (['it has no paper'], 5)
    """
    found = STATUS.search(heard)
    lines = [line.split(b",") for line in found.groups()] if found else []
    if not found or any(len(line) < least for line, least in zip(lines, LEAST_FIELDS)):
        return None
    if max(len(lines[line][field]) for line, field in LEFT) > MOST_DIGITS:
        return None
    troubles = [told for (line, field), told in FLAGS.items() if lines[line][field] == b"1"]
    return Reply(troubles, sum(int(lines[line][field] or 0) for line, field in LEFT))


def read_host(heard: bytes) -> Reply | None:
    """Reads what ~HI answers.

    >>> read_host(b"\\x02GK420d-200dpi,V61.17.16Z,8,2104KB\\x03\\r\\n").dots
    8
    """
    found = HOST.search(heard)
    return Reply(dots=int(found[1])) if found else None


def read_causes(heard: bytes) -> Reply | None:
    """Reads what DLE EOT answers.

    >>> read_causes(b"\\x16\\x12").troubles[0].what, read_causes(b"OK")
    ('a cover is open', None)
    """
    if len(heard) != len(ASKED) or any(byte & FIXED != SET for byte in heard):
        return None
    found = [
        told for byte, bits in zip(heard, CAUSES) for bit, told in bits.items() if byte & bit == bit
    ]
    return Reply([*dict.fromkeys(found)])


DOTS = Query(b"~HI", read_host)
QUERIES: Mapping[str, Query] = {
    ZPL.name: Query(b"~HS", read_status),
    ESCPOS.name: Query(b"".join(DLE_EOT + bytes([question]) for question in ASKED), read_causes),
}
