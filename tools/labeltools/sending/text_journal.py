"""Reads a journal of text, as versions before 1.3 wrote it: a line for each step of a label.

    #labels journal 1
    2026-11-27T09:30:00Z<TAB>sending<TAB>lane 1<TAB>tcp://till-3<TAB>row 5<TAB>qr T00005
    2026-11-27T09:30:00Z<TAB>taken<TAB>lane 1<TAB>tcp://till-3<TAB>row 5<TAB>qr T00005

A last line without its end was being written when the power failed: its label was not sent, or is
in doubt by the line before.
"""

import os
import re

from labeltools.common.messages import ToolError
from labeltools.common.text import Text

HEAD = b"#labels journal 1\n"
UPCA = b"upca "
STATES = {b"sending": "sent", b"taken": "printed"}
LINE = re.compile(
    rb"(\d{4}-\d\d-\d\d)T([\d:]+)Z\t(sending|taken)\tlane [1-9][0-9]{0,8}\t([^\t]*)\t([^\t]*)\t"
    rb"([a-z0-9]+ (?:[ -\[\]-~]|\\\\|\\x[0-9A-F]{2})*)"
)


def read_text_journal(path: str, file: int) -> dict[str, tuple[str, str, str, str]]:
    """Returns the last that is known of each code: its state, the printer, its place, and when that
    was; raises `ToolError` if a line is not one of a journal.
    """
    found = {}
    *lines, _ = os.pread(file, os.fstat(file).st_size, 0).split(b"\n")
    for number, line in enumerate(lines, 1):
        if line.startswith(b"#") or not line:
            continue
        read = LINE.fullmatch(line)
        if read is None:
            what = Text("{}: line {} is not a line of a journal", path, number)
            hint = Text("correct it; delete it only if its label was not printed")
            raise ToolError(what, hint)
        day, time, event, printer, place, code = read.groups()
        if code.startswith(UPCA):
            code = b"ean13 0" + code.removeprefix(UPCA)
        named, where = (text.decode("utf-8", "replace") for text in (printer, place))
        when = f"{day.decode()} {time.decode()}"
        found[code.decode()] = STATES[event], named, where, when
    return found
