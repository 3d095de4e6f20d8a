"""What label-print does with a journal, and without labels: it shows what is in it, and writes what
a person says of labels in doubt.
"""

import csv
import os
import sys
from collections import Counter

from labeltools.commands.label_print import TOOL
from labeltools.common.messages import Problem, Remedy, sentence, ToolError, write_message
from labeltools.common.text import counted, Text
from labeltools.lines.escapes import unescaped
from labeltools.lines.file import Record
from labeltools.printing.job import IS_PRINTED, LEAVE_OUT, LIST, PrintOptions, refuse
from labeltools.printing.selection import Selection
from labeltools.sending.journal import clean, Entry, Journal
from labeltools.sending.server import SERVER

COLUMNS = ("code", "state", "time", "printer", "place")


def run(options: PrintOptions) -> int:
    """Returns 0 if a journal is shown, or a label in doubt is settled, else 1; raises `ToolError`
    and `OSError`.
    """
    path = options.journal
    refuse(not path, Text("the journal is not known"), Text("name its file"), ["journal"])
    needless = options.lines or options.is_stream or options.each
    refuse(needless, Text("nothing is printed"), LEAVE_OUT, options.given(["is_stream", "each"]))
    assert path is not None
    if not path.startswith(SERVER):
        os.stat(path)  # a new one has nothing in it
    journal = Journal(path, "")
    if options.state != LIST:
        return settle(journal, options, options.state == IS_PRINTED)
    rows = csv.writer(sys.stdout, lineterminator="\n")
    rows.writerows([COLUMNS, *journal.listed()])
    journal.base.close()
    return 0


def settle(journal: Journal, options: PrintOptions, is_printed: bool) -> int:
    """Writes what is said of labels in doubt; returns 1 if none was."""
    found = {
        code: entry
        for code, entry in journal.doubtful().items()
        if not options.queue or entry.printer == clean(options.queue)
        if options.only.has_label(record_of(code, entry))
    }
    require_clear(options.only, [*found.values()])
    count = sum(journal.settle(code, entry, is_printed) for code, entry in found.items())
    journal.base.close()
    told = counted("{} label is in doubt no more", "{} labels are in doubt no more", count)
    if count and not is_printed:
        told = sentence(told, Text("the same command as before prints what is missing"))
    write_message(TOOL, told)
    return 0 if count else 1


def record_of(code: str, entry: Entry) -> Record:
    """Returns the label of a journal, as far as it chooses labels."""
    symbology, _, data = code.partition(" ")
    number = entry.origin.number
    return Record(number=number, symbology=symbology, data=unescaped(data.encode()))


def require_clear(only: Selection, found: list[Entry]) -> None:
    """Raises `ToolError` if a row that is chosen is that of several labels, of several tables."""
    rows = Counter(entry.origin.number for entry in found)
    several = [number for number, count in rows.items() if count > 1 and only.rows]
    if several:
        what = Text("the journal has several labels of row {} in doubt", min(several))
        codes = (Remedy("only-code"),)
        raise ToolError.of(Problem(what, Text("choose them by their codes"), codes))
