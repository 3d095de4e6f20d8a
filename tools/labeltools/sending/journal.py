"""The journal of what was printed: a database into which each label is written before it goes out.

A code that is there goes out no more. So several runs print by one journal: each takes the next
label that none has. A label is sent, then taken by the system of the printer, and printed once the
printer has ended well with all that the run sent, or says that it has no more left. One that is
not printed when its run has ended is in doubt, until a person says whether it is on paper.

Each statement is a step that is done whole or not at all, and that only one of several runs does:
so no run has to wait for what another one does next.
"""

from collections.abc import Mapping, Sequence
from typing import NamedTuple

from labeltools.common.messages import Origin
from labeltools.lines.file import Record
from labeltools.sending.database import Database
from labeltools.sending.server import SERVER, Server

SENT, TAKEN, PRINTED = "sent", "taken", "printed"  # the states of a label
BEGIN = "INSERT INTO runs (printer) VALUES (?) RETURNING number"
# a label that none has, or that of a run whose labels are sent again
SEND = """
INSERT INTO labels (code, run, turn, place) VALUES (?, ?, ?, ?) ON CONFLICT (code) DO UPDATE
SET state = 'sent', run = excluded.run, turn = excluded.turn, place = excluded.place,
time = CURRENT_TIMESTAMP WHERE labels.run = ? RETURNING 1
"""
TAKE = "UPDATE labels SET state = ? WHERE code = ? AND run = ? AND state = 'sent' RETURNING 1"
PRINT = """
UPDATE labels SET state = 'printed' WHERE run = ? AND state = 'taken' AND turn <= ? RETURNING 1
"""
IS_SAME = "WHERE code = ? AND run = ? AND state = ? RETURNING 1"
SETTLE = f"UPDATE labels SET state = 'printed' {IS_SAME}"
FORGET = f"DELETE FROM labels {IS_SAME}"
ENTRIES = "SELECT code, state, run, printer, place FROM labels JOIN runs ON run = number WHERE "
NOT_PRINTED = "state <> 'printed' ORDER BY run, turn"
PRINTERS = "SELECT DISTINCT printer FROM labels JOIN runs ON run = number"
LISTED = """
SELECT code, state, time, printer, place FROM labels JOIN runs ON run = number
ORDER BY time, run, turn
"""


class Entry(NamedTuple):
    """What is known of a code."""

    state: str
    run: int
    printer: str
    place: str

    @property
    def origin(self) -> Origin:
        """What messages call it: the row of a table, or the line of a file."""
        unit, _, number = self.place.partition(" ")
        return Origin("", unit, int(number))


class Journal:
    """An open journal, into which a run writes the labels of a printer."""

    def __init__(self, path: str, printer: str, again: str | None = None) -> None:
        """Opens a journal, or makes it; what it has of the printer `again` is sent once more.
        Raises `ToolError` if it is none, and `OSError`.
        """
        self.base: Server | Database = Server(path) if path.startswith(SERVER) else Database(path)
        self.path = path
        self.printer = clean(printer)
        # the run of each label that is sent once more
        known = self.entries("printer = ?", clean(again)) if again else {}
        self.again = {code: entry.run for code, entry in known.items()}
        self.turn = 0  # how many labels the run has sent
        self.run = 0  # its number, from its first label on

    def claim(self, record: Record) -> bool:
        """Writes that the label of a line is sent, and returns whether it is for this run: False if
        the journal has its code, other than to be sent again. Raises `ToolError` if it cannot be
        written.
        """
        self.base.require_place()
        if not self.run:
            self.begin()
        found = self.entry(record)
        if found is not None and self.is_sending(found):
            return False
        code, place = record.code_line, str(record.origin.text)
        before = self.again.get(code, 0)
        is_ours = bool(self.base.do(SEND, code, self.run, self.turn + 1, place, before))
        self.turn += is_ours
        return is_ours

    def begin(self) -> None:
        """Gives the run a number that none had, and which is held for as long as it goes on."""
        ((number,),) = self.base.do(BEGIN, self.printer)
        self.base.hold(number)
        self.run = int(number)

    def write_taken(self, record: Record, is_printed: bool = False) -> None:
        """Writes that a label of this run is taken, or printed; raises `ToolError`. If the power
        fails before that is on the disk, the label is in doubt as one that was sent.
        """
        state = PRINTED if is_printed else TAKEN
        self.base.do(TAKE, state, record.code_line, self.run, is_synced=False)

    def write_printed(self, left: int = 0) -> None:
        """Writes that all labels that this run sent are on paper, but the last ones, which are
        `left` in the printer; raises `ToolError`.
        """
        if self.run:
            self.base.do(PRINT, self.run, self.turn - left)

    def give_up(self) -> None:
        """Ends the run: what is not printed of it is in doubt."""
        if self.run:
            self.base.release(self.run)
        self.run = self.turn = 0

    def settle(self, code: str, entry: Entry, is_printed: bool) -> bool:
        """Writes what a person says of a label in doubt, that it is printed, or is missing and so
        can be sent; returns whether it was in doubt.
        """
        statement = SETTLE if is_printed else FORGET
        return bool(self.base.do(statement, code, entry.run, entry.state))

    def entry(self, record: Record) -> Entry | None:
        """Returns what is known of the code of a line."""
        return self.entries("code = ?", record.code_line).get(record.code_line)

    def doubtful(self) -> Mapping[str, Entry]:
        """Returns what is not known to be printed, of runs that have ended, by its code. It is read
        again once they are known to have ended: they may have written it last of all.
        """
        runs = {entry.run for entry in self.entries(NOT_PRINTED).values()}
        ended = {run for run in runs if run != self.run and not self.base.is_held(run)}
        now = self.entries(NOT_PRINTED) if ended else {}
        return {code: entry for code, entry in now.items() if entry.run in ended}

    def entries(self, condition: str, *values: str) -> dict[str, Entry]:
        """Returns what is known of the codes of which a condition holds."""
        rows = self.base.do(ENTRIES + condition, *values)
        return {code: Entry(*rest) for code, *rest in rows}

    def is_sending(self, entry: Entry) -> bool:
        """Returns whether another run is sending the label of an entry now."""
        return entry.state == SENT and entry.run != self.run and self.base.is_held(entry.run)

    def printers(self) -> set[str]:
        """Returns the printers that it has labels of."""
        return {printer for (printer,) in self.base.do(PRINTERS)}

    def listed(self) -> Sequence[Sequence[str]]:
        """Returns the code, state, time, printer and place of each label, the oldest first."""
        return self.base.do(LISTED)


def clean(text: str) -> str:
    """Returns a text without what no database takes."""
    return text.encode("utf-8", "replace").decode()
