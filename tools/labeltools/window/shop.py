"""What is behind the window of the shop: a table, the labels that come of it by choices, and what
was chosen the last time.
"""

import hashlib
import time
from collections.abc import Iterator, Sequence
from contextlib import suppress
from dataclasses import dataclass, field, replace
from functools import reduce
from pathlib import Path
from typing import Any

from labeltools.commands import label_print as print_command, label_table as table_command
from labeltools.common.apart import read_apart
from labeltools.common.arguments import words_of
from labeltools.common.budget import TABLE
from labeltools.common.messages import Cancelled, Origin, Problem, Remedy, Talk, ToolError
from labeltools.common.process import read_input
from labeltools.common.report import LeftOut
from labeltools.common.text import shell_line, Text
from labeltools.lines.file import first_remark, last_remark, read_lines, Record, record_lines
from labeltools.lines.symbologies import CODE128
from labeltools.printing.job import planned
from labeltools.printing.press import labels_of, Prepared
from labeltools.sending.job import job_of, SentJob
from labeltools.tables.codes import AUTO, FILL_ZEROS, kind_remedy, ZEROS_ARE_LOST
from labeltools.tables.column_samples import is_code
from labeltools.tables.columns import column_word
from labeltools.tables.first_labels import said_of_unused
from labeltools.tables.guess import guess_of
from labeltools.tables.old_encoding import old_encoding
from labeltools.tables.summary import labels_from, NO_BREAK, summary_line
from labeltools.tables.table import Lines, lines_of_table
from labeltools.tables.table_options import TableOptions
from labeltools.window import memory
from labeltools.window.choices import (
    Choices,
    COLUMNS,
    is_of_table,
    Kept,
    kept_of,
    print_words,
    table_words,
    values_kept,
)
from labeltools.window.further import Further, typed_with
from labeltools.window.harmless import keeps_good_rows, price_by
from labeltools.window.memory import FILES, TABLES
from labeltools.window.owners import KEPT_OF_TABLE, OF_TABLE, READ_BY, SUGGESTED

WAITING = ".waiting"  # what a file of lines ends with whose job is not over
PATTERNS = ("0,00 €", "€0.00", "£0.00", "$0.00", "CHF 0.00", "0,00 kr", "0,00 zł")  # of prices


@dataclass
class WindowTalk(Talk):
    """The talk of work beside the window: what it is told is kept. Work that is stopped ends the
    next time that it talks; a printer that takes labels one by one gets no more of them.
    """

    doing: str = ""  # what is shown while it is not known how much there is to do
    is_sending: bool = False  # labels, whose end is always shown
    is_making: bool = False  # labels
    printer: str = ""  # that takes them one by one, until `stops` has one
    notes: list[LeftOut] = field(default_factory=list)
    done: int = 0  # of the work
    total: int = 0  # of it, where that is known
    stops: list[None] = field(default_factory=list)  # has one once somebody stopped it

    def stop(self) -> None:
        """Stops the work."""
        self.stops.append(None)

    def note(self, origin: Origin | None, cell: str, problem: Problem) -> None:
        """Keeps why a row is left out."""
        self.notes.append(LeftOut(origin, cell, problem))

    def say(self, problem: Problem) -> None:
        """Keeps something about the whole."""
        self.note(None, "", problem)

    def go_on(self, done: int, total: int) -> None:
        """Keeps how far the work is; raises `Cancelled` where it is stopped."""
        if self.stops and not self.printer:
            raise Cancelled(Text("stopped"))
        self.done = done
        self.total = total


@dataclass(frozen=True)
class MadeLabels:
    """What was made of a table: its lines, the labels that can be printed, what there is to say
    about them, how many rows are left out, the line that prints them in a shell, and the remedies
    in what is said that would do harm to rows that are right.
    """

    table: "Table"
    lines: Lines
    labels: Prepared
    notes: Sequence[LeftOut]
    left_out: int
    command: str
    harmful: frozenset[Remedy] = frozenset()

    @property
    def summary(self) -> Text:
        """What the keeper is told of those that can be printed; of their kinds and prices only if
        all can. What is left out is listed beside it.
        """
        count = len(self.labels.labels)
        if count == self.lines.count:
            return summary_line(replace(self.lines.totals, left_out=0), NO_BREAK)
        return labels_from(len(self.labels.prints), count)

    def records_of(self, sent: Prepared) -> tuple[Record, ...]:
        """Returns the lines of labels that were sent."""
        rows = {item.record.row for item in sent.prints}
        records = read_lines(self.lines.output, self.table.path.name).records
        return tuple(record for record in records if record.row in rows)

    @property
    def asked(self) -> Sequence[LeftOut]:
        """The notes about the signs of prices, of which only the keeper knows."""
        return [
            note
            for note in self.notes
            if any(remedy.option == "decimal" for remedy in note.problem.remedies)
        ]

    @property
    def told(self) -> Sequence[LeftOut]:
        """The notes about rows, and about the whole what is no question."""
        return [note for note in self.notes if note.origin or note not in self.asked]

    @property
    def helps(self) -> Sequence[Remedy]:
        """What helps with notes that are no question, but for what does harm."""
        found = (note.problem.remedies for note in self.notes if note not in self.asked)
        return [remedy for part in found for remedy in part if remedy not in self.harmful]


class Table:
    """A table that is open."""

    lines: Lines  # those that were made last, by the words of label-table
    said: Sequence[LeftOut]  # about them
    harmful: frozenset[Remedy]  # of the remedies that are said
    words: Sequence[str] = ()
    further: Further  # options by which it is read
    kept: Kept  # for tables with the same names
    chosen: Choices | None = None  # by what its labels were last made
    of_file: Sequence[LeftOut] = ()  # what is said of how it is read

    def __init__(
        self, path: Path, further: Further | None, header: int | None, talk: WindowTalk
    ) -> None:
        """Reads a table by further options of label-table, None for those that are kept; its names
        are in the row `header` (0: in none) where that is known. Raises `ToolError` and `OSError`.
        """
        _, self.data = read_input(str(path), TABLE)
        self.path = path
        is_first = further is None  # time that it is read
        before = further_of(FILES.get(path.name, {}) if is_first else {})
        try:
            self.guess_columns(further or before, header, talk)
        except ToolError:
            old = None
            if is_first:
                old = read_apart(old_encoding, self.data, path.name, TableOptions(), talk)
            if not any(before) and old is None:
                raise
            # it has another encoding now, or other sheets
            encoding = Remedy("encoding", old.name) if old else Remedy("encoding", is_less=True)
            self.guess_columns(Further(given=typed_with("", encoding)), header, talk)
            self.of_file = [LeftOut(None, "", old.problem)] if old else ()
        kept = further_of(self.kept)
        if is_first and any(kept) and kept != self.further:
            with suppress(ToolError):
                self.guess_columns(kept, header, talk)
                self.of_file = ()
        if (is_first or header is not None) and not self.kept:
            self.further = self.with_guessed()

    def guess_columns(self, further: Further, header: int | None, talk: WindowTalk) -> None:
        """Guesses the columns of the table as options read it, and finds what is kept for these."""
        columns = {"code": "1", "title": "1", "price": "1"}
        words = words_of({**columns, "header-row": "" if header is None else str(header)})
        options = table_command.table_options([*words, *further.words])
        guess = read_apart(guess_of, self.data, self.path.name, options, talk)
        # a doubt about one column is none
        only = {kind: places[0] for kind, places in guess.doubts.items() if len(places) == 1}
        doubts = {kind: places for kind, places in guess.doubts.items() if kind not in only}
        self.guess = replace(guess, columns={**guess.columns, **only}, doubts=doubts)
        self.further = further
        self.key = "\n".join(self.guess.names) if any(self.guess.names) else ""
        self.kept = TABLES.all().get(self.key, {}) if self.key else {}

    def with_guessed(self) -> Further:
        """Returns the options by which the table is read, with what is guessed and has no
        control.
        """
        nothing = table_command.table_parser().parse_args([])
        price = self.guess.columns.get("price")
        more = table_command.more_options(self.guess, nothing, price)
        found = [Remedy(name, value) for name, value in more.items() if name != "price-as"]
        code = self.guess.columns.get("code", -1)
        if self.guess.rules_of(code).digits == ZEROS_ARE_LOST:
            found.append(FILL_ZEROS)
        if "title" in self.guess.beside:
            second = column_word(self.guess.names, self.guess.beside["title"])
            found.append(Remedy("title", second))
        return self.further._replace(given=reduce(typed_with, found, self.further.given))

    def unprinted(self, choices: Choices) -> Iterator[LeftOut]:
        """Yields that there are columns of amounts, though no price is on the labels."""
        if not choices.price:
            chosen = {getattr(choices, name) for name in COLUMNS}
            places = [place for place in self.guess.amounts if str(place + 1) not in chosen]
            pairs = [f"{self.guess.names[place]} {self.guess.examples[place]}" for place in places]
            if pairs:
                yield LeftOut(None, "", said_of_unused(pairs, False))

    def numbers_as_text(self, choices: Choices) -> Iterator[LeftOut]:
        """Yields that all codes are numbers of articles, though they are drawn as any text: a digit
        that is wrong would not be seen.
        """
        if choices.symbology == CODE128.name and self.lines.count:
            records = read_lines(self.lines.output, self.path.name).records
            if all(is_code(record.data.decode()) for record in records):
                what = Text("all codes are EAN or UPC numbers, and are drawn as {}", CODE128.title)
                yield LeftOut(None, "", Problem(what, remedies=(kind_remedy(AUTO),)))

    @property
    def chosen_before(self) -> dict[str, Any]:
        """What was chosen for such a table, or for its print by the last table that went out."""
        last: Kept = next(reversed(TABLES.all().values()), {})
        return {**values_kept(last, SUGGESTED), **values_kept(self.kept, OF_TABLE)}

    def usual_kind(self, chosen: Choices) -> Kept:
        """Returns the kind of the codes in the column that is chosen, by the guess of it."""
        return {"symbology": self.guess.rules_of(int(chosen.code or 0) - 1).symbology}

    def usual_form(self, chosen: Choices) -> Kept:
        """Returns how the prices of the column are to be printed if that is guessed."""
        return {"price-as": self.guess.formats.get(int(chosen.price or 0) - 1, "")}

    def price_patterns(self, price: str) -> Iterator[tuple[str, str]]:
        """Yields how the prices of a column may be printed: the first one as it would be, and the
        pattern; the one that is guessed in front.
        """
        column, place = int(price) - 1, self.guess.beside.get("currency")
        currency = "" if place is None else self.guess.examples[place]
        for pattern in filter(None, (self.guess.formats.get(column), *PATTERNS)):
            if text := price_by(pattern, self.guess.examples[column], currency):
                yield text, pattern

    def made(self, choices: Choices, talk: WindowTalk) -> MadeLabels:
        """Returns what is made by choices; raises `ToolError` and `OSError`."""
        printed = print_words(choices)
        job = planned(print_command.print_options(printed))
        since = str(self.last_printed) if choices.new_only else None
        words = words_of({"new-since": since})
        words += [*table_words(choices), "--", str(self.path)]
        if words != self.words:  # other paper needs no other lines
            to_read = table_command.table_options(words)
            self.lines = read_apart(lines_of_table, self.data, self.path.name, to_read, talk)
            self.said = tuple(talk.notes)
            self.harmful = frozenset(self.harmful_remedies(to_read))
            self.words = words
        found = labels_of(job, self.path.name, self.lines.output, talk)
        rows = set(self.lines.left_out)
        more = [note for note in found.left_out if note.origin and note.origin.number not in rows]
        commands = ["label-table", *words], ["label-print", *printed]
        command = " | ".join(map(shell_line, commands)) + f" > labels.{job.form.name}"
        about = *self.of_file, *self.unprinted(choices), *self.numbers_as_text(choices), *self.said
        notes = sorted((*about, *more, *found.remarks), key=row_of_note)
        count = len(rows) + len(more)
        return MadeLabels(self, self.lines, found, notes, count, command, self.harmful)

    def harmful_remedies(self, options: TableOptions) -> Iterator[Remedy]:
        """Yields the remedies in what is said that would leave rows worse that are right, of a
        table that is read by options.
        """
        found = (remedy for note in self.said for remedy in note.problem.remedies if remedy.says)
        wanted = [remedy for remedy in dict.fromkeys(found) if is_of_table(remedy)]
        good = read_lines(self.lines.output, self.path.name).records if wanted else ()
        for remedy in wanted:
            if not keeps_good_rows(remedy, good, options):
                yield remedy

    @property
    def last_printed(self) -> Path:
        """The lines that went out the last time, of a table with the same names."""
        mark = hashlib.sha256(self.key.encode()).hexdigest()[:16]
        return memory.FOLDER / f"{mark}.lines"

    def last_printed_on(self) -> str:
        """Returns the day on which labels of such a table went out; empty where none did."""
        if self.key and self.last_printed.exists():
            return time.strftime("%x", time.localtime(self.last_printed.stat().st_mtime))
        return ""

    def keep_printed(self, new: Sequence[Record]) -> None:
        """Keeps the lines of labels that went out, for the next `--new-since`, and those that went
        out before, but for the same codes.
        """
        if not self.key:
            return
        codes = {(record.symbology, record.data) for record in new}
        before = self.printed_records()
        old = (record for record in before if (record.symbology, record.data) not in codes)
        with suppress(OSError):
            memory.write_own(self.last_printed, file_of([*old, *new]))

    def keep_waiting(self, records: Sequence[Record], count: int, job: SentJob) -> Path:
        """Keeps the lines of the labels of a job, and how many these are, until it is known whether
        they were printed, for a later window too; returns the file.
        """
        path = self.last_printed.with_suffix(f".{count}.{job.name_of_file}{WAITING}")
        with suppress(OSError):
            memory.write_own(path, file_of(records) if self.key else b"")
        return path

    def end_waiting(self, path: Path, is_printed: bool) -> None:
        """Counts the labels of a job that waited as printed, or forgets them."""
        with suppress(OSError, ToolError):
            data = path.read_bytes()
            if is_printed and data:
                self.keep_printed(read_lines(data, path.name).records)
        path.unlink(missing_ok=True)

    def waiting_jobs(self) -> dict[SentJob, tuple[Path, int]]:
        """Returns the jobs of which it is not known yet whether they were printed, each with the
        file of its lines, and how many labels it has.
        """
        found = {}
        for path in sorted(memory.FOLDER.glob(f"{self.last_printed.stem}.*{WAITING}")):
            with suppress(ValueError):  # of another version
                count, name = path.name.removesuffix(WAITING).split(".", 2)[1:]
                found[job_of(name)] = path, int(count)
        return found

    def printed_records(self) -> tuple[Record, ...]:
        """Returns the lines that went out before; none where they cannot be read."""
        with suppress(OSError, ToolError):
            return read_lines(self.last_printed.read_bytes(), self.last_printed.name).records
        return ()

    def keep_choices(self, choices: Choices) -> None:
        """Keeps choices by which labels went out; those of columns only where columns have names,
        since two tables without names have nothing in common. The words by which the file was read
        are kept for its name, too: without its sheet or encoding it would not open.
        """
        TABLES.keep(self.key, kept_of(choices, KEPT_OF_TABLE))
        typed = kept_of(choices, READ_BY)
        FILES.keep(self.path.name, typed if any(typed.values()) else None)


def further_of(kept: Kept) -> Further:
    """Returns the further options by which a table was read."""
    found = values_kept(kept, READ_BY)
    return Further(found.get("for_table", ""), found.get("given_table", ""))


def row_of_note(note: LeftOut) -> int:
    """Returns the number of the row that something is said of; 0 for the whole table."""
    return note.origin.number if note.origin else 0


def file_of(records: Sequence[Record]) -> bytes:
    """Returns a file of lines."""
    lines = (record_lines(record, record.line.decode(), True) for record in records)
    return "".join([first_remark(""), *lines, last_remark(len(records), ())]).encode()
