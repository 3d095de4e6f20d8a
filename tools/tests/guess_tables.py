"""The tables of the folder tables with their truth, and what the guess makes of each: whether it is right."""

import functools
import hashlib
import tomllib
from collections.abc import Collection, Iterator, Mapping, Sequence
from contextlib import suppress
from dataclasses import dataclass, replace
from enum import StrEnum
from typing import Any

from folders import TESTS
from labeltools.common.messages import Talk, ToolError
from labeltools.sheets.file_options import FileOptions
from labeltools.tables.guess import guess, Guess, guess_of, table_columns
from labeltools.tables.old_encoding import old_encoding
from labeltools.tables.table_options import TableOptions

FOLDER = TESTS / "tables"
NEEDED = FOLDER / "needed.txt"
ROLES = ("code", "title", "price", "unit-price", "old-price", "copies")
# what belongs to these, by its names in the truth and in a guess
BESIDE = {"second-title": "title", "variants-of": "variants-of"}
ONE_MEANT = ("code", "price")  # of which a label has one: of several right ones the keeper chooses


class Verdict(StrEnum):
    """What a guess is worth to the keeper of a table, from best to worst."""

    RIGHT = "right"  # at once
    FAIR = "fair"  # a question that only the keeper can answer
    NEEDLESS = "needless"  # a question whose answer everybody knows
    INCOMPLETE = "incomplete"  # a column is neither proposed nor asked about
    BOLD = "bold"  # proposed, though only the keeper knows
    WRONG = "wrong"  # another column is proposed


ORDER = list(Verdict)


@dataclass(frozen=True)
class Truth:
    """The columns that are right for each role, by their names; what a question is fair about; what
    may be left out; the row of the names; and whether people who did not know the guess made the
    table.
    """

    names: Mapping[str, Sequence[str]]
    ask: Collection[str] = ()
    optional: Collection[str] = ()
    header: int = 1
    is_unseen: bool = False

    def is_asked(self, role: str) -> bool:
        """Whether only the keeper knows which column has a role."""
        return role in self.ask and role in ONE_MEANT and len(self.names.get(role, ())) > 1


@dataclass(frozen=True)
class Table:
    """A table: its name, its columns as the guess looks at them, and its truth."""

    name: str
    columns: Sequence[Sequence[str]]
    hidden: Collection[int]
    header: int
    truth: Truth

    @property
    def is_fitted(self) -> bool:
        """Whether weights are fitted on it: its name decides, for a table that is not unseen."""
        is_even = hashlib.sha256(self.name.encode()).digest()[0] % 2 == 0
        return is_even and not self.truth.is_unseen

    @property
    def is_judge(self) -> bool:
        """Whether the guess is judged by it: neither are weights fitted on it, nor is a part of the
        guess kept for it.
        """
        return not self.is_fitted and self.name not in needed().values()

    def name_of(self, place: int) -> str:
        """The name of a column, or its number."""
        return self.columns[place][0] or str(place + 1)

    def places(self, role: str) -> list[int]:
        """The places of the columns that are right for a role."""
        names = self.truth.names.get(role, ())
        return [place for place in range(len(self.columns)) if self.name_of(place) in names]

    def guess(self) -> Guess:
        """What is guessed of it."""
        return guess(self.columns, self.header, self.hidden)


@functools.cache
def needed() -> Mapping[str, str]:
    """For each part of the guess a table whose verdict it changes."""
    return dict(line.split("\t") for line in NEEDED.read_text(encoding="utf-8").splitlines())


@functools.cache
def tables() -> Sequence[Table]:
    """The tables of the folder."""
    truths = tomllib.loads((FOLDER / "truth.toml").read_text(encoding="utf-8"))
    return [table_of(name, truth) for name, truth in truths.items()]


def table_of(name: str, truth: Mapping[str, Any]) -> Table:
    """A table of the folder, as its file is read."""
    data = (FOLDER / name).read_bytes()
    options = options_for(data, name)
    found = guess_of(data, name, options, Talk())
    file = replace(options.file, header_row=found.header)
    columns, header, hidden = table_columns(data, name, replace(options, file=file), Talk())
    return Table(name, columns, hidden, header, truth_of(truth))


def truth_of(truth: Mapping[str, Any]) -> Truth:
    """A truth, as truth.toml has it."""
    names = {
        role: [truth[role]] if isinstance(truth[role], str) else truth[role]
        for role in (*ROLES, *BESIDE)
        if role in truth
    }
    beside = {key: truth[key] for key in ("ask", "optional", "header") if key in truth}
    return Truth(names, **beside, is_unseen=truth.get("unseen", False))


def options_for(data: bytes, name: str) -> TableOptions:
    """The options by which a table is read: its encoding, and the sheet that has codes."""
    options = TableOptions()
    old = old_encoding(data, name, options, Talk())
    if old:
        options = TableOptions(file=FileOptions(encoding=old.name))
    try:
        guess_of(data, name, options, Talk())
    except ToolError as error:
        for remedy in error.remedies:
            other = TableOptions(file=replace(options.file, sheet=remedy.value))
            with suppress(ToolError):
                found = guess_of(data, name, other, Talk())
                if any(reading.are_sure for reading in found.codes.values()):
                    return other
        raise
    return options


@functools.cache
def small_tables() -> Sequence[Table]:
    """The tables of names.txt."""
    text = (FOLDER / "names.txt").read_text(encoding="utf-8")
    _, *blocks = text.strip("\n").split("\n\n")
    return [*map(small_table, blocks)]


def small_table(block: str) -> Table:
    """A table of names.txt."""
    uses, *rows = (line.split("\t") for line in block.split("\n"))
    columns = [*zip(*rows, strict=True)]
    names: dict[str, list[str]] = {}
    for use, (name, *_) in zip(uses, columns):
        names.setdefault(use.strip("?"), []).append(name)
    asked = {use.strip("?") for use in uses if use.startswith("?")}
    return Table(";".join(rows[0]), columns, (), 1, Truth(names, asked))


def verdict_of(table: Table, found: Guess) -> tuple[Verdict, str]:
    """What a guess is worth, and why."""
    faults = [*faults_of(table, found)]
    worst = max(faults, key=lambda fault: ORDER.index(fault[0]), default=(Verdict.RIGHT, ""))
    return worst[0], "; ".join(why for _, why in faults)


def faults_of(table: Table, found: Guess) -> Iterator[tuple[Verdict, str]]:
    """What is not right about a guess."""
    yield from faults_beside(table, found)
    truth = table.truth
    if truth.header and found.header != truth.header:
        yield Verdict.WRONG, f"the names are in row {found.header}"
    for role in ROLES:
        wanted = truth.names.get(role, ())
        proposed = found.columns.get(role)
        offered = [table.name_of(place) for place in found.doubts.get(role, ())]
        if role == "code" and len(offered) == 1 and offered == wanted:
            continue  # one command is proposed
        if proposed is not None:
            name = table.name_of(proposed)
            if name not in wanted:
                yield Verdict.WRONG, f"{role} is {name}"
            elif truth.is_asked(role):
                yield Verdict.BOLD, f"{role} is {name}"
        elif offered:
            is_fair = role in truth.ask and (not wanted or not {*wanted}.isdisjoint(offered))
            is_there = not wanted or not {*wanted}.isdisjoint(offered)
            worth = (
                Verdict.FAIR if is_fair else Verdict.NEEDLESS if is_there else Verdict.INCOMPLETE
            )
            yield worth, f"{role} may be {', '.join(offered)}"
        elif wanted and role not in truth.optional:
            yield Verdict.INCOMPLETE, f"no {role}"


def faults_beside(table: Table, found: Guess) -> Iterator[tuple[Verdict, str]]:
    """What is not right about the second title, and the column of the variants."""
    for role, kind in BESIDE.items():
        wanted = table.places(role)
        place = found.beside.get(kind)
        if place is not None and place not in wanted:
            yield Verdict.WRONG, f"{role} is {table.name_of(place)}"
        elif wanted and place is None:
            yield Verdict.INCOMPLETE, f"no {role}"
