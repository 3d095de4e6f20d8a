"""Every message of the tools: errors, who is told while work goes on, and the one function that
writes a message.
"""

import sys
import unicodedata
from contextlib import suppress
from copy import copy
from dataclasses import dataclass, replace
from functools import reduce
from pathlib import Path
from typing import Iterable, NamedTuple, Self

from labeltools.common.text import joined, NOTHING, shell_line, Text, translated, UNSEEN

BAD_ARGUMENTS = 2
UNEXPECTED = 4  # the status of a tool that ends by an exception which nobody expected
FAULT = Text("this is a fault of label-print: nothing of it was sent; report it")
OURS = Path(__file__).parents[1]
MOST_LETTERS = 40  # of a cell that a message quotes
OF_SYSTEM = {
    FileNotFoundError: Text("is its name right?"),
    PermissionError: Text("may you read and write there?"),
}
NAMES = {
    " ": Text("a space"),
    "\t": Text("a tab"),
    "\n": Text("a line end"),
    "\r": Text("a line end"),
}


@dataclass(frozen=True)
class Remedy:
    """A choice that helps: a command writes its option, a window has a button for it.

    `value` is empty for an option without one; `says` is what the choice does, nothing where only
    the user knows the value; `is_less` is whether it helps to leave the option out.

    >>> print(Remedy("sheet", "Old ones"), Remedy("hidden"), Remedy("edge", "-2"))
    --sheet 'Old ones' --hidden --edge=-2
    """

    option: str
    value: str = ""
    says: Text = NOTHING
    is_less: bool = False

    @property
    def words(self) -> tuple[str, ...]:
        """The words of a command; a value like `-2` would be another option, but for a sign."""
        if self.value.startswith("-"):
            return (f"--{self.option}={self.value}",)
        return (f"--{self.option}", self.value) if self.value else (f"--{self.option}",)

    @property
    def shown(self) -> Text:
        """What a command says of it."""
        option = Text("leave out {}", Remedy(self.option)) if self.is_less else self
        return Text("{} ({})", self.says, option) if self.says else Text("{}", option)

    def __str__(self) -> str:
        return shell_line(self.words)


Remedies = tuple[Remedy, ...]  # each of which helps


@dataclass(frozen=True)
class Problem:
    """What is wrong, what to do, and choices of which each helps.

    Neither text names an option: a command writes those of the remedies behind them, and a window
    has a button for each that has words.

    >>> hidden = Remedy("hidden", says=Text("print hidden rows too"))
    >>> Problem(Text("2 rows are hidden"), remedies=(hidden,)).line
    '2 rows are hidden: print hidden rows too (--hidden)'
    >>> Problem(Text("too many"), Text("print some"), (Remedy("only"), Remedy("after"))).line
    'too many: print some (--only, --after)'
    """

    what: Text
    hint: Text = NOTHING
    remedies: Remedies = ()

    @property
    def line(self) -> Text:
        """What a command says: options whose values only the user knows are behind the hint, or
        else behind the reason, and then the remedies that say what they do.
        """
        texts = [text for text in (self.what, self.hint) if text]
        if known := joined(", ", (way.shown for way in self.remedies if not way.says)):
            texts[-1] = Text("{} ({})", texts[-1], known)
        if said := [way.shown for way in self.remedies if way.says]:
            texts.append(either(said))
        return reduce(sentence, texts)


class Failure(Exception):
    """Why something is not done."""

    def __init__(self, problem: Problem) -> None:
        super().__init__(problem)
        self.problem = problem
        self.what, self.hint, self.remedies = problem.what, problem.hint, problem.remedies

    def __str__(self) -> str:
        return str(self.problem.line)

    def saying(self, what: Text) -> Self:
        """Returns the same failure with another reason."""
        found = copy(self)
        found.problem = replace(self.problem, what=what)
        found.what = what
        return found


def either(texts: Iterable[Text]) -> Text:
    """Returns texts of which one is right, as one."""
    return reduce(lambda text, other: Text("{} or {}", text, other), texts)


def sentence(what: Text, hint: Text) -> Text:
    """Returns a reason and what to do as one text.

    >>> sentence(Text("there is no sheet"), Text("make one"))
    'there is no sheet: make one'
    >>> sentence(Text("7: it is no EAN"), Text("look at it"))
    '7: it is no EAN; look at it'
    >>> sentence(Text("is it a code?"), Text("else leave it out"))
    'is it a code? else leave it out'
    """
    if not hint:
        return what
    shown = str(what)
    if shown.endswith("?"):
        return joined(" ", (what, hint))
    return joined("; " if ": " in shown else ": ", (what, hint))


class ToolError(Failure):
    """Why a tool cannot go on; a command ends with `status`."""

    def __init__(
        self, what: Text, hint: Text = NOTHING, status: int = 1, remedies: Remedies = ()
    ) -> None:
        super().__init__(Problem(what, hint, remedies))
        self.status = status

    @classmethod
    def of(cls, problem: Problem, status: int = 1) -> Self:
        """Returns the error of a problem."""
        return cls(problem.what, problem.hint, status, problem.remedies)


class BadArguments(ToolError):
    """Words that a tool does not understand."""

    def __init__(self, what: Text, hint: Text = NOTHING, remedies: Remedies = ()) -> None:
        super().__init__(what, hint, BAD_ARGUMENTS, remedies)


class Cancelled(ToolError):
    """The user has stopped the work; a `Talk` raises it in `go_on`."""


class RowError(Failure):
    """Why a row of a table, or a label, is left out; `column` is the place of the column, from 0,
    where the reason is one cell.
    """

    def __init__(
        self,
        what: Text,
        hint: Text = NOTHING,
        column: int | None = None,
        remedies: Remedies = (),
    ) -> None:
        super().__init__(Problem(what, hint, remedies))
        self.column = column


class Origin(NamedTuple):
    """What a message is about: a row of a table, or a line of a file, by its number from 1."""

    table: str  # the name of the table or file, where there may be several; else empty
    unit: str  # `row` or `line`
    number: int

    @property
    def text(self) -> Text:
        """What a message calls it."""
        return Text("row {}", self.number) if self.unit == "row" else Text("line {}", self.number)


class Talk:
    """Who is told while work goes on. A command writes what it is told on standard error, a window
    shows it, and this one keeps it to itself.
    """

    def note(self, origin: Origin, cell: str, problem: Problem) -> None:
        """A row or line is left out: the text of its cell, and why."""

    def say(self, problem: Problem) -> None:
        """Something about the whole that leaves nothing out, and what to do about it."""

    def go_on(self, done: int, total: int) -> None:
        """Called often in long work, of which `done` of `total` is done (0: not known); may raise
        `Cancelled`.
        """


def write_message(tool: str, message: Text) -> None:
    """Writes a message on standard error, on one line, if that takes it. Every message of a tool
    goes through here.
    """
    with suppress(OSError):
        print(f"{tool}: {visible(translated(message))}", file=sys.stderr, flush=True)


def of_system(error: OSError) -> ToolError:
    """Returns what the system says as an error of a tool."""
    what = Text("{}: {}", error.filename or Text("standard output"), error.strerror or error)
    return ToolError(what, OF_SYSTEM.get(type(error), NOTHING))


def fault_of(error: Exception) -> Text:
    """Returns what is said of an exception that nobody expected, and where it was raised.

    >>> fault_of(MemoryError()), fault_of(KeyError())
    ('there is not enough memory', 'this is a fault of the program: report it as KeyError')
    """
    if isinstance(error, MemoryError):
        return Text("there is not enough memory")
    from traceback import extract_tb  # which takes time, in each run without a fault, too

    places = extract_tb(error.__traceback__)
    own = [place for place in places if Path(place.filename).is_relative_to(OURS)] or places
    if not own:  # a library has raised it
        return Text("this is a fault of the program: report it as {}", type(error).__name__)
    where = (type(error).__name__, own[-1].lineno, Path(own[-1].filename).name)
    return Text("this is a fault of the program: report it as {} in line {} of {}", *where)


def visible(text: str) -> str:
    """Returns a text with a number for each character that could change what a terminal shows.

    >>> visible("a\\x1b[2Jb"), visible("Käse 1\\u202f299")
    ('a<U+001B>[2Jb', 'Käse 1\\u202f299')
    """
    if text.isprintable():
        return text
    return "".join(
        code_point(sign) if unicodedata.category(sign) in UNSEEN else sign for sign in text
    )


def quoted(text: str) -> str:
    """Returns a cell for a message: in quotes, short, and with a number for each character that
    cannot be seen.

    >>> quoted("a\\u00a0b")
    '"a<U+00A0>b"'
    """
    short = text if len(text) <= MOST_LETTERS else text[: MOST_LETTERS - 3] + "..."
    return '"' + "".join(sign if sign.isprintable() else code_point(sign) for sign in short) + '"'


def named_character(character: str) -> Text:
    """Returns a character for a message: as it is where it can be seen, with its number where it is
    not ASCII.

    >>> named_character("x"), named_character("\\t"), named_character("–")
    ('"x"', 'a tab', 'en dash (U+2013)')
    """
    if "!" <= character <= "~":
        return Text('"{}"', character)
    name = unicodedata.name(character, "control character").lower()
    return NAMES.get(character) or Text("{} (U+{:04X})", name, ord(character))


def code_point(character: str) -> str:
    """Returns the number of a character, as `<U+001B>`."""
    return f"<U+{ord(character):04X}>"
