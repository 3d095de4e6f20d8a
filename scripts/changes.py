"""The small changes of believed definitions, and the worked values that are to refuse them.

A change puts another word in the place of one word of a definition of crates/*/specs: a number one off, another cell
of a table, `<` for `<=`, `+` for `-`, `and` for `or`, the other truth value, the row for the column. Propositions are
left out, since they are proved, but for the ranges of the options and what damage is little.
"""

import hashlib
import re
import tomllib
from dataclasses import dataclass
from typing import Container, Iterable, Iterator, Sequence

import reader
import sources
from reader import Declaration, File, Token

# The crates, and the files of worked values of those that have others than Examples, the quick ones first.
DATA = tomllib.loads(sources.read(f"{sources.TOP}/scripts/changes.toml"))
CRATES, FILES = DATA["crates"], DATA["files"]
# The crate that has the worked values, where it is another.
HOME = {"device": "labelcore"}
# These propositions are no promises: they say the ranges of the options, and what damage is little.
RANGES = {"Damage AreClose", "Damage AreNear", "Ranges IsInRange", "Ranges IsMask"}
# What takes the place of a word, of a sign between blanks, and of a sign in a range.
WORDS = DATA["words"] | {word: other for pair in DATA["pairs"] for word, other in (pair, pair[::-1])}
SIGNS, OF_RANGES = DATA["signs"], DATA["of_ranges"]
REPLACED = {**WORDS, **SIGNS, **OF_RANGES}
# These are in a definition only where it binds them, and else after a point.
VARIABLES = {*"x y i j row column rows columns first second width height".split()}
FIRST_CELLS = "0123456789A"


@dataclass(eq=False)
class Change:
    """One word of a definition in another's place; `start` is its place in the text, `by` the worked value that
    refuses it, and `is_same` whether it means the same."""

    definition: Declaration
    file: File
    start: int
    old: str
    new: str
    by: str = ""
    is_same: bool = False

    def __str__(self) -> str:
        line = self.file.text.count("\n", 0, self.start) + 1
        where = f"{self.file.title} {self.definition.name}: line {line}"
        return f"{where}: {self.old} replaced by {self.new}"

    def text(self) -> str:
        """Returns the text of the file with it."""
        return self.file.text[: self.start] + self.new + self.file.text[self.start + len(self.old) :]


@dataclass
class Crate:
    """The files of specs/ of a crate, and those of worked values that judge them, the quick ones first, each by its
    module."""

    specs: dict[str, File]
    examples: dict[str, File]

    def checksum(self, definitions: Iterable[Declaration], values: Iterable[str]) -> str:
        """Returns the checksum of definitions and of worked values by their names, without comments and layout."""
        worked = {value.name: value for file in self.examples.values() for value in file.declarations}
        found = [*definitions, *(worked[name] for name in values if name in worked)]
        words = [[token.text for token in declaration.tokens] for declaration in found]
        return hashlib.sha256(repr(words).encode()).hexdigest()[:8]

    def resting_on(self, name: str, file: File) -> list[str]:
        """Returns the names of what rests on a definition, of specs/ and of a file of worked values."""
        users: dict[str, list[str]] = {}
        for other in (*self.specs.values(), file):
            for declaration in other.declarations:
                for word in reader.names_in(declaration.tokens):
                    users.setdefault(word, []).append(declaration.name)
        return reader.reach([name], lambda user: users.get(user, ()))


# ---- crates


def read_crates(top: str) -> dict[str, Crate]:
    """Returns the crates by their names."""
    specs: dict[str, dict[str, File]] = {name: {} for name in CRATES}
    for file in reader.files_of(top, CRATES, "specs"):
        if not file.module.startswith("Private"):
            specs[file.crate][file.module] = file
    homes = {name: HOME.get(name, name) for name in CRATES}
    names = {home: FILES.get(home, ["Examples"]) for home in homes.values()}
    paths = [f"{top}/crates/{home}/proofs/{name}.antt" for home in names for name in names[home]]
    files = reader.files_at(top, paths)
    examples = {home: {file.module: file for file in files if file.crate == home} for home in names}
    return {name: Crate(specs[name], examples[homes[name]]) for name in CRATES}


def is_worked(declaration: Declaration) -> bool:
    """Returns whether it is a worked value."""
    words = [token.text for token in declaration.tokens]
    return bool({"refl", "omega"} & {*words})


def with_values(file: File, names: Container[str]) -> str:
    """Returns the text of a file of worked values with these and those that they cite; nothing where it has none."""
    worked = {value.name: value for value in file.declarations if is_worked(value)}

    def cited_by(name: str) -> list[str]:
        """The worked values that a worked value cites."""
        return [cited for cited in reader.names_in(worked[name].tokens) if cited in worked]

    kept = {*reader.reach([name for name in worked if name in names], cited_by)}
    text = file.text if kept else ""
    for name, value in reversed(worked.items()):
        if text and name not in kept:
            begin, end = file.extent(value.tokens)
            text = text[:begin] + text[end:]
    return text


# ---- changes


def is_range(definition: Declaration) -> bool:
    """Returns whether it is a proposition that is changed all the same."""
    return f"{definition.key.module} {definition.name}" in RANGES


def is_changed(definition: Declaration) -> bool:
    """Returns whether it is changed: no operator, no type, no proposition but of the ranges."""
    words = [token.text for token in definition.tokens]
    is_type = definition.kind == "data" or ("Type", "0") in zip(words, words[1:])
    return "◌" not in definition.name and (is_range(definition) or not is_type)


def words_of(tokens: Sequence[Token]) -> Iterator[tuple[int, str]]:
    """Yields the words of tokens, each with its place in the text; of a path its parts."""
    for token in tokens:
        start = token.start
        is_path = token.kind == "Antt" and token.text != "."
        for number, part in enumerate(token.text.split(".") if is_path else [token.text]):
            if number and part.isdigit():
                yield start - 1, f".{part}"
            elif part:
                yield start, part
            start += len(part) + 1


def uses_in(words: Sequence[tuple[int, str]]) -> Iterator[tuple[int, str]]:
    """Yields the words of a clause that can be changed, with their places: none that binds a name, and none of the
    type of types."""
    is_bound = False
    none = (0, "")
    for (_, before), (start, word), (_, after) in zip([none, *words], words, [*words[1:], none]):
        is_bound = word == "λ" or is_bound and word != "."
        is_name = word in WORDS and (is_bound or after in ("=", "←", ":"))
        is_value = word[0] == '"' or word[0].isdigit() or word in (".0", ".1")
        if is_value and before != "Type" or word in REPLACED and not is_name:
            yield start, word


# A text in the place of some letters of a word: the place of the first of these, how many they are, and the text.
Other = tuple[int, int, str]


def other_words(word: str) -> Iterator[Other]:
    """Yields what is tried in the place of a word."""
    if word[0] == '"':
        yield from other_texts(word[1:-1])
    elif word[0].isdigit():
        number, form = int(word, 0), "#x" if word.startswith("0x") else "d"
        yield from ((0, len(word), format(other, form)) for other in (number + 1, number - 1) if other >= 0)
    elif word[0] == ".":
        yield 1, 1, str(1 - int(word[1]))
    else:
        yield 0, len(word), REPLACED[word]


def other_texts(inner: str) -> Iterator[Other]:
    """Yields what is tried in a text: each cell of a table, each border of two widths, or else the first letter."""
    cells = (pair for pair in ("01", "AB") if len(inner) > 1 and re.fullmatch(rf"[{pair}]+( [{pair}]+)*", inner))
    if letters := next(cells, ""):
        places = ((place, letter) for place, letter in enumerate(inner) if letter != " ")
        yield from ((1 + place, 1, letters[letter == letters[0]]) for place, letter in places)
    elif re.fullmatch(r"[1-4]+( [1-4]+)* ?", inner):
        yield from other_widths(inner)
    elif inner.startswith(FIRST_CELLS):
        yield from ((1 + place, 1, "~") for place in range(len(inner)))
    elif inner:
        yield 1, 2 if inner.startswith("\\") else 1, "~"


def other_widths(inner: str) -> Iterator[Other]:
    """Yields the moved borders of widths side by side: one of the two wider, the other less."""
    for place, pair in enumerate(zip(inner, inner[1:])):
        if " " not in pair:
            left, right = map(int, pair)
            moved = (left + 1, right - 1) if right > 1 else (left - 1, right + 1)
            if 0 not in moved:
                yield 1 + place, 2, f"{moved[0]}{moved[1]}"


def changes_of(definition: Declaration, file: File) -> Iterator[Change]:
    """Yields the changes of a definition."""
    of_range = is_range(definition)
    names = {word for _, word in words_of(definition.tokens)}
    for clause in [definition.tokens] if of_range else definition.clauses():
        for start, word in uses_in([*words_of(clause)]):
            wants_sign = of_range and not word[0].isdigit()
            if (word in OF_RANGES) != wants_sign:
                continue
            is_field = file.text[start - 1] == "."
            for offset, length, new in other_words(word):
                can_be_there = new not in VARIABLES or new in names or is_field
                if word not in WORDS or can_be_there:
                    first = start + offset
                    yield Change(definition, file, first, file.text[first : first + length], new)


def all_changes(crates: dict[str, Crate]) -> list[Change]:
    """Returns the changes of all definitions."""
    files = [file for crate in crates.values() for file in crate.specs.values()]
    found = [(definition, file) for file in files for definition in file.declarations if is_changed(definition)]
    return [change for definition, file in found for change in changes_of(definition, file)]
