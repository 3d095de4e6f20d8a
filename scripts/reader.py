"""Reads the code, the definitions and the proofs of the crates: what each file imports, declares and cites.

The kit tells the words of a file apart, as its check reads them (`rattle fmt --tokens`). Each has a kind: Code and
Literal of the code; Head, Antt, Text and End of what the code says by the logic, and of specs/ and proofs/. In the
kit's layout, which `rt ci` demands, what stands side by side begins in one column.
"""

import functools
import gc
import itertools
import json
import os
import re
import subprocess
import sys
import tempfile
from dataclasses import dataclass, field
from typing import Callable, Hashable, Iterable, Iterator, NamedTuple, Sequence, TypeVar

import libraries
import sources


class Token(NamedTuple):
    """A word of a file; `start` is its place in the text, `column` that in its line."""

    kind: str
    text: str
    line: int
    column: int
    start: int


class Key(NamedTuple):
    """What a definition, a lemma or an item is named by; `part` is "specs", "proofs" or "src". Of a whole file the
    name is empty."""

    crate: str
    part: str
    module: str
    name: str


class Import(NamedTuple):
    """A name that a line brings in: as it is written there, and what it names, if it is one of ours. Of the code also
    whether it is one of the logic, and the tokens that can have it."""

    name: str
    place: str
    target: Key | None = None
    is_ghost: bool = False
    scope: Sequence[Token] = ()


OPENING = {"(", "[", "{"}
CLOSING = {")", "]", "}"}
MODIFIERS = {"abbrev", "unfoldable", "pub", "record", "data", "ruleset"}
KINDS = {"fn", "struct", "enum", "trait", "impl", "mod", "const", "ghost", "use", "type", "static"}
# The files that were read, by their paths below the repository and their texts. They stay to the end, and looking
# among their hundreds of thousands of words for what can be freed would take a third of the time.
FILES_READ: dict[tuple[str, str], "File"] = {}
gc.disable()
Node = TypeVar("Node", bound=Hashable)
RELATIONS = {"≡", "≢", "≤", "<", "↔"}


@dataclass(eq=False)
class Declaration:
    """What a file declares: a definition, a lemma or an item of the code, with the comment above it.

    `stated` are its tokens without the bodies of functions. Of the code, `attributes` are the tokens of its
    attributes, and `inner` what it has between braces. Of the logic, `statements` are a signature and its clauses."""

    kind: str
    key: Key
    place: str
    is_public: bool
    about: str
    tokens: list[Token]
    stated: list[Token]
    attributes: list[Token] = field(default_factory=list)
    inner: list["Declaration"] = field(default_factory=list)
    statements: list[list[Token]] = field(default_factory=list)

    @property
    def name(self) -> str:
        return self.key.name

    @property
    def lines(self) -> int:
        """How many lines it has, without blank lines, comments, attributes and bodies of functions."""
        first = {token.line: token.text for token in reversed(self.stated)}
        return sum(text != "#" for text in first.values())

    def clauses(self) -> Iterator[list[Token]]:
        """The tokens after the first sign = of each clause."""
        for statement in self.statements:
            texts = [token.text for token in statement]
            if texts[0] == self.name and "=" in texts and not is_signature(statement):
                yield statement[texts.index("=") + 1 :]

    @property
    def promised(self) -> list[Token]:
        """What those who cite it rely on: of a lemma its signature, of a definition all that it says."""
        words = {token.text for token in self.tokens}
        signature = next(filter(is_signature, self.statements), self.tokens)
        return self.tokens if self.kind != "definition" or "abbrev" in words else signature

    def worked_values(self) -> int:
        """How many statements without variables it makes, those of a module too, of a product each for one: they are
        computed."""
        words = [token.text for token in next(filter(is_signature, self.statements), list[Token]())]
        is_open = self.tokens[0].column > 0 or "→" in words
        return 0 if is_open else sum(word in RELATIONS for word in words)


class File:
    """A file: its text, tokens, imports, what it passes on to callers, and what it declares; of the logic also by each
    name that it gives."""

    def __init__(self, top: str, path: str, tokens: list[Token]) -> None:
        self.path = os.path.relpath(path, top)
        self.crate, self.part, *parts = self.path.removeprefix("crates/").split(os.sep)
        self.module = os.path.splitext(".".join(parts))[0]
        self.text, self.tokens = sources.read(path), tokens
        self.imports: list[Import] = []
        self.passed_on: list[Import] = []
        self.declarations: list[Declaration] = []
        self.of_name: dict[str, Declaration] = {}
        self.rest: list[Token] = []
        if self.part == "src":
            self.declarations = list(self.items(tokens))
            for item in self.declarations:
                passes_on = item.kind == "use" and item.is_public
                (self.passed_on if passes_on else self.imports).extend(self.imports_in(item))
        else:
            self.take(tokens)

    @property
    def title(self) -> str:
        return f"{self.crate}/{self.module}"

    def key(self, name: str = "") -> Key:
        return Key(self.crate, self.part, self.module, name)

    def place(self, token: Token) -> str:
        return f"{self.path}:{token.line}"

    def extent(self, tokens: Sequence[Token]) -> tuple[int, int]:
        """Where the text from the first to the last of tokens begins and ends."""
        return tokens[0].start, tokens[-1].start + len(tokens[-1].text)

    def text_of(self, tokens: Sequence[Token]) -> str:
        begin, end = self.extent(tokens)
        return self.text[begin:end]

    def about(self, token: Token, mark: str, skipped: str) -> str:
        """The comment above a token, as one line; between them are lines that begin with what is skipped."""
        found: list[str] = []
        for line in map(str.strip, reversed(self.text.split("\n")[: token.line - 1])):
            if line.startswith(mark):
                found.append(line.removeprefix(mark).strip())
            elif found or not line.startswith(skipped):
                break
        return " ".join(reversed(found))

    @functools.cached_property
    def targets(self) -> dict[str, list[Key]]:
        """What the names of the file itself, and those that it imports of the logic, stand for."""
        targets: dict[str, list[Key]] = {}
        for imported in self.imports:
            if imported.target:
                targets.setdefault(imported.name, []).append(imported.target)
        return targets | {name: [declaration.key] for name, declaration in self.of_name.items()}

    @functools.cached_property
    def operators(self) -> list[str]:
        """The names among them that are operators."""
        return [name for name in self.targets if "◌" in name]

    def cites(self, tokens: Sequence[Token]) -> Iterator[Key]:
        """What tokens name, in their order: definitions of the file itself, and what it imports of the logic."""
        for token in tokens:
            first, _, rest = token.text.partition(".")
            for target in self.targets.get(first, ()):
                if target.name or rest:
                    yield target if target.name else target._replace(name=rest.split(".")[0])
        names = names_in(tokens) if self.operators else set()
        for name in self.operators:
            if is_named_in(name, names):
                yield from self.targets[name]

    def said(self, tokens: Sequence[Token]) -> Iterator[str]:
        """What tokens say: their texts, and what those that are names of the logic stand for, in this file."""
        yield from (token.text for token in tokens)
        yield from (" ".join(key) for key in self.cites(tokens))

    @functools.cache
    def cited_by(self, declaration: Declaration) -> Sequence[Key]:
        """What a declaration of the file cites."""
        return [*self.cites(declaration.tokens)]

    # ---- the logic

    def take(self, tokens: list[Token]) -> None:
        """Cuts the tokens of a file or of a module into imports and declarations."""
        current: Declaration | None = None
        before: list[Token] = []
        for statement in statements(tokens):
            words = [token.text for token in statement]
            modifiers = list(itertools.takewhile(MODIFIERS.__contains__, words))
            name = words[len(modifiers)] if len(words) > len(modifiers) else ""
            if words[:2] == ["pub", "use"]:
                self.passed_on += brought_in(statement[2:], self.place(statement[0]))
            if words[0] == "use":
                self.imports += brought_in(statement[1:], self.place(statement[0]))
            elif name in ("module", "mutual"):
                inner = words.index("where") + 1 if name == "module" else len(modifiers) + 1
                self.rest += statement[:inner]
                self.take(statement[inner:])
            elif name in ("infix", "infixl", "infixr"):
                before = statement
            else:
                begins = modifiers or is_signature(statement)
                if begins and name not in ("use", "mod", "unfolding", current and current.name):
                    current = self.declare(name, modifiers, before, statement)
                    before = []
                elif current:
                    current.tokens += statement
                else:
                    self.rest += statement
                if current:
                    current.statements.append(statement[len(modifiers) :])

    def declare(self, name: str, modifiers: list[str], before: list[Token], statement: list[Token]) -> Declaration:
        kind = next((word for word in ("data", "record", "ruleset") if word in modifiers), "definition")
        place, about = self.place(statement[0]), self.about(statement[0], "--", "infix")
        tokens = [*before, *statement]
        declaration = Declaration(kind, self.key(name), place, "pub" in modifiers, about, tokens, tokens)
        self.declarations.append(declaration)
        self.of_name[name] = declaration
        if kind == "data":
            after = itertools.dropwhile(lambda token: token.text != "where", tokens)
            constructors = statements(list(after)[1:])
            self.of_name.update({constructor[0].text: declaration for constructor in constructors})
        return declaration

    # ---- the code

    def items(self, tokens: list[Token]) -> Iterator[Declaration]:
        """The items of code side by side: those of a file, or of what an item has between braces."""
        attributes: list[Token] = []
        for statement in statements(tokens):
            if statement[0].text == "#":
                attributes += statement
                continue
            words = [token.text for token in statement]
            pairs = zip(words, [*words[1:], ""])
            kinds = [
                word
                for word, after in pairs
                if word in KINDS and (word, after) not in (("const", "fn"), ("ghost", "use"))
            ]
            if kinds:
                yield self.item(kinds[0], statement, attributes)
            attributes = []

    def item(self, kind: str, tokens: list[Token], attributes: list[Token]) -> Declaration:
        braces = [place for place, token in enumerate(tokens) if (token.kind, token.text) == ("Code", "{")]
        body = braces[0] if braces else len(tokens)
        key = self.key(name_of_item(kind, [token.text for token in tokens[:body]]))
        is_public = tokens[0].text == "pub" and tokens[1].text != "("
        about = self.about(tokens[0], "///", "#[")
        item = Declaration(kind, key, self.place(tokens[0]), is_public, about, tokens, tokens, attributes)
        if kind == "fn":
            item.stated = tokens[:body]
        if kind in ("trait", "impl", "mod"):
            item.inner = list(self.items(tokens[body + 1 : -1]))
            bodies = {
                token for member in item.inner if member.kind == "fn" for token in member.tokens[len(member.stated) :]
            }
            item.stated = [token for token in tokens if token not in bodies]
        return item

    def imports_in(self, item: Declaration) -> Iterator[Import]:
        """The names that an item at the top brings in, or that lines in it bring in for it."""
        scope = self.tokens if item.kind == "use" else item.tokens
        for place, token in enumerate(item.tokens):
            if token.text == "use" and token.kind in ("Code", "Head"):
                line = itertools.takewhile(lambda other: other.text != ";", item.tokens[place + 1 :])
                for imported in brought_in(line, self.place(token)):
                    yield imported._replace(is_ghost=token.kind == "Head", scope=scope)


def statements(tokens: Sequence[Token]) -> list[list[Token]]:
    """What stands side by side: each begins in the column of the first token, outside of brackets."""
    found: list[list[Token]] = []
    depth = 0
    for token in tokens:
        if token.column == tokens[0].column and depth == 0 and token.text not in ("{", "where"):
            found.append([])
        depth += (token.text in OPENING) - (token.text in CLOSING)
        found[-1].append(token)
    return found


def is_signature(statement: Sequence[Token]) -> bool:
    """Whether it says the type of a name: it has a colon, and before it no sign =."""
    return next((token.text for token in statement if token.text in (":", "=")), "") == ":"


def brought_in(tokens: Iterable[Token], place: str) -> Iterator[Import]:
    """The names that an import brings in, each with what it names, if it is one of ours: a name of a file, or the file
    as a whole."""
    words = [token.text for token in tokens]
    for number, word in enumerate(words):
        is_end = words[number + 1 : number + 2] in ([], [","], ["}"])
        if is_end and word not in (",", "}", "self", "*"):
            name = words[number - 2] if words[number - 1] == "as" else word
            file, inside = (words[0], name) if words[1:2] == ["."] else (name, "")
            of_ours = re.fullmatch(r"Rattle\.(\w+)\.(specs|proofs)\.([\w.+-]+)", file)
            target = Key(of_ours[1], of_ours[2], of_ours[3], inside) if of_ours else None
            yield Import(word.split(".")[-1], place, target)


def name_of_item(kind: str, words: list[str]) -> str:
    """The name of an item, by its head: of an `impl` the type, or `Trait for Type`, without parameters."""
    after = words[words.index(kind) + 1 :]
    if kind != "impl":
        return after[0]
    depth = 0
    kept: list[str] = []
    for word in itertools.takewhile(lambda other: other != "where", after):
        depth += {"<": 1, ">": -1}.get(word, 0)
        if depth == 0 and word.isidentifier():
            kept.append(word)
    cut = kept.index("for") if "for" in kept else len(kept)
    return " for ".join(name[-1] for name in (kept[:cut], kept[cut + 1 :]) if name)


# ---- files


def tokens_of(paths: Sequence[str]) -> list[list[Token]]:
    """The tokens of each file."""
    if not paths:
        return []
    ran = subprocess.run([libraries.kit().RATTLE, "fmt", "--tokens", *paths], capture_output=True, text=True)
    parts = re.split(r"^file \d+\n", ran.stdout, flags=re.M)[1:]
    if len(parts) != len(paths):
        sys.exit(f"the kit cannot read these files:\n{ran.stderr}")
    return [list(tokens_in(rows, sources.read(path))) for rows, path in zip(parts, paths)]


def tokens_in(rows: str, text: str) -> Iterator[Token]:
    """The tokens of a text by the kit's rows: the line, the first and last byte, the kind and the text of each."""
    data, byte, place = text.encode(), 0, 0
    lines = [0, 0, *(match.end() for match in re.finditer("\n", text))]
    for row in rows.split("\n")[:-1]:
        line, start, _, kind, shown = row.split(" ", 4)
        place += len(data[byte : int(start)].decode())
        byte = int(start)
        if kind != "Literal" or not shown.startswith('"///'):
            word = json.loads(shown) if "\\" in shown else shown[1:-1]
            yield Token(kind, word, int(line), place - lines[int(line)], place)


def tokens_of_text(text: str) -> list[Token]:
    """The tokens of a text of the code."""
    with tempfile.NamedTemporaryFile("w", encoding="utf-8", suffix=".rt") as file:
        file.write(text)
        file.flush()
        return tokens_of([file.name])[0]


def files_of(top: str, crates: Iterable[str], *parts: str) -> list[File]:
    """The files of src/, specs/ or proofs/ of crates, but for the lists of modules."""
    folders = [os.path.join(top, "crates", crate, part) for crate in crates for part in parts]
    paths = [path for folder in folders for path in sources.files_below(folder, (".rt", ".antt"))]
    return files_at(top, [path for path in paths if os.path.basename(path) != "Lib.antt"])


def files_at(top: str, paths: Sequence[str]) -> list[File]:
    """The files of these paths. One that was read before in this process, with the same path and text, is not read
    again: the tests judge a copy of the repository many times, each with one file changed."""
    keys = [(os.path.relpath(path, top), sources.read(path)) for path in paths]
    new = [path for path, key in zip(paths, keys) if key not in FILES_READ]
    for path, tokens in zip(new, tokens_of(new)):
        file = File(top, path, tokens)
        FILES_READ[file.path, file.text] = file
    return [FILES_READ[key] for key in keys]


# ---- what tokens name


def names_in(tokens: Iterable[Token]) -> set[str]:
    """The names in tokens: of a path its first part too."""
    return {name for token in tokens for name in (token.text, token.text.split(".")[0])}


def is_named_in(name: str, names: set[str]) -> bool:
    """Whether names have a name; of an operator they have to have each part."""
    if "◌" not in name or name in names:
        return name in names
    if name == "◌>>=◌" and names & {"do", "←"}:
        return True
    return all(part in names for part in name.split("◌") if part)


def reach(roots: Iterable[Node], next_of: Callable[[Node], Iterable[Node]]) -> list[Node]:
    """All that roots lead to, step by step, in the order of a walk in breadth."""
    found = dict.fromkeys(roots)
    waiting = list(found)
    for node in waiting:
        new = [reached for reached in dict.fromkeys(next_of(node)) if reached not in found]
        found.update(dict.fromkeys(new))
        waiting += new
    return waiting


# ---- what is ghost in code


def without_uses(tokens: Iterable[Token]) -> Iterator[Token]:
    """The tokens of code that are in no import."""
    is_use = False
    for token in tokens:
        is_use = is_use or (token.text == "use" and token.kind in ("Code", "Head"))
        if not is_use:
            yield token
        is_use = is_use and token.text != ";"


def attributes_in(tokens: Sequence[Token]) -> Iterator[list[Token]]:
    """The tokens of attributes of code, each attribute by itself."""
    for place, token in enumerate(tokens):
        if (token.kind, token.text) == ("Code", "#"):
            yield list(itertools.takewhile(lambda other: other.text != "]", tokens[place:]))


def ghost_tokens(tokens: Sequence[Token], kinds: Sequence[str] = ("Antt", "Text")) -> list[Token]:
    """Of code: what is in contracts, ghost items and attributes."""
    found = [token for token in without_uses(tokens) if token.kind in kinds]
    return found + [token for attribute in attributes_in(tokens) for token in attribute]
