"""What contracts speak by and is no definition of specs/: contracts, traits, types, views.

- A contract: the head of a function and its clauses, or those of some names.
- A trait: its members and the clauses of its functions, without the bodies that it gives.
- A type: an enum or a struct that definitions name.
- A view: what contracts see of a type with private fields, its `impl Model`.
- Members: what the names of a trait mean for a type, the ghost members of its `impl`.
- A constant that definitions name.

A trait, a view or members count where the crate's lib.rt names the trait and the type for callers.
The lines `ghost use` of a file say which definitions its items name.
"""

import dataclasses
import itertools
import re
import sys
from dataclasses import dataclass
from typing import Container, Iterable, Iterator, Sequence

import sources
from reader import Declaration, File, Key, Token

OF_CODE = {"trait": "trait", "enum": "type", "struct": "type", "const": "constant"}
# The name of an item: its crate, its file and its own name.
Name = tuple[str, str, str]


@dataclass(frozen=True)
class CodeItem:
    """An item: its crate, its file in src/ without the ending, its description, how many lines it has, what these
    cite, the words of the type that it is or shows, or of the contract, which name more types, the members of types
    that it names, as `remaining` in `R.remaining`, and a checksum of all that it says and of what its names stand
    for."""

    kind: str
    name: str
    crate: str
    file: str
    about: str
    lines: int
    cites: tuple[Key, ...]
    words: frozenset[str]
    members: frozenset[str]
    sum: str

    @property
    def key(self) -> Name:
        return self.crate, self.file, self.name

    def is_of(self, named: Container[Name], words: Container[str]) -> bool:
        """Returns whether it is one of these names, or words name it: of members the trait and the type."""
        if self.kind in ("type", "constant") or self.key in named:
            return self.key in named
        return all(name in words for name in self.name.split(" for "))


def words_of(declarations: Iterable[Declaration]) -> frozenset[str]:
    """Returns the words of declarations, those of a path apart."""
    return frozenset(
        word for declaration in declarations for token in declaration.stated for word in token.text.split(".")
    )


def members_in(declarations: Iterable[Declaration]) -> frozenset[str]:
    """Returns the members of types that declarations name."""
    texts = (token.text for declaration in declarations for token in declaration.stated)
    return frozenset(text.split(".")[-1] for text in texts if re.match(r"[A-Z]\w*\.", text))


def item_of(kind: str, name: str, file: File, about: str, declarations: Sequence[Declaration]) -> CodeItem:
    """Returns an item made of declarations of a file."""
    cites = dict.fromkeys(key for declaration in declarations for key in file.cites(declaration.stated))
    wanted = ("fn" if kind == "contract" else "struct", name)
    return CodeItem(
        kind=kind,
        name=name,
        crate=file.crate,
        file=file.module.replace(".", "/"),
        about=about,
        lines=sum(declaration.lines for declaration in declarations),
        cites=tuple(cites),
        words=words_of(
            declaration for declaration in file.declarations if (declaration.kind, declaration.name) == wanted
        ),
        members=members_in(declarations),
        sum=sources.sum_of(text for declaration in declarations for text in file.said(declaration.stated)),
    )


def of_impl(file: File, item: Declaration, types: Container[str], traits: Container[str]) -> Iterator[CodeItem]:
    """Yields what an `impl` adds: a view of a type, or the members of a trait for a type."""
    trait, _, name = item.name.partition(" for ")
    # A member that a private lemma proves is a law of the trait, and says nothing more.
    private = (
        imported for imported in file.imports if imported.target and imported.target.module.startswith("Private")
    )
    laws = {imported.name for imported in private}
    members = [member for member in item.inner if member.kind == "ghost" and not laws & words_of([member])]
    if name not in types or not members:
        return
    if trait == "Model":
        value = next(member for member in members if member.name == "Value").tokens
        shown = " ".join(file.text_of(value[4:-2]).split())
        yield item_of("view", name, file, f"what contracts see of `{name}`: `{shown}`", members)
    elif trait in traits:
        names = ", ".join(f"`{member.name}`" for member in members)
        yield item_of("members", item.name, file, names, members)


def code_items(code: Sequence[File]) -> Iterator[CodeItem]:
    """Yields the traits, types, views, members and constants of files of code, in their order."""
    public = {file.crate: {imported.name for imported in file.passed_on} for file in code if file.module == "lib"}
    all_public = set[str]().union(*public.values())
    for file in code:
        types = public[file.crate] | {imported.name for imported in file.imports} & all_public
        for item in file.declarations:
            if item.kind == "impl":
                yield from of_impl(file, item, types, all_public)
            elif item.kind in OF_CODE and (item.kind != "trait" or item.name in public[file.crate]):
                yield item_of(OF_CODE[item.kind], item.name, file, item.about, [item])


def keys_of(cited: Iterable[Key]) -> Iterator[Name]:
    """Yields the types and constants of the code that cited names belong to."""
    for crate, _, module, name in cited:
        if module.startswith("declared"):
            *parts, last = [part for part in module.split(".")[1:] if part != "TheVariants"]
            yield crate, "/".join(parts), name if last == "TheConstants" else last


# ---- contracts


def clauses_of(stated: Sequence[Token]) -> tuple[list[Token], dict[str, list[Token]]]:
    """Returns the head of a function, and its clauses by their names, which may be empty."""
    head = list(itertools.takewhile(lambda token: token.kind != "Head", stated))
    clauses: dict[str, list[Token]] = {}
    current: list[Token] = []
    for token, after in itertools.pairwise([*stated[len(head) :], stated[-1]]):
        if token.kind == "Head" and token.text in ("ensures", "requires"):
            current = clauses.setdefault(after.text if after.text != "{" else "", [])
        current.append(token)
    return head, clauses


def contract_of(file: File, item: Declaration, names: Sequence[str] = ()) -> CodeItem:
    """Returns the contract of a function of a file: its head and its clauses, or those of these names. Stops where it
    has no clause of a name."""
    head, clauses = clauses_of(item.stated)
    if gone := [name for name in names if name not in clauses]:
        sys.exit(f"{item.name} in {file.path} has no clause {', '.join(gone)}")
    stated = item.stated
    if names:
        stated = [*head, *(token for name in names for token in clauses[name])]
    shown = dataclasses.replace(item, stated=stated)
    made = item_of("contract", item.name, file, item.about, [shown])
    return dataclasses.replace(made, words=words_of([shown]))


def contracts_in(file: File) -> Iterator[CodeItem]:
    """Yields the contracts of the functions of a file that a caller may call, those of traits for a type too."""
    for item in file.declarations:
        inside = item.inner if item.kind == "impl" else [item]
        for declaration in inside:
            is_called = declaration.is_public or " for " in item.name
            if declaration.kind == "fn" and is_called and clauses_of(declaration.stated)[1]:
                name = f"{item.name}::{declaration.name}" if item.inner else declaration.name
                yield dataclasses.replace(contract_of(file, declaration), name=name)
