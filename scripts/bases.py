"""What contracts rest on: definitions of specs/, items of the code, names of std and of clap.

It reads texts alone. A definition rests on each name in it that is defined in its file or imported
by a line `use`. A name that is bound in a definition and means something else in its file counts as
that name: what is found may be too much because of that, never too little.
"""

import os
import sys
from dataclasses import dataclass
from typing import Iterable, NamedTuple, Sequence

import declared
import libraries
import reader
import sources
from declared import CodeItem
from reader import Declaration, File, Key

# The program, and the crate whose functions C calls. They have no definitions of their own.
PROGRAM, EXPORTS = "labels", "labels_c"
# The crates on whose contracts no other crate rests.
AT_THE_TOP = {PROGRAM, EXPORTS, "examples", "tests", "acceptance", "qr_acceptance", "hostile", "plain_qr"}
CLAP = "clap"
# The file of the kit that has the traits of std's readers and writers.
TRAITS_OF_STD = os.path.join("std", "src", "io", "traits.rt")


class Lines(NamedTuple):
    """How many lines a sceptic has to read: of definitions, of code, and one for each name."""

    definitions: int
    code: int
    names: int

    @property
    def all(self) -> int:
        return sum(self)


@dataclass(frozen=True)
class Base:
    """What contracts rest on, in reading order. The items of the code begin with the contracts."""

    definitions: list[Declaration]
    code: list[CodeItem]
    of_std: set[str]
    of_clap: list[Key]

    @property
    def lines(self) -> Lines:
        definitions = sum(definition.lines for definition in self.definitions)
        names = self.of_std | {key.name for key in self.of_clap}
        return Lines(definitions, sum(item.lines for item in self.code), len(names))


@dataclass(frozen=True)
class Repository:
    """The crates that others rest on, in the order in which a reader meets them, from the headline down, the files of
    specs/ by crate and module, those of the code, those of theorems, and what contracts speak by."""

    crates: list[str]
    specs: dict[tuple[str, str], File]
    code: list[File]
    theorems: list[File]
    items: list[CodeItem]

    def definition(self, key: Key) -> Declaration | None:
        """Returns the definition of a name, or None: the code's own type, or a name of the kit or of a lemma. Stops
        where a file names a definition that is not there."""
        if key.crate not in self.crates or key.part != "specs" or key.module.startswith("declared"):
            return None
        file = self.specs.get((key.crate, key.module))
        if not file or key.name not in file.of_name:
            gone = f"crates/{key.crate}/specs/{key.module}.antt has no {key.name}"
            sys.exit(f"{gone}, which another file names")
        return file.of_name[key.name]

    def cited_by(self, key: Key) -> list[Key]:
        """Returns what the definition of a name cites, or nothing where it has none."""
        definition = self.definition(key)
        return [definition.key, *self.cites(definition)] if definition else []

    def cites(self, definition: Declaration) -> Sequence[Key]:
        """Returns what a definition cites."""
        return self.specs[definition.key.crate, definition.key.module].cited_by(definition)

    def definitions(self, keys: Iterable[Key]) -> list[Declaration]:
        """Returns the definitions of names, each once."""
        return list(dict.fromkeys(definition for key in keys if (definition := self.definition(key))))

    @property
    def promises(self) -> list[CodeItem]:
        """The contracts of the functions that crates give to their callers, what traits, views and members say, and
        the types and constants that have no view."""
        files = [file for file in self.code if file.crate in self.crates]
        contracts = [item for file in files for item in declared.contracts_in(file)]
        given = {(file.crate, imported.name) for file in files if file.module == "lib" for imported in file.passed_on}
        said = [item for item in self.items if item.kind in ("trait", "view", "members")]
        keys = {item.key for item in said}
        named = [item for item in self.items if (item.crate, item.name) in given and item.key not in keys]
        return contracts + said + named

    @property
    def laws(self) -> list[Declaration]:
        """The definitions outside of `Private`, and what they rest on. Those that no contract cites lemmas cite."""
        files = [file for file in self.specs.values() if not file.module.startswith("Private")]
        keys = [definition.key for file in files for definition in file.declarations]
        return self.definitions(reader.reach(keys, self.cited_by))

    @property
    def of_program(self) -> list[File]:
        """The files of the program itself, which makes one call."""
        return [file for file in self.code if file.crate == PROGRAM]


def read_repository(top: str) -> Repository:
    """Reads the files of a repository."""
    crates = [crate for crate in reversed(sources.crates_of(top)) if crate not in AT_THE_TOP]
    files = reader.files_of(top, crates, "specs", "src")
    files += reader.files_of(top, [PROGRAM, EXPORTS], "src")
    files += reader.files_at(top, theorem_files(top, crates))
    specs = {(file.crate, file.module): file for file in files if file.part == "specs"}
    code = [file for file in files if file.part == "src"]
    theorems = [file for file in files if file.part == "proofs"]
    items = list(declared.code_items([file for file in code if file.crate in crates]))
    return Repository(crates, specs, code, theorems, items)


def theorem_files(top: str, crates: Iterable[str]) -> list[str]:
    """Returns the paths of the files of lemmas that are there to be checked, and that no function rests on."""
    paths = (path for crate in crates for path in sources.files_below(f"{top}/crates/{crate}/proofs", ".antt"))
    return [path for path in paths if path.endswith("Theorems.antt")]


def base_of(repository: Repository, contracts: Sequence[CodeItem]) -> Base:
    """Returns what contracts rest on."""
    code, before, cited = [*contracts], list[CodeItem](), list[Key]()
    while len(before) < len(code):
        # What a trait, a view or members say cites more definitions, and these more types.
        before = code
        roots = [key for item in code for key in item.cites]
        cited = reader.reach(roots, repository.cited_by)
        named = {*declared.keys_of(cited)}
        words = frozenset[str]().union(*(item.words for item in code))
        spoken_by = (item for item in repository.items if item.is_of(named, words))
        code = [*dict.fromkeys([*contracts, *spoken_by])]
    members = {member for item in code for member in item.members} & members_of_std()
    of_kit = [key for key in cited if key.crate not in repository.crates and key.name]
    return Base(
        repository.definitions(cited),
        code,
        {key.name for key in of_kit if key.crate != CLAP} | members,
        [key for key in of_kit if key.crate == CLAP],
    )


# ---- the kit


def files_of_kit(paths: Sequence[str]) -> list[File]:
    """Returns files of the kit, by their paths in its folder of crates."""
    folder = os.path.join(libraries.kit().KIT, "rattle")
    return reader.files_at(folder, [os.path.join(folder, path) for path in paths])


def members_of_std() -> set[str]:
    """Returns the ghost members of std's readers and writers, by which clauses speak of bytes."""
    (file,) = files_of_kit([TRAITS_OF_STD])
    traits = [item for item in file.declarations if item.kind == "trait"]
    return {member.name for trait in traits for member in trait.inner if member.kind == "ghost"}


def definitions_of_clap(names: Sequence[Key]) -> list[Declaration]:
    """Returns the definitions of clap that stand behind names of it."""
    folder = os.path.join(libraries.kit().KIT, "rattle", CLAP, "specs")
    paths = [os.path.relpath(path, f"{folder}/../..") for path in sources.files_below(folder, ".antt")]
    files = {file.module: file for file in files_of_kit(paths)}

    def next_of(key: Key) -> list[Key]:
        """What a definition cites, or what a file has a name from that it passes on."""
        file = files.get(key.module) if key.crate == CLAP else None
        if file and (definition := file.of_name.get(key.name)):
            return [definition.key, *file.cited_by(definition)]
        passed_on = file.passed_on if file else []
        return [imported.target for imported in passed_on if imported.target and imported.name == key.name]

    reached = [key for key in reader.reach(names, next_of) if key.crate == CLAP]
    found = (files[key.module].of_name.get(key.name) for key in reached if key.module in files)
    return list(dict.fromkeys(definition for definition in found if definition))
