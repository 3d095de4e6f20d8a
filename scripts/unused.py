#!/usr/bin/python3
"""Finds what nothing uses in the crates: lemmas, definitions, imported names and functions.

- A definition is used where a contract, an attribute of the code, a lemma or another definition in use cites it.
- A lemma is used where an answer, an attribute of the code or a lemma in use cites it. Files that the check itself
  reads (Answers, Invariants and Proof below the folder of a function) use what they cite; of what they define, what is
  not `pub` has to be cited too. The lemmas of a file whose name has Examples or Theorems in it are there to be
  checked, and so are the statements without variables of a file that no other cites: worked values.
- An imported name is used where its file, or the `impl` that imports it, has it outside of comments and imports; a
  name of `ghost use` where a contract, a ghost item or an attribute has it; a trait of ours also where a function of
  it is called, or a constant of it named.
- A function is used where its name is found in code outside of its own body, in its crate or, if it is `pub`, in any.
  Tests, `main`, exports to C and the functions of an `impl` of a trait are called by others.

Where two things have one name it may miss one that is unused. The status is 1 where something is found, a line for
each; the last line says how many worked values there are, too.
"""

import itertools
import re
import sys
from collections import Counter
from typing import Iterable, Iterator, Sequence

import reader
import sources
from reader import Declaration, File, Import, Key, Token

READ_BY_CHECK = ("Answers", "Invariants", "Proof")


def cited_by_code(file: File) -> Iterator[Key]:
    """The definitions and lemmas that a file of code cites: in contracts by imported names, in attributes by paths."""
    yield from file.cites(reader.ghost_tokens(file.tokens))
    for attribute in reader.attributes_in(file.tokens):
        text = "".join(token.text for token in attribute)
        for crate, part, path in re.findall(r"\b(\w+)::(specs|proofs)((?:::[\w-]+)+)", text):
            *module, name = path[2:].split("::")
            yield reader.Key(file.crate if crate == "crate" else crate, part, ".".join(module), name)


def checked_for_itself(file: File, cited_files: set[Key]) -> list[Declaration]:
    """The definitions that the check wants or that are there to be checked; `cited_files` are cited by others."""
    if file.part == "specs":
        return []
    if "." in file.module and file.module.split(".")[-1] in READ_BY_CHECK:
        return [definition for definition in file.declarations if definition.is_public]
    if re.search("Examples|Theorems", file.module):
        return file.declarations
    return [
        definition for definition in file.declarations if definition.worked_values() and file.key() not in cited_files
    ]


def unused_definitions(logic: Sequence[File], code: Sequence[File]) -> list[Declaration]:
    """The definitions and lemmas that nothing in use cites."""
    files = {file.key(): file for file in logic}

    def cited_by(key: Key) -> list[Key]:
        """The definition that has a name, and what it cites."""
        file = files.get(key._replace(name=""))
        definition = file.of_name.get(key.name) if file else None
        return [definition.key, *file.cited_by(definition)] if file and definition else []

    roots = [key for file in code for key in cited_by_code(file)]
    cited = [*roots, *(imported.target for file in logic for imported in file.imports if imported.target)]
    cited_files = {key._replace(name="") for key in cited}
    for file in logic:
        roots += file.cites(file.rest)
        roots += [definition.key for definition in checked_for_itself(file, cited_files)]
    reached = {*reader.reach(roots, cited_by)}
    return [definition for file in logic for definition in file.declarations if definition.key not in reached]


def unused_imports(logic: Sequence[File], code: Sequence[File]) -> Iterator[Import]:
    """The imported names that are not used where they are imported."""
    for file in logic:
        names = reader.names_in(
            [*file.rest, *(token for definition in file.declarations for token in definition.tokens)]
        )
        yield from (imported for imported in file.imports if not reader.is_named_in(imported.name, names))
    traits = {item.name: item.inner for file in code for item in file.declarations if item.kind == "trait"}
    for file in code:
        for _, imports in itertools.groupby(file.imports, lambda imported: id(imported.scope)):
            yield from unused_in_code(list(imports), traits)


def unused_in_code(imports: Sequence[Import], traits: dict[str, list[Declaration]]) -> Iterator[Import]:
    """The names that are imported for some tokens of code and not used there."""
    scope = imports[0].scope
    tokens, ghost_names = list(reader.without_uses(scope)), reader.names_in(reader.ghost_tokens(scope))
    names = {token.text for token in tokens}
    called = {token.text for before, token in zip(tokens, tokens[1:]) if before.text in (".", ":")}
    for imported in imports:
        members = {member.name for member in traits.get(imported.name, ()) if member.kind in ("fn", "const")}
        is_called = imported.name in names or bool(members & called)
        is_used = reader.is_named_in(imported.name, ghost_names) if imported.is_ghost else is_called
        if not is_used:
            yield imported


def names_of(tokens: Iterable[Token]) -> Counter[str]:
    return Counter(token.text for token in tokens if token.kind == "Code")


def functions_of(items: Iterable[Declaration], is_trait: bool = False) -> Iterator[tuple[Declaration, bool]]:
    """The functions among items, and in these, that somebody has to call, each with whether other crates can."""
    for item in items:
        if item.kind in ("impl", "trait", "mod") and " for " not in item.name:
            yield from functions_of(item.inner, item.kind == "trait")
        elif item.kind == "fn" and item.name != "main":
            if not {"test", "no_mangle"} & {token.text for token in item.attributes}:
                yield item, item.is_public or is_trait


def unused_functions(code: Sequence[File]) -> tuple[list[Declaration], int]:
    """The functions whose names are nowhere but in themselves, and how many were looked at."""
    functions = [function for file in code for function in functions_of(file.declarations)]
    names: dict[str, Counter[str]] = {file.crate: Counter() for file in code}
    for file in code:
        names[file.crate] += names_of(file.tokens)
        for item in file.declarations:
            if item.kind == "use" and item.is_public:
                names[file.crate] -= names_of(item.tokens)
    for function, _ in functions:
        names[function.key.crate][function.name] -= 1  # where it is declared
    everywhere = Counter[str]()
    for of_crate in names.values():
        everywhere.update(of_crate)
    unused = []
    for function, is_public in functions:
        seen = everywhere if is_public else names[function.key.crate]
        in_itself = names_of(function.tokens)[function.name]
        if seen[function.name] < in_itself:
            unused.append(function)
    return unused, len(functions)


def main() -> int:
    sources.parser_of(__doc__).parse_args()
    files = reader.files_of(sources.TOP, sources.crates_of(sources.TOP), "specs", "proofs", "src")
    code = [file for file in files if file.part == "src"]
    logic = [file for file in files if file.part != "src"]
    functions, function_count = unused_functions(code)
    found = []
    for definition in unused_definitions(logic, code):
        kind = "definition" if definition.key.part == "specs" else "lemma"
        found.append(f"{definition.place}: nothing uses the {kind} {definition.name}")
    imports = unused_imports(logic, code)
    found += [f"{imported.place}: the imported name {imported.name} is not used" for imported in imports]
    found += [f"{function.place}: nothing calls the function {function.name}" for function in functions]
    proofs = [file for file in logic if file.part == "proofs"]
    worked_values = sum(declaration.worked_values() for file in proofs for declaration in file.declarations)
    found += [] if function_count else ["nothing to look at"]
    return sources.ended(found, f"{worked_values} worked values: {len(found)} unused")


if __name__ == "__main__":
    sys.exit(main())
