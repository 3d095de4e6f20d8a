"""Functions of a copy of a crate that a check takes by their contracts alone.

Such a function has a hole in place of its proof, and a body that calls nothing and never ends. So
a check of those that call it reads neither its code nor what that calls. Its contract is the one
that the crate has: a function that calls it is proved, or refused, as in the crate.
"""

import os
import re
from dataclasses import dataclass
from typing import Collection, Iterable, Iterator

import reader
import sources

HOLE = """use {module}.Statement.{{statement}}

pub {name}_spec : {{M : Type 1}} → statement M
{name}_spec 𝓤 𝓛 𝓜 𝓡 w = ?
"""
BODY = "{ loop {} }"


@dataclass(frozen=True)
class Function:
    """A function with a body: its path below the crate, and where the body begins and ends in its file."""

    path: str
    begin: int
    end: int


def name_of_holder(name: str) -> str:
    """Returns the name that the kit's paths have for a type, a trait, or an `impl` of a trait."""
    trait, _, of_type = name.partition(" for ")
    return of_type + trait


def home_of(item: reader.Declaration, file: reader.File, path: str) -> str:
    """Returns the path of the module that an `impl` counts in: of no trait that of its type, which the file may bring
    in from another one."""
    is_of_type = item.kind == "impl" and " for " not in item.name
    found = re.search(rf"^use crate::([\w:]+)::(?:{{[^}}]*)?\b{item.name}\b", file.text, re.M) if is_of_type else None
    return f"{found[1]}::" if found else path


def functions_in(file: reader.File, items: Iterable[reader.Declaration], path: str) -> Iterator[Function]:
    """Yields the functions that items of a file have. Left out are `main`, those that call themselves, which are
    proved in the folder of their cycle, and those of an `impl` that is not the only one of its name, for which the kit
    has another."""
    items = [*items]
    holders = [item.name for item in items if item.kind in ("impl", "trait")]
    for item in items:
        if holders.count(item.name) == 1 and item.kind in ("impl", "trait"):
            home = home_of(item, file, path)
            yield from functions_in(file, item.inner, f"{home}{name_of_holder(item.name)}::")
        body = item.tokens[len(item.stated) :]
        is_alone = item.name != "main" and "cycle" not in [token.text for token in item.attributes]
        if item.kind == "fn" and is_alone and [token.text for token in body[:1]] == ["{"]:
            yield Function(path + item.name, *file.extent(body))


def functions_of(file: reader.File) -> list[Function]:
    """Returns the functions of a file of the code, in its order."""
    module = "" if file.module in ("lib", "main") else file.module.replace(".", "::") + "::"
    return [*functions_in(file, file.declarations, module)]


def put_hole(function: Function, crate: str, folder: str) -> None:
    """Puts a hole in the place of the proof of a function, in a copy of the crate."""
    path = function.path.replace("::", "/")
    for name in ("Answers", "Invariants"):
        file = f"{folder}/proofs/{path}/{name}.antt"
        if os.path.isfile(file):
            os.remove(file)
    module, name = f"Rattle.{crate}.proofs.{path.replace('/', '.')}", path.split("/")[-1]
    sources.write(f"{folder}/proofs/{path}/Proof.antt", HOLE.format(module=module, name=name))


def put(top: str, crate: str, asked: Collection[str]) -> None:
    """Leaves of each function its contract alone, in the copy of a crate that is in `crates` below `top`, but of those
    that are asked for."""
    folder = f"{top}/crates/{crate}"
    for file in reader.files_at(top, sources.files_below(f"{folder}/src", ".rt")):
        functions = [function for function in functions_of(file) if function.path not in asked]
        text = file.text
        for function in reversed(functions):
            text = text[: function.begin] + BODY + text[function.end :]
            put_hole(function, crate, folder)
        sources.write(f"{top}/{file.path}", text)
