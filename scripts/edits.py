"""Wrong bodies as their files have them, and functions once more with such a body.

A file is like a must-fail edit of the kit, with one line more. `refused: FUNCTION` names the function whose proof has
to fail, by its path below the crate. Then it has one of two forms:

- `body: TEXT` is a body in place of the function's own. It can call the function itself, which is there beside it:
  `body: match run(source) { Err(_) => Ok(()), well => well }`. So it quotes no code, and a change of the code leaves
  it as it is. It is tried in a copy of the function without a proof, and a right body, one that calls the function and
  does no more, shows that this is enough. A function that calls itself has no copy, nor has one of a trait if its
  clauses are in the trait. `clause: NAME` says which of several clauses the body breaks: the copy has no other, so no
  other refuses it. `alone: Runs.produces Produces.sends Produces.given` says which field it breaks, the last one: in
  the copy's clause these records have these fields alone, and the values that they speak of. A second copy, without
  the last, must be accepted.
- `file: FILE` and pairs of `old: TEXT` and `new: TEXT` change the code in its place; each TEXT is in the file once.
"""

import dataclasses
import functools
import os
import re
import sys
from dataclasses import dataclass
from typing import Collection, Mapping, Sequence

import reader
import sources
import stand_ins

GHOST = ("Head", "Antt", "Text", "End")
# What is in quotes, and what is no code.
NO_CODE = re.compile(r"""("(?:[^"\\]|\\.)*"|'(?:[^'\\]|\\.)')|//.*|\s+""")


@dataclass(frozen=True)
class Change:
    """A text in the place of another one of a file."""

    file: str
    old: str
    new: str


@dataclass(frozen=True)
class Body:
    """A wrong body: `text` in place of the body of its function, or else changes of the code. One that `is_right` is
    there to be accepted. `clause` is the one that it is to break, or empty, and `fields` are those that its records
    are left, or empty for all."""

    name: str
    function: str
    text: str = ""
    changes: tuple[Change, ...] = ()
    is_right: bool = False
    clause: str = ""
    fields: tuple[str, ...] = ()


@dataclass(frozen=True)
class Copy:
    """A function once more, under the name that `body` has, with the text of that.

    `function` is the path of the one that it is a copy of, and `end` the place in the file at which that one ends;
    `text` has the attributes too, and begins in the column of that one. `specs` is a file of specs/ that it needs, or
    empty, and `names` what it takes from that."""

    body: Body
    function: str
    file: str
    end: int
    text: str
    specs: str = ""
    names: tuple[str, ...] = ()


@dataclass(frozen=True)
class Found:
    """A function of a crate: its file, the name of that, and what it declares."""

    file: reader.File
    name: str
    item: reader.Declaration

    @property
    def block(self) -> tuple[int, int]:
        """Where its body begins and ends in the file, with the braces."""
        return self.file.extent(self.item.tokens[len(self.item.stated) :])

    @property
    def holder(self) -> reader.Declaration:
        """The item at the top of the file that it is in, or it itself."""
        return next(item for item in self.file.declarations if item is self.item or self.item in item.inner)

    @property
    def trait(self) -> str:
        """The trait that it is of, or nothing."""
        trait, is_of_trait, _ = self.holder.name.partition(" for ")
        return trait if is_of_trait else ""


# ---- files


def read_bodies(path: str) -> list[Body]:
    """Returns the wrong or right body of a file: for each line `alone:` a wrong and a right one. Stops where it has
    none of the two forms."""
    kind, name = path.split(os.sep)[-2:]
    last: dict[str, str] = {}
    changes = []
    alone = []
    for line in sources.read(path).split("\n"):
        key, _, text = line.partition(":")
        last[key] = text.removeprefix(" ")
        if key == "new":
            changes.append(Change(last.get("file", ""), last.get("old", ""), last["new"]))
        if key == "alone":
            alone.append(tuple(text.split()))
    text = f" {last['body']} " if last.get("body") else ""
    is_whole = all(change.file and change.old for change in changes) and bool(text) != bool(changes)
    if not last.get("refused") or not is_whole:
        sys.exit(
            f"{path}: a wrong body has a line 'refused:', and a line 'body:', or a line 'file:' "
            "and pairs of 'old:' and 'new:'"
        )
    name = name.removesuffix(".edit")
    body = Body(name, last["refused"], text, tuple(changes), kind == "right-bodies", last.get("clause", ""))
    wrong = [dataclasses.replace(body, name=f"{name}:{fields[-1]}", fields=fields) for fields in alone]
    left = {wrong_body: (*wrong_body.fields[:-1], wrong_body.fields[-1].partition(".")[0]) for wrong_body in wrong}
    right = [
        dataclasses.replace(wrong_body, name=f"{wrong_body.name}-less", is_right=True, fields=left[wrong_body])
        for wrong_body in wrong
    ]
    # Lines that differ only in the last field leave the same right body, which is tried once.
    return [*wrong, *{right_body.fields: right_body for right_body in right}.values()] or [body]


def bodies_of(folder: str) -> list[Body]:
    """Returns the wrong bodies of a crate, and the right ones."""
    kinds = [f"{folder}/{kind}-bodies" for kind in ("wrong", "right")]
    return [body for kind in kinds for path in sources.files_below(kind, ".edit") for body in read_bodies(path)]


# ---- texts


@functools.lru_cache(maxsize=None)
def file_at(folder: str, name: str) -> reader.File:
    """Returns a file of the code of a crate."""
    return reader.files_at(os.path.dirname(folder), [f"{folder}/{name}"])[0]


def code_of(text: str) -> str:
    """Returns a text without its comments and white space, but for that in quotes."""
    return NO_CODE.sub(lambda found: found[1] or "", text)


@functools.lru_cache(maxsize=None)
def ghost_text(text: str) -> str:
    """Returns what code has in contracts, ghost items and attributes, as words."""
    tokens = reader.ghost_tokens(reader.tokens_of_text(text), GHOST)
    return " ".join(token.text for token in tokens)


def changed(texts: Mapping[str, str], body: Body, folder: str) -> dict[str, str] | None:
    """Returns the texts of files with the changes in them, or None where an old text is not in its file just once."""
    made = dict(texts)
    for change in body.changes:
        text = made.get(change.file) or file_at(folder, change.file).text
        if text.count(change.old) != 1:
            return None
        made[change.file] = text.replace(change.old, change.new)
    return made


# ---- words


@dataclass(frozen=True)
class Block:
    """What stands together in a file of specs/: a record, a word by cases, or a module of such words."""

    file: str
    text: str

    @property
    def is_record(self) -> bool:
        return self.text.startswith("pub record")

    @functools.cached_property
    def names(self) -> list[str]:
        """What it declares."""
        return re.findall(r"^ *(?:pub record|abbrev pub|unfoldable pub) (\w+)\b", self.text, re.M)

    def parts(self, name: str) -> dict[str, str]:
        """Returns the fields of a record, or the cases of a word, numbered from 1 on, each with its text."""
        if self.is_record:
            return dict(re.findall(r"^  pub (\w+) : (.*(?:\n    .*)*)", self.text, re.M))
        cases = re.finditer(rf"^( *){name} (?!:).*(?:\n\1 .*)*", self.text, re.M)
        return {str(number): case[0] for number, case in enumerate(cases, 1)}

    def values(self) -> set[str]:
        """Returns the fields of a record that later ones speak of: values, and no statements."""
        fields = self.parts("") if self.is_record else {}
        later = [" ".join([*fields.values()][place + 1 :]) for place in range(len(fields))]
        return {field for field, said in zip(fields, later) if re.search(rf"(?<![\w.]){field}\b", said)}

    def alone(self, kept: Mapping[str, Collection[str]]) -> str:
        """Returns it with these fields alone and the values that they speak of, or with these cases of a word: in the
        others nothing is said. A record without a field is one of nothing."""
        text = self.text.rstrip("\n") + "\n"
        if self.is_record:
            fields = self.parts("")
            wanted = {*kept.get(self.names[0], fields), *self.values()}
            lines = [f"  pub {field} : {fields[field]}\n" for field in fields if field in wanted]
            return text.partition(" where\n")[0] + " where\n" + ("".join(lines) or "  pub nothing : Unit {0}\n")
        for name in {*self.names} & {*kept}:
            for number, case in self.parts(name).items():
                text = text if number in kept[name] else text.replace(case, f"{case.partition(' =')[0]} = ⊤", 1)
        return text


BLOCK = re.compile(r"^(?:(?:pub record|abbrev pub|unfoldable pub) .*\n(?:.+\n?)*|module _ .*\n(?:(?: .*)?\n)*)", re.M)


def blocks_in(text: str, file: str = "") -> dict[str, Block]:
    """Returns the records and words of a file of specs/, by their names."""
    blocks = [Block(file, found[0]) for found in BLOCK.finditer(text)]
    return {name: block for block in blocks for name in block.names}


def between(blocks: Mapping[str, Block], wanted: Collection[str], head: str) -> list[Block]:
    """Returns those that have the wanted names, and those by which a head speaks of them, each behind those that it
    speaks of itself."""
    found: dict[Block, bool] = {}

    def speaks(block: Block) -> bool:
        if block not in found:
            found[block] = False
            named = {blocks[word] for word in re.findall(r"\w+", block.text) if word in blocks} - {block}
            is_found = any([speaks(other) for other in sorted(named, key=lambda other: other.text)])
            del found[block]
            found[block] = is_found or not {*wanted}.isdisjoint(block.names)
        return found[block]

    for name in (*re.findall(r"\w+", head), *wanted):
        if name in blocks:
            speaks(blocks[name])
    return [block for block, is_found in found.items() if is_found]


def with_fields(fields: Sequence[str], ending: str, folder: str, head: str = "") -> tuple[str, dict[str, str]]:
    """Returns a file of specs/ that has the words of these fields once more, with these alone, and those by which a
    head speaks of them; and the names that they have there. Stops where one is not there."""
    files = {path: sources.read(path) for path in sources.files_below(f"{folder}/specs", ".antt")}
    blocks = {name: block for path, text in files.items() for name, block in blocks_in(text, path).items()}
    wanted = [name.partition(".")[::2] for name in fields]
    gone = [
        f"{name}.{field}"
        for name, field in wanted
        if name not in blocks or field not in ("", *blocks[name].parts(name))
    ]
    if gone:
        sys.exit(f"{folder}/specs has no {gone[0]}")
    kept = {name: {field for other, field in wanted if other == name} for name, _ in wanted}
    chosen = between(blocks, kept, head)
    names = {name: f"{name}_{ending}" for block in chosen for name in block.names}
    uses, texts = ["use Rattle.std.specs.Prelude.{⊤}"], list[str]()
    for block in chosen:
        texts.append(re.sub(rf"\b({'|'.join(names)})\b", lambda found: names[found[1]], block.alone(kept)))
        for path, inner in re.findall(r"^use ([\w.]+)\.\{(.*?)\}", files[block.file], re.M | re.S):
            uses += [f"use {path}.{{{name.strip()}}}" for name in inner.split(",")]
        module = block.file[len(folder) + 1 : -len(".antt")].replace(os.sep, ".")
        here = {*blocks_in(files[block.file]), *re.findall(r"^pub data (\w+)", files[block.file], re.M)}
        cited = sorted(here & {*re.findall(r"\w+", texts[-1])} - {*block.names})
        uses += [f"use Rattle.{os.path.basename(folder)}.{module}.{{{name}}}" for name in cited]
    return "\n".join([*dict.fromkeys(uses), "", *texts]), names


# ---- functions


def function_in(file: reader.File, path: Sequence[str]) -> reader.Declaration | None:
    """Returns the function of a path in a file: a free one, or one of an `impl`."""
    items = file.declarations
    for name in path[:-1]:
        holders = [item for item in items if item.kind == "impl" and stand_ins.name_of_holder(item.name) == name]
        items = [item for holder in holders for item in holder.inner]
    wanted = path[-1] if path else None
    return next((item for item in items if item.kind == "fn" and item.name == wanted), None)


def found_in(function: str, name: str, folder: str) -> Found | None:
    """Returns the function of a path in this file of a crate."""
    file = file_at(folder, name)
    module = [] if file.module == "lib" else file.module.split(".")
    path = function.split("::")
    item = function_in(file, path[len(module) :]) if path[: len(module)] == module else None
    return Found(file, name, item) if item else None


def found_anywhere(function: str, folder: str) -> Found | None:
    """Returns the function of a path in the file of its module."""
    path = function.split("::")
    names = [f"src/{'/'.join(path[:length])}.rt" for length in range(len(path) - 1, 0, -1)]
    there = [name for name in (*names, "src/lib.rt") if os.path.isfile(f"{folder}/{name}")]
    return next((found for name in there if (found := found_in(function, name, folder))), None)


# ---- faults


def fault_of_changes(body: Body, folder: str) -> str:
    """Returns what is wrong with a body of changes, or nothing."""
    for change in body.changes:
        is_named = re.fullmatch(r"src/[\w/]+\.rt", change.file)
        if not is_named or not os.path.isfile(f"{folder}/{change.file}"):
            return f"it changes {change.file}, which is no file of src/"
    texts = changed({}, body, folder)
    if texts is None:
        return "an old: text is not in its file just once"
    before = {file: file_at(folder, file).text for file in texts}
    if all(code_of(before[file]) == code_of(text) for file, text in texts.items()):
        return "it changes no code"
    if any(ghost_text(before[file]) != ghost_text(text) for file, text in texts.items()):
        return "it changes a clause, a ghost item or an attribute"
    return ""


def fault_of_text(body: Body, folder: str) -> str:
    """Returns what is wrong with a body of one text, or nothing."""
    copy = copy_of(body, "0", folder)
    found = found_anywhere(body.function, folder)
    if copy is None or found is None:
        return f"{body.function} is no function that can be there twice: write old: and new:"
    begin, end = found.block
    if code_of(found.file.text[begin:end]) == code_of(f"{{{body.text}}}"):
        return "it changes no code"
    if ghost_text(f"fn one() {{{body.text}}}"):
        return "it has a clause, a ghost item or an attribute"
    return ""


def fault_of(body: Body, folder: str) -> str:
    """Returns what keeps a body of a crate from being tried, or nothing."""
    return fault_of_text(body, folder) if body.text else fault_of_changes(body, folder)


# ---- copies of functions


def clauses_of(item: reader.Declaration) -> dict[str, tuple[int, int]]:
    """Returns where the `ensures` clauses of a function begin and end in its file, by their names."""
    heads = [token for token in item.stated if token.kind in ("Head", "End")]
    places = [place for place, token in enumerate(heads) if token.text == "ensures"]
    ends = [next(token.start + 1 for token in heads[place:] if token.kind == "End") for place in places]
    return {heads[place + 1].text: (heads[place].start, end) for place, end in zip(places, ends)}


def copy_of(body: Body, ending: str, folder: str) -> Copy | None:
    """Returns a copy of the function of a body that is a text, with this ending of its name. There is none of one that
    calls itself, and of a function of a trait only where its `impl` has clauses: it is in another `impl` then."""
    found = found_anywhere(body.function, folder)
    if found is None or "cycle" in [token.text for token in found.item.attributes]:
        return None
    if found.trait and not clauses_of(found.item):
        return None
    file, item = found.file, found.item
    begin, end = file.extent(item.tokens)
    attributes = file.text[item.attributes[0].start : begin] if item.attributes else ""
    head = re.sub(rf"\bfn {item.name}\b", f"fn {item.name}_{ending}", file.text[begin : found.block[0]], count=1)
    for name, (start, last) in clauses_of(item).items():
        if body.clause not in ("", name):
            head = head.replace(file.text[start:last], "")
    specs, names = with_fields(body.fields, ending, folder, head) if body.fields else ("", {})
    for name, new_name in names.items():
        head = re.sub(rf"\b{name}\b", new_name, head)
    margin = " " * item.tokens[0].column
    text = f"{margin}{attributes}{head}{{{body.text}}}"
    path = f"{body.function}_{ending}"
    if found.trait:
        opening = next(token for token in found.holder.tokens if (token.kind, token.text) == ("Code", "{"))
        beginning = file.text[found.holder.tokens[0].start : opening.start]
        text = re.sub(rf"\b{found.trait}(<[^>]*>)? for ", "", beginning) + f"{{\n{text}\n}}"
        end, path = file.extent(found.holder.tokens)[1], path.replace(f"{found.trait}::", "::")
    renamed = dataclasses.replace(body, function=path)
    taken = tuple(word for word in names.values() if word in text)
    return Copy(renamed, body.function, found.name, end, text, specs, taken)


def parameters_of(words: Sequence[str]) -> list[str]:
    """Returns the names of parameters, of types or of values: words begin with their bracket."""
    names = []
    depth = 0
    is_first = False
    for word in words:
        if is_first and word.isidentifier() and word not in ("mut", "const"):
            names.append(word)
            is_first = False
        depth += (word in {*reader.OPENING, "<"}) - (word in {*reader.CLOSING, ">"})
        is_first = is_first or depth == 1 and word in ("(", "<", ",")
        if depth == 0:
            break
    return names


def call_of(item: reader.Declaration, is_method: bool) -> str:
    """Returns a call of a function by itself, with its own parameters."""
    words = [token.text for token in item.stated if token.kind == "Code"]
    words = words[words.index(item.name) + 1 :]
    types = parameters_of(words) if words[0] == "<" else []
    values = parameters_of(words[words.index("(") :])
    name = f"{item.name}::<{', '.join(types)}>" if types else item.name
    if values[:1] == ["self"]:
        return f"self.{name}({', '.join(values[1:])})"
    return f"{'Self::' if is_method else ''}{name}({', '.join(values)})"


def calling_itself(function: str, folder: str) -> Copy | None:
    """Returns a copy of a function whose body calls it and does no more, a control: that nothing more is proved of a
    copy refuses no right body."""
    found = found_anywhere(function, folder)
    if not found:
        return None
    *_, holder, _ = ["", *function.split("::")]
    text = f" {call_of(found.item, holder[:1].isupper())} "
    body = Body(f"{function} calling itself", function, text, is_right=True)
    return copy_of(body, "calling_itself", folder)


def copies_of(bodies: Sequence[Body], folder: str) -> list[Copy]:
    """Returns copies of functions with the bodies that are texts, and for each of these functions one that calls
    it."""
    texts = [body for body in bodies if body.text]
    controls = (calling_itself(function, folder) for function in dict.fromkeys(body.function for body in texts))
    copies = (copy_of(body, str(number), folder) for number, body in enumerate(texts))
    return [copy for copy in (*copies, *controls) if copy]


def with_copies(copies: Sequence[Copy], folder: str) -> dict[str, str]:
    """Returns the texts of the files with the copies in them, each after its function."""
    texts = {copy.file: file_at(folder, copy.file).text for copy in copies}
    for copy in sorted(copies, key=lambda copy: -copy.end):
        text = texts[copy.file]
        texts[copy.file] = f"{text[:copy.end]}\n\n{copy.text}{text[copy.end:]}"
    for number, copy in enumerate(copy for copy in copies if copy.specs):
        module, crate = f"Alone{number}", os.path.basename(folder)
        use = f"ghost use Rattle.{crate}.specs.{module}.{{{', '.join(copy.names)}}};\n"
        texts[copy.file] = re.sub(r"^(?!//!)", lambda _: use, texts[copy.file], count=1, flags=re.M)
        texts[f"specs/{module}.antt"] = copy.specs
        listed = texts.get("specs/Lib.antt") or sources.read(f"{folder}/specs/Lib.antt")
        texts["specs/Lib.antt"] = f"{listed}pub mod {module}\n"
    return texts


def together(bodies: Sequence[Body], folder: str, copies: Sequence[Copy]) -> tuple[list[Body], dict[str, str]]:
    """Returns as many of the bodies that change code as fit beside copies, each in a function of its own that no copy
    calls, and the texts of the files then."""
    chosen: list[Body] = []
    texts = with_copies(copies, folder)
    taken = {name for copy in copies for name in (copy.function, copy.body.function)}
    for body in bodies:
        more = None if body.function in taken else changed(texts, body, folder)
        if more is not None:
            chosen, texts, taken = [*chosen, body], more, taken | {body.function}
    return chosen, texts
