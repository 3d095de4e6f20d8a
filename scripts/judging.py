"""Has the kit check copies of definitions, each with one change, with the worked values that rest
on it: a worked value that is no longer proved refuses the change.
"""

import os
import re
import tempfile
import sys
from dataclasses import dataclass
from typing import Any, Iterator, Sequence

import libraries
import reader
import sources
from changes import HOME, SIGNS, Change, Crate, with_values
from reader import File

# Copies in one check, of any number of crates: each check takes seconds before the first.
AT_ONCE = 100
# Changes that are judged by all of their files at once: another check takes longer.
FEW = 10
NO_DEFINITION = "no-definition"
# The modules that have words, where a file does not bring one in.
MODULES = {
    "std.specs.Prelude": "true false nat_le nat_lt take drop min max is_none is_some ◌&&◌ ◌||◌ ◌+◌ ◌-◌ ◌*◌ ◌/◌ ◌%◌",
    "std.specs.List": "list_all list_any",
    "judge.proofs.Differ": "◌=!=◌ differ bytes_differ itself",
}
# What the copies say in place of an equality, and of what turns a value round.
DIFFER = sources.read(f"{sources.TOP}/scripts/differ.txt")
ERROR = re.compile(r"^\./proofs/V(\d+)/(\w+)\.antt:\d+:\d+: error: (.*)", re.M)


@dataclass(frozen=True)
class Copy:
    """A change, its crate, and a file of worked values with the names of those that are to refuse the change."""

    change: Change
    crate: Crate
    file: File
    values: frozenset[str]

    @property
    def text(self) -> str:
        """The text of the file with these worked values alone; nothing where it has none."""
        return with_values(self.file, self.values)

    @property
    def title(self) -> str:
        """The crate of the change, and the file."""
        return f"{self.change.file.crate}, {self.file.module}"


def with_imports(text: str, new: str) -> str:
    """Returns the text of a file of specs that brings in a new word."""
    name = f"◌{new}◌" if new in SIGNS.values() else new
    module = next((path for path, words in MODULES.items() if name in words.split()), None)
    is_there = re.search(rf"^use [^\n]*[{{ ]{re.escape(name)}[,}}]", text, re.M)
    if is_there or module is None:
        return text
    return text.replace("\nuse ", f"\nuse Rattle.{module}.{{{name}}}\nuse ", 1)


def put_copy(room: str, copy: Copy, number: int) -> None:
    """Writes a copy of a file of worked values, of the changed file, and of those by which the one rests on the other.
    Where more was copied, the code's own types would speak of records that are not the copy's."""
    change, examples = copy.change, copy.text
    own, changed = f"Rattle.{change.file.crate}.specs", change.file.module
    texts = {module: file.text for module, file in copy.crate.specs.items()}

    def named_in(text: str) -> list[str]:
        return re.findall(rf"{own}\.(\w+)", text)

    def reached(text: str) -> set[str]:
        """The files of specs/ that a text brings in, and those that these bring in."""
        found = reader.reach(named_in(text), lambda module: named_in(texts.get(module, "")))
        return {*found} & {*texts}

    between = {module for module in reached(examples) if changed in reached(texts[module])} | {changed}
    new = {module: texts[module] for module in between}
    new |= {changed: with_imports(change.text(), change.new), copy.file.module: examples}
    for module, text in new.items():
        for other in between:
            text = re.sub(rf"{own}\.{other}\b", f"Rattle.judge.proofs.V{number}.{other}", text)
        sources.write(f"{room}/proofs/V{number}/{module}.antt", text)
    sources.write(f"{room}/proofs/V{number}.antt", "".join(f"pub mod {module}\n" for module in new))


def errors_in(rtlib: Any, words: Sequence[str], copies: Sequence[Copy]) -> dict[int, list[tuple[str, str]]]:
    """Checks copies, and returns the errors of each by its number: the file, and the worked value or else what the
    error says."""
    with tempfile.TemporaryDirectory(prefix="believed-rows-") as room:
        modules = "pub mod Differ\n"
        for number, copy in enumerate(copies):
            put_copy(room, copy, number)
            modules += f"mod V{number}\n"
        sources.write(f"{room}/proofs/Differ.antt", DIFFER)
        sources.write(f"{room}/proofs/Lib.antt", modules)
        said = libraries.check(rtlib, room, words)
    if not re.search(r"^logic=", said, re.M):
        sys.exit("a check of copies did not reach its end:\n" + said[:2000])
    found: dict[int, list[tuple[str, str]]] = {}
    for number, file, rest in ERROR.findall(said):
        value = re.match(r"`([^`]+)`", rest)
        found.setdefault(int(number), []).append((file, value[1] if value else rest))
    return found


def words_for(rtlib: Any, crates: Sequence[Any], as_left: bool) -> list[str]:
    """Builds what is not built of crates of the kit and of those below them, or takes what `rt ci` left, and returns
    the words of a check of a crate above them."""
    for crate in crates:
        with open(os.devnull, "w", encoding="utf-8") as nowhere:
            needed = [*crate.below(), crate]
            for built in needed:
                built.out = nowhere
            if not_proved := libraries.build(needed, as_left):
                sys.exit(f"{not_proved} is not proved: run rt check in its folder")
    return libraries.words_above(rtlib, crates)


def as_they_are(copies: Sequence[Copy]) -> Iterator[Copy]:
    """Yields for each file a copy of the worked values that are to judge, with no change."""
    for title in dict.fromkeys(copy.title for copy in copies):
        here = [copy for copy in copies if copy.title == title]
        first = here[0].change
        no_change = Change(first.definition, first.file, 0, "", "")
        values = frozenset().union(*(copy.values for copy in here))
        yield Copy(no_change, here[0].crate, here[0].file, values)


def judge_copies(rtlib: Any, words: Sequence[str], copies: Sequence[Copy]) -> list[Copy]:
    """Notes in the changes of copies what refuses them, and returns the copies that are refused. Stops where worked
    values are refused as they are. The copies of one change are in the order of their files, and the first that is
    refused counts."""
    controls = [*as_they_are(copies)]
    errors = errors_in(rtlib, words, [*copies, *controls])
    for number, control in enumerate(controls, len(copies)):
        if number in errors:
            value = errors[number][0][1]
            sys.exit(f"{control.title}: {value} fails in a copy: it rests on proofs of its crate")
    refused = [(copy, errors[number]) for number, copy in enumerate(copies) if number in errors]
    for copy, found in refused:
        # Where the changed definition itself is refused, it is none.
        is_value = all(where == copy.file.module for where, _ in found)
        copy.change.by = copy.change.by or (found[0][1] if is_value else NO_DEFINITION)
    return [copy for copy, _ in refused]


def copies_of(change: Change, crate: Crate, values: dict[str, list[str]] | None) -> Iterator[Copy]:
    """Yields a copy for each file of worked values that are to judge a change, the quick first."""
    for file in crate.examples.values():
        resting = {*crate.resting_on(change.definition.name, file)}
        if values:
            resting &= {*values[change.file.title]}
        copy = Copy(change, crate, file, frozenset(resting))
        if copy.text:
            yield copy


def judge(
    top: str,
    as_left: bool,
    crates: dict[str, Crate],
    changes: Sequence[Change],
    values: dict[str, list[str]] | None = None,
) -> None:
    """Notes in each change the worked value that refuses it; `values` are the names of those that alone are to judge
    the changes of a file, by its title. One check has changes of all crates, each with its first file. Those that are
    left are judged by the next, or by all where they are few."""
    rtlib = libraries.kit()
    homes = {HOME.get(change.file.crate, change.file.crate) for change in changes}
    words = words_for(rtlib, [crate for crate in rtlib.crates_below(top) if crate.name in homes], as_left)
    waiting = [[*copies_of(change, crates[change.file.crate], values)] for change in changes if not change.by]
    while waiting := [copies for copies in waiting if copies and not copies[0].change.by]:
        size = max(map(len, waiting)) if len(waiting) <= FEW else 1
        now = [copy for copies in waiting for copy in copies[:size]]
        waiting = [copies[size:] for copies in waiting]
        for first in range(0, len(now), AT_ONCE):
            part = now[first : first + AT_ONCE]
            refused = [copy.title for copy in judge_copies(rtlib, words, part)]
            for title in dict.fromkeys(copy.title for copy in part):
                count = sum(copy.title == title for copy in part)
                print(f"{title}: {refused.count(title)} of {count} refused", flush=True)
