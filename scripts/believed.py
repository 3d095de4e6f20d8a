#!/usr/bin/python3
"""What has to be believed of the contracts that users rely on, in lines and by name.

The contracts are the clauses of the program's own call, `shows` and `runs`, each alone and both together, and those of
the functions that the C library exports. --check compares the number in README.md and the table in docs/PROOF.md with
what the files give, docs/DEFINITIONS.md with scripts/believed_names.txt, of which it is made, and the names there with
those of std and of clap that the program's call leans on: status 1 where they differ. --write writes the number, the
table, that page and the sums below. Each number counts definitions without blank lines and comments, the contract
itself with the types, traits and views that it speaks by, and a line for each name of std and of the kit's clap. What
stands behind clap's names is counted apart.

--check does the same with scripts/believed_sums.txt, which goes further: it has a checksum, without comments and
layout, of all that any crate promises to its callers. These are the contracts of public functions, the traits, types
and views by which they speak, the definitions on which these rest, and those that are outside of `Private`, which
lemmas are about; and the statements of theorems. So one that is weakened, such as a field of a proposition, is a line
of the diff that names it. A sum is over what names stand for, too: another definition that is imported under a name is
seen.

--show prints what a contract rests on, in reading order, each with its comment: `shows`, `runs`, `program` for both,
or `library`. The first comment of a file says what the file is about. Lines `-- Why: ` after it say what its
definitions follow: names between backticks, a colon, and the clause of a standard or a page.
"""

import difflib
import itertools
import os
import re
import signal
import sys
import textwrap
from dataclasses import dataclass
from typing import Iterable, Iterator, Sequence

import bases
import declared
import sources
from bases import Base, Lines, Repository
from declared import CodeItem
from reader import Declaration, File

# The program's own call: its crate, its file, its name and its clauses.
CALL = ("command", "entry", "program")
CLAUSES = ("shows", "runs")
# The function beside it that has no clause.
UNSAID = "arguments_of"
README = "README.md"
PROOF = os.path.join("docs", "PROOF.md")
PAGE = os.path.join("docs", "DEFINITIONS.md")
SUMS = os.path.join("scripts", "believed_sums.txt")
NAMES = os.path.join("scripts", "believed_names.txt")
HEAD_OF_SUMS = "# A checksum of all that a promise of a crate rests on: `scripts/believed.py --write` makes it anew.\n"
BEGIN, END = "<!-- believed: begin -->", "<!-- believed: end -->"
# The number of README, by what stands after it.
NUMBER = re.compile(r"[\d,]+(?=\s+lines\s+of\s+\[definitions\])")
# A name and what it means, a line of the file of names, and such lines together, which are a table of the page.
MEANING = re.compile(r"^  (\S+) (.+)\n", re.M)
MEANINGS = re.compile(f"(?:{MEANING.pattern})+", re.M)
HEAD_OF_MEANINGS = "| Name | What it means |\n|---|---|\n"
# The names of a `Why: `, before its first colon.
WHY = re.compile(r"Why: ((?:`[^`]+`,? )*`[^`]+`): ")


# ---- contracts


def item_of(repository: Repository, function: str) -> tuple[File, Declaration]:
    """Returns a function of the file of the program's own call. Stops where it is gone."""
    crate, module, _ = CALL
    files = (file for file in repository.code if (file.crate, file.module) == (crate, module))
    found = next(((file, item) for file in files for item in file.declarations if item.name == function), None)
    return found or sys.exit(f"no function {function} in crates/{crate}/src/{module}.rt")


def call_of(repository: Repository, names: Sequence[str] = ()) -> CodeItem:
    """Returns the contract of the program's own call, or its clauses of these names. Stops where the program does not
    make that call."""
    function = CALL[-1]
    if not any(f"{function}(" in file.text for file in repository.of_program):
        says = "CALL in scripts/believed.py names the call that it makes"
        sys.exit(f"crates/{bases.PROGRAM} does not call {function}: {says}")
    return declared.contract_of(*item_of(repository, function), names)


def exports(repository: Repository) -> list[CodeItem]:
    """Returns the contracts of the functions that the C library exports."""
    files = [file for file in repository.code if file.crate == bases.EXPORTS]
    functions = [(file, item) for file in files for item in file.declarations if item.kind == "fn"]
    contracts = [declared.contract_of(file, item) for file, item in functions]
    return [contract for contract in contracts if "ensures" in contract.words]


def all_bases(repository: Repository) -> dict[str, Base]:
    """Returns what each contract rests on, by its name."""
    contracts = {clause: [call_of(repository, [clause])] for clause in CLAUSES}
    contracts["program"] = [call_of(repository)]
    contracts["library"] = exports(repository)
    return {name: bases.base_of(repository, its) for name, its in contracts.items()}


# ---- numbers


@dataclass(frozen=True)
class Counts:
    """The lines of the table of PROOF, what has to be read and how much of it, and the number of README."""

    rows: list[tuple[str, Lines]]
    of_readme: int


def unsaid_lines(repository: Repository) -> int:
    """Returns how many lines the code has that no clause speaks of: the program and what gives it its arguments."""
    tokens = [token for file in repository.of_program for token in file.tokens]
    here = len({token.line for token in tokens})
    return here + len({token.line for token in item_of(repository, UNSAID)[1].tokens})


def counts_of(repository: Repository, found: dict[str, Base]) -> Counts:
    """Returns all numbers that the pages give."""
    lines = {name: base.lines for name, base in found.items()}
    behind = sum(definition.lines for definition in bases.definitions_of_clap(found["program"].of_clap))
    count = sum(item.kind == "contract" for item in found["library"].code)
    unsaid = unsaid_lines(repository)
    rows = [
        ("the clause `shows` of `program`", lines["shows"]),
        ("the clause `runs` of `program`", lines["runs"]),
        ("both clauses of `program`", lines["program"]),
        (f"the {count} exports of the C library", lines["library"]),
        ("not in these numbers: what stands behind the names of `clap`", Lines(behind, 0, 0)),
        (f"not in these numbers: `main` and `{UNSAID}`, which have no clause", Lines(0, unsaid, 0)),
    ]
    return Counts(rows, lines["shows"].all)


def table(counts: Counts) -> Iterator[str]:
    """Yields the lines of the table of PROOF."""
    yield "| What has to be read | Definitions | Code | Names | Lines |"
    yield "|---|---|---|---|---|"
    for what, lines in counts.rows:
        numbers = " | ".join(f"{number:,}" for number in (*lines, lines.all))
        yield f"| {what} | {numbers} |"


def with_table(proof: str, counts: Counts) -> str:
    """Returns PROOF with its table made anew. Stops where it has no place for it."""
    before, found_begin, rest = proof.partition(BEGIN)
    _, found_end, after = rest.partition(END)
    if not found_begin or not found_end:
        sys.exit(f"{PROOF} lacks the line '{BEGIN}' or, after it, the line '{END}'")
    return "\n".join([before + BEGIN, "", *table(counts), "", END + after])


def with_number(readme: str, counts: Counts) -> str:
    """Returns README with the right number. Stops if it has none, or several."""
    if len(NUMBER.findall(readme)) != 1:
        sys.exit(f"{README} has to have one number where {NUMBER.pattern} is looked for")
    return NUMBER.sub(f"{counts.of_readme:,}", readme)


def sums_of(repository: Repository, found: dict[str, Base]) -> str:
    """Returns the lines of the file of sums."""
    crates, library = bases.base_of(repository, repository.promises), found["library"]
    lines = set[str]()
    # With the head of a module, which has arguments of what is in it.
    for definition in {*library.definitions, *crates.definitions, *repository.laws}:
        file = repository.specs[definition.key.crate, definition.key.module]
        total = sources.sum_of(file.said([*file.rest, *definition.tokens]))
        lines.add(f"{file.title} {definition.name} {total}\n")
    for file in repository.theorems:
        for theorem in file.declarations:
            total = sources.sum_of(file.said([*file.rest, *theorem.promised]))
            lines.add(f"{file.title} theorem {theorem.name} {total}\n")
    for item in {*library.code, *crates.code}:
        lines.add(f"{item.crate}/{item.file} {item.kind} {item.name} {item.sum}\n")
    return HEAD_OF_SUMS + "".join(sorted(lines))


def page_of(names: str) -> str:
    """Returns the page of the names, with tables of what the file of names has line by line."""

    def table_of(meanings: re.Match[str]) -> str:
        rows = [(name.replace("|", "\\|"), meaning) for name, meaning in MEANING.findall(meanings[0])]
        return HEAD_OF_MEANINGS + "".join(f"| `{name}` | {meaning} |\n" for name, meaning in rows)

    return MEANINGS.sub(table_of, names)


def faults_of_names(names: str, base: Base) -> list[str]:
    """Returns which names of std and of clap the file of names says nothing of, or does not need to."""
    said = {name for name, _ in MEANING.findall(names)}
    wanted = base.of_std | {key.name for key in base.of_clap}
    missing = [f"{NAMES} does not say what {name} means" for name in sorted(wanted - said)]
    unused = [f"{NAMES} says what {name} means, which is not needed" for name in sorted(said - wanted)]
    return missing + unused


def differences(name: str, was: str, text: str) -> list[str]:
    """Returns how a page differs from what the files give."""
    names = f"{name} as it is", f"{name} as the files give it"
    return [*difflib.unified_diff(was.split("\n"), text.split("\n"), *names, lineterm="", n=1)]


def compared(top: str, repository: Repository, found: dict[str, Base], writes: bool) -> int:
    """Compares the pages with what the files give, or writes them, prints the numbers, and returns the status."""
    counts = counts_of(repository, found)
    names = sources.read(os.path.join(top, NAMES))
    wrong = faults_of_names(names, found["program"])
    read = {name: sources.read(os.path.join(top, name)) for name in (README, PROOF, SUMS, PAGE)}
    numbers = with_number(read[README], counts), with_table(read[PROOF], counts)
    made = *numbers, sums_of(repository, found), page_of(names)
    for (name, was), text in zip(read.items(), made):
        path = os.path.join(top, name)
        if writes:
            sources.write(path, text)
        else:
            wrong += differences(name, was, text)
    for what, lines in counts.rows:
        parts = f"{lines.definitions} of definitions, {lines.code} of code, {lines.names} names"
        print(f"{what}: {lines.all} lines, {parts}")
    advice = "; see scripts/believed.py --write" if wrong else ""
    return sources.ended(wrong, f"{len(wrong)} faults{advice}")


# ---- lists


def about(file: File) -> list[str]:
    """Returns the texts of the first comment of a file: what it is about, and each `Why: `."""
    texts = list[str]()
    for line in itertools.takewhile(lambda row: row.startswith("--"), file.text.split("\n")):
        text = line.removeprefix("--").strip()
        if not texts or text.startswith("Why: "):
            texts.append(text)
        else:
            texts[-1] += " " + text
    return texts or [""]


def names_in(file: File, why: str) -> set[str]:
    """Returns the names of a `Why: ` of a file. Stops where it has none, or the file does not define one."""
    match = WHY.match(why)
    names = {*re.findall(r"`([^`]+)`", match[1])} if match else set[str]()
    gone = sorted(names - {*file.of_name})
    if gone or not names:
        says = f"names {', '.join(gone) or 'nothing'}: write definitions of this file"
        sys.exit(f"{file.path}: '{why[:60]}' {says}")
    return names


def shown_definitions(repository: Repository, definitions: Iterable[Declaration]) -> Iterator[str]:
    """Yields a list of definitions file by file, crates and files in reading order."""
    groups: dict[str, dict[str, list[Declaration]]] = {crate: {} for crate in repository.crates}
    for definition in definitions:
        groups[definition.key.crate].setdefault(definition.key.module, []).append(definition)
    for crate, modules in groups.items():
        for module, inside in modules.items():
            file, here = repository.specs[crate, module], {definition.name for definition in inside}
            what, *whys = about(file)
            whys = [why for why in whys if names_in(file, why) & here]
            yield from ("", f"{file.path}: {what}")
            yield from (text for why in whys for text in textwrap.wrap(why, 100))
            for definition in inside:
                text = f"- {definition.name}: {definition.about}"
                yield from textwrap.wrap(text, 100, subsequent_indent="  ")


def shown_code(items: Iterable[CodeItem]) -> Iterator[str]:
    """Yields a list of items of code."""
    yield from ("", "Code:")
    for item in items:
        where = f"crates/{item.crate}/src/{item.file}.rt"
        text = f"- {item.kind} {item.name}, {where}, {item.lines} lines: {item.about}"
        yield from textwrap.wrap(text, 100, subsequent_indent="  ")


def show(repository: Repository, base: Base) -> None:
    """Prints what contracts rest on, as much as a reader takes."""
    signal.signal(signal.SIGPIPE, signal.SIG_DFL)
    print(*shown_definitions(repository, base.definitions), sep="\n")
    print(*shown_code(base.code), sep="\n")
    names = sorted(base.of_std | {key.name for key in base.of_clap})
    if names:
        said = f"Names of std and of clap ({PAGE}): {', '.join(names)}"
        print("", *textwrap.wrap(said, 100), sep="\n")


def main() -> int:
    """Does what the arguments ask for, and returns the status."""
    parser = sources.parser_of(__doc__)
    ways = parser.add_mutually_exclusive_group(required=True)
    ways.add_argument("--check", action="store_true", help="compare the pages with the files")
    ways.add_argument("--write", action="store_true", help="make the numbers, the table and the page of names")
    names = [*CLAUSES, "program", "library"]
    ways.add_argument("--show", choices=names, help="print what a contract rests on")
    given = parser.parse_args()
    repository = bases.read_repository(sources.TOP)
    found = all_bases(repository)
    if given.show:
        show(repository, found[given.show])
        return 0
    return compared(sources.TOP, repository, found, given.write)


if __name__ == "__main__":
    sys.exit(main())
