#!/usr/bin/python3
"""Runs the lints of the gate, each over a wrong text too, in which it has to find something.

What a file is, its first line says, or its ending; a first line `#!` that is none of INTERPRETERS is a fault. Each
file of Python is judged by itself, in forks of this process: black says whether its layout is right, pyflakes and
pycodestyle look at the rest of its style, and this script at how large functions are, and in the tools at the order
of the imports. Programs judge the types, the shell and the manuals. Settings beside the code are not read, but for
scripts/mypy.ini; remarks in the code that silence a lint are faults. What had no fault is judged again where one of
its files or a package of the system changes: out/lints.txt has the sums. Looked at each time are names that two
modules of the tools define, the subjects of commits since SINCE, HANDLES, the root files of the crates, and
debian/tests. The last line is `N lints with the limits S, F faults`: S is a sum of their commands and settings.
"""

import ast
import contextlib
import functools
import gc
import glob
import os
import re
import sys
from concurrent.futures import ProcessPoolExecutor
from dataclasses import dataclass
from operator import methodcaller
from typing import Any, Iterator, Mapping, Sequence

import black
import mccabe
import mypy.api
import pycodestyle
import pyflakes.checker

import sources

FOLDERS = (".ci", "scripts", "tools", "lib", "debian", "man", "completions", "examples")
# The first lines that a file may have, and what reads it.
INTERPRETERS = {
    "#!/usr/bin/python3": "python",
    "#!/usr/bin/env bash": "shell",
    "#!/bin/bash": "shell",
    "#!/bin/sh": "shell",
    "#!/usr/bin/make -f": "",
}
ENDINGS = {".py": "python", ".bash": "completion", ".1": "manual", ".3": "manual", ".5": "manual"}
# The most that a function may have: ways through it, as McCabe counts them, and statements without its docstring.
MOST_WAYS, MOST_STATEMENTS = 15, 30
# How many columns a line of the tools has at most, and one elsewhere and of a text in tests.
NARROW, WIDE = 100, 119
# What pycodestyle leaves to black; and that a line has a statement after a colon, as black has it for `...`.
OF_BLACK = "E1,E20,E21,E22,E23,E24,E25,E27,E3,E704,W1,W3,W5"
# The tools: the most lines and parameters of a function there, how each command starts, names of types.
PACKAGE, MOST_LINES, MOST_PARAMETERS, ENTRY = "tools/labeltools/", 40, 6, "run"
TYPE = re.compile("[A-Z].*[a-z]")
# The merge after which subjects of commits have at most so many letters.
SINCE, LONGEST = "f68bd431", 72
NO_HANDLES = "Handles allowed: none.\n"
AUTO = "#![tactic(auto)]"
# What has to be found in WRONG: another layout, what is not used, a name that is not there, a line that is too long, a
# bare except, a function that has too much of each, a remark that silences a lint, and imports out of order.
BRANCHES = "    if two:\n        pass\n" * MOST_LINES
WRONG = f"""import os  # {'noqa'}
import ast


def one():
    two = three


def four(two, b, c, d, e, f, *g):
{BRANCHES}    try:
        four('{NARROW * 'x'}')
    except:
        pass
"""
FINDS = (
    *("layout", "UnusedImport", "UnusedVariable", "UndefinedName", "E501", "E722", "silences", "order"),
    *("ways", "statements", "lines", "parameters"),
)
# Imports of which three are out of order.
WRONG_ORDER = "import os\nimport ast\nfrom b import A, c\nfrom a import A\nfrom d import b, A\n\nimport e\n"
# Modules that both define a type and a function.
WRONG_MODULES = {
    "one.py": "class Ab:\n    pass\n\n\ndef b():\n    pass\n",
    "two.py": "Ab = int\n\n\ndef b():\n    pass\n",
}
# What mypy has to find: a module that is not there, a function without types, and another type than is said.
UNTYPED = "import nowhere\n\n\ndef one(two):\n    return two\n\n\nnumber: int = 'one'\n"
FINDS_TYPES = ("[import]", "[no-untyped-def]", "[assignment]")
# The folders whose Python is typed, those together that import one another: modules of others may have the same name.
TYPED = (("scripts", "debian"), ("lib",), ("tools", "completions"))
SETTINGS = "scripts/mypy.ini"
TYPES = f"mypy --no-error-summary --config-file {SETTINGS} --cache-dir out/mypy"
SHELL = "shellcheck --norc --format=gcc"
KEPT, WRONG_FILES, PACKAGES = "out/lints.txt", "out/wrong-files", "/var/lib/dpkg/status"
# What silences a lint where it is written.
WORDS = r"noqa|type:\s*ignore|fmt:\s*(?:off|skip)|pragma|mypy:|flake8:|shellcheck disable"
SILENCED = re.compile(rf"#\s*(?:{WORDS})", re.I)


# ---- Python


def faults_of_layout(text: str, width: int) -> Iterator[str]:
    """Whether black gives a text another layout."""
    with contextlib.suppress(black.NothingChanged):
        black.format_file_contents(text, fast=True, mode=black.Mode(line_length=width))
        yield "1: black gives it another layout"


def faults_of_style(path: str, tree: ast.Module, text: str, width: int) -> Iterator[str]:
    """What pyflakes and pycodestyle find in a text."""
    for message in pyflakes.checker.Checker(tree, path).messages:
        yield f"{message.lineno}: {type(message).__name__}: {message.message % message.message_args}"
    given: dict[str, Any] = {"select": "", "ignore": OF_BLACK.split(","), "max_line_length": width}
    style = pycodestyle.StyleGuide(**given, max_doc_length=None, indent_size=4, hang_closing=False)
    checker = pycodestyle.Checker("", text.splitlines(True), style.options)
    found = list[tuple[int, str]]()
    checker.report_error = lambda line, _, said, check: found.append((line, said))
    checker.check_all()
    yield from (f"{line}: {said}" for line, said in found if not style.ignore_code(said[:4]))


def faults_of_size(tree: ast.Module, is_module: bool) -> Iterator[str]:
    """The functions that have too many statements, or too many ways through them; in a module of the tools also those
    that have too many lines, or parameters beside their object."""
    for function in ast.walk(tree):
        if isinstance(function, (ast.FunctionDef, ast.AsyncFunctionDef)):
            count = sum(isinstance(node, ast.stmt) for node in ast.walk(function)) - 1
            count -= ast.get_docstring(function) is not None
            lines = (function.end_lineno or 0) - function.lineno + 1
            takes = [node.arg for node in ast.walk(function.args) if isinstance(node, ast.arg) and node.arg != "self"]
            counts = {"statements": (count, MOST_STATEMENTS)}
            if is_module:
                counts |= {"lines": (lines, MOST_LINES), "parameters": (len(takes), MOST_PARAMETERS)}
            for what, (found, most) in counts.items():
                if found > most:
                    yield f"{function.lineno}: {function.name} has {found} {what}, {most} at most"
    visitor = mccabe.PathGraphingAstVisitor()
    visitor.preorder(tree, visitor)
    for graph in visitor.graphs.values():
        if graph.complexity() > MOST_WAYS:
            yield f"{graph.lineno}: {graph.entity} has {graph.complexity()} ways, {MOST_WAYS} at most"


def disordered(tree: ast.Module) -> Iterator[int]:
    """The lines of imports, not parted by an empty line, that are behind one of a later module, or of the same, or
    whose names are in another order: `import` comes before `from`, and small letters are as large ones.
    """
    before, end = (True, ""), -1
    for node in tree.body:
        if isinstance(node, (ast.Import, ast.ImportFrom)):
            names = [alias.name.casefold() for alias in node.names]
            is_from = isinstance(node, ast.ImportFrom)
            place = (is_from, str(node.module).casefold() if isinstance(node, ast.ImportFrom) else names[0])
            is_behind = node.lineno == end + 1 and place <= before
            if is_behind or names != sorted(names):
                yield node.lineno
            before, end = place, node.end_lineno or 0


def faults_of_remarks(text: str) -> Iterator[str]:
    """The lines of code that silence a lint."""
    for number, line in enumerate(text.split("\n"), 1):
        if SILENCED.search(line):
            yield f"{number}: it silences a lint: {line.strip()}"


def faults_of_python(path: str, text: str) -> Iterator[str]:
    """What is wrong with a text of Python, as that of a path, each with the number of its line."""
    tree, is_tool = ast.parse(text), path.startswith("tools/")
    yield from faults_of_layout(text, NARROW if is_tool else WIDE)
    yield from faults_of_style(path, tree, text, NARROW if is_tool and "/tests/" not in path else WIDE)
    yield from faults_of_size(tree, path.startswith(PACKAGE))
    yield from faults_of_remarks(text)
    if is_tool:
        yield from (f"{number}: its imports are out of order" for number in disordered(tree))


def unseen_in_python() -> Iterator[str]:
    """What is not found in wrong texts."""
    said = "".join(faults_of_python(f"{PACKAGE}wrong.py", WRONG))
    yield from (f"in a wrong text of Python nothing finds {fault}" for fault in FINDS if fault not in said)
    if len([*disordered(ast.parse(WRONG_ORDER))]) != 3:
        yield "imports that are out of order are not found"
    if len([*faults_of_names(WRONG_MODULES)]) != 2:
        yield "names that two modules define are not found"


@dataclass(frozen=True)
class Lint:
    """What judges files: its command or settings, the files, and others that decide what it finds."""

    limits: str
    files: Sequence[str]
    beside: Sequence[str]

    def sum(self) -> str:
        """The sum of all that a run of it depends on."""
        texts = (f"{path}\0{sources.read(path)}" for path in (*self.files, *self.beside))
        return sources.sum_of((f"{os.stat(PACKAGES).st_mtime_ns} {os.environ['PATH']} {self.limits}", *texts))

    def faults(self) -> list[str]:
        """What it finds in files of Python."""
        return [f"{path}:{fault}" for path in self.files for fault in faults_of_python(path, sources.read(path))]


@dataclass(frozen=True)
class Program(Lint):
    """A program that names in each line of what it finds the file: with a file that it has to refuse, which it reads
    last, and what it has to say of that."""

    wrong_name: str
    wrong: str
    finds: tuple[str, ...] = ("",)

    def faults(self) -> list[str]:
        """What it finds, or that it reads no file, or that it finds nothing in what is wrong."""
        wrong = f"{WRONG_FILES}/{self.wrong_name}"
        sources.write(wrong, self.wrong)
        command, *words = *self.limits.split(), *self.files, wrong
        said = "".join(mypy.api.run(words)[:2]) if command == "mypy" else sources.run([command, *words])[1]
        of_wrong = "\n".join(line for line in said.splitlines() if wrong in line)
        unseen = [fault for fault in self.finds if not of_wrong or fault not in of_wrong]
        if unseen or not self.files:
            said += f"{self.limits} {'finds nothing in a wrong file' if unseen else 'reads no file'}: {unseen}"
        return [line for line in said.splitlines() if wrong not in line]


def kind_of(path: str) -> str:
    """What reads a file, or for a first line that is unknown that line; nothing where nothing does."""
    with open(path, "rb") as file:
        first = file.readline().rstrip().decode("utf-8", "replace")
    return INTERPRETERS.get(first, first) if first.startswith("#!") else ENDINGS.get(os.path.splitext(path)[1], "")


def files_by_kind() -> dict[str, list[str]]:
    """The files below the folders, by what reads them."""
    found: dict[str, list[str]] = {"python": [], "shell": [], "completion": [], "manual": []}
    for folder in FOLDERS:
        if not os.path.isdir(folder):
            sys.exit(f"there is no folder {folder}")
        for path in sources.files_below(folder, ""):
            found.setdefault(kind_of(path), []).append(path)
    return found


@functools.lru_cache(maxsize=None)
def defined_in(text: str) -> frozenset[str]:
    """The types and the public functions that a module defines; a type may be another name of one."""
    names = set[str]()
    for node in ast.parse(text).body:
        if isinstance(node, (ast.ClassDef, ast.FunctionDef)):
            names.add(node.name)
        elif isinstance(node, ast.Assign):
            names |= {target.id for target in node.targets if isinstance(target, ast.Name) and TYPE.match(target.id)}
    return frozenset(name for name in names if not name.startswith("_")) - {ENTRY}


def faults_of_names(texts: Mapping[str, str]) -> Iterator[str]:
    """Names that two modules define."""
    seen: dict[str, str] = {}
    for path, text in texts.items():
        for name in sorted(defined_in(text)):
            if seen.setdefault(name, path) != path:
                yield f"{path}: {name} is defined in {seen[name]}, too"


def faults_of_rules() -> Iterator[str]:
    """What HANDLES, the root files of the crates and debian/tests have that they must not have."""
    if sources.read("HANDLES") != NO_HANDLES:
        yield f"HANDLES is not: {NO_HANDLES.rstrip()}"
    for crate in sources.crates_of(sources.TOP):
        roots = glob.glob(f"crates/{crate}/src/lib.rt") + glob.glob(f"crates/{crate}/src/main.rt")
        if not roots or any(AUTO not in sources.read(root).split("\n") for root in roots):
            yield f"crates/{crate}: no line {AUTO} in its root file"
    names = re.findall(r"^Tests: (.*)", sources.read("debian/tests/control"), re.MULTILINE)
    if sorted(names) != sorted({*os.listdir("debian/tests")} - {"control"}):
        yield f"debian/tests has other files than its control names: {names}"


def faults_of_subjects() -> Iterator[str]:
    """Subjects of commits that are too long; a folder without a history, and a clone without SINCE, have none."""
    status, said = sources.run(["git", "log", "--format=%h %s", f"{SINCE}..HEAD"])
    if (
        status
        and os.path.isdir(".git")
        and sources.run(["git", "rev-parse", "--is-shallow-repository"])[1] == "false\n"
    ):
        yield f"the history of HEAD has no commit {SINCE}: scripts/lints.py has to name another one"
    for line in said.splitlines() if status == 0 else ():
        if len(line.partition(" ")[2]) > LONGEST:
            yield f"the subject has more than {LONGEST} letters: {line}"


def below(folders: Sequence[str], paths: Sequence[str]) -> list[str]:
    """The paths that are below one of these folders."""
    return [path for path in paths if path.split(os.sep)[0] in folders]


def all_lints(files: Mapping[str, Sequence[str]]) -> list[Lint]:
    """The lints over these files: of Python one for each."""
    limits = f"{MOST_WAYS} {MOST_STATEMENTS} {MOST_LINES} {MOST_PARAMETERS} {NARROW} {WIDE} {OF_BLACK} {WORDS}"
    beside = [SETTINGS, *sources.files_below("lib/python", ".py")]
    return [
        *(Lint(limits, [path], [__file__]) for path in files["python"]),
        *(
            Program(TYPES, below(folders, files["python"]), beside, "wrong.py", UNTYPED, FINDS_TYPES)
            for folders in TYPED
        ),
        Program(SHELL, files["shell"], [], "wrong.sh", "#!/bin/sh\nrm $1\n"),
        Program(f"{SHELL} --shell=bash", files["completion"], [], "wrong.bash", "rm $1\n"),
        Program("mandoc -Tlint -W warning", files["manual"], [], "wrong.1", ".TH WRONG 1\n.SH NAME\n.XX\n"),
    ]


def judged(lints: Mapping[str, Lint]) -> dict[str, list[str]]:
    """What lints find, by their sums, in forks of this process: some at a time, but the programs one after the other,
    since mypy keeps for the next run what it has read of the modules that all use. Looking for what can be freed would
    take a third of the time."""
    programs = {total: lint for total, lint in lints.items() if isinstance(lint, Program)}
    others = {total: lint for total, lint in lints.items() if total not in programs}
    count = min(len(os.sched_getaffinity(0)), len(lints))
    with ProcessPoolExecutor(count or 1, initializer=gc.disable) as pool:
        of_programs = pool.map(methodcaller("faults"), programs.values(), chunksize=len(programs) or 1)
        found = pool.map(methodcaller("faults"), others.values(), chunksize=4)
        return dict(zip(programs, of_programs)) | dict(zip(others, found))


def main() -> int:
    sources.parser_of(__doc__).parse_args()
    os.chdir(sources.TOP)
    files = files_by_kind()
    faults = [*unseen_in_python(), *faults_of_rules(), *faults_of_subjects()]
    faults += faults_of_names({path: sources.read(path) for path in files["python"] if path.startswith(PACKAGE)})
    faults += [f"{path}: no lint knows {kind}" for kind in files if kind.startswith("#!") for path in files[kind]]
    for path in (*files["shell"], *files["completion"]):
        faults += [f"{path}:{fault}" for fault in faults_of_remarks(sources.read(path))]
    before = sources.read(KEPT).split() if os.path.exists(KEPT) else []
    lints = {lint.sum(): lint for lint in all_lints(files)}
    found = judged({total: lint for total, lint in lints.items() if total not in before})
    sources.write(KEPT, "".join(f"{total}\n" for total in lints if not found.get(total)))
    faults += [fault for of_lint in found.values() for fault in of_lint]
    limits = dict.fromkeys(lint.limits for lint in lints.values())
    last = f"{len(limits)} lints with the limits {sources.sum_of([*limits, str(LONGEST), sources.read(SETTINGS)])}"
    return sources.ended(faults, f"{last}, {len(faults)} faults")


if __name__ == "__main__":
    sys.exit(main())
