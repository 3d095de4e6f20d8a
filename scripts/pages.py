#!/usr/bin/python3
"""Checks the pages against the files that they speak of: *.md, docs/*.md, designs/*.md and crates/*/README.md.

- Each block of code is closed, and its language is one that a script reads: text, one of those below, and sh, sh kit
  and console on the pages alone that run_recipes.py runs.
- Code is quoted as it is: each block of a program's language in the pages of QUOTING, and each block of text that
  begins with a definition (`pub`), is in a file of crates/ or lib/ that the page names before it, line by
  line, but for the spaces in front. A block below a line `Not checked:` is left out.
- Each link from one file of the repository to another leads to a file and a heading.
- Each name between backticks in the pages of NAMING, such as `Filter::feed`, is of words that the code has.
- Each crate has a page of at most 40 lines. Each line of a block of Rust in it, but for imports and comments, is a
  line of the function page_of_NAME in crates/tests/src/pages.rt, in the same order, white space apart; of the pages in
  CALLERS it is one of the function that calls them.
- A number of a page that a step of the gate counts is the one in scripts/counts.txt, and a number of files or lines is
  that of the files. With --write the right numbers are put into the pages.
- Each contract that README names for a crate is declared in this crate.
- No sentence speaks of how the project was made, with the words of OF_THE_MAKING.
- No line is a mark of a merge that somebody has to settle. None, not even that of a table, has more than LONGEST_LINE
  bytes: Debian's lintian takes longer ones for the work of a program.

The last line is `N pages, L links, B blocks, K names, M numbers, F faults`. A fault is a line before it, and makes the
status 1. A paragraph of more than MOST_WORDS words is a line before it too, but no fault: such a paragraph is read
twice, or not at all.
"""

import functools
import glob
import os
import re
import sys
from dataclasses import dataclass
from typing import Container, Iterable, Iterator, Mapping

from markdown_it import MarkdownIt
from markdown_it.token import Token

import gate
import sources

# The pages whose commands run_recipes.py runs.
README = "README.md"
DESIGNS = "designs/README.md"
PRINTING = ("docs/SHEETS.md", "docs/ROLLS.md")
RUN = (
    *(README, "docs/INSTALL.md", "docs/TABLE.md", "docs/LINES.md", *PRINTING, "docs/TICKETS.md", "docs/STREAM.md"),
    *("docs/RECIPES.md", DESIGNS),
)
QUOTED = {"rust", "python", "c"}
COMMANDS = {"sh", "sh kit", "console"}
LANGUAGES = {"text", *COMMANDS, *QUOTED}
# What a command of a session is behind.
PROMPT = "$ "
# The pages of the proof: its entry, what a run promises, and whether contracts are strong enough.
PROOF = "docs/PROOF.md"
PROMISES = "docs/PROOF-RUN.md"
EVIDENCE = "docs/EVIDENCE.md"
QUOTING = ("docs/PYTHON.md", "docs/LIBRARY.md", PROOF)
# The pages that name the code, and the files that have its words.
NAMING = (
    *(f"docs/{name}.md" for name in ("ARCHITECTURE", "CHANGING", "DEFINITIONS", "LIBRARY", "PYTHON", "SPECIFICATION")),
    *(f"docs/PROOF{name}.md" for name in ("", "-READING", "-DAMAGE", "-LIBRARY")),
    *(PROMISES, EVIDENCE),
)
CODE = (
    *("crates/*/src/**/*.rt", "crates/*/specs/*.antt", "crates/*/proofs/**/*.antt"),
    *("lib/**/*.*", "lib/Makefile", "scripts/*.py", "tools/labeltools/**/*.*", "tools/tests/*.*"),
)
MOST_WORDS = 90
OF_MERGES = re.compile(r"(?:<<<<<<<|>>>>>>>|\|\|\|\|\|\|\|) .*")
WITHOUT_EXAMPLE = {"labels", "labels_c", "examples", "tests", "acceptance", "qr_acceptance", "hostile", "plain_qr"}
LONGEST = 40
LONGEST_LINE = 500
FILE = re.compile(r"\b(?:crates/[\w/]+\.(?:rt|antt)|lib/[\w/]+\.\w+)\b")
# A name of the code: words that are joined by colons or points, as in `Filter::feed`, `answer.length`.
NAME = re.compile(r"[^\W\d]\w*(?:(?:::|\.)[^\W\d]\w*)*(?:\(\))?")
# The functions that have the lines of the pages' examples, by their names, and in which files they are.
FUNCTION = re.compile(r"^(?:pub extern \"C\" )?fn (\w+)\(.*?\{\n(.*?)^\}", re.MULTILINE | re.DOTALL)
OF_PAGES = "crates/tests/src/pages.rt"
CALLERS = {
    "command": ("main", "crates/labels/src/main.rt"),
    "capi": ("labels_proved_draw", "crates/labels_c/src/lib.rt"),
}
NOT_CHECKED = "Not checked:"
# The folders and endings of the files whose lines PROOF counts, and how a comment in them begins.
COUNTED_LINES = {
    "code": ("src", ".rt", "//"),
    "definitions": ("specs", ".antt", "--"),
    "proofs": ("proofs", ".antt", "--"),
}
WRONG_BODIES, BELIEVED = "wrong bodies", "believed lines"
# The row of PROOF's table that believed.py writes, whose last number is how much a sceptic has to read.
OF_SHOWS = re.compile(r"the clause `shows` of `program` \|.* ([\d,]+) \|\n")
# What pages say: the page, the sentence with the number, what counts it (a step of scripts/counts.txt or one of
# `counted_here`), and how the number is found there.
IN_PAGES = (
    (PROOF, r"about\s+([\d,]+)\s+lines\s+of\s+code", "code", r"(\d+)"),
    (PROOF, r"about\s+([\d,]+)\s+lines\s+of\s+definitions", "definitions", r"(\d+)"),
    (PROOF, r"on\s+([\d,]+)\s+lines\s+of\s+proof", "proofs", r"(\d+)"),
    (PROOF, r"\[([\d,]+)\s+lines\]", BELIEVED, r"(\d+)"),
    (PROOF, r"back\s+all\s+([\d,]+)\s+labels", "compare_symbols.py", r"(\d+) read back"),
    (PROOF, r"In\s+([\d,]+)\s+definitions", "believed_rows.py", r"of (\d+) definitions"),
    (PROOF, r"([\d,]+)\s+changes\s+were\s+refused", "believed_rows.py", r"^(\d+) changes"),
    (PROOF, r"other\s+([\d,]+)\s+mean\s+the\s+same", "believed_rows.py", r"(\d+) mean the same"),
    (EVIDENCE, r"([\d,]+)\s+wrong\s+functions", WRONG_BODIES, r"(\d+)"),
    (EVIDENCE, r"([\d,]+)\s+changes\*\*\s+of", "believed_rows.py", r"^(\d+) changes"),
    (EVIDENCE, r"in\s+([\d,]+)\s+definitions", "believed_rows.py", r"of (\d+) definitions"),
    (EVIDENCE, r"([\d,]+)\s+worked\s+values", "unused.py", r"^(\d+) worked"),
    (EVIDENCE, r"([\d,]+)\s+labels\*\*\s+are", "compare_symbols.py", r"(\d+) read back"),
    (EVIDENCE, r"([\d,]+)\s+of\s+them\s+are\s+drawn", "compare_symbols.py", r"(\d+) of \1 as zint"),
    (EVIDENCE, r"([\d,]+)\s+symbols\*\*\s+of", "read_foreign.py", r"(\d+) read as asked"),
    (EVIDENCE, r"([\d,]+)\s+requests\s+for\s+memory", "refuse_each_growth.py", r"^(\d+) growths"),
    (EVIDENCE, r"([\d,]+)\s+tests\*\*\s+of", "run_tests.py tools/tests", r"^(\d+) passed"),
    (EVIDENCE, r"tools,\s+([\d,]+)\s+of", "run_tests.py lib/tests", r"^(\d+) passed"),
    (EVIDENCE, r"([\d,]+)\s+of\s+our\s+own\s+scripts", "run_tests.py scripts/tests", r"^(\d+) passed"),
    (EVIDENCE, r"([\d,]+)\s+groups\s+of\s+commands", "run_recipes.py", r"^(\d+) of"),
    (EVIDENCE, r"([\d,]+)\s+other\s+changes\s+mean", "believed_rows.py", r"(\d+) mean the same"),
    (EVIDENCE, r"contract\s+rests\s+on,\s+([\d,]+)", "believed_rows.py", r"(\d+) of \d+ behind the program"),
    (EVIDENCE, r"([\d,]+)\s+definitions\s+that\s+the", "believed_rows.py", r"of (\d+) behind the program"),
    (EVIDENCE, r"library's\s+[\d,]+,\s+([\d,]+)", "believed_rows.py", r"(\d+) of \d+ behind the library"),
    (EVIDENCE, r"of\s+the\s+library's\s+([\d,]+),", "believed_rows.py", r"of (\d+) behind the library"),
    (EVIDENCE, r"([\d,]+)\s+more\s+were\s+given", "read_foreign.py", r"(\d+) damaged"),
    (EVIDENCE, r"gives\s+([\d,]+)\s+damaged\s+labels", "scan_damaged.py", r"^(\d+) damaged"),
    (EVIDENCE, r"([\d,]+)\s+of\s+them\s+were\s+misread", "scan_damaged.py", r"(\d+) misread"),
    (EVIDENCE, r"([\d,]+)\s+bar\s+codes\s+with\s+wrong", "scan_damaged.py", r"of (\d+) guessed"),
)
# What a sentence about the product does not have: who made it, when, on which machine, what was tried on the way.
OF_THE_MAKING = re.compile(
    r"\b(?:language models?|[Hh]elpers?|[Rr]eviewers?|[Ii]ssue \d+|[Cc]ommit [\da-f]{7,}|20\d\d-\d\d-\d\d"
    r"|[Ww]e (?:once|tried|ran|wanted|measured again|had decided)|At first|[Oo]nce by hand"
    r"|on (?:a|another) (?:slower|faster|older|busier) (?:machine|host))\b"
)
# A row of README's table of the crates, and the names of crates and contracts in it.
OF_CRATES = re.compile(r"^\| \[\w+\]\(crates/.*$", re.MULTILINE)
CRATE = re.compile(r"\(crates/(\w+)/README\.md\)")
CONTRACT = re.compile(r"`(?:\w+::)?(\w+)`")
MARKDOWN = MarkdownIt().enable("table")


@dataclass(frozen=True)
class Block:
    """A block of code: the number of its first line, its language, its code, the page above it, and whether it is
    closed and whether nothing is between it and the block before."""

    line: int
    language: str
    code: str
    above: str
    is_closed: bool
    is_next: bool


@dataclass(frozen=True)
class Number:
    """A number on a page: the page, the sentence that has it, the right number ("" if it is not counted), and the line
    that counts it."""

    page: str
    sentence: str
    right: str
    line: str


def texts() -> dict[str, str]:
    """The text of each page, by its path."""
    crates = [f"crates/{name}/README.md" for name in sources.crates_of(sources.TOP)]
    paths = [*(path for folder in ("", "docs/", "designs/") for path in sorted(glob.glob(f"{folder}*.md"))), *crates]
    missing = [path for path in dict.fromkeys((*paths, *RUN, *QUOTING, *NAMING)) if not os.path.isfile(path)]
    if missing:
        sys.exit("\n".join(f"there is no {path}" for path in missing))
    return {path: sources.read(path) for path in paths}


@functools.lru_cache(maxsize=None)
def parsed(text: str) -> list[Token]:
    """The tokens of the text of a page."""
    return MARKDOWN.parse(text)


def blocks_of(text: str) -> Iterator[Block]:
    """The blocks of a page."""
    lines = text.split("\n")
    tokens = parsed(text)
    for before, token in zip([None, *tokens], tokens):
        if token.type == "fence":
            start, end = token.map or (0, 0)
            language = token.info.strip() if token.markup == "```" else token.markup
            is_closed = lines[end - 1].strip() == token.markup and "```" not in token.content
            is_next = before is not None and before.type == "fence"
            yield Block(start + 1, language, token.content, "\n".join(lines[:start]), is_closed, is_next)


def faults_of_blocks(page: str, blocks: Iterable[Block]) -> Iterator[tuple[int, str]]:
    """What is wrong with the blocks of a page, each with the number of its line."""
    for block in blocks:
        is_quoted = block.language in QUOTED or block.code.startswith("pub ")
        if not block.is_closed:
            yield block.line, "this block is not closed"
        elif block.language not in LANGUAGES:
            yield block.line, f"no script reads blocks of {block.language or 'no language'}"
        elif block.language in COMMANDS and page not in RUN:
            yield block.line, "nothing runs the commands of this page: write them as text"
        elif block.language == "console" and not block.code.startswith(PROMPT):
            yield block.line, "this session does not begin with a prompt"
        elif page in QUOTING and is_quoted and not block.above.rstrip().endswith(NOT_CHECKED):
            if not is_in_files(block.code, block.above):
                yield block.line, "this code is in no file that the page names above it"


def stripped(text: str) -> str:
    """The lines of a text without the spaces around them and without blank lines, each with its line end."""
    return "".join(f"{line.strip()}\n" for line in text.split("\n") if line.strip())


def is_in_files(code: str, above: str) -> bool:
    """Whether code is in one of the files that the text above it names."""
    texts = ["\n" + stripped(sources.read(path)) for path in {*FILE.findall(above)} if os.path.isfile(path)]
    return any("\n" + stripped(code) in text for text in texts)


def anchors_of(text: str) -> list[str]:
    """The names by which links lead to the headings of a page."""
    tokens = parsed(text)
    headings = [inline.content for token, inline in zip(tokens, tokens[1:]) if token.type == "heading_open"]
    return [re.sub(r"[^\w\- ]", "", heading.lower()).replace(" ", "-") for heading in headings]


def fault_of_link(page: str, link: str) -> str | None:
    """What is wrong with a link of a page, or nothing."""
    path, _, anchor = link.partition("#")
    target = os.path.join(os.path.dirname(page), path) if path else page
    if not os.path.exists(target):
        return f"a link to no file: {link}"
    if anchor and anchor not in anchors_of(sources.read(target)):
        return f"a link to no heading: {link}"
    return None


def links_of(text: str) -> Iterator[tuple[int, str]]:
    """The links of a page to files of the repository, each with the number of its line."""
    for token in parsed(text):
        start, _ = token.map or (0, 0)
        links = [str(part.attrs.get("href") or part.attrs.get("src") or "") for part in token.children or []]
        yield from ((start + 1, link) for link in links if link and ":" not in link)


def long_paragraphs(text: str) -> Iterator[tuple[int, int]]:
    """The paragraphs of a page that are too long, each with the number of its line, and how many words it has."""
    tokens = parsed(text)
    for before, token in zip(tokens, tokens[1:]):
        count = len(token.content.split())
        if before.type == "paragraph_open" and count > MOST_WORDS:
            start, _ = token.map or (0, 0)
            yield start + 1, count


def names_in(text: str) -> Iterator[tuple[int, str]]:
    """The names between backticks in a page's prose and tables, each with the number of its line."""
    for token in parsed(text):
        start, _ = token.map or (0, 0)
        for part in token.children or []:
            if part.type == "code_inline" and NAME.fullmatch(part.content):
                yield start + 1, part.content


def words_of_code() -> set[str]:
    """The words of the code and of the names of its files: of the crates, the library, the scripts and the tools."""
    paths = [path for pattern in CODE for path in glob.glob(pattern, recursive=True) if os.path.isfile(path)]
    paths = [path for path in paths if "__pycache__" not in path]
    return {word for path in paths for word in re.findall(r"\w+", path + " " + sources.read(path))}


def faults_of_names(text: str, words: Container[str]) -> Iterator[tuple[int, str]]:
    """The names of a page that the code does not have."""
    for line, name in names_in(text):
        if any(word not in words for word in re.findall(r"\w+", name)):
            yield line, f"no `{name}` in the code"


def words_of(code: str) -> str:
    """The words of code with a space around each, without comments and the commas that a formatter puts last."""
    words = re.findall(r'"(?:\\.|[^"\\])*"|\w+|[^\w\s]', re.sub(r"(?<!:)//.*", "", code))
    return re.sub(r" , (?=[)\]}]|$)", " ", f" {' '.join(words)} ")


def example_of(name: str) -> tuple[str, str]:
    """The function that has the lines of a crate's example, and its words."""
    function, path = CALLERS.get(name, (f"page_of_{name}", OF_PAGES))
    bodies = dict(FUNCTION.findall(sources.read(path)))
    return f"{function} of {path}", words_of(bodies.get(function, ""))


def faults_of_lines(text: str) -> Iterator[tuple[int, str]]:
    """What is wrong with the lines of a page, each with its number."""
    for number, line in enumerate(text.split("\n"), 1):
        if OF_MERGES.match(line):
            yield number, f"a merge left: {line}"
        if len(line.encode()) > LONGEST_LINE:
            yield number, f"{len(line.encode())} bytes in a line, and at most {LONGEST_LINE} are wanted"


def faults_of_example(name: str, page: str, blocks: Iterable[Block]) -> Iterator[tuple[int, str]]:
    """What is wrong with a crate's page: its length, and each line that the code does not have in its place."""
    if page.count("\n") > LONGEST:
        yield 1, f"{page.count(chr(10))} lines, and at most {LONGEST} are wanted"
    function, words = example_of(name)
    place, is_empty = 0, True
    for block in blocks:
        for line in block.code.split("\n") if block.language == "rust" else []:
            wanted = words_of(line)
            if wanted.strip() and not wanted.startswith(" use "):
                is_empty, found = False, words.find(wanted, place)
                if found < 0:
                    yield block.line, f"{function} lacks: {line.strip()}"
                else:
                    place = found + len(wanted) - 1
    if is_empty and name not in WITHOUT_EXAMPLE:
        yield 1, "no example"


def lines_of_code(folder: str, ending: str, comment: str) -> int:
    """How many lines the files in this folder of each crate have, without comments and blank lines."""
    paths = [path for path in sources.files_below("crates", ending) if f"/{folder}/" in path]
    lines = [line.strip() for path in paths for line in sources.read(path).split("\n")]
    return len([line for line in lines if line and not line.startswith(comment)])


def counted_here() -> dict[str, str]:
    """What this script counts itself: wrong bodies, lines of the crates in thousands, and those to be believed."""
    lines = {name: str(round(lines_of_code(*files), -3)) for name, files in COUNTED_LINES.items()}
    believed = OF_SHOWS.search(sources.read(PROOF))
    bodies = len(glob.glob("crates/*/wrong-bodies/*"))
    return {**lines, WRONG_BODIES: str(bodies), BELIEVED: believed[1].replace(",", "") if believed else ""}


def right_numbers() -> list[Number]:
    """The numbers of IN_PAGES."""
    lines = sources.read(gate.COUNTS).splitlines()
    kept = {**dict(line.split(": ", 1) for line in lines if not line.startswith("#")), **counted_here()}
    numbers: list[Number] = []
    for page, sentence, step, place in IN_PAGES:
        line = kept.get(step, "")
        found = re.search(place, line)
        numbers.append(Number(page, sentence, f"{int(found[1]):,}" if found else "", line))
    return numbers


def faults_of_counts(pages: Mapping[str, str]) -> Iterator[str]:
    """The numbers of pages that are not those that are counted, or that a page lacks."""
    for number in right_numbers():
        said = [*re.finditer(number.sentence, pages[number.page])]
        wrong = [" ".join(found[0].split()) for found in said if found[1] != number.right]
        if wrong or not said:
            what = wrong[0] if wrong else f"no {number.sentence}"
            yield f"{number.page}: {what}, and counted is {number.line or 'nothing'}"


def write_counts(pages: Mapping[str, str]) -> None:
    """Puts the right numbers into the pages."""
    texts = dict(pages)
    for number in right_numbers():
        text = texts[number.page]
        for found in reversed([*re.finditer(number.sentence, text)] if number.right else []):
            text = text[: found.start(1)] + number.right + text[found.end(1) :]
        texts[number.page] = text
    for page, text in texts.items():
        if text != pages[page]:
            sources.write(page, text)


def faults_of_contracts(text: str) -> Iterator[tuple[int, str]]:
    """The contracts in README's table of the crates that none of the crates of their row declares."""
    for row in OF_CRATES.finditer(text):
        folders = [f"crates/{crate}/src" for crate in CRATE.findall(row[0])]
        code = "".join(sources.read(path) for folder in folders for path in sources.files_below(folder, ".rt"))
        declared = set(re.findall(r"\b(?:fn|trait) (\w+)", code))
        for name in CONTRACT.findall(row[0].split(" | ")[-1]):
            if name not in declared:
                yield text.count("\n", 0, row.start()) + 1, f"no crate of this row declares {name}"


def faults_of_making(text: str) -> Iterator[tuple[int, str]]:
    """The sentences of a page that speak of how the project was made. The headings of versions have their dates."""
    tokens = parsed(text)
    for before, token in zip(tokens, tokens[1:]):
        is_prose = token.type == "inline" and before.type != "heading_open"
        found = OF_THE_MAKING.search(token.content) if is_prose else None
        if found:
            start, _ = token.map or (0, 0)
            yield start + 1, f"this speaks of the making: {found[0]}"


def main() -> int:
    parser = sources.parser_of(__doc__)
    parser.add_argument("--write", action="store_true", help="put the right numbers into the pages")
    wants_numbers = parser.parse_args().write
    os.chdir(sources.TOP)
    if wants_numbers:
        write_counts(texts())
    pages = texts()
    faults, known = [*faults_of_counts(pages)], words_of_code()
    count = links = 0
    names = sum(len([*names_in(pages[page])]) for page in NAMING)
    for page, text in pages.items():
        blocks = [*blocks_of(text)]
        count += len(blocks)
        links += len([*links_of(text)])
        for line, words in long_paragraphs(text):
            print(f"{page}:{line}: a paragraph of {words} words is long")
        found = [*faults_of_blocks(page, blocks)]
        found += [*faults_of_lines(text), *faults_of_making(text)]
        found += [(line, fault) for line, link in links_of(text) if (fault := fault_of_link(page, link))]
        if page == README:
            found += faults_of_contracts(text)
        if page in NAMING:
            found += faults_of_names(text, known)
        if page.startswith("crates/"):
            found += faults_of_example(page.split("/")[1], text, blocks)
        faults += [f"{page}:{number}: {fault}" for number, fault in found]
    counts = f"{len(pages)} pages, {links} links, {count} blocks, {names} names, {len(IN_PAGES)} numbers"
    return sources.ended(faults, f"{counts}, {len(faults)} faults")


if __name__ == "__main__":
    sys.exit(main())
