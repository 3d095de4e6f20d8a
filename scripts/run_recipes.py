#!/usr/bin/python3
"""Runs each command of the documents, and compares what it prints.

The pages are those of RUN in pages.py, and the examples of the man pages. A block ```sh holds commands, and the block
```text right after it, if there is one, what they print on standard output and standard error together; where there is
none, they print nothing. A block ```console is a session: each command is behind a prompt `$ `, its other lines behind
`> `, and what it prints is below it; `$ cat FILE` of a file that is not there makes the file. A block ```sh, and each
command of a session, has to end with status 0. If a command of a session does not, a comment right above the session,
which no reader sees, has the status of each: `<!-- statuses: 0 1 -->`. The blocks of a page run in their order, each
by its own `sh`, at the top of a new copy of the repository's files, with `labels` and the tools on the path, and
with a home of their own. A block ```sh kit calls the kit, which proves for minutes: it does not run.

In a man page an example with prompts is a session, too: there each command may end with any status. An example without
a prompt has to end with status 0 and may print anything; it runs in labels.1 alone, since those of the other man pages
name files of the reader.

Besides, the pictures that draw_pictures.sh makes after the commands of designs/README.md must be those of
docs/pictures but those of the window, pixel for pixel. The last line is `N of N as printed`; where one is not, the
status is 1. In each run this is shown wrong cases first, each of which it has to report: commands that print something
else than the page says, if only in the last letter, one that fails, and other pictures, if only in one pixel.
"""

import compileall
import contextlib
import io
import os
import py_compile
import re
import shutil
import subprocess
import sys
import tempfile
from dataclasses import dataclass, replace
from pathlib import Path
from typing import Iterable, Iterator, Mapping, Sequence

import pages
import sources

TOP = Path(sources.TOP)
PICTURES = TOP / "docs/pictures"
# Pictures of the window: themes and fonts of a desktop make them others, so they are drawn by hand.
OF_A_SCREEN = ("window.png", "window-steps.png")
PROGRAM = "crates/labels/out/labels"
FOLDERS = ("man", "completions", "tools", "lib", "docs", "scripts", "designs", "examples")
SECONDS = 3600
CONTINUED = "> "
EXAMPLE = re.compile(r"(?:^ {14}.*\n)+", re.MULTILINE)
# The statuses of a session's commands, in a comment right above it.
STATUSES = re.compile(r"<!-- statuses: ([\d ]+) -->\s*\Z")
SHOWN_FILE = re.compile(r"cat ([\w.]+)\n")
END = "END OF FILE"
# What the last command of a page or a manual prints otherwise than these say, behind what is right.
RIGHT = "```sh\necho right\n```\n\n```text\nright\n```\n\n"
WRONG_PAGES = {
    "a block and what it prints": "```sh\necho right\n```\n\n```text\nwrong\n```\n",
    "a block that prints nothing": "```sh\necho wrong\n```\n",
    "a session": "```console\n$ echo right\nright\n$ echo right\nwrong\n```\n",
    "a session that fails": "```console\n$ echo right; false\nright\n```\n",
    "a session with a wrong status": "<!-- statuses: 0 1 -->\n```console\n$ echo right\nright\n$ true\n```\n",
    "a session that goes on": "```console\n$ echo \\\n> right\nwrong\n```\n",
    "a file that is shown": "```console\n$ cat one.csv\none\n$ cat one.csv\ntwo\n```\n",
}
IN_MANUAL = ".PP\n.RS\n.EX\n$ echo right\n{}\n.EE\n.RE\n"
WRONG_MANUAL = f".TH WRONG 1\n.SH EXAMPLES\n{IN_MANUAL.format('right')}{IN_MANUAL.format('wrong')}.SH BUGS\nNone.\n"


@dataclass(frozen=True)
class Commands:
    """Commands, and what they print (None where that is not compared)."""

    text: str
    printed: str | None = ""

    def fault(self, folder: Path, environment: Mapping[str, str]) -> str:
        """Runs them, and returns what is wrong with what they print, or nothing."""
        ran = subprocess.run(
            ["sh", "-c", self.text],
            cwd=folder,
            env=environment,
            stdin=subprocess.DEVNULL,
            stdout=subprocess.PIPE,
            stderr=subprocess.STDOUT,
            timeout=SECONDS,
        )
        printed = ran.stdout.decode("utf-8", "backslashreplace")
        is_good = ran.returncode == 0 and self.printed in (None, printed)
        return "" if is_good else f"status {ran.returncode} of:\n{self.text}it printed:\n{printed}"


# What makes the pictures, and the page whose commands run before it.
PICTURED = pages.DESIGNS
DRAWN = Commands("tools/tests/draw_pictures.sh\n")


def commands_of(page: str) -> Iterator[Commands]:
    """The commands of a page."""
    blocks = [*pages.blocks_of((TOP / page).read_text(encoding="utf-8"))]
    for block, after in zip(blocks, [*blocks[1:], None]):
        if block.language == "sh":
            yield Commands(block.code, after.code if after and after.is_next and after.language == "text" else "")
        elif block.language == "console":
            yield session_of(block.code.splitlines(keepends=True), statuses=statuses_above(block.above))


def statuses_above(text: str) -> list[str]:
    """The statuses of a session's commands in the comment at the end of a text, or none."""
    found = STATUSES.search(text)
    return found[1].split() if found else []


def session_of(lines: Iterable[str], may_fail: bool = False, statuses: Sequence[str] = ()) -> Commands:
    """The commands of a session, which begins with a prompt, and what one `sh` prints of them. After each command it
    prints a mark with the status of that command, which is 0 if no statuses are given, or an empty mark if any will
    do."""
    typed: list[tuple[str, str]] = []
    for line in lines:
        if line.startswith(pages.PROMPT):
            typed.append((line.removeprefix(pages.PROMPT), ""))
        elif line.startswith(CONTINUED):
            typed[-1] = (typed[-1][0] + line.removeprefix(CONTINUED), typed[-1][1])
        else:
            typed[-1] = (typed[-1][0], typed[-1][1] + line)
    asked = "" if may_fail else '"$?"'
    wanted = [""] * len(typed) if may_fail else statuses or ["0"] * len(typed)
    if len(wanted) != len(typed):
        wanted = ["as many statuses as commands"] * len(typed)
    text = [f"{with_file(command, printed)}printf '\\001%s\\001' {asked}\n" for command, printed in typed]
    return Commands("".join(text), "".join(f"{printed}\1{status}\1" for (_, printed), status in zip(typed, wanted)))


def with_file(command: str, printed: str) -> str:
    """A command of a session. One that shows a file makes it before, where it is not there."""
    shown = SHOWN_FILE.fullmatch(command)
    return f"[ -e {shown[1]} ] || cat > {shown[1]} <<'{END}'\n{printed}{END}\n{command}" if shown else command


def examples_of(page: Path) -> list[Commands]:
    """The examples of a man page: commands behind a prompt and what they print, and in labels.1 commands alone."""
    environment = {**os.environ, "MANWIDTH": "200", "MAN_KEEP_FORMATTING": ""}
    text = subprocess.run(["man", "-l", page], capture_output=True, check=True, text=True, env=environment).stdout
    section = re.search(r"^EXAMPLES\n(.*?)^\S", text, re.MULTILINE | re.DOTALL)
    found: list[Commands] = []
    for example in EXAMPLE.findall(section.group(1) if section else ""):
        lines = [f"{line[14:]}\n" for line in example.splitlines()]
        if lines[0].startswith(pages.PROMPT):
            found.append(session_of(lines, may_fail=True))
        elif page.name == "labels.1":
            found.append(Commands("".join(lines), None))
    return found


def prepare(folder: Path, program: Path) -> dict[str, str]:
    """Copies the repository's files and the program, and returns the environment of the commands."""
    work = folder / "labels"
    for part in FOLDERS:
        shutil.copytree(TOP / part, work / part)
    shutil.copy(TOP / "CHANGELOG.md", work)
    for name in ("bin", "home"):
        (folder / name).mkdir()
    (work / PROGRAM).parent.mkdir(parents=True)
    shutil.copy(program, work / PROGRAM)
    (folder / "bin/labels").symlink_to(work / PROGRAM)
    environment = {name: value for name, value in os.environ.items() if name != "LABELS"}
    for library in sorted((TOP / "out/lib").glob("liblabels.so.*")):  # the tools draw by it
        environment.setdefault("LABELS_LIBRARY", str(library))
    return {
        **environment,
        "HOME": f"{folder}/home",
        "PATH": f"{folder}/bin:{work}/tools:{os.environ['PATH']}",
        "PYTHONPATH": f"{work}/lib/python",
    }


def faults_of(name: str, commands: Sequence[Commands], program: Path) -> Iterator[str]:
    """What is wrong with each command of a page, and with each picture that they make; "" for one that is right."""
    if not commands:
        yield "no command to run"
    with tempfile.TemporaryDirectory() as folder:
        work = Path(folder, "labels")
        environment = prepare(Path(folder), program)
        for block in commands:
            yield block.fault(work, environment)
        if name == PICTURED:
            yield DRAWN.fault(work, environment)
            for picture in sorted(PICTURES.iterdir()):
                if picture.name not in OF_A_SCREEN:
                    yield fault_of_picture(picture, work / picture.name)


def fault_of_picture(picture: Path, made: Path) -> str:
    """What is wrong with a picture that was made, or nothing where its pixels are those of a picture of the pages."""
    wanted, found = (subprocess.run(["pngtopnm", file], capture_output=True).stdout for file in (picture, made))
    return "" if wanted and wanted == found else f"{picture.name} is not what draw_pictures.sh makes"


def judged(name: str, faults: Iterable[str]) -> tuple[int, int]:
    """How many things were tried and how many are right. Prints what is wrong with the others."""
    count = good = 0
    for fault in faults:
        count += 1
        good += not fault
        if fault:
            print(f"{name}: {fault}", flush=True)
    return count, good


def with_turned_pixel(picture: Path, folder: Path) -> Path:
    """A copy of a picture whose last pixel is another, so that nothing but that tells them apart."""
    pixels = subprocess.run(["pngtopnm", picture], capture_output=True, check=True).stdout
    turned = subprocess.run(
        ["pnmtopng"], input=pixels[:-1] + bytes([pixels[-1] ^ 0x80]), capture_output=True, check=True
    )
    (folder / "turned.png").write_bytes(turned.stdout)
    return folder / "turned.png"


def faults_of_wrong_pages(folder: Path) -> Iterator[tuple[str, str]]:
    """What is found of the last commands of WRONG_PAGES and of a manual; nothing where something is wrong before."""
    texts = {what: ("wrong.md", RIGHT + text) for what, text in WRONG_PAGES.items()}
    for what, (name, text) in {**texts, "a manual": ("wrong.1", WRONG_MANUAL)}.items():
        page = folder / name
        page.write_text(text, encoding="utf-8")
        commands = examples_of(page) if name == "wrong.1" else commands_of(f"{page}")
        first, *_, last = [block.fault(folder, {"PATH": os.defpath}) for block in commands]
        yield what, "" if first else last


def wrong_cases() -> Iterator[tuple[str, bool]]:
    """Wrong cases before, between and behind right ones, each with whether it is reported alone."""
    picture, another = sorted(PICTURES.glob("*.png"))[:2]
    right = Commands("echo right\n", "right\n")
    with tempfile.TemporaryDirectory() as name:
        folder = Path(name)
        cases = {
            "other output": replace(right, printed="wrong\n").fault(folder, {}),
            "another last letter": replace(right, printed="righs\n").fault(folder, {}),
            "no output": replace(right, text="true\n").fault(folder, {}),
            "a failure": replace(right, text="echo right; false").fault(folder, {}),
            "output of another command": session_of(["$ true\n", "right\n", "$ echo right\n"]).fault(folder, {}),
            "another picture": fault_of_picture(picture, another),
            "another pixel": fault_of_picture(picture, with_turned_pixel(picture, folder)),
            "no picture": fault_of_picture(picture, folder / picture.name),
            **dict(faults_of_wrong_pages(folder)),
        }
    for name, fault in cases.items():
        for place in range(3):
            with contextlib.redirect_stdout(io.StringIO()) as said:
                counts = judged(name, [""] * place + [fault] + [""] * (2 - place))
            yield f"{name}, number {place} of three", counts == (3, 2) and fault in said.getvalue()


def main() -> int:
    program = Path(sources.program_given(__doc__))
    commands = {page: [*commands_of(page)] for page in pages.RUN}
    manuals = {f"man/{page.name}": examples_of(page) for page in sorted((TOP / "man").glob("*.[15]"))}
    commands |= {name: found for name, found in manuals.items() if found or name == "man/labels.1"}
    # The tools start more than a hundred times, and without byte code each time from their texts.
    by_sum = py_compile.PycInvalidationMode.CHECKED_HASH
    compileall.compile_dir(TOP / "tools/labeltools", quiet=1, invalidation_mode=by_sum)
    cases = [*wrong_cases()]
    counts = [judged(name, faults_of(name, found, program)) for name, found in commands.items()]
    count, good = map(sum, zip(*counts))
    faults = [] if good == count else [f"{count - good} are not"]
    return sources.ended(faults, f"{good} of {count} as printed", cases)


if __name__ == "__main__":
    sys.exit(main())
