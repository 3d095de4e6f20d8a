"""The completion for bash, fish and zsh: what each shell proposes for a line, compared with the help texts."""

import os
import pty
import re
import select
import shlex
import subprocess
import sys
import tempfile
import unittest
from importlib import import_module
from pathlib import Path
from typing import Any

import support
from labeltools.drawing.forms import FORMS

COMPLETIONS = support.TOP / "completions"
SHELLS = ("bash", "fish", "zsh")
TOOLS = ["label-print", "label-table"]  # the window is opened from a menu
# What an option proposes; None: files, in bash by readline.
VALUES: dict[str, str | None] = {
    "label-table --code": "",
    "label-table --new-since": None,
    "label-print --design": "article shelf",
    "label-print --to": " ".join(FORMS),
    "labels --height": "",
    "labels --scale": "1 2 3 4 5 6 7 8",
    "labels --level": "L M Q H",
}
ALSO_FILES = ("label-print --design",)  # it takes a name or a file
BASH = """
complete() {{ :; }}; compopt() {{ :; }}
source {completion}
COMP_WORDS=({words}) COMP_CWORD={last} COMPREPLY=()
_labels {command}
printf '%s\\n' "${{COMPREPLY[@]}}"
"""
# Prints what is proposed, and proposes nothing.
ZSH_LISTS = "compadd() { local -a hits; builtin compadd -O hits \"$@\"; print -rl -- '<'$^hits'>'; return 1 }"
ZSH = """PROMPT=; unsetopt zle_bracketed_paste; fpath=({completions} $fpath); autoload -Uz compinit; compinit -u -D
bindkey '^I' complete-word
"""


def options_of(command: str) -> dict[str, str]:
    """The options of a help text, each with the word for what it takes, if anything."""
    return dict(
        re.findall(r"^ +(?:-h, )?(--[a-z-]+)(?: (\S+))?(?:  |$)", support.help_of(command), re.M)
    )


def typed(shell: list[str], lines: str, keys: str, folder: Path) -> str:
    """What an interactive shell writes after these lines and then these keys."""
    process, terminal = pty.fork()
    if process == 0:
        os.chdir(folder)
        os.execvpe(shell[0], shell, {**support.environment(), "TERM": "dumb", "PS1": ""})
    found, wanted, rest = b"", b"READY", [f"{keys}\x15echo THE''END\n".encode()]
    # The prompt is written once the keys are read one by one.
    os.write(terminal, f"{lines}\nPS1=REA''DY\n".encode())
    try:
        while select.select([terminal], [], [], support.SECONDS)[0]:
            found += os.read(terminal, 65536)
            if wanted in found and rest:
                found, wanted = b"", b"THEEND"
                os.write(terminal, rest.pop())
            elif wanted in found:
                return found.decode()
        raise AssertionError(f"{shell[0]} did not answer: {found!r}")
    finally:
        os.close(terminal)
        os.waitpid(process, 0)


def lines_of(folder: Path, *words: str) -> list[str]:
    """The lines that a shell prints in a folder, which is its home."""
    environment = {**support.environment(), "HOME": str(folder)}
    how: dict[str, Any] = {"cwd": folder, "env": environment, "check": True}
    done = subprocess.run(words, stdout=subprocess.PIPE, text=True, **how)
    return str(done.stdout).split("\n")


def by_bash(words: list[str], folder: Path) -> list[str]:
    script = BASH.format(
        completion=shlex.quote(str(COMPLETIONS / "labels.bash")),
        words=shlex.join(words),
        last=len(words) - 1,
        command=words[0],
    )
    return lines_of(folder, "bash", "-c", script)


def by_fish(words: list[str], folder: Path) -> list[str]:
    line = shlex.quote(" ".join(words))
    script = f"source {shlex.quote(str(COMPLETIONS / 'labels.fish'))}; complete -C {line}"
    return [line.split("\t")[0] for line in lines_of(folder, "fish", "--no-config", "-c", script)]


def by_zsh(words: list[str], folder: Path) -> list[str]:
    lines = ZSH.format(completions=shlex.quote(str(COMPLETIONS))) + ZSH_LISTS
    said = typed(["zsh", "-f", "-i"], lines, " ".join(words) + "\t", folder)
    return re.findall(r"<([^<>\r\n]*)>", said)


def proposed(shell: str, line: str, folder: Path) -> list[str]:
    """What a shell proposes for the last word of a line."""
    found = {"bash": by_bash, "fish": by_fish, "zsh": by_zsh}[shell](line.split(" "), folder)
    return sorted({word.rstrip("= ").replace("\\", "") for word in found if word})


class Completion(unittest.TestCase):
    def setUp(self) -> None:
        support.needs(*SHELLS)
        folder = tempfile.TemporaryDirectory()
        self.addCleanup(folder.cleanup)
        self.folder = Path(folder.name)
        (self.folder / "my label.txt").write_text("")

    def test_options(self) -> None:
        """Each option of the help text is proposed, and no other."""
        for command in ("labels", *TOOLS):
            options = sorted(options_of(command))
            self.assertIn("--help", options, command)
            for shell in SHELLS:
                with self.subTest(command=command, shell=shell):
                    self.assertEqual(proposed(shell, f"{command} --", self.folder), options)

    def test_made(self) -> None:
        """The files are what completions/make.py makes of the commands as they are."""
        environment = {**support.environment(), "LABELS": str(support.labels_program())}
        make = [sys.executable, str(COMPLETIONS / "make.py"), "--check"]
        done = subprocess.run(make, capture_output=True, text=True, env=environment)
        self.assertEqual((done.returncode, done.stdout, done.stderr), (0, "", ""))

    def test_each_value_is_taken(self) -> None:
        """What completions/make.py proposes for an option of a tool, the tool does not refuse."""
        support.labels_program()
        sys.path.insert(0, str(COMPLETIONS))
        commands = import_module("make").all_options()
        for tool in TOOLS:
            found = [(option.name, value) for option in commands[tool] for value in option.values]
            self.assertGreater(len(found), 5)
            for words in [*found, (found[-1][0], "none")]:
                said = support.run_here(tool, *words).stderr.decode()
                self.assertEqual(f"error: argument {words[0]}: " in said, words[1] == "none", said)

    @support.slow
    def test_values(self) -> None:
        """Each value is proposed, and no file; of an option that takes any text nothing."""
        for name, values in VALUES.items():
            files = ["my label.txt"] if values is None or name in ALSO_FILES else []
            for shell in SHELLS:
                # in bash readline proposes the files
                wanted = sorted([*(values or "").split(), *files[: shell != "bash"]])
                with self.subTest(name=name, shell=shell):
                    self.assertEqual(proposed(shell, f"{name} ", self.folder), wanted)

    @support.slow
    def test_after_an_equals_sign_and_a_letter(self) -> None:
        self.assertEqual(proposed("bash", "labels --level =", self.folder), ["H", "L", "M", "Q"])
        self.assertEqual(proposed("bash", "labels --level = H", self.folder), ["H"])
        for shell in SHELLS:
            self.assertEqual(
                proposed(shell, "labels --m", self.folder), ["--mask", "--min-version"], shell
            )
            self.assertEqual(proposed(shell, "labels --format a", self.folder), ["ascii"], shell)

    @support.slow
    def test_files(self) -> None:
        """A file name with a space, plain and with a backslash, as the line that the shell then runs."""
        shells = {
            "bash": (
                ["bash", "--norc", "--noprofile", "-i"],
                f"source {shlex.quote(str(COMPLETIONS / 'labels.bash'))}",
            ),
            "zsh": (["zsh", "-f", "-i"], ZSH.format(completions=shlex.quote(str(COMPLETIONS)))),
        }
        for command in ("labels", *TOOLS, "label-print --each"):
            name = command.split()[0]
            for start in ("my", "my\\ l", "'my l"):
                with self.subTest(command=command, start=start, shell="fish"):
                    files = proposed("fish", f"{command} {start}", self.folder)
                    self.assertIn("my label.txt", files)
                for shell, (arguments, lines) in shells.items():
                    with self.subTest(command=command, start=start, shell=shell):
                        lines_too = f"{lines}\n{name}() {{ printf '<%s>' \"$@\"; }}"
                        said = typed(arguments, lines_too, f"{command} {start}\t\n", self.folder)
                        self.assertIn("<my label.txt>", said)


if __name__ == "__main__":
    unittest.main()
