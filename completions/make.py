#!/usr/bin/python3
"""Makes the completions of this folder from what the commands take: completions/make.py [--check]

The options of the tools are those of their parsers, the options of `labels` those of its help text, which the program
$LABELS writes (crates/labels/out/labels). With --check nothing is written, and the status is 1 where a file differs.
"""

import argparse
import os
import re
import subprocess
import sys
from dataclasses import dataclass
from pathlib import Path

HERE = Path(__file__).resolve().parent
sys.path.insert(0, str(HERE.parent / "tools"))

PROGRAM = os.environ.get("LABELS") or HERE.parent / "crates/labels/out/labels"
TOOLS = {"label-table": "label_table.table_parser", "label-print": "label_print.print_parser"}
NAMES = " ".join(["labels", *TOOLS])
# What takes the name of a file, and what is proposed where a parser takes any number.
FILES = ("--new-since", "--each", "--journal", "--design")
PROPOSED = {
    "--dpi": ("203", "300", "600"),
    "--decimal": ("comma", "point"),
    "--design": ("article", "shelf"),
    "--symbology": ("auto", "ean13", "ean8", "upca", "code128", "qr"),
}
OF_HELP = re.compile(r"^ +(?:-h, )?(--[a-z-]+)(?: <(\S+)>)? +(.*)$", re.MULTILINE)
MADE = "Completion of labels and its tools; completions/make.py makes it.\n"
BASH = """_labels() {
    local word=${COMP_WORDS[COMP_CWORD]} before=${COMP_WORDS[COMP_CWORD - 1]} option options values
    # bash cuts --option=value into three words
    if [ "$word" = '=' ]; then
        word=
    elif [ "$before" = '=' ]; then
        before=${COMP_WORDS[COMP_CWORD - 2]}
    fi
    # An option with its values, with = alone a text of any kind, with =FILE the name of a file.
    case ${1##*/} in
CASES
    esac
    COMPREPLY=()
    for option in $options; do
        case $option in
            "$before=FILE") return ;;
            "$before="*)
                values=${option#*=}
                [[ $values == *,FILE ]] || compopt +o default
                values=${values%,FILE}
                mapfile -t COMPREPLY < <(compgen -W "${values//,/ }" -- "$word")
                return
                ;;
        esac
    done
    # What is no option is a file: readline completes it, whatever is in its name.
    [[ $word == -* ]] || return
    for option in $options; do
        [[ ${option%%=*} != "$word"* ]] || COMPREPLY+=("${option%%=*}")
    done
}
complete -o default -F _labels NAMES
"""


@dataclass(frozen=True)
class Option:
    """An option: whether it takes something, and what; `about` is the first words of its help."""

    name: str
    about: str
    takes: bool
    values: tuple[str, ...] = ()
    repeats: bool = False

    @property
    def is_file(self) -> bool:
        """Whether it takes the name of a file."""
        return self.name in FILES

    @property
    def proposed(self) -> tuple[str, ...]:
        """What bash proposes: the values, and the names of files."""
        return (*self.values, "FILE") if self.is_file else self.values


def about(text: str) -> str:
    """Returns a help text up to the first mark that a shell or a reader stumbles over.

    >>> about("a file for each label: %%d is its number")
    'a file for each label'
    """
    return re.split(r"[:;(\[<]", text)[0].strip().replace("'", "")


def values_of(shown: str) -> tuple[str, ...]:
    """Returns the values that the help of `labels` shows: a list, or a short range.

    >>> values_of("L|M"), values_of("0-2"), values_of("1-500")
    (('L', 'M'), ('0', '1', '2'), ())
    """
    numbers = re.fullmatch(r"(\d+)-(\d+)", shown)
    if not numbers:
        return tuple(shown.split("|"))
    found = tuple(map(str, range(int(numbers[1]), int(numbers[2]) + 1)))
    return found if len(found) < 20 else ()


def options_of_labels() -> list[Option]:
    """Returns the options in the help text of the program."""
    said = subprocess.run([PROGRAM, "--help"], capture_output=True, text=True, check=True).stdout
    return [
        Option(name, about(text), bool(shown), values_of(shown) if shown else ())
        for name, shown, text in OF_HELP.findall(said)
    ]


def options_of(parser: argparse.ArgumentParser) -> list[Option]:
    """Returns the options of a parser, but for its short ones."""
    return [
        Option(
            action.option_strings[-1],
            about(action.help or ""),
            action.nargs != 0,
            PROPOSED.get(action.option_strings[-1], tuple(action.choices or ())),
            isinstance(action.default, list),
        )
        for action in parser._actions
        if action.option_strings
    ]


def all_options() -> dict[str, list[Option]]:
    """Returns the options of each command."""
    found = {"labels": options_of_labels()}
    for tool, place in TOOLS.items():
        module, _, parser = place.partition(".")
        command = __import__(f"labeltools.commands.{module}", fromlist=[parser])
        found[tool] = options_of(getattr(command, parser)())
    return found


def bash(commands: dict[str, list[Option]]) -> str:
    """Returns the completion for bash."""
    cases = []
    for command, options in commands.items():
        words = [option.name + (f"={','.join(option.proposed)}" if option.takes else "") for option in options]
        cases.append(f"        {command}) options='{' '.join(words)}' ;;")
    return f"# {MADE}" + BASH.replace("CASES", "\n".join(cases)).replace("NAMES", NAMES)


def fish(commands: dict[str, list[Option]]) -> str:
    """Returns the completion for fish."""
    lines = []
    for command, options in commands.items():
        for option in options:
            kind = " -r -F" if option.is_file else " -x" * option.takes
            values = f" -a '{' '.join(option.values)}'" if option.values else ""
            short = " -s h" if option.name == "--help" else ""
            about_it = option.about.replace("\\", "\\\\")
            lines.append(f"complete -c {command}{short} -l {option.name[2:]}{kind}{values} -d '{about_it}'\n")
    return f"# {MADE}" + "".join(lines)


def what_of_zsh(option: Option) -> str:
    """Returns what zsh proposes for an option: its values, files, or both."""
    values = f"({' '.join(option.values)})"
    if option.is_file and option.values:
        return rf'_alternative "names\:name\:{values}" "files\:file\:_files"'
    if option.is_file:
        return "_files"
    return values if option.values else " "


def zsh(commands: dict[str, list[Option]]) -> str:
    """Returns the completion for zsh."""
    lines = [f"#compdef {NAMES}\n# {MADE}case $service in\n"]
    for command, options in commands.items():
        lines.append(f"    {command})\n        _arguments \\\n")
        for option in options:
            taken = f":{option.name[2:]}:{what_of_zsh(option)}" if option.takes else ""
            name = "*" * option.repeats + option.name + "=" * option.takes
            lines.append(f"            '{name}[{option.about}]{taken}' \\\n")
        lines.append("            '-h[print help]' '*:file:_files'\n        ;;\n")
    return "".join([*lines, "esac\n"])


def main() -> int:
    """Writes the files, or returns 1 where one differs."""
    parser = argparse.ArgumentParser(description=__doc__, formatter_class=argparse.RawDescriptionHelpFormatter)
    parser.add_argument("--check", action="store_true", help="write nothing; compare")
    is_check, commands, status = parser.parse_args().check, all_options(), 0
    for name, make in (("labels.bash", bash), ("labels.fish", fish), ("_labels", zsh)):
        path, text = HERE / name, make(commands)
        if not is_check:
            path.write_text(text, encoding="utf-8")
        elif path.read_text(encoding="utf-8") != text:
            print(f"completions/{name} is not what completions/make.py makes")
            status = 1
    return status


if __name__ == "__main__":
    sys.exit(main())
