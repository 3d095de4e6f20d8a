"""The arguments of a tool: its parser, and words for options."""

import argparse
from typing import Any, Callable, Mapping, NamedTuple, NoReturn, Sequence

from labeltools import RELEASE
from labeltools.common.messages import BadArguments, Remedy
from labeltools.common.text import Text, translated

AS_WRITTEN = argparse.RawDescriptionHelpFormatter  # what is around the options
# what argparse says of bad arguments; it looks for them where language.py has the translations
OF_ARGPARSE = (
    Text("argument %(argument_name)s: %(message)s"),
    Text("unrecognized arguments: %s"),
    Text("not allowed with argument %s"),
    Text("ignored explicit argument %r"),
    Text("the following arguments are required: %s"),
    Text("one of the arguments %s is required"),
    Text("expected one argument"),
    Text("expected at most one argument"),
    Text("expected at least one argument"),
    Text("invalid %(type)s value: %(value)r"),
    Text("invalid choice: %(value)r (choose from %(choices)s)"),
)


class Parser(argparse.ArgumentParser):
    """A parser of a tool, whose help ends with examples. Bad arguments are an error like others:
    `main_of` writes it, a window shows it.
    """

    def __init__(self, tool: str, usage: str, about: str, examples: str = "") -> None:
        super().__init__(
            tool, usage, about, examples, formatter_class=AS_WRITTEN, allow_abbrev=False
        )
        version = f"{tool} {RELEASE}"
        self.add_argument("--version", action="version", help="print the version", version=version)

    def error(self, message: str) -> NoReturn:
        """Raises `BadArguments`; a message of argparse is in the language of the user already."""
        raise BadArguments(Text("{}", message))


class Option(NamedTuple):
    """An option of a tool: its name, what its value is called, which is empty for one without a
    value, and what the help says.

    `read` reads the value, and raises `ValueError` with what is wrong; `bare` is what the option is
    without it, None where it needs one. `target` is the field that it sets, where that has another
    name than the option; one without a value sets it to `sets`. Only one of those with the same
    `apart` may be given.
    """

    name: str
    value: str
    help: str
    read: Callable[[str], Any] = str
    target: str | None = None
    default: object = None
    sets: object = True
    apart: str = ""
    bare: str | None = None
    is_repeated: bool = False
    choices: Sequence[str] | None = None

    def value_of(self, argument: str) -> Any:
        """Reads its value; raises the error that argparse says behind its name."""
        try:
            return self.read(argument)
        except ValueError as error:
            raise argparse.ArgumentTypeError(translated(error.args[0])) from error

    def add_to(self, group: Any) -> None:
        """Adds it to a group of a parser."""
        how: dict[str, Any] = {"help": self.help, "dest": self.target, "default": self.default}
        if not self.value:
            group.add_argument(self.name, action="store_const", const=self.sets, **how)
            return
        how |= {"metavar": self.value, "type": self.value_of, "choices": self.choices}
        if self.is_repeated:
            how |= {"action": "append", "default": []}
        elif self.bare is not None:
            how |= {"nargs": "?", "const": self.bare}
        group.add_argument(self.name, **how)


def add_options(parser: Parser, groups: Mapping[str, Sequence[Option]]) -> None:
    """Adds options to a parser, in groups by their titles."""
    for title, options in groups.items():
        group = parser.add_argument_group(title)
        apart: dict[str, Any] = {"": group}
        for option in options:
            if option.apart not in apart:
                apart[option.apart] = group.add_mutually_exclusive_group()
            option.add_to(apart[option.apart])


def number_from(argument: str, least: int, digits: int, example: str) -> int:
    """Returns a whole number of so many digits at most, from `least` on."""
    is_number = argument.isascii() and argument.isdecimal() and len(argument) <= digits
    if not is_number or int(argument) < least:
        raise ValueError(Text("{!r}: write it as {}", argument, example))
    return int(argument)


def words_of(options: Mapping[str, Any]) -> list[str]:
    """Returns the words of a command for options by their names; those without a value are left
    out, one with several is repeated.

    >>> words_of({"code": "2", "text": "", "header-row": 3.0, "hidden": True, "sheet": "-1"})
    ['--code', '2', '--header-row', '3', '--hidden', '--sheet=-1']
    >>> words_of({"title": ["A", "B"]})
    ['--title', 'A', '--title', 'B']
    """
    found = []
    for name, value in options.items():
        if value is True:
            found.append(f"--{name}")
        elif isinstance(value, list):
            found += [word for part in value for word in (f"--{name}", part)]
        elif value:
            found += Remedy(name, value if isinstance(value, str) else f"{value:g}").words
    return found
