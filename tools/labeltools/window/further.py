"""Options of the commands for which the window has no control: what the keeper typed, and what a
button chose or the window guessed, which it says in words.
"""

import shlex
from collections.abc import Callable, Collection, Iterator, Mapping
from typing import NamedTuple

from labeltools.common.messages import named_character, Remedy, ToolError
from labeltools.common.text import Text
from labeltools.sheets.encoding import letters_by
from labeltools.tables.codes import NO_CHECK_DIGIT, ZEROS_ARE_LOST

DATES = {"dd.mm.yyyy": "31.12.2026"}  # a date by each pattern that a button gives
DIGITS = {
    ZEROS_ARE_LOST: Text("lost zeros are put back in front"),
    NO_CHECK_DIGIT: Text("the codes have no check digit"),
}
SIGNS = {
    "comma": Text("the comma is before the cents"),
    "point": Text("the point is before the cents"),
}


class Further(NamedTuple):
    """Options that the keeper typed, and those that are given by a button or a guess, each as a
    text.
    """

    typed: str = ""
    given: str = ""

    @property
    def words(self) -> tuple[str, ...]:
        """All as words of a command; what is typed counts more. Raises `ToolError`."""
        return (*option_words(self.given), *option_words(self.typed))


def option_words(argument: str) -> tuple[str, ...]:
    """Returns options that are given as one text, as a shell reads them; raises `ToolError`."""
    try:
        return tuple(shlex.split(argument))
    except ValueError as error:
        raise ToolError(Text("{}: {}", repr(argument), error)) from error


def options_in(text: str) -> Iterator[Remedy]:
    """Yields the options of a text, each with its value; raises `ToolError`.

    >>> [str(option) for option in options_in("--sheet 'Old ones' --hidden --decimal=point")]
    ["--sheet 'Old ones'", '--hidden', '--decimal point']
    """
    words = [*option_words(text)]
    while words:
        option, has_value, value = words.pop(0).partition("=")
        if not has_value and words and not words[0].startswith("--"):
            value = words.pop(0)
        yield Remedy(option.removeprefix("--"), value)


def typed_with(typed: str, remedy: Remedy) -> str:
    """Returns options as they are typed, with a remedy, or without its option.

    >>> typed_with("--hidden --decimal point", Remedy("decimal", "comma"))
    '--hidden --decimal comma'
    >>> typed_with("--hidden --delimiter=tab", Remedy("delimiter", is_less=True))
    '--hidden'
    """
    rest, _ = parted(typed, {remedy.option})
    return shlex.join([*rest, *([] if remedy.is_less else remedy.words)])


def with_part(text: str, other: str, names: Collection[str]) -> str:
    """Returns options as they are typed, but those of some names as in another text.

    >>> with_part("--shift=0,-1 --only 3", "--edge 1 --only 7", {"shift", "edge"})
    '--only 3 --edge 1'
    """
    try:
        (rest, before), (_, wanted) = parted(text, names), parted(other, names)
    except ToolError:  # it is being typed
        return text
    return text if before == wanted else shlex.join([*rest, *wanted])


def parted(text: str, names: Collection[str]) -> tuple[list[str], list[str]]:
    """Returns the words of options but for those of some names, and those; raises `ToolError`."""
    parts: tuple[list[str], list[str]] = [], []
    is_of_names = False
    for word in option_words(text):
        if word.startswith("--"):
            is_of_names = word[2:].partition("=")[0] in names
        parts[is_of_names].append(word)
    return parts


def between_cells(mark: str) -> Text:
    """Returns what is said of the character between cells.

    >>> between_cells("^"), between_cells("none")
    ('"^" is between cells', 'each row is one cell')
    """
    if mark == "none":
        return Text("each row is one cell")
    return Text("{} is between cells", named_character("\t" if mark == "tab" else mark))


# what is said of each option that a button or a guess gives, by its value; but of an encoding
SAID: Mapping[str, Callable[[str], Text]] = {
    "allow-zeros": lambda _value: Text("codes may end with zeros"),
    "currency": lambda column: Text("the currency is in {}", column),
    "currency-name": lambda name: Text("{} is a currency", name),
    "date-as": lambda pattern: Text("dates look like {}", DATES.get(pattern, pattern)),
    "decimal": lambda sign: SIGNS.get(sign, Text("{} is before the cents", sign)),
    "delimiter": between_cells,
    "digits": lambda which: DIGITS[which],
    "edge": lambda _edges: Text("labels keep away from the edge"),
    "hidden": lambda _value: Text("hidden rows are printed too"),
    "links": lambda _value: Text("the code is the address behind a cell"),
    "paper-as-given": lambda _value: Text("the paper need not be one of the driver's"),
    "sheet": lambda name: Text("the worksheet is {}", name),
    "title": lambda column: Text("the title goes on with {}", column),
    "variants-of": lambda column: Text("rows of the same {} have one title", column),
}


def said_of(option: Remedy, word_by: Callable[[str], str]) -> Text:
    """Returns what is said of an option that a button or a guess gives; of an encoding with a word
    that it reads.

    >>> said_of(Remedy("encoding", "cp1252"), lambda _codec: "Füller")
    'the letters are Western European (Füller)'
    >>> said_of(Remedy("decimal", "point"), str)
    'the point is before the cents'
    """
    if option.option == "encoding":
        return Text("the letters are {}", letters_by(option.value, word_by(option.value)))
    return SAID[option.option](option.value)
