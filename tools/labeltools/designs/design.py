"""What a design does with labels: each built-in one, and a page of SVG."""

from abc import ABC, abstractmethod
from typing import Any, Mapping, NamedTuple, Sequence

from labeltools.common.messages import Talk
from labeltools.layout.area import Area
from labeltools.layout.layout import LaidOutFile, Page
from labeltools.layout.letters import Letters
from labeltools.layout.medium import Medium
from labeltools.layout.place import Place
from labeltools.lines.file import Record


class Setting(NamedTuple):
    """What the labels of a file are laid out by: the room for each, the letters, a line of text
    for all of them, and the columns of which no label has a text.
    """

    area: Area
    letters: Letters
    note: str
    empty: frozenset[str] = frozenset()


class Below:
    """What is below the symbols and texts of labels on a medium: nothing, or a drawing."""

    def draw(self, canvas: Any, page: Page) -> None:
        """Draws it for the labels of a page."""

    def is_tinted(self, place: Place) -> bool:
        """Returns whether dots of a tint are drawn in a place."""
        return False


class Design(ABC):
    """How labels look: all their texts are in letters and nothing is below them, unless a design
    says otherwise.
    """

    @abstractmethod
    def lay_out(self, labels: Sequence[Record], on: Setting, talk: Talk) -> LaidOutFile:
        """Returns labels as they are laid out, why others are left out, and what is said of all;
        raises what `talk.go_on` does.
        """

    def printed(self, labels: Sequence[Record], on: Setting) -> Mapping[int, Sequence[str]]:
        """Returns the texts of labels that are printed in letters, by the numbers of their
        lines.
        """
        return {label.number: label.texts for label in labels}

    def below(self, medium: Medium) -> Below:
        """Returns what is below the symbols and texts of labels."""
        return Below()
