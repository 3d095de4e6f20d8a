"""Questions that only the keeper can answer: each is asked below the control that it is about, or
in place of the page where the file cannot be read without it. Nothing is printed until then.
"""

from collections.abc import Sequence
from typing import Any

from labeltools.common.messages import Problem
from labeltools.common.text import Text, whole_sentence
from labeltools.window.gtk import Answers, show_answers

# the controls below which the remedies of a problem are asked for
ASKED_AT = {
    **dict.fromkeys(("symbology", "digits", "allow-zeros"), "code"),
    "delimiter": "code",
    **dict.fromkeys(("decimal", "price-as", "currency-name"), "price"),
    **dict.fromkeys(("dpi", "edge", "to", "first"), "printer"),
}
WHICH = {
    "code": Text("Which column has the code?"),
    "title": Text("Which column has the title?"),
    "price": Text("Which column has the price?"),
    "copies": Text("Which column has the number of labels?"),
}
BELOW = ("code", "title", "price", "copies", "printer")


class Questions:
    """The questions of a window: those below its controls by the names of these, and those of a
    file.
    """

    def __init__(self, widgets: Any) -> None:
        self.widgets = widgets
        self.below = {name: getattr(widgets, f"ask_{name}") for name in BELOW}

    @property
    def open(self) -> Sequence[Any]:
        """Those that are asked below a control."""
        return [question for question in self.below.values() if question.get_visible()]

    def clear(self) -> None:
        """Asks nothing any more."""
        for question in self.below.values():
            question.hide()

    def ask_of_file(self, text: str, more: str, answers: Answers) -> None:
        """Asks in place of the page."""
        self.widgets.asked.set_text(text)
        self.widgets.asked_more.set_text(more)
        self.widgets.asked_more.set_visible(more)
        show_answers(self.widgets.answers, answers, self.widgets.stack)
        self.widgets.stack.set_visible_child_name("asking")
        self.widgets.answers.get_children()[0].grab_focus()

    def focus(self) -> None:
        """Puts the focus on the first answer, or on Print where nothing is asked."""
        answers = [button for question in self.open for button in question.answers]
        (answers[0] if answers else self.widgets.print_button).grab_focus()


def in_sentences(problem: Problem) -> str:
    """Returns what a window says of a problem: what it is, and below it what to do."""
    return "\n".join(filter(None, map(whole_sentence, (problem.what, problem.hint))))
