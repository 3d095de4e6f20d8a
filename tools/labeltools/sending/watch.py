"""Asks a printer how it is, before labels are sent to it, and then until they are printed."""

import time
from contextlib import suppress
from dataclasses import dataclass, replace

from labeltools.common.messages import BAD_ARGUMENTS, Remedy, Talk, ToolError
from labeltools.common.text import joined, Text
from labeltools.paper.plan import MILLIMETRES
from labeltools.sending.answers import DOTS, Query, read_status, Reply
from labeltools.sending.outlets import Broken, Outlet

IDLE = 10.0  # seconds in which a printer with labels left may print none
LONGEST = 60.0  # seconds for which it is asked at most, and for each label that it was sent
SLOWEST = 5.0  # seconds more
KNOWN_DPI = (152, 203, 300, 600)  # of 6, 8, 12 and 24 dots a millimetre
ROUNDED = 0.1  # by which these differ from what is typed for them, such as 200 dpi
LOOKS = 0.1, 0.5  # seconds between two questions, at first and later
NOTHING_SAID = Reply()


@dataclass
class Watch:
    """What a printer says of itself to a question, if there is one for its language. One that does
    not answer at first is asked no more, and nothing is known of it. `answer` is the last that it
    said.
    """

    outlet: Outlet
    question: Query | None
    dpi: int = 0  # of what is sent
    answer: Reply = NOTHING_SAID

    def report_before(self, talk: Talk) -> None:
        """Says what is wrong with a printer before anything is sent, and what it has of before;
        raises `ToolError` if it is not there, or has other dots.
        """
        with suppress(Broken):  # of nothing that was sent
            self.answer = self.ask()
        if self.answer is NOTHING_SAID:
            self.question = None
            return
        name = self.outlet.name
        self.require_dots()
        for problem in self.answer.problems:
            talk.say(replace(problem, what=Text("{}: {}", name, problem.what)))

    def require_dots(self) -> None:
        """Raises `ToolError` if a printer of ZPL says that it has other dots than the labels: they
        would be too small or too large.
        """
        if self.question is None or self.question.read is not read_status:
            return
        answer = None
        with suppress(Broken):  # of nothing that was sent
            answer = self.outlet.ask(DOTS)
        dots = answer.dots if answer else 0
        if dots and self.dpi and abs(dots * MILLIMETRES / self.dpi - 1) > ROUNDED:
            near = min(KNOWN_DPI, key=lambda dpi: abs(dpi - dots * MILLIMETRES))
            what = Text(
                "{} prints at {} dpi, and the labels have {}", self.outlet.name, near, self.dpi
            )
            way = Remedy("dpi", str(near), Text("{} dpi", near))
            hint = Text("choose its resolution")
            raise ToolError(what, hint, BAD_ARGUMENTS, (way,))

    def wait_until_printed(self, sent: int) -> None:
        """Asks a printer that answers until nothing is left in it, or something is wrong, or it has
        printed none for a while, or somebody stops that; whatever it counts, for no longer than it
        takes to print as many labels as were sent. Raises `Broken`.
        """
        pause, longest = LOOKS
        end = time.monotonic() + IDLE
        last = time.monotonic() + LONGEST + sent * SLOWEST
        before = self.answer
        while self.question is not None:
            self.answer = answer = self.ask()
            if not answer.left or answer.troubles:  # it may not say how many it has left
                return
            if answer.left != before.left:
                before = answer
                end = time.monotonic() + IDLE
            if self.outlet.came or time.monotonic() > min(end, last):
                return
            time.sleep(pause)
            pause = min(2 * pause, longest)

    def ask(self) -> Reply:
        """Returns what the printer answers. One that does not answer is asked no more: what it says
        later may be of before. Raises `Broken`.
        """
        answer = self.outlet.ask(self.question) if self.question else None
        if answer is None:
            self.question = None
        return answer or NOTHING_SAID

    @property
    def is_stuck(self) -> bool:
        """Whether the printer says that it does not print what it has."""
        return bool(self.answer.troubles or self.answer.left) and not self.outlet.came

    def report_of_sent(self, labels: Text) -> Text:
        """Returns what is reported of labels that were sent."""
        name = self.outlet.name
        if self.answer.is_empty:
            return Text("{} printed by {}", labels, name)
        problems = (problem.line for problem in self.answer.problems)
        return joined("; ", (Text("{} sent to {}", labels, name), *problems))
