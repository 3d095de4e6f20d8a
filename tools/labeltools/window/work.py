"""Work beside the window, in a thread of its own, since pens belong to one: how far it is, and what
came of it.
"""

from collections.abc import Callable
from concurrent.futures import Future, ThreadPoolExecutor
from contextlib import suppress
from functools import partial
from typing import Any, TYPE_CHECKING

from labeltools.common.language import _
from labeltools.common.messages import Cancelled, fault_of, of_system, ToolError
from labeltools.common.text import Text, whole_sentence
from labeltools.window.bar import Event, INFO
from labeltools.window.gtk import GLib
from labeltools.window.shop import WindowTalk

if TYPE_CHECKING:
    from labeltools.window.window import Window

STOPPED = Text("stopped: nothing was printed")
PATIENCE = 500  # milliseconds after which work is shown, and how far it is from then on


class Work:
    """The work of a window. New work ends the old one, whose result is dropped; but of labels that
    are sent it is always shown what came of them.
    """

    def __init__(self, window: "Window") -> None:
        self.window = window
        self.widgets = window.widgets
        self.thread = ThreadPoolExecutor(1)
        self.talk = WindowTalk()

    def begin_work(
        self, work: Callable[[WindowTalk], Any], then: Callable[[Any], object], talk: WindowTalk
    ) -> None:
        """Does work, and then something with what came of it; nothing goes out until then."""
        self.wait_for(self.thread.submit(work, talk), then, talk)

    def wait_for(
        self, future: "Future[Any]", then: Callable[[Any], object], talk: WindowTalk
    ) -> None:
        """Waits for what is under way, and then does something with what came of it."""
        self.talk.stop()
        self.talk = talk
        self.window.events.hide()
        self.widgets.working.hide()
        self.window.let_out()
        future.add_done_callback(partial(GLib.idle_add, self.show_result, talk, then))
        GLib.timeout_add(PATIENCE, self.show_progress, talk)

    def show_result(
        self, talk: WindowTalk, then: Callable[[Any], object], future: "Future[Any]"
    ) -> None:
        """Shows what came of work, but of what nobody wants any more."""
        is_wanted = talk.is_sending or not talk.stops
        if not (is_wanted and self.window.get_visible()):
            return
        pressed = self.window.pressed
        if talk is self.talk:
            self.leave()
        if talk.is_sending:
            self.window.keep_up()
        try:
            with suppress(SystemExit):  # --help was typed
                found = future.result()
                self.window.pressed = pressed
                then(found)
        except Cancelled:
            self.window.events.report(Event(INFO, whole_sentence(STOPPED)))
        except (ToolError, OSError) as error:
            problem = of_system(error) if isinstance(error, OSError) else error
            self.window.ways.keep_taken(problem)
            self.window.show_problem(problem)
        except Exception as error:
            self.window.show_problem(ToolError(fault_of(error)))
        self.window.let_out()

    def leave(self) -> None:
        """Shows no work any more, and forgets a press of Print: there is none that anyone waits
        for.
        """
        self.talk = WindowTalk()
        self.window.pressed = None
        self.widgets.working.hide()

    def show_progress(self, talk: WindowTalk) -> bool:
        """Shows how far work is; returns whether it goes on."""
        if talk is not self.talk:
            return False
        self.widgets.working.show()
        if talk.total:
            self.widgets.progress.set_fraction(talk.done / talk.total)
        else:
            self.widgets.progress.pulse()
        self.widgets.progress.set_text(progress_text(talk))
        return True


def progress_text(talk: WindowTalk) -> str:
    """Returns how much of the work is done, or else what is done, with a count if there is one."""
    if not talk.total and talk.printer:
        return _("waiting for {printer}…").format(printer=talk.printer)
    if not talk.total:
        return f"{talk.doing} {talk.done:n}" if talk.done else talk.doing
    done, total = (f"{number:n}" for number in (talk.done, talk.total))
    if talk.printer:
        text = _("Label {done} of {all} on {printer}")
        return text.format(done=done, all=total, printer=talk.printer)
    return _("{done} of {all}").format(done=done, all=total)
