"""The signals that end a tool, and what is not cut off by one."""

import os
import signal
from collections.abc import Callable, Iterator
from contextlib import contextmanager
from dataclasses import dataclass
from typing import Any

ENDING = (signal.SIGHUP, signal.SIGINT, signal.SIGTERM)


@dataclass
class Signals:
    """The signals of this process: those that came while they are held back, None where they are
    not.
    """

    came: list[int] | None = None
    usual: Any = signal.SIG_DFL

    @contextmanager
    def hold(self) -> Iterator[list[int]]:
        """Holds a signal back while something goes out that has to be whole, and gives a list in
        which it then is; a second one ends the tool at once. Within another such time it does
        nothing.
        """
        if self.came is not None:
            yield self.came
            return
        came = self.came = []
        on_signals(self.keep_signal)
        try:
            yield came
        finally:
            # one that comes meanwhile waits: it would be lost between these steps
            blocked = signal.pthread_sigmask(signal.SIG_BLOCK, ENDING)
            on_signals(self.usual)
            self.came = None
            for number in came:
                os.kill(os.getpid(), number)
            signal.pthread_sigmask(signal.SIG_SETMASK, blocked)

    def keep_signal(self, number: int, _: object) -> None:
        """Takes a signal that is held back."""
        if self.came is not None:
            self.came.append(number)
        on_signals()

    @contextmanager
    def end_with(self, act: Callable[[], object]) -> Iterator[None]:
        """Has something done at the end, or before a signal ends the tool."""

        def end(number: int, _: object) -> None:
            """Lets the signal end the tool then."""
            on_signals()
            act()
            os.kill(os.getpid(), number)

        self.usual = end
        on_signals(end)
        try:
            yield
        finally:
            self.usual = signal.SIG_DFL
            on_signals()
            act()


def on_signals(action: Any = signal.SIG_DFL) -> None:
    """Sets what the signals do that end a tool, but for those that it was started to ignore."""
    for number in ENDING:
        if signal.getsignal(number) != signal.SIG_IGN:
            signal.signal(number, action)


SIGNALS = Signals()
hold_signals, end_with = SIGNALS.hold, SIGNALS.end_with
