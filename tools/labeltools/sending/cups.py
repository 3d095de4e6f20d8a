"""CUPS by its library (python3-cups): the connection, and the queues that it has."""

from collections.abc import Iterator
from contextlib import contextmanager
from importlib import import_module
from typing import Any

from labeltools.common.messages import ToolError
from labeltools.common.text import Text


def queues() -> list[str]:
    """Returns the queues of CUPS; raises `ToolError` if CUPS is not there."""
    return sorted({name for name, instance in connection().getDests() if name and not instance})


@contextmanager
def refusals(queue: str) -> Iterator[Any]:
    """Gives a connection to CUPS; raises `ToolError` if it refuses something for a queue."""
    try:
        yield connection()
    except cups_library().IPPError as error:
        hint = Text("look at it in the settings of printers")
        raise ToolError(Text("CUPS refuses {}: {}", queue, error.args[1]), hint) from error


def connection() -> Any:
    """Returns a connection to CUPS; raises `ToolError` where it is not there."""
    try:
        return cups_library().Connection()
    except RuntimeError as error:
        hint = Text(
            "install it (apt-get install cups) or start it, or ask who set up this computer"
        )
        raise ToolError(Text("CUPS does not answer"), hint) from error


def cups_library() -> Any:
    """Returns the library of CUPS; raises `ToolError` where it is not there."""
    try:
        return import_module("cups")
    except ImportError as error:
        hint = Text("apt-get install python3-cups")
        raise ToolError(Text("python3-cups is not installed"), hint) from error
