"""The printers of a computer: queues of CUPS with their state, printers in the network that were
used before, and those on USB.
"""

from collections.abc import Iterator, Mapping
from contextlib import suppress
from dataclasses import dataclass
from pathlib import Path
from typing import Any

from labeltools.common.messages import ToolError
from labeltools.common.text import Text
from labeltools.drawing.forms import PDF
from labeltools.printing.job import is_direct
from labeltools.sending.cups import connection, queues
from labeltools.sending.job import trouble_of
from labeltools.sending.network import SCHEME

QUEUE, NETWORK, USB = "queue", "network", "usb"  # the ways to a printer
DEVICES = Path("/dev/usb")  # has the printers on USB
READY = Text("ready")
PRINTING = Text("printing")
NOT_TRIED = Text("not tried yet")
LOST = Text("not found")
PROCESSING = 4  # of a printer in IPP
RAW = "Raw"  # what CUPS calls a queue that has no driver
Known = Mapping[str, Mapping[str, str]]  # what is kept of printers, by their keys


@dataclass(frozen=True)
class Printer:
    """A printer: the name of its queue, its address or its device; the name that is shown; how
    labels get to it; its state in words, and whether it prints now; what it is sent, which is not
    known of each, and its dots an inch, 0 where the queue says them.
    """

    key: str
    name: str
    way: str
    state: Text
    is_ready: bool = True
    form: str = ""
    dpi: int = 0

    @property
    def is_lost(self) -> bool:
        """Whether it was used before, and is not there any more."""
        return self.state is LOST


def known_printers(known: Known) -> Iterator[Printer]:
    """Yields the printers, those of CUPS first, if it is there."""
    with suppress(ToolError):
        yield from queues_of_cups(known)
    for key, kept in known.items():
        if key.startswith(SCHEME):
            yield direct_printer(key, NETWORK, kept)
    for path in sorted(map(str, DEVICES.glob("lp*"))):
        yield direct_printer(path, USB, known.get(path, {}))


def queues_of_cups(known: Known) -> Iterator[Printer]:
    """Yields the queues of CUPS; raises `ToolError` if that is not there."""
    described: Mapping[str, Any] = connection().getPrinters()
    for name in queues():
        kept, about = known.get(name, {}), described.get(name, {})
        shown = about.get("printer-info") or name
        is_raw = RAW in about.get("printer-make-and-model", "")
        form = kept.get("to", "" if is_raw else PDF.name)
        trouble = trouble_of(name, about)
        state = PRINTING if about.get("printer-state") == PROCESSING else READY
        state = trouble.what if trouble else state
        yield Printer(name, shown, QUEUE, state, trouble is None, form, int(kept.get("dpi", 0)))


def direct_printer(key: str, way: str, kept: Mapping[str, str]) -> Printer:
    """Returns a printer that takes labels one by one, by what is kept of it."""
    name = kept.get("name") or Path(key).name
    is_known = "to" in kept
    state = Text("{}", key.removeprefix(SCHEME)) if is_known else NOT_TRIED
    dpi = kept.get("dpi", "0")
    return Printer(key, name, way, state, True, kept.get("to", ""), int(dpi))


def lost_printer(key: str) -> Printer:
    """Returns a printer that is not there any more."""
    way = QUEUE
    if is_direct(key):
        way = NETWORK if key.startswith(SCHEME) else USB
    return Printer(key, key.removeprefix(SCHEME), way, LOST, False)


def default_queue() -> str:
    """Returns the queue that is used if none is named; nothing if there is none."""
    with suppress(ToolError):
        return connection().getDefault() or ""
    return ""
