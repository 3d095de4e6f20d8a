"""A queue of CUPS: at which resolution it prints, on which paper, and what is asked of it so that
labels are printed dot for dot.
"""

import os
from collections.abc import Mapping, Sequence
from dataclasses import dataclass, field
from pathlib import Path
from typing import Any
from urllib.parse import urlsplit

from labeltools.common.messages import BAD_ARGUMENTS, Remedies, Remedy, ToolError
from labeltools.common.text import joined, NOTHING, shell_line, shell_word, Text
from labeltools.drawing.forms import PDF
from labeltools.paper.sizes import is_near, NAMED
from labeltools.paper.stock import Size
from labeltools.printing.job import DRAWING_DPI, Job, USUAL_DPI
from labeltools.sending.cups import connection, cups_library, queues
from labeltools.sending.driver import (
    common_dots,
    dots_of,
    dpi_of,
    page_options,
    PAPER,
    RESOLUTION,
    resolutions_of,
    SETS_DOTS,
    UNKNOWN,
)
from labeltools.sending.papers import (
    Papers,
    papers_of_driver,
    PrinterPaper,
)

NEAR = 0.3  # millimetres by which a page may differ from a paper with a name
RAW = {"raw": "true"}
NOTHING_CHOSEN: Mapping[str, str] = {}
# what is said for each job, since a queue may have other defaults; of a job for the printer itself
# only the first ones count. The first sheet may have been used before, so it is printed first.
ONCE = {"copies": "1", "job-sheets": "none,none"}
PLAIN = {
    **ONCE,
    "page-set": "all",
    "page-ranges": "1-",
    "page-label": "",
    "outputorder": "normal",
    "output-order": "normal",
    "position": "center",
    "number-up": "1",
    "sides": "one-sided",
    "mirror": "false",
    "booklet": "false",
    "page-border": "none",
    "orientation-requested": "3",
    "landscape": "false",
    "fit-to-page": "false",
    "fitplot": "false",
    "print-scaling": "none",
    "pdftops-renderer": "hybrid",  # others turn labels that are wider than high
}
ADD_QUEUE = Text("add it in the settings of printers, or print past CUPS")
PAST_CUPS = (Remedy("print", "/dev/usb/lp0"), Remedy("print", "tcp://HOST"))
NETWORK = ("socket", "ipp", "ipps", "http", "https", "lpd")  # devices with a host
USB = "/dev/usb/lp0"
TRAY, MEDIA = "InputSlot", "MediaType"  # options of drivers for where the paper is, and its kind


@dataclass(frozen=True)
class Queue:
    """A queue of CUPS: its name, the dots an inch that it prints if nothing is asked for (0: not
    known), and the word of its driver for each resolution; the dots across and down, where these
    are no multiple of each other; its papers; the options of its driver that leave pages as they
    are, and those that are set to change pages; the trays and the kinds of paper of which its
    driver offers several: for each of its options what is shown, by the word for CUPS.
    """

    name: str
    dpi: int
    words: Mapping[int, str]
    uneven: tuple[int, int] = UNKNOWN
    papers: Papers = Papers()
    plain: Mapping[str, str] = field(default_factory=dict)
    device: str = ""
    common: int = 0
    changing: Mapping[str, str] = field(default_factory=dict)
    has_driver: bool = False
    choices: Mapping[str, Mapping[str, str]] = field(default_factory=dict)

    def dpi_for(self, is_sheet: bool) -> int:
        """Returns the dots an inch of labels that are printed here, 0 if they are not known. Sheets
        take those of drawings if the driver has them, since narrow labels need them, or if there is
        no driver. Rolls take those of the queue: only who has set it up knows which printer is
        connected.
        """
        known = {self.dpi or self.common, *self.words} - {0}
        is_open = not known and not self.has_driver
        may_be_that_of_drawings = is_open or any(dots % DRAWING_DPI == 0 for dots in known)
        if is_sheet and may_be_that_of_drawings:
            return DRAWING_DPI
        return self.dpi or max(known, default=0)

    def options(self, job: Job) -> Mapping[str, str]:
        """Returns the options of CUPS by which a job is printed dot for dot; raises `ToolError` if
        the queue does not have its resolution or its paper. Each dot may be several of the
        printer's.
        """
        dpi = job.plan.dpi
        if job.form.is_roll:
            self.check_language(job)
            if self.dpi and dpi not in (self.dpi, *self.words):
                raise self.refusal(dpi)
            return RAW
        self.require_resolution(job)
        self.check_changes()
        paper = self.paper(job)
        options = {"media": paper.name or media_of(job.plan.sheet.page)}
        if not self.dpi or self.dpi % dpi:
            words = [word for dots, word in sorted(self.words.items()) if dots % dpi == 0]
            if words:
                options[RESOLUTION] = words[0]
            elif self.dpi or any(self.uneven):
                raise self.refusal(dpi)
        return {**options, "print-scaling": "none"}

    def paper(self, job: Job) -> PrinterPaper:
        """Returns the paper of a job; raises `ToolError` if the queue has none."""
        is_given = job.options.is_paper_as_given
        try:
            return self.papers.paper(self.name, job.plan.sheet.page, is_given)
        except ToolError as error:
            if not (job.plan.sheet.is_single and self.papers.is_office):
                raise
            past, ways = self.past_driver()
            hint, remedies = joined("; ", (error.hint, past)), (*error.remedies, *ways)
            raise ToolError(error.what, hint, BAD_ARGUMENTS, remedies) from error

    def require_resolution(self, job: Job) -> None:
        """Raises `ToolError` if it is not known at which resolution labels are printed: bars of
        other dots would be uneven.
        """
        if not job.options.dpi and not self.dpi_for(not job.plan.sheet.is_single):
            if any(self.uneven):
                raise self.refusal(job.plan.dpi)
            what = Text("{} does not tell its resolution", self.name)
            hint = Text("look at its manual, and choose it")
            raise ToolError(what, hint, BAD_ARGUMENTS, ways_of_dpi(USUAL_DPI))

    def check_changes(self) -> None:
        """Raises `ToolError` if a driver is set to change pages, and names no other choice that
        would not.
        """
        for option, choice in self.changing.items():
            what = Text("{} is set to {}: {}, which could change labels", self.name, option, choice)
            hint = Text("choose something else there, in the settings of printers")
            raise ToolError(what, hint, BAD_ARGUMENTS)

    def check_language(self, job: Job) -> None:
        """Raises `ToolError` if a queue is that of an office printer, which would print the bytes
        of a label printer as letters.
        """
        if self.papers.is_office:
            what = Text(
                "{} has the driver of an office printer, which prints {} as letters",
                self.name,
                job.form.name,
            )
            past, ways = self.past_driver()
            hint = joined("; ", (Text("an office printer takes PDF"), past))
            raise ToolError(what, hint, BAD_ARGUMENTS, (Remedy("to", "pdf"), *ways))

    def past_driver(self) -> tuple[Text, Remedies]:
        """Returns how a label printer takes labels whose queue has the driver of another one."""
        device, ways = direct_ways(self.device)
        labels = f"{self.name}-labels"
        line = shell_line(["lpadmin", "-p", labels, "-E", "-v", device, "-m", "raw"])
        hint = Text("a label printer needs a queue without a driver: {}", line)
        return hint, tuple(Remedy("print", way) for way in (*ways, labels))

    def refusal(self, dpi: int) -> ToolError:
        """Returns why labels cannot be printed here."""
        known = {self.dpi, *self.words} - {0}
        if not known:
            what = Text("the queue {} prints {} by {} dots an inch", self.name, *self.uneven)
            hint = Text("bars need as many across as down: choose another printer")
            return ToolError(what, hint, BAD_ARGUMENTS)
        found = " or ".join(map(str, sorted(known)))
        what = Text("the queue {} prints at {} dpi, and the labels have {}", self.name, found, dpi)
        return ToolError(what, status=BAD_ARGUMENTS, remedies=ways_of_dpi(sorted(known)))

    def resolution_doubt(self, job: Job) -> Text:
        """Returns what is reported of a job if it is not known at which resolution it is printed,
        or nothing.
        """
        is_exact = self.common and self.common % job.plan.dpi == 0
        if self.dpi or is_exact or job.form.is_roll or RESOLUTION in self.options(job):
            return NOTHING
        return Text(
            "{} does not tell its resolution: scan one label before you use the rest", self.name
        )


def ways_of_dpi(known: Sequence[int]) -> Remedies:
    """Returns resolutions of which one may be chosen."""
    return tuple(Remedy("dpi", str(dpi), Text("{} dpi", dpi)) for dpi in known)


def queue_of(name: str, chosen: Mapping[str, str] = NOTHING_CHOSEN) -> Queue:
    """Returns what a queue says, with the options of its driver that are chosen for a job; raises
    `ToolError` if there is no such queue, or no CUPS.
    """
    cups = cups_library()
    attributes = attributes_of_queue(name)
    try:
        path = connection().getPPD(name)
    except cups.IPPError as error:  # it has no driver, or CUPS makes it for the first job
        names = queues()
        if name in names:
            return Queue(name, 0, {}, device=attributes.get("device-uri", ""))
        what = Text("there is no queue {}", name)
        if names:
            raise ToolError(what, Text("the queues are {}", ", ".join(names))) from error
        raise ToolError(what, ADD_QUEUE, remedies=PAST_CUPS) from error
    try:
        driver = cups.PPD(path)
        text = Path(path).read_text(encoding="latin-1")
    finally:
        os.unlink(path)
    driver.markDefaults()
    for option, value in chosen.items():
        driver.markOption(option, value)
    choices = {
        name: {choice["choice"]: choice["text"] for choice in option.choices}
        for name in (TRAY, MEDIA)
        if (option := driver.findOption(name)) and len(option.choices) > 1
    }
    own = dots_of(driver)
    papers = papers_of_driver(text)
    plain, changing = page_options(driver, {*SETS_DOTS.findall(text)}, papers.is_office)
    words = resolutions_of(driver)
    dpi = dpi_of(own)
    device = attributes.get("device-uri", "")
    uneven = UNKNOWN if dpi else own
    common = 0 if dpi or words else common_dots(text)
    about = plain, device, common, changing, True, choices
    return Queue(name, dpi, words, uneven, papers, *about)


def attributes_of_queue(name: str) -> Mapping[str, Any]:
    """Returns what CUPS has of a queue, nothing if it does not know it; raises `ToolError` if it is
    a class: CUPS prints on any of its printers, and shows the driver of the first one.
    """
    try:
        found: Mapping[str, Any] = connection().getPrinterAttributes(name)
    except cups_library().IPPError:
        return {}
    if members := found.get("member-names"):
        named = ", ".join([members] if isinstance(members, str) else members)
        what = Text("{} is a class of printers, which may differ", name)
        raise ToolError(what, Text("choose one of them: {}", named), BAD_ARGUMENTS)
    return found


def job_options(job: Job, queue: Queue, chosen: Mapping[str, str]) -> Mapping[str, str]:
    """Returns the options of CUPS for a job: those that are chosen for it, but for what would
    change the labels, and others in place of the queue's own; raises `ToolError` as the queue does.
    """
    own = queue.options(job)
    plain = ONCE if own is RAW else PLAIN
    others = {
        name: value for name, value in chosen.items() if name not in (*PAPER, *PLAIN, *queue.plain)
    }
    if own is RAW:
        return {**plain, **others, **own}
    dots = job.plan.dpi if RESOLUTION in own else queue.dpi or job.plan.dpi
    return {**plain, **queue.plain, **others, "printer-resolution": f"{dots}dpi", **own}


def direct_ways(device: str) -> tuple[str, Sequence[str]]:
    """Returns the address of a device for a queue without a driver, and where --print finds its
    printer.

    >>> direct_ways("ipp://10.0.0.5/ipp/print"), direct_ways("socket://till-3:9101")[1]
    (('socket://10.0.0.5', ['tcp://10.0.0.5']), ['tcp://till-3:9101'])
    """
    parts = urlsplit(device)
    if parts.scheme in NETWORK and parts.hostname:
        host = parts.netloc if parts.scheme == "socket" else parts.hostname
        host = host.rpartition("@")[2].removesuffix(":9100")
        return f"socket://{host}", [f"tcp://{host}"]
    if parts.scheme == "usb":
        return device, [USB]
    return "socket://HOST", ["tcp://HOST", USB]


def lp_line(job: Job, name: str) -> str:
    """Returns the line of lp(1) that prints a file of a job in its own size, on a queue of which
    nothing is known; nothing for a form that printers do not take.
    """
    if job.form != PDF and not job.form.is_roll:
        return ""
    dpi = job.plan.dpi
    options = Queue(name, 0, {dpi: f"{dpi}dpi"}).options(job)
    words = ["raw"] if options is RAW else [f"{name}={value}" for name, value in options.items()]
    given = [shell_line(["lp", "-d", name]), *map(shell_word, words)]
    return " -o ".join(given) + f" FILE.{job.form.name}"


def media_of(page: Size) -> str:
    """Returns the name of a paper for CUPS.

    >>> media_of((210.0, 297.0)), media_of((60.0, 40.0))
    ('A4', 'Custom.60x40mm')
    """
    for name, sides in NAMED.items():
        if is_near(page, sides, NEAR):
            return name
    return f"Custom.{page[0]:g}x{page[1]:g}mm"
