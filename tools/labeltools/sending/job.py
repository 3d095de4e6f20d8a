"""A job of CUPS: how it is sent, and what becomes of it."""

import time
from collections.abc import Callable, Mapping, Sized
from dataclasses import dataclass, replace
from datetime import datetime
from functools import partial
from typing import Any, IO
from urllib.parse import unquote

from labeltools.common.messages import Problem, Talk, ToolError
from labeltools.common.text import joined, NOTHING, shell_line, Text
from labeltools.printing.job import Job
from labeltools.printing.press import Prepared
from labeltools.sending.answers import NO_PAPER, OPEN_COVER
from labeltools.sending.cups import cups_library, refusals
from labeltools.sending.edges import check_edges
from labeltools.sending.outlets import Collected
from labeltools.sending.queue import direct_ways, job_options, NOTHING_CHOSEN, Queue
from labeltools.sending.sender import Sender

# how the reasons of IPP not to print begin
REASONS = {
    "media-empty": NO_PAPER,
    "media-jam": Problem(Text("the paper is jammed"), Text("take it out")),
    "cover-open": OPEN_COVER,
    "toner-empty": Problem(Text("it has no toner"), Text("put some in: it goes on by itself")),
    "offline": Problem(
        Text("it is off, or not connected"), Text("is it switched on, and in the network?")
    ),
}
PENDING, HELD, PROCESSING, STOPPED, CANCELLED, ABORTED, COMPLETED = (
    3,
    4,
    5,
    6,
    7,
    8,
    9,
)  # of a job in IPP
PRINTER_STOPPED = 5
# what the backend of CUPS for IPP says of a printer that did not print a job which CUPS has passed
REFUSED = ("cups-remote-aborted", "cups-remote-canceled")
RAW_FORMAT = "application/vnd.cups-raw"  # of what CUPS passes on as it is
IDLE = 60.0  # seconds in which a job that is watched may show nothing new
BUSY = 900.0  # the same of one that CUPS is printing: a large page, or a printer that warms up
AWAY = 60.0  # seconds in which CUPS may not answer
LOOKS = 0.1, 1.0  # seconds between two looks at it, at first and later


@dataclass(frozen=True)
class JobState:
    """What becomes of a job: what keeps it from paper, which may be nothing; what CUPS last said of
    it, in its own words; whether it is over, and was printed; whether it waits for somebody; what
    else shows that it goes on; what to do about what keeps it; when it was begun, in seconds, so
    that a part of it may be on paper (0: it was not), and whether that was the second time; whether
    it is in the printer's own language, which CUPS does not read: it then knows no more than that
    the printer took all of it; and the address of the printer, if CUPS has just passed it on there.
    """

    trouble: Text
    said: str
    is_over: bool
    is_printed: bool = False
    is_waiting: bool = False
    marks: tuple[object, ...] = ()
    cure: Text = NOTHING
    begun: int = 0
    is_repeated: bool = False
    is_raw: bool = False
    way: str = ""

    @property
    def patience(self) -> float:
        """How many seconds it may show nothing new: more while CUPS says that it prints. What CUPS
        says beside that is in the language of its user, and so tells nothing.
        """
        is_busy = PROCESSING in self.marks[:1]
        return BUSY if is_busy and not self.trouble else IDLE

    def after(self, before: "JobState") -> "JobState":
        """Returns the state, with whether the job was begun twice by what it was before."""
        is_begun_again = before.begun not in (0, self.begun)
        return replace(self, is_repeated=before.is_repeated or is_begun_again)

    @property
    def told(self) -> Text:
        """What a message says of it."""
        if self.is_repeated:
            return Text("CUPS has begun it twice: some labels may be there twice, look for them")
        if self.is_printed and self.is_raw:
            return Text("the printer took all of it: look whether it comes out")
        if self.is_printed:
            return Text("CUPS reports it as printed")
        if self.is_over and self.begun:
            return Text("some labels may be on paper: {}", self.trouble)
        if self.is_over:
            return Text("it was not printed: {}", self.trouble)
        reasons = filter(None, (self.trouble, self.said))
        waits = joined(": ", (Text("it waits in the queue"), *reasons))
        return joined("; ", filter(None, (waits, self.cure)))


class UnknownJob(ToolError):
    """A job of which CUPS knows nothing any more: it keeps no jobs that are over, or has begun to
    count again, or its queue was removed.
    """


@dataclass(frozen=True)
class SentJob:
    """A job that CUPS has taken: its queue, its number, and when CUPS made it, in seconds (0: not
    known). Its number alone does not tell: CUPS gives it to another job once it has forgotten all.
    """

    queue: str
    number: int
    created: int = 0

    @property
    def name_of_file(self) -> str:
        """A text for the name of a file, from which `job_of` makes it again."""
        return f"{self.number}.{self.created}.{self.queue}"

    def attributes(self, cups: Any) -> Mapping[str, Any]:
        """Returns what CUPS has of the job; raises `UnknownJob`."""
        found = known_to(cups.getJobAttributes, self.number)
        queue = str(found.get("job-printer-uri", "")).rpartition("/")[2]
        created = found.get("time-at-creation", 0)
        if unquote(queue) == self.queue and self.created in (0, created):
            return found
        what = Text("CUPS does not know job {} of {} any more", self.number, self.queue)
        raise UnknownJob(what, Text("look at the paper to see whether it was printed"))

    def state(self) -> JobState:
        """Returns what CUPS reports of the job now; raises `ToolError`, `UnknownJob` if it reports
        nothing.
        """
        with refusals(self.queue) as cups:
            job = self.attributes(cups)
            printer = known_to(cups.getPrinterAttributes, self.queue)
        state, said = job["job-state"], job.get("job-printer-state-message", "")
        begun = int(job.get("time-at-processing") or 0)
        if state in (CANCELLED, ABORTED, COMPLETED):
            why = self.why_not_printed(job, printer)
            is_raw = job.get("document-format") == RAW_FORMAT
            device = str(printer.get("device-uri", ""))
            way = direct_ways(device)[1][0] if is_raw and device.startswith("socket:") else ""
            return JobState(why, said, True, not why, begun=begun, is_raw=is_raw, way=way)
        found = trouble_of(self.queue, printer)
        if state == HELD and found is None:
            line = shell_line(["lp", "-i", f"{self.queue}-{self.number}", "-H", "resume"])
            held = Text("job {} is held", self.number)
            found = Problem(joined(": ", filter(None, (held, said))), lets_go_on(line))
        trouble = Text("{}: {}", self.queue, found.what) if found else NOTHING
        is_stopped = printer.get("printer-state") == PRINTER_STOPPED
        is_waiting = is_stopped or state in (HELD, STOPPED)
        reasons = sorted(printer.get("printer-state-reasons", ()))
        marks = (state, job.get("job-media-sheets-completed"), *reasons)
        cure = found.hint if found else NOTHING
        return JobState(trouble, said, False, False, is_waiting, marks, cure, begun)

    def why_not_printed(self, job: Mapping[str, Any], printer: Mapping[str, Any]) -> Text:
        """Returns why a job that is over was not printed; nothing if it was."""
        said = job.get("job-printer-state-message", "")
        what = NOTHING
        if job["job-state"] == CANCELLED:
            what = Text("job {} was cancelled", self.number)
        elif job["job-state"] == ABORTED:
            what = Text("CUPS gave up job {}", self.number)
        elif any(reason.startswith(REFUSED) for reason in printer.get("printer-state-reasons", ())):
            what = Text("the printer gave up job {}", self.number)
        return joined(": ", filter(None, (what, said))) if what else NOTHING

    def state_again(self, show: Callable[[Text], object], came: Sized = ()) -> JobState:
        """Returns what CUPS reports of the job, if that does not answer within a minute in which it
        is looked for; raises `ToolError`.
        """
        end = time.monotonic() + AWAY
        while True:
            try:
                return self.state()
            except UnknownJob:
                raise
            except ToolError as error:
                if came or time.monotonic() > end:
                    raise self.unseen() from error
            show(Text("CUPS does not answer: job {} is looked for again", self.number))
            time.sleep(LOOKS[1])

    def unseen(self) -> ToolError:
        """Returns that CUPS does not answer, and how to see what became of the job."""
        line = shell_line(["lpstat", "-W", "all", "-o", self.queue])
        what = Text("CUPS does not answer any more: labels may be on paper")
        return ToolError(what, Text("look there; once CUPS answers, {} shows the job", line))

    def follow(self, show: Callable[[Text], object], came: Sized = ()) -> JobState:
        """Looks at the job until it is over, or waits for somebody, or has shown nothing new for a
        while, or something came; returns what it is then. What it does is shown. Raises
        `ToolError`, where nobody can say what became of it.
        """
        pause, longest = LOOKS
        state = self.state_again(show, came)
        end = time.monotonic() + state.patience
        while not (state.is_over or state.is_waiting):
            if came or time.monotonic() > end:
                return state
            reason = state.trouble or state.said
            show(joined(": ", filter(None, (Text("job {}", self.number), reason))))
            time.sleep(pause)
            pause = min(2 * pause, longest)
            before, state = state, self.state_again(show, came).after(state)
            if state != before:
                end = time.monotonic() + state.patience
        return state


def known_to(ask: Callable[..., Any], name: object) -> Mapping[str, Any]:
    """Returns what CUPS answers of a job or a queue; nothing if it knows none."""
    try:
        found: Mapping[str, Any] = ask(name)
    except cups_library().IPPError as error:
        if error.args[0] != cups_library().IPP_NOT_FOUND:
            raise
        return {}
    return found


def print_by_cups(
    found: Prepared,
    queue: Queue,
    talk: Talk,
    chosen: Mapping[str, str] = NOTHING_CHOSEN,
) -> tuple[SentJob, Sender]:
    """Prints labels on a queue of CUPS, with options that are chosen for it; returns the job, and
    the sender, which knows what it has; raises `ToolError`.
    """
    if not found.job.form.is_roll:
        check_edges(queue.name, queue.paper(found.job), found)
    outlet = Collected(queue.name, partial(print_by, found.job, queue, chosen))
    sender = Sender(found.job, outlet)
    sender.send_all(found, talk)
    sent: SentJob = outlet.given
    return sent, sender


def print_by(job: Job, queue: Queue, chosen: Mapping[str, str], file: IO[bytes]) -> SentJob:
    """Prints a file that a job has written, with options that are chosen for it, and returns the
    job of CUPS; raises `ToolError` if CUPS does not take it.
    """
    path = f"/proc/self/fd/{file.fileno()}"
    options = job_options(job, queue, chosen)
    title = f"labels {datetime.now():%H:%M}"
    with refusals(queue.name) as cups:
        try:
            number = int(cups.printFile(queue.name, path, title, options))
        except cups_library().IPPError as error:
            if error.args[0] == cups_library().IPP_SERVICE_UNAVAILABLE:  # it may have the job
                raise SentJob(queue.name, 0).unseen() from error
            raise
        return SentJob(queue.name, number, made_at(cups, number))


def made_at(cups: Any, number: int) -> int:
    """Returns when CUPS made a job, in seconds; 0 if CUPS went away in this moment."""
    try:
        found = known_to(cups.getJobAttributes, number)
    except cups_library().IPPError:
        return 0
    return int(found.get("time-at-creation", time.time()))  # it may be over, and not kept


def job_of(name: str) -> SentJob:
    """Returns the job of a name of a file; raises `ValueError` if it is none.

    >>> job = SentJob("till.3", 7, 1764392400)
    >>> job.name_of_file, job_of(job.name_of_file) == job
    ('7.1764392400.till.3', True)
    """
    number, created, queue = name.split(".", 2)
    return SentJob(queue, int(number), int(created))


def trouble_of(queue: str, printer: Mapping[str, Any]) -> Problem | None:
    """Returns what keeps a queue from printing, by its attributes in CUPS; None if nothing does."""
    reasons = printer.get("printer-state-reasons", ())
    if any(reason.startswith("paused") for reason in reasons):
        return Problem(Text("it is paused"), lets_go_on(shell_line(["cupsenable", queue])))
    for name, trouble in REASONS.items():
        if any(reason.startswith(name) for reason in reasons):
            return trouble
    if printer.get("printer-state") == PRINTER_STOPPED:
        return Problem(Text("it has stopped"), lets_go_on(shell_line(["cupsenable", queue])))
    return None


def lets_go_on(line: str) -> Text:
    """Returns what to do about a queue or job that waits for a command."""
    return Text("let it go on in the settings of printers, or by {}", line)
