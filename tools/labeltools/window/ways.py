"""The ways out of the window: a file, a queue of CUPS, a printer that takes labels one by one. Each
label is compared before, as label-print does.
"""

import time
from collections.abc import Callable, Mapping
from concurrent.futures import Future
from dataclasses import dataclass, replace
from functools import partial
from pathlib import Path
from typing import NamedTuple, TYPE_CHECKING

from labeltools.common.language import _
from labeltools.common.messages import ToolError
from labeltools.common.text import counted, joined, Text, translated, whole_sentence
from labeltools.printing.press import Prepared
from labeltools.sending.job import AWAY, JobState, print_by_cups, SentJob, UnknownJob
from labeltools.sending.outcomes import Unfinished
from labeltools.sending.printers import Printer, QUEUE
from labeltools.sending.queue import Queue, queue_of
from labeltools.sending.sender import save_to, send_labels_to
from labeltools.window.bar import ERROR, Event, INFO, SUCCESS, WARNING
from labeltools.window.gtk import GLib, Gtk
from labeltools.window.memory import PAPERS, PRINTERS
from labeltools.window.owners import sheet_key
from labeltools.window.printing import open_settings, Options, Printing, Printout
from labeltools.window.shop import MadeLabels, Table, WindowTalk

if TYPE_CHECKING:
    from labeltools.window.window import Window

WATCH = 2000  # milliseconds between two looks at a job of CUPS
Way = Callable[[Prepared, WindowTalk], "Sent"]


class Sent(NamedTuple):
    """What went out: a job of CUPS if it is one, what is reported, the labels that would have been
    drawn wrongly and were left out, by the numbers of their lines, and as what kind of event.
    """

    job: SentJob | None
    text: Text
    wrong: Mapping[int, ToolError]
    kind: str = INFO


@dataclass
class Watched:
    """A job of CUPS that is not over: how many labels it has; if they count as printed then, the
    table that they are of and the file of their lines; if they are of this window, the labels and
    the name of their sheets; what was said of it last, what CUPS reported last, and since when CUPS
    does not answer.
    """

    count: int
    lines: tuple[Table, Path] | None = None
    on_sheets: tuple[Prepared, str] | None = None
    told: str = ""
    state: JobState | None = None
    away: float | None = None


class WaysOut:
    """The ways out of a window."""

    def __init__(self, window: "Window") -> None:
        self.window = window
        self.widgets = window.widgets
        self.jobs: dict[SentJob, Watched] = {}
        self.sending: tuple[Prepared, bool]  # the labels that are sent, and whether they count
        self.wrong: set[int] = set()  # of these, by their lines: they would be drawn wrongly
        self.of: MadeLabels  # what they are of
        self.printing = Printing(window)

    def send_out(self, way: Way, labels: Prepared, counts: bool = True) -> None:
        """Sends labels by a way, and keeps what is chosen for the next table like this. A trial
        does not count as printed.
        """
        self.of = self.window.made
        chosen = self.window.choices()
        self.of.table.keep_choices(chosen)
        self.sending = labels, counts
        self.wrong = set()
        then = partial(self.on_sent, chosen.stock)
        self.window.work.begin_work(partial(way, labels), then, WindowTalk(is_sending=True))

    def on_sent(self, stock: str, sent: Sent) -> None:
        """Says which labels went out, on sheets of a name, and from then on what becomes of a job
        of CUPS. Keeps them, those of a job once it is printed.
        """
        job, text, wrong, kind = sent
        labels, counts = self.sending
        self.wrong.update(wrong)
        right = labels.without(self.wrong)
        table, records = self.of.table, self.of.records_of(right)
        watched = Watched(len(right.prints))
        if not counts:
            text = Text("{} It was a trial, so these labels do not count as printed.", text)
        elif job is None:
            table.keep_printed(records)
        else:
            watched.lines = table, table.keep_waiting(records, watched.count, job)
            watched.on_sheets = labels, stock
            self.begin_at(stock, behind(labels))
        self.window.events.report(Event(kind, whole_sentence(text), None, job))
        for error in wrong.values():
            said = whole_sentence(error.problem.line)
            self.window.events.report(Event(ERROR, said, None, error))
        if job is not None:
            self.jobs[job] = watched
            self.watch(job)

    def keep_taken(self, problem: Exception) -> None:
        """Keeps the labels that a printer took before there was a problem, however it goes on."""
        if isinstance(problem, Unfinished):
            self.wrong.update(problem.wrong)
            self.keep_first(problem.done - self.sending[0].job.options.after)

    def keep_first(self, count: int) -> None:
        """Keeps the first ones of the labels that are sent: a printer has them."""
        labels, counts = self.sending
        if counts and count > 0:
            taken = replace(labels, prints=labels.prints[:count]).without(self.wrong)
            self.of.table.keep_printed(self.of.records_of(taken))

    def begin_at(self, stock: str, first: int) -> None:
        """Lets the next labels on sheets of a name begin at a label; 0 for those without a next."""
        if first:
            PAPERS.keep(sheet_key(stock), {"first": first})
            self.window.owners.take_anew()
            self.window.keep_up()

    def said_of_next(self, labels: Prepared, stock: str) -> str:
        """Returns what is said of where the next labels begin, if such sheets are chosen."""
        first, chosen = behind(labels), self.window.choices()
        is_chosen = chosen.sheet and sheet_key(chosen.stock) == sheet_key(stock)
        if first < 2 or not is_chosen or not is_last_on_sheet(labels, stock):
            return ""
        return translated(Text("The next labels begin at label {} of the last sheet.", first))

    def look_back(self, table: Table) -> None:
        """Says what became of jobs of a table that were not over when a window was closed."""
        for job, (path, count) in table.waiting_jobs().items():
            if job not in self.jobs:
                self.jobs[job] = Watched(count, (table, path))
                self.watch(job)

    def ask_of_job(self, job: SentJob, text: str) -> None:
        """Asks whether a job was printed."""
        answers = {True: _("It is on paper"), False: _("It is not")}
        is_printed = self.window.asked_in_dialog(text, answers)
        if is_printed is not None:
            self.end_job(job, is_printed)

    def end_job(self, job: SentJob, is_printed: bool) -> None:
        """Counts the labels of a job as printed, or forgets them: then the next ones begin where
        these did.
        """
        watched = self.jobs.pop(job)
        if watched.lines:
            table, path = watched.lines
            table.end_waiting(path, is_printed)
            if table is self.window.table:
                self.window.offer_new(table)
        if watched.on_sheets and not is_printed and is_last_on_sheet(*watched.on_sheets):
            labels, stock = watched.on_sheets
            self.begin_at(stock, labels.job.options.first)

    def watch(self, job: SentJob) -> None:
        """Looks at a job."""
        future = self.window.work.thread.submit(job.state)
        future.add_done_callback(partial(GLib.idle_add, self.show_state, job))

    def show_state(self, job: SentJob, future: "Future[JobState]") -> None:
        """Shows what CUPS reports of a job if that is new, and looks again until it is over."""
        if not self.window.get_visible():
            return
        watched, error = self.jobs[job], future.exception()
        if error is not None:
            self.show_away(job, error)
            return
        watched.away = None
        state = future.result()
        state = watched.state = state.after(watched.state or state)
        name = self.window.of_printers.shown_name(job.queue)
        event = event_of(job, watched.count, state, name)
        if event is not None and state.is_printed and watched.on_sheets:
            said = self.said_of_next(*watched.on_sheets)
            event = replace(event, sentence=f"{event.sentence} {said}".strip())
        if state.is_over:
            if state.begun:
                watched.on_sheets = None  # some of its labels may be on paper
            self.end_job(job, state.is_printed)
        else:
            GLib.timeout_add(WATCH, self.watch, job)
        if event is not None and watched.told != event.sentence:
            watched.told = event.sentence
            self.window.events.report(event)

    def show_away(self, job: SentJob, error: BaseException) -> None:
        """Shows that nobody says what became of a job, and looks again for a minute if CUPS does
        not answer; then how to see it, and asks whether it was printed.
        """
        watched = self.jobs[job]
        watched.away = watched.away or time.monotonic()
        is_gone = isinstance(error, UnknownJob)
        is_given_up = is_gone or time.monotonic() - watched.away > AWAY
        told = error if isinstance(error, UnknownJob) else job.unseen()
        name = self.window.of_printers.shown_name(job.queue)
        sent = counted(
            "{} label was sent to {} as job {}.",
            "{} labels were sent to {} as job {}.",
            watched.count,
            name,
            job.number,
        )
        hint = told.hint if is_given_up else Text("it is looked for again")
        parts = sent, told.what, hint
        said = " ".join(map(whole_sentence, parts))
        answer = (_("Was it printed?"), partial(self.ask_of_job, job, said))
        if watched.told != said:
            watched.told = said
            event = Event(WARNING, said, answer if is_given_up else None, job)
            self.window.events.report(event)
        if not is_given_up:
            GLib.timeout_add(WATCH, self.watch, job)

    def ask_file(self) -> None:
        """Asks for a file, and writes it."""
        chooser = self.widgets.saver
        path = self.window.made.table.path
        chooser.set_current_folder(str(path.absolute().parent))
        kind, form = _("labels"), self.window.made.labels.job.form.name
        chooser.set_current_name(f"{path.stem}-{kind}.{form}")
        if chooser.run() == Gtk.ResponseType.ACCEPT:
            path = Path(chooser.get_filename())
            self.window.when_made(partial(self.save, path))

    def save(self, path: Path) -> None:
        """Writes what label-print writes."""
        self.send_out(partial(saved, path), self.window.made.labels)

    def ask_and_print(self) -> None:
        """Asks what is printed, and prints it; or asks for a file, if that is chosen."""
        printer = self.window.of_printers.chosen
        if printer is None:
            self.ask_file()
        elif printer.is_lost:
            hint = Text("switch it on, or choose another printer")
            self.window.show_problem(ToolError(Text("{} is not found", printer.name), hint))
        elif printer.way == QUEUE:
            key = printer.key
            self.window.pressed = self.ask_and_print
            work = self.window.work.begin_work
            work(lambda _talk: queue_of(key), self.ask_queue, WindowTalk())
        else:
            self.ask_direct(printer)

    def ask_queue(self, queue: Queue) -> None:
        """Asks what is printed on a queue. If it has other dots than the labels, they are made for
        these, to be looked at.
        """
        self.window.pressed = None  # it is asked now
        job = self.window.made.labels.job
        dpi = queue.dpi_for(not job.plan.sheet.is_single) or job.plan.dpi
        printer = self.window.of_printers.chosen
        if job.form.is_drawn and dpi % job.plan.dpi:
            what = Text("{} prints at {} dpi: the labels are drawn for it now", queue.name, dpi)
            self.window.take_values(dpi=str(dpi))
            self.window.make(problem=ToolError(what, Text("check them, and print again")))
        elif printer and (wanted := self.ask_what_is_printed(printer, queue.choices)):
            if not wanted.is_trial:
                kept = PRINTERS.all().get(printer.key, {})
                others = {name: word for name, word in kept.items() if name not in queue.choices}
                PRINTERS.keep(printer.key, {**others, **wanted.options})
            name = self.window.of_printers.shown_name(queue.name)
            way = partial(queued, queue, wanted.options, name)
            self.send_out(way, wanted.labels, not wanted.is_trial)

    def ask_what_is_printed(self, printer: Printer, options: Options) -> Printout | None:
        """Asks what is printed; and once more if the labels were made again meanwhile, as when a
        job before has ended, since these may be others. Returns nothing if that is cancelled.
        """
        labels = self.window.made.labels
        wanted = self.printing.ask_what_is_printed(printer, labels, options)
        if wanted and not (self.window.are_made and self.window.made.labels is labels):
            self.window.when_made(self.ask_and_print)
            return None
        return wanted

    def ask_direct(self, printer: Printer) -> None:
        """Asks what is printed on a printer that takes labels one by one."""
        if not self.window.made.labels.job.form.is_roll:
            what = Text("{} needs labels one by one", printer.name)
            self.window.show_problem(ToolError(what, Text("choose what the printer takes")))
        elif wanted := self.ask_what_is_printed(printer, {}):
            self.send_to(printer.key, wanted.labels, not wanted.is_trial)

    def ask_to_go_on(self, problem: Unfinished) -> None:
        """Sends the rest of the labels to a printer that took some of them. Whether the next one is
        on paper is asked where that is in doubt.
        """
        labels, counts = self.sending
        options = labels.job.options
        done = problem.done - options.after
        if problem.is_doubtful:
            label = labels.prints[done].record
            text = _("Is label {number} on paper: {title} {price}?")
            text = text.format(number=problem.done + 1, title=label.title, price=label.price)
            yes = _("Yes, go on with {number}").format(number=problem.done + 2)
            is_there = self.window.asked_in_dialog(text, {True: yes, False: _("No, print it")})
            if is_there is None:
                return
            done += is_there
            self.keep_first(done)
        if done < len(labels.prints):
            job = replace(labels.job, options=replace(options, after=options.after + done))
            rest = replace(labels, job=job, prints=labels.prints[done:])
            self.send_to(problem.printer, rest, counts)

    def send_to(self, printer: str, labels: Prepared, counts: bool = True) -> None:
        """Sends to a printer in the network or on USB what label-print sends."""
        name = self.window.of_printers.shown_name(printer)
        self.send_out(partial(direct_sent, printer, name), labels, counts)


def behind(labels: Prepared) -> int:
    """Returns the label of a sheet behind those that are sent; 0 on paper without a next one."""
    job = labels.job
    cells = len(job.plan.places)
    return (job.options.first - 1 + len(labels.prints)) % cells + 1 if cells > 1 else 0


def is_last_on_sheet(labels: Prepared, stock: str) -> bool:
    """Returns whether no labels on sheets of a name were sent behind others."""
    return bool(PAPERS.get(sheet_key(stock), {}).get("first") == behind(labels))


def sent_to(count: int, printer: str) -> Text:
    """Returns that labels are sent to a printer."""
    return counted("{} label is sent to {}.", "{} labels are sent to {}.", count, printer)


def printed_on(count: int, printer: str) -> Text:
    """Returns that labels are printed."""
    return counted("{} label is printed on {}.", "{} labels are printed on {}.", count, printer)


def saved(path: Path, labels: Prepared, talk: WindowTalk) -> Sent:
    """Writes labels into a file; returns what there is to say of it. Raises `ToolError`."""
    sent = save_to(labels, path, talk).progress
    text = counted("{} label is saved as {}.", "{} labels are saved as {}.", sent.taken, path.name)
    return Sent(None, text, sent.wrong, SUCCESS)


def queued(
    queue: Queue, options: Mapping[str, str], name: str, labels: Prepared, talk: WindowTalk
) -> Sent:
    """Prints labels on a queue, whose name is shown so; returns what there is to say. Raises
    `ToolError`.
    """
    job, sender = print_by_cups(labels, queue, talk, options)
    doubt = queue.resolution_doubt(labels.job)
    parts = sent_to(sender.progress.taken, name), whole_sentence(doubt)
    return Sent(job, joined(" ", filter(None, parts)), sender.progress.wrong)


def direct_sent(printer: str, name: str, labels: Prepared, talk: WindowTalk) -> Sent:
    """Sends labels to a printer that takes them one by one, whose name is shown so; returns what it
    says itself, or what there is to say. Raises `ToolError`.
    """
    talk.printer = name
    sender = send_labels_to(labels, printer, talk, talk.stops)
    count, wrong = sender.progress.taken, sender.progress.wrong
    if sender.watch.answer.is_empty:
        return Sent(None, printed_on(count, name), wrong, SUCCESS)
    problems = [whole_sentence(problem.line) for problem in sender.watch.answer.problems]
    parts = sent_to(count, name), *problems
    return Sent(None, joined(" ", parts), wrong, WARNING if sender.watch.is_stuck else INFO)


def event_of(job: SentJob, count: int, state: JobState, name: str) -> Event | None:
    """Returns what there is to say of a job of some labels in a state, on a printer of this name;
    nothing while it goes on.
    """
    if state.is_printed and not (state.is_raw or state.is_repeated):
        return Event(SUCCESS, whole_sentence(printed_on(count, name)), None, job)
    said = " ".join(map(whole_sentence, (sent_to(count, name), state.told)))
    if state.is_repeated:
        return Event(WARNING, said, None, job)
    if state.is_over:
        return Event(SUCCESS if state.is_printed else ERROR, said, None, job)
    if state.is_waiting or state.trouble:
        return Event(WARNING, said, (_("Show the queue"), partial(open_settings, job.queue)), job)
    return None
