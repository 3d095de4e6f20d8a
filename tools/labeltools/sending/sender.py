"""Sends labels: one loop for every way out, with a journal or without one."""

from contextlib import contextmanager, suppress
from functools import partial
from pathlib import Path
from typing import Callable, Iterator, Mapping, Sequence, Sized

from labeltools.common.files import save_file
from labeltools.common.messages import fault_of, sentence, Talk, ToolError, UNEXPECTED
from labeltools.common.report import few, MOST_RANGES, places_text, range_words, ranges_of
from labeltools.common.text import counted, joined, NOTHING, shell_line, Text
from labeltools.lines.file import Record
from labeltools.printing.job import Job
from labeltools.printing.press import Batch, Prepared, Press, WrongLabels
from labeltools.sending.answers import QUERIES
from labeltools.sending.journal import Entry, Journal, PRINTED
from labeltools.sending.network import NetworkPrinter, SCHEME
from labeltools.sending.outcomes import NOTHING_OUT, Progress
from labeltools.sending.outlets import (
    Broken,
    Collected,
    Device,
    Outlet,
    OUTPUT,
    StandardOutput,
    Unreachable,
    Untaken,
)
from labeltools.sending.watch import Watch

TOOL = "label-print"  # which settles what is in doubt
ASKED_AFTER = 20  # labels of a run, after which a printer is asked how many it has left


class Sender:
    """Sends labels by an outlet, but for those that a journal has."""

    def __init__(
        self,
        job: Job,
        outlet: Outlet,
        journal: Journal | None = None,
        records: Sequence[Record] = (),
    ) -> None:
        """Takes all lines of the input, too."""
        self.outlet = outlet
        self.journal = journal
        self.records = records
        self.progress = Progress(job, outlet, records)
        self.watch = Watch(outlet, QUERIES.get(job.form.name), job.plan.dpi)
        # what is asked of the printer before its first label
        self.question: Callable[[], object] | None = None
        self.asked_after = ASKED_AFTER
        self.unasked = 0  # labels that the printer has taken since it was asked what it has left
        self.known: set[str] = set()  # the codes that the journal had
        self.is_at_end = False  # whether standard output takes no more
        self.is_off = False  # whether the way out broke off, or is not there any more

    def send_all(self, found: Prepared, talk: Talk, came: Sized = ()) -> None:
        """Sends labels with their copies until a signal came, but for those that would be drawn
        wrongly. Raises `ToolError` if they are not taken: of labels that are sent one by one with
        what to do then.
        """
        press = found.press(talk)
        self.question = partial(self.watch.report_before, talk)
        self.outlet.came = came
        self.outlet.say = talk.say
        for part in press.batches(found.prints):
            so_far = NOTHING if self.outlet.is_direct else self.progress.so_far()
            try:
                with unforeseen(ToolError, so_far):
                    self.send_right(press, part, talk)
            except ToolError as error:
                if not self.outlet.is_direct:
                    raise
                place = self.progress.labels_in_words(part.items)
                ended = self.progress.ended(error, place)
                self.is_off = self.is_off or isinstance(error, (Broken, Unreachable))
                with self.between_labels():
                    self.close_well()
                raise ended from error
            self.outlet.done += len(part.items)
            talk.go_on(self.outlet.done - found.job.options.after, len(found.prints))
        if self.progress.wrong and not self.progress.taken:
            raise ToolError(NOTHING_OUT)
        with self.between_labels():
            if self.progress.taken:
                self.watch.wait_until_printed(self.progress.taken)
            self.close_well()

    def close_well(self) -> None:
        """Ends the way out, and writes that what it took is printed, but for what a printer says
        that it has left; nothing if it has broken off or has a trouble. Raises `Broken`.
        """
        self.outlet.close()
        left = self.watch.answer.left if self.watch.is_stuck else 0
        if self.journal is not None and left is not None and not self.is_off:
            self.journal.write_printed(left)

    def ask_before(self) -> None:
        """Asks a printer once what there is to ask before its first label; raises `ToolError`, as
        long as it is not there, or says that it does not suit.
        """
        if self.question is not None:
            with self.between_labels():
                self.question()
            self.question = None

    def ask_for_left(self) -> None:
        """Asks a printer, once it has taken some labels, how many it has left: the others are
        printed. One more may be on its way to the paper. Raises `Broken`.
        """
        if self.unasked < self.asked_after:
            return
        self.unasked = 0
        left = self.watch.ask().left
        if self.journal is not None and left is not None:
            self.journal.write_printed(left + 1 if left else 0)

    @contextmanager
    def between_labels(self) -> Iterator[None]:
        """For what is done before a label, or after the last one: raises `ToolError` in place of
        `Broken`, since what broke off are the labels that were sent.
        """
        try:
            with unforeseen(Broken):
                yield
        except ToolError as error:
            self.is_off = isinstance(error, (Broken, Unreachable))
            if not isinstance(error, Broken):
                raise
            raise self.progress.ended_between_labels(error) from error

    def send_right(self, press: Press, part: Batch, talk: Talk) -> None:
        """Sends what goes out as a whole, without labels that would be drawn wrongly, of which it
        says so; raises `ToolError` if somebody has stopped the work.
        """
        if self.outlet.came:
            with self.between_labels():
                self.close_well()
            raise ToolError(Text("{}: {}", self.outlet.name, self.progress.so_far()))
        while part.items:
            try:
                self.send_batch(press, part, not self.progress.taken)
                return
            except WrongLabels as error:
                for wrong in error.errors.values():
                    talk.say(wrong.problem)
                self.progress.wrong.update(error.errors)
                part = press.without(part, error.errors)

    def send_batch(self, press: Press, part: Batch, is_first: bool, is_last: bool = False) -> int:
        """Sends what goes out as a whole, and returns how many bytes it has; 0 if the journal has
        its label. The way out ends after the last one, which is taken if that ends well.
        """
        record = part.items[0].record
        journal = self.journal
        if journal and record.code_line not in journal.again and journal.entry(record):
            self.known.add(record.code_line)  # so no connection is made
            return 0
        document = press.document(part, is_first)
        self.ask_before()
        with self.between_labels():
            self.outlet.open()
            if journal is not None:
                self.ask_for_left()
        if journal is not None and not journal.claim(record):
            self.known.add(record.code_line)
            return 0
        self.give_label(record, document, is_last)
        self.is_off = False
        self.progress.taken += len(part.items)
        self.unasked += 1
        if not self.outlet.is_kept:
            self.outlet.on_way += part.items
        if is_last:
            self.outlet.on_way.clear()
        return len(document)

    def give_label(self, record: Record, document: bytes, is_last: bool) -> None:
        """Gives a label to the printer, and writes that it was taken. Raises what the printer does;
        with a journal `Broken`, since the label is in doubt there, too.
        """
        try:
            with unforeseen(Broken):
                self.outlet.send(document)
                if is_last:
                    self.outlet.close()
                if self.journal is not None:
                    self.journal.write_taken(record, is_printed=self.outlet.is_kept)
        except ToolError as error:
            self.is_at_end = self.outlet.name == OUTPUT and isinstance(error, Untaken)
            if self.journal is None:
                raise
            with suppress(ToolError):  # something else is reported
                self.journal.give_up()
            raise Broken.of(error.problem, error.status) from error

    def end_run(self) -> Mapping[str, Entry]:
        """Ends the run, and returns what is in doubt in the journal; nothing if that cannot be
        read, which is an error of the label before.
        """
        with suppress(ToolError):
            if self.journal is not None:
                self.journal.give_up()
                doubtful = self.journal.doubtful()
                self.journal.base.close()
                return doubtful
        return {}

    def hint_if_doubtful(self, record: Record) -> Text:
        """Returns what to do about a label that was sent, and of which it is not known whether it
        is on paper; nothing if it is.
        """
        entry = self.journal.entry(record) if self.journal else None
        if entry is None or entry.state == PRINTED:
            return NOTHING
        code = record.code_line
        if code in self.doubtful_codes():
            hint = Text("then write #printed {} or #missing {}", code, code)
            return sentence(may_be_missing(entry.printer), hint)
        if not self.journal or not self.journal.is_sending(entry):
            return NOTHING  # it was taken meanwhile
        what = Text("{} is sending it", entry.printer)
        return sentence(what, Text("send the line again to see whether it was taken"))

    def doubtful_codes(self) -> Mapping[str, Entry]:
        """Returns the codes of labels of which it is not known whether they are on paper; none if
        the journal cannot be read, which is an error of the label before.
        """
        with suppress(ToolError):
            return self.journal.doubtful() if self.journal else {}
        return {}

    def doubts(self, doubtful: Mapping[str, Entry]) -> Iterator[Text]:
        """Yields messages that name all labels in doubt, those of a printer together, and the
        commands that settle them.
        """
        printers: dict[str, list[str]] = {}
        for code, entry in doubtful.items():
            printers.setdefault(entry.printer, []).append(code)
        places = {record.code_line: record.origin for record in self.records if printers}
        for printer, codes in printers.items():
            here = [places[code] for code in codes if code in places]
            others = [code for code in codes if code not in places]
            named = [places_text(here, self.progress.has_tables)] if here else []
            named += [Text("{}, of another input", few(others))] if others else []
            yield Text("{}: {}", joined("; ", named), may_be_missing(printer))
            words = ["--print", printer]
            if len(codes) == 1:
                words = ["--only-code", codes[0]]
            ranges = ranges_of(sorted(place.number for place in here))
            if self.progress.is_clear and not others and len(ranges) <= MOST_RANGES:
                words = ["--only", ",".join(range_words(ranges))]
            path = self.journal.path if self.journal else ""
            yield Text("if on paper: {}", settling_line(path, [*words, "--state", "printed"]))
            line = settling_line(path, [*words, "--state", "missing"])
            yield Text("if missing, to be printed again: {}", line)


@contextmanager
def unforeseen(kind: type[ToolError], so_far: Text = NOTHING) -> Iterator[None]:
    """Raises an error of a kind, with what went out before it, in place of an exception that nobody
    expected.
    """
    try:
        yield
    except (OSError, ToolError):
        raise
    except Exception as error:
        what = joined(": ", filter(None, (fault_of(error), so_far)))
        raise kind(what, status=UNEXPECTED) from error


def outlet_of(job: Job, printer: str | None) -> Outlet:
    """Returns the way for the labels of a job to a printer in the network, or to one that is a
    file, or to standard output if none is named.
    """
    if not printer:
        is_synced = job.options.journal is not None
        return StandardOutput(job.form.is_roll, is_synced)
    if printer.startswith(SCHEME):
        return NetworkPrinter(printer)
    return Device(printer, job.form.begin)


def send_labels_to(found: Prepared, printer: str, talk: Talk, came: Sized = ()) -> Sender:
    """Sends labels one by one to a printer until something came, and returns the sender, which
    knows what the printer took; raises `ToolError`.
    """
    sender = Sender(found.job, outlet_of(found.job, printer))
    sender.send_all(found, talk, came)
    return sender


def save_to(found: Prepared, path: Path, talk: Talk) -> Sender:
    """Writes all labels to a file, which has its name once it is whole, and returns the sender;
    raises `ToolError` and `OSError`.
    """
    sender = Sender(found.job, Collected(path.name, partial(save_file, path=path)))
    sender.send_all(found, talk)
    return sender


def labels_text(count: int) -> Text:
    """Returns how many labels there are."""
    return counted("{} label", "{} labels", count)


def may_be_missing(printer: str) -> Text:
    """Returns what is said of labels that were sent to a printer, and may be on paper."""
    return Text("may be missing, sent to {}: look there", printer)


def settling_line(journal: str, words: Sequence[str]) -> str:
    """Returns the command that settles labels in doubt, which some words choose."""
    return shell_line([TOOL, "--journal", journal, *words])
