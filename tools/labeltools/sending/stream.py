"""Prints each label as soon as its line has come in: for a till, a warehouse or a ticket desk,
whose program keeps label-print running. Each line with data has one answer on standard error, in
order: a word, the number of the line, and more.

    taken 2 928 qr T00001                       its bytes: printer or standard output has it
    refused 3 check digit is 2, should be 1     do not send it again
    known 4 qr T00001                           the journal has it: it was sent before
    unsent 5 tcp://till-3: Connection refused   nothing went out: send it again
    doubtful 6 tcp://till-3: ..                 a part went out: look before you send it again

A line that begins with `label-print:` is a message: what is reported of a design, once, and of
texts that are shortened. A label is laid out by itself, as in a run for its line alone. An object
before a line belongs to it, as in the file of label-table; its first and last remarks are skipped.
It may also be on the same line, with a space behind it. In a FIFO, which several programs may
share, it has to be: else it would go to the next line of another program.

With a journal, a line `#printed` or `#missing` and a code settles a label in doubt. The answer is
`known` if it is printed, `unsent` if it is missing, so that its line can be sent, or `refused`.
"""

import errno
import json
import os
import select
import signal
import stat
import sys
from contextlib import suppress
from queue import Queue
from threading import Thread
from typing import BinaryIO, Iterator, Sequence

from labeltools.common.budget import LINE_OF_STREAM, SINGLE_LINE, too_much
from labeltools.common.files import events_of
from labeltools.common.messages import Talk, ToolError, UNEXPECTED, visible, write_message
from labeltools.common.process import standard_output
from labeltools.common.report import places_text
from labeltools.common.signals import end_with, ENDING, hold_signals
from labeltools.common.text import NOTHING, Text, translated
from labeltools.layout.letters import Letters
from labeltools.lines.engine import Engine
from labeltools.lines.file import drawn_lines, OBJECT
from labeltools.printing.job import Job
from labeltools.printing.press import pens_of, Prepared, prepared, Press, WrongLabels
from labeltools.printing.remarks import SHORTENED
from labeltools.sending.database import is_in_place
from labeltools.sending.outlets import Broken, has_reader, OUTPUT, Unreachable
from labeltools.sending.sender import Sender, unforeseen

TAKEN, REFUSED, KNOWN, UNSENT, DOUBTFUL = "taken", "refused", "known", "unsent", "doubtful"
SKIPPED = (b'#{"labels"', b'#{"end"')
PRINTED = b"#printed"
SETTLES = {PRINTED: KNOWN, b"#missing": UNSENT}  # lines that settle a doubt, and their answers
MOST_AHEAD = 1000  # lines of a FIFO that wait to be printed
LONGEST_LINE = LINE_OF_STREAM.most(0)  # bytes: of a longer one no more is kept
LOOK = 5.0  # seconds between two looks whether a FIFO has its name still
APART = Text("a remark has to be on one line with its label here")
CUT_OFF = Text("cut off before its line end")
TOOL = "label-print"  # begins what is a message and no answer
NO_FIFO = Text("make the FIFO again with mkfifo, then give the same command again")


InputLine = tuple[int, bytes]  # its number, from 1, and the line with its end


class Fifo:
    """The lines of a FIFO by its name, which a thread reads while labels go out: the end of a
    writer has to be seen before the next one comes, whose line would begin with half of another.
    """

    def __init__(self, path: str) -> None:
        """Opens it, and begins to read; raises `OSError`."""
        self.path = path
        self.source = os.open(path, os.O_RDONLY | os.O_NONBLOCK)  # it waits for no writer
        os.set_blocking(self.source, True)
        self.found: Queue[bytes | Exception] = Queue(MOST_AHEAD)
        Thread(target=self.read_ahead, daemon=True).start()

    def read_ahead(self) -> None:
        """Reads lines, and the ends of writers, until there is an error, which `readline` raises;
        signals are for the thread that prints.
        """
        signal.pthread_sigmask(signal.SIG_BLOCK, ENDING)
        lines = os.fdopen(self.source, "rb")
        try:
            while True:
                self.wait_for_writer()
                while line := lines.readline(LONGEST_LINE + 1):
                    self.found.put(line)
                self.found.put(b"")
        except Exception as error:
            self.found.put(error)

    def wait_for_writer(self) -> None:
        """Waits until another program has it open. Meanwhile there is a writer of our own, or the
        FIFO would be at its end. Raises `ToolError` where nobody can open it any more.
        """
        has_writer = False
        while not has_writer:
            if not is_in_place(self.path, self.source):
                raise ToolError(Text("{}: another program has changed it", self.path), NO_FIFO)
            writer = os.open(self.path, os.O_WRONLY)
            has_bytes = bool(events_of(self.source, select.POLLIN, LOOK))
            os.close(writer)
            is_at_end = bool(events_of(self.source, select.POLLIN))
            has_writer = has_bytes or not is_at_end

    def readline(self, _: int = 0) -> bytes:
        """Returns a line, or the next part of a long one; nothing at the end of a writer. Raises
        `ToolError` and `OSError`.
        """
        found = self.found.get()
        if isinstance(found, Exception):
            raise found
        return found


Source = BinaryIO | Fifo


def source_of(path: str | None) -> tuple[str, Source]:
    """Returns what lines come from, with its name; raises `ToolError` and `OSError`."""
    if path is None or path == "-":
        if sys.stdin is None:
            raise ToolError(Text("standard input is closed"))
        return translated(Text("standard input")), sys.stdin.buffer
    if stat.S_ISFIFO(os.stat(path).st_mode):
        return path, Fifo(path)
    return path, open(path, "rb")


def next_line(source: Source) -> bytes:
    """Returns a line, or the next part of a long one; nothing at the end. Raises `ToolError` where
    it cannot be read.
    """
    try:
        return source.readline(LONGEST_LINE + 1)
    except OSError as error:
        raise ToolError(Text("the lines cannot be read: {}", error.strerror)) from error


def remark_and_line(line: bytes) -> Sequence[bytes]:
    """Returns an object and the line behind it; nothing if these are not on one line.

    >>> remark_and_line(b'#{"title":"A } b"} qr c} d\\n')
    (b'#{"title":"A } b"}\\n', b'qr c} d\\n')
    >>> remark_and_line(b'#{"title":"A"}\\n'), remark_and_line(b"#{ qr A\\n")
    ((), ())
    """
    if not line.startswith(OBJECT):
        return ()
    text = line.decode("utf-8", "surrogateescape")
    try:
        _, end = json.JSONDecoder().raw_decode(text, 1)
    except (ValueError, RecursionError):
        return ()
    remark, rest = text[:end] + "\n", text[end:].lstrip(" ")
    both = (part.encode("utf-8", "surrogateescape") for part in (remark, rest))
    return () if rest in ("", "\n") else tuple(both)


def is_remark(line: bytes) -> bool:
    """Returns whether a line is a remark, and does not settle a label in doubt."""
    return line.startswith(b"#") and not line.startswith((*SETTLES,))


def labels_of_lines(source: Source) -> Iterator[Sequence[InputLine]]:
    """Yields each line with data as soon as it is there, behind the objects before it where there
    are any; of a FIFO, for ever.
    """
    before: list[InputLine] = []
    number = 0
    while (line := next_line(source)) or isinstance(source, Fifo):
        if not line:
            before = []
            continue
        number += 1
        end = line
        while len(end) > LONGEST_LINE and not end.endswith(b"\n"):
            end = next_line(source)
        line += b"\n" if end.endswith(b"\n") and end is not line else b""
        is_whole = line.endswith(b"\n")
        if is_whole and (parts := remark_and_line(line)):
            yield [(number, part) for part in parts]
            before = []
        elif isinstance(source, Fifo) and is_remark(line):
            yield [(number, OBJECT + b"\n"), (number, b"\n")]
        elif is_whole and line.startswith(OBJECT):  # of many before a line it is enough to see two
            before = [] if line.startswith(SKIPPED) else [*before[:1], (number, line)]
        elif not is_whole or not is_remark(line) and line != b"\n":
            yield [*before, (number, line)]
            before = []


class Stream:
    """Prints lines one by one."""

    def __init__(self, name: str, source: Source, job: Job, sender: Sender) -> None:
        """Takes what lines come from, by its name, and how they are printed; raises `ToolError` if
        none can be.
        """
        self.options = job.options
        Engine(self.options.is_escaped)
        self.name = name
        self.source = source
        self.job = job
        self.sender = sender
        sender.asked_after = 1  # each label may be on paper before the next one comes
        sender.question = sender.watch.require_dots
        self.pens = pens_of(job, Letters(job.options.font))
        self.presses: dict[bool, Press] = {}
        self.said: set[str] = set()  # of the design
        self.notes: list[Text] = []  # of the label that went out last
        self.status = 0

    def end(self) -> None:
        """Ends the run in the journal: all labels are printed, since each one ended well, unless
        nobody reads them.
        """
        with suppress(ToolError):
            if not self.sender.is_at_end:
                self.sender.close_well()
        self.sender.end_run()

    def answer_all(self) -> int:
        """Answers each line, and returns the status with which the stream ends."""
        status = 0
        for parts in labels_of_lines(self.source):
            if not has_reader(sys.stderr.fileno()):
                return 1
            with hold_signals() as came:
                self.sender.outlet.came = came
                word, text = self.answer_to(parts)
                status = status if word == TAKEN else 1
                said = visible(translated(text))
                try:
                    for note in self.notes:
                        write_message(TOOL, note)
                    print(word, parts[-1][0], said, file=sys.stderr, flush=True)
                except OSError:
                    return 1
            if self.status or self.sender.is_at_end:  # the fault is ours, or nobody takes labels
                return self.status or 1
        return status

    def answer_to(self, parts: Sequence[InputLine]) -> tuple[str, Text]:
        """Prints a line, and returns the word and the text of its answer."""
        self.notes = []
        text = parts[-1][1].removesuffix(b"\n").decode("utf-8", "backslashreplace")
        try:
            with unforeseen(ToolError):
                said, _, code = parts[-1][1].rstrip().partition(b" ")
                if said in SETTLES:
                    return self.settle(said, code)
                self.require_reader()
                try:
                    found = self.label_of_line(parts)
                except ToolError as error:
                    return REFUSED, error.problem.line
                size = self.print(found)
                return (TAKEN, Text("{} {}", size, text)) if size else (KNOWN, Text("{}", text))
        except WrongLabels as error:  # the next label is another one
            return REFUSED, error.problem.line
        except ToolError as error:
            if error.status == UNEXPECTED:
                self.status = error.status
            return DOUBTFUL if isinstance(error, Broken) else UNSENT, error.problem.line
        finally:
            self.sender.outlet.drop()  # it is left to others if nothing went out by it

    def settle(self, word: bytes, code: bytes) -> tuple[str, Text]:
        """Writes what is said of a label in doubt, and returns the word and the text of the
        answer; raises `ToolError`.
        """
        journal = self.sender.journal
        text = code.decode("utf-8", "backslashreplace")
        entry = journal.doubtful().get(text) if journal else None
        if journal is None or entry is None or not journal.settle(text, entry, word == PRINTED):
            return REFUSED, Text("{} is not in doubt", text)
        return SETTLES[word], Text("{}", text)

    def print(self, found: Prepared) -> int:
        """Prints a label and returns how many bytes it has, 0 if its code was sent before; raises
        `ToolError` where nothing went out, and `Broken`.
        """
        is_turned = found.laid_out.area.is_turned
        if is_turned not in self.presses:
            self.presses[is_turned] = found.press(Talk())
        press = self.presses[is_turned]  # with its fonts
        size = 0
        copies = [*press.batches(found.prints)]  # those of ESC/POS go out one by one
        for copy in copies:
            try:
                size += self.sender.send_batch(press, copy, copy is copies[0], copy is copies[-1])
            except ToolError as error:
                if not size:
                    raise
                raise Broken.of(error.problem, error.status) from error
        if reason := NOTHING if size else self.sender.hint_if_doubtful(found.records[0]):
            raise Broken(reason)
        if size:
            self.notes = [*self.notes_on(found, press)]
        return size

    def notes_on(self, found: Prepared, press: Press) -> Iterator[Text]:
        """Yields what is reported of a label: that a text is shortened, and what has not been
        reported of its design before.
        """
        for _, text in found.laid_out.said:
            if str(text) not in self.said:
                self.said.add(str(text))
                yield text.line
        if any(map(press.pen.is_shortened, found.labels)):
            place = found.records[0].origin
            yield Text("{}: {}", places_text([place], False), SHORTENED)

    def require_reader(self) -> None:
        """Raises `ToolError` where labels go to standard output, and nobody reads it."""
        if self.sender.outlet.name == OUTPUT and not has_reader(standard_output().fileno()):
            self.sender.is_at_end = True
            raise ToolError(Text("{}: {}", OUTPUT, os.strerror(errno.EPIPE)))

    def label_of_line(self, parts: Sequence[InputLine]) -> Prepared:
        """Returns the label of a line; raises `ToolError` if it has none."""
        if not parts[-1][1].endswith(b"\n"):
            raise ToolError(CUT_OFF)
        if parts[-1][1] == b"\n":
            raise ToolError(APART)
        numbers, lines_read = zip(*parts)
        if max(map(len, lines_read[:-1]), default=0) > LONGEST_LINE:  # one of data is refused
            name = translated(Text("line {}", numbers[-1]))
            raise too_much(name, LONGEST_LINE, SINGLE_LINE, LINE_OF_STREAM)
        read = b"".join(lines_read)
        lines = drawn_lines(read, self.name, self.options.is_escaped, Talk(), numbers)
        found = prepared(self.job, lines, Talk(), self.pens, False)
        if found.left_out:
            raise ToolError.of(found.left_out[0].problem)
        if not found.labels:
            raise ToolError(Text("none is printed: it has 0 copies"))
        return found


def answer_lines(job: Job, sender: Sender) -> int:
    """Prints the lines that come in and answers each; returns 1 where one is not printed, or a
    label is in doubt. It ends where nobody takes its labels, or reads its answers, any more: a line
    without an answer would be sent again, and its label be there twice. So a signal, too, waits for
    the answer, and it is looked before each label whether standard error is read.
    """
    if sys.__stderr__ is None:
        return 1
    stream = Stream(*source_of(job.options.lines), job, sender)
    with suppress(Unreachable):  # it may be switched on later
        sender.ask_before()
    sender.outlet.drop()
    doubtful = sender.doubtful_codes()
    for message in sender.doubts(doubtful):
        write_message(TOOL, message)
    with end_with(stream.end):
        status = stream.answer_all()
    return status or int(bool(doubtful))
