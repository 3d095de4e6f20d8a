"""The command label-print: its arguments, and where labels go."""

import fcntl
import gc
import os
import re
import stat
import sys
from functools import partial
from pathlib import Path
from typing import Mapping, Sequence

from labeltools.common.arguments import add_options, number_from, Option, Parser
from labeltools.common.messages import BAD_ARGUMENTS, Problem, sentence, ToolError, write_message
from labeltools.common.process import CommandTalk, keep_standard_error, read_input, standard_output
from labeltools.common.report import left_out_messages, places_text, Ranges
from labeltools.common.signals import hold_signals
from labeltools.common.text import counted, joined, shell_line, Text
from labeltools.designs.svg_design import is_file
from labeltools.drawing.forms import FORMS
from labeltools.layout.area import PURPOSES
from labeltools.lines.file import Record
from labeltools.paper.sizes import A4
from labeltools.paper.stock import forget_glabels, list_stock
from labeltools.printing.job import (
    AS_GIVEN,
    DRAWING_DPI,
    form_of,
    Job,
    LEAVE_OUT,
    planned,
    PrintOptions,
    refuse,
    STATES,
)
from labeltools.printing.press import check_count, labels_of, Prepared
from labeltools.printing.selection import codes_named, ranges_in, Selection
from labeltools.sending.journal import Journal
from labeltools.sending.network import address_of
from labeltools.sending.outcomes import NOTHING_OUT
from labeltools.sending.outlets import Files, Outlet, OUTPUT
from labeltools.sending.sender import labels_text, outlet_of, Sender, unforeseen

TOOL = "label-print"
USAGE = """label-print --stock NAME [OPTIONS] [LINES]
       label-print --paper WxH [OPTIONS] [LINES]
       label-print --grid NxN --cell WxH [OPTIONS] [LINES]
       label-print --list-stock [WORD]"""
ABOUT = """Prints the lines of label-table, or of labels(1), on sheets of labels, on label
printers and on receipt printers. Lengths are in millimetres. Defaults are in
parentheses."""
EXAMPLES = """examples:
  label-print --stock 'Avery L7160' articles.lines > sheet.pdf
  label-print --paper 60x40 --dpi 203 --to zpl --print tcp://HOST articles.lines

man label-print has all details."""
LENGTH = re.compile(r"-?\d{1,4}(?:\.\d{1,4})?", re.ASCII)
GRID = re.compile("([1-9][0-9]{0,3})x([1-9][0-9]{0,3})")
SOME_CELLS = "3x8"  # as they are written
SMALLEST = 0.0001  # of a length that is above zero, in millimetres
TURNS = {"yes": True, "no": False}
FARTHEST = 10_000.0  # that something is moved
ONLY_BY_DRIVER = Text("a paper is taken as given only for a PDF on a queue of CUPS")


def lengths(argument: str, example: str, least: float = 0.0) -> tuple[float, ...]:
    """Returns the lengths of an argument, from `least` on: as many as an example has, with the same
    sign between them.
    """
    sign = "x" if "x" in example else ","
    parts = argument.split(sign)
    is_like = len(parts) == example.count(sign) + 1 and all(map(LENGTH.fullmatch, parts))
    found = tuple(float(part) for part in parts) if is_like else ()
    if not found or min(found) < least:
        raise ValueError(Text("{!r}: write it as {}", argument, example))
    return found


def grid(argument: str) -> tuple[int, int]:
    """Returns how many cells are side by side, and how many are below one another."""
    found = GRID.fullmatch(argument)
    if not found:
        raise ValueError(Text("{!r}: write it as {}", argument, SOME_CELLS))
    return int(found[1]), int(found[2])


def module(argument: str) -> float:
    """Returns the width of a module."""
    (width,) = lengths(argument, "38.1", SMALLEST)
    return width


def edges(argument: str) -> tuple[float, ...]:
    """Returns the edges of one number for all, or of four."""
    return lengths(argument, "5,5,5,5") if "," in argument else 4 * lengths(argument, "5")


def design_of(argument: str) -> str:
    """Returns the name of a design, or the file of a user's own, which may be one of those that are
    installed with this package.
    """
    if argument in PURPOSES or is_file(argument) and "/" in argument:
        return argument
    if not is_file(argument):
        known = ", ".join(PURPOSES)
        what = Text("{!r} is neither one of {} nor a file such as rack.svg", argument, known)
        raise ValueError(what)
    share = Path(__file__).resolve().parents[3]  # of a checkout, or PREFIX/share
    folders = (Path(), share / "designs", share / "doc/labels/designs")
    paths = (folder / argument for folder in folders)
    return next((str(path) for path in paths if path.exists()), argument)


def row_ranges(argument: str) -> Ranges:
    """Returns rows such as 2,7-9 or 7-."""
    if found := ranges_in(argument):
        return found
    raise ValueError(Text("{!r}: write rows as 2,7-9 or 7-", argument))


def not_empty(argument: str) -> str:
    """Returns an argument that is not empty, as it is where a variable of a shell is not set."""
    if not argument.strip("@ "):
        raise ValueError(Text("it is empty"))
    return argument


def printer_of(argument: str) -> str:
    """Returns the name of a queue of CUPS, of a printer in the network, or of a file."""
    if "://" in not_empty(argument):
        try:
            address_of(argument)
        except ToolError as error:
            raise ValueError(error.what) from error
    return argument


WIDTH_AND_HEIGHT = partial(lengths, example="63x38", least=SMALLEST)
LEFT_AND_TOP = partial(lengths, example="7x15")
SHIFT = partial(lengths, example="-0.5,1", least=-FARTHEST)
FROM_ONE = partial(number_from, least=1, digits=4, example="3")
LABELS_BEFORE = partial(number_from, least=0, digits=7, example="9")  # as many as a run takes
SUMMARY = "report what was written and how to print it (always on a terminal)"
OPTIONS: Mapping[str, Sequence[Option]] = {
    "the paper": (
        Option(
            "--stock",
            "NAME",
            "the sheet of labels by its name, such as 'Avery L7160' or l7160",
            apart="sheet",
        ),
        Option(
            "--list-stock",
            "WORD",
            "list the sheets that have these words or this size, or all",
            bare="",
            apart="sheet",
        ),
        Option(
            "--paper",
            "WxH",
            "one label on each page of this size, as on a roll; or the page of a grid "
            "({:g}x{:g})".format(*A4),
            WIDTH_AND_HEIGHT,
            apart="sheet",
        ),
        Option(
            "--cell",
            "WxH",
            "the size of a cell of a grid",
            WIDTH_AND_HEIGHT,
        ),
        Option(
            "--grid",
            "NxN",
            "how many cells are side by side and below one another, such as 3x8, with --cell",
            grid,
        ),
        Option(
            "--margin",
            "LEFTxTOP",
            "where the first cell begins (by default the grid is centred)",
            LEFT_AND_TOP,
        ),
        Option("--gap", "XxY", "the distance between two cells (0x0)", LEFT_AND_TOP),
        Option(
            "--edge",
            "MM",
            "white at the edges of a page: one for all, or left,top,right,bottom (5; on a roll 0)",
            edges,
        ),
        Option("--shift", "X,Y", "move everything, for a printer that feeds off centre", SHIFT),
    ),
    "how labels look": (
        Option(
            "--design",
            "NAME",
            "what labels are for: article, a till (the default); shelf, a large price; or a page "
            "of SVG",
            design_of,
        ),
        Option(
            "--turn",
            "WHETHER",
            "turn labels a quarter to the right: yes, or no (by default if more fit)",
            choices=tuple(TURNS),
        ),
        Option(
            "--module",
            "MM",
            "the width of the narrowest bar, or of a square of QR (what fits best)",
            module,
        ),
        Option("--note", "TEXT", "a line of text for all labels, such as a date"),
        Option("--font", "NAME", "the font of titles, texts and prices (Liberation Sans)"),
        Option(
            "--no-raised-cents",
            "",
            "print cents as large as the digits before them, and not raised",
            target="has_raised_cents",
            sets=False,
        ),
    ),
    "what is printed": (
        Option("--first", "N", "begin at this cell of the first page (1)", FROM_ONE),
        Option(
            "--only",
            "ROWS",
            "print only these rows of the table, such as 2,7-9, or 7- for all from 7 on",
            row_ranges,
            target="rows_only",
        ),
        Option(
            "--only-code",
            "CODE",
            "print the label with this code, or with a code of @FILE, which has one on each line; "
            "with --only, all labels that either of the two names",
            not_empty,
            target="codes",
            is_repeated=True,
        ),
        Option(
            "--after",
            "N",
            "skip this many labels, which are on paper already (0)",
            LABELS_BEFORE,
        ),
        Option(
            "--escapes",
            "",
            "read escapes in data, as labels --escapes does",
            target="is_escaped",
        ),
    ),
    "output": (
        Option(
            "--to",
            "FORM",
            "{} (pdf)".format(", ".join(FORMS)),
            choices=tuple(FORMS),
        ),
        Option(
            "--dpi",
            "N",
            f"the resolution of the printer, in dots per inch (pdf: {DRAWING_DPI})",
            FROM_ONE,
        ),
        Option(
            "--each",
            "NAME",
            "a file for each label: %%d is its number, %%s its data",
            apart="outlet",
        ),
        Option(
            "--print",
            "QUEUE",
            "print on this queue of CUPS, tcp://HOST or /dev/usb/lp0, not to standard output",
            printer_of,
            target="queue",
            apart="outlet",
        ),
        Option(
            "--paper-as-given",
            "",
            "the printer takes this paper, up to its edge, even if its driver does not say so",
            target="is_paper_as_given",
        ),
        Option(
            "--journal",
            "FILE",
            "write each label into this file before it is sent; what is there is not sent again",
            not_empty,
        ),
        Option(
            "--again",
            "PRINTER",
            "print once more what the journal has of this printer, with --only or --only-code",
            not_empty,
        ),
        Option(
            "--state",
            "WHICH",
            "print nothing: list writes what the journal has as CSV; printed says that its labels "
            "in doubt are on paper, and missing that the next run prints them (of a printer with "
            "--print, some with --only or --only-code)",
            choices=STATES,
        ),
        Option(
            "--stream",
            "",
            "print each label as soon as its line has come in, and answer on standard error",
            target="is_stream",
        ),
        Option("--dots", "N", "dots across the paper of a receipt printer (576)", FROM_ONE),
        Option(
            "--no-cut",
            "",
            "do not cut the paper of a receipt printer after each label",
            target="is_cut",
            sets=False,
        ),
    ),
}


def print_parser() -> Parser:
    """Returns the arguments; their names are those of `PrintOptions`, which has their defaults."""
    parser = Parser(TOOL, USAGE, ABOUT, EXAMPLES)
    add_options(parser, OPTIONS)
    lines = "the file of label-table, or lines (standard input)"
    parser.add_argument("lines", metavar="LINES", nargs="?", help=lines)
    Option("--summary", "", SUMMARY, target="is_summed").add_to(parser)
    parser.set_defaults(**vars(PrintOptions()))
    return parser


def print_options(words: Sequence[str] | None = None) -> PrintOptions:
    """Returns what words ask for, or else the arguments of this program; raises `ToolError` and
    `OSError`.
    """
    given = vars(print_parser().parse_args(words))
    given["only"] = Selection(given.pop("rows_only") or (), codes_named(given.pop("codes")))
    given["turn"] = TURNS.get(given["turn"])
    return PrintOptions(**given)


def run() -> int:
    """Returns 0 where each label is printed, 1 where one is left out."""
    options = print_options()
    if options.is_stream:
        keep_standard_error()
    if options.list_stock is not None:
        one_word = Text("sheets are looked for by one text")
        refuse(options.lines, one_word, Text("put quotes around it"), ["list-stock"])
        print(stock_lines(options.list_stock))
        return 0
    if options.state is not None:
        from labeltools.commands import journal_run  # with the journal

        return journal_run.run(options)
    is_queue = options.queue and not options.is_stream and not options.is_sent_singly
    has_driver = is_queue and not form_of(options).is_roll
    needless = options.is_paper_as_given and not has_driver
    refuse(needless, ONLY_BY_DRIVER, LEAVE_OUT, [AS_GIVEN.option])
    if is_queue:
        from labeltools.commands.queue_run import print_on_queue  # with CUPS, which takes time

        return print_on_queue(options)
    job = planned(options)
    forget_glabels()
    check_way(job)
    if options.is_stream:
        from labeltools.sending import stream

        return stream.answer_lines(job, sender_of(job, outlet_of(job, options.queue), ()))
    return give_out(labels_in(job, CommandTalk(TOOL)), CommandTalk(TOOL))


def labels_in(job: Job, talk: CommandTalk) -> Prepared:
    """Returns the labels of the lines of a file; reports what there is to say of them."""
    gc.disable()  # no label leaves a cycle behind, and to look for them takes time
    with unforeseen(ToolError, NOTHING_OUT):
        found = labels_of(job, *read_input(job.options.lines), talk)
    for message in [
        *left_out_messages(found.left_out, found.tables),
        *(remark.problem.line for remark in found.remarks),
    ]:
        write_message(TOOL, message)
    check_count(job, found.prints)
    if job.options.after:
        place = places_text([found.prints[0].record.origin], len(found.tables) > 1)
        write_message(TOOL, Text("the first label is {}", place))
    return found


def stock_lines(wanted: str) -> str:
    """Returns the sheets that have some words; raises `ToolError` if there is none."""
    hint = Text("try a part of the name, or the size of a cell, such as 70x37")
    what = Text("no sheet has all of these words: {}", wanted)
    if lines := [f"{name}: {sheet.said}" for name, sheet in list_stock(wanted)]:
        return "\n".join(lines)
    raise ToolError(Text("{}: {}", what, hint))


def check_way(job: Job) -> None:
    """Raises `ToolError` where standard output is closed or would show a drawing."""
    if job.options.queue is None and not job.is_each:
        if standard_output().isatty() and not job.form.is_roll:
            hint = Text("add > labels.{}", job.form.name)
            raise ToolError(Text("standard output is a terminal"), hint, BAD_ARGUMENTS)


def sender_of(job: Job, outlet: Outlet, records: Sequence[Record]) -> Sender:
    """Returns what sends the labels of some lines, after a look at the journal."""
    options = job.options
    journal = Journal(options.journal, outlet.name, options.again) if options.journal else None
    if journal is not None:
        check_journal(options, journal)
    return Sender(job, outlet, journal, records)


def check_journal(options: PrintOptions, journal: Journal) -> None:
    """Says that a file has lost what it had before; raises `ToolError` where labels cannot be
    printed by a journal.
    """
    if options.again and options.again not in journal.printers():
        names = ", ".join(sorted(journal.printers())) or Text("nothing")
        what = Text("{} has no label of {}", journal.path, options.again)
        raise ToolError(what, Text("the journal has these printers: {}", names))
    if journal.base.has_others:
        what = Text("other users may read or write {}, and stop it", journal.path)
        line = shell_line(["chmod", "go=", journal.path])
        write_message(TOOL, sentence(what, Text("{} makes it private", line)))
    if OUTPUT in journal.printers() and not options.queue and not options.is_stream:
        output = standard_output().fileno()
        state = os.fstat(output)
        is_added = fcntl.fcntl(output, fcntl.F_GETFL) & os.O_APPEND
        if stat.S_ISREG(state.st_mode) and not state.st_size and not is_added:
            what = Text("{} has labels of an earlier file", journal.path)
            hint = Text("with > that file has lost them, with >> it keeps them")
            write_message(TOOL, sentence(what, hint))


def give_out(found: Prepared, talk: CommandTalk) -> int:
    """Writes labels or sends them; returns 1 where one is left out or doubtful."""
    options = found.job.options
    outlet = outlet_of(found.job, options.queue)
    if options.each is not None:
        data = [item.record.data for item in found.prints]
        outlet = Files(options.each, data, options.after + 1)
    sender = sender_of(found.job, outlet, found.records)
    try:
        send_labels(sender, found, talk)
    finally:
        doubtful = sender.end_run()
        for message in sender.doubts(doubtful):
            write_message(TOOL, message)
    known = len(sender.known - doubtful.keys())
    is_asked = options.is_summed or sys.stderr.isatty()
    if options.each is None and (known or options.queue or is_asked):
        write_message(TOOL, summary_of(found.job, sender, known))
    is_left_out = found.left_out or sender.progress.wrong
    return int(bool(is_left_out or doubtful or sender.watch.is_stuck))


def send_labels(sender: Sender, found: Prepared, talk: CommandTalk) -> None:
    """Sends labels; raises `ToolError`. If they go out one by one a signal ends it after the label
    that is on its way: that is such an error, which is said here, since the signal then ends the
    tool.
    """
    if not sender.outlet.is_direct:
        sender.send_all(found, talk)
        return
    with hold_signals() as came:
        try:
            sender.send_all(found, talk, came)
        except ToolError as error:
            if came:
                talk.say(error.problem)
            raise
        if came:
            so_far = sender.progress.so_far()
            talk.say(Problem(Text("{}: {}, and these are all", sender.outlet.name, so_far)))


def summary_of(job: Job, sender: Sender, known: int) -> Text:
    """Returns how many labels were written, sent or printed, how many the journal had, and else the
    line that prints a file.
    """
    options = job.options
    taken = sender.progress.taken
    if known and not taken:
        return counted(
            "nothing to print: {} label is in {} already",
            "nothing to print: {} labels are in {} already",
            known,
            options.journal,
        )
    text = sender.watch.report_of_sent(labels_text(taken)) if options.queue else labels_text(taken)
    if not job.form.is_roll:
        text = Text("{} on {}", text, counted("{} page", "{} pages", job.pages_of(taken)))
    if known:
        there = counted("{} label in {} already", "{} labels in {} already", known, options.journal)
        text = joined("; ", (text, there))
    if not options.is_sent_singly:
        from labeltools.sending.queue import lp_line  # which takes time

        if line := lp_line(job, "NAME"):
            return Text("{}; print the file with: {}", text, line)
    return text
