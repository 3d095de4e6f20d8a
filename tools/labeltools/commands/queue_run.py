"""What label-print does on a queue of CUPS: it prints a job, and watches it."""

from dataclasses import replace

from labeltools.commands.label_print import labels_in, TOOL
from labeltools.common.messages import Problem, Remedy, ToolError, write_message
from labeltools.common.process import CommandTalk
from labeltools.common.signals import hold_signals
from labeltools.common.text import joined, Text
from labeltools.paper.stock import forget_glabels
from labeltools.printing.job import form_of, planned, PrintOptions
from labeltools.sending.job import print_by_cups, SentJob
from labeltools.sending.queue import queue_of
from labeltools.sending.sender import labels_text


def print_on_queue(options: PrintOptions) -> int:
    """Prints the lines of a file; returns 1 where a label is left out, or the job is not printed;
    raises `ToolError`.
    """
    queue = queue_of(options.queue or "")
    if options.dpi is None:
        is_sheet = bool(options.stock or options.cell) and not form_of(options).is_roll
        options = replace(options, dpi=queue.dpi_for(is_sheet) or None)
    job = planned(options)
    forget_glabels()
    queue.options(job)  # which refuses a job before its labels are laid out
    talk = CommandTalk(TOOL)
    found = labels_in(job, talk)
    sent, sender = print_by_cups(found, queue, talk)
    labels = labels_text(sender.progress.taken)
    text = Text("{} sent to {}, at {} dpi: job {}", labels, queue.name, job.plan.dpi, sent.number)
    doubt = queue.resolution_doubt(job)
    is_printed = report_until_over(sent, joined("; ", filter(None, (text, doubt))), talk)
    is_left_out = found.left_out or sender.progress.wrong
    return 1 if is_left_out or not is_printed else 0


def report_until_over(sent: SentJob, text: Text, talk: CommandTalk) -> bool:
    """Reports what became of a job of CUPS, and returns whether it was printed. A signal ends only
    the watching: the job goes on.
    """
    with hold_signals() as came:
        try:
            state = sent.follow(talk.show_waiting, came)
        except ToolError as error:
            write_message(TOOL, joined("; ", (text, error.what, error.hint)))
            return False
        told = state.told
        if state.way and state.is_printed:
            hint = Text("printed without the queue, labels that get lost are named")
            told = Problem(told, hint, (Remedy("print", state.way),)).line
        if came and not state.is_over:
            told = Text("it goes on: cancel {} ends it", sent.number)
        write_message(TOOL, joined("; ", (text, told)))
    return state.is_printed and not state.is_repeated
