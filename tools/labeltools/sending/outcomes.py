"""How far a run came that sends labels, and how it ends before its last one: what its message says,
and what to do.
"""

from collections.abc import Iterable, Sequence

from labeltools.common.messages import Remedy, ToolError
from labeltools.common.process import standard_output
from labeltools.common.report import places_text
from labeltools.common.text import counted, joined, Text
from labeltools.layout.layout import LaidOut
from labeltools.lines.file import Record
from labeltools.printing.job import Job
from labeltools.sending.outlets import Broken, has_reader, Outlet, OUTPUT, Untaken

NOTHING_OUT = Text("nothing was printed")
Advice = tuple[Text | Remedy, ...]


class Unfinished(ToolError):
    """Why labels were not all sent, one by one to a printer: `done` of them are on paper, or may
    be, but for those that would have been drawn wrongly, which `wrong` has by the numbers of their
    lines; the next one is in doubt if `is_doubtful`.
    """

    printer = ""
    done = 0
    is_doubtful = False
    wrong: Sequence[int] = ()


class Progress:
    """How far a run came."""

    def __init__(self, job: Job, outlet: Outlet, records: Sequence[Record]) -> None:
        """Takes how labels go out, the way out, and all lines of the input."""
        self.outlet = outlet
        self.has_journal = job.options.journal is not None
        self.again = job.options.again
        self.has_tables = len({record.table for record in records}) > 1
        # whether a number is that of one line: several tables have rows of the same numbers
        self.is_clear = len({record.origin.number for record in records}) == len(records)
        outlet.on_way = []
        outlet.done = job.options.after  # labels on paper or in the journal, and the wrong ones
        self.taken = 0
        self.wrong: dict[int, ToolError] = {}  # labels that would be drawn wrongly, by their lines

    def so_far(self) -> Text:
        """Returns how many labels went out whole."""
        if self.outlet.is_collected:
            return NOTHING_OUT
        return counted("it took {} label whole", "it took {} labels whole", self.taken)

    def labels_in_words(self, items: Iterable[LaidOut]) -> Text:
        """Returns what messages call labels, with their tables if there are several."""
        return places_text([item.record.origin for item in items], self.has_tables)

    def ended(self, error: ToolError, place: Text) -> Unfinished:
        """Returns the error of a run that ends at a label, by what messages call it and those that
        would have gone out with it.
        """
        advice: Advice = (error.hint, *error.remedies)
        is_doubtful = isinstance(error, Broken)
        is_untaken = isinstance(error, Untaken)
        what = Text("{}: {}", error.what, self.so_far()) if is_untaken else error.what
        if not is_doubtful:
            what = Text("{}: {} and what follows it were not sent", what, place)
            if self.outlet.name == OUTPUT and not has_reader(standard_output().fileno()):
                advice += self.may_be_missing()  # in a pipe that nobody reads any more
            if self.taken or not error.hint:
                advice += (self.way_on(),)
            return self.unfinished(error, what, advice)
        if not error.hint:
            advice = self.may_be_missing()
        if not self.has_journal:
            advice += (Text("{} may be on paper: look there", place),)
        return self.unfinished(error, what, (*advice, self.way_on()), True)

    def ended_between_labels(self, error: ToolError) -> Unfinished:
        """Returns the error of a run whose way out broke off between two labels, or after the last
        one.
        """
        what = Text("{}: {}", error.what, self.so_far())
        return self.unfinished(error, what, self.may_be_missing())

    def unfinished(
        self, error: ToolError, what: Text, advice: Advice, is_doubtful: bool = False
    ) -> Unfinished:
        """Returns the error of a run, with what to do in this order."""
        hint = joined("; ", (part for part in advice if isinstance(part, Text) and part))
        ways = {part.option: part for part in advice if isinstance(part, Remedy)}
        ended = Unfinished(what, hint, error.status, (*ways.values(),))
        ended.printer, ended.done = self.outlet.name, self.outlet.done
        ended.is_doubtful, ended.wrong = is_doubtful, [*self.wrong]
        return ended

    def way_on(self) -> Text | Remedy:
        """Returns how the rest is printed: the same command would print again what `again` has
        printed once more.
        """
        if self.has_journal and self.again is None:
            return Text("the same command prints the rest")
        done = self.outlet.done
        if not done:
            return Text("the same command begins with it")
        says = Text("go on with label {}", done + 1)
        if self.outlet.name == OUTPUT and self.outlet.is_kept:
            says = Text("go on with label {} by the same command, with >>", done + 1)
        return Remedy("after", str(done), says)

    def may_be_missing(self) -> Advice:
        """Returns what to do about labels that a printer took, and may have thrown away when it
        broke off; nothing if it took none, or a journal has them as doubtful.
        """
        if not self.outlet.on_way or self.has_journal:
            return ()
        labels = self.labels_in_words(self.outlet.on_way)
        look = Text("{} may be missing: look which label came out last, and go on", labels)
        return look, Remedy("after", "N")
