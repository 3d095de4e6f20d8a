"""Makes labels of lines: lays them out, draws pages, and writes these in the form of a job."""

from dataclasses import dataclass, replace
from functools import partial
from itertools import groupby
from operator import attrgetter
from typing import Any, Container, Iterable, Iterator, Mapping, Sequence

from labeltools.checking.compare import Comparison, Document
from labeltools.common.apart import apart, Input
from labeltools.common.budget import LINES
from labeltools.common.files import temporary
from labeltools.common.messages import (
    fault_of,
    Problem,
    Remedy,
    Talk,
    ToolError,
    UNEXPECTED,
)
from labeltools.common.report import LeftOut, places_text
from labeltools.common.text import Text
from labeltools.designs.design import Design, Setting
from labeltools.drawing.dots import drawn_page, pbm, png
from labeltools.drawing.escpos import escpos
from labeltools.drawing.forms import ESCPOS, PBM, PDF, PNG, ZPL
from labeltools.drawing.pdf import drawn_file, Paper
from labeltools.drawing.pen import Pen
from labeltools.drawing.zpl import zpl
from labeltools.layout.layout import as_printed, LaidOut, LaidOutFile, Page
from labeltools.layout.letters import DATA_FONT, Letters
from labeltools.layout.medium import Medium
from labeltools.lines.engine import LABELS_FAILED
from labeltools.lines.file import drawn_lines, LinesFile, Record
from labeltools.lines.reasons import LineFault, Refused
from labeltools.paper.picture import Picture
from labeltools.printing.job import Job
from labeltools.printing.remarks import remarks_on
from labeltools.printing.selection import Selection

MOST_LABELS = 1_000_000  # of one run, with copies
WORKBOOK = b"PK\x03\x04"  # what .xlsx and .ods begin with
# what the dots of a label are made of
DOTS_OF = attrgetter("symbols", "texts", "absent")
TABLE_FIRST = Text("a table goes through label-table first")
CUT_OFF = Text("has no line end, so it may be cut off: end it with a line feed")


@dataclass(frozen=True)
class Prepared:
    """How labels go out; those that can be printed, with their layouts, and in their order with
    copies, but for those on paper already; those that cannot; what is reported of others; the
    tables that they are from; what draws them; all lines of the input.
    """

    job: Job
    laid_out: LaidOutFile
    prints: Sequence[LaidOut]
    left_out: tuple[LeftOut, ...]
    remarks: tuple[LeftOut, ...]
    tables: frozenset[str]
    pens: Sequence[Pen]
    records: tuple[Record, ...]

    @property
    def labels(self) -> Sequence[LaidOut]:
        """The labels that can be printed, once each."""
        return self.laid_out.labels

    def without(self, wrong: Container[int]) -> "Prepared":
        """Returns these without some that go out, by the numbers of their lines."""
        right = [item for item in self.prints if item.record.number not in wrong]
        return replace(self, prints=right)

    def press(self, talk: Talk) -> "Press":
        """Returns what writes them."""
        return Press(self.job, self.laid_out, self.pens, talk)


def labels_of(job: Job, name: str, data: bytes, talk: Talk) -> Prepared:
    """Returns the labels of a file of lines, laid out alike whether all or some of them are
    printed.

    Raises `ToolError` if the file is not whole, if a font or the library is not there, or if labels
    are more than one run takes, and what `talk.go_on` raises.
    """
    if data.startswith(WORKBOOK):
        raise ToolError(Text("{} is a workbook", name), TABLE_FIRST)
    read = partial(drawn_lines, data, name, job.options.is_escaped)
    lines = apart(Input(name, len(data), LINES), read, talk)
    *others, last = lines.records or (None,)
    if last is not None and not data.endswith(b"\n"):
        last = last._replace(drawn=Refused(Problem(CUT_OFF)))
        lines = replace(lines, records=(*others, last))
    faults = {record.refused.fault if record.refused else None for record in lines.records}
    if faults == {LineFault.BAD_SYMBOLOGY}:
        raise ToolError(
            Text("{}: no line begins with a symbology, such as ean13", name), TABLE_FIRST
        )
    return prepared(job, lines, talk)


def prepared(
    job: Job,
    lines: LinesFile,
    talk: Talk,
    pens: Sequence[Pen] = (),
    is_remarked: bool = True,
) -> Prepared:
    """Returns the labels of lines that are drawn, laid out; `pens` may be those of an earlier call.
    Nobody hears of texts that are shortened, and the like, unless `is_remarked`.
    """
    options = job.options
    pens = pens or pens_of(job, Letters(options.font))
    letters = pens[0].letters
    reasons = {record.number: record.refused.problem for record in lines.records if record.refused}
    labels = [
        as_printed(record, options.note)
        for record in lines.records
        if record.copies and record.number not in reasons
    ]
    on = Setting(job.area, letters, options.note, lines.empty)
    lacking = without_letters(labels, job.design, on)
    reasons.update({number: Problem(why) for number, why in lacking.items()})
    if options.journal is not None:
        reasons.update(doubles(lines, reasons))
    if reasons:
        labels = [label for label in labels if label.number not in reasons]
    laid_out = laid_out_labels(job.design, labels, on, talk)
    reasons.update(laid_out.left_out)
    only = options.only
    wanted = [item for item in laid_out.labels if only.has_label(item.record)]
    left_out = (*without_line(lines, only), *refused_labels(lines, reasons, only))
    tables = frozenset(record.table for record in lines.records if record.table)
    remarks: Iterable[LeftOut] = ()
    if is_remarked:
        remarks = remarks_on(wanted, laid_out, only, len(tables) > 1, pens[0])
    found = replace(laid_out, labels=tuple(wanted))
    prints = with_copies(wanted, job)
    return Prepared(job, found, prints, left_out, tuple(remarks), tables, pens, lines.records)


def laid_out_labels(
    design: Design, labels: Sequence[Record], on: Setting, talk: Talk
) -> LaidOutFile:
    """Returns labels as they are laid out, and why others are left out: also those that raise what
    nobody foresaw, which stop no other ones.
    """
    try:
        return design.lay_out(labels, on, talk)
    except (ToolError, OSError, MemoryError):
        raise
    except Exception:
        faults = faults_of(design, labels, on)
        if not faults:
            raise
    right = [label for label in labels if label.number not in faults]
    found = design.lay_out(right, on, talk)
    return replace(found, left_out={**found.left_out, **faults})


def faults_of(design: Design, labels: Sequence[Record], on: Setting) -> dict[int, Problem]:
    """Returns why labels cannot be laid out even by themselves, by the numbers of their lines."""
    found = {}
    for label in labels:
        try:
            design.lay_out([label], on, Talk())
        except (ToolError, OSError, MemoryError):
            raise
        except Exception as error:
            found[label.number] = Problem(fault_of(error))
    return found


def without_letters(labels: Sequence[Record], design: Design, on: Setting) -> Mapping[int, Text]:
    """Returns why labels are left out that have letters which no font has, where a design prints
    them.
    """
    found = on.letters.missing({label.number: label.texts for label in labels})
    return on.letters.missing(design.printed(labels, on)) if found else found


def doubles(lines: LinesFile, refused: Mapping[int, Problem]) -> Mapping[int, Problem]:
    """Returns why lines are left out that have the code of an earlier one, or copies."""
    first: dict[tuple[str, bytes], Record] = {}
    found: dict[int, Problem] = {}
    for record in lines.records:
        if record.number in refused or not record.copies:
            continue
        if record.copies > 1:
            found[record.number] = Problem(Text("has copies, and each code is printed once"))
            continue
        earlier = first.setdefault(record.key, record)
        if earlier is not record:
            named = places_text([earlier.origin], earlier.table != record.table)
            found[record.number] = Problem(Text("has the code of {}", named))
    return found


def without_line(lines: LinesFile, only: Selection) -> Iterable[LeftOut]:
    """Yields what is not printed without a line of its own: what is asked for and not there, and
    the rows that label-table left out.
    """
    yield from only.not_in_input(lines.records, lines.left_out)
    named = [place for place in lines.left_out if only.has_row(place.number)]
    count = len(named) if only else lines.left_out_count
    reason = Text("skipped by label-table")
    if count > len(named):
        reason = Text("{}, and {} rows more", reason, count - len(named))
    for place in named:
        yield LeftOut(place, "", Problem(reason))
    if count and not named:
        yield LeftOut(None, "", Problem(Text("{}: {}", Text("some rows"), reason)))


def refused_labels(
    lines: LinesFile, reasons: Mapping[int, Problem], only: Selection
) -> Iterable[LeftOut]:
    """Yields the lines that are not printed, with their reasons."""
    for record in lines.records:
        problem = reasons.get(record.number)
        if problem is not None and only.has_label(record):
            data = record.data.decode("utf-8", "backslashreplace")
            yield LeftOut(record.origin, data, problem)


def with_copies(items: Sequence[LaidOut], job: Job) -> Sequence[LaidOut]:
    """Returns labels as often as they are printed, once if each is a file, but for the first ones
    that are on paper already; raises `ToolError` if they are more than one run takes.
    """
    copies = [1 if job.is_each else item.record.copies for item in items]
    count = sum(copies)
    if count > MOST_LABELS:
        what = Text("{:,} labels with their copies: the maximum is {:,}", count, MOST_LABELS)
        raise ToolError(what, Text("print some of them"), remedies=(Remedy("only"),))
    every = [item for item, often in zip(items, copies) for _ in range(often)]
    return every[job.options.after :]


def check_count(job: Job, prints: Sequence[LaidOut]) -> None:
    """Raises `ToolError` if there are no labels, or more than one file takes."""
    if not prints:
        hint = Text("all are skipped, or have 0 copies")
        raise ToolError(Text("there is no label to print"), hint)
    if job.form == PNG and not job.is_each and job.pages_of(len(prints)) > 1:
        what = Text("{} has only one page", job.form.name)
        hint = Text("print fewer labels, or choose PDF")
        raise ToolError(what, hint, remedies=tuple(map(Remedy, ("only", "to", "each"))))


@dataclass(frozen=True, slots=True)
class Batch:
    """What goes out as a whole: pages of labels, or one label for all that have its dots; `items`
    are its labels with their copies.
    """

    pages: Sequence[Page]
    items: Sequence[LaidOut]


class WrongLabels(ToolError):
    """Labels that would be drawn wrongly, or not at all, which is a fault of ours: each with why,
    by the number of its line. They stop no other ones.
    """

    def __init__(self, errors: Mapping[int, ToolError]) -> None:
        first = next(iter(errors.values()))
        super().__init__(first.what, first.hint, first.status)
        self.errors = errors


class Press:
    """Draws labels of a file, and writes them in the form of a job.

    A press belongs to the thread that made it, and its pens. `go_on` of the talk is called for each
    page and may stop the work.
    """

    def __init__(self, job: Job, laid_out: LaidOutFile, pens: Sequence[Pen], talk: Talk) -> None:
        self.job = job
        self.pens = pens
        self.talk = talk
        area = laid_out.area
        self.turn = area.height if area.is_turned else 0
        how = (job.plan, job.form.name, job.options.is_escaped, area.is_turned)
        self.comparison = Comparison(*how, talk)

    @property
    def pen(self) -> Pen:
        """What draws the form of the job."""
        return self.pens[0]

    def page(self, number: int, prints: Sequence[LaidOut]) -> Page:
        """Returns a page by its number, from 0."""
        places = self.job.plan.places
        start = number * len(places) - (self.job.options.first - 1)
        first = max(0, start)
        return list(zip(prints[first : start + len(places)], places[first - start :]))

    def draw(self, canvas: Any, page: Page) -> None:
        """Draws a page on a canvas of Cairo, whose units are dots."""
        self.pen.draw(canvas, page, self.turn)

    def batches(self, prints: Sequence[LaidOut]) -> Iterator[Batch]:
        """Yields what goes out as a whole: a label of ZPL with how many follow one another that
        have the same dots, a label of ESC/POS, each page of another form, or all pages of a PDF.
        """
        form = self.job.form
        if self.counts_labels:
            yield from (self.batch_of_same([*same]) for _, same in groupby(prints, DOTS_OF))
            return
        pages = [self.page(number, prints) for number in range(self.job.pages_of(len(prints)))]
        if form == PDF and not self.job.is_each:
            yield Batch(pages, prints)
        else:
            yield from (Batch([page], [item for item, _ in page]) for page in pages)

    @property
    def counts_labels(self) -> bool:
        """Whether labels that have the same dots go out as one, with their count."""
        return self.job.form == ZPL and not self.job.is_each

    def batch_of_same(self, items: Sequence[LaidOut]) -> Batch:
        """Returns labels of a roll that have the same dots."""
        return Batch([[(items[0], self.job.plan.places[0])]] if items else [], items)

    def without(self, part: Batch, wrong: Container[int]) -> Batch:
        """Returns a part without some labels, by the numbers of their lines: on a page their places
        stay empty.
        """
        right = [item for item in part.items if item.record.number not in wrong]
        if self.counts_labels:
            return self.batch_of_same(right)
        pages = (
            [(item, place) for item, place in page if item.record.number not in wrong]
            for page in part.pages
        )
        return Batch([page for page in pages if page], right)

    def document(self, part: Batch, is_first: bool = True) -> bytes:
        """Returns a part in the form of the job, which is whole by itself; `is_first` is whether it
        begins a job. Raises `WrongLabels` if it has not the codes of some labels.
        """
        try:
            return self.compared(part, is_first)
        except (OSError, MemoryError):
            raise
        except Exception as error:
            if isinstance(error, ToolError) and error.status != LABELS_FAILED:
                raise
            wrong = self.wrong_labels(part, error)
            if not wrong:
                raise
            raise WrongLabels(wrong) from error

    def wrong_labels(self, part: Batch, error: Exception) -> dict[int, ToolError]:
        """Returns the labels of a part that raise an error even by themselves, in their places,
        with that error, by the numbers of their lines.
        """
        placed = [pair for page in part.pages for pair in page]
        if self.counts_labels:
            placed = [(item, self.job.plan.places[0]) for item in part.items]
        labels = {item.record.number: (item, place) for item, place in placed}
        if len(labels) == 1:
            return {number: wrong_label(item, error) for number, (item, _) in labels.items()}
        found = {}
        for number, (item, place) in labels.items():
            try:
                self.compared(Batch([[(item, place)]], [item]), True)
            except (OSError, MemoryError):
                raise
            except Exception as own:
                found[number] = wrong_label(item, own)
        return found

    def compared(self, part: Batch, is_first: bool) -> bytes:
        """Returns a part in the form of the job, once it is compared with its labels; raises
        `ToolError` if it differs.
        """
        form = self.job.form
        if form.is_drawn:
            paper = Paper(self.job.plan.sheet.page, self.job.plan.dpi, self.turn)
            pages = partial(self.pages_of_batch, part)
            with temporary(), drawn_file(paper, self.pens, pages) as file:
                document = Document(file.read(), part.pages)
        else:
            picture = drawn_page(self.job.plan.page, self.pen, part.pages[0], self.turn)
            copies = len(part.items) if form == ZPL else 1
            data = self.dots_in_form(picture, is_first, copies)
            document = Document(data, part.pages, copies, picture)
        self.comparison.check(document)
        return document.data

    def pages_of_batch(self, part: Batch) -> Iterator[Page]:
        """Yields pages, and says before each one how many labels are drawn."""
        done = 0
        for page in part.pages:
            self.talk.go_on(done, len(part.items))
            yield page
            done += len(page)

    def dots_in_form(self, picture: Picture, is_first: bool, copies: int) -> bytes:
        """Returns dots in the form of the job."""
        form = self.job.form
        if form == ZPL:
            return zpl(picture, copies)
        if form == ESCPOS:
            return escpos(picture, is_first, self.job.options.is_cut)
        if form == PNG:
            return png(picture, self.job.plan.dot)
        assert form == PBM
        return pbm(picture)


def wrong_label(item: LaidOut, error: Exception) -> ToolError:
    """Returns why a label is not drawn by an error, which names it if it is one of ours."""
    if isinstance(error, ToolError):
        return error
    what = Text("{}: {}", item.record.origin.text, fault_of(error))
    return ToolError(what, status=UNEXPECTED)


def pens_of(job: Job, letters: Letters) -> list[Pen]:
    """Returns what draws a form: for PDF also pens that draw letters as shapes, for fonts that
    Cairo cannot embed.
    """
    medium = Medium(job.plan.dpi, not job.form.is_drawn)
    outlines = (
        frozenset[str](),
        frozenset({DATA_FONT}),
        frozenset({DATA_FONT, letters.family, letters.of_prices, letters.of_others}),
    )
    wanted = outlines if job.form == PDF else outlines[:1]
    media = (replace(medium, outlines=shapes) for shapes in wanted)
    return [Pen(medium, letters, job.design) for medium in media]
