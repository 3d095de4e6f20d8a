"""Guesses what the columns of a table are for, by their names and by what is in their cells. A
window shows the guess, label-table proposes it, and the keeper of the shop decides.

A table goes through these modules: here its names are found; column_samples.py reads words in them
and looks at the cells; facts.py says which columns may have the code, the title or the price at
all, and proves what it can about prices; evidence.py gathers what the columns show, and weighs it
by weights.list. choices.py decides by all of them, and asks the keeper what is below the margin.
"""

from collections.abc import Collection, Iterable, Iterator, Mapping, Sequence
from dataclasses import dataclass, field, replace
from itertools import islice, takewhile, zip_longest

from labeltools.common.budget import LOOKED_AT, NAMES_LOOKED_AT, Share
from labeltools.common.messages import Talk
from labeltools.sheets.rows import Row
from labeltools.tables.choices import (
    amounts_in,
    are_single_things,
    code_choice,
    copies_choice,
    name_parts,
    old_price_choice,
    price_choice,
    title_choice,
    unit_price_choice,
    variants_place,
    without,
)
from labeltools.tables.code_readings import ANY_TEXT, CodeReading, reading_of
from labeltools.tables.codes import CodeRules
from labeltools.tables.column_samples import (
    ARTICLE,
    ColumnSample,
    DIGITS,
    FIGURES,
    is_code,
    samples_of,
)
from labeltools.tables.columns import Start
from labeltools.tables.evidence import Decision
from labeltools.tables.facts import Samples
from labeltools.tables.price_words import are_currencies
from labeltools.tables.prices import pattern_for
from labeltools.tables.table import head_of
from labeltools.tables.table_options import TableOptions

SAMPLE = 300  # rows that are looked at, fewer of a table with very many columns
MOST_WORDS = 5  # of a name
OWN = CodeReading([ANY_TEXT])


@dataclass(frozen=True)
class Guess:
    """The names of the columns; their places, from 0, by the options of label-table; how each
    column may be read that may have the codes; the row of the names, 0 where there is none; a text
    of each column; the `doubts` that only the keeper can settle, and the `others` that may be meant
    beside what was found; columns that belong to these; the formats that the prices need, by their
    columns; and all columns of amounts.
    """

    names: Sequence[str]
    columns: Mapping[str, int]
    codes: Mapping[int, CodeReading]
    header: int
    examples: Sequence[str] = ()
    doubts: Mapping[str, Sequence[int]] = field(default_factory=dict)
    others: Mapping[str, Sequence[int]] = field(default_factory=dict)
    beside: Mapping[str, int] = field(default_factory=dict)
    formats: Mapping[int, str] = field(default_factory=dict)
    amounts: Sequence[int] = ()

    def rules_of(self, place: int) -> CodeRules:
        """Returns how the codes of a column are read, as far as it is sure."""
        reading = self.codes.get(place, CodeReading())
        return CodeRules() if reading.problem else reading.rules[0]

    def is_named_as_code(self, place: int) -> bool:
        """Returns whether the name of a column is of the form of its codes: it is one of them."""
        name, example = self.names[place], self.examples[place]
        return bool(DIGITS.search(name)) and DIGITS.sub("0", name) == DIGITS.sub("0", example)


def guess_of(data: bytes, name: str, options: TableOptions, talk: Talk) -> Guess:
    """Returns a guess of a table; raises `ToolError` where it cannot be read."""
    file = options.file
    if file.header_row is None:
        start = head_of(data, name, options, talk)
        top = guessed_header([start.row, *sample_of(start, len(data), LOOKED_AT)])
        named = replace(options, file=replace(file, header_row=top.number))
        found = guess_of(data, name, named, talk)
        has_code = any(map(is_code, filter(None, top.names)))
        if not has_code and not any(map(found.is_named_as_code, found.codes)):
            return found
        options = replace(options, file=replace(file, header_row=0))
    return guess(*table_columns(data, name, options, talk))


def names_of(data: bytes, name: str, options: TableOptions) -> Sequence[str]:
    """Returns the names of the columns of a table alone; raises `ToolError` where it cannot be
    read.
    """
    start = head_of(data, name, options, Talk())
    if options.file.header_row is None:
        rows = [start.row, *sample_of(start, len(data), NAMES_LOOKED_AT)]
        return guessed_header(rows).names
    return start.names


def guessed_header(rows: Sequence[Row]) -> Row:
    """Returns the row of the names: it has more than half as many cells as any row, and no date or
    amount, if there is such a row above the articles; of several the first one of those that have
    most of the words that are known. What is above it is a title.
    """
    cells = [[name for name in row.names if name] for row in rows]
    most = max(map(len, cells))
    wide = [place for place, texts in enumerate(cells) if 2 * len(texts) > most]
    above = takewhile(lambda place: not any(map(ARTICLE.fullmatch, cells[place])), wide)
    names = [place for place in above if not any(map(FIGURES.fullmatch, cells[place]))]
    return rows[max(names or wide[:1], key=lambda place: known_in(cells[place]))]


def known_in(texts: Iterable[str]) -> int:
    """Returns how many different texts are short, with a word that the names of columns have."""
    names = map(ColumnSample, {*texts})
    return sum(len(name.name_words) <= MOST_WORDS and bool(name.words_by_kind) for name in names)


def table_columns(
    data: bytes, name: str, options: TableOptions, talk: Talk
) -> tuple[Sequence[Sequence[str]], int, Collection[int]]:
    """Returns the columns of a table, each with its name in front, the row of the names, and the
    places of the hidden ones; raises `ToolError` where it cannot be read.
    """
    start = head_of(data, name, options, talk)
    names, head, file = start.names, start.row, options.file
    rows = sample_of(start, len(data), LOOKED_AT)
    shown = (row for row in rows if file.hidden or not row.is_hidden)
    right = (row for row in shown if not (row.problem or row.is_blank()))
    cells = [row.texts for row in right if row.names != names]
    columns = [*zip_longest(names, *cells, fillvalue="")]
    number = head.number if file.has_names else 0
    return columns, number, () if file.hidden else head.hidden_places


def sample_of(start: Start, size: int, share: Share) -> Iterator[Row]:
    """Returns the first rows below the names of a table of so many bytes that are looked at."""
    width = max(1, len(start.row.cells))
    return islice(start.rows, max(1, min(SAMPLE, share.most(size) // width)))


def guess(
    columns: Sequence[Sequence[str]],
    header: int,
    hidden: Collection[int] = (),
) -> Guess:
    """Returns a guess from columns, each with its name in front, which may be empty. Hidden ones
    are only looked at if no other one has codes.
    """
    shown = [("", *()) if place in hidden else cells for place, cells in enumerate(columns)]
    found = guess_by(samples_of(shown))
    if hidden and not found.codes:
        found = guess_by(samples_of(columns))
    names = [name for name, *_ in columns]
    examples = [next(filter(None, map(str.strip, cells)), "") for _, *cells in columns]
    return replace(found, names=names, header=header, examples=examples)


def guess_by(columns: Samples) -> Guess:
    """Returns a guess without what belongs to the whole table, as the row of the names."""
    code = code_choice(columns)
    parts = name_parts(columns, code.taken)
    title = Decision((), parts[0]) if parts else title_choice(columns, code.taken)
    readings = {place: reading_of(columns[place]) for place in code.taken}
    is_single = bool(parts) or are_single_things(readings, columns)
    taken = {*code.taken, *title.taken, *parts}
    price = Decision(is_none=True) if is_single else price_choice(columns, taken)
    choices = {"code": code, "title": title, "price": price}
    choices |= choices_beside(columns, taken, price)
    found = {kind: choice.surely for kind, choice in choices.items() if choice.surely is not None}
    used = {*taken, *price.taken, *found.values()}
    others = {kind: besides(choices[kind]) for kind in ("code", "title")}
    beside = columns_beside(columns, title, parts, used)
    return Guess(
        (),
        found,
        {
            place: OWN if is_single and reading.problem else reading
            for place, reading in readings.items()
        },
        0,
        doubts={kind: choice.may_be for kind, choice in choices.items() if choice.is_asked},
        others={kind: places for kind, places in others.items() if places},
        beside=beside,
        formats=formats_of(columns, price, "currency" in beside),
        amounts=amounts_in(columns),
    )


def besides(choice: Decision) -> Sequence[int]:
    """Returns what may have a role beside the column that surely has it; nothing if none has."""
    return [place for place in choice.may_be if choice.surely not in (None, place)]


def choices_beside(
    columns: Samples, taken: Collection[int], price: Decision
) -> Mapping[str, Decision]:
    """Returns the columns of further prices and of copies, of those that are not taken."""
    used = {*taken, *price.taken}
    found = {"unit-price": unit_price_choice(columns, used)}
    used |= {*found["unit-price"].taken}
    if price.surely is not None:
        found["old-price"] = old_price_choice(columns, used, price.surely)
    return found | {"copies": copies_choice(columns, used)}


def columns_beside(
    columns: Samples, title: Decision, parts: Sequence[int], used: Collection[int]
) -> Mapping[str, int]:
    """Returns the columns that belong to others: the second one of a title, the one that says what
    is a variant of what, and the currencies of the prices.
    """
    found = {"title": part for part in parts[1:]}
    if title.surely is not None:
        variants = variants_place(columns, title.surely)
        found |= {} if variants is None else {"variants-of": variants}
    free = without(columns, used)
    return found | {
        "currency": place for place, column in free.items() if are_currencies(column.cells)
    }


def formats_of(columns: Samples, price: Decision, has_currencies: bool) -> Mapping[int, str]:
    """Returns the formats that prices need, by their columns; `has_currencies` is whether another
    column has the currencies.
    """
    patterns = (
        (place, pattern_for(columns[place].texts, columns[place].name, has_currencies))
        for place in price.taken
    )
    return {place: pattern for place, pattern in patterns if pattern}
