"""Why labels are left out, in a handful of messages."""

from dataclasses import dataclass
from itertools import groupby, islice
from typing import Iterable, Iterator, Sequence

from labeltools.common.messages import Origin, Problem
from labeltools.common.text import joined, NOTHING, Text

MOST_REASONS = 8  # that have a message of their own
MOST_RANGES = 10  # of rows that a message names
Ranges = Sequence[tuple[int, int]]  # the first and the last number of each


@dataclass(frozen=True, slots=True)
class LeftOut:
    """A label that is not printed: its origin if that is known, its data, and why."""

    origin: Origin | None
    data: str
    problem: Problem


def left_out_messages(left_out: Sequence[LeftOut], tables: Iterable[str]) -> Iterator[Text]:
    """Yields a message for each reason, those of the most labels first, and one for all further
    reasons; places are named with their table where there are several.
    """
    has_tables = len(set(tables)) > 1
    places: dict[Text, list[Origin]] = {}
    for label in left_out:
        named = places.setdefault(label.problem.line, [])
        if label.origin is not None:
            named.append(label.origin)
    reasons = sorted(places, key=lambda reason: -len(places[reason]))
    for reason in reasons[:MOST_REASONS]:
        named = places[reason]
        yield Text("{}: {}", places_text(named, has_tables), reason) if named else reason
    rest = [place for reason in reasons[MOST_REASONS:] for place in places[reason]]
    if rest:
        where = places_text(rest, has_tables)
        yield Text("{}: skipped for other reasons, such as: {}", where, reasons[MOST_REASONS])


def places_text(places: Iterable[Origin], has_tables: bool) -> Text:
    """Returns places in words, such as `rows 2, 5-9`."""
    texts = []
    for (table, unit), group in groupby(sorted(set(places)), key=lambda place: place[:2]):
        text = listed((place.number for place in group), unit)
        texts.append(Text("{}, {}", table, text) if has_tables and table else text)
    return joined("; ", texts) if texts else Text("some rows")


def listed(numbers: Iterable[int], unit: str = "row") -> Text:
    """Returns rows or lines in words; where their ranges are many, the first of them and how many
    rows all have; nothing for none.

    >>> listed([3]), listed([3, 5, 6, 7]), listed([])
    ('row 3', 'rows 3, 5-7', '')
    """
    ranges = ranges_of(numbers)
    if not ranges:
        return NOTHING
    count = sum(last - first + 1 for first, last in ranges)
    named = ", ".join(islice(range_words(ranges), MOST_RANGES))
    if unit == "row":
        text = Text("row {}", named) if count == 1 else Text("rows {}", named)
    else:
        text = Text("line {}", named) if count == 1 else Text("lines {}", named)
    return Text("{} .. ({} in all)", text, count) if len(ranges) > MOST_RANGES else text


def is_in_ranges(number: int, ranges: Ranges) -> bool:
    """Returns whether a number is in one of some ranges."""
    return any(first <= number <= last for first, last in ranges)


def range_words(ranges: Ranges) -> Iterator[str]:
    """Yields ranges as they are typed, such as `2` and `5-9`."""
    return (f"{first}" if first == last else f"{first}-{last}" for first, last in ranges)


def few(names: Sequence[str]) -> Text:
    """Returns names; where they are many, the first of them and their count."""
    text = joined(", ", names[:MOST_RANGES])
    return Text("{} .. ({} in all)", text, len(names)) if len(names) > MOST_RANGES else text


def ranges_of(numbers: Iterable[int]) -> Ranges:
    """Returns the first and last numbers of runs of numbers in order.

    >>> ranges_of([2, 5, 6, 7])
    [(2, 2), (5, 7)]
    """
    found: list[tuple[int, int]] = []
    for number in numbers:
        if found and number == found[-1][1] + 1:
            found[-1] = (found[-1][0], number)
        else:
            found.append((number, number))
    return found
