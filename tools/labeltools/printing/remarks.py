"""What is reported of labels that are printed, each once for a file."""

from collections import Counter
from typing import Iterator, Sequence

from labeltools.common.messages import Problem, quoted
from labeltools.common.report import LeftOut, listed, places_text
from labeltools.common.text import Text
from labeltools.drawing.pen import Pen
from labeltools.layout.area import Area
from labeltools.layout.layout import LaidOut, LaidOutFile, PlacedSymbol
from labeltools.lines.reasons import has_accents, said_of_accents
from labeltools.printing.selection import Selection

DENSE = 0.33  # millimetres: modules of QR below it are reported
LOW_PART = 0.5  # of their width: bars below it may not serve a till that reads in all directions
ALMOST = 0.97  # bars are a whole number of modules high, so they may be a bit lower
SHORTENED = Text("a text is too long, so it ends in “…”: shorten it, or choose a larger label")


def remarks_on(
    items: Sequence[LaidOut],
    laid_out: LaidOutFile,
    only: Selection,
    has_tables: bool,
    pen: Pen,
) -> Iterator[LeftOut]:
    """Yields what is reported of labels that are printed, with the place of the first of them; some
    of the file may be asked for.
    """
    if only.rows:
        yield from several(items, only)
    for place, said in laid_out.said:
        yield LeftOut(place, "", said)
    for some, what in found_on(items, laid_out.area, pen):
        if some:
            places = [item.record.origin for item in some]
            text = Text("{}: {}", places_text(places, has_tables), what)
            yield LeftOut(places[0], "", Problem(text))
    accents = [item for item in items if is_of_accents(item)]
    if accents:
        places = [item.record.origin for item in accents]
        data = (item.record.data.decode("utf-8", "replace") for item in accents)
        text = said_of_accents(places_text(places, has_tables), data)
        yield LeftOut(places[0], "", Problem(text))


def several(items: Sequence[LaidOut], only: Selection) -> Iterator[LeftOut]:
    """Yields that rows that are asked for are in several tables of the file."""
    places = [item.record.origin for item in items]
    counts = Counter(place.number for place in places if only.has_row(place.number))
    rows = sorted(number for number, count in counts.items() if count > 1)
    if rows:
        first = next(place for place in places if place.number == rows[0])
        reason = Text("{}: in several tables, and printed of each", listed(rows))
        yield LeftOut(first, "", Problem(reason))


def found_on(
    items: Sequence[LaidOut], area: Area, pen: Pen
) -> Iterator[tuple[Sequence[LaidOut], Text]]:
    """Yields labels, which may be none, and what is to be said of them."""
    low = []
    dense = []
    for item in items:
        symbol = item.finest
        if has_low_bars(symbol):
            low.append(item)
        if is_dense(symbol, area.dot):
            dense.append(item)
    if area.wishes.purpose.is_for_tills:
        bars = min((item.finest.boxes["bars"].height for item in low), default=0) * area.dot
        hint = Text("hand scanners read them, a till that reads in all directions may not")
        yield low, Text("bars of {:.1f} mm: {}", bars, hint)
    finest = min((item.finest.module for item in dense), default=0) * area.dot
    hint = Text("some phones may not read them: shorten the data, or take a larger label")
    yield dense, Text("QR with modules of {:.2f} mm: {}", finest, hint)
    small = [item for item in items if item.is_small_price]
    yield small, Text("a wide price is smaller than the others")
    shortened = [item for item in items if pen.is_shortened(item)]
    yield shortened, SHORTENED
    yield from alike(shortened, pen)


def alike(items: Sequence[LaidOut], pen: Pen) -> Iterator[tuple[Sequence[LaidOut], Text]]:
    """Yields which labels show the same title and text once these are shortened, though their own
    differ.
    """
    found: dict[tuple[str, ...], list[LaidOut]] = {}
    for item in items:
        found.setdefault(pen.shown_texts(item), []).append(item)
    for shown, same in found.items():
        if len({(item.record.head, item.record.body) for item in same}) > 1:
            text = quoted(" ".join(shown))
            yield same, Text("alike once shortened, {}: put what differs in front", text)


def is_of_accents(item: LaidOut) -> bool:
    """Returns whether some scanners may show a code wrongly; of one from a table label-table says
    it.
    """
    record = item.record
    return not record.row and has_accents(record.symbology, record.data)


def has_low_bars(symbol: PlacedSymbol) -> bool:
    """Returns whether a symbol is for a till and its bars are lower than half their width."""
    wide = (symbol.modules.width - sum(symbol.symbology.quiet)) * symbol.module
    return symbol.symbology.is_number and symbol.boxes["bars"].height < LOW_PART * wide * ALMOST


def is_dense(symbol: PlacedSymbol, dot: float) -> bool:
    """Returns whether a symbol is QR of small modules."""
    return not symbol.symbology.nominal and symbol.module * dot < DENSE
