"""What the columns of a table show of what they are for, in parts from 0 to 1, and what that counts
together. What each evidence means stands in weights.list, with its weight.
"""

from collections.abc import Collection, Mapping, Sequence
from dataclasses import dataclass
from functools import cache
from math import exp
from pathlib import Path

from labeltools.common.word_lists import lists_by_section
from labeltools.tables.column_samples import ColumnSample, has_unit, LEAST, SPACE
from labeltools.tables.facts import charged, CODE, PAID, PRICE, Samples, TITLE, TITLES

# kinds of words that say plainly what a column is, beside further ones that are known
TITLE_WORDS = (*TITLES, "beside-titles", "languages", "short", "long")
PRICE_WORDS = (*PAID, "sale", "advised")
NO_PRICE = {"none": 1.0}
Evidence = Mapping[str, float]
Evidences = Mapping[int, Evidence]  # of columns, by their places, and of none of them
WEIGHTS = Path(__file__).with_name("weights.list")
MARGIN = 0.65  # of the probability: with less the keeper is asked
LEAST_ASKED = 0.05  # of the probability: with less the keeper is not asked about a column
NONE = -1  # the place of no column
Weights = Mapping[str, float]


def evidences_of(columns: Samples, role: str) -> Evidences:
    """Returns what the columns show that may have a role, and what shows that none has."""
    found = {CODE: of_codes, TITLE: of_titles, PRICE: of_prices}[role](columns)
    return {**found, NONE: NO_PRICE if role == PRICE else {}}


def of_codes(columns: Samples) -> Evidences:
    """Returns what columns show that may have the codes."""
    fullest = max((column.filled for column in columns.values()), default=0.0)
    return {
        place: said_by(column, "codes", "own-numbers", "books", "others")
        | {"most-filled": float(column.filled == fullest)}
        for place, column in columns.items()
    }


def of_titles(columns: Samples) -> Evidences:
    """Returns what columns show that may have the title."""
    again = named_again(columns)
    return {
        place: said_by(column, "titles", "short")
        | {
            "plain": float(column.is_plain(*TITLE_WORDS)),
            "spaces": column.passing_part(SPACE.search),
            "first": float(place == min(columns)),
            "again": float(place in again),
        }
        for place, column in columns.items()
    }


def of_prices(columns: Samples) -> Evidences:
    """Returns what columns show that may have the price."""
    again = named_again(columns)
    return {
        place: said_by(column, "prices", "paid", "sold", "advised")
        | {
            "plain": float(column.is_plain(*PRICE_WORDS)),
            "of-some-kind": float(
                not column.name_words <= column.says(*PRICE_WORDS) | column.shared
            ),
            "unknown": float(is_unknown(column)),
            "charged": float(charged(column) >= LEAST),
            "units": column.passing_part(has_unit),
            "again": float(place in again),
        }
        for place, column in columns.items()
    }


def said_by(column: ColumnSample, *kinds: str) -> dict[str, float]:
    """Returns of which of some kinds the name of a column has words."""
    return {f"says-{kind}": float(kind in column.words_by_kind) for kind in kinds}


def is_unknown(column: ColumnSample) -> bool:
    """Returns whether a column has a name, and no word of it is known."""
    return bool(column.name_words) and not column.words_by_kind


def named_again(columns: Samples) -> Collection[int]:
    """Returns the columns whose name is that of another one, but for its number or its language: of
    `Price 1` and `Price 2` the first one is meant, and one in English is for others.
    """
    alike: dict[frozenset[str], list[int]] = {}
    for place, column in columns.items():
        if bare := column.name_words - column.says("languages"):
            alike.setdefault(bare, []).append(place)
    found: set[int] = set()
    for places in alike.values():
        meant = min(places, key=lambda place: (bool(columns[place].says("english")), place))
        found |= {*places} - {meant}
    return found


@dataclass(frozen=True)
class Decision:
    """Which column has a role: the one of the place `surely`; or one of those that `may_be` it,
    which only the keeper knows; or surely none, though some may be.
    """

    may_be: Sequence[int] = ()
    surely: int | None = None
    is_none: bool = False

    @property
    def is_asked(self) -> bool:
        """Whether only the keeper knows the right one."""
        return bool(self.may_be) and self.surely is None and not self.is_none

    @property
    def taken(self) -> Sequence[int]:
        """The columns that have the role, or may have it where that is asked."""
        if self.surely is not None:
            return [self.surely]
        return self.may_be if self.is_asked else []


@cache
def weights_of(role: str) -> Weights:
    """Returns what each evidence counts for a role."""
    found = lists_by_section(WEIGHTS)[role]
    return {name: float(weight) for name, [weight] in found.items()}


def probable_choice(columns: Samples, role: str) -> Decision:
    """Returns the column that most probably has a role, if that is probable enough; the others
    that may have it are behind it, the most probable one first.
    """
    found = probabilities(evidences_of(columns, role), weights_of(role))
    ranked = sorted(found, key=lambda place: (-found[place], place))
    near = [place for place in ranked if place != NONE]
    near = [place for place in near if found[place] >= LEAST_ASKED] or near[:1]
    first = ranked[0]
    if found[first] < MARGIN:
        return Decision(sorted(near))
    return Decision(near, is_none=True) if first == NONE else Decision(near, first)


def probabilities(evidences: Evidences, weights: Weights) -> dict[int, float]:
    """Returns how probably each column has a role, and how probably none has: each counts e to the
    power of the sum of its evidence by its weights.
    """
    sums = {place: weighted_sum(evidence, weights) for place, evidence in evidences.items()}
    most = max(sums.values())
    counts = {place: exp(total - most) for place, total in sums.items()}
    whole = sum(counts.values())
    return {place: count / whole for place, count in counts.items()}


def weighted_sum(evidence: Evidence, weights: Weights) -> float:
    """Returns the sum of the parts of an evidence by their weights."""
    return sum(weights.get(name, 0.0) * part for name, part in evidence.items())
