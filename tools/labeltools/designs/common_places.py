"""Finds the places of the labels of a file in a built-in design: the same ones for all of them, or
where that cannot be for those of a symbology, or for one label.
"""

from collections import Counter, defaultdict
from dataclasses import dataclass
from functools import cache, partial
from typing import Hashable, Iterable, Iterator, Mapping, Sequence

from labeltools.common.messages import Talk
from labeltools.designs.templates import best_places, has_places
from labeltools.layout.area import Area
from labeltools.layout.layout import ASKED
from labeltools.layout.letters import Letters
from labeltools.layout.measured import need_of, ROUNDED
from labeltools.layout.needs import Need, Needs, rounded_up
from labeltools.layout.place import Place
from labeltools.layout.symbol_room import symbol_boxes
from labeltools.lines.file import Record

Places = tuple[Place, ...]
# what needs that have the same places have in common: nothing, if these suit all
ALIKE = ((), ("symbology",), ("code",), Need._fields)


@dataclass(frozen=True)
class FoundPlaces:
    """The places that needs have in an area, and the needs that have none."""

    area: Area
    places: Mapping[Need, Places]
    left_out: tuple[Need, ...]

    def count(self, counted: Needs) -> int:
        """Returns how many labels have places."""
        return sum(counted[need] for need in self.places)


def places_for(
    labels: Sequence[Record], area: Area, letters: Letters, talk: Talk
) -> tuple[list[Need], FoundPlaces]:
    """Returns what each label needs, and places for that, turned to the right where that is wished,
    or where no wish is there and more labels fit so.
    """
    needs = []
    known: dict[Need, Need] = {}  # many labels have the same need, which is kept once
    for done, label in enumerate(labels):
        if done % ASKED == 0:
            talk.go_on(done, 0)
        need = need_of(label, letters)
        needs.append(known.setdefault(need, need))
    counted = Counter(needs)
    found = found_places(counted, area)
    if area.wishes.turn is not False:
        is_forced = area.wishes.turn is True
        if is_forced or (found.left_out and counted):
            turned = found_places(counted, area.turned())
            if is_forced or turned.count(counted) > found.count(counted):
                found = turned
    return needs, found


def found_places(counted: Needs, area: Area) -> FoundPlaces:
    """Returns the same places for all needs; those that they do not suit have others with needs of
    their symbology, of their code, or by themselves.
    """
    best = cache(lambda needs: best_places(area, {need: counted[need] for need in needs}))
    fitting = [*counted]
    if fitting and not best(tuple(fitting)):
        fits = cache(lambda need: has_places(area, {need: 1}))
        fitting = [need for need in counted if fits(alone(need))]
    found: dict[Need, Places] = {}
    for names in ALIKE:
        for needs in groups_of((need for need in fitting if need not in found), names):
            places = best(tuple(needs))
            found.update(dict.fromkeys(suited(places, needs, area), places))
    return FoundPlaces(area, found, tuple(need for need in counted if need not in found))


def suited(places: Places, needs: Iterable[Need], area: Area) -> Iterator[Need]:
    """Yields the needs for whose codes places have room."""
    for place in places:
        if place.part == "code":
            has_room = cache(partial(symbol_boxes, place, area))
            yield from (need for need in needs if has_room(need.code))


def groups_of(needs: Iterable[Need], names: Sequence[str]) -> list[list[Need]]:
    """Returns needs in groups of which some fields are the same."""
    groups: dict[Hashable, list[Need]] = defaultdict(list)
    for need in needs:
        groups[tuple(getattr(need, name) for name in names)].append(need)
    return [*groups.values()]


def alone(need: Need) -> Need:
    """Returns a need that fits by itself where this one does: a title may have one line, however
    long it is.
    """
    title = (1.0,) if need.title else ()
    prices = tuple(rounded_up(width, ROUNDED) for width in need.prices)
    return need._replace(title=title, word=0.0, prices=prices)
