"""Makes the weights of the guess, judges it, and switches off each part of it: scripts/fit_guess.py says how."""

import argparse
import math
import sys
from collections import Counter
from collections.abc import Callable, Iterable, Iterator, Mapping, Sequence
from contextlib import contextmanager, ExitStack
from dataclasses import dataclass
from types import FunctionType
from typing import Any
from unittest import mock

from guess_tables import needed, NEEDED, small_tables, Table, tables, Verdict, verdict_of
from labeltools.tables import choices, evidence, facts, guess
from labeltools.tables.column_samples import samples_of
from labeltools.tables.evidence import Evidences, evidences_of, NONE, probabilities, WEIGHTS
from labeltools.tables.facts import CODE, PRICE, ROLES, Samples

ROUNDS = 150
RATE = 0.3  # of a step
SMALL = 0.0003  # what the square of a weight costs
LEAST = 0.05  # a smaller weight is left out
Weights = Mapping[str, Mapping[str, float]]


@dataclass(frozen=True)
class Case:
    """What the columns of a table show of a role, and how probably each one has it."""

    evidences: Evidences
    wanted: Mapping[int, float]


def cases_of(of_tables: Iterable[Table], role: str) -> Iterator[Case]:
    """The cases of a role, but for tables in which no column may have it, or facts ask."""
    for table in of_tables:
        shown = [
            ("", *()) if place in table.hidden else cells
            for place, cells in enumerate(table.columns)
        ]
        columns = samples_of(shown)
        meant = table.places(role)
        taken = {place for other in ROLES if other != role for place in table.places(other)}
        may_be = candidates_of(columns, role, taken - {*meant})
        wanted = [place for place in meant if place in may_be]
        is_asked = role == PRICE and role in table.truth.ask and len(meant) < 2
        if not may_be or meant and not wanted or is_asked and len(may_be) > 1:
            continue
        if not wanted or is_asked or role in table.truth.optional:
            wanted = [*wanted, NONE]
        parts = {place: 1 / len(wanted) for place in wanted}
        yield Case(evidences_of(may_be, role), parts)


def candidates_of(columns: Samples, role: str, taken: Iterable[int]) -> Samples:
    """The columns that may have a role, if others have the other ones."""
    used = {*taken}
    if role == PRICE:
        return choices.price_candidates(columns, used)[0]
    if role == CODE:
        return choices.code_candidates(choices.without(columns, used))
    return choices.title_candidates(columns, used)


def fitted(cases: Sequence[Case]) -> Mapping[str, float]:
    """The weights of a role. The step of each gets shorter the more it has moved."""
    weights: dict[str, float] = {}
    moved: dict[str, float] = {}
    cases = [without_zeros(case) for case in cases]
    for _ in range(ROUNDS):
        slope = {name: -SMALL * len(cases) * weight for name, weight in weights.items()}
        for case in cases:
            found = probabilities(case.evidences, weights)
            for place, shown in case.evidences.items():
                wrong = case.wanted.get(place, 0.0) - found[place]
                for name, part in shown.items():
                    slope[name] = slope.get(name, 0.0) + wrong * part
        for name, rise in slope.items():
            step = rise / len(cases)
            moved[name] = moved.get(name, 0.0) + step * step
            weights[name] = weights.get(name, 0.0) + RATE * step / (math.sqrt(moved[name]) + 1e-4)
    rounded = {name: round(weight, 1) for name, weight in sorted(weights.items())}
    return {name: weight for name, weight in rounded.items() if abs(weight) >= LEAST}


def without_zeros(case: Case) -> Case:
    """A case without the evidence that is not there."""
    return Case({place: bare(shown) for place, shown in case.evidences.items()}, case.wanted)


def bare(shown: evidence.Evidence) -> evidence.Evidence:
    """What is there of an evidence."""
    return {name: part for name, part in shown.items() if part}


def fitted_weights() -> Weights:
    """The weights that the tables make which are fitted on."""
    used = [*(table for table in tables() if table.is_fitted), *small_tables()]
    return {role: fitted([*cases_of(used, role)]) for role in ROLES}


def text_of(weights: Weights) -> str:
    """The file of weights, with the head that it has."""
    lines = WEIGHTS.read_text(encoding="utf-8").splitlines()
    parts = [line for line in lines if line.startswith("#")]
    for role, found in weights.items():
        parts += ["", f"[{role}]", *(f"{name}: {weight}" for name, weight in found.items())]
    return "\n".join(parts) + "\n"


# ---- what the guess makes of the tables


def verdicts() -> Mapping[str, tuple[Verdict, str]]:
    """What the guess makes of each table."""
    return {table.name: verdict_of(table, table.guess()) for table in tables()}


def said_of(found: Mapping[str, tuple[Verdict, str]], is_judge: bool) -> str:
    """How many guesses are worth what."""
    names = [table.name for table in tables() if table.is_judge is is_judge]
    count = Counter(found[name][0] for name in names)
    parts = ", ".join(f"{count[verdict]} {verdict}" for verdict in Verdict)
    return f"{len(names)} tables {'judged by' if is_judge else 'made from'}: {parts}"


def judge() -> int:
    """Prints what the guess makes of each table that is not right, and the sums."""
    found = verdicts()
    for name, (verdict, why) in found.items():
        if verdict is not Verdict.RIGHT:
            print(f"{verdict:10} {name}: {why}")
    print(said_of(found, False), said_of(found, True), sep="\n")
    return 0


# ---- what each part is good for


@dataclass(frozen=True)
class Part:
    """A part of the guess that can be switched off: a function, which then returns something else;
    or what an evidence counts, which then is nothing.
    """

    name: str
    instead: Callable[..., Any] | None = None
    role: str = ""

    @property
    def title(self) -> str:
        """What a line about it begins with."""
        if self.instead is None:
            return f"{self.role} {self.name}"
        return f"{self.name} {'always' if self.instead is always else 'never'}"

    @contextmanager
    def off(self) -> Iterator[None]:
        """Switches it off, wherever it is called."""
        with ExitStack() as stack:
            if self.instead is None:
                weights = {role: dict(evidence.weights_of(role)) for role in ROLES}
                del weights[self.role][self.name]
                stack.enter_context(mock.patch.object(evidence, "weights_of", weights.get))
            for module in CALLERS if self.instead else ():
                if hasattr(module, self.name):
                    stack.enter_context(mock.patch.object(module, self.name, self.instead))
            yield


def always(*_: Any) -> bool:
    """What a fact gives that always holds."""
    return True


def never(*_: Any) -> bool:
    """What a fact gives that never holds."""
    return False


# the modules whose functions are switched off
FACTS = (facts, choices, evidence)
CALLERS = (*FACTS, guess)
# what other functions than facts return that are switched off; those that are not here only name
# what others decide
NOTHING: Mapping[str, Callable[..., Any]] = {
    "code_rivals": lambda *_: (),
    "name_parts": lambda *_: (),
    "variants_place": lambda *_: None,
    "with_taxes": lambda *_: ((), ()),
    "net_places": lambda *_: (),
    "without_same": lambda columns: columns,
    "advised_beside": lambda *_: {},
    "named_again": lambda *_: (),
    "unit_price_choice": lambda *_: evidence.Decision(),
    "old_price_choice": lambda *_: evidence.Decision(),
    "copies_choice": lambda *_: evidence.Decision(),
}


def parts() -> Iterator[Part]:
    """The parts that can be switched off: each fact may never hold, or always."""
    for module in FACTS:
        for name, function in vars(module).items():
            is_own = isinstance(function, FunctionType) and function.__module__ == module.__name__
            if is_own and function.__annotations__.get("return") is bool:
                yield from (Part(name, instead) for instead in (never, always))
    yield from (Part(name, instead) for name, instead in NOTHING.items())
    for role in ROLES:
        weights = {*evidence.weights_of(role)} - {"none"}  # the constant of a fit is no part
        yield from (Part(name, role=role) for name in sorted(weights))


def samples_at_once() -> Any:
    """Lets columns be looked at once that are guessed again and again."""
    found: dict[object, Samples] = {}

    def samples(columns: Sequence[Sequence[str]]) -> Samples:
        key = tuple(tuple(cells) for cells in columns)
        if key not in found:
            found[key] = samples_of(columns)
        return found[key]

    return mock.patch.object(guess, "samples_of", samples)


def all_verdicts() -> Mapping[str, tuple[Verdict, str]]:
    """What the guess makes of each table, also of the small ones."""
    return verdicts() | {table.name: verdict_of(table, table.guess()) for table in small_tables()}


def switched_off() -> int:
    """Switches off each part, and writes a table whose verdict changes, that is no judge if one
    does; those without which none does are named, and the status is 1.
    """
    useless = []
    found = {}
    judges = {table.name for table in tables() if table.is_judge}
    with samples_at_once():
        usual = all_verdicts()
        for part in parts():
            with part.off():
                changed = changes(usual)
            print(f"{part.title}: {', '.join(changed.values()) or 'nothing'}", flush=True)
            if changed:
                found[part.title] = min(changed, key=judges.__contains__)
            else:
                useless.append(part.title)
    lines = [f"{title}\t{name}\n" for title, name in found.items()]
    NEEDED.write_text("".join(lines), encoding="utf-8")
    print(f"{len(useless)} change nothing: {', '.join(useless) or 'none'}")
    return 1 if useless else 0


def changes(usual: Mapping[str, tuple[Verdict, str]]) -> Mapping[str, str]:
    """The tables of which the guess is worth something else than usual, with what it is worth."""
    found = all_verdicts()
    return {
        name: f"{name} {usual[name][0]} > {found[name][0]}"
        for name in usual
        if usual[name][0] is not found[name][0]
    }


def needless_parts(every: Iterable[Part]) -> Iterator[str]:
    """The parts for which no table is kept whose verdict they change, by the tables of `NEEDED`."""
    by_name = {table.name: table for table in (*tables(), *small_tables())}
    for part in every:
        table = by_name.get(needed().get(part.title, ""))
        if table is None:
            yield part.title
            continue
        usual, _ = verdict_of(table, table.guess())
        with part.off():
            found, _ = verdict_of(table, table.guess())
        if found is usual:
            yield part.title


def main(description: str) -> int:
    """Does what the arguments say."""
    parser = argparse.ArgumentParser(
        description=description, formatter_class=argparse.RawDescriptionHelpFormatter
    )
    parser.add_argument("--write", action="store_true")
    parser.add_argument("--judge", action="store_true")
    parser.add_argument("--switch-off", action="store_true")
    arguments = parser.parse_args()
    if arguments.judge:
        return judge()
    if arguments.switch_off:
        return switched_off()
    weights = fitted_weights()
    text = text_of(weights)
    is_same = text == WEIGHTS.read_text(encoding="utf-8")
    if arguments.write:
        WEIGHTS.write_text(text, encoding="utf-8")
        evidence.weights_of.cache_clear()
        judge()
    count = sum(map(len, weights.values()))
    print(f"{len(tables())} tables, {count} weights{'' if is_same else ', which differ'}")
    return 0 if is_same or arguments.write else 1


if __name__ == "__main__":
    sys.exit(main(__doc__))
