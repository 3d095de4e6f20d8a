#!/usr/bin/python3
"""Compares how labels look in two trees of the tools: no label may be lost, no more titles and
texts may be cut, and prices and titles may be no smaller in the mean. It is run by hand, since it
takes minutes:

    git archive 7ddd4193 tools lib | tar -x -C /tmp/before
    tools/tests/judge_look.py /tmp/before

It makes random tables of a seed, lays out each for ten sheets and rolls, by the tools of each tree,
and prints what it found and the labels whose price lost most. One label may be worse so that others
are better. The status is 1 if what may not be worse is worse.
"""

import argparse
import json
import random
import subprocess
import sys
from pathlib import Path
from typing import Any, Iterator, NamedTuple, Sequence

SEED = 20261130
TABLES = 200
# millimetres and dots an inch of a label; whether it is one of a roll
STOCKS = (
    ((63.5, 38.1), 600, False),  # Avery L7160
    ((38.1, 21.2), 600, False),  # Avery L7651
    ((70.0, 37.0), 600, False),  # Herma 4464
    ((99.1, 38.1), 600, False),  # Avery L7163
    ((105.0, 74.0), 600, False),
    ((60.0, 40.0), 203, True),
    ((50.0, 25.0), 203, True),
    ((57.0, 32.0), 300, True),
    ((40.0, 30.0), 300, True),
    ((100.0, 50.0), 203, True),
)
DESIGNS = ("article", "shelf")
WORDS = """Bleistift Heft Umschlag kariert Rand weich Größe Käse Erdbeermarmelade Tee Milch Bio Brot
Öl fein Wasser Seife rot blau 500 g 1 kg 32 Blatt mit Kaffee gemahlen Natur Honig Schrauben M6
Filtertüten Café crème pâté Wein trocken 0,75 l Übertopf Ø14 XL""".split()
PRICES = ("{},{:02} €", "{},{:02} €", "{}.{:02}", "${}.{:02}", "{} €", "1.{:03},{:02} €")
SIZES = ("price", "title", "details", "module", "bars")
NO_SMALLER = ("price", "title")  # in the mean
ALLOWED = 0.005  # by which part a mean may be smaller: a size is a whole number of dots
DIGIT = 0.729  # the height of a digit, in sizes of letters


class Label(NamedTuple):
    """What is measured on a label, in millimetres; whether its title and text are whole."""

    price: float
    title: float
    details: float
    module: float
    bars: float
    is_whole: bool


def tables(count: int) -> Iterator[list[tuple[str, dict[str, Any]]]]:
    """Yields tables: the lines of labels, and what belongs to each."""
    chance = random.Random(SEED)
    for _ in range(count):
        kind = chance.choice(("ean13", "ean13", "ean13", "ean8", "code128", "qr"))
        price = chance.choice((*PRICES, ""))
        longest = chance.randint(1, 8)
        parts = [name for name in ("text", "was", "unit") if chance.random() < 0.3]
        yield [row_of(chance, kind, price, longest, parts) for _ in range(chance.randint(1, 20))]


def row_of(
    chance: random.Random, kind: str, price: str, longest: int, parts: Sequence[str]
) -> tuple[str, dict[str, Any]]:
    """Returns a row of a table."""
    data = {
        "ean13": f"{chance.randrange(10**12):012}",
        "ean8": f"{chance.randrange(10**7):07}",
        "code128": f"ART-{chance.randrange(10**4)}",
        "qr": f"https://example.com/{chance.randrange(10**6)}",
    }[kind]
    words = [chance.choice(WORDS) for _ in range(chance.randint(1, longest))]
    fields: dict[str, Any] = {"title": " ".join(words)}
    if price:
        fields["price"] = price.format(chance.choice((1, 2, 3, 7, 12, 29, 149)), 99)
        fields |= {"was": "15,95 €"} if "was" in parts else {}
        fields |= {"unit": f"1 kg = {chance.randint(1, 30)},98 €"} if "unit" in parts else {}
    if "text" in parts:
        fields["text"] = [f"Art. {chance.randrange(10**5)}"]
    return f"{kind} {data}", fields


def measured(count: int) -> Iterator[list[dict[str, Any] | None]]:
    """Yields the labels of each table on each stock, by the tools of the tree that is at the front
    of the path; None for one that does not fit.
    """
    import support
    from laying import laid_out

    for table in tables(count):
        data = support.file_of(table)
        for number, (size, dpi, is_roll) in enumerate(STOCKS):
            design = DESIGNS[number % 2]
            laid = laid_out(data, size, dpi, design=design, is_roll=is_roll)
            found = {item.record.number: item for item in laid.labels}
            lines = range(2, 2 * len(table) + 2)
            numbers = sorted(found)
            left = len(table) - len(numbers)
            yield [measures_of(laid, found[line]) for line in lines if line in found] + [
                None
            ] * left


def measures_of(laid: Any, item: Any) -> dict[str, Any]:
    """Returns what is measured on a label."""
    sizes = {"price": 0.0, "title": 0.0, "details": 0.0}
    whole = item.record
    for placed in laid.pen.texts(item):
        style = placed.style
        kind = "title" if style.is_bold and style.lines else "price"
        if not style.is_bold:
            kind = "details"
            if style.lines:
                continue
        size = laid.millimetres(placed.text.size) * DIGIT
        sizes[kind] = max(sizes[kind], size)
    shown = laid.pen.shown_texts(item)
    is_whole = not laid.pen.is_shortened(item)
    # trees whose labels have no symbols of their own ask their design
    symbols = item.symbols if hasattr(item, "symbols") else laid.pen.design.symbols(item)
    symbol = symbols[0]
    return {
        "row": whole.row,
        "texts": [*item.record.texts],
        **sizes,
        "module": laid.millimetres(symbol.module),
        "bars": laid.millimetres(symbol.boxes["bars"].height),
        "is_whole": is_whole,
        "shown": [*shown],
    }


def by_tree(tree: Path, count: int) -> list[list[dict[str, Any] | None]]:
    """Returns what the tools of a tree make of all tables."""
    words = [sys.executable, __file__, "--measure", "--tables", str(count), str(tree)]
    done = subprocess.run(words, capture_output=True, check=True)
    return [json.loads(line) for line in done.stdout.splitlines()]


class Judged(NamedTuple):
    """What labels of a tree are like: how many there are, how many of them fit, how many of these
    are cut, and the mean of each size in millimetres.
    """

    labels: int
    fitting: int
    cut: int
    means: dict[str, float]

    def __str__(self) -> str:
        sizes = (f"{name} {mean:.3f}" for name, mean in self.means.items())
        counts = f"{self.fitting} of {self.labels} fit", f"{self.cut} are cut"
        return ", ".join([*counts, *sizes])

    def faults_beside(self, before: "Judged") -> list[str]:
        """What is worse than before."""
        smaller = [
            f"{name} is smaller"
            for name in NO_SMALLER
            if self.means[name] < before.means[name] * (1 - ALLOWED)
        ]
        lost = ["labels are lost"] if self.fitting < before.fitting else []
        cut = ["more are cut"] if self.cut > before.cut else []
        return [*lost, *cut, *smaller]


def judged(labels: list[list[dict[str, Any] | None]]) -> Judged:
    """What labels are like."""
    there = [label for several in labels for label in several if label]
    cut = sum(not label["is_whole"] for label in there)
    values = {name: [label[name] for label in there if label[name]] for name in SIZES}
    means = {name: sum(found) / max(1, len(found)) for name, found in values.items()}
    return Judged(sum(map(len, labels)), len(there), cut, means)


def losses(
    before: list[list[dict[str, Any] | None]], after: list[list[dict[str, Any] | None]]
) -> list[tuple[float, str]]:
    """The stocks and labels on which a price is smaller than before, by its part of what it was,
    the smallest first.
    """
    found = []
    for number, (olds, news) in enumerate(zip(before, after)):
        for old, new in zip(olds, news):
            if old and new and old["price"] and new["price"] < old["price"]:
                what = f"{STOCKS[number % len(STOCKS)]}: {old['texts']}"
                found.append((new["price"] / old["price"], what))
    return sorted(found)


def main() -> None:
    """Judges."""
    parser = argparse.ArgumentParser(description=__doc__)
    parser.add_argument("--measure", action="store_true", help="print what a tree makes")
    parser.add_argument("--tables", type=int, default=TABLES, help="how many tables are made")
    parser.add_argument("--show", type=int, default=5, help="how many labels are shown")
    parser.add_argument("tree", type=Path, help="a tree with tools/ and lib/")
    given = parser.parse_args()
    if given.measure:
        sys.path[:0] = [str(given.tree / "tools/tests"), str(given.tree / "tools")]
        for labels in measured(given.tables):
            print(json.dumps(labels))
        return
    ours = Path(__file__).resolve().parents[2]
    before, after = (by_tree(tree, given.tables) for tree in (given.tree, ours))
    old, new = judged(before), judged(after)
    print("before:", old)
    print("after:", new)
    for part, what in losses(before, after)[: given.show]:
        print(f"{part:.2f} {what}")
    faults = new.faults_beside(old)
    print(", ".join(faults) or "nothing is worse")
    sys.exit(1 if faults else 0)


if __name__ == "__main__":
    main()
