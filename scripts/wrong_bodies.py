#!/usr/bin/python3
"""Tries the wrong bodies of crates/*/wrong-bodies: the prover must refuse each.

scripts/edits.py says what such a file has. A wrong body changes bodies of src/: it leaves clauses, ghost items and
attributes as they are. The files of crates/*/right-bodies are of the same form and not wrong: the prover has to accept
each, and one that is reported as refused is a fault of this script.

`rt` tries each must-fail edit by a check of the crate. Here one check tries many: a copy of the crate has a function
once more for each of its bodies that are texts, and beside these a control that the prover must accept. A body that
changes the code is tried in its function's place. A proof reads of other functions their contracts alone, so one check
tries several functions, and those that are not tried have a hole for a proof (scripts/stand_ins.py). What fails only
because it calls another is not judged, and is tried again without it. One check also tries crates of which none uses
another. It is a check of a crate above these, which are passed to it as source (scripts/libraries.py).

With --beside a run of `rt ci` is on its way: crates are tried once that says that those below them are proved, over
its libraries, which are linked to at once, since at its end it puts back those of an earlier session.

The verdicts of a crate are kept in the user's cache folder, labels/wrong-bodies, by a sum of all that decides them:
the files of the crate and of those below it, its bodies, the kit, these scripts. So another copy of the repository has
them too. Verdicts with a fault are not kept. --from-nothing reads none.

The status is 0 where each wrong body is refused, 1 where one is not or there is none, and 2 where an argument names no
crate or there is no kit. For each crate a line says how many bodies were refused and accepted. The last line is `N
passed, M failed`, as of `rt ci`.
"""

import argparse
import concurrent.futures
import hashlib
import os
import re
import shutil
import sys
import tempfile
import time
from dataclasses import dataclass, field
from enum import Enum, auto
from typing import Any, Iterable, Iterator, Sequence

import edits
import libraries
import sources
import stand_ins
from edits import Body

# What decides a verdict beside the crate and the kit.
SCRIPTS = ("edits", "libraries", "reader", "sources", "stand_ins", "wrong_bodies")

# The line of a function that is proved, given those that it calls: these have holes for proofs.
PROVED = re.compile(r"no holes$|depends on a hole in `[^`]*\.Proof\.\w+_spec`")
# The line of a function that was not proved for what is written in it, and not for what it calls.
REFUSED = re.compile(r"not proved|no proof: expected answers|.*did not prove")
# The line of a function whose given proof has errors, or rests on a lemma that has.
STANDS_ON = re.compile(r"not proved; it stands on (.*?), which antt refuses")
# An error in an answer, and what it is if the answer names a step of the code that the body does not have.
ERROR = r"^\S*/crates/{}/proofs/(.*)\.antt:[\d:]+ error: `(.*?)`: (.*)$"
GONE = "has no field `"
# The memory that a check of bodies takes at most, and a proof of a crate.
OF_A_CHECK, OF_A_PROOF = 1_800_000_000, 1_100_000_000
# What `rt ci` says of a crate that is proved, or that an earlier run proved.
BUILT = re.compile(r"^rt: (\w+) (?:proved$|is kept: )", re.M)
LAST = re.compile(r"^(only|logic)=", re.M)


class Outcome(Enum):
    """What a check says of the function of a body; `UNKNOWN`: one fails by what it calls, or by its form."""

    PROVED = auto()
    REFUSED = auto()
    UNKNOWN = auto()
    NEITHER = auto()


def is_refused(line: str, of_others: tuple[str, ...], form: set[str]) -> bool:
    """Whether a line says that a function is not proved for what is written in it: by an error that is in the proof of
    no other function that was asked for, and more than one of form."""
    stands_on = STANDS_ON.match(line)
    if not stands_on:
        return bool(REFUSED.match(line))
    answers = {*re.findall("`([^`]*)`", stands_on[1])} - form
    return any(not answer.startswith(of_others) for answer in answers)


def of_form(crate: str, said: str) -> set[str]:
    """Returns the answers in which nothing is wrong but that they name what the body does not have."""
    errors = re.findall(ERROR.format(crate), said, re.M)
    found = [(f"Rattle.{crate}.proofs.{file.replace('/', '.')}.{name}", why) for file, name, why in errors]
    return {answer for answer, _ in found} - {answer for answer, why in found if GONE not in why}


def outcome(crate: str, body: Body, asked: Sequence[Body], said: str) -> Outcome:
    """Returns what a check of the bodies that were asked for says of one. A copy is refused only for what it is to
    ensure, and not for a step on the way, such as an overflow."""
    others = [other.function for other in asked if other.function != body.function]
    of_others = tuple(f"Rattle.{crate}.proofs.{function.replace('::', '.')}." for function in others)
    found = re.search(rf"^fn {crate}::{re.escape(body.function)}: (.*)$", said, re.M)
    line = found[1] if found else ""
    if PROVED.match(line):
        return Outcome.PROVED
    if not line:
        return Outcome.NEITHER
    if is_refused(line, of_others, of_form(crate, said)):
        is_said = not body.text or "`returns" in line
        return Outcome.REFUSED if is_said else Outcome.NEITHER
    return Outcome.UNKNOWN


@dataclass
class Tried:
    """What was tried in a crate: which wrong bodies were refused, how many right ones were accepted, and a line on
    each other."""

    crate: str
    refused: list[str] = field(default_factory=list)
    accepted: int = 0
    lines: list[str] = field(default_factory=list)

    def judge(self, bodies: Sequence[Body], said: str) -> list[Body]:
        """Counts what a check says of bodies, and returns those that it does not judge."""
        found = {body: outcome(self.crate, body, bodies, said) for body in bodies}
        for body, verdict in found.items():
            if verdict is not Outcome.UNKNOWN:
                self.count(body, verdict)
        if not LAST.search(said):
            self.lines += ["the check did not reach its end:", *said.split("\n")[:6]]
        return [body for body, verdict in found.items() if verdict is Outcome.UNKNOWN]

    def count(self, body: Body, verdict: Outcome) -> None:
        """Counts a body that was judged."""
        if body.is_right and verdict is Outcome.PROVED:
            self.accepted += 1
        elif not body.is_right and verdict is Outcome.REFUSED:
            self.refused.append(body.name)
        elif body.is_right:
            self.lines.append(f"{body.name}: it is right, and not reported as not refused")
        else:
            self.lines.append(f"{body.name}: NOT REFUSED")


# ---- checks


@dataclass
class Trial:
    """The bodies of a crate: the copies and the changes that are still to be tried, those that the next check is asked
    for, the texts of the files then, and what came of the others."""

    crate: Any
    tried: Tried
    copies: list[edits.Copy]
    left: list[Body]
    most: int | None = None
    asked: list[Body] = field(default_factory=list)
    texts: dict[str, str] = field(default_factory=dict)

    def choose(self) -> None:
        """Chooses what the next check is asked for: all copies, and what fits beside them in its place."""
        chosen, self.texts = edits.together(self.left[: self.most], self.crate.folder, self.copies)
        self.asked = [*(copy.body for copy in self.copies), *chosen]

    def judge(self, said: str) -> None:
        """Takes what the check says. Bodies that it does not judge are tried again, those in place one by one if it
        judged none."""
        again = self.tried.judge(self.asked, said)
        chosen = self.asked[len(self.copies) :]
        self.left = [body for body in self.left if body not in chosen]
        judged_none = again == self.asked
        if judged_none and (self.copies or len(self.asked) == 1):
            self.tried.lines += [f"{body.name}: not judged" for body in again]
            self.copies = []
        else:
            self.copies = [copy for copy in self.copies if copy.body in again]
            self.left += [body for body in chosen if body in again]
            self.most = 1 if judged_none else None


def trial_of(crate: Any) -> Trial:
    """Returns the wrong and the right bodies of a crate, to be tried."""
    tried = Tried(crate.name)
    faults = {body: edits.fault_of(body, crate.folder) for body in edits.bodies_of(crate.folder)}
    tried.lines += [f"{body.name}: {fault}" for body, fault in faults.items() if fault]
    bodies = [body for body, fault in faults.items() if not fault]
    return Trial(crate, tried, edits.copies_of(bodies, crate.folder), [body for body in bodies if not body.text])


def check(rtlib: Any, trials: Sequence[Trial]) -> str:
    """Returns what a check says of the bodies that trials ask for, over copies of their crates."""
    asked = [f"{trial.crate.name}::{body.function}" for trial in trials for body in trial.asked]
    with tempfile.TemporaryDirectory(prefix="wrong-bodies-") as top:
        for trial in trials:
            room = f"{top}/crates/{trial.crate.name}"
            for part in rtlib.PARTS:
                if os.path.isdir(f"{trial.crate.folder}/{part}"):
                    shutil.copytree(f"{trial.crate.folder}/{part}", f"{room}/{part}")
            for file, text in trial.texts.items():
                sources.write(f"{room}/{file}", text)
            stand_ins.put(top, trial.crate.name, [body.function for body in trial.asked])
        words = libraries.words_above(rtlib, [trial.crate for trial in trials], top)
        only = [word for function in asked for word in ("--only", function)]
        return libraries.check(rtlib, f"{top}/above", [*words, "--allow-holes", *only])


def try_all(rtlib: Any, crates: Sequence[Any]) -> list[Tried]:
    """Tries the wrong and the right bodies of crates of which none uses another."""
    trials = [trial_of(crate) for crate in crates]
    while waiting := [trial for trial in trials if trial.copies or trial.left]:
        for trial in waiting:
            trial.choose()
        said = check(rtlib, waiting)
        for trial in waiting:
            trial.judge(said)
    results = [trial.tried for trial in trials]
    for tried in results:
        print(f"{tried.crate}: {len(tried.refused)} refused, {tried.accepted} accepted", flush=True)
    return results


def sum_of(crate: Any) -> str:
    """Returns a sum of all that decides what comes of the bodies of a crate."""
    files = [f"{sources.TOP}/scripts/{name}.py" for name in SCRIPTS]
    files += (path for kind in ("wrong", "right") for path in sources.files_below(f"{crate.folder}/{kind}-bodies", ""))
    texts = [(os.path.basename(path), sources.read(path)) for path in files]
    return hashlib.sha256(repr((crate.stamp(), texts)).encode()).hexdigest()


def path_of(name: str, total: str) -> str:
    """The file that has the verdicts of a crate by this sum."""
    return sources.cached("wrong-bodies", f"{name}-{total}")


def read_kept(name: str, total: str) -> Tried | None:
    """Returns the verdicts of a crate that are kept by this sum, or None."""
    path = path_of(name, total)
    if not os.path.isfile(path):
        return None
    print(f"{name}: as it was judged before", flush=True)
    accepted, *refused = sources.read(path).split()
    return Tried(name, refused, int(accepted))


def tried_once(rtlib: Any, crates: Sequence[Any], from_nothing: bool) -> list[Tried]:
    """Returns what comes of the bodies of crates of which none uses another, as it is kept where nothing has
    changed."""
    sums = {crate.name: sum_of(crate) for crate in crates}
    kept = {name: None if from_nothing else read_kept(name, total) for name, total in sums.items()}
    results = try_all(rtlib, [crate for crate in crates if not kept[crate.name]])
    for tried in results:
        if not tried.lines:
            path = path_of(tried.crate, sums[tried.crate])
            sources.write_at_once(path, " ".join([str(tried.accepted), *tried.refused]))
    return [*filter(None, kept.values()), *results]


# ---- all


def counts_of(names: Sequence[str]) -> dict[str, int]:
    """Returns how many bodies the crates have that have wrong ones, the most first."""
    bodies = {name: edits.bodies_of(f"{sources.TOP}/crates/{name}") for name in names}
    with_wrong = [name for name, found in bodies.items() if not all(body.is_right for body in found)]
    return {name: len(bodies[name]) for name in sorted(with_wrong, key=lambda name: -len(bodies[name]))}


def arguments() -> argparse.Namespace:
    """Returns the arguments: crates, and how their libraries are taken."""
    parser, known = sources.parser_of(__doc__), sources.crates_of(sources.TOP)
    crates = "a crate of crates.txt (all that have wrong bodies)"
    parser.add_argument("crates", nargs="*", metavar="CRATE", help=crates)
    built = "take the libraries below as `rt ci` left them; else build those that changed"
    parser.add_argument("--built", action="store_true", help=built)
    beside = "take each library once `rt ci`, which writes this file, has built it"
    parser.add_argument("--beside", metavar="FILE", help=beside)
    parser.add_argument("--from-nothing", action="store_true", help="try each body, whatever verdicts are kept")
    given = parser.parse_args()
    unknown = [name for name in given.crates if name not in known]
    if unknown:
        parser.error(f"no crate {unknown[0]} in crates.txt, which has: {' '.join(known)}")
    return given


def linked(file: str, to: str) -> None:
    """Links to a file, or copies it where that is on another disk."""
    try:
        os.link(file, to)
    except OSError:
        shutil.copy2(file, to)


def groups_of(crates: Sequence[Any]) -> list[list[Any]]:
    """Returns crates in groups of which none has one that uses another of it: each has those over as many layers of
    crates. A check of a group reads the libraries of the kit once. Those with the most bodies are first."""
    layers: dict[int, list[Any]] = {}
    for crate in crates:
        layers.setdefault(height_of(crate), []).append(crate)
    return [*layers.values()]


def height_of(crate: Any) -> int:
    """Returns over how many layers of crates a crate is."""
    return max((1 + height_of(dep) for dep in crate.deps), default=0)


def each_once_built(groups: Sequence[Sequence[Any]], path: str, room: str) -> Iterator[Sequence[Any]]:
    """Yields each group of crates once those below them are proved by the `rt ci` that writes this file, and links
    their libraries into a folder."""
    waiting, there = [*groups], set[str]()
    below = {dep.name: dep for group in groups for crate in group for dep in crate.below()}
    while waiting:
        for name in sorted({*BUILT.findall(sources.read(path))} & below.keys() - there):
            library = f"{room}/{name}.rlib"
            shutil.copytree(below[name].rlib, library, copy_function=linked)
            below[name].rlib = library
            there.add(name)
        ready = [group for group in waiting if {dep.name for crate in group for dep in crate.below()} <= there]
        waiting = [group for group in waiting if group not in ready]
        yield from ready
        if waiting:
            time.sleep(0.2)


def at_once(is_beside: bool) -> int:
    """Returns how many crates are tried at a time: as many as there are processors, if the memory has room for them,
    and for as many proofs where these are on their way."""
    (kilobytes,) = re.findall(r"^MemAvailable: *(\d+)", sources.read("/proc/meminfo"), re.M)
    processors = len(os.sched_getaffinity(0))
    room = int(kilobytes) * 1000 - is_beside * processors * OF_A_PROOF
    return max(1, min(processors, room // OF_A_CHECK))


def try_each(rtlib: Any, groups: Iterable[Sequence[Any]], given: argparse.Namespace) -> list[Tried]:
    """Tries groups of crates as they come, some at a time."""
    with concurrent.futures.ThreadPoolExecutor(at_once(bool(given.beside))) as pool:
        begun = [pool.submit(tried_once, rtlib, group, given.from_nothing) for group in groups]
        return [tried for future in begun for tried in future.result()]


def judged(results: Sequence[Tried]) -> int:
    """Prints what is wrong with bodies, and returns the status."""
    failed = [f"{tried.crate}/{line}" for tried in results for line in tried.lines]
    passed = sum(len(tried.refused) + tried.accepted for tried in results)
    return sources.ended(failed, f"{passed} passed, {len(failed)} failed")


def main() -> int:
    """Tries the bodies of the crates that are asked for, and returns the status."""
    given = arguments()
    counts = counts_of(given.crates or sources.crates_of(sources.TOP))
    without = [name for name in given.crates if name not in counts]
    if without or not counts:
        print(f"no wrong bodies in {', '.join(without) or 'any crate'}: nothing was tried")
        print("0 passed, 1 failed")
        return 1
    rtlib = libraries.kit()
    rtlib.guarded()  # once, before the threads call it
    of_kit = {crate.name: crate for crate in rtlib.crates_below(sources.TOP)}
    groups = groups_of([of_kit[name] for name in counts])
    if given.beside:
        os.nice(5)  # `rt ci` waits for nothing
        with tempfile.TemporaryDirectory(prefix="wrong-bodies-libraries-") as room:
            return judged(try_each(rtlib, each_once_built(groups, given.beside, room), given))
    below = dict.fromkeys(dep for group in groups for crate in group for dep in crate.below())
    return 1 if libraries.build([*below], given.built) else judged(try_each(rtlib, groups, given))


if __name__ == "__main__":
    sys.exit(main())
