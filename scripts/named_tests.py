#!/usr/bin/python3
"""What the tests of the crates compare, as they say themselves, and whether they see bent code.

A test that goes over a table or a range says at its end how many cases it compared, and `rt ci` prints that. This
script reads what the last `rt ci` of gate.py printed, and compares it with scripts/named_tests.toml. So a test that is
gone, a row, a piece or a version that is left out, and modules that are not looked at are a difference.

Then the tests run over a copy of the crates in which the code is bent in several places. Each test has to fail there.
That needs no proof (`rt try --test`). The verdicts are kept in the user's cache folder, labels/named-tests, by a sum
of all that decides them: the code of the crates, the list, the kit and this script. --from-nothing reads none.

The status is 1 where something differs or a test passes over bent code. The last line says how many tests there are.
"""

import os
import re
import shutil
import sys
import tempfile
import tomllib
from concurrent.futures import ThreadPoolExecutor
from typing import Iterator, Mapping

import libraries
import sources

LIST = "scripts/named_tests.toml"
# What `rt ci` wrote, where gate.py keeps it.
SAID = "out/steps/rt-ci.txt"
# A test and what it says, after which other tests come, or the crate that they are of.
TEST = re.compile(r"^test (\S+) \.\.\. (\w+)\n((?:    .*\n)*)", re.M)
CRATE = re.compile(r"^rt: (\w+): its tests passed$", re.M)
BEGINNING = "compared "
# How the tests run without a proof, each for so many seconds at most; one that takes longer has seen nothing.
TRY = ("rt", "try", "--test", "--seconds", "600")
UNENDED = "no-answer"
# Tests of a crate, each with what it says, or has to say.
Tests = Mapping[str, str]


def tests_in(said: str) -> dict[str, Tests]:
    """Returns the tests that passed, by their crates, each with what it compared."""
    found: dict[str, Tests] = {}
    before = 0
    for crate in CRATE.finditer(said):
        tests = TEST.findall(said[before : crate.start()])
        found[crate[1]] = {name: text.strip().removeprefix(BEGINNING) for name, how, text in tests if how == "ok"}
        before = crate.end()
    return found


def differences(wanted: Mapping[str, Tests], found: Mapping[str, Tests]) -> Iterator[str]:
    """Yields a line for each test that is not as it is listed."""
    for crate in sorted({*wanted, *found}):
        listed, said = wanted.get(crate, {}), found.get(crate, {})
        for test in sorted({*listed, *said}):
            if test not in said:
                yield f"{crate}: {test} has not passed"
            elif test not in listed:
                yield f"{crate}: {test} is not in {LIST}"
            elif listed[test] != said[test]:
                yield f"{crate}: {test} compared {said[test] or 'nothing'}, listed is {listed[test] or 'nothing'}"


def bend(top: str, bent: Mapping[str, list[list[str]]]) -> None:
    """Copies the crates into a folder, and bends the code there. Stops where a text is not there once."""
    shutil.copy(f"{sources.TOP}/crates.txt", top)
    for crate in sources.crates_of(sources.TOP):
        shutil.copytree(f"{sources.TOP}/crates/{crate}", f"{top}/crates/{crate}", ignore=shutil.ignore_patterns("out"))
    for file, changes in bent.items():
        text = sources.read(f"{top}/crates/{file}")
        for old, new in changes:
            if text.count(old) != 1:
                sys.exit(f"{LIST}: crates/{file} does not have once: {old}")
            text = text.replace(old, new)
        sources.write(f"{top}/crates/{file}", text)


def failed_in(top: str, crate: str) -> set[str]:
    """Returns the tests of a crate below a folder that fail."""
    said = sources.run(TRY, f"{top}/crates/{crate}")[1]
    failed = {name for name, how, text in TEST.findall(said) if how == "FAILED" and UNENDED not in text}
    print(f"{crate}: {len(failed)} tests fail over bent code", flush=True)
    if not failed:
        print(said)
    return failed


def path_of(total: str) -> str:
    """Returns the file that has the tests that fail over bent code, by this sum of all that decides it."""
    return sources.cached("named-tests", total)


def sum_of_all() -> str:
    """Returns a sum of all that decides which tests fail over bent code."""
    paths = sources.files_below(f"{sources.TOP}/crates", ".rt")
    paths += [f"{sources.TOP}/{name}" for name in ("crates.txt", LIST, "scripts/named_tests.py", "scripts/sources.py")]
    texts = [part for path in paths for part in (os.path.relpath(path, sources.TOP), sources.read(path))]
    return sources.whole_sum_of([sources.read(f"{libraries.kit().KIT}/WHAT"), *texts])


def fail_over_bent(crates: list[str], bent: Mapping[str, list[list[str]]], from_nothing: bool) -> set[str]:
    """Returns the tests of crates that fail over bent code, each with its crate."""
    path = path_of(sum_of_all())
    if os.path.isfile(path) and not from_nothing:
        print("over bent code: as it was judged before")
        return {*sources.read(path).splitlines()}
    with tempfile.TemporaryDirectory(prefix="bent-") as top:
        bend(top, bent)
        with ThreadPoolExecutor(2) as pool:
            failed = [*pool.map(lambda crate: failed_in(top, crate), crates)]
    found = {f"{crate}: {test}" for crate, tests in zip(crates, failed) for test in tests}
    sources.write_at_once(path, "\n".join(sorted(found)))
    return found


def main() -> int:
    parser = sources.parser_of(__doc__)
    parser.add_argument("--from-nothing", action="store_true", help="try the tests over bent code, whatever is kept")
    given = parser.parse_args()
    wanted = tomllib.loads(sources.read(f"{sources.TOP}/{LIST}"))
    bent = wanted.pop("bent")
    if not os.path.isfile(f"{sources.TOP}/{SAID}"):
        sys.exit(f"there is no {SAID}: run scripts/gate.py 'rt ci'")
    faults = [*differences(wanted, tests_in(sources.read(f"{sources.TOP}/{SAID}")))]
    failed = fail_over_bent([*wanted], bent, given.from_nothing)
    tests = [f"{crate}: {test}" for crate, tests in wanted.items() for test in tests]
    cases = [(f"{test} over bent code", test in failed) for test in tests]
    return sources.ended(faults, f"{len(tests)} tests, {len(faults)} not as listed", cases)


if __name__ == "__main__":
    sys.exit(main())
