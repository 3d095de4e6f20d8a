#!/usr/bin/python3
"""Runs the tests of a folder, those of a file in a process of their own. Many wait for a printer or a window, so half
as many again run at a time as there are processors.

A test passes where it ran to its end and nothing was wrong. Any other one failed: one that is skipped, one that passes
though it is expected to fail, each test of a class or a file that cannot be read or set up. With --quick a test that
draws, or takes seconds, is left out: the gate runs it after the proofs. A folder without tests is a failure. A test
that takes too long is ended and failed, and so is what is read or set up for tests. What all tests of a folder need
the function `prepare` of its module `support` makes, once. In each run tests are shown that end in each way, of which
just the right one may pass. If no more than three tests fail, each runs once more when all others have ended: one that
then passes counts as passed, and a line `unsteady: TEST` names it, since it depends on how busy the machine is. The
last line is `N passed, M failed`, with `, L left out` after it where some were; the status is 1 where some failed.
"""

import gc
import io
import itertools
import os
import signal
import sys
import tempfile
import time
import traceback
import unittest
from typing import IO, Any, Iterable, Iterator, NoReturn, Sequence, TextIO

import sources

# Why a test is left out before the proofs.
LEFT_OUT = ("is not built: run ", "takes seconds: ")
# Seconds that a test may take, on a busy machine too, and what is read or set up before it.
LONGEST = 900.0
# Files at a time.
MOST_AT_ONCE = len(os.sched_getaffinity(0)) * 3 // 2
# Tests that run once more at most: where more fail, it is not because the machine is busy.
MOST_AGAIN = 3


class TookTooLong(BaseException):
    """It ends what waits for ever."""


def too_long(*_: object) -> NoReturn:
    raise TookTooLong


def give_time(seconds: float = LONGEST) -> None:
    """Gives what begins now its time. Then an error ends it, and every 5 seconds what it waits for at its end."""
    signal.signal(signal.SIGALRM, too_long)
    signal.setitimer(signal.ITIMER_REAL, seconds, 5)


class Result(unittest.TextTestResult):
    """What came of tests: the names of those that passed."""

    def __init__(self, *given: Any) -> None:
        super().__init__(*given)
        self.passed: list[str] = []

    def startTest(self, test: unittest.TestCase) -> None:
        give_time()
        super().startTest(test)

    def stopTest(self, test: unittest.TestCase) -> None:
        super().stopTest(test)
        give_time()

    def addSuccess(self, test: unittest.TestCase) -> None:
        super().addSuccess(test)
        self.passed.append(test.id())


def tests_in(suite: unittest.TestSuite) -> Iterator[Any]:
    """All tests."""
    for test in suite:
        if isinstance(test, unittest.TestSuite):
            yield from tests_in(test)
        else:
            yield test


def parts_of(suite: unittest.TestSuite) -> list[unittest.TestSuite]:
    """The tests of each file; those of a class that has RUNS_APART are a part of their own."""
    return [unittest.TestSuite(tests) for _, tests in itertools.groupby(tests_in(suite), part_of)]


def part_of(test: Any) -> tuple[str, str]:
    """The file of a test, and its class if that runs apart: it takes long, or leaves much behind."""
    kind = type(test)
    return kind.__module__, kind.__name__ if getattr(kind, "RUNS_APART", False) else ""


def judged(suite: unittest.TestSuite, is_quick: bool, stream: TextIO) -> tuple[int, list[str], int]:
    """Runs tests, and returns how many passed, the names of those that failed, and how many were left out."""
    names = [test.id() for test in tests_in(suite)]
    runner = unittest.TextTestRunner(stream, verbosity=2, buffer=True, resultclass=Result)
    result = runner.run(suite)
    assert isinstance(result, Result)
    not_passed = [name for name in names if name not in result.passed]
    excused = [test.id() for test, why in result.skipped if is_quick and any(reason in why for reason in LEFT_OUT)]
    # Of a class or a file that is skipped as a whole the name is in brackets: setUpClass (test_one.One).
    wholes = tuple(f"{name[:-1].partition('(')[2]}." for name in excused if name.endswith(")"))
    left_out = [name for name in not_passed if name in excused or name.startswith(wholes)]
    return len(result.passed), [name for name in not_passed if name not in left_out], len(left_out)


def begun(part: unittest.TestSuite, is_quick: bool, said: IO[str]) -> int:
    """The number of a process, a fork of this one, that runs tests, and writes what comes of them into a file. The
    last line says how many passed and were left out, and names those that failed."""
    sys.stdout.flush()
    sys.stderr.flush()
    process = os.fork()
    if process:
        return process
    status = 1
    for number, file in enumerate((os.open(os.devnull, os.O_RDONLY), said.fileno(), said.fileno())):
        os.dup2(file, number)
    sys.stdout = sys.stderr = open(1, "w", encoding="utf-8", errors="backslashreplace", closefd=False)
    try:
        give_time()
        passed, failed, left_out = judged(part, is_quick, sys.stderr)
        print(passed, left_out, *failed)
        status = 0
    except BaseException:
        traceback.print_exc()
    finally:
        sys.stdout.flush()
        os._exit(status)


def judged_apart(parts: Iterable[unittest.TestSuite], is_quick: bool) -> tuple[int, list[str], int]:
    """Runs each part in a fork of this process, and returns how many tests passed, the names of those that failed,
    and how many were left out. Where a process ends before its tests they failed."""
    waiting = [*parts]
    all_passed, all_failed, all_left_out = 0, list[str](), 0
    gc.freeze()
    running: dict[int, tuple[unittest.TestSuite, IO[str]]] = {}
    while waiting or running:
        if waiting and len(running) < MOST_AT_ONCE:
            part, said = waiting.pop(), tempfile.TemporaryFile("w+", errors="replace")
            running[begun(part, is_quick, said)] = part, said
            continue
        process, status = os.wait()
        part, said = running.pop(process)
        with said:
            said.seek(0)
            *lines, last = said.read().rstrip("\n").split("\n")
        has_ended_early = status != 0
        if has_ended_early:
            all_failed += [test.id() for test in tests_in(part)]
        else:
            passed, left_out, *failed = last.split()
            all_passed, all_left_out = all_passed + int(passed), all_left_out + int(left_out)
            all_failed += failed
        print(*lines, *[last] * has_ended_early, sep="\n", file=sys.stderr)
    return all_passed, all_failed, all_left_out


def unsteady_of(tests: unittest.TestSuite, failed: Sequence[str], is_quick: bool) -> list[str]:
    """Runs each test that failed once more, by itself, if they are few. Returns the names of those that pass then."""
    if len(failed) > MOST_AGAIN:
        return []
    parts = [unittest.TestSuite([test]) for test in tests_in(tests) if test.id() in failed]
    return [test.id() for part in parts for test in tests_in(part) if judged_apart([part], is_quick)[0]]


class Shown(unittest.TestCase):
    """Tests that end in each way."""

    def right(self) -> None:
        self.assertTrue(True)

    def wrong(self) -> None:
        self.fail()

    def wrong_in_part(self) -> None:
        with self.subTest():
            self.fail()

    def broken(self) -> None:
        raise ValueError

    def endless(self) -> None:
        give_time(0.01)
        time.sleep(LONGEST)

    def skipped(self) -> None:
        self.skipTest("takes second thoughts")

    @unittest.expectedFailure
    def unexpected(self) -> None:
        self.assertTrue(True)

    @unittest.expectedFailure
    def expected(self) -> None:
        self.fail()


def sees_wrong_tests() -> bool:
    """Whether of the tests that are shown just the right one passes, with --quick too."""
    names = [name for name, member in vars(Shown).items() if callable(member) and not name.startswith("__")]
    found = [judged(unittest.TestSuite(map(Shown, names)), is_quick, io.StringIO()) for is_quick in (False, True)]
    are_right = [passed == 1 and len(failed) == 7 and not left_out for passed, failed, left_out in found]
    return len(names) == 8 and all(are_right)


def main() -> int:
    parser = sources.parser_of(__doc__)
    parser.add_argument("folder", metavar="FOLDER", help="a folder of tests")
    parser.add_argument("--quick", action="store_true", help="leave out the tests that draw, or take seconds")
    given = parser.parse_args()
    if not os.path.isdir(f"{sources.TOP}/{given.folder}"):
        sys.exit(f"there is no folder {given.folder}")
    os.chdir(sources.TOP)
    # Nothing is built where --quick runs first: what lies there from an earlier build is not seen.
    unbuilt = {"LABELS": "/not/built", "LABELS_LIBRARY": "/not/built"}
    os.environ.update({"NO_SKIP": "", "QUICK": "1", **unbuilt} if given.quick else {"NO_SKIP": "1"})
    # Python reads the tests of a folder twice as fast where it has kept them as bytecode.
    sys.dont_write_bytecode = False
    give_time()
    tests = unittest.TestLoader().discover(given.folder)
    sys.dont_write_bytecode = True
    if not sees_wrong_tests():
        print("a test that did not pass is counted as one that did", file=sys.stderr)
        return 1
    getattr(sys.modules.get("support"), "prepare", int)()
    signal.setitimer(signal.ITIMER_REAL, 0)
    passed, failed, left_out = judged_apart(parts_of(tests), given.quick)
    unsteady = unsteady_of(tests, failed, given.quick)
    print(*(f"{sources.UNSTEADY}{name}" for name in unsteady), sep="\n", end="\n" * bool(unsteady), file=sys.stderr)
    passed += len(unsteady)
    count = len(failed) - len(unsteady) if passed else 1
    print(f"{passed} passed, {count} failed{f', {left_out} left out' * bool(left_out)}", file=sys.stderr)
    return 1 if count else 0


if __name__ == "__main__":
    sys.exit(main())
