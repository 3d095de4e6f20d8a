#!/usr/bin/python3
"""Runs the gate, or steps of it, and compares what each says last.

usage: scripts/gate.py [--write] [--from-nothing] all | quick | built | STEP..

A step is a script of scripts/ with its arguments, or `rt ci`. It passes where it ends with status 0 and its last line
is the one that scripts/counts.txt has: how many tests passed, symbols were read, changes refused. So nothing is left
out unseen: a test or a label that is gone, and a step that does less, are a line of the diff. --write runs the steps
and writes their lines. --from-nothing judges again what has not changed since it was judged before: wrong bodies, the
tests over bent code, and where nothing of the crates has changed also the proofs, with the program and the libraries
that were built. That is kept in the user's cache folder.

quick: what needs no program and no proof, some three minutes of a processor. all: that, every proof from nothing, the
wrong bodies, the program as users get it, and built: what needs that program and the library. The proofs wait for one
another, and most of the other steps run on one processor: so the wrong bodies of a crate are tried beside the proofs,
once the crates below it are proved, and of what comes before the proofs, and after the builds, as many steps run as
there are processors. Of a step that fails all is printed that it wrote, of another one its last line, with the tests
that passed only by themselves, and of each how long it took. A step that takes too long is ended, with all that it
started. What others need ends the run where it fails. The last line is `N passed, M failed`.
"""

import contextlib
import glob
import os
import re
import shutil
import signal
import subprocess
import sys
import threading
import time
from concurrent.futures import Future, ThreadPoolExecutor
from typing import Collection, NoReturn, Sequence

import kept_proofs
import sources

QUICK = (
    "believed.py --check",
    "believed_rows.py",
    "unused.py",
    "pages.py",
    "lints.py",
    "run_tests.py scripts/tests --quick",
    "run_tests.py tools/tests --quick",
)
PROOFS = "rt ci"
WRONG = "wrong_bodies.py --built"
PLAIN = "plain_builds.py"
NAMED = "named_tests.py"
SAMPLE = "believed_rows.py --sample --built"
BUILT = (
    SAMPLE,
    "run_tests.py tools/tests",
    "run_tests.py lib/tests",
    "run_tests.py scripts/tests",
    "compare_symbols.py",
    "scan_damaged.py",
    "read_foreign.py",
    NAMED,
    "refuse_each_growth.py",
    "run_recipes.py",
    "instructions.py --check",
)
LAST = (WRONG, *BUILT)
# These keep verdicts in the user's cache folder.
KEEPING = (WRONG, NAMED)
# These judge nothing but the crates: what they wrote and built is kept there by gate.py, as a whole.
OF_CRATES = (PROOFS, PLAIN, WRONG, SAMPLE, NAMED)
# The steps of each of these run beside one another.
TOGETHER = (QUICK, (PROOFS, WRONG), LAST)
ALL = (*QUICK, PROOFS, PLAIN, *LAST)
# The run ends after each of these where a step has failed, or it has itself.
NEEDED = {QUICK[-1]: True, PROOFS: False, PLAIN: False}
WRITE, FROM_NOTHING = "--write", "--from-nothing"
COUNTS = "scripts/counts.txt"
HEAD = "# The last line of each step of the gate: `scripts/gate.py --write STEP` makes it anew.\n"
# Seconds that a step may take, on a busy machine too.
LONGEST = 7200.0
PROCESSORS = len(os.sched_getaffinity(0))
# What differs from run to run: how long `rt ci` took.
VARIES = re.compile(r" \([^)]*\)$")
# It is set where the steps that are on their way are to end.
ENDS = threading.Event()


def said_in(step: str) -> str:
    """The file that has what a step wrote, from the top of the repository."""
    return f"out/steps/{re.sub('[^a-z]+', '-', step)}.txt"


def path_of(step: str) -> str:
    """The path of that file."""
    return f"{sources.TOP}/{said_in(step)}"


def command_of(step: str, is_beside: bool, from_nothing: bool = False) -> list[str]:
    """The command of a step; `is_beside`: the proofs are on their way."""
    if step == PROOFS:
        return step.split()
    beside = ["--beside", path_of(PROOFS)] if step == WRONG and is_beside else []
    anew = [FROM_NOTHING] if step in KEEPING and from_nothing else []
    return [sources.PYTHON, *f"scripts/{step}".split(), *beside, *anew]


def clear_libraries() -> None:
    """Removes the libraries that were built before: `rt ci` would put them back in the place of its own, and the
    program would be built of them."""
    for folder in glob.glob(f"{sources.TOP}/crates/*/out/rlib"):
        shutil.rmtree(folder)


def run(step: str, command: Sequence[str]) -> tuple[int, str, float, float]:
    """Runs a step, and returns its status, all that it wrote, and the seconds that it took by the clock and of
    processors."""
    start = time.monotonic()
    with open(path_of(step), "r+", encoding="utf-8", errors="replace") as said:
        process = subprocess.Popen(
            command,
            cwd=sources.TOP,
            env={**os.environ, "PYTHONDONTWRITEBYTECODE": "1"},
            stdin=subprocess.DEVNULL,
            stdout=said,
            stderr=said,
            # In a session of its own it would have a share of the processors as large as that of any other step.
            process_group=0,
        )
        # It is looked at and left there, so that all that it started can be ended with it.
        how, is_over = os.WEXITED | os.WNOHANG | os.WNOWAIT, False
        while not is_over and not ENDS.wait(0.05) and time.monotonic() - start < LONGEST:
            is_over = bool(os.waitid(os.P_PID, process.pid, how))
        with contextlib.suppress(ProcessLookupError):
            os.killpg(process.pid, signal.SIGKILL)
        _, ended, used = os.wait4(process.pid, 0)
        process.returncode = os.waitstatus_to_exitcode(ended)
        said.seek(0)
        fault = "" if is_over else f"it took longer than {LONGEST:.0f} seconds, and was ended\n"
        return process.returncode, said.read() + fault, time.monotonic() - start, used.ru_utime + used.ru_stime


def stop(number: int, _: object) -> NoReturn:
    """Ends the run by a signal, and so the steps that are on their way, which are in process groups of their own."""
    sys.exit(128 + number)


def heed_signals() -> None:
    """Has signals end the run, but those that are ignored, as under nohup."""
    for number in (signal.SIGTERM, signal.SIGHUP):
        if signal.getsignal(number) == signal.SIG_DFL:
            signal.signal(number, stop)


def processor_seconds() -> float:
    """The processor time of this process and of those that it waited for, user and system together."""
    return sum(os.times()[:4])


def judged(step: str, result: Future[tuple[int, str, float, float]], kept: dict[str, str], writes: bool) -> int:
    """Waits for a step, and prints what it says where it failed, or else its last line. Returns its status, or 1 where
    that line is another one than is kept; `writes` keeps it."""
    # A signal that comes just before a wait without an end would not end it.
    while not result.done():
        time.sleep(0.05)
    status, said, taken, used = result.result()
    last = VARIES.sub("", said.rstrip("\n").split("\n")[-1])
    if writes and status == 0:
        kept[step] = last
    fault = f"status {status}" if status else f"kept is: {kept.get(step, 'no line')}" * (kept.get(step) != last)
    unsteady = re.findall(f"^{sources.UNSTEADY}.*", said, re.MULTILINE)
    print(f"{said}{fault}" if fault else "\n".join([*unsteady, last]))
    how_long = f"{taken:.1f} s, {used:.1f} of processor" if taken else "as it was judged before"
    print(f"{'FAILED' if fault else 'ok'}: {step}, {how_long}", flush=True)
    return status or int(bool(fault))


def judged_before(steps: Sequence[str], given: Collection[str]) -> dict[str, Future[tuple[int, str, float, float]]]:
    """What the steps wrote that judge the crates, if all steps run and nothing of the crates has changed since these
    passed. What they built then is where they leave it."""
    if steps != ALL or FROM_NOTHING in given or not kept_proofs.take(map(said_in, OF_CRATES)):
        return {}
    found = {step: Future[tuple[int, str, float, float]]() for step in OF_CRATES}
    for step, result in found.items():
        result.set_result((0, sources.read(path_of(step)), 0.0, 0.0))
    return found


def run_all(steps: Sequence[str], kept: dict[str, str], given: Collection[str], pool: ThreadPoolExecutor) -> int:
    """Runs steps by the options that are given, and prints how many passed. Returns the status of the gate."""
    failed = sorted(f"{step}, which is no step" for step in {*kept} - {*ALL})
    print(*failed, sep="\n", end="\n" * bool(failed))
    begun = judged_before(steps, given)
    are_judged = {*begun}
    for count, step in enumerate(steps, 1):
        beside = {other for together in TOGETHER if step in together for other in together}
        following = (later for later in steps[count:] if later in beside)
        for new in (step, *following):
            if new not in begun:
                if new == PROOFS:
                    clear_libraries()
                sources.write(path_of(new), "")
                command = command_of(new, step == PROOFS, FROM_NOTHING in given)
                begun[new] = pool.submit(run, new, command)
        status = judged(step, begun[step], kept, WRITE in given)
        failed += [step] if status else []
        itself_failed = status != 0 and step in NEEDED
        needs_all = NEEDED.get(step, False)
        if itself_failed or failed and needs_all:
            break
    crates_passed = {*OF_CRATES} <= {*begun} - {*failed}
    if steps == ALL and crates_passed and not are_judged:
        kept_proofs.keep(map(said_in, OF_CRATES))
    print(f"{processor_seconds() / 60:.1f} processor minutes")
    print(f"{max(count - len(failed), 0)} passed, {len(failed)} failed")
    if not failed:
        return 0
    return status or 1 if step == PROOFS else 1


def main() -> int:
    given = {word for word in sys.argv[1:] if word in (WRITE, FROM_NOTHING)}
    asked = tuple(word for word in sys.argv[1:] if word not in given)
    parts: dict[tuple[str, ...], tuple[str, ...]] = {("all",): ALL, ("quick",): QUICK, ("built",): BUILT}
    steps = parts.get(asked, asked)
    if not steps or not {*steps} <= {*ALL}:
        is_asked = asked in (("-h",), ("--help",))
        print(__doc__, file=sys.stdout if is_asked else sys.stderr)
        return 0 if is_asked else 2
    heed_signals()
    lines = sources.read(f"{sources.TOP}/{COUNTS}").splitlines()
    kept = dict(line.split(": ", 1) for line in lines if not line.startswith("#"))
    pool = ThreadPoolExecutor(PROCESSORS)
    try:
        status = run_all(steps, kept, given, pool)
    finally:
        ENDS.set()
        pool.shutdown(cancel_futures=True)
    if WRITE in given:
        lines = [HEAD, *(f"{step}: {kept[step]}\n" for step in ALL if step in kept)]
        sources.write(f"{sources.TOP}/{COUNTS}", "".join(lines))
    return status


if __name__ == "__main__":
    sys.exit(main())
