#!/usr/bin/python3
"""Prints on queues of drivers that are drawn by a seed, whose options and defaults are drawn too,
and compares each dot of each code with where it has to be. It is run by hand:

    tools/tests/trial_drivers.py --seed 1 --count 120

The files of drivers come from packages of Debian, which are downloaded into a folder and not
installed. The programs of drivers that make a printer's own language are replaced by others that
keep the raster which they are given; ghostscript draws PostScript and PDF, and what foomatic draws.
No printer is needed. A line is written for each queue, and at the end how many there were of each
outcome. The status is 1 if labels are wrong and nothing was said, or if the program failed.
"""

import argparse
import os
import random
import re
import subprocess
import sys
from collections import Counter
from collections.abc import Iterator, Mapping, Sequence
from dataclasses import dataclass
from functools import cache
from pathlib import Path
from typing import Any

import cups
import numpy

import pool
import support
from drivers import Bars, bars_of
from jobs import Dots
from labeltools.common.messages import BAD_ARGUMENTS
from rasters import Page, pages_of_pnm, pages_of_raster, SYNCS
from scheduler import Scheduler

FILTERS = Path("/usr/lib/cups/filter")
SECONDS = 600  # for a job, on a busy machine
LATE = -1  # the status of one that was not over by then
CODES = ("ean13 400638133{:03}", "ean8 735{:04}", "upca 036000{:05}", "code128 LOT-{:04}")
WAYS = {"sheet": (("--stock", "Avery L7160"), 21), "roll": (("--paper", "60x40"), 5)}
SIZES = {"sheet": (210.0, 297.0), "roll": (60.0, 40.0)}
NEAR = 330  # dots by which a driver may move a page: its margins
INCH = 25.4
ASKED = (("--paper-as-given", ()), ("--dpi", ("300",)))  # what a message may ask for
# a program in the place of a driver's: it keeps what it is given
KEEP = """#!/bin/sh
if [ $# -gt 5 ]; then cat "$6"; else cat; fi > "{folder}/$PRINTER.raster"
"""
# ghostscript for foomatic: it draws what it is given as a picture, whatever the device is
DRAW = """#!/bin/sh
device= dots=-r600
for word in "$@"; do
    case "$word" in
        -sDEVICE=*write | -sDEVICE=*bbox) exec /usr/bin/gs "$@" ;;
        -sDEVICE=*) device=1 ;;
    esac
done
[ -n "$device" ] || exec /usr/bin/gs "$@"
for word in "$@"; do
    shift
    case "$word" in
        -sDEVICE=*) word=-sDEVICE=pgmraw ;;
        -sOutputFile=*) word="-sOutputFile={folder}/$PRINTER.pnm" ;;
        -r*) dots="$word" ;;
        -dBitsPerPixel=*) continue ;;
    esac
    set -- "$@" "$word"
done
echo "$dots" > "{folder}/$PRINTER.dots"
/usr/bin/gs "$@" > "{folder}/$PRINTER.gs" 2>&1
echo drawn
"""
# defaults of queues, as a keeper may have set them
DEFAULTS: Mapping[str, Sequence[str]] = {
    "number-up": ("2", "4", "6", "9"),
    "sides": ("two-sided-long-edge", "two-sided-short-edge"),
    "print-scaling": ("fill", "fit", "auto"),
    "fit-to-page": ("true",),
    "fitplot": ("true",),
    "mirror": ("true",),
    "print-quality": ("3", "4", "5"),
    "orientation-requested": ("4", "5", "6"),
    "landscape": ("true",),
    "media": ("A5", "Letter", "A3", "iso_a6_105x148mm"),
    "page-border": ("single", "double"),
    "outputorder": ("reverse",),
    "scaling": ("50", "130"),
    "natural-scaling": ("70",),
    "position": ("top-left", "bottom-right"),
    "page-left": ("72",),
    "page-top": ("72",),
    "page-ranges": ("2-3",),
    "page-set": ("even",),
    "copies": ("2",),
    "job-sheets": ("standard,standard",),
    "number-up-layout": ("btrl",),
    "booklet": ("true",),
    "page-label": ("secret",),
    "crop-to-fit": ("true",),
    "brightness": ("50",),
    "gamma": ("2000",),
    "print-color-mode": ("monochrome", "color"),
    "printer-resolution": ("300dpi", "600dpi", "1200dpi"),
    "collate": ("true",),
    "output-bin": ("face-up",),
    "media-source": ("manual", "tray-2"),
    "media-type": ("photographic", "envelope"),
    "print-content-optimize": ("photo",),
    "media-col": ("{media-size={x-dimension=14800 y-dimension=21000}}",),
    "nupsimplex": ("true",),
    "pdftops-renderer": ("gs", "pdftops", "pdftocairo"),
}
LEAST, MOST = 3, 9  # of these, of a queue
OFTEN = 0.6  # of the options of a driver that are changed


@dataclass(frozen=True)
class Outcome:
    """What came of labels on a queue."""

    kind: str
    detail: str = ""


class Trial:
    """Queues with drawn drivers."""

    def __init__(self, scheduler: Scheduler) -> None:
        self.scheduler = scheduler
        self.captured = scheduler.folder / "captured"
        self.captured.mkdir()
        self.captured.chmod(0o1777)  # filters run as another user
        self.programs = scheduler.folder / "programs/filter"

    def write_program(self, name: str, text: str) -> None:
        """Writes a program in the place of another one."""
        path = self.programs / name
        path.unlink(missing_ok=True)
        path.write_text(text.format(folder=self.captured))
        path.chmod(0o755)

    def add(self, name: str, driver: bytes, chance: random.Random) -> Sequence[str]:
        """Adds a queue, with defaults that are drawn; returns these."""
        path = self.scheduler.folder / f"{name}.ppd"
        path.write_bytes(driver)
        ppd = cups.PPD(str(path))  # which raises RuntimeError of one that is broken
        for program in programs_of(driver.decode("latin-1")):
            self.write_program(program, KEEP)
        device = f"file://{self.scheduler.folder}/{name}.out"
        words = ["lpadmin", "-p", name, "-E", "-v", device, "-P", str(path)]
        subprocess.run(words, check=True, capture_output=True)
        wanted = [*changed_options(ppd, chance)]
        names = chance.sample([*DEFAULTS], chance.randint(LEAST, MOST))
        wanted += [f"{option}-default={chance.choice(DEFAULTS[option])}" for option in names]
        taken = []
        for option in wanted:
            words = ["lpadmin", "-p", name, "-o", option]
            if subprocess.run(words, capture_output=True).returncode == 0:
                taken.append(option)
        return taken

    def clear(self, name: str) -> None:
        """Forgets what a queue has printed."""
        for path in self.captured.glob(f"{name}.*"):
            path.unlink()
        # CUPS neither makes the file nor empties it
        (self.scheduler.folder / f"{name}.out").write_bytes(b"")

    def print(self, name: str, kind: str) -> Outcome:
        """Prints labels on a queue; what a message asks for is given."""
        words, asked = [*WAYS[kind][0]], ""
        while True:
            self.clear(name)
            done = printed(name, words, lines_of(WAYS[kind][1]))
            said = done.stderr.decode("utf-8", "replace").strip().replace("\n", " / ")
            more = [
                (option, *value)
                for option, value in ASKED
                if f"({option}" in said and option not in words
            ]
            if done.returncode == 0 or not more:
                break
            words += more[0]
            asked = " after a yes"
        subprocess.run(["cancel", "-a", name], capture_output=True)
        if done.returncode == BAD_ARGUMENTS:
            return Outcome("refused", said)
        if done.returncode:
            is_stopped = done.returncode == LATE or "sent to" in said
            return Outcome("stopped" if is_stopped else "FAILED", said)
        outcome = self.judged(name, kind, words, said)
        return Outcome(outcome.kind + asked, outcome.detail)

    def judged(self, name: str, kind: str, words: Sequence[str], said: str) -> Outcome:
        """What arrived, against what has to be there."""
        found = re.search(r"at (\d+) dpi", said)
        dpi = int(found[1]) if found else 600
        try:
            pages = self.pages(name, dpi)
        except (ValueError, IndexError, KeyError, OSError) as error:
            return Outcome("not decoded", f"{type(error).__name__}: {error}")
        if not pages:
            return Outcome("not decoded", said)
        wanted = bars(kind, dpi)
        counts = len(wanted) - sum(is_there(code, pages, kind, dpi) for code in wanted)
        sizes = ", ".join(f"{page.dots.shape[1]}x{page.dots.shape[0]}" for page in pages[:3])
        if not counts:
            return Outcome("exact")
        detail = f"{counts} of {len(wanted)} are not there, at {dpi} dpi on {sizes}: {said}"
        is_doubted = "scan one label" in said
        return Outcome("wrong, and said so" if is_doubted else "WRONG", detail)

    def pages(self, name: str, dpi: int) -> Sequence[Page]:
        """The pages that arrived at a queue."""
        drawn = self.captured / f"{name}.pnm"
        if drawn.exists():
            dots = re.findall(r"\d+", (self.captured / f"{name}.dots").read_text())
            across, down = int(dots[0]), int(dots[-1])
            found = pages_of_pnm(drawn.read_bytes())
            return [Page(across, down, page.dots) for page in found]
        kept = self.captured / f"{name}.raster"
        path = kept if kept.exists() else self.scheduler.folder / f"{name}.out"
        job = path.read_bytes()
        if job[:4] in SYNCS:
            return [*pages_of_raster(job)]
        places = job.find(b"%!PS"), job.find(b"%PDF-")
        start = min((place for place in places if place >= 0), default=-1)
        if start < 0:
            return ()
        document = job[start:].partition(b"\x1b%-12345X")[0]
        return [Page(dpi, dpi, page.dots) for page in drawn_by_ghostscript(document, dpi)]


def programs_of(text: str) -> Iterator[str]:
    """The programs of a driver that are replaced: those that take raster, and those that are not
    there.
    """
    for found in re.finditer(r'^\*cupsFilter2?:\s*"([^"]*)"', text, re.MULTILINE):
        words = found[1].split()
        takes, program = words[0], Path(words[-1]).name
        is_raster = takes.endswith(("raster", "urf"))
        is_there = (FILTERS / program).exists() or program in ("-", "foomatic-rip")
        if program != "-" and (is_raster or not is_there):
            yield program


def changed_options(ppd: Any, chance: random.Random) -> Iterator[str]:
    """Options of a driver with other choices than its own, which do not exclude one another."""
    ppd.markDefaults()
    before = ppd.conflicts()
    for group in ppd.optionGroups:
        of_parts = [option for part in group.subgroups for option in part.options]
        for option in [*group.options, *of_parts]:
            if option.keyword == "PageRegion" or chance.random() > OFTEN:
                continue
            names = [choice["choice"] for choice in option.choices]
            others = [name for name in names if name != option.defchoice and "Custom" not in name]
            if not others:
                continue
            name = chance.choice(others)
            ppd.markOption(option.keyword, name)
            if ppd.conflicts() > before:
                ppd.markOption(option.keyword, option.defchoice)
            else:
                yield f"{option.keyword}={name}"


@cache
def lines_of(count: int) -> bytes:
    """The file of lines of some labels."""
    labels: list[tuple[str, dict[str, Any] | None]] = []
    for number in range(count):
        line = CODES[number % len(CODES)].format(100 + number)
        if number % 5 == 4:
            line = f"qr https://example.com/{number}"
        labels.append((line, {"title": f"Article {number}", "price": f"{number + 1},00 €"}))
    return support.file_of(labels)


def printed(queue: str, words: Sequence[str], lines: bytes) -> "support.Finished[bytes]":
    """Runs label-print."""
    command = [str(support.TOOLS / "label-print"), *words, "--print", queue]
    env = support.environment()
    try:
        return subprocess.run(command, input=lines, capture_output=True, env=env, timeout=SECONDS)
    except subprocess.TimeoutExpired:
        return subprocess.CompletedProcess(command, LATE, b"", b"it was not over in time")


@cache
def bars(kind: str, dpi: int) -> Sequence[Bars]:
    """The codes of the labels, each with its place."""
    words, count = WAYS[kind]
    return [*bars_of([*words, "--dpi", str(dpi)], lines_of(count))]


def is_there(wanted: Bars, pages: Sequence[Page], kind: str, dpi: int) -> bool:
    """Whether a code is on its page, at about its place, with each of its dots as so many of the
    printer's.
    """
    if wanted.page >= len(pages):
        return False
    page = pages[wanted.page]
    if not page.across or page.across % dpi or page.down % dpi:
        return False
    across, down = page.across // dpi, page.down // dpi
    bits = wanted.dots.repeat(down, axis=0).repeat(across, axis=1)
    padded = numpy.pad(page.dots, ((0, 2 * NEAR), (0, 0)))
    return is_found(padded, bits, wanted.left * across, wanted.top * down, NEAR * max(across, down))


def is_found(page: Dots, bits: Dots, left: int, top: int, near: int) -> bool:
    """Whether dots are on a page, near a place."""
    high, wide = bits.shape
    first = int(bits.any(axis=1).argmax())  # the rows above are white, as much of the page
    row_wanted = bits[first].tobytes()
    begin = max(0, left - near)
    rows = range(max(0, top - near), min(len(page) - high, top + near) + 1)
    for row in sorted(rows, key=lambda place: abs(place - top)):
        data = page[row + first, begin : left + wide + near].tobytes()
        place = data.find(row_wanted)
        while place >= 0:
            column = begin + place
            if numpy.array_equal(page[row : row + high, column : column + wide], bits):
                return True
            place = data.find(row_wanted, place + 1)
    return False


def check_judge() -> None:
    """Ends the trial if a code with a wrong dot, or with a bar that has lost a column, is taken for
    the right one.
    """
    wanted = bars("roll", 203)[0].dots
    high, wide = wanted.shape
    dot = wanted.copy()
    dot[high // 2, wide // 2] ^= 1
    narrow = wanted.copy()
    narrow[:, wanted.any(axis=0).argmax()] = 0  # of the first bar
    for code, is_right in ((wanted, True), (dot, False), (narrow, False)):
        page = numpy.zeros((400, 600), dtype=numpy.uint8)
        page[5 : 5 + high, 7 : 7 + wide] = code
        if is_found(page, wanted, 7, 5, 9) != is_right:
            sys.exit("the judge takes a wrong code for a right one")


def drawn_by_ghostscript(document: bytes, dpi: int) -> Sequence[Page]:
    """The pages of PostScript or PDF."""
    words = ["gs", "-q", "-dBATCH", "-dNOPAUSE", "-dSAFER", "-sDEVICE=pgmraw", f"-r{dpi}"]
    words += ["-sOutputFile=%stdout", "-sstdout=%stderr", "-"]
    done = subprocess.run(words, input=document, capture_output=True, timeout=SECONDS)
    return [*pages_of_pnm(done.stdout)]


def arguments() -> argparse.Namespace:
    """What is asked for."""
    parser = argparse.ArgumentParser(description="Prints on queues of drivers that are drawn.")
    parser.add_argument("--seed", type=int, default=1)
    parser.add_argument("--count", type=int, default=120)
    parser.add_argument("--only", default="", help="drivers whose names have this")
    parser.add_argument("--folder", type=Path, default=support.TOP / "out/drivers")
    return parser.parse_args()


def main() -> int:
    """Tries each driver, and writes what came of it."""
    asked = arguments()
    support.needs("gs", "ppdc", "lpadmin")
    os.environ["LABELS"] = str(support.labels_program())
    check_judge()
    pool.fetch(asked.folder)
    texts = pool.texts_of(
        asked.folder, pool.drawn(asked.folder, asked.seed, asked.count, asked.only)
    )
    outcomes: Counter[str] = Counter()
    scheduler = Scheduler(has_own_programs=True)
    try:
        trial = Trial(scheduler)
        trial.write_program("gs", DRAW)
        for number, (origin, text) in enumerate(sorted(texts.items(), key=str)):
            name = f"queue{number:03}"
            chance = random.Random(f"{asked.seed} {origin.name}")
            try:
                taken = trial.add(name, text, chance)
            except (RuntimeError, subprocess.CalledProcessError) as error:
                outcomes["no queue"] += 1
                print(name, Path(origin.name).name, "no queue:", error, flush=True)
                continue
            for kind in WAYS:
                outcome = trial.print(name, kind)
                outcomes[f"{kind}: {outcome.kind}"] += 1
                print(name, kind, Path(origin.name).name, outcome.kind, outcome.detail, flush=True)
                if outcome.kind.startswith("WRONG"):
                    print("   ", " ".join(taken), flush=True)
            scheduler.remove(name)
    finally:
        scheduler.stop()
    for told, count in sorted(outcomes.items()):
        print(f"{count:5} {told}")
    return 1 if any(re.search("WRONG|FAILED", told) for told in outcomes) else 0


if __name__ == "__main__":
    sys.exit(main())
