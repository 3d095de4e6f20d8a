#!/usr/bin/python3
"""Builds what users get, for every amd64 processor: crates/labels/out/labels and crates/labels_c/out/liblabels_c.a.
The library for arm64 is crates/labels_c/out/arm64/liblabels_c.a. All are put into out/ too, where `make` looks for
what it would build: so `make release` takes them, and proves nothing again. So is liblabels, which many steps take.

It does what `rt run --cpu x86-64 < /dev/null`, `rt lib --target aarch64-unknown-linux-gnu` and `rt lib --cpu x86-64`
do in these two folders, but after `rt ci` over the libraries that this has proved, which those commands would prove
again. The status is 0 where all are built, and docs/PROOF.md has as many contracts of C functions as the check of the
program assumes, and `make` has nothing to do.
"""

import io
import os
import re
import shutil
import sys
from multiprocessing import get_context
from typing import Any

import libraries
import sources

FLAGS = ["--jobs", "1", "--cpu", "x86-64"]
# What the page and the verdict say of contracts of C functions.
PAGE, SAID = f"{sources.TOP}/docs/PROOF.md", re.compile(r"([\d,]+)\s+contracts\s+of\s+C\s+functions")
ASSUMED = re.compile(r"^logic=proved .*\baxioms=(\d+)", re.M)
ARM64 = ["--jobs", "1", "--target", "aarch64-unknown-linux-gnu"]


def build_libraries(library: Any) -> int:
    """Builds the library for arm64, whose file has the name of that for amd64 and is moved away, and then that one.
    Returns the status."""
    status: int = library.build_static(ARM64)
    if status == 0:
        built = f"{library.folder}/out/lib{library.name}.a"
        os.makedirs(f"{library.folder}/out/arm64", exist_ok=True)
        os.replace(built, f"{library.folder}/out/arm64/{os.path.basename(built)}")
        status = library.build_static(FLAGS)
    return status


def fault_of_page(page: str, verdict: str) -> str:
    """What is wrong with the number of contracts on the page beside the verdict on the program, or nothing."""
    said, assumed = SAID.findall(page), ASSUMED.findall(verdict)
    return "" if said and said == assumed else f"docs/PROOF.md has {said} contracts of C functions, not {assumed}"


def fault_of_make() -> str:
    """Puts what is built where `make` looks for it, and returns what is wrong: `make` would build some of it anew."""
    for path, built in libraries.MADE.items():
        os.makedirs(f"{sources.TOP}/{os.path.dirname(path)}", exist_ok=True)
        shutil.copy(f"{sources.TOP}/{built}", f"{sources.TOP}/{path}")
    status, said = sources.run(["make", "-s", "--question", *libraries.MADE])
    return f"make would build {' '.join(libraries.MADE)} anew, status {status}: {said}" * bool(status)


def main() -> int:
    sources.parser_of(__doc__).parse_args()
    crates = {crate.name: crate for crate in libraries.kit().crates_below(sources.TOP)}
    program, library = crates["labels"], crates["labels_c"]
    not_proved = libraries.build([*dict.fromkeys([*program.below(), *library.below()])], as_left=True)
    if not_proved:
        print(f"{not_proved} is not proved: run rt check in its folder")
        return 1
    program.held = []  # the locks that `rt run` lets go before the program runs
    program.out = io.StringIO()
    beside = get_context("fork").Process(target=lambda: sys.exit(build_libraries(library)))
    beside.start()
    status = int(program.run(FLAGS, []))
    beside.join()
    status = status or beside.exitcode or 0
    verdict = program.out.getvalue()
    print(verdict, end="")
    fault = f"status {status}" if status else fault_of_page(sources.read(PAGE), verdict) or fault_of_make()
    if not fault:
        sources.library()
    print(fault or "the program and both libraries are built")
    return 1 if fault else 0


if __name__ == "__main__":
    sys.exit(main())
