"""What the scripts take of the kit: its module of crates, the proved libraries of these, and a check of a crate that
has nothing in its code, above others.

Of a crate that it is passed as source a check says what it says of the crate that it is called for, but it does not
offer files to start the proofs with that it did not find: these take a fifth of a check of wrong bodies.
"""

import functools
import glob
import importlib.machinery
import os
import shutil
import sys
import types
from typing import Any, Iterator, Sequence

import sources

# The name of the crate above the others, and its code.
ABOVE, CODE = "judge", "//! Nothing.\n#![tactic(auto)]\n\n/// One.\npub fn one() -> u8 {\n    1\n}\n"
# What `make` looks for, and where it is built.
MADE = {
    "out/labels": "crates/labels/out/labels",
    "out/liblabels_c.a": "crates/labels_c/out/liblabels_c.a",
    "out/arm64/liblabels_c.a": "crates/labels_c/out/arm64/liblabels_c.a",
}
# What a crate has in its folder for a check to read.
PARTS = ("src", "specs", "proofs")


@functools.lru_cache(maxsize=None)
def kit() -> Any:
    """The kit's module of crates, which `rt` itself uses. The kit is the one that docs/PROOF.md names."""
    sys.dont_write_bytecode = True
    rt = shutil.which("rt")
    if not rt:
        print("rt is not on the path", file=sys.stderr)
        sys.exit(2)
    path = os.path.join(os.path.dirname(os.path.realpath(rt)), "rtlib.py")
    loader = importlib.machinery.SourceFileLoader("rtlib", path)
    module = types.ModuleType("rtlib")
    module.__file__ = path
    loader.exec_module(module)
    return module


def is_left_by_ci(crate: Any) -> bool:
    """Whether `rt ci` built this library of the files as they are. It leaves it without the stamp by which `rt` would
    know it, and at its end it puts back what was there before it, which may be older than the files."""
    if not os.path.isdir(crate.rlib) or os.path.isfile(f"{os.path.dirname(crate.rlib)}/stamp"):
        return False
    built = os.path.getmtime(crate.rlib)
    return all(os.path.getmtime(file) <= built for part in (crate, *crate.below()) for file in files_of(part))


def files_of(crate: Any) -> Iterator[str]:
    """The files that a check of a crate reads."""
    for part in PARTS:
        yield from glob.iglob(f"{crate.folder}/{part}/**/*.*", recursive=True)


def build(crates: Sequence[Any], as_left: bool) -> str:
    """Builds each of these libraries that is not as its sources are. With `as_left` those that `rt ci` left are taken
    as they are, where `rt` would prove them again: all of them, since one fits only those that it was built over.
    Returns the name of one that is not proved, or nothing."""
    if as_left and all(map(is_left_by_ci, crates)):
        return ""
    for crate in crates:
        if crate.build_rlib(["--jobs", "1"], anew=False):
            return str(crate.name)
    return ""


def words_above(rtlib: Any, crates: Sequence[Any], top: str = "") -> list[str]:
    """Returns the words of a check of a crate above these. They are built libraries, or else passed as source, as they
    are in the folder `crates` below `top`."""
    found = [("--extern", f"core={rtlib.KIT}/rlibs/core.rlib")] if top else []
    for crate in crates:
        words = crate.words(["--jobs", "1"], keeps=False)
        uses = ",".join(["core", *crate.of_kit, *(other.name for other in crate.deps)])
        root = f"{top}/crates/{crate.name}/{words[2]}"
        found += [("--lib", f"{crate.name}:{uses}={root}") if top else ("--extern", f"{crate.name}={crate.rlib}")]
        found += [pair for pair in zip(words, words[1:]) if pair[0] in ("--extern", "-L")]
    first, links = words.index("--antt-project"), words.index("--links")
    places = [word for place in dict.fromkeys(found) for word in place]
    return ["--crate-name", ABOVE, "src/lib.rt", *places, *words[first:links], "--jobs", "1"]


def check(rtlib: Any, room: str, words: Sequence[str]) -> str:
    """What the kit's check says of the crate above others, in a folder that may have its specs and proofs."""
    sources.write(f"{room}/src/lib.rt", CODE)
    return sources.run([*rtlib.guarded(), rtlib.RATTLE, "check", *words], room)[1]
