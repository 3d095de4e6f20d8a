"""What the gate keeps of the crates, in the user's cache folder, labels/crates: what the steps wrote that judge
nothing but the crates, and what they built, by a sum of all that decides it. A change of the tools decides nothing.
"""

import os
import shutil
import tempfile
from typing import Iterable

import libraries
import sources

# What the steps build that later steps use.
BUILT = (*libraries.MADE, *libraries.MADE.values(), "crates/hostile/out/hostile_tests")
# What decides, beside the kit: files and folders. The counts of the gate change with each test of the tools.
DECIDES = ("crates", "scripts", "crates.txt", "HANDLES", "Makefile", "docs/PROOF.md")
NOT_READ = {"scripts/counts.txt"}


def texts() -> Iterable[bytes | str]:
    """The kit, and each file that decides, with its path."""
    kit = libraries.kit().KIT
    yield from (sources.read(f"{kit}/{name}") for name in ("KIT-ID", "WHAT"))
    for name in DECIDES:
        path = f"{sources.TOP}/{name}"
        for file in sources.files_below(path, "") if os.path.isdir(path) else [path]:
            inside = os.path.relpath(file, sources.TOP)
            if inside not in NOT_READ:
                yield inside
                with open(file, "rb") as opened:
                    yield opened.read()


def folder() -> str:
    """The folder that has what is kept of the crates as they are."""
    return sources.cached("crates", sources.whole_sum_of(texts()))


def copy(names: Iterable[str], source: str, target: str) -> None:
    for name in names:
        os.makedirs(os.path.dirname(f"{target}/{name}"), exist_ok=True)
        shutil.copy(f"{source}/{name}", f"{target}/{name}")


def take(said: Iterable[str]) -> bool:
    """Puts what was built, and what the steps wrote, where these leave it. Returns whether it is kept."""
    kept = folder()
    if not os.path.isdir(kept):
        return False
    copy((*BUILT, *said), kept, sources.TOP)
    return True


def keep(said: Iterable[str]) -> None:
    """Keeps what was built, and what the steps wrote; as a whole or not at all."""
    kept = folder()
    os.makedirs(os.path.dirname(kept), exist_ok=True)
    with tempfile.TemporaryDirectory(dir=os.path.dirname(kept)) as room:
        copy((*BUILT, *said), sources.TOP, f"{room}/new")
        if not os.path.isdir(kept):
            os.rename(f"{room}/new", kept)
