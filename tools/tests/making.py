"""Runs `make` and other commands over the proved program and library."""

import subprocess
from pathlib import Path

import support

PROVED = support.TOP / "crates/labels_c/out/liblabels_c.a"
PROVED_ARM64 = support.TOP / "crates/labels_c/out/arm64/liblabels_c.a"


def command_of(*words: str, cwd: Path = support.TOP) -> str:
    """Runs a command, which has to end with status 0, and returns what it prints."""
    done = subprocess.run(words, cwd=cwd, capture_output=True, text=True)
    if done.returncode:
        raise AssertionError(f"{words} in {cwd}:\n{done.stdout}{done.stderr}")
    return done.stdout


def make(*words: str, top: Path = support.TOP) -> None:
    """Runs make over the proved program and library."""
    if not PROVED.exists():
        support.skip(f"{PROVED} is not built: run (cd crates/labels_c && rt lib --cpu x86-64)")
    proved = (f"PROVED={PROVED}", f"PROVED_ARM64={PROVED_ARM64}")
    command_of("make", *words, f"LABELS={support.labels_program()}", *proved, cwd=top)
