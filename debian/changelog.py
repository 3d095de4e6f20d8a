#!/usr/bin/python3
"""Prints Debian's changelog of the commit HEAD, made of CHANGELOG.md.

The version is that of lib/labels.h where HEAD has its tag, as v1.0.0. Else `~gitDATE.NUMBER.COMMIT` is behind it, or
`+git..` where CHANGELOG.md has a section for it, since it is released then: it rises with each commit, which NUMBER
counts. What is under "Unreleased" is in the entry of the commit. DEBFULLNAME and DEBEMAIL name the maintainer. The
status is 1 in a clone that lacks older commits, or where CHANGELOG.md has two sections of one heading.
"""

import os
import re
import subprocess
import sys
import textwrap
from datetime import datetime, timezone
from email.utils import format_datetime
from pathlib import Path
from typing import Sequence

TOP = Path(__file__).resolve().parent.parent
MAINTAINER = f"{os.getenv('DEBFULLNAME', 'The labels project')} <{os.getenv('DEBEMAIL', 'labels@labels.invalid')}>"
VERSION = re.compile(r'^#define LABELS_VERSION "(.*)"$', re.M)
SECTION = re.compile(r"^## (\S+)(?: \((.*)\))?\n((?:(?!## ).*\n?)*)", re.M)
CHANGE = re.compile(r"^- (.*(?:\n  .*)*)", re.M)


def git(*words: str) -> str:
    """What git says of the repository, in Coordinated Universal Time."""
    environment = {**os.environ, "TZ": "UTC"}
    command = ["git", "-C", str(TOP), *words]
    return subprocess.run(command, env=environment, stdout=subprocess.PIPE, text=True, check=True).stdout.strip()


def entry(version: str, date: str, changes: Sequence[str]) -> str:
    """An entry of the changelog."""
    wrapper = textwrap.TextWrapper(width=78, initial_indent="  * ", subsequent_indent="    ", break_on_hyphens=False)
    shown = "\n".join(wrapper.fill(" ".join(change.split())) for change in changes)
    return f"labels ({version}) unstable; urgency=medium\n\n{shown}\n\n -- {MAINTAINER}  {date}\n"


def main() -> None:
    if git("rev-parse", "--is-shallow-repository") != "false":
        sys.exit("this clone lacks older commits, and the version counts them: run git fetch --unshallow")
    found = SECTION.findall((TOP / "CHANGELOG.md").read_text(encoding="utf-8"))
    sections = {heading: (day, CHANGE.findall(body)) for heading, day, body in found}
    if len(sections) < len(found):
        sys.exit("CHANGELOG.md has two sections of one heading")
    _, unreleased = sections.pop("Unreleased", ("", []))
    header = VERSION.search((TOP / "lib/labels.h").read_text(encoding="utf-8"))
    if not header:
        sys.exit("lib/labels.h has no LABELS_VERSION")
    next_one = header[1]
    entries = []
    if f"v{next_one}" not in git("tag", "--points-at", "HEAD").split():
        day, commit = git("log", "-1", "--date=format-local:%Y%m%d", "--abbrev=8", "--format=%cd %h").split()
        sign = "+" if next_one in sections else "~"
        version = f"{next_one}{sign}git{day}.{git('rev-list', '--count', 'HEAD')}.{commit}"
        date, subject = git("log", "-1", "--date=rfc-local", "--format=%cd%n%s").split("\n")
        entries.append(entry(version, date, [f"Commit {commit}: {subject}", *unreleased]))
    for version, (day, changes) in sections.items():
        midnight = datetime.fromisoformat(day).replace(tzinfo=timezone.utc)
        entries.append(entry(version, format_datetime(midnight), changes))
    print("\n".join(entries), end="")


if __name__ == "__main__":
    main()
