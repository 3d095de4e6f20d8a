#!/usr/bin/python3
"""Copies files of the repository for a package: installed_pages.py FOLDER FILE..

Each file keeps its path and whether it is a program. In a page a link to a file that is not among
them becomes its words, so that no link of the package leads nowhere.
"""

import os
import re
import sys
from pathlib import Path
from typing import Collection

# a link, whose words may be code, to a file of the repository, with or without a heading
LINK = re.compile(r"(?<!!)\[([^\[\]]+)\]\(([^()#:\s]+)(?:#[^()\s]*)?\)")


def with_links(page: str, text: str, files: Collection[str]) -> str:
    """Returns the text of a page with links only to these files."""

    def link_of(found: re.Match[str]) -> str:
        target = os.path.normpath(os.path.join(os.path.dirname(page), found[2]))
        return found[0] if target in files else found[1]

    return LINK.sub(link_of, text)


def main() -> None:
    """Copies the files."""
    folder, *files = sys.argv[1:]
    os.umask(0o022)
    for path in files:
        there = Path(folder, path)
        there.parent.mkdir(parents=True, exist_ok=True)
        data = Path(path).read_bytes()
        there.write_bytes(
            with_links(path, data.decode(), files).encode() if path.endswith(".md") else data
        )
        there.chmod(0o755 if os.access(path, os.X_OK) else 0o644)


if __name__ == "__main__":
    main()
