"""Lists of words that are data."""

from pathlib import Path

Lists = dict[str, list[str]]


def lists_of(path: Path) -> Lists:
    """Returns the lists of a file by their names, those of all sections together."""
    found: Lists = {}
    for section in lists_by_section(path).values():
        for name, words in section.items():
            found.setdefault(name, []).extend(words)
    return found


def lists_by_section(path: Path) -> dict[str, Lists]:
    """Returns the lists of a file by their sections and names. A line is `name: word word ..`, and
    goes on in lines that begin with a space; `[section]` begins a section; a line that is empty, or
    begins with `#`, is a remark.
    """
    found: dict[str, Lists] = {}
    section, name = "", ""
    for line in path.read_text(encoding="utf-8").splitlines():
        if line.startswith("["):
            section = line.strip("[]")
        elif line and not line.startswith("#"):
            if not line.startswith(" "):
                name, _, line = line.partition(": ")
            found.setdefault(section, {}).setdefault(name, []).extend(line.split())
    return found
