"""What the window keeps for the next time, in files of JSON."""

import json
import os
from contextlib import suppress
from dataclasses import dataclass
from pathlib import Path
from typing import Any

CONFIG = os.environ.get("XDG_CONFIG_HOME") or Path.home() / ".config"
FOLDER = Path(CONFIG, "labels")
MOST = 200  # values in a file
OWN = 0o600  # who may read it


@dataclass(frozen=True)
class Memory:
    """Values by their names, the newest at the end, in a file; the oldest goes if there are too
    many. What somebody has written into the file and is of another type does not count.
    """

    file: str
    kind: type

    def all(self) -> dict[str, Any]:
        """Returns what is kept; nothing if the file cannot be read."""
        with suppress(OSError, ValueError, AttributeError):
            found = json.loads((FOLDER / self.file).read_text(encoding="utf-8")).items()
            return {name: value for name, value in found if isinstance(value, self.kind)}
        return {}

    def get(self, name: str, default: Any) -> Any:
        """Returns what is kept by a name."""
        return self.all().get(name, default)

    def keep(self, name: str, value: Any) -> None:
        """Keeps a value, in place of an older one of its name; or forgets that, if it is None. A
        folder that takes no file is no reason to stop.
        """
        values = self.all()
        values.pop(name, None)
        if value is not None:
            values[name] = value
        kept = dict(list(values.items())[-MOST:])
        with suppress(OSError):
            write_own(FOLDER / self.file, json.dumps(kept, indent=1).encode())

    __setitem__ = keep


def write_own(path: Path, data: bytes) -> None:
    """Writes a file that its owner alone may read, in a folder of such files; raises `OSError`."""
    path.parent.mkdir(0o700, parents=True, exist_ok=True)
    path.parent.chmod(0o700)  # it may be older
    with open(path, "wb", opener=lambda name, how: os.open(name, how, OWN)) as file:
        os.fchmod(file.fileno(), OWN)
        file.write(data)


TABLES = Memory("window.json", dict)  # what was chosen, by the names of columns
FILES = Memory("files.json", dict)  # the words by which files were read, by their names
PRINTERS = Memory("printers.json", dict)  # what is known of printers: language, dots, roll, tray
PAPERS = Memory("papers.json", dict)  # what papers need in a printer, and where sheets begin
SHEETS = Memory("sheets.json", dict)  # sheets of the keeper's own, by their names
PRESETS = Memory("setups.json", dict)  # papers and printers, by names such as "shelf roll"
