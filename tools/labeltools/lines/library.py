"""The proved library liblabels, as it is built or installed."""

import os
import sys
from functools import cache
from pathlib import Path
from typing import Any

from labeltools.common.messages import ToolError
from labeltools.common.text import Text

MAJOR = "1"  # the version of the library that these tools know: later ones of it can do no less
LIBRARY = "LABELS_LIBRARY"  # the variable that names another library
NAME = f"liblabels.so.{MAJOR}"
INSTALLED = ("share", "label-tools", "labeltools")  # behind PREFIX
INSTALL = Text("install python3-liblabels with the tools, or name the library in $LABELS_LIBRARY")


@cache
def labels_library() -> Any:
    """Returns the module liblabels with its library: that of $LABELS_LIBRARY, or else those that
    were installed or built with this package, or else those of the system. Raises `ToolError` where
    they are not there, or of another version.
    """
    module, library = own_files(Path(__file__).resolve().parents[1])
    if (module / "liblabels").is_dir() and str(module) not in sys.path:
        sys.path.append(str(module))
    if library is not None:
        os.environ.setdefault(LIBRARY, str(library))
    try:
        import liblabels
    except (ImportError, OSError) as error:
        raise ToolError(
            Text("the library liblabels cannot be loaded: {}", error), INSTALL
        ) from error
    found: str = liblabels.version()
    if found.partition(".")[0] != MAJOR:
        what = Text("liblabels is version {}, and these tools are another one", found)
        hint = Text("install the tools and python3-liblabels of one version, {}", MAJOR)
        raise ToolError(what, hint)
    return liblabels


def own_files(package: Path) -> tuple[Path, Path | None]:
    """Returns the folder of the module and the library, if it is there, that belong to this package
    as it is installed, or in its sources: never what lies beside the sources, where others may
    write.
    """
    prefix = package.parents[2]
    if package.parts[-3:] == INSTALLED:
        library = prefix / "lib" / NAME
        return prefix / "lib/python3/dist-packages", library if library.exists() else None
    sources = package.parents[1]
    built = sorted((sources / "out/lib").glob(f"{NAME}.*"))  # of its whole version
    return sources / "lib/python", built[0] if built else None
