"""What the tests of the scripts share: how a command is run, a folder of its own, a copy of the repository.

They are run by `python3 -m unittest discover -s scripts/tests`. The kit is needed; no third-party tool and no built
program is: where a script calls one, a stand-in of a few lines is put on the path.
"""

import contextlib
import functools
import importlib
import io
import json
import os
import shutil
import string
import subprocess
import sys
import tempfile
import tomllib
import unittest
from typing import Any, Callable
from unittest import mock

sys.path.insert(0, os.path.dirname(os.path.dirname(os.path.abspath(__file__))))
# A script of scripts/ as a module, by its name.
module = importlib.import_module
sources = module("sources")
TOP, PYTHON, SCRIPTS = sources.TOP, sources.PYTHON, f"{sources.TOP}/scripts"
read: Callable[[str], str] = sources.read
run_command: Callable[..., tuple[int, str]] = functools.partial(sources.run, folder="/")
# A test that takes seconds of a processor: `make quick` leaves it to the gate, which runs all.
slow = unittest.skipIf(os.environ.get("QUICK"), "takes seconds: the gate runs it")


def cases_of(test: str, **values: str) -> dict[str, Any]:
    """The tables of the file of cases beside a test. In these, $NAME between double quotes stands for a value."""
    quoted = {name: json.dumps(value, ensure_ascii=False)[1:-1] for name, value in values.items()}
    return tomllib.loads(string.Template(read(f"{SCRIPTS}/tests/{test}.toml")).safe_substitute(quoted))


def in_copy(folder: str, name: str, *arguments: str) -> tuple[int, str]:
    """The status of a script of this repository over a copy of it, and all that it prints. It runs in this process,
    which has read the files before: it reads what is changed in the copy."""
    said = io.StringIO()
    words = mock.patch.object(sys, "argv", [name, *arguments])
    with mock.patch.object(sources, "TOP", folder), words:
        with contextlib.redirect_stdout(said), contextlib.redirect_stderr(said):
            os.chdir(folder)
            try:
                status = int(module(name.removesuffix(".py")).main())
            except SystemExit as end:
                status = end.code if isinstance(end.code, int) else 1
                print("" if isinstance(end.code, int) else end.code)
            finally:
                os.chdir(TOP)
    return status, said.getvalue()


def write(path: str, text: str, is_program: bool = False) -> None:
    sources.write(path, text)
    if is_program:
        os.chmod(path, 0o755)


class InFolder(unittest.TestCase):
    """A test with a folder of its own."""

    def setUp(self) -> None:
        self.folder = tempfile.mkdtemp(prefix="test-scripts-")
        self.addCleanup(shutil.rmtree, self.folder)

    def path(self, *names: str) -> str:
        return os.path.join(self.folder, *names)


@functools.cache
def copied() -> str:
    """A copy of the repository for all tests of a file, each of which undoes its changes."""
    folder = tempfile.mkdtemp(prefix="test-copy-")
    unittest.addModuleCleanup(shutil.rmtree, folder)
    left_out = (f"--exclude={name}" for name in ("out", ".git", "__pycache__"))
    with subprocess.Popen(["tar", "-c", "-C", TOP, *left_out, "."], stdout=subprocess.PIPE) as files:
        subprocess.run(["tar", "-x", "-C", folder], stdin=files.stdout, check=True)
    return folder


class InCopy(unittest.TestCase):
    """Tests in a copy of the repository."""

    def path(self, *names: str) -> str:
        return os.path.join(copied(), *names)

    def judged(self, name: str, *arguments: str) -> tuple[int, str]:
        """The status of a script over the copy, and all that it prints."""
        return in_copy(copied(), name, *arguments)

    def replace(self, file: str, text: str) -> None:
        """Writes a file until the end of this test."""
        self.addCleanup(write, self.path(file), read(self.path(file)))
        write(self.path(file), text)

    def fails(self, step: str, *changes: tuple[str, str, str, str]) -> str:
        """What a step says, which has to fail, where files are changed together, each by a new text in the place of
        the first old one, or at its end: it has to say what is last of each change."""
        texts: dict[str, str] = {}
        for file, old, new, _ in changes:
            text = texts.get(file) or read(self.path(file))
            self.assertIn(old, text)
            texts[file] = text.replace(old, new, 1) if old else text + new
        for file, text in texts.items():
            self.replace(file, text)
        status, said = self.judged(*step.split())
        self.doCleanups()
        self.assertEqual((status, [wanted for *_, wanted in changes if wanted not in said]), (1, []), said)
        return said
