"""The window for those who do not see it: each control has a name, as a screen reader says it."""

import json
import os
import subprocess
import tempfile
import unittest
from pathlib import Path
from typing import Any

import support

TABLE = "EAN;Name;Price;Labels\n4006381333931;Füller;0,80 €;2\n96385074;Gum;1,20 €;1\n"
FOLDS = ("More from the table", "More about the labels")
CONTROLS = frozenset(
    "push button,toggle button,combo box,spin button,text,check box,radio button,table".split(",")
)
GROUPS = ("panel", "filler")
# the captions of controls, as they are seen beside them
CAPTIONS = frozenset(
    "Code,Title,Price,How many,Text below,Prices as,Old price,Kind of code,Names in row,Printer,"
    "From label,Design,Printer takes,Resolution".split(",")
)


class Aloud(unittest.TestCase):
    def test_each_control_has_a_name(self) -> None:
        support.labels_program()
        support.needs("Xvfb", "dbus-run-session")
        parts = self.parts()
        controls = [part for part in parts if part["role"] in CONTROLS]
        self.assertGreater(len(controls), 25)
        nameless = [part for part in controls if not part["name"] and not part["captions"]]
        self.assertEqual(nameless, [])
        captions = {caption for part in controls for caption in part["captions"]}
        self.assertEqual(CAPTIONS - captions, frozenset())
        names = {part["name"] for part in controls}
        guessed = "Take back: The letters are Western European (Füller)."
        wanted = {"Recent tables", "Options", "Page or label", "Save PDF…", guessed}
        self.assertLessEqual(wanted, names)
        groups = {part["name"] for part in parts if part["role"] in GROUPS}
        self.assertIn("Labels", groups)  # of Sheet and Roll

    def parts(self) -> list[dict[str, Any]]:
        """The parts of a window with a table, and with each of its folds open in turn."""
        with tempfile.TemporaryDirectory() as folder:
            path = Path(folder, "a.csv")
            path.write_bytes(TABLE.encode("cp1252"))  # which the window guesses, and says
            reading, writing = os.pipe()
            words = f"Xvfb -displayfd {writing} -screen 0 1280x900x24 -nolisten tcp".split()
            with subprocess.Popen(words, pass_fds=[writing], stderr=subprocess.DEVNULL) as screen:
                os.close(writing)
                with os.fdopen(reading) as file:
                    display = f":{file.readline().strip()}"
                try:
                    return self.read(path, DISPLAY=display, XDG_CONFIG_HOME=folder)
                finally:
                    screen.terminate()

    def read(self, table: Path, **variables: str) -> list[dict[str, Any]]:
        """What a screen reader finds on a screen, with a bus of its own."""
        tool = str(support.TOOLS / "label-window")
        script = str(support.TESTS / "aloud.py")
        command = ["/usr/bin/python3", script, "labels from", *FOLDS, "--", tool, str(table)]
        environment = {**support.environment(), "GDK_BACKEND": "x11", "LANGUAGE": "en", **variables}
        environment.pop("NO_AT_BRIDGE", None)
        environment.pop("DBUS_SESSION_BUS_ADDRESS", None)
        ran = subprocess.run(
            ["dbus-run-session", "--", *command],
            env=environment,
            stdout=subprocess.PIPE,
            stderr=subprocess.DEVNULL,
            timeout=support.SECONDS,
        )
        self.assertEqual(ran.returncode, 0)
        # the bus of screen readers writes there, too
        return [json.loads(line) for line in ran.stdout.splitlines() if line.startswith(b"{")]


if __name__ == "__main__":
    unittest.main()
