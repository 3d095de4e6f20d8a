"""The window by keys alone, as a keyboard sends them to a display: in each language all is reached, in the
order in which it is seen, and labels are saved and printed. It is run by hand, on a computer that does
nothing else, since keys that are sent while the window is slow come out of step:

    python3 -m unittest discover -s tools/tests -p trial_keys.py
"""

import gettext
import json
import os
import subprocess
import tempfile
import unittest
from collections.abc import Callable, Iterator
from pathlib import Path
from typing import Any
from xml.etree import ElementTree

import support
import test_german
from printers import Printer

TABLE = "EAN;Name;Price;Labels\n4006381333931;Füller;0,80 €;2\n96385074;Gum;1,20 €;1\n4006381333932;wrong;2;1\n"
COLUMNS = "--header-row 1 --code 1 --title 2 --price 3 --copies 4".split()
FOLDS = ["More from the table", "More about the labels"]
# the names of what has the focus in turn, as far as they are of the window: values follow them
OF_TABLE = "_Code,_Title,P_rice,How _many,More from the table,Text _below,Second text,Prices _as"
OF_TABLE += ",_Unit price,Ol_d price,_Kind of code,Names in ro_w,Opt_ions"
OF_PRINTING = "Print_er,S_heet,Ro_ll,Name of the sheet of labels,Till,More about the labels"
OF_PRINTING += ",_From label,Desi_gn,Line below,Move by,Millimetres down,White edge,Printer takes"
OF_PRINTING += ",Re_solution,Optio_ns,Page or label"
IN_TURN = f"{OF_TABLE},{OF_PRINTING}".split(",")
BEHIND = ["_Open…", "Recent tables", "Sa_ve {form}…", "What happened", "Menu"]


class Keys(unittest.TestCase):
    def test_all_is_done_by_keys(self) -> None:
        support.labels_program()
        support.needs("Xvfb", "dbus-run-session", "msgfmt")
        for language in ("en", *test_german.LANGUAGES):
            with self.subTest(language), tempfile.TemporaryDirectory() as folder:
                self.check(language, Path(folder))

    def check(self, language: str, folder: Path) -> None:
        """Goes through a window in a language, and compares what is saved and printed with what the
        commands write.
        """
        speaking = support.speaking(language, folder)
        self.words = gettext.translation(
            "label-tools", speaking.get("LABELS_LOCALE"), [language], fallback=True
        )
        table = folder / "k.csv"
        table.write_text(TABLE)
        printer = Printer().start()
        self.addCleanup(printer.off)
        letters = {letter_of(caption): caption for caption in self.captions()}
        wanted = self.wanted(printer.name.removeprefix("tcp://"), list(letters))
        in_turn, led = self.gone_through(wanted, table, speaking)
        self.assertEqual(starts(in_turn[1:], IN_TURN, self.said), [], in_turn)
        self.assertEqual(in_turn[-len(BEHIND) :], [*map(self.said, BEHIND)])
        self.assertEqual(starts(led, [*letters.values()], plain), [])
        self.assertGreater(len(letters), 12)
        lines = support.run("label-table", *COLUMNS, "--", table).stdout
        for words, data in (
            (["--stock", "Avery L7160", "--dpi", "600"], (folder / wanted["saved"]).read_bytes()),
            (["--paper", "60x40", "--to", "zpl", "--dpi", "203"], b"".join(printer.labels)),
        ):
            self.assertEqual(data, support.run("label-print", *words, input=lines).stdout, words)

    def said(self, text: str) -> str:
        """A text as the window says it."""
        return plain(self.words.gettext(text)).replace("{form}", "PDF")

    def captions(self) -> Iterator[str]:
        """Yields the captions of controls of the window that have a key of any keyboard; `ö` and `é`
        are on those of their countries.
        """
        tree = ElementTree.parse(support.TOOLS / "labeltools/window/window.ui")
        (shown,) = (part for part in tree.iter("template"))
        for part in shown.iter("object"):
            if part.find("property[@name='mnemonic-widget']") is not None:
                text = self.words.gettext(str(part.findtext("property[@name='label']")))
                if "_" in text and letter_of(text).isascii():
                    yield text

    def wanted(self, address: str, letters: list[str]) -> dict[str, Any]:
        """What is waited for, and typed."""
        printed = self.words.ngettext(
            "{} label is printed on {}.", "{} labels are printed on {}.", 3
        )
        return {
            "made": "1,20",  # of the prices that are counted
            "saved": f"k-{self.said('labels')}.pdf",
            "happened": self.said("What happened"),
            "folds": [*map(self.said, FOLDS)],
            "letters": letters,
            "printer": letter_of(self.words.gettext("Print_er")),
            "add": self.said("Network printer…"),
            "address": address,
            "print": self.said("_Print…"),
            "printed": printed.format(3, address),
        }

    def gone_through(
        self, wanted: dict[str, Any], table: Path, speaking: dict[str, str]
    ) -> tuple[list[str], list[str]]:
        """What has the focus in turn, and by each letter, on a screen and a bus of their own."""
        reading, writing = os.pipe()
        # a key is not repeated, however late it is let go
        screen = f"Xvfb -displayfd {writing} -screen 0 1280x900x24 -nolisten tcp -r".split()
        script = str(support.TESTS / "keyboard.py")
        command = ["/usr/bin/python3", script, json.dumps(wanted), "--"]
        command += [str(support.TOOLS / "label-window"), str(table)]
        with subprocess.Popen(screen, pass_fds=[writing], stderr=subprocess.DEVNULL) as shown:
            os.close(writing)
            with os.fdopen(reading) as file:
                display = f":{file.readline().strip()}"
            own = {"DISPLAY": display, "GDK_BACKEND": "x11", "CUPS_SERVER": "/nonexistent"}
            own |= {"XDG_CONFIG_HOME": str(table.parent), "XDG_DATA_HOME": str(table.parent)}
            environment = {**speaking, **own, "GSETTINGS_BACKEND": "memory"}
            for name in ("NO_AT_BRIDGE", "DBUS_SESSION_BUS_ADDRESS"):
                environment.pop(name, None)
            how: Any = {"env": environment, "capture_output": True, "timeout": support.SECONDS}
            try:
                ran = subprocess.run(["dbus-run-session", "--", *command], **how)
            finally:
                shown.terminate()
        self.assertEqual(ran.returncode, 0, ran.stderr.decode()[-800:])
        # the bus of screen readers writes there, too
        in_turn, led = (json.loads(line) for line in ran.stdout.splitlines() if line[:1] == b"[")
        return in_turn, led


def letter_of(text: str) -> str:
    """The letter of the key of a text."""
    return text[text.index("_") + 1].lower()


def plain(text: str) -> str:
    """A text without the mark of its key."""
    return text.replace("_", "")


def starts(found: list[str], wanted: list[str], said: Callable[[str], str]) -> list[str]:
    """The names that do not start with those that are wanted there."""
    pairs = zip(found, wanted, strict=False)
    wrong = [f"{name} for {text}" for name, text in pairs if not name.startswith(said(text))]
    return wrong + [*wanted[len(found) :]]


if __name__ == "__main__":
    unittest.main()
