"""The help: of label-window a page in each language, whose steps name controls as the screen does, and
the pages for shop keepers, to which it leads."""

import gettext
import importlib.util
import os
import re
import subprocess
import tempfile
import unittest
from io import BytesIO
from pathlib import Path
from typing import Iterator

import support

SOURCE = support.TOOLS / "help/window_help.py"
UI = (support.TOOLS / "labeltools/window/window.ui").read_text(encoding="utf-8")
MENU = (support.TOOLS / "labeltools/window/presets.py").read_text(encoding="utf-8")
ON_SCREEN = (*re.findall('translatable="yes">([^<]+)<', UI), *re.findall(r'_\("([^"]+)"\)', MENU))
SPEC = importlib.util.spec_from_file_location("window_help", SOURCE)
assert SPEC and SPEC.loader
window_help = importlib.util.module_from_spec(SPEC)
SPEC.loader.exec_module(window_help)


def translation(language: str) -> gettext.NullTranslations:
    """The texts of a language; English ones are as they are."""
    source = support.TOOLS / f"po/{language}.po"
    if not source.exists():
        return gettext.NullTranslations()
    made = subprocess.run(["msgfmt", "-o", "-", source], capture_output=True, check=True).stdout
    return gettext.GNUTranslations(BytesIO(made))


def plain(text: str) -> str:
    """The name of a control without its key and the dots after it."""
    return text.replace("_", "").rstrip("…").strip().lower()


def unknown_names(language: str, page: str) -> Iterator[str]:
    """The bold words of a page that no control has."""
    translated = translation(language).gettext
    texts = {plain(translated(text)) for text in ON_SCREEN}
    for name in re.findall(r"\*\*(.+?)\*\*", page, re.DOTALL):
        if plain(" ".join(name.split())) not in texts:
            yield name


def html_name(page: str) -> str:
    """The name of the heading of a page, as links have it."""
    return f'"{window_help.anchor_of(page[2:].splitlines()[0])}"'


def linked_from(path: Path) -> Iterator[Path]:
    """The pages to which a page leads."""
    for link in re.findall(r'\bhref="([^"#]+)', path.read_text(encoding="utf-8")):
        yield Path(os.path.normpath(path.parent / link))


class Help(unittest.TestCase):
    def test_each_language_has_the_page(self) -> None:
        pages = window_help.pages()
        languages = {"C", *(path.stem for path in (support.TOOLS / "po").glob("*.po"))}
        self.assertEqual({*pages}, languages)
        for page in pages.values():
            for part in ("^## ", r"^\d\. ", r"^!\["):
                counts = {len(re.findall(part, text, re.M)) for text in (page, pages["C"])}
                self.assertEqual(len(counts), 1, part)

    def test_controls_are_named_as_the_screen_does(self) -> None:
        for language, page in window_help.pages().items():
            self.assertEqual([*unknown_names(language, page)], [], language)
            self.assertEqual([*unknown_names(language, f"{page} **No control**")], ["No control"])

    def test_pictures_are_in_the_pages_and_links_lead_to_headings(self) -> None:
        with tempfile.TemporaryDirectory() as folder:
            subprocess.run([SOURCE, folder], check=True)
            texts = {
                path: path.read_text(encoding="utf-8") for path in Path(folder).rglob("*.html")
            }
        for language, page in window_help.pages().items():
            html = texts[Path(folder, language, "label-window/index.html")]
            self.assertIn(f"<h1 id={html_name(page)}>{page[2:].splitlines()[0]}</h1>", html)
        for path, html in texts.items():
            for source in re.findall(r'\bsrc="([^"]{,22})', html):
                self.assertEqual(source, "data:image/png;base64,")
            for link in re.findall(r'\bhref="([^"]*)"', html):
                file, _, anchor = link.partition("#")
                there = texts[Path(os.path.normpath(path.parent / file)) if file else path]
                self.assertIn(f'id="{anchor}"' if anchor else "<h1", there, f"{path.name}: {link}")

    def test_the_help_of_the_window_leads_to_each_page(self) -> None:
        """By links from page to page, in each language."""
        with tempfile.TemporaryDirectory() as folder:
            subprocess.run([SOURCE, folder], check=True)
            wanted = {*Path(folder, "C/label-tools").iterdir()}
            for language in window_help.pages():
                found = {Path(folder, language, "label-window/index.html")}
                for _ in wanted:
                    found |= {target for path in found for target in linked_from(path)}
                self.assertEqual(wanted - found, set(), language)


if __name__ == "__main__":
    unittest.main()
