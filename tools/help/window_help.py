#!/usr/bin/python3
"""Makes the help, pages of HTML: window_help.py FOLDER, such as /usr/share/help

For label-window a page for each language, from docs/WINDOW.md and its translations beside this
file. For label-tools the pages for shop keepers, in English, to which those of the window lead.
"""

import base64
import os
import re
import sys
from pathlib import Path
from typing import Iterable, Iterator

from markdown_it import MarkdownIt
from markdown_it.token import Token

HERE = Path(__file__).resolve().parent
TOP = HERE.parents[1]
WINDOW = "docs/WINDOW.md"
# the pages for shop keepers
NAMES = "window table lines printing sheets rolls tickets scanning recipes".split()
SHOP = {
    **{f"docs/{name.upper()}.md": f"{name}.html" for name in NAMES},
    "designs/README.md": "designs.html",
}
SHOP_FOLDER = "C/label-tools"
WINDOW_PAGE = "{}/label-window/index.html"
LINKS = ("link_open", "link_close")
MARKDOWN = MarkdownIt().enable("table")
PAGE = """<!DOCTYPE html>
<html lang="{language}">
<meta charset="utf-8">
<title>{title}</title>
<style>
body {{ max-width: 45em; margin: 2em auto; padding: 0 1em; font: 1em/1.5 sans-serif }}
img {{ max-width: 100% }}
li {{ margin: 0.5em 0 }}
pre {{ overflow-x: auto; background: #f4f4f4; padding: 0.5em }}
table {{ border-collapse: collapse }}
th, td {{ border: 1px solid #bbb; padding: 0.3em 0.6em; text-align: left; vertical-align: top }}
</style>
{body}</html>
"""


def pages() -> dict[str, str]:
    """Returns the text of the page about the window in each language."""
    paths = {"C": TOP / WINDOW, **{path.stem: path for path in sorted(HERE.glob("??.md"))}}
    return {language: path.read_text(encoding="utf-8") for language, path in paths.items()}


def anchor_of(heading: str) -> str:
    """Returns the name by which links lead to a heading."""
    return re.sub(r"[^\w\- ]", "", heading.lower()).replace(" ", "-")


def target_of(page: str, link: str, place: str) -> str | None:
    """Returns where a link of a page leads from the folder of its HTML, or None if the help does
    not have that page."""
    path, sign, anchor = link.partition("#")
    file = SHOP.get(os.path.normpath(os.path.join(os.path.dirname(page), path))) if path else ""
    if file is None:
        return None
    return (os.path.relpath(f"{SHOP_FOLDER}/{file}", place) if file else "") + sign + anchor


def with_links(page: str, tokens: Iterable[Token], place: str) -> Iterator[Token]:
    """Yields the parts of a line; links to what the help does not have are only their words."""
    is_link = False
    for token in tokens:
        if token.type == "link_open":
            target = target_of(page, str(token.attrs["href"]), place)
            is_link = target is not None
            token.attrs["href"] = target or ""
        if token.type not in LINKS or is_link:
            yield token


def html_of(language: str, page: str, text: str, place: str) -> str:
    """Returns a page as HTML for a folder of the help. Its pictures are in it."""
    tokens = MARKDOWN.parse(text)
    for before, token in zip(tokens, tokens[1:]):
        if before.type == "heading_open":
            before.attrs["id"] = anchor_of(token.content)
        token.children = [*with_links(page, token.children or [], place)]
        for image in (part for part in token.children if part.type == "image"):
            picture = TOP / os.path.dirname(page) / str(image.attrs["src"])
            image.attrs[
                "src"
            ] = f"data:image/png;base64,{base64.b64encode(picture.read_bytes()).decode()}"
    title = text.split("\n", 1)[0].removeprefix("# ")
    body = MARKDOWN.renderer.render(tokens, MARKDOWN.options, {})
    return PAGE.format(language=language.replace("C", "en"), title=title, body=body)


def main() -> None:
    """Writes all pages into a folder."""
    folder = Path(sys.argv[1])
    texts = {WINDOW_PAGE.format(name): (name, WINDOW, text) for name, text in pages().items()}
    for page, name in SHOP.items():
        texts[f"{SHOP_FOLDER}/{name}"] = ("C", page, (TOP / page).read_text(encoding="utf-8"))
    for name, (language, page, text) in texts.items():
        file = folder / name
        file.parent.mkdir(parents=True, exist_ok=True)
        file.write_text(html_of(language, page, text, os.path.dirname(name)), encoding="utf-8")


if __name__ == "__main__":
    main()
