"""What the names of places in a design of a user's own say.

    title, bold, middle     a text: the part, then how it is written
    code-2, qr, level=Q     a symbol of the part's text, and its settings
"""

import re
from dataclasses import replace
from typing import Any
from xml.etree.ElementTree import Element

from labeltools.common.messages import quoted, ToolError
from labeltools.common.text import Text
from labeltools.designs.svg_page import SPACE
from labeltools.layout.place import key_of, Place
from labeltools.lines.symbologies import SYMBOLOGIES

# where programs write the name that was typed; ids have no spaces and commas in many of them
WRITTEN = (
    "data-place",
    "{http://www.inkscape.org/namespaces/inkscape}label",
    "{http://www.serif.com/}id",
    "data-name",
)
ESCAPED = re.compile("_x(?!D[89A-F])([0-9A-F]{2,4})_", re.IGNORECASE)  # in ids: _x2C_ is a comma
# names that programs give by themselves
UNNAMED = re.compile(
    r"(?:(?:artboard|background_?rect|canvas_background|(?:rounded[\s_-]*)?rect(?:angle)?|rechteck)"
    r"(?:[\s_-]*(?:copy|kopie))?|(?:shape|id|svg)(?=[\s_.-]*\d))?[\s_\d.-]*",
    re.IGNORECASE,
)
MADE = re.compile(r"text_\d+")  # ids of groups of matplotlib
BLANKS = " _-"
LENGTH = re.compile(r"\d{1,3}(?:\.\d{1,3})?", re.ASCII)
NUMBERS = {"module": LENGTH, "size": LENGTH, "least": LENGTH, "lines": re.compile("[0-9]{1,2}")}
WHERE: dict[str, dict[str, Any]] = {  # a text or a symbol is in its place
    "left": {"across": -1},
    "middle": {"across": 0},
    "right": {"across": 1},
    "top": {"down": 0.0},
    "centre": {"down": 0.5},
    "bottom": {"down": 1.0},
}
WORDS = {**WHERE, "bold": {"is_bold": True}}  # of texts


def written_name(element: Element) -> str:
    """Returns the name of an element with what is behind it.

    >>> written_name(Element("rect", {"id": "title_x2C__bold"}))
    'title,_bold'
    """
    given = element.get("id", "")
    typed = next(filter(None, map(element.get, WRITTEN)), "")
    if not typed and element.tag == f"{SPACE}g" and MADE.fullmatch(given):
        return ""
    return typed or ESCAPED.sub(lambda found: chr(int(found[1], 16)), given)


def title_of(element: Element) -> str:
    """Returns the name of an element; nothing for one that a program gave by itself."""
    title = written_name(element).split(",")[0].strip(BLANKS)
    return "" if UNNAMED.fullmatch(title) else title


def place_of(file: str, element: Element) -> Place:
    """Returns the place of a rectangle, without its sides; raises `ToolError` where it has two
    names, and for a word that means nothing. Some programs write a blank in an id as _ or -.
    """
    written = written_name(element)
    for other in filter(None, map(element.get, WRITTEN)):
        if key_of(other) != key_of(written):
            what = Text("{}: a rectangle is named {} and {}", file, quoted(written), quoted(other))
            hint = Text("make its label and its data-place alike, or remove one")
            raise ToolError(what, hint)
    title, *words = (" ".join(word.split()).strip(BLANKS) for word in written.split(","))
    is_symbol = Place(title).is_symbol or any(word.casefold() in SYMBOLOGIES for word in words)
    place = Place(title, across=0 if is_symbol else -1)
    for word in filter(None, words):
        changes = changes_of(place, word, is_symbol)
        if not changes:
            what = Text("{}: {}: {} is not understood", file, quoted(written), quoted(word))
            raise ToolError(what, known_words(place, is_symbol))
        place = replace(place, **changes)
    return place


def changes_of(place: Place, word: str, is_symbol: bool) -> dict[str, Any]:
    """Returns what a word behind the name of a symbol, or of a text, changes in its place; nothing
    where it means nothing there.
    """
    key, _, value = (side.strip() for side in word.partition("="))
    key = key.casefold()
    if word.casefold() in SYMBOLOGIES:
        return {"symbology": word.casefold()}
    if key in NUMBERS and (key == "module") == is_symbol:
        is_number = NUMBERS[key].fullmatch(value) and float(value) > 0
        return {key: float(value)} if is_number else {}
    if is_symbol and place.symbology and key in SYMBOLOGIES[place.symbology].settings:
        return {"settings": (*place.settings, f"{key}={value.upper()}")}
    if not is_symbol and key == "font" and value:
        return {"font": value.replace("_", " ")}
    return (WHERE if is_symbol else WORDS).get(word.casefold(), {})


def known_words(place: Place, is_symbol: bool) -> Text:
    """Returns what may be behind the name of a symbol, or of a text."""
    if not is_symbol:
        known = [*WORDS, "font=NAME", "size=N", "least=N", "lines=N", *SYMBOLOGIES]
        return Text("after the name of a text only these words are allowed: {}", ", ".join(known))
    settings = SYMBOLOGIES[place.symbology].settings if place.symbology else ()
    known = [*WHERE, *SYMBOLOGIES, "module=N", *(f"{name}=N" for name in settings)]
    return Text("after the name of a symbol only these words are allowed: {}", ", ".join(known))
