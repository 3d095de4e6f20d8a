#!/usr/bin/python3
"""Goes through a window with a table by keys alone, as a keyboard sends them: saves a file, opens what is
folded, goes through all controls by Tab, presses Alt with each letter, and prints on a printer whose
address it types. It prints JSON: the names of what had the focus by Tab, and by each letter.

The arguments are what is waited for and what is typed, as JSON, and behind `--` the command that opens the
window.
"""

import json
import subprocess
import sys
import time
from collections.abc import Callable
from typing import Any

import support
from aloud import captions_of, parts, PATIENCE, SECONDS
from labeltools.layout.pango import gi_library

Atspi, Gdk, GLib = gi_library("Atspi", "2.0"), gi_library("Gdk", "3.0"), gi_library("GLib", "2.0")
BEAT = 0.02  # seconds between two looks
ALT, CONTROL = 64, 37  # the codes of keys
MOST = 100  # controls in turn
ABOVE = 3  # parts in which the one is that has the focus: a list has a button without a name
focused: list[Any] = []  # what had the focus, the last one at the end


def on_focus(event: Any) -> None:
    """Keeps what has the focus now."""
    if event.detail1:
        focused.append(event.source)


def press(key: str, held: int = 0) -> None:
    """Presses a key and lets it go, while another one may be held."""
    if held:
        Atspi.generate_keyboard_event(held, None, Atspi.KeySynthType.PRESS)
    Atspi.generate_keyboard_event(Gdk.keyval_from_name(key), None, Atspi.KeySynthType.SYM)
    if held:
        Atspi.generate_keyboard_event(held, None, Atspi.KeySynthType.RELEASE)


def until(find: Callable[[], Any], what: str) -> Any:
    """Waits until something is found, and returns it."""
    end = time.monotonic() + SECONDS
    while time.monotonic() < end:
        while GLib.MainContext.default().iteration(False):
            pass
        if found := find():
            return found
        time.sleep(BEAT)
    raise SystemExit(f"waited in vain for {what}, at {names_of(focused[-1:])}")


def parts_with(text: str) -> list[Any]:
    """The parts that are shown whose names have a text."""
    return [part for part in parts() if text in (part.get_name() or "")]


def is_selected(part: Any) -> bool:
    """Whether a row of a list is selected."""
    return bool(part.get_state_set().contains(Atspi.StateType.SELECTED))


def is_sensitive(part: Any) -> bool:
    """Whether a part can be used."""
    return bool(part.get_state_set().contains(Atspi.StateType.SENSITIVE))


def height_of(part: Any) -> int:
    """How high a part is, in pixels."""
    return int(Atspi.Component.get_extents(part, Atspi.CoordType.WINDOW).height)


def name_of(part: Any, above: int = ABOVE) -> str:
    """The name of a part, as a screen reader says it: of its captions, its own, or of what it is in."""
    name = " ".join([*captions_of(part), part.get_name() or ""]).strip()
    return name or (name_of(part.get_parent(), above - 1) if above else "")


def names_of(found: list[Any]) -> list[str]:
    """The names of parts."""
    return [name_of(part) for part in found]


def go(key: str, held: int = 0) -> str:
    """Presses a key that moves the focus; returns the name of what has it then."""
    before = focused[-1:]
    press(key, held)
    until(lambda: focused[-1:] != before, f"what has the focus behind {key}")
    return name_of(focused[-1])


def in_turn(folds: list[str]) -> list[str]:
    """What the Tab key leads to, until it is where it began; folds are opened on the way."""
    found = [go("Tab")]
    while len(found) < MOST and (name := go("Tab")) != found[0]:
        found.append(name)
        if name in folds:
            fold, before = focused[-1], height_of(focused[-1])
            press("space")
            until(lambda: height_of(fold) > before, f"what is in {name}")
    return found


def save(said: str, happened: str) -> None:
    """Saves a file by the name that is proposed, and waits until the window has a list of what happened."""
    press("s", CONTROL)
    until(is_typed(said), "the name of the file")
    press("Return")
    until(lambda: any(map(is_sensitive, parts_with(happened))), happened)


def is_typed(text: str) -> Callable[[], bool]:
    """Whether a field with a text has the focus."""
    return lambda: any(
        part.get_role() == Atspi.Role.TEXT and Atspi.Text.get_text(part, 0, -1) == text
        for part in focused[-1:]
    )


def print_on(wanted: dict[str, Any]) -> None:
    """Adds a printer in the network, and prints on it."""
    go(wanted["printer"], ALT)
    press("Down", ALT)
    until(lambda: parts_with(wanted["add"]), "the list")
    press("Up")
    until(lambda: any(map(is_selected, parts_with(wanted["add"]))), wanted["add"])
    press("Return")
    until(is_typed(""), "the field for the address")
    Atspi.generate_keyboard_event(0, wanted["address"], Atspi.KeySynthType.STRING)
    until(is_typed(wanted["address"]), wanted["address"])
    press("Return")
    until(lambda: parts_with(wanted["print"]), wanted["print"])
    go("p", CONTROL)
    press("Return")
    until(lambda: parts_with(wanted["printed"]), wanted["printed"])


def main() -> None:
    """Opens the window, and goes through it."""
    between = sys.argv.index("--")
    wanted = json.loads(sys.argv[1])
    Atspi.init()
    Atspi.set_timeout(PATIENCE, PATIENCE)
    Atspi.EventListener.new(on_focus).register("object:state-changed:focused")
    program = subprocess.Popen(sys.argv[between + 1 :])
    try:
        until(lambda: parts_with(wanted["made"]), wanted["made"])
        save(wanted["saved"], wanted["happened"])
        print(json.dumps(in_turn(wanted["folds"])), flush=True)
        print(json.dumps([go(letter, ALT) for letter in wanted["letters"]]), flush=True)
        print_on(wanted)
    finally:
        program.terminate()
        program.wait(support.SECONDS)


if __name__ == "__main__":
    main()
