#!/usr/bin/python3
"""Prints what a screen reader finds in a window: a line of JSON for each part that is shown, with
its role, its name and its captions. The arguments are a text in the window, once it has its labels,
the names of folds that are opened in turn then, `--`, and the command that opens the window.
"""

import json
import subprocess
import sys
import time
from typing import Any, Iterator

import support
from labeltools.layout.pango import gi_library

SECONDS = 120.0  # until something is there, on a busy machine
PATIENCE = 120_000  # milliseconds until a window answers; it is less than one by itself
Atspi = gi_library("Atspi", "2.0")


def parts() -> Iterator[Any]:
    """Yields all parts that are shown in the windows that are there."""
    desktop = Atspi.get_desktop(0)
    for number in range(desktop.get_child_count()):
        program = desktop.get_child_at_index(number)
        for place in range(program.get_child_count() if program else 0):
            yield from within(program.get_child_at_index(place))


def within(part: Any) -> Iterator[Any]:
    """Yields a part, and all that is shown in it."""
    if part is not None and part.get_state_set().contains(Atspi.StateType.SHOWING):
        yield part
        for number in range(part.get_child_count()):
            yield from within(part.get_child_at_index(number))


def found(wanted: str) -> Any:
    """Returns the part whose name has a text, once it is there."""
    end = time.monotonic() + SECONDS
    while time.monotonic() < end:
        there = next((part for part in parts() if wanted in part.get_name()), None)
        if there is not None:
            return there
        time.sleep(0.2)
    raise SystemExit(f"there is no {wanted}")


def captions_of(part: Any) -> list[str]:
    """Returns the captions that a part is labelled by."""
    return [
        relation.get_target(number).get_name()
        for relation in part.get_relation_set()
        if relation.get_relation_type() == Atspi.RelationType.LABELLED_BY
        for number in range(relation.get_n_targets())
    ]


def main() -> None:
    """Opens the window, and prints its parts."""
    between = sys.argv.index("--")
    wanted, *folds = sys.argv[1:between]
    program = subprocess.Popen(sys.argv[between + 1 :])
    Atspi.init()
    Atspi.set_timeout(PATIENCE, PATIENCE)
    try:
        found(wanted)
        for fold in folds:
            found(fold).get_action_iface().do_action(0)
            time.sleep(1.0)
            for part in parts():
                line = {"role": part.get_role_name(), "name": part.get_name()}
                print(json.dumps({**line, "captions": captions_of(part)}))
            found(fold).get_action_iface().do_action(0)  # else what is below is not seen
    finally:
        program.terminate()
        program.wait(support.SECONDS)


if __name__ == "__main__":
    main()
