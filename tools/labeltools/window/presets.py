"""Presets: papers and printers by their names, which the menu of the window lists."""

from collections.abc import Iterable
from functools import partial
from typing import Any, TYPE_CHECKING

from labeltools.common.language import _
from labeltools.window.choices import kept_of, values_kept
from labeltools.window.gtk import add_actions, confirmed, Gio, GLib
from labeltools.window.memory import PRESETS
from labeltools.window.owners import PRINT, ROLL

if TYPE_CHECKING:
    from labeltools.window.window import Window


def add_presets(window: "Window") -> None:
    """Adds the presets to the menu of a window."""
    add_actions(window, {"keep-preset": partial(ask_for_name, window)})
    forget = partial(PRESETS.keep, value=None)
    add_actions(window, {"preset": partial(use, window), "forget-preset": forget}, "s")
    menu = window.widgets.presets_menu
    window.widgets.menu_button.connect("toggled", lambda _button: fill_menu(menu))
    fill_menu(menu)


def fill_menu(menu: Any) -> None:
    """Fills the menu with what there is now."""
    menu.remove_all()
    names = PRESETS.all()
    add_items(menu, "win.preset", names)
    menu.append(_("Save as a preset…"), "win.keep-preset")
    if names:
        old = Gio.Menu()
        add_items(old, "win.forget-preset", names)
        menu.append_submenu(_("Delete"), old)


def ask_for_name(window: "Window") -> None:
    """Asks for a name for the paper and the printer, and keeps them by it."""
    if confirmed(window.widgets.naming):
        name = window.widgets.preset_name.get_text().strip()
        if name:
            PRESETS.keep(name, kept_of(window.choices(), (*PRINT, *ROLL)))


def use(window: "Window", name: str) -> None:
    """Takes the printer and the paper of a preset: what is known of these is theirs."""
    kept = PRESETS.get(name, {})
    window.take_values(**values_kept(kept, PRINT))
    window.owners.settle()
    window.take_values(**values_kept(kept, ROLL))
    window.follow()


def add_items(menu: Any, action: str, names: Iterable[str]) -> None:
    """Adds to a menu what an action can do, for each name."""
    for name in names:
        item = Gio.MenuItem.new(name.replace("_", "__"), None)
        item.set_action_and_target_value(action, GLib.Variant("s", name))
        menu.append_item(item)
