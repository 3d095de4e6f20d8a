"""Libraries by GObject introspection, in the versions that are meant, and Pango of them."""

import importlib
from typing import Any

import cairo
import gi


def gi_library(name: str, version: str) -> Any:
    """Returns a library; raises `ImportError` and `ValueError` where it is not there."""
    gi.require_version(name, version)
    return importlib.import_module(f"gi.repository.{name}")


Pango = gi_library("Pango", "1.0")
Pango.Rectangle = Pango.Rectangle  # kept by its name, which each number of one looks for
PangoCairo = gi_library("PangoCairo", "1.0")
UNIT: int = Pango.SCALE
# how much larger the letters of a font are asked for, so that its capitals are as high as those of
# DejaVu Sans: sizes of letters mean the same in both
LARGER = {"Liberation Sans": 729 / 688, "Liberation Sans Narrow": 729 / 688}


def asked_size(family: str, size: int) -> int:
    """Returns the size in which the letters of a font are asked for."""
    return round(size * LARGER.get(family.strip(), 1.0))


def font_options(is_dots: bool) -> cairo.FontOptions:
    """Returns how letters are drawn: in shapes that any size has, or in whole dots."""
    options = cairo.FontOptions()
    options.set_hint_metrics(cairo.HintMetrics.ON if is_dots else cairo.HintMetrics.OFF)
    options.set_hint_style(cairo.HintStyle.FULL if is_dots else cairo.HintStyle.NONE)
    options.set_antialias(cairo.Antialias.NONE if is_dots else cairo.Antialias.GRAY)
    return options


def pango_context(is_dots: bool) -> Any:
    """Returns what lays texts out; glyphs are at whole dots where letters are made of these."""
    context = PangoCairo.FontMap.get_default().create_context()
    context.set_round_glyph_positions(is_dots)
    PangoCairo.context_set_font_options(context, font_options(is_dots))
    return context


def new_layout(context: Any, family: str, is_bold: bool, size: int) -> Any:
    """Returns what lays texts out in letters of a size in dots."""
    layout = Pango.Layout.new(context)
    font = Pango.FontDescription(f"{family}, {'Bold' * is_bold}")
    font.set_absolute_size(asked_size(family, size) * UNIT)
    layout.set_font_description(font)
    return layout
