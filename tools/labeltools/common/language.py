"""Texts in the language of the user, by gettext."""

import gettext
import locale
import os
from pathlib import Path

DOMAIN = "label-tools"
# translations beside the package, where it is not installed
BESIDE = Path(__file__).parent.with_name("locale")


def folder() -> str | None:
    """Returns the folder of the translations; None for that of the system."""
    named = os.environ.get("LABELS_LOCALE")
    return named or (str(BESIDE) if BESIDE.is_dir() else None)


locale.bindtextdomain(DOMAIN, folder())  # for the texts of window.ui, which GTK translates
gettext.bindtextdomain(DOMAIN, folder())
gettext.textdomain(DOMAIN)  # where argparse looks for its messages
_translation = gettext.translation(DOMAIN, folder(), fallback=True)
_ = _translation.gettext
ngettext = _translation.ngettext


def language() -> str:
    """Returns the language of the texts, such as `de`; `C` if they are not translated."""
    return str(_translation.info().get("language", "C"))
