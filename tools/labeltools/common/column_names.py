"""The names of columns, as they are compared."""

import re
import unicodedata

LONGEST = 1000  # letters of a name: what is behind them is not looked at
NUMBER = re.compile("[0-9]{1,15}(?:[.,][0-9]{1,9})?")


def name_of(text: str) -> str:
    """Returns a name as it is compared: composed (macOS takes ü apart), without white space at its
    ends.

    >>> name_of("Stu\\u0308ck ") == name_of("Stück"), name_of("EAN\\n 13")
    (True, 'EAN 13')
    """
    return unicodedata.normalize("NFC", " ".join(text[:LONGEST].split()))
