"""Texts for the user: in English as they are, and in the user's language.

xgettext finds them: `--keyword=Text --keyword=counted:1,2`.
"""

import re
import shlex
import unicodedata
from dataclasses import dataclass
from string import Formatter
from typing import Any, Iterable

from labeltools.common.language import _, ngettext

# the classes of characters in Unicode that change what a terminal shows, or that cut a message
UNSEEN = ("Cc", "Cf", "Cs", "Zl", "Zp")
IN_DOUBLE_QUOTES = re.compile('[$`"!\\\\]')  # what a shell reads there


@dataclass(frozen=True, init=False, repr=False)
class Text:
    """A text in English: its template, and what it has in the place of each `{}`. It never changes.

    A field that is a `Text` is translated too; any other one is a number, or the user's own words.
    `many` is the template for other counts than 1, where there is one.

    >>> Text("row {} has {}", 2, Text("no price"))
    'row 2 has no price'
    """

    template: str
    fields: tuple[object, ...]
    many: str

    def __init__(self, template: str, *fields: object, many: str = "") -> None:
        self.__dict__.update(template=template, fields=fields, many=many)

    def __str__(self) -> str:
        template = self.many if self.many and self.fields[0] != 1 else self.template
        return template.format(*self.fields) if self.fields else template

    def __repr__(self) -> str:
        return repr(str(self))

    def __bool__(self) -> bool:
        return str(self) != ""

    @property
    def wording(self) -> tuple[object, ...]:
        """What it has in common with texts that differ in numbers and the user's words alone."""
        return self.template, *(field.wording for field in self.fields if isinstance(field, Text))

    def with_fields(self, *fields: object) -> "Text":
        """Returns the text with other fields."""
        return Text(self.template, *fields, many=self.many)


NOTHING = Text("")
SIGNS = Text("1,000.5")  # a number, by which a translation shows its signs


def counted(single: str, many: str, count: int, *fields: object) -> Text:
    """Returns a text with a count in its first place, which the words agree with.

    >>> counted("{} row", "{} rows", 1), counted("{} row", "{} rows", 2)
    ('1 row', '2 rows')
    """
    return Text(single, count, *fields, many=many)


def joined(sign: str, parts: Iterable[object]) -> Text:
    """Returns texts one behind another, with a sign between them that no language changes.

    >>> joined(", ", ["a", 2])
    'a, 2'
    """
    found = list(parts)
    return Text(sign.join(["{}"] * len(found)), *found)


def shell_word(value: str) -> str:
    """Returns a value as one word of a shell, in quotes where these help to read it: such as a
    person would type, if they are safe, and else the shell's own.

    >>> print(*map(shell_word, ("EAN", "Old ones", "Prix d'achat", "d'un $", ",", "=1")))
    EAN 'Old ones' "Prix d'achat" 'd'"'"'un $' ',' '=1'
    """
    if any(unicodedata.category(sign) in UNSEEN for sign in value):
        return f"$'{''.join(map(bash_escape, value))}'"
    if "'" in value and not IN_DOUBLE_QUOTES.search(value):
        return f'"{value}"'
    quoted = shlex.quote(value)
    is_sign = not value.startswith("-") and not any(map(str.isalnum, value))
    is_bare = quoted == value and (is_sign or value.startswith("="))  # which zsh would look up
    return f"'{value}'" if is_bare else quoted


def shell_line(words: Iterable[str]) -> str:
    """Returns words as a command of a shell."""
    return " ".join(map(shell_word, words))


def bash_escape(sign: str) -> str:
    """Returns a character as it stands between `$'` and `'`."""
    if unicodedata.category(sign) not in UNSEEN and sign not in "'\\!":
        return sign
    known = "surrogateescape" if "\udc80" <= sign <= "\udcff" else "surrogatepass"
    return "".join(f"\\x{byte:02x}" for byte in sign.encode("utf-8", known))


class InLanguage(Formatter):
    """Fills the places of a template: a `Text` is translated, a number has the signs of the user's
    language, and anything else stays as it is.
    """

    def format_field(self, value: Any, format_spec: str) -> str:
        """Returns what is in the place of a field."""
        if isinstance(value, Text):
            return translated(value)
        shown = format(value, format_spec)
        if not isinstance(value, (int, float)):
            return shown
        signs = translated(SIGNS)
        return shown.translate({ord(","): signs[1], ord("."): signs[-2]})


IN_LANGUAGE = InLanguage()


def translated(text: object) -> str:
    """Returns a text in the language of the user; what is neither a `Text` nor a number stays as it
    is.
    """
    if not isinstance(text, Text) or not text.template:  # for which gettext has its own head
        return str(text)
    if not text.fields:
        return _(text.template)
    first = text.fields[0]
    if text.many and isinstance(first, int):
        template = ngettext(text.template, text.many, first)
    else:
        template = _(text.template)
    return IN_LANGUAGE.format(template, *text.fields)


def whole_sentence(text: Text) -> str:
    """Returns a text in the language of the user as a sentence of its own: it begins with a
    capital, unless a name or a number is there, and has an end.

    >>> whole_sentence(Text("row {} has no price", 2))
    'Row 2 has no price.'
    >>> whole_sentence(Text("{}: {}", "a.csv", Text("is it one?")))
    'a.csv: is it one?'
    """
    shown = capitalized(text)
    return shown if shown[-1:] in (*".?!", "") else f"{shown}."


def capitalized(text: Text) -> str:
    """Returns a text in the language of the user as it begins a sentence."""
    shown = translated(text)
    return shown[:1].upper() + shown[1:] if begins_with_word(text) else shown


def begins_with_word(text: object) -> bool:
    """Returns whether a text begins with a word of its own in the language of the user."""
    if not isinstance(text, Text) or not text:
        return False
    first = re.match(
        r"\{([0-9]*)",
        ngettext(text.template, text.many, 2) if text.many else _(text.template),
    )
    return begins_with_word(text.fields[int(first[1] or 0)]) if first else True
