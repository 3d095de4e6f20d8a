"""The encoding of a table of text that is not UTF-8, where only one reading of it is sensible: by
the letters of the language in which its columns are named, or else by those of any language.
"""

import re
from collections.abc import Collection, Iterable, Sequence
from contextlib import suppress
from dataclasses import dataclass, replace
from functools import cached_property
from pathlib import Path

from labeltools.common.messages import Problem, quoted, Remedy, Talk, ToolError
from labeltools.common.text import joined, Text
from labeltools.common.word_lists import lists_by_section
from labeltools.sheets.encoding import (
    is_odd,
    is_old,
    letters_by,
    LONGEST_WORD,
    OTHER_WORD,
    other_words,
    SIGNS,
    text_by,
)
from labeltools.tables.guess import names_of
from labeltools.tables.name_words import words_in, words_of_languages
from labeltools.tables.table_options import TableOptions

SECTIONS = lists_by_section(Path(__file__).with_name("languages.list"))
LANGUAGES = {name: lists for name, lists in SECTIONS.items() if "group" in lists}
OF_SEVERAL_BYTES = {
    name: lists["several"] for name, lists in SECTIONS.items() if "several" in lists
}
# those of Windows, by the groups of languages; nobody was found who writes tables in older ones
OF_WINDOWS = {name: lists["encoding"][0] for name, lists in SECTIONS.items() if "encoding" in lists}
# whose old encodings are taken for those of others
NEAR = [name for name, lists in LANGUAGES.items() if {"western", "central"} & {*lists["group"]}]
MOST_ODD = 0.05  # the part of the words of a sensible reading that nobody writes
MOST_TRIED = 2000  # words
MOST_SHOWN = 3
LEAST_NAMES = 2  # of columns, that are known words of a language by no chance
LEAST_PART = 0.25  # of their words, which one alone is by no chance
LAST_LATIN = "\u024f"
# signs that stand at letters where these were read badly
AT_LETTERS = re.compile(
    r"""´|(?<=[^\W\d_])[‚„]|(?<=[^\W\d_])[–‘](?=[^\W\d_])
    |[€£¥](?=[^\W\d_])|(?<=[^\W\d_])µ|(?<=[a-moz])[ºª]|[ºª](?=[a-z])|^’[^\0-~]""",
    re.VERBOSE,
)
PRICE = re.compile("[0-9.,-]*[€£¥][0-9.,-]*")
AMOUNT = re.compile("[0-9][.,-]* ?[€£¥]|[€£¥] ?[0-9]")
ALONE = "àèéóåøöíÀÈÉØÅÖ"  # letters that are words of their own, or signs
AROUND = "()[]'.:!?/-"  # a word


@dataclass(frozen=True)
class Reading:
    """How some encodings read the words of a table that have other letters than ASCII."""

    encodings: Sequence[str]
    words: Sequence[str]

    @cached_property
    def odd(self) -> frozenset[str]:
        """The words that nobody writes."""
        return frozenset(word for word in self.words[:MOST_TRIED] if is_strange(word))

    @cached_property
    def letters(self) -> frozenset[str]:
        """The letters beside a to z."""
        found = set("".join(self.words))
        letters = (sign for sign in found if sign.isalpha() and not sign.isascii())
        return frozenset(letters) - {*SIGNS}

    @property
    def is_sensible(self) -> bool:
        """Whether people write nearly all of its words."""
        return len(self.odd) <= MOST_ODD * len(self.words[:MOST_TRIED])

    def encoding_in(self, languages: Iterable[str], has_foreign: bool = False) -> str:
        """Returns the encoding in which a program of one of some languages writes all letters, with
        those of words from abroad or without them; empty if there is none.
        """
        for language in languages:
            for group in LANGUAGES[language]["group"]:
                own = "".join(
                    LANGUAGES[language]["letters"] + SECTIONS[group]["letters"] * has_foreign
                )
                has_all = all(letter in own or letter.lower() in own for letter in self.letters)
                if has_all and OF_WINDOWS[group] in self.encodings:
                    return OF_WINDOWS[group]
        return ""


@dataclass(frozen=True)
class OldEncoding:
    """The encoding of a table, and how it reads some of its words."""

    name: str
    words: Sequence[str]

    @property
    def problem(self) -> Problem:
        """What is said of it, and what helps if it is the wrong one: without it, others are
        offered.
        """
        shown = letters_by(self.name), joined(", ", map(quoted, self.words))
        what = Text("the letters are read as {}, in words such as {}", *shown)
        others = Remedy("encoding", self.name, Text("read them in another way"), is_less=True)
        return Problem(what, Text("check the letters"), (others,))


def old_encoding(data: bytes, _: str, options: TableOptions, talk: Talk) -> OldEncoding | None:
    """Returns the encoding of a table that is not UTF-8, or None where no reading of it makes sense
    or several do.
    """
    several = in_several_bytes(data, options)
    if several:
        return several
    every = other_words(data, OF_WINDOWS.values()).items()
    readings = [Reading(alike, words) for words, alike in every]
    fewest = min((len(reading.odd) for reading in readings), default=0)
    readings = [own for own in readings if own.is_sensible and len(own.odd) == fewest]
    readings = [reading for reading in readings if is_of_prices(reading, data)] or readings
    found = only_reading(readings, languages_of(data, options, readings))
    if found is None:
        return None
    encoding, reading = found
    text = text_by(data, encoding)
    if text.count("«") != text.count("»") or text.count("„") > sum(map(text.count, "“”")):
        return None
    return OldEncoding(encoding, shown_words(reading)) if text else None


def in_several_bytes(data: bytes, options: TableOptions) -> OldEncoding | None:
    """Returns the encoding of a table in which a letter has several bytes; None if the names of its
    columns are no words of such a language in any.
    """
    best, most = None, LEAST_NAMES - 1
    for language, encodings in OF_SEVERAL_BYTES.items():
        for encoding in encodings if is_old(data) else ():
            words = OTHER_WORD.findall(text_by(data, encoding))
            names = names_by(data, options, encoding) if words else ()
            known = sum(map(words_of_languages()[language].knows, names))
            if known > most:
                best, most = OldEncoding(encoding, words[:MOST_SHOWN]), known
    return best


def only_reading(
    readings: Sequence[Reading], languages: Collection[str]
) -> tuple[str, Reading] | None:
    """Returns the only sensible reading, with its encoding, of a table whose columns are named in
    some languages, in none where that is not known. Of several the letters decide: one with letters
    from abroad is sensible where no language of Europe's west or middle has all letters of another
    one.
    """
    known = languages or LANGUAGES
    if len(readings) == 1:
        [reading] = readings
        encoding = reading.encoding_in(known, True)
        return (encoding, reading) if encoding else None
    native = [reading for reading in readings if reading.encoding_in(known)]
    foreign = [reading for reading in readings if reading.encoding_in(known, has_foreign=True)]
    if len(native) == 1:
        [reading] = native
        is_plain = languages and reading.letters
        return (reading.encoding_in(known), reading) if is_plain or len(foreign) == 1 else None
    if languages and not native and len(foreign) == 1:
        others = (reading for reading in readings if reading not in foreign)
        if not any(reading.encoding_in(NEAR) for reading in others):
            return foreign[0].encoding_in(known, has_foreign=True), foreign[0]
    return None


def languages_of(
    data: bytes, options: TableOptions, readings: Iterable[Reading]
) -> Collection[str]:
    """Returns the languages that know most words of the names of the columns, of all that English
    does not know, as the reading has them of which most are known.
    """
    best: dict[int, set[str]] = {}
    for reading in readings:
        words = names_by(data, options, reading.encodings[0])
        for language, known in words_of_languages().items():
            count = sum(map(known.knows, words))
            if count >= min(LEAST_NAMES, LEAST_PART * len(words)):
                best.setdefault(count, set()).add(language)
    most = max(best, default=0)
    return best[most] & LANGUAGES.keys() if most else ()


def names_by(data: bytes, options: TableOptions, encoding: str) -> Collection[str]:
    """Returns the words of the names of the columns, as an encoding reads them."""
    file = replace(options.file, encoding=encoding)
    with suppress(ToolError):
        names = names_of(data, "", replace(options, file=file))
        return {word for name in names for word in words_in(name)}
    return ()


def is_of_prices(reading: Reading, data: bytes) -> bool:
    """Returns whether all that is not ASCII in a table are signs of currencies beside amounts."""
    if not all(map(PRICE.fullmatch, reading.words)):
        return False
    text = text_by(data, reading.encodings[0])
    return sum(map(text.count, "€£¥")) == len(AMOUNT.findall(text))


def shown_words(reading: Reading) -> Sequence[str]:
    """Returns some words of a reading that show its letters, the first ones that do."""
    found: list[str] = []
    left = set(reading.letters)
    for word in (word for word in reading.words if word not in reading.odd):
        if left.intersection(word) and len(found) < MOST_SHOWN:
            found.append(word.strip(AROUND)[:LONGEST_WORD])
            left.difference_update(word)
    return found or [word[:LONGEST_WORD] for word in reading.words[:1]]


def is_strange(word: str) -> bool:
    """Returns whether nobody writes a word, or only a bad reading has it: a Latin letter stands
    alone in it, or a sign stands at letters that is for numbers or between words.

    >>> [is_strange(word) for word in ("Käse", "50€", "Ø20", "L’Oréal", "1º", "л")]
    [False, False, False, False, False, False]
    >>> [is_strange(word) for word in ("50Ä", "Espa–a", "œ", "´itný", "aº")]
    [True, True, True, True, True]
    """
    letters = [sign for sign in word if sign.isalpha() and sign not in SIGNS]
    if len(letters) == 1 and "\x7f" < letters[0] <= LAST_LATIN and letters[0] not in ALONE:
        return True
    return AT_LETTERS.search(word) is not None or is_odd(word)
