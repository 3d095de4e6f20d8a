"""The words of the names of columns, and what they mean in many languages."""

import re
import unicodedata
from collections.abc import Iterator, Mapping, Sequence
from functools import cache
from pathlib import Path

from labeltools.common.column_names import LONGEST
from labeltools.common.word_lists import lists_by_section, lists_of

COLUMN_WORDS = Path(__file__).with_name("columns.list")
HUMP = re.compile("(?<=[a-z]{2})(?=[A-Z])|(?<=[A-Z]{2})(?=[A-Z][a-z]{2})")  # as in `salePrice`
WORD = r"\bb2[bc]\b|[^\W\d_]+"  # b2b has a digit
# letters that Unicode does not take apart, and one that is a letter of its own
FOLDED = str.maketrans(
    {**dict(zip("łøđðı", "loddi")), "å": "aa", "º": "o", "%": " percent ", "+": " plus "}
)
MOST_IN_ONE = 4  # words that count as one
SHORT = 5  # letters of a word that is never written as several
FOREIGN = "English"  # whose words are in the names of columns everywhere


def folded(text: str) -> str:
    """Returns a text in small letters without accents and other marks.

    >>> folded("Prix RÉDUIT"), folded("Κωδικός"), folded("Påris")
    ('prix reduit', 'κωδικοσ', 'paaris')
    """
    letters = unicodedata.normalize("NFD", text[:LONGEST].casefold().translate(FOLDED))
    bare = "".join(sign for sign in letters if not unicodedata.category(sign).startswith("M"))
    return unicodedata.normalize("NFC", bare)


class Words:
    """Words of the names of columns: `ab-` is how one begins, `-ab` how one ends. What stands
    together is one word, without what is between.
    """

    def __init__(self, words: Sequence[str]) -> None:
        self.all = frozenset(folded(word).replace("_", "") for word in words)
        self.starts = tuple(word[:-1] for word in self.all if word[-1] == "-")
        self.ends = tuple(word[1:] for word in self.all if word[0] == "-")

    def knows(self, word: str) -> bool:
        """Returns whether a word is one of them."""
        return word in self.all or word.startswith(self.starts) or word.endswith(self.ends)


@cache
def column_words() -> Mapping[str, Words]:
    """Returns the words by their kinds."""
    return {kind: Words(words) for kind, words in lists_of(COLUMN_WORDS).items()}


@cache
def joined_words() -> frozenset[str]:
    """Returns the words that may be written as several."""
    words = (word for kind in lists_of(COLUMN_WORDS).values() for word in kind if "-" not in word)
    return Words([word for word in words if "_" in word or len(word) > SHORT]).all


@cache
def words_of_languages() -> Mapping[str, Words]:
    """Returns the words by their languages, but for those of programs everywhere."""
    parts = {
        part: Words(sum(kinds.values(), []))
        for part, kinds in lists_by_section(COLUMN_WORDS).items()
    }
    common = parts.pop(FOREIGN)
    return {
        part: Words([word for word in words.all if not common.knows(word.strip("-"))])
        for part, words in parts.items()
    }


def words_in(name: str) -> Iterator[str]:
    """Yields the words of the name of a column; some that stand together are one.

    >>> [*words_in("Prix de réf. (inkl. MwSt)")], [*words_in("Code à barres")]
    (['prix', 'de', 'ref', 'inklmwst'], ['codeabarres'])
    """
    words = re.findall(WORD, folded(HUMP.sub(" ", name)))
    while words:
        count = MOST_IN_ONE
        while count > 1 and "".join(words[:count]) not in joined_words():
            count -= 1
        yield "".join(words[:count])
        del words[:count]
