"""The encoding of a table of text: the one that it surely has, or else those that may read it, by
how they read a word; and texts whose encoding was applied twice.
"""

import codecs
import re
import unicodedata
from collections.abc import Iterable, Sequence
from contextlib import suppress
from itertools import islice

from labeltools.common.messages import BAD_ARGUMENTS, quoted, Remedy, ToolError
from labeltools.common.text import Text


# the marks in front of a text; that of UTF-32 before the one of UTF-16, which is its beginning
UNICODE = ("utf-8", "utf-32-le", "utf-32-be", "utf-16-le", "utf-16-be")
MARKS = {"\ufeff".encode(codec): codec for codec in UNICODE}
# the encodings of old files that are tried: of Windows, of DOS and its tills, of Unix and of Macs
CANDIDATES = (
    *("cp1252", "iso8859-15", "cp1250", "iso8859-2", "cp1254", "cp1257", "cp1251", "cp1253"),
    *("cp850", "cp852", "cp437", "cp866", "mac_roman", "koi8-r", "cp1255", "cp1256", "cp874"),
    "cp932",
)
UTF_16 = UNICODE[3:]
WESTERN, CENTRAL = Text("Western European"), Text("Central European")
CYRILLIC, CHINESE = Text("Cyrillic"), Text("Chinese")
# the letters that encodings are for, and some of them, by which people know them
LETTERS_OF = {
    **dict.fromkeys(("cp1252", "iso8859-15", "iso8859-1"), (WESTERN, "ä é €")),
    **dict.fromkeys(("cp850", "cp437", "mac_roman"), (WESTERN, "ä é €")),
    **dict.fromkeys(("cp1250", "iso8859-2", "cp852"), (CENTRAL, "ł ő")),
    **dict.fromkeys(("cp1251", "cp866", "koi8-r"), (CYRILLIC, "Ж я")),
    **dict.fromkeys(("gb18030", "big5"), (CHINESE, "中")),
    "cp1254": (Text("Turkish"), "ğ ş"),
    "cp1257": (Text("Baltic"), "ā š"),
    "cp1253": (Text("Greek"), "Ω λ"),
    "cp1255": (Text("Hebrew"), "א ש"),
    "cp1256": (Text("Arabic"), "ع م"),
    "cp874": (Text("Thai"), "ก ข"),
    "cp932": (Text("Japanese"), "あ 漢"),
    "cp949": (Text("Korean"), "가"),
    **dict.fromkeys(UTF_16, (Text("of all languages"), "ä Ж あ")),
}
SAVE_AS_UTF_8 = Text("save it as UTF-8")
CHOOSE = Text("save it as UTF-8, or choose what reads well")
MOST_READINGS = 4
MOST_WORDS = 500  # that are tried
LONGEST_WORD = 40
TOLERANCE = 0.25  # a reading with a larger part of odd words than the best one is not shown
# each begins where a word does: else a long one without such a letter is looked at again from each
# of its letters; a letter of several bytes may have the one of a bar
OTHER_BYTES = re.compile(rb'(?<![^\s;,"])[^\s;,"\x80-\xff]*[\x80-\xff][^\s;,"]*')
OTHER_WORD = re.compile(r'(?<![^\s;,|"])[^\s;,|"\x80-\U0010ffff]*[^\x00-\x7f\s][^\s;,|"]*')
ANY_WORD = re.compile(r'[^\s;,|"]+')
CURRENCY = "€£¥₤₺"
IN_WORDS = "’‘´`‐–・ー〜"  # signs that words have between letters
SIGNS = f"{CURRENCY}{IN_WORDS}°²³½¼¾®™©§«»„“”‚—…·×µºª№¡¿¢"  # that tables have beside words
JAPANESE = ("HIRAGANA", "KATAKANA", "KATAKANA-HIRAGANA", "HALFWIDTH", "FULLWIDTH", "CJK")
# by what UTF-8 is read wrongly, and how many pairs of letters a word of it has: one may be right
READ_AS = {"cp1252": 1, "cp850": 1, "mac_roman": 1, "cp1250": 2, "cp1251": 2}
# what was meant is one of Latin, Greek and Cyrillic letters, or a sign of typography
MEANT = re.compile("[\0-\x7f\u00a0-\u017f\u0370-\u045f\u2010-\u2044\u20ac\u2122]*")
TRADE = re.compile("[Ä-áã-ô][®™°»”’]")  # NESCAFÉ®, which cp1252 has, and no UTF-8
NO_SCRIPTS = ("MODIFIER", "MICRO", "FEMININE", "MASCULINE", "COMBINING")


def decoded(data: bytes, name: str, encoding: str | None) -> str:
    """Returns the text of a table, with its mark; raises `ToolError` with what to do."""
    known = known_encoding(data)
    try:
        codec = codecs.lookup(encoding or known or "utf-8").name
        text = data.decode(codec)
    except UnicodeDecodeError as error:
        refuse_other(known, codec, encoding, name)
        raise wrong_encoding(data, name, codec, error.start) from None
    except (LookupError, UnicodeError):
        what = Text("the encoding {} is unknown", quoted(encoding or ""))
        hint, remedies = Text("give one as cp1252"), (Remedy("encoding"),)
        raise ToolError(what, hint, BAD_ARGUMENTS, remedies) from None
    refuse_other(known, codec, encoding, name)
    unread = re.search("[\0\x80-\x9f]" if codec == "iso8859-1" else "\0", text)
    if unread:
        start = len(text[: unread.start()].encode(codec, "replace"))
        raise wrong_encoding(data, name, codec, start)
    return text


def known_encoding(data: bytes) -> str:
    """Returns the encoding that a table surely has: by its mark, or as it is UTF-8 with other
    letters than ASCII.
    """
    for mark, codec in MARKS.items():
        if data.startswith(mark):
            return codec
    if data.isascii() or b"\0" in data:
        return ""
    try:
        data.decode("utf-8")
    except UnicodeDecodeError:
        return ""
    return "utf-8"


def is_old(data: bytes) -> bool:
    """Returns whether a text has other letters than ASCII, and surely is in none of Unicode."""
    return not (known_encoding(data) or data.isascii() or b"\0" in data)


def refuse_other(known: str, codec: str, encoding: str | None, name: str) -> None:
    """Raises `ToolError` where another encoding was given than the one that is known."""
    if known and known not in codec and codec not in known:
        says = Text("read the letters as they are stored")
        remedy = Remedy("encoding", encoding or "", says, is_less=True)
        what = Text("the letters of {} are stored as {}", name, known.upper())
        raise ToolError(what, status=BAD_ARGUMENTS, remedies=(remedy,))


def wrong_encoding(data: bytes, name: str, codec: str, start: int) -> ToolError:
    """Returns the error of a table in another encoding, with how others would read a word of it."""
    line = data.count(b"\n", 0, start) + 1
    what = Text("{} is not {}, as line {} shows", name, codec.upper(), line)
    if data.startswith(tuple(MARKS)):
        return ToolError(what, Text("it is cut off or damaged, save it again"))
    if b"\0" in data:
        read = {codec: first_word(data, codec) for codec in UTF_16}
    else:
        read = readings(data, codec)
    known = {name: word for name, word in read.items() if word}
    hint = CHOOSE if known else SAVE_AS_UTF_8
    ways = (Remedy("encoding", name, Text("{}", word)) for name, word in known.items())
    return ToolError(what, hint, remedies=tuple(ways))


def readings(data: bytes, without: str) -> dict[str, str]:
    """Returns how encodings, but for one, read a word of a text; those that read all of it alike
    are one, those with the fewest odd words are first.

    >>> readings("Zażółć gęś".encode("cp1250"), "utf-8")
    {'cp1250': 'Zażółć'}
    >>> readings("Мыло".encode("cp1251"), "utf-8")["cp1251"]
    'Мыло'
    >>> readings("Käse Füller".encode("cp850"), "utf-8")
    {'cp850': 'Käse'}
    """
    others = [codec for codec in CANDIDATES if codec != without]
    found = other_words(data, others, MOST_WORDS)
    words = {codec: alike for alike, (codec, *_) in found.items()}
    odd = {codec: sum(is_odd(word) for word in own) / len(own) for codec, own in words.items()}
    best = min(odd.values(), default=0.0) + TOLERANCE
    good = (codec for codec in sorted(odd, key=odd.__getitem__) if odd[codec] <= best)
    shown = list(islice((codec for codec in good if text_by(data, codec)), MOST_READINGS))
    return {codec: word_of(words[codec], [words[other] for other in shown]) for codec in shown}


def other_words(
    data: bytes, codecs: Iterable[str], most: int | None = None
) -> dict[tuple[str, ...], list[str]]:
    """Returns how encodings read the words of a text that is surely in none of Unicode, each word
    with other letters than ASCII once, in their order, or the first ones; those that read all alike
    are together.

    >>> other_words("Käse Käse für".encode("cp1252"), ["cp1252", "cp850", "cp1250"])
    {('Käse', 'für'): ['cp1252', 'cp1250'], ('Kõse', 'f³r'): ['cp850']}
    """
    if not is_old(data):
        return {}
    sample = b" ".join([*dict.fromkeys(OTHER_BYTES.findall(data))][:most])
    found: dict[tuple[str, ...], list[str]] = {}
    for codec in codecs:
        words = tuple(dict.fromkeys(OTHER_WORD.findall(text_by(sample, codec))))
        if words:
            found.setdefault(words, []).append(codec)
    return found


def text_by(data: bytes, codec: str) -> str:
    """Returns a text as an encoding reads it; empty where it does not, or nobody sees a letter of
    it.
    """
    with suppress(UnicodeDecodeError):
        text = data.decode(codec)
        return text if re.sub(r"[\t\r\n\xa0]", "", text).isprintable() else ""
    return ""


def first_word(data: bytes, codec: str) -> str:
    """Returns the first word of a text, as an encoding reads it, that has other letters than ASCII,
    or else its first word; empty if nobody could read it.

    >>> first_word("EAN;Füller".encode("utf-16-le"), "utf-16-le")
    'Füller'
    >>> first_word("EAN;Füller".encode("cp1252"), "cp1252"), first_word(b"EAN;Tea", "cp1252")
    ('Füller', 'EAN')
    """
    text = text_by(data, codec)
    found = OTHER_WORD.search(text) or ANY_WORD.search(text)
    return found[0][:LONGEST_WORD] if found else ""


def letters_by(codec: str, word: str = "") -> Text:
    """Returns which letters an encoding is for, with a word that it reads, or else some of them.

    >>> letters_by("cp1252"), letters_by("cp1250", "Łódź"), letters_by("cp500")
    ('Western European (ä é €)', 'Central European (Łódź)', 'cp500')
    """
    if codec not in LETTERS_OF:
        return Text("{}", word or codec)
    letters, some = LETTERS_OF[codec]
    return Text("{} ({})", letters, word or some)


def word_of(words: Sequence[str], others: Iterable[Sequence[str]]) -> str:
    """Returns the first word of a reading, and the first by which it is another one than a reading
    with the same first word.

    >>> word_of(["Käse", "¤"], [["Käse", "¤"], ["Käse", "€"]])
    'Käse ¤'
    """
    found = [words[0]]
    for other in others:
        pairs = (own for own, their in zip(words, other) if own != their)
        if other[0] == words[0] and (word := next(pairs, words[0])) not in found:
            found.append(word)
    return " ".join(word[:LONGEST_WORD] for word in found)


def is_odd(word: str) -> bool:
    """Returns whether nobody writes a word: it has letters of two scripts, a capital behind a small
    letter, a sign between letters or one that is rare, or letters that are.

    >>> [is_odd(word) for word in ("Käse", "2,99€", "F³ller", "KŠse", "¤", "Ñûð")]
    [False, False, True, True, True, True]
    """
    letters = [sign for sign in word if sign.isalpha()]
    others = [sign for sign in letters if not sign.isascii()]
    scripts = {unicodedata.name(letter, "?").split()[0] for letter in letters} - set(NO_SCRIPTS)
    if scripts & set(JAPANESE):
        has_small = any(letter.islower() for letter in letters)
        scripts -= {*JAPANESE} if has_small else {*JAPANESE, "LATIN"}
        scripts |= {"CJK"}
    is_foreign = "LATIN" in scripts and len(letters) == len(others) > 2
    if len(scripts) > 1 or is_foreign:
        return True
    for before, sign, behind in zip(f" {word}", word, f"{word[1:]} "):
        if sign.isascii():
            continue
        is_capital_inside = sign.isupper() and before.isalpha()
        if is_capital_inside and (before.islower() or behind.islower()):
            return True
        is_between = before.isalpha() and behind.isalpha() and sign not in IN_WORDS
        if not sign.isalpha() and (is_between or sign not in SIGNS):
            return True
    return False


def twice_encoded(text: str) -> str:
    """Returns what a text was before UTF-8 was read as another encoding; the text where it was not.

    >>> twice_encoded("K\\xc3\\xa4se"), twice_encoded("K\\xe4se"), twice_encoded("NESCAF\\xc9\\xae")
    ('Käse', 'Käse', 'NESCAFÉ®')
    >>> twice_encoded("Brötchen mit KÃ¤se"), twice_encoded("K├ñse")
    ('Brötchen mit Käse', 'Käse')
    """
    return text if text.isascii() else " ".join(map(meant, text.split(" ")))


def meant(word: str) -> str:
    """Returns what a word was before UTF-8 was read as another encoding; the word where it was
    not.
    """
    for encoding, least in () if word.isascii() else READ_AS.items():
        try:
            before = word.encode(encoding).decode("utf-8")
        except UnicodeError:
            continue
        is_meant = MEANT.fullmatch(before) and not TRADE.search(word)
        if is_meant and len(word) - len(before) >= least:
            return before
    return word
