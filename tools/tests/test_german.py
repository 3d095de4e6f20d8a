"""The messages of the tools in German and French: every message has a text, and the tools write
it. A language is one file, tools/po/LANGUAGE.po; what it lacks, the test of its texts lists.
"""

import ast
import re
import string
import subprocess
import sys
import tempfile
import unittest
from functools import cache
from pathlib import Path
from typing import Any, Iterator
from unittest import mock

import support
from labeltools.lines.reasons import LineFault, REASONS, refused_line


LANGUAGES = sorted(path.stem for path in (support.TOOLS / "po").glob("*.po"))
KEYWORDS = ("Text", "counted:1,2", "_", "ngettext:1,2")
ENTRY = re.compile(r'^msgid "(.+)"(?:\nmsgid_plural "(.+)")?', re.MULTILINE)
OTHER_OF = re.compile(r'^msgid "(.+)"(?:\nmsgid_plural ".+")?((?:\nmsgstr.* ".+")+)$', re.MULTILINE)
PRICED = ["--code", "EAN", "--title", "N", "--price", "P"]
WRONG_CODES = """4006381333932 7 40063813339311 9780306406157123 4,00638E+12 0000000000
3-16-148410-X 4006381333930 04252614 036000291453 4000000000006 0-8044-2957-X A 1234567
000000073513537 #N/A =1+1 N/A X ４００６３８１３３３９３１""".split()
WRONG_CODES += ["40063813339 31", "4006381333931 ", "12345670 12345", ""]
WRONG_DATA = ["level=Q X", " X", '"X"', "'X", "NAN", "4,00638E+12", "A\u200bB", "#REF!", "ERR: 502"]
OPTIONS = ["--code", "EAN", "--title", "Name", "--price", "Preis", "--summary"]
TABLE = "EAN;Name;Preis\n4006381333932;Stift;0,80\n96385074;Gummi;1E3\n4006381333931;Heft;2,50\n"

# of a message in capitals: what is in quotes, names of characters, and options with their values
NO_WORDS = (
    r"\"[^\"]*\"|[a-z -]+ \(U\+\w+\)|--[a-z-]+(?: (?:'.*?'|[a-z0-9-]+))?(?:[ (A-Z)]+ OR [a-z]\w+)*"
)
# the texts that name an option, for those of commands alone
NAMES_AN_OPTION = {
    "the following arguments are required: --code",
}


def fields_of(text: str) -> list[str]:
    """The places of what differs in a text, such as 0 and 1, in order."""
    names = [name for _, name, _, _ in string.Formatter().parse(text) if name is not None]
    return sorted(str(number) if name == "" else name for number, name in enumerate(names))


def judged_of(text: str) -> tuple[dict[str, tuple[str, str]], list[str], list[str]]:
    """What a text has in each language: the signs before and behind each field, numbers, options."""
    plain = re.sub(
        r"[„“”]|« ?|[ ]?»", '"', re.sub(r"[\u00a0\u202f]", " ", text.replace('\\"', '"'))
    )
    signs: dict[str, tuple[str, str]] = {}
    for field in re.finditer(r"\{(\w*)[^}]*\}", plain):
        before, behind = plain[: field.start()][-1:], plain[field.end() :][:1]
        signs[field[1] or str(len(signs))] = (
            before if before in {*'"(%-#'} else "",
            behind if behind in {*'")%'} else "",
        )
    numbers = re.findall(r"\d+", re.sub(r"(?<=\d)[., ](?=\d)|\{.*?\}", "", plain))
    return signs, sorted(numbers), sorted(re.findall(r"(?<![\w-])--[a-z][a-z-]*", plain))


def sources() -> list[Path]:
    """The modules of the tools."""
    return sorted((support.TOOLS / "labeltools").rglob("*.py"))


@cache
def nodes_of(path: Path) -> list[ast.AST]:
    """All nodes of a module."""
    return [*ast.walk(ast.parse(path.read_text()))]


def entries(text: bytes) -> str:
    """The texts of a file of gettext, with their plurals, by the pattern of its entries."""
    text = text.replace(b"charset=CHARSET", b"charset=UTF-8")
    ran = ["msgcat", "--no-wrap", "-"]
    return subprocess.run(ran, input=text, capture_output=True, check=True).stdout.decode()


@cache
def texts_of_tools() -> dict[str, str]:
    """The entries of the texts of the tools, as xgettext finds them."""
    words = ["xgettext", "--language=Python", "--from-code=UTF-8", "--output=-"]
    words += [f"--keyword={keyword}" for keyword in KEYWORDS]
    found = subprocess.run([*words, *sources()], capture_output=True, check=True).stdout
    window = ["xgettext", "--language=Glade", "--from-code=UTF-8", "--output=-"]
    window += [str(support.TOOLS / "labeltools/window/window.ui")]
    of_window = subprocess.run(window, capture_output=True, check=True).stdout
    files = entries(found), entries(of_window)
    return {text: plural for file in files for text, plural in ENTRY.findall(file)}


def has_words(text: str) -> bool:
    """Whether a text has more than what differs in it."""
    return any(map(str.isalpha, re.sub(r"\{.*?\}", "", text)))


def calls() -> Iterator[tuple[str, ast.Call, int]]:
    """Yields the calls that make a text, with the name of their file and their literal arguments:
    the template, and its plural.
    """
    for path in sources():
        for node in nodes_of(path):
            if not isinstance(node, ast.Call) or path.name == "text.py":
                continue
            name = getattr(node.func, "id", "")
            if name in ("Text", "counted"):
                yield path.name, node, 1 + (name == "counted")


def is_literal(node: ast.expr) -> bool:
    """Whether an expression is a text in quotes."""
    return isinstance(node, ast.Constant) and isinstance(node.value, str)


def remedies(is_shown: bool = False) -> set[str]:
    """The options that are remedies: `Remedy("dpi")`, `map(Remedy, ("edge", "shift"))`; or those
    alone for which a window has a button.
    """
    found = set()
    for path in sources():
        for node in nodes_of(path):
            name = getattr(node.func, "id", "") if isinstance(node, ast.Call) else ""
            if isinstance(node, ast.Call) and name == "Remedy":
                if is_shown and len(node.args) < 3 and not node.keywords:
                    continue
                found |= {word.value for word in node.args[:1] if isinstance(word, ast.Constant)}
            elif isinstance(node, ast.Call) and name == "map" and not is_shown:
                if getattr(node.args[0], "id", "") == "Remedy" and isinstance(
                    node.args[1], ast.Tuple
                ):
                    found |= {*ast.literal_eval(node.args[1])}
    return found


def says() -> list[tuple[str, str]]:
    """What the buttons of remedies say, each behind its option where that is the same for all."""
    found = []
    for path in sources():
        named: dict[str, list[ast.expr]] = {}
        for node in nodes_of(path):
            if isinstance(node, ast.Assign):
                named.setdefault(ast.unparse(node.targets[0]), []).append(node.value)
        for node in nodes_of(path):
            if isinstance(node, ast.Call) and getattr(node.func, "id", "") in ("Remedy", "replace"):
                by_name = [keyword.value for keyword in node.keywords if keyword.arg == "says"]
                said = by_name or node.args[2:3]
                option = node.args[0].value if isinstance(node.args[0], ast.Constant) else ""
                for expression in said:
                    for value in named.get(ast.unparse(expression), [expression]):
                        found += [(option, text) for text in templates_in(value)]
    return found


def templates_in(node: ast.expr) -> list[str]:
    """The templates of the texts that an expression may be."""
    return [
        ast.literal_eval(call.args[0])
        for call in ast.walk(node)
        if isinstance(call, ast.Call) and getattr(call.func, "id", "") == "Text"
        if is_literal(call.args[0])
    ]


def in_capitals(text: str) -> str:
    """A text in a language that is English in capitals."""
    return re.sub(r"(\{.*?\})|[^{]+", lambda found: found[1] or found[0].upper(), text)


class German(unittest.TestCase):
    def test_xgettext_finds_each_text(self) -> None:
        """mypy has each message as a `Text`; here its template is seen, and no field is a text."""
        for name, call, templates in calls():
            shown = f"{name}: {ast.unparse(call)}"
            self.assertTrue(all(map(is_literal, call.args[:templates])), shown)
            for field in call.args[templates:]:
                is_text = isinstance(field, ast.Constant) and has_words(str(field.value))
                self.assertFalse(is_text or isinstance(field, ast.JoinedStr), shown)

    def test_each_text_is_in_each_language_with_its_fields(self) -> None:
        support.needs("xgettext", "msgcat")
        self.maxDiff = None  # the list is what a translator needs
        texts = texts_of_tools()
        self.assertGreater(len(texts), 200)
        self.assertGreater(len(LANGUAGES), 1)
        for language in LANGUAGES:
            with self.subTest(language):
                file = Path(support.TOOLS, f"po/{language}.po").read_bytes()
                self.assertNotIn(b"#, fuzzy", file)  # msgfmt would leave that one out
                found = entries(file)
                others = dict(OTHER_OF.findall(found))
                plurals = dict(ENTRY.findall(found))
                lacking = [text for text in texts if has_words(text) and not others.get(text)]
                self.assertEqual(lacking, [])
                self.assertEqual(sorted({*others} - {*texts}), [], "texts that no tool has")
                for text in others:
                    self.assertEqual(plurals[text], texts[text])
                    for form in re.findall('"(.+)"', others[text]):
                        self.assertEqual(fields_of(form), fields_of(text), text)
                        self.assertEqual(judged_of(form), judged_of(text), text)
                if language == "fr":  # no line may break before these signs
                    self.assertNotRegex("".join(others.values()), "(?<!fc-list) [:;?!]")

    def test_a_text_that_says_another_thing_is_seen(self) -> None:
        """By its fields, a number or an option; that it means the opposite nobody sees but a reader."""
        text = 'column {} ("{}") has more than 1,000 rows: give --limit'
        other = "Spalte {} („{}“) hat über 1.000 Zeilen: --limit angeben"
        self.assertEqual(judged_of(other), judged_of(text))
        for old, new in (("{}", "{1}"), ("1.000", "100"), ("--limit", "--last"), ("„{}“", "{}")):
            self.assertNotEqual(judged_of(other.replace(old, new, 1)), judged_of(text))

    def test_options_are_remedies(self) -> None:
        """No text names an option: a command writes it behind the text, a window has a button."""
        support.needs("xgettext", "msgcat")
        named = {text for text in texts_of_tools() if "--" in text}
        self.assertEqual(named, NAMES_AN_OPTION)
        for name, call, _ in calls():
            fields = [field for field in call.args[1:] if isinstance(field, ast.Call)]
            has = any("Remedy" in ast.unparse(field.func) for field in fields)
            self.assertEqual(has, has and name == "messages.py", ast.unparse(call))

    def test_remedies_are_options(self) -> None:
        helps = support.help_of("label-table") + support.help_of("label-print")
        known = set(re.findall("--([a-z][a-z-]*)", helps))
        self.assertGreater(len(remedies()), 20)
        self.assertEqual(remedies() - known, set())

    def test_no_message_is_half_translated(self) -> None:
        """Read in a language of capitals, messages have no other letters: names and numbers in
        quotes, of characters and of encodings apart.
        """
        table = Path(support.TESTS, "prices_wrong.txt").read_text().splitlines()
        prices = [f"4006381333931\tA\t{line}\n" for line in table if line[:1] != "#"]
        wrong_prices = "EAN\tN\tP\n" + "".join(prices)
        twice = "EAN;N;N;P\n4006381333931;;;1\n"
        of_code = ["--code", "EAN"]
        tables = {
            "wrong prices": (wrong_prices, PRICED),
            "prices with a pattern": (wrong_prices, [*PRICED, "--price-as", "0.00 €"]),
            "wrong codes": ("\n".join(["EAN", *WRONG_CODES, ""]), of_code),
            "wrong data": (
                "\n".join(["EAN", *WRONG_DATA, ""]),
                [*of_code, "--symbology", "code128"],
            ),
            "columns": (twice, ["--code", "X"]),
            "a column twice": (twice, [*of_code, "--text", "N"]),
            "where": ("EAN;N\n4006381333931;X\n", [*of_code, "--where", "N=Y"]),
            "nothing": ("EAN\n", of_code),
            "a quote": ('EAN;N\n4006381333931;"X\n', of_code),
            "empty": ("EAN;N\n4006381333931;\n\n96385074;X\n", [*of_code, "--title", "N"]),
        }
        lines = 0
        for name, (text, words) in tables.items():
            capitals: Any = {
                "_": in_capitals,
                "ngettext": lambda text, plural, count: in_capitals(text if count == 1 else plural),
            }
            with mock.patch.multiple("labeltools.common.text", **capitals):
                ran = support.run_here("label-table", *words, "--summary", input=text.encode())
            for line in support.messages(ran):
                said = re.sub(NO_WORDS, "", line.partition(": ")[2])
                self.assertNotRegex(said, r"(?!(?:ean|upca|ean13|ean8)\b)\b[a-z]{2}", name)
                lines += 1
        self.assertGreater(lines, 60)

    def ran(self, language: str, *words: Any, **more: str) -> "subprocess.CompletedProcess[str]":
        """What a command writes for who speaks a language."""
        with tempfile.TemporaryDirectory() as folder:
            environment = {**support.speaking(language, folder), **more}
            return subprocess.run(words, env=environment, capture_output=True, text=True)

    def test_counts_have_their_plurals(self) -> None:
        code = "from labeltools.tables.summary import rows_text; "
        code += "from labeltools.common.text import translated; "
        code += "print(*(translated(rows_text(count)) for count in (0, 1, 3)), sep=', ')"
        for language, said in (
            ("de", "0 Zeilen, 1 Zeile, 3 Zeilen"),
            ("fr", "0 ligne, 1 ligne, 3 lignes"),
        ):
            ran = self.ran(language, sys.executable, "-c", code, PYTHONPATH=str(support.TOOLS))
            self.assertEqual(ran.stdout, f"{said}\n", ran.stderr)

    def test_numbers_have_the_signs_of_the_language(self) -> None:
        code = "from labeltools.common.text import Text, translated; "
        code += "print(translated(Text('{:.1f} {:,} {} {}', 5.25, 10000, 1000, '1.5')))"
        for language, said in (
            ("en", "5.2 10,000 1000 1.5"),
            ("de", "5,2 10.000 1000 1.5"),
            ("fr", "5,2 10\u202f000 1000 1.5"),
        ):
            ran = self.ran(language, sys.executable, "-c", code, PYTHONPATH=str(support.TOOLS))
            self.assertEqual(ran.stdout, f"{said}\n", ran.stderr)

    @support.slow
    def test_who_speaks_a_language_reads_it(self) -> None:
        """Without a translation it is English."""
        with tempfile.TemporaryDirectory() as folder:
            table = Path(folder, "artikel.csv")
            table.write_text(TABLE)
            for language, first, second, last in (
                (
                    "de",
                    "Zeile 2: 4006381333932: eine Ziffer ist falsch (zu diesen Ziffern gehört als letzte die 1)",
                    'Zeile 3: Spalte 3 ("Preis") hat "1E3", was kein Preis ist',
                    "1 Etikett aus 1 Zeile: 1 EAN-13; Preis 2,50; 1 Preis ohne Währung; "
                    "2 Zeilen übersprungen",
                ),
                (
                    "fr",
                    "ligne 2 : 4006381333932 : un chiffre est faux (avec ces chiffres, le dernier serait 1)",
                    'ligne 3 : colonne 3 ("Preis") a "1E3", qui n\'est pas un prix',
                    "1 étiquette pour 1 ligne : 1 EAN-13; prix 2,50; 1 prix sans devise; "
                    "2 lignes ignorées",
                ),
                (
                    "en",
                    "row 2: 4006381333932: a digit is wrong (with these digits the last one would be 1)",
                    'row 3: column 3 ("Preis") has "1E3", which is not a price',
                    "1 label from 1 row: 1 EAN-13; price 2,50; 1 price without a currency; "
                    "2 rows skipped",
                ),
            ):
                ran = self.ran(language, support.TOOLS / "label-table", *OPTIONS, table)
                said = ran.stderr.replace("\u00a0", " ").splitlines()
                self.assertTrue(said[0].startswith(f"label-table: {first}"), said[0])
                self.assertTrue(said[1].startswith(f"label-table: {second}"), said[1])
                self.assertEqual(said[-1], f"label-table: {last}")
                self.assertEqual("row" in ran.stderr, language == "en")
                self.assertIn('"row":4', ran.stdout)

    @support.slow
    def test_bad_arguments_are_said_in_german(self) -> None:
        """argparse says them, and what it says is looked for in the texts of the tools."""
        for words, said in (
            ("label-table --cod EAN", "unbekannte Argumente: --cod"),
            ("label-table --code", "Argument --code: ein Wert fehlt"),
            ("label-print --grid x", "Argument --grid: 'x': in der Form 3x8 schreiben"),
        ):
            tool, *arguments = words.split()
            ran = self.ran("de", support.TOOLS / tool, *arguments)
            self.assertEqual(ran.returncode, 2)
            last = ran.stderr.splitlines()[-1]
            self.assertTrue(last.startswith(f"{tool}: Fehler: {said}"), last)

    def test_what_the_library_refuses_is_said_in_german(self) -> None:
        """Its reasons are those of labels(1), which stay English."""
        source = (support.TOP / "crates/labelcore/src/message.rt").read_text()
        cases = source.partition("fn first_words")[2].partition("\n}")[0]
        texts = [reason.template for reasons in REASONS.values() for reason in reasons]
        for first in re.findall(r'=> "([^"]+)"', cases):
            self.assertEqual(len([text for text in texts if text.startswith(first)]), 1, first)
        for number, message, template, fields in (
            (7, "check digit is 2, should be 1", "check digit is {}, should be {}", ("2", "1")),
            (10, "data does not fit version 10-H", "data does not fit version 10-{}", ("H",)),
            (4, "no data", "no data", ()),
            (99, "something new", "{}", ("something new",)),
        ):
            text = refused_line(number, message).problem.what
            self.assertEqual((str(text), text.template), (message, template))
            self.assertEqual(text.fields, fields)

    def test_faults_have_the_numbers_of_the_library(self) -> None:
        """Each has a reason."""
        header = (support.TOP / "lib/labels.h").read_text()
        names = re.findall(r"^    LABELS_(\w+)", header.partition("enum labels_code {")[2], re.M)
        for fault in LineFault:
            self.assertEqual(names[fault], fault.name)
        self.assertEqual({*REASONS}, {*LineFault})


if __name__ == "__main__":
    unittest.main()
