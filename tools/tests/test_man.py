"""The man pages of the tools: clean, and complete."""

import re
import subprocess
import unittest
from contextlib import ExitStack
from unittest import mock

import support
from labeltools.commands import label_print, label_table
from labeltools.common import budget, report
from labeltools.layout import area, needs
from labeltools.lines import file
from labeltools.paper.sizes import A4
from labeltools.printing import job
from labeltools.printing.press import Press
from labeltools.sending import network, outlets, stream, watch
from labeltools.sheets import workbook

PAGES = sorted((support.TOP / "man").glob("label*.[15]"))
TOOLS = sorted(path.name for path in support.TOOLS.glob("label-*"))

# What a page says of an option that is left out.
NAMED = re.compile(
    r"(?<= )\((?:A4: )?([\w. ]+?)(?:; [^)]*)?\)(?=[,.:]| *$)|(\w+) \(the default\)"
    r"|The default is (\w+)\.|(\w+), which is the default"
)
NUMBER = re.compile(r"LABELS_[A-Z0-9_]+")
# Numbers of label-print(1) and of label-table(1) and (5), and what they are in the tools.
NUMBERS = (
    (r"pdf, which takes (\d+)", job.DRAWING_DPI),
    (r"sheets are drawn at (\d+) dpi", job.DRAWING_DPI),
    (r"on a port \((\d+)\)", network.PORT),
    (r"no connection is made in (\d+) seconds", network.CONNECT),
    (r"takes nothing for (a minute)", {60.0: "a minute"}.get(outlets.STUCK)),
    (r"does not change for (\d+) seconds", watch.IDLE),
    (r"some are left after (\d+) seconds", watch.LONGEST),
    (r"seconds and (\d+) more for each label", watch.SLOWEST),
    (r"waits (\d+) seconds for that", network.FAREWELL),
    (r"(a twentieth) of a second", {0.05: "a twentieth"}.get(network.REGRET)),
    (r"within (\d+) seconds if the FIFO", stream.LOOK),
    (r"drawing that takes (\d+) seconds", budget.PAGE_SECONDS.most(0)),
    (r"seconds or (\d+) MB", budget.PAGE_MEMORY.most(0) // budget.MILLION),
    (r"the smallest \(([\d.]+)\)", needs.LEAST_TEXT),
    (r"above 60 mm, at most ([\d.]+) mm", area.LARGEST_MODULE),
    (
        r"at most (nine) such messages",
        {8: "nine"}.get(report.MOST_REASONS),
    ),  # and that of the others
    (r"rows that were skipped, at most (\d+)", file.MOST_LEFT_OUT),
    (r"CSV of more than (\d+) MB", budget.CSV.most(0) // budget.MEGABYTE),
    (r"more than (\d+) seconds of the processor", budget.SECONDS.most(0)),
    (r"and (\d+) more for each million", budget.SECONDS.each * budget.MILLION),
    (r"a file of more than (\d+) MB", budget.ANY_INPUT.most(0) // budget.MEGABYTE),
    (r"than (\d+) rows or", workbook.MOST_ROWS),
    (r"rows or (\d+) columns", workbook.MOST_COLUMNS),
)

# What a page says of a status: the tool, its arguments, its lines, and words of that paragraph.
ROLL, CODE = ("--paper", "60x40", "--to", "pdf"), ("--code", "EAN")
STATUSES = (
    ("labels", (), "ean8 7351353\n", 0, "No line was refused"),
    ("labels", (), "ean8 1\n", 1, "one line was refused"),
    ("labels", ("--no",), "", 2, "arguments are bad"),
    ("labels", ("/no/file",), "", 3, "could not be opened"),
    ("label-table", CODE, "EAN\n96385074\n", 0, "has become a line"),
    ("label-table", CODE, "EAN\n96385074\n1\n", 1, "row was skipped"),
    ("label-table", ("--no",), "", 2, "arguments are wrong"),
    ("label-print", ROLL, "ean8 7351353\n", 0, "Each label was written"),
    ("label-print", ROLL, "ean8 7351353\nean8 1\n", 1, "label was skipped"),
    ("label-print", ("--no",), "", 2, "Bad arguments"),
    ("label-print", ROLL, "ean8 7351353\n", 3, "differed from its line"),
)


def text_of(name: str) -> str:
    """The source of a page, with plain dashes."""
    return (support.TOP / "man" / name).read_text(encoding="utf-8").replace("\\-", "-")


def page_of(tool: str) -> str:
    """The page that describes a tool: its own, or the one of the family."""
    own = f"{tool}.1"
    return own if (support.TOP / "man" / own).exists() else "label-tools.1"


class Pages(unittest.TestCase):
    def test_mandoc_and_groff_find_nothing(self) -> None:
        support.needs("mandoc", "groff")
        for page in PAGES:
            for arguments in (
                ["mandoc", "-Tlint", "-W", "warning"],
                ["groff", "-ww", "-man", "-z"],
            ):
                done = subprocess.run([*arguments, str(page)], capture_output=True, text=True)
                self.assertEqual(done.stdout + done.stderr, "", page)

    def test_each_tool_is_named_and_each_option_described(self) -> None:
        self.assertIn("label-print", TOOLS)
        for tool in ("labels", *TOOLS):
            text = text_of(page_of(tool))
            name = re.search(r"^\.SH NAME\n(.*?)^\.SH", text, re.DOTALL | re.MULTILINE)
            self.assertIn(tool, name.group(1) if name else "", tool)
            options = set(re.findall(r"(?<![\w-])--[a-z][a-z-]*", support.help_of(tool)))
            self.assertIn("--help", options, tool)
            self.assertEqual([option for option in options if option not in text], [], tool)

    def test_each_form_is_described(self) -> None:
        paragraph = (
            text_of("label-print.1").partition('.BI --to " FORM"\n')[2].partition("\n.TP")[0]
        )
        parser = label_print.print_parser()
        [forms] = [option.choices or () for option in parser._actions if option.dest == "to"]
        self.assertIn("escpos", forms)
        self.assertEqual([form for form in forms if not re.search(rf"\b{form}\b", paragraph)], [])

    def test_defaults_are_those_of_the_parsers(self) -> None:
        """What a page and the help of a tool say of an option that is left out."""
        support.needs("mandoc")
        named = {
            "--edge": job.EDGE,
            "--paper": A4,
            "--gap": job.NO_GAP,
            "--dots": job.RECEIPT_DOTS,
            "--to": "pdf",
            "--decimal": "LC_NUMERIC",
            "--symbology": "auto",
        }
        parsers = {label_print: label_print.print_parser(), label_table: label_table.table_parser()}
        for (module, parser), least in zip(parsers.items(), (6, 2)):
            options = parser._actions
            options = [option for option in options if option.option_strings and option.default]
            named |= {option.option_strings[0]: option.default for option in options}
            found = defaults_of(f"{module.TOOL}.1")
            self.assertGreaterEqual(len(found), least)
            self.assertEqual(found, {name: typed(named[name]) for name in found})
            for option in options:
                for said in re.findall(r"\(([\w. ]+)\)$", option.help or ""):
                    self.assertEqual(said, typed(option.default), option.option_strings)
        helps = re.findall(r"(--[a-z-]+) .*\[default: (\w+)\]", support.help_of("labels"))
        self.assertEqual(defaults_of("labels.1"), dict(helps))

    def test_statuses_are_those_of_the_tools(self) -> None:
        """The last of label-print is that of a fault: its modules are not drawn, and no label is
        found whose fault that is.
        """
        support.needs("mandoc")
        for tool, words, lines, status, said in STATUSES:
            page = shown(f"{tool}.1").partition("\nEXIT STATUS\n")[2].partition("\nEXAMPLES\n")[0]
            self.assertIn(said, dict(re.findall(r"(?m)^ +(\d) +(.*)$", page))[str(status)])
            with ExitStack() as stack:
                if status == 3 and tool == "label-print":
                    stack.enter_context(mock.patch("labeltools.drawing.pen.Pen.draw_modules"))
                    stack.enter_context(mock.patch.object(Press, "wrong_labels", return_value={}))
                if tool == "labels":
                    done = support.run(support.labels_program(), *words, input=lines.encode())
                else:
                    done = support.run_here(tool, *words, input=lines.encode())
            self.assertEqual(done.returncode, status, (tool, words, done.stderr))

    def test_numbers_are_those_of_the_tools(self) -> None:
        support.needs("mandoc")
        pages = map(shown, ("label-print.1", "label-table.1", "label-table.5"))
        text = " ".join(" ".join(pages).split())
        for pattern, wanted in NUMBERS:
            found = re.search(pattern, text)
            said = found[1].replace(",", "") if found else None
            self.assertEqual(said, typed(wanted), pattern)

    def test_the_library_is_declared_as_in_its_header(self) -> None:
        """Each call, in the synopsis and in the line of names, and each name of a number."""
        support.needs("mandoc")
        header = (support.TOP / "lib/labels.h").read_text(encoding="utf-8")
        page = shown("labels.3")
        synopsis = page.partition("SYNOPSIS")[2].partition("DESCRIPTION")[0]
        declared, described = (calls_in(text) for text in (header, synopsis))
        self.assertGreater(len(declared), 10)
        self.assertEqual(described, declared)
        names = page.partition(" - draw and read")[0].partition("NAME")[2]
        self.assertEqual({*re.findall(r"\w+", names)}, {name for name, _ in declared})
        self.assertEqual({*NUMBER.findall(page)} - {*NUMBER.findall(header)}, set())


def calls_in(text: str) -> set[tuple[str, str]]:
    """The calls that a text declares: the name of each, and the words of its line."""
    found = re.findall(r"^ *(?:LABELS_API )?([a-z][\w *]*?\b(labels_\w+)\([^;]*\));", text, re.M)
    return {(name, "".join(call.split())) for call, name in found}


def shown(page: str) -> str:
    """A page as a reader sees it, a paragraph in a line."""
    command = ["mandoc", "-Tascii", "-O", "width=900", str(support.TOP / "man" / page)]
    return re.sub(".\b", "", subprocess.run(command, stdout=subprocess.PIPE, text=True).stdout)


def defaults_of(page: str) -> dict[str, str]:
    """The defaults that a page names, by option."""
    found = re.findall(r"^ {7}(--[a-z-]+).*\n {14}(.*)$", shown(page), re.M)
    claims = {option: NAMED.search(text) for option, text in found}
    return {option: "".join(claim.groups("")) for option, claim in claims.items() if claim}


def typed(value: object) -> str:
    """A value as it is typed."""
    if isinstance(value, tuple):
        return "x".join(map(typed, value))
    return f"{value:g}" if isinstance(value, float) else str(value)


if __name__ == "__main__":
    unittest.main()
