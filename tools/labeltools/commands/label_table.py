"""The command label-table: its arguments, and what it writes."""

import argparse
import gc
import re
import sys
from contextlib import suppress
from dataclasses import dataclass, field, fields, replace
from functools import partial
from itertools import chain
from typing import Any, Mapping, Sequence, TypeVar

from labeltools.common.apart import apart, Input, read_apart
from labeltools.common.arguments import add_options, number_from, Option, Parser, words_of
from labeltools.common.budget import LINES, TABLE
from labeltools.common.messages import (
    BAD_ARGUMENTS,
    BadArguments,
    Origin,
    Problem,
    quoted,
    Remedy,
    Talk,
    ToolError,
    visible,
    write_message,
)
from labeltools.common.process import CommandTalk, read_file, read_input, standard_output
from labeltools.common.report import listed
from labeltools.common.text import joined, shell_line, shell_word, Text, translated
from labeltools.lines.file import LinesFile, read_lines, Record
from labeltools.lines.symbologies import EAN13, SYMBOLOGIES
from labeltools.sheets.file_options import FileOptions
from labeltools.sheets.number_format import date_section
from labeltools.tables.codes import (
    AUTO,
    CodeRules,
    HAS_DIGIT,
    kind_remedy,
    NAMES,
    NO_ZEROS,
    symbology_named,
    WAYS_OF_DIGITS,
    ZEROS_ARE_LOST,
)
from labeltools.tables.columns import column_word
from labeltools.tables.first_labels import (
    first_labels,
    first_ones,
    line_of_label,
    Proposed,
    said_of_unused,
)
from labeltools.tables.guess import Guess, guess_of
from labeltools.tables.money import ANY_TEXT
from labeltools.tables.old_encoding import old_encoding, OldEncoding
from labeltools.tables.prices import PricePattern
from labeltools.tables.summary import summary_line
from labeltools.tables.table import lines_of_table
from labeltools.tables.table_options import Columns, PriceRules, TableOptions

TOOL = "label-table"
USAGE = """label-table --code COLUMN [OPTIONS] [TABLE]
       label-table [OPTIONS] TABLE, which proposes the columns"""
ABOUT = """Reads a table: CSV, .xlsx or .ods. Writes a line for each label, with its title
and price; labels(1) can draw these lines. A row whose label would be wrong is
skipped, with a message and status 1. For COLUMN give its name, or its number
from 1."""
EXAMPLES = """examples:
  label-table --code EAN --title Name --price Price articles.xlsx > articles.lines
  label-table --code Place --symbology code128 racks.csv > racks.lines

label-print prints these files. man label-table explains the options, and
man 5 label-table says what is accepted in each kind of column."""
SIGNS = {"comma": ",", "point": ".", ",": ",", ".": "."}
MOST_PROPOSED = 8  # commands
# what is found in the columns of options, in the order in which it is named
OF_KINDS = {
    "code": Text("the code"),
    "title": Text("the title"),
    "price": Text("the price"),
    "unit-price": Text("the price of a unit"),
    "old-price": Text("the old price"),
    "copies": Text("the number of labels"),
}
MOST_ALIKE = 50  # messages about rows that differ in their cells alone
AS_IN_TABLE = Remedy("price-as", says=Text("print prices as in the table"), is_less=True)
OF_PRICES = ("price", "unit_price", "old_price")
NOT_TOGETHER = Text("codes of Code 128 and QR have neither lost zeros nor check digits")
NO_PRICES = Text("there are no prices to be given another look")
Read = TypeVar("Read")


@dataclass
class TableTalk(CommandTalk):
    """The talk of label-table: of many messages that are alike, the first ones are written, and the
    others counted.
    """

    tool: str = TOOL
    rows: dict[tuple[object, ...], list[int]] = field(default_factory=dict)

    def note(self, origin: Origin, cell: str, problem: Problem) -> None:
        """Writes why a row is left out."""
        rows = self.rows.setdefault((problem.what.wording, problem.hint.wording), [])
        rows.append(origin.number)
        if len(rows) <= MOST_ALIKE:
            super().note(origin, cell, problem)

    def report_rest(self) -> None:
        """Writes how many more rows were left out for each reason."""
        for rows in self.rows.values():
            more = rows[MOST_ALIKE:]
            if more:
                what = Text("{}: skipped for the same reason as row {}", listed(more), rows[0])
                write_message(TOOL, what)


def dates(text: str) -> str:
    """Returns the pattern of dates that an argument is."""
    date_section(text)
    return text


def look_of_prices(text: str) -> PricePattern | str:
    """Returns the pattern of prices that an argument is, or the word for prices of any text."""
    return text if text == ANY_TEXT.value else PricePattern.from_text(text)


def condition(text: str) -> tuple[str, str]:
    """Returns the column and the value of an argument."""
    column, equals, wanted = text.partition("=")
    if not equals or not column:
        raise ValueError(Text("{}: write it as COLUMN=VALUE", quoted(text)))
    return column, wanted


def sign(text: str) -> str:
    """Returns the decimal sign that an argument is."""
    if text not in SIGNS:
        raise ValueError(Text("{} is neither comma nor point", quoted(text)))
    return SIGNS[text]


def of_form(text: str, form: re.Pattern[str], wrong: Text) -> str:
    """Returns an argument that has a form; what is said of another one has the argument in it."""
    if not form.fullmatch(text):
        raise ValueError(wrong.with_fields(quoted(text)))
    return text


ROW_NUMBER = partial(number_from, least=0, digits=7, example="1")
SETTINGS = partial(
    of_form,
    form=re.compile("[a-z-]+=[A-Za-z0-9]+(?:,[a-z-]+=[A-Za-z0-9]+)*"),
    wrong=Text("{}: write it as height=30 or level=Q,mask=2", ""),
)
DELIMITER = partial(
    of_form,
    form=re.compile('[^"\r\n\0 \x80-\U0010ffff]|tab|none'),
    wrong=Text("{} is not tab, none or a character that can separate cells", ""),
)
SUMMARY = "report at the end how many labels there are, and which prices"
OPTIONS: Mapping[str, Sequence[Option]] = {
    "columns": (
        Option("--code", "COLUMN", "the column of the codes; without it one is proposed"),
        Option("--title", "COLUMN", "a column for the title; may be repeated", is_repeated=True),
        Option(
            "--text", "COLUMN", "a column for the text below; may be repeated", is_repeated=True
        ),
        Option("--price", "COLUMN", "the column of the price"),
        Option("--unit-price", "COLUMN", "the column of the price of a unit, such as 7,96 €/kg"),
        Option("--old-price", "COLUMN", "the column of the price before a reduction"),
        Option("--currency", "COLUMN", "the column of the currency of the prices"),
        Option("--copies", "COLUMN", "the column of the number of labels, 0 to 9999"),
        Option(
            "--variants-of",
            "COLUMN",
            "rows with the same value in it get the title of the first of them",
        ),
    ),
    "rows": (
        Option(
            "--where",
            "COLUMN=VALUE",
            "use only rows that have this value; may be repeated",
            condition,
            is_repeated=True,
        ),
        Option(
            "--new-since",
            "LINES",
            "use only what is new or has changed since this file of lines was made",
        ),
        Option("--hidden", "", "use hidden rows too"),
    ),
    "codes": (
        Option(
            "--symbology",
            "NAME",
            f"{', '.join(NAMES)}, or the column that has them [default: {AUTO}]",
            default=AUTO,
        ),
        Option(
            "--settings",
            "TEXT",
            "settings of all lines, such as height=30 or level=Q,mask=2",
            SETTINGS,
        ),
        Option(
            "--digits",
            "WHICH",
            "what the numbers lack: lost-zeros, up to three in front; or no-check, the check digit",
            choices=WAYS_OF_DIGITS,
            default="",
        ),
        Option("--allow-zeros", "", "accept numbers that end in many zeros, which look rounded"),
        Option("--links", "", "if the cell of a code is a link, draw its address"),
    ),
    "prices and dates": (
        Option(
            "--price-as",
            "FORMAT",
            "write prices like '0,00 €' or '¤ 0.00'; text: they may be any text, as 'on request'",
            look_of_prices,
        ),
        Option("--currency-name", "NAME", "a currency that label-table does not know", default=""),
        Option("--decimal", "SIGN", "decimal sign: comma or point [default: the locale's]", sign),
        Option("--date-as", "FORMAT", "write dates like dd.mm.yyyy", dates),
    ),
    "the file": (
        Option(
            "--sheet", "NAME", "the sheet of .xlsx or .ods [default: the visible one with data]"
        ),
        Option(
            "--delimiter",
            "C",
            "the character between cells of CSV; or the word tab, or none for a single column",
            DELIMITER,
        ),
        Option(
            "--encoding",
            "NAME",
            "the encoding of CSV [default: UTF-8, or as its byte order mark says]",
        ),
        Option(
            "--header-row",
            "N",
            "this row has the names of the columns; 0: no row has them",
            ROW_NUMBER,
        ),
    ),
}


NAMES_OF_OPTIONS = frozenset(option.name for options in OPTIONS.values() for option in options)


def table_parser() -> Parser:
    """Returns the parser of the arguments; but for a few their names are those of fields of
    `TableOptions`, which have their defaults.
    """
    parser = Parser(TOOL, USAGE, ABOUT, EXAMPLES)
    table = "the table; standard input if it is not given, or is -"
    parser.add_argument("table", metavar="TABLE", nargs="?", help=table)
    Option("--summary", "", SUMMARY, target="is_summed").add_to(parser)
    add_options(parser, OPTIONS)
    return parser


def record_of_arguments(kind: type[Read], arguments: argparse.Namespace, **more: Any) -> Read:
    """Returns a record whose fields are the arguments of these names, or what is given beside
    them; a field keeps its default if there is no such argument.
    """
    found = {**vars(arguments), **more}
    names = (field.name for field in fields(kind))
    return kind(**{name: found[name] for name in names if found[name] is not None})


def code_rules(arguments: argparse.Namespace) -> tuple[str | None, CodeRules]:
    """Returns the column of the symbologies, None where all codes have one, and how codes are
    read.
    """
    kind = symbology_named(arguments.symbology)
    rules = record_of_arguments(CodeRules, arguments, symbology=kind or AUTO)
    return None if kind else arguments.symbology, rules


def table_options(words: Sequence[str]) -> TableOptions:
    """Returns the options that words are; raises `BadArguments`, and `ToolError` and `OSError` for
    older lines that cannot be read.
    """
    arguments = table_parser().parse_args(words)
    check_arguments(arguments)
    column, rules = code_rules(arguments)
    several = {name: tuple(getattr(arguments, name)) for name in ("title", "text", "where")}
    older = arguments.new_since
    is_text = arguments.price_as == ANY_TEXT.value
    pattern = None if is_text else arguments.price_as
    return record_of_arguments(
        TableOptions,
        arguments,
        columns=record_of_arguments(Columns, arguments, symbology=column, **several),
        file=record_of_arguments(FileOptions, arguments),
        codes=rules,
        prices=PriceRules(is_text, pattern, arguments.currency_name),
        new_since=None if older is None else older_lines(older),
        table="" if arguments.table in (None, "-") else arguments.table,
    )


def check_arguments(arguments: argparse.Namespace) -> None:
    """Raises `BadArguments` for arguments that are wrong, or do not go together."""
    if arguments.code is None:
        raise BadArguments(Text("the following arguments are required: --code"))
    column, rules = code_rules(arguments)
    if rules.is_free and rules.digits:
        as_they_are = NO_ZEROS if rules.digits == ZEROS_ARE_LOST else HAS_DIGIT
        number = replace(kind_remedy(AUTO), value=rules.symbology, is_less=True)
        raise BadArguments(NOT_TOGETHER, remedies=(as_they_are, number))
    if arguments.variants_of and not arguments.title:
        what = Text("variants have one title, and there is none")
        raise BadArguments(what, Text("name its column"), (Remedy("title"),))
    if arguments.price_as and not any(getattr(arguments, name) for name in OF_PRICES):
        raise BadArguments(NO_PRICES, remedies=(AS_IN_TABLE,))
    if column is None:
        kind = SYMBOLOGIES[EAN13.name if rules.symbology == AUTO else rules.symbology]
        wrong = TableOptions(settings=arguments.settings or "").wrong_setting(kind.name)
        if wrong:
            raise BadArguments(Text("{} has no setting {}", kind.title, wrong))


def propose(words: Sequence[str], arguments: argparse.Namespace) -> None:
    """Writes what the columns of a table seem to be for, and the commands that may be meant, each
    whole and on a line of its own; raises `ToolError` if it cannot be read, or has no codes.
    """
    name, data = read_input(arguments.table, TABLE)
    options = TableOptions(file=record_of_arguments(FileOptions, arguments))
    old, sheet, guess = read_apart(found_in, data, name, options, CommandTalk(TOOL))
    if old:
        words = ["--encoding", old.name, *words]
    if sheet:
        words = ["--sheet", sheet, *words]
    if not guess.codes:
        what = Text("no column of {} seems to have codes", name)
        raise BadArguments(what, Text("name the column that has them"), (Remedy("code"),))
    say_what_is_found(guess, arguments)
    commands = commands_for(guess, words, arguments)
    single, several = Text("this command makes the labels:"), Text("one of these makes the labels:")
    write_message(TOOL, several if len(commands) > 1 else single)
    show_commands(commands, guess, data, name)


def show_commands(commands: Sequence[Sequence[str]], guess: Guess, data: bytes, name: str) -> None:
    """Writes commands, each with the first labels that it makes; and the columns of amounts that
    none of them uses, as they are beside the first label. Raises `ToolError` for a wrong command.
    """
    ways = [*map(table_options, commands)]
    asked = {column for options in ways for column in options.columns.asked}
    words = {place: column_word(guess.names, place) for place in guess.amounts}
    unused = [place for place, word in words.items() if asked.isdisjoint((word, str(place + 1)))]
    proposed = Proposed(ways, [words[place] for place in unused])
    labels = read_apart(first_labels, data, name, proposed, Talk())
    for command, shown in zip(commands, labels.of_ways):
        print(visible(shell_line([TOOL, *command])), file=sys.stderr)
        for label in shown:
            print(f"    {visible(translated(line_of_label(label)))}", file=sys.stderr)
    if labels.problem:
        none = Text("the first rows give no label: {}", labels.problem.what)
        write_message(TOOL, replace(labels.problem, what=none).line)
    if not unused:
        return
    first = next(iter(chain(*labels.of_ways)), Record())
    texts = dict(zip(first.names, first.text))
    cells = [texts.get(guess.names[place]) or guess.examples[place] for place in unused]
    pairs = [f"{shell_word(words[place])} {cell}" for place, cell in zip(unused, cells)]
    is_priced = any(options.columns.price for options in ways)
    write_message(TOOL, said_of_unused(pairs, is_priced).line)


def found_in(
    data: bytes, name: str, options: TableOptions, talk: Talk
) -> tuple[OldEncoding | None, str, Guess]:
    """Returns the encoding of a table, if that is guessed, the sheet that is meant, where there are
    several, and a guess of it; raises `ToolError`.
    """
    old = None if options.file.encoding else old_encoding(data, name, options, talk)
    if old:
        talk.say(old.problem)
        options = replace(options, file=replace(options.file, encoding=old.name))
    return old, *guess_of_sheets(data, name, options)


def is_given(arguments: argparse.Namespace) -> bool:
    """Returns whether it was said how the codes are read."""
    return code_rules(arguments) != (None, CodeRules())


def commands_for(
    guess: Guess, words: Sequence[str], arguments: argparse.Namespace
) -> Sequence[Sequence[str]]:
    """Returns the words of the commands that may be meant, each with those that were given: one for
    each way of reading the codes, and for each answer to what only the keeper knows, as long as
    they are not too many.
    """
    ways = [
        (place, rules)
        for place, reading in guess.codes.items()
        for rules in ([CodeRules()] if is_given(arguments) else reading.rules)
    ][:MOST_PROPOSED]
    answers: list[Mapping[str, int]] = [{}]
    for kind, places in guess.doubts.items():
        is_asked = kind != "code" and not getattr(arguments, kind)
        if is_asked and len(answers) * len(places) * len(ways) <= MOST_PROPOSED:
            answers = [{**answer, kind: place} for answer in answers for place in places]
    return [
        command_for(guess, {**guess.columns, **answer, "code": place}, rules, words, arguments)
        for place, rules in ways
        for answer in answers
    ]


def guess_of_sheets(data: bytes, name: str, options: TableOptions) -> tuple[str, Guess]:
    """Returns a guess of a table, and the sheet that alone has EAN or UPC, where there are several;
    raises `ToolError`, which offers only those that have some.
    """
    try:
        return "", guess_of(data, name, options, Talk())
    except ToolError as error:
        found = guesses_of_sheets(data, name, options, error)
        if len(found) == 1:
            return found.popitem()
        if not found:
            raise
        right = tuple(remedy for remedy in error.remedies if remedy.value in found)
        raise ToolError.of(replace(error.problem, remedies=right), error.status) from error


def guesses_of_sheets(
    data: bytes, name: str, options: TableOptions, error: ToolError
) -> dict[str, Guess]:
    """Returns the guesses of the sheets with EAN or UPC, by their names, which an error has."""
    found = {}
    for remedy in error.remedies:
        if remedy.option == "sheet":
            file = replace(options.file, sheet=remedy.value)
            with suppress(ToolError):
                guess = guess_of(data, name, replace(options, file=file), Talk())
                if any(reading.are_sure for reading in guess.codes.values()):
                    found[remedy.value] = guess
    return found


def say_what_is_found(guess: Guess, arguments: argparse.Namespace) -> None:
    """Writes in which columns something was found, which others there are, and what only the keeper
    knows.
    """
    found = {kind: [place] for kind, place in guess.columns.items() if kind != "code"}
    found |= {kind: [*places] for kind, places in guess.doubts.items() if len(places) == 1}
    if len(guess.codes) == 1:
        found = {"code": [*guess.codes], **found}
    if "title" in guess.beside:
        found["title"] = [*found["title"], guess.beside["title"]]
    parts = [
        Text("{} in {}", name, words_for(guess, found[kind]))
        for kind, name in OF_KINDS.items()
        if kind in found and not getattr(arguments, kind.replace("-", "_"))
    ]
    if parts:
        write_message(TOOL, Text("found {}", joined(", ", parts)))
    for kind, places in guess.others.items():
        if kind in guess.columns:
            others = words_for(guess, places)
            write_message(TOOL, Text("others may have {}, too: {}", OF_KINDS[kind], others))
    for place, reading in guess.codes.items():
        if reading.problem and not is_given(arguments):
            name = column_word(guess.names, place)
            what = Text("most codes in {} are not EAN or UPC: {}", name, reading.problem)
            write_message(TOOL, what)
    for kind, places in guess.doubts.items():
        if len(places) > 1:
            which = words_for(guess, places)
            write_message(
                TOOL, Text("only you know which column has {}: {}", OF_KINDS[kind], which)
            )


def words_for(guess: Guess, places: Sequence[int]) -> str:
    """Returns the columns at some places as a command has them, the first ones of many."""
    return ", ".join(first_ones([shell_word(column_word(guess.names, at)) for at in places]))


def command_for(
    guess: Guess,
    columns: Mapping[str, int],
    rules: CodeRules,
    words: Sequence[str],
    arguments: argparse.Namespace,
) -> Sequence[str]:
    """Returns the words of the command that has some columns, and reads the codes by rules."""
    options: dict[str, Any] = {
        kind: column_word(guess.names, columns[kind])
        for kind in OF_KINDS
        if kind in columns and not getattr(arguments, kind.replace("-", "_"))
    }
    if "title" in options and "title" in guess.beside:
        options["title"] = [options["title"], column_word(guess.names, guess.beside["title"])]
    options |= more_options(guess, arguments, columns.get("price"))
    options["symbology"] = rules.symbology if rules.is_free else ""
    options["digits"] = rules.digits
    if arguments.header_row is None:
        is_number = column_word(guess.names, columns["code"]).isdecimal()
        is_first = guess.header == 1
        options["header-row"] = "" if is_first and not is_number else str(guess.header)
    return [*words_of(options), *words]


def more_options(guess: Guess, arguments: argparse.Namespace, price: int | None) -> dict[str, str]:
    """Returns what a proposed command has for variants, and for prices as programs write numbers,
    if nothing was given for them.
    """
    found = {}
    if "variants-of" in guess.beside and not arguments.title:
        found["variants-of"] = column_word(guess.names, guess.beside["variants-of"])
    is_said = arguments.price or arguments.price_as
    if price is not None and price in guess.formats and not (is_said or arguments.currency):
        if "currency" in guess.beside:
            found["currency"] = column_word(guess.names, guess.beside["currency"])
        found["price-as"] = guess.formats[price]
    return found


def older_lines(path: str) -> LinesFile:
    """Returns the lines of an older file; one that is empty has none. Raises `ToolError` for a file
    that is not of label-table, such as an older table.
    """
    data = read_file(path)
    source = Input(path, len(data), LINES)
    lines = apart(source, lambda _: read_lines(data, path), Talk())
    if any(record.symbology not in SYMBOLOGIES for record in lines.records):
        hint = Text("give the file that label-table made of a table")
        raise ToolError(Text("{} has lines that are not of label-table", path), hint)
    return lines


def run() -> int:
    """Reads the table, and then writes its lines; returns the status."""
    gc.disable()  # no row leaves a cycle behind, and looking for them takes a tenth of the time
    words = sys.argv[1:]
    arguments = table_parser().parse_args(words)
    if arguments.code is None and arguments.table not in (None, "-"):
        propose(words, arguments)
        return BAD_ARGUMENTS
    options = table_options(words)
    output = standard_output()
    name, data = read_input(arguments.table, TABLE)
    talk = TableTalk()
    lines = read_apart(lines_of_table, data, name, options, talk)
    talk.report_rest()
    if arguments.is_summed or sys.stderr.isatty():
        talk.say(Problem(summary_line(lines.totals)))
    output.write(lines.output)
    return 1 if lines.left_out else 0
