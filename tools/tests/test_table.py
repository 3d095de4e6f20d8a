"""Tests of tools/label-table: each encoding, delimiter and fault of a table of text, and what it
writes and reports.

The check digits are those of numbers in print: 4006381333931 (a pencil), 9780306406157 (a book),
73513537 (EAN-8) and 036000291452 (UPC-A). What spreadsheets' own files say is in
test_table_workbooks.
"""

import re
import unittest
from pathlib import Path
from typing import Sequence

import support
from labeltools.common.messages import quoted as shown
from table_test import BOOK, parts_of, PENCIL, REFUSED, SMALL, SOAP, TableTest

WRONG = "a digit is wrong (with these digits the last one would be 7); compare the number with "
WRONG += "the article"
NO_VALUE = "which the spreadsheet writes if it has no value to show: correct its formula"
BECOMES = "which would become part of the code"
AROUND = {
    "setting": f"begins with a setting, {BECOMES}: delete it, and give it for all codes (--settings)",
    "before": f"begins with a space, {BECOMES}: delete the space",
    "after": f"ends in a space, {BECOMES}: delete the space",
    "quotes": f"is in quotes, {BECOMES}: delete the quotes",
    "apostrophe": f"begins with an apostrophe, {BECOMES}: delete the apostrophe",
    "asterisks": f"is between asterisks, {BECOMES}: delete the asterisks",
}
EMPTY = (
    "standard input is empty: nothing is printed; did the command that wrote it report an error?"
)
OTHER = (
    "is it another kind of code? draw the codes as Code 128 (--symbology code128) or draw the codes"
    " as QR Code (--symbology qr)"
)


class Encodings(TableTest):
    FIX = "save it as UTF-8, or choose what reads well; "
    TEXT = f"Nummer;Größe;Name\r\n{PENCIL};ß;Käse\r\n{SMALL};ü;Öl €\r\n"
    ARGUMENTS = "--code Nummer --title Name --text Größe".split()

    def check_letters(self, data: bytes, *arguments: str) -> None:
        for locale in support.LOCALES:
            with self.subTest(locale=locale, arguments=arguments):
                done = support.run(
                    "label-table", *self.ARGUMENTS, *arguments, input=data, locale=locale
                )
                self.assertEqual(support.messages(done), [])
                pencil = f'#{{"row":2,"title":"Käse","text":{{"Größe":"ß"}}}}\nean13 {PENCIL}\n'
                small = f'#{{"row":3,"title":"Öl €","text":{{"Größe":"ü"}}}}\nean8 {SMALL}\n'
                end = '#{"end":1,"lines":2,"left_out":[],"left_out_count":0}\n'
                self.assertEqual(done.stdout.decode(), '#{"labels":1}\n' + pencil + small + end)

    @support.slow
    def test_encodings_that_are_seen_or_given(self) -> None:
        for mark, codec, given in (
            (b"", "utf-8", ""),
            (b"\xef\xbb\xbf", "utf-8", ""),
            (b"\xef\xbb\xbf", "utf-8", "UTF-8"),
            (b"\xff\xfe", "utf-16-le", ""),
            (b"\xfe\xff", "utf-16-be", ""),
            (b"\xff\xfe", "utf-16-le", "utf-16-le"),
            (b"\xff\xfe\0\0", "utf-32-le", ""),
            (b"\0\0\xfe\xff", "utf-32-be", ""),
            (b"", "utf-16-le", "utf-16-le"),
            (b"", "utf-16-be", "utf-16-be"),
            (b"", "cp1252", "cp1252"),
        ):
            words = ["--encoding", given] if given else []
            self.check_letters(mark + self.TEXT.encode(codec), *words)
        for text, word in ((self.TEXT, "Größe"), ("code\n1\n", "code")):
            problem = f"standard input is not UTF-8, as line 1 shows: {self.FIX}{word}"
            problem += " (--encoding utf-16-le)"
            self.check(text.encode("utf-16-le"), ["--code", "1"], [], [problem], 1)
        latin = "--code code --symbology qr --encoding latin-1".split()
        notice = 'row 2: some scanners show "Käse" wrongly; a QR code without accents is safe'
        self.check("code\nKäse\n".encode("latin-1"), latin, ["qr Käse"], [notice])

    def test_bytes_that_do_not_decode(self) -> None:
        problem = (
            f"standard input is not UTF-8, as line 3 shows: {self.FIX}Füße (--encoding cp1252)"
        )
        self.check(
            f"code;name\r\n{PENCIL};a\r\n{SMALL};F".encode() + b"\xfc\xdfe",
            ["--code", "1"],
            [],
            [problem],
            1,
        )
        problem = (
            "standard input is not UTF-16-LE, as line 1 shows: it is cut off or damaged, save it"
            " again"
        )
        self.check(b"\xff\xfea", ["--code", "1"], [], [problem], 1)
        problem = f"standard input is not CP1252, as line 2 shows: {self.FIX}Ѓ (--encoding cp1251)"
        problem += " or ü (--encoding cp850) or Б (--encoding cp866) or Å (--encoding mac_roman)"
        self.check(b"code\n\x81\n", "--code 1 --encoding windows-1252".split(), [], [problem], 1)

    def test_encodings_that_are_none(self) -> None:
        for encoding in ("x", "rot13", "base64", "ä"):
            problem = f'the encoding "{encoding}" is unknown: give one as cp1252 (--encoding)'
            self.check(
                f"code\n{SMALL}\n", ["--code", "code", "--encoding", encoding], [], [problem], 2
            )

    def test_encoding_told_that_the_file_contradicts(self) -> None:
        for encoding in "latin-1 cp1252 cp850 mac-roman koi8-r shift_jis gb18030".split():
            problem = "the letters of standard input are stored as UTF-8: read the letters as they"
            problem += " are stored (leave out --encoding)"
            arguments = ["--code", "code", "--symbology", "qr", "--encoding", encoding]
            self.check("code\nKäse\n", arguments, [], [problem], 2)
            self.check("\ufeffcode\nabc\n", arguments, [], [problem], 2)
        problem = (
            f"standard input is not ISO8859-1, as line 2 shows: {self.FIX}€ (--encoding cp1252)"
            " or Ђ (--encoding cp1251) or Ç (--encoding cp850) or А (--encoding cp866)"
        )
        self.check(
            "code\n5 €\n".encode("cp1252"), "--code 1 --encoding latin-1".split(), [], [problem], 1
        )

    def test_files_that_are_no_text(self) -> None:
        problem = (
            "standard input is an old .xls, XML, HTML, or has a password: save it as .xlsx,"
            " without a password"
        )
        self.check(b"\xd0\xcf\x11\xe0\xa1\xb1\x1a\xe1\0\0", ["--code", "1"], [], [problem], 1)
        for start in (
            "<?xml version='1.0'?><office:document>",
            "\n<!DOCTYPE html>",
            "<HTML><table>",
            "<table><tr>",
        ):
            self.check(start, ["--code", "1"], [], [problem], 1)
        problem = "standard input is a picture or a PDF: give the table itself: .xlsx, .ods or CSV"
        for data in (b"\x89PNG\r\n", b"\xff\xd8\xff", b"%PDF-"):
            self.check(data, ["--code", "1"], [], [problem], 1)


class Cells(TableTest):
    def test_delimiters_without_being_told(self) -> None:
        for delimiter in (";", ",", "\t", "|"):
            table = f"code{delimiter}name\n{PENCIL}{delimiter}a\n{SMALL}{delimiter}b\n"
            self.check(table, ["--code", "code"], [f"ean13 {PENCIL}", f"ean8 {SMALL}"])
            self.check(
                table,
                ["--code", "1", "--delimiter", delimiter],
                [f"ean13 {PENCIL}", f"ean8 {SMALL}"],
            )
        self.check(
            f"name\tcode\na\t{SMALL}\n", "--code 2 --delimiter tab".split(), [f"ean8 {SMALL}"]
        )
        self.check(
            f"name|code\na|{SMALL}\n", "--code code --delimiter |".split(), [f"ean8 {SMALL}"]
        )

    def test_delimiter_among_other_marks(self) -> None:
        self.check(
            f"code;price, net, EUR\n{PENCIL};1,20\n", ["--code", "code"], [f"ean13 {PENCIL}"]
        )
        self.check(f"name; size,code\na,{PENCIL}\n", ["--code", "2"], [f"ean13 {PENCIL}"])
        self.check(f"name; size,code\na; b,{PENCIL}\n", ["--code", "code"], [f"ean13 {PENCIL}"])
        self.check(f'"price; net",code\n"1;20",{PENCIL}\n', ["--code", "2"], [f"ean13 {PENCIL}"])
        self.check(
            f"{PENCIL};a;1,20\n{SMALL};b;0,80\n",
            "--code 1 --header-row 0".split(),
            [f"ean13 {PENCIL}", f"ean8 {SMALL}"],
        )
        self.check(f'size 5"\tcode\n3"\t{SMALL}\n', ["--code", "code"], [f"ean8 {SMALL}"])

    def test_line_that_names_the_delimiter_to_excel(self) -> None:
        problem = f"row 3: 73513538: {WRONG}"
        self.check(
            f"sep=;\r\ncode;a\r\n{SMALL};b\r\n73513538;c\r\n",
            ["--code", "code"],
            [f"ean8 {SMALL}"],
            [problem],
            1,
        )
        self.check(f"sep=|\r\ncode|a\r\n{SMALL}|b\r\n", ["--code", "code"], [f"ean8 {SMALL}"])

    def test_told_delimiter_that_row_1_does_not_have(self) -> None:
        problem = 'row 1 has ";" between cells, and not ",": find what is between'
        problem += " cells (leave out --delimiter)"
        self.check(
            "code;name\nA1;a\n", "--code 1 --symbology qr --delimiter ,".split(), [], [problem], 2
        )

    def test_line_ends(self) -> None:
        for end in ("\n", "\r\n", "\r"):
            for last in (end, ""):
                table = f"code;name{end}{PENCIL};a{end}{SMALL};b{last}"
                self.check(table, ["--code", "code"], [f"ean13 {PENCIL}", f"ean8 {SMALL}"])

    def test_quotes(self) -> None:
        table = f'"name","code"\r\n"soap, ""soft""","{PENCIL}"\r\n5" nail,{SMALL}\r\n'
        labels = self.labels(table, "--code", "code", "--title", "name")
        self.assertEqual(
            labels, [{"row": 2, "title": 'soap, "soft"'}, {"row": 3, "title": '5" nail'}]
        )

    def test_row_numbers_are_those_of_the_spreadsheet(self) -> None:
        table = f'code;note\n{PENCIL};"two\r\nlines\n"\n;x\n{SMALL};y\n73513538;"a\nb"\n'
        problems = [
            'row 3: column 1 ("code") is empty',
            f"row 5: 73513538: {WRONG}",
        ]
        self.check(table, ["--code", "code"], [f"ean13 {PENCIL}", f"ean8 {SMALL}"], problems, 1)

    def test_quotes_that_do_not_match(self) -> None:
        open_quote = "row 2: a quote is not closed; this row and all below it are skipped"
        self.check(f'code;name\n{SMALL};"a\n{SMALL};b\n', ["--code", "code"], [], [open_quote], 1)
        self.check(
            f'code;name\n{SMALL};"a\n{SMALL};"b"\n{SMALL};c\n',
            ["--code", "code"],
            [],
            [open_quote],
            1,
        )
        text_after = 'row 2: text after a closing quote: write a quote in a quoted cell twice ("")'
        self.check(
            f'code;name\n{PENCIL};"a"b\n{SMALL};c\n',
            ["--code", "code"],
            [f"ean8 {SMALL}"],
            [text_after],
            1,
        )
        in_header = f"standard input: {open_quote.replace('row 2', 'row 1')}"
        self.check(f'"code;name\n{SMALL};"a', ["--code", "code"], [], [in_header], 1)

    def test_what_follows_text_after_a_closing_quote_in_another_line_is_left_out(self) -> None:
        text_after = 'text after a closing quote: write a quote in a quoted cell twice ("")'
        for row in (f'{PENCIL};"a\nb"c\n{SMALL};d', f'{PENCIL};"a"b;"c\n{SMALL};d\n"\n{SMALL};e'):
            problem = "a quote is not closed" if 'b"c' in row else text_after
            problem = f"row 2: {problem}; this row and all below it are skipped"
            self.check(f"code;name\n{row}\n", ["--code", "code"], [], [problem], 1)

    def test_a_cell_beyond_what_python_reads(self) -> None:
        long = "x" * 131073
        table = f"code;name\n{SMALL};{long}\n{PENCIL};b\n"
        self.check(table, ["--code", "code"], [f"ean8 {SMALL}", f"ean13 {PENCIL}"])
        problem = (
            'row 2: column 2 ("name") has "'
            + "x" * 37
            + '...", and at most 131068 characters of a cell are read'
        )
        self.check(table, "--code code --text name".split(), [f"ean13 {PENCIL}"], [problem], 1)
        self.check(
            f'code;name\n{SMALL};"{long}\n"\n{PENCIL};b\n',
            ["--code", "1"],
            [f"ean8 {SMALL}", f"ean13 {PENCIL}"],
        )

    def test_rows_of_other_lengths(self) -> None:
        rows = [f"{PENCIL};a;b", PENCIL, f"{PENCIL};1,20;a;b", f"{SMALL};a;b;;", f"{SMALL};;"]
        problems = [
            "row 3: the row has 1 of 3 cells: the file may be cut off, so export it again",
            (
                "row 4: the row has 4 cells and row 1 has 3: a cell that contains the delimiter has"
                " to be in quotes"
            ),
            (
                "row 5: the row has 5 cells and row 1 has 3: a cell that contains the delimiter has"
                " to be in quotes"
            ),
        ]
        table = "\n".join(["code;x;y", *rows])
        self.check(table, ["--code", "code"], [f"ean13 {PENCIL}", f"ean8 {SMALL}"], problems, 1)
        self.check(f"code;x;;\n{SMALL};a\n", ["--code", "code"], [f"ean8 {SMALL}"])

    def test_blank_rows(self) -> None:
        table = f"code;a\n{SMALL};b\n\n{SMALL};b\n;\n{SMALL};b\n;\n\n"
        self.check(table, ["--code", "1"], [f"ean8 {SMALL}"] * 3)

    def test_cells_that_no_label_can_show(self) -> None:
        unseen = {
            "7351\n3537": "a line end",
            "7351\r\n3537": "a line end",
            "A\t1": "a tab",
            "\u200e73513537": "left-to-right mark (U+200E)",
            "A\x1d1": "control character (U+001D)",
            "A\u00a01": "no-break space (U+00A0)",
            "A\u202f1": "narrow no-break space (U+202F)",
            "A\u30001": "ideographic space (U+3000)",
            "A\u20611": "function application (U+2061)",
            "A\ufe0f1": "variation selector-16 (U+FE0F)",
            "A\U000e01001": "variation selector-17 (U+E0100)",
            "A\u31641": "hangul filler (U+3164)",
            "A\u20281": "line separator (U+2028)",
        }
        errors = ("#REF!", "#N/A", "#WERT!", "#DIV/0!", "####", "Err:502", "#ЗНАЧ!")
        wanted = {
            "": "is empty",
            " ": "is empty",
            **{
                cell: f"has {name} in the cell {shown(cell)}, which nobody sees: delete it"
                for cell, name in unseen.items()
            },
            "=A1": 'has "=A1", a formula: export its value',
            "K\ufffdse": 'has "K\ufffdse", with the sign of a lost letter (U+FFFD): export the table '
            "again",
            **{cell: f'has "{cell}", {NO_VALUE}' for cell in errors},
        }
        refused = {cell: f'refused: column 1 ("code") {text}' for cell, text in wanted.items()}
        for arguments in ((), ("--symbology", "qr"), ("--symbology", "code128")):
            self.check_cells(arguments, refused)

    def test_a_line_end_behind_a_code(self) -> None:
        for end in ("\n", "\r\n", "\r"):
            self.check_cells([], {f"{SMALL}{end}": f"ean8 {SMALL}"})
            seen = f"LOT 7{end}".replace("\r", "<U+000D>").replace("\n", "<U+000A>")
            problem = f'refused: "{seen}" {AROUND["after"]}'
            self.check_cells(["--symbology", "code128"], {f"LOT 7{end}": problem})


class Columns(TableTest):
    @support.slow
    def test_by_name_and_by_number(self) -> None:
        table = f'name;"the\ncode";2\na;{SMALL};{PENCIL}\n'
        self.check(table, ["--code", "the code"], [f"ean8 {SMALL}"])
        self.check(table, "--code 3 --header-row 1".split(), [f"ean13 {PENCIL}"])
        self.check(table, "--code 2 --header-row 1".split(), [f"ean13 {PENCIL}"])
        self.check(
            f" Größe ;x\n{SMALL};a\n",
            ["--code", "Größe"],
            [f"ean8 {SMALL}"],
            locales=support.LOCALES,
        )
        problem = 'no column "Länge"; row 1 has 1 "Größe": give the number of one of these columns'
        self.check(f"Größe\n{SMALL}\n", ["--code", "Länge"], [], [problem], 2, support.LOCALES)

    def test_column_that_is_not_there(self) -> None:
        table = f"code;name\n{SMALL};a\n"
        listed = 'row 1 has 1 "code", 2 "name": give the number of one of these columns'
        for column in ("Code", "codes"):
            problem = f'no column "{column}"; row 1 has 1 "code", 2 "name": is it "code"?'
            self.check(table, [f"--code={column}"], [], [problem], 2)
        for column in ("0", "3", "-1", ""):
            self.check(table, [f"--code={column}"], [], [f'no column "{column}"; {listed}'], 2)
        for option in "--title --text --price --copies".split():
            self.check(
                table, ["--code", "1", option, "size"], [], [f'no column "size"; {listed}'], 2
            )

    def test_column_that_is_there_twice(self) -> None:
        problem = 'several columns "code"; row 1 has 1 "code", 2 "name", 3 "code": '
        problem += "give the number of one of these columns"
        table = f"code;name;code\n{SMALL};a;{PENCIL}\n"
        self.check(table, ["--code", "code"], [], [problem], 2)
        self.check(table, ["--code", "3"], [f"ean13 {PENCIL}"])

    def test_no_header(self) -> None:
        table = f"{PENCIL};a\n73513538;b\n"
        problem = f"row 2: 73513538: {WRONG}"
        self.check(table, "--code 1 --header-row 0".split(), [f"ean13 {PENCIL}"], [problem], 1)
        self.check(f"ean;b\n{SMALL};c\n", "--code 1 --header-row 1".split(), [f"ean8 {SMALL}"])
        for column in ("code", "3"):
            problem = f'no column "{column}"; row 1 has 1 "{PENCIL}", 2 "a": give the number of one of these columns'
            self.check(table, ["--code", column, "--header-row", "0"], [], [problem], 2)

    def test_a_number_where_row_1_may_be_an_article(self) -> None:
        hint = "what is it? it is a code (--header-row 0) or it is a name (--header-row 1)"
        rows: Sequence[tuple[list[str], str, str]] = [
            ([], f"{PENCIL};a\n{SMALL};b\n", PENCIL),
            ([], PENCIL, PENCIL),
            ([], "4,00638E+12\tx\n4,00639E+12\ty\n", "4,00638E+12"),
            ([], f"x;1\n{SMALL};2\n", "1"),
            (["--symbology", "code128"], "LOT 7\nSHELF-A\n", "LOT 7"),
            (["--symbology", "code128"], "LOT\nSHELF\n", "LOT"),
            (["--symbology", "qr"], "https://example.com/a\nx\n", "https://example.com/a"),
        ]
        for arguments, table, cell in rows:
            place = 2 if cell == "1" else 1
            problem = f'row 1 has "{cell}" in column {place}: {hint}'
            self.check(table, ["--code", "1", *arguments], [], [problem], 2)
        self.check(
            "LOT 7\nLOT 8\n",
            "--code 1 --symbology code128 --header-row 1".split(),
            ["code128 LOT 8"],
        )
        lots = ["code128 LOT 7", "code128 LOT 8"]
        self.check("LOT 7\nLOT 8\n", "--code 1 --symbology code128 --header-row 0".split(), lots)
        for name in ("EAN-13", "GTIN14", "Code 128", "Artikel-Nr."):
            self.check(f"{name}\n{SMALL}\n", ["--code", "1"], [f"ean8 {SMALL}"])

    def test_a_column_without_a_name_beyond_the_cells_of_a_row(self) -> None:
        problem = "row 2: column 3 is empty"
        self.check(f"a;b;\n1;2\n1;2;{SMALL}\n", ["--code", "3"], [f"ean8 {SMALL}"], [problem], 1)

    def test_tables_without_rows(self) -> None:
        self.check("", ["--code", "1"], [], [EMPTY], 1)
        for table in ("\r\n\r\n", "\ufeff", ";;\n;;\n"):
            self.check(table, ["--code", "1"], [], ["standard input has only empty cells"], 1)
        problem = "standard input has no row below row 1, which has the names of the columns"
        self.check("code;name\n;\n", ["--code", "code"], [], [problem], 1)


class Texts(TableTest):
    def test_what_belongs_to_a_line_is_before_it(self) -> None:
        rows = [
            f"{PENCIL}; Käse;1,20 ;rot;2",
            "73513538;b;2;;1",
            f"{SMALL};;;;0",
            f"{BOOK};c\td;3;;x",
        ]
        table = "\n".join(["code;name;price;colour;copies", *rows, ""])
        done = support.run_here(
            "label-table",
            *"--code code --title name --text colour --price price --copies copies".split(),
            input=table.encode(),
        )
        problems = [
            f"label-table: row 3: 73513538: {WRONG}",
            (
                'label-table: row 5: column 5 ("copies") is "x": copies are a whole number from 0'
                " to 9999"
            ),
            "label-table: row 4 has no title (1 of 2 labels)",
            "label-table: row 4 has no price (1 of 2 labels)",
        ]
        self.assertEqual((done.returncode, support.messages(done)), (1, problems))
        written = [
            '#{"labels":1}',
            '#{"row":2,"title":"Käse","text":{"colour":"rot"},"price":"1,20","copies":2}',
            f"ean13 {PENCIL}",
            '#{"row":4,"copies":0}',
            f"ean8 {SMALL}",
            '#{"end":1,"lines":2,"left_out":[3,5],"left_out_count":2}',
        ]
        self.assertEqual(done.stdout.decode().split("\n"), [*written, ""])

    def test_the_name_of_the_table(self) -> None:
        path = self.folder / "Käse 1.csv"
        path.write_text(f"code\n{SMALL}\n")
        done = support.run("label-table", "--code", "code", path)
        self.assertEqual(parts_of(done.stdout)[0], {"labels": 1, "table": str(path)})
        path = Path(str(self.folder), b"K\xe4se.csv".decode(errors="surrogateescape"))
        path.write_text(f"code\n{SMALL}\n")
        done = support.run("label-table", "--code", "code", path)
        self.assertEqual(
            parts_of(done.stdout)[0], {"labels": 1, "table": f"{self.folder}/K?se.csv"}
        )

    def test_a_line_end_in_a_text_is_its_next_line(self) -> None:
        for end in ("\n", "\r\n", "\r"):
            table = f'code;name;text\n{SMALL};"Pencil {end} 2B{end}";"a{end}{end}b"\n'
            labels = self.labels(table, "--code", "code", "--title", "name", "--text", "text")
            self.assertEqual(labels, [{"row": 2, "title": "Pencil\n2B", "text": ["a\nb"]}])

    def test_several_columns(self) -> None:
        table = f"code;a;b;c\n{SMALL};one;;three\n{PENCIL};;;\n"
        arguments = "--title c --title b --title a --text a --text b --text 3 --text c".split()
        said = ["row 3 has no title (1 of 2 labels)"]
        labels = self.labels(table, "--code", "code", *arguments, said=said)
        self.assertEqual(
            labels, [{"row": 2, "title": "three\none", "text": ["one", "three"]}, {"row": 3}]
        )

    def test_the_column_of_the_codes_as_text(self) -> None:
        arguments = "--code code --text name --text 1".split()
        labels = self.labels(
            f"code;name\n {SOAP[1:]} ;a\n{SMALL};b\n", *arguments, "--digits", "lost-zeros"
        )
        self.assertEqual([label["text"] for label in labels], [["a", f"0{SOAP}"], ["b", SMALL]])
        labels = self.labels(f"code;name\n{BOOK[:-1]};a\n", *arguments, "--digits", "no-check")
        self.assertEqual(labels[0]["text"], ["a", BOOK])
        labels = self.labels("code;name\nLOT 7;a\n", *arguments, "--symbology", "code128")
        self.assertEqual(labels[0]["text"], ["a", "LOT 7"])

    def test_texts_of_every_script_are_taken(self) -> None:
        for text in (
            "„Käse“ – …’ €",
            "Żółć",
            "Мыло",
            "日本語",
            "قلم رصاص",
            "क्षत्रिय",
            "^XZ ) Tj",
            "می\u200cخواهم",
            "👩\u200d🍳\ufe0f",
            "x" * 500,
        ):
            labels = self.labels(
                f'code;name\n{SMALL};"{text}"\n', *"--code code --title name --text 2".split()
            )
            self.assertEqual(labels, [{"row": 2, "title": text, "text": [text]}])

    def test_what_no_text_or_price_can_show(self) -> None:
        text, price = ("title", "text"), ("price",)
        seen = {
            "a\x1bb": (text, "control character (U+001B)"),
            "a\x0bb": (text, "control character (U+000B)"),
            "a\x85b": (text, "control character (U+0085)"),
            "a\u2028b": (text, "line separator (U+2028)"),
            "a\u2029b": (text, "paragraph separator (U+2029)"),
            "a\u202eb": (text, "right-to-left override (U+202E)"),
            "a\u2066b": (text, "left-to-right isolate (U+2066)"),
            "1,20\n€": (price, "a line end"),
            "1,\u200b20": (price, "zero width space (U+200B)"),
            "\u202e02,1": (price, "right-to-left override (U+202E)"),
        }
        wanted = {
            cell: (options, f"{name} in the cell {shown(cell)}, which nobody sees: delete it")
            for cell, (options, name) in seen.items()
        }
        wanted["#REF!"] = (*text, *price), f'"#REF!", {NO_VALUE}'
        wanted["=B2"] = text, '"=B2", a formula: export its value'
        for cell, (options, problem) in wanted.items():
            for option in options:
                table = f'code;name\n{SMALL};"{cell}"\n{PENCIL};7\n'
                words = ["--code", "code", f"--{option}", "name"]
                left_out = f'row 2: column 2 ("name") has {problem}'
                self.check(table, words, [f"ean13 {PENCIL}"], [left_out], 1)

    def test_copies(self) -> None:
        right = {
            "0": 0,
            "1": 1,
            "9999": 9999,
            "0012": 12,
            "3,0": 3,
            "3.00": 3,
            " 2 ": 2,
            '=""4""': 4,
        }
        table = "code;copies\n" + "".join(f'{SMALL};"{cell}"\n' for cell in right)
        labels = self.labels(table, "--code", "code", "--copies", "copies")
        self.assertEqual([label["copies"] for label in labels], list(right.values()))
        for cell in ("", "10000", "-1", "1.5", "1.000", "three", "3 x", "1e2", "٣", "nan", "TRUE"):
            problem = (
                f'row 2: column 2 ("copies") is "{cell}": copies are a whole number from 0 to 9999'
            )
            table = f"code;copies\n{SMALL};{cell}\n{PENCIL};1\n"
            self.check(
                table, "--code code --copies copies".split(), [f"ean13 {PENCIL}"], [problem], 1
            )

    def test_a_code_that_is_there_twice(self) -> None:
        what = "have the same code, 73513537, and another title, text or price"
        table = (
            f"code;name;text;price\n{SMALL};a;b;1\n{PENCIL};x;b;1\n{SMALL};{{}}\n{SMALL};z;b;1\n"
        )
        lines = [f"ean8 {SMALL}", f"ean13 {PENCIL}", f"ean8 {SMALL}", f"ean8 {SMALL}"]
        for cells in ("c;b;1", "a;c;1", "a;b;2", "a;;1"):
            arguments = "--code code --title name --text text --price price".split()
            self.check(table.format(cells), arguments, lines, [f"rows 2 and 4 {what}"])
        arguments = "--code code --text text --copies price".split()
        self.check(table.format("c;b;2"), arguments, lines)

    def test_the_end_names_texts_that_no_row_has(self) -> None:
        """As a logo that no article of a table has."""
        table = f"code,Bio,Day,Old\n{SMALL},,1.9.,\n{PENCIL}, ,,\n".encode()
        words = "--code code --text Bio --text Day --text Old".split()
        done = support.run_here("label-table", *words, input=table)
        self.assertEqual(parts_of(done.stdout)[2]["empty"], ["Bio", "Old"])

    def test_the_end_names_twenty_rows_that_are_left_out(self) -> None:
        table = "code\n" + "x\n" * 30 + f"{SMALL}\n"
        problem = f'"x" has other characters than digits: character 1 is "x"; {OTHER}'
        problems = [f"row {row}: {problem}" for row in range(2, 32)]
        self.check(table, ["--code", "code"], [f"ean8 {SMALL}"], problems, 1)


# what messages say in several places
SAID = {
    "wrong": "a digit is wrong (with these digits the last one would be",
    "lengths": "EAN-8 has 8, UPC-A has 12, EAN-13 has 13",
    "lost": "are leading zeros lost? put lost zeros back in front (--digits lost-zeros)",
    "compare": "compare the number with the article",
    "none": "are check digits missing? add check digits to the codes (--digits no-check)",
    "find": "find their kind (--symbology auto)",
    "case": "a GTIN-14 is drawn as ITF-14, which labels does not draw",
    "isbn": "is an ISBN of ten digits: its EAN-13 is",
    "rounded": "the spreadsheet has rounded the number; format the column as text, enter it again",
    "looks": "looks rounded by the spreadsheet: enter it again as text; take codes that end in "
    "zeros (--allow-zeros)",
    "upce": "may be a UPC-E, which labels does not draw: is it an EAN-8? draw the codes as EAN-8 "
    "(--symbology ean8)",
    "zeros": "may be an EAN-8 with zeros in front: write its 8 digits",
    "either": "may have its check digit: is it missing? draw the codes as",
    "whole": "have some a check digit? take the last digit as the check digit (leave out "
    "--digits)",
    "signs": "has other characters than digits: character",
    "other": OTHER,
}
# options, and below them cells with the line that each gives, or what is said of its row. GS1 General
# Specifications 1.4: no GTIN-8 begins with 0, and 01234565 is the UPC-E of 012345000065; a GTIN-8 in
# a field of 14 or 13 digits has zeros in front. 4006350000000 is 4,00635E+12 with a check digit that
# is right by chance; ISBN 0-306-40615-2 is 978-0-306-40615-7. 01234565 and 036000291452 without their
# first digit still have a check digit.
NUMBERS = """\
--symbology auto
4006381333931 | 9780306406157 -> ean13 {}
73513537 | 20000103 -> ean8 {}
036000291452 -> upca {}
4006381333931.0 | 4006381333931,00 | '4006381333931 | =""4006381333931"" -> ean13 4006381333931
4 006381 333931 | 04006381333931 -> ean13 4006381333931
978-0-306-40615-7 | 978 0 306 40615 7 | 978-0306406157 -> ean13 9780306406157
7351 3537 -> ean8 73513537
0 36000 29145 2 -> upca 036000291452
00036000291452 -> ean13 0036000291452
4006381333932 | 4006381333932.0 | '4006381333932 -> ! 4006381333932: {wrong} 1); {compare}
9780306406158 | 978-0-306-40615-8 -> ! 9780306406158: {wrong} 7); {compare}
73513530 -> ! {}: {wrong} 7); {compare}
036000291453 -> ! {}: {wrong} 2); {compare}; {none}
36000291452 -> ! {} has 11 digits, {lengths}: {lost}
36000291453 -> ! {} has 11 digits, {lengths}: {none}
7351353 -> ! {} has 7 digits, {lengths}: {none}
5 -> ! {} has 1 digit, {lengths}: {other}
04006381333932 | 12345678901234 | 10614141543219 -> ! {} has 14 digits, {lengths}: {case}
777777777777777777777777777777 -> ! 77777777777777777777 has 30 digits, {lengths}: {other}
4,00638E+12 | 4.00638E+12 | 4E+12 | 4,006381333931e12 -> ! "{}": {rounded}
4006350000000 | 20000004 -> ! {} {looks}
01234565 -> ! {} {upce}
0306406152 | 0-306-40615-2 | 0 306 40615 2 -> ! {} {isbn} 9780306406157
080442957X | 0-8044-2957-x -> ! {} {isbn} 9780804429573
000073513537 -> ! {} {zeros}; draw the codes as UPC-A (--symbology upca)
0000073513537 -> ! {} {zeros}; draw the codes as EAN-13 (--symbology ean13)
00000073513537 -> ! 0000073513537 {zeros}; draw the codes as EAN-13 (--symbology ean13)
073513537 -> ! {} {zeros}
2024-05-17 -> ! "{}" {signs} 5 is "-"; {other}
40063-81333931 -> ! "{}" {signs} 6 is "-"; {other}
4006381  333931 -> ! "{}" {signs} 8 is a space; {other}
4006381333931,5 -> ! "{}" {signs} 14 is ","; {other}
4.006.381.333.931 -> ! "{}" {signs} 2 is "."; {other}
400638133393l -> ! "{}" {signs} 13 is "l"; {other}
４006381333931 -> ! "{}" {signs} 1 is fullwidth digit four (U+FF14); {other}
978–0306406157 -> ! "{}" {signs} 4 is en dash (U+2013); {other}
--symbology ean13
4006381333931 | 0000073513537 -> ean13 {}
036000291452 -> ! {} has 12 digits, EAN-13 has 13: {lost} or {find}
73513537 -> ! {} has 8 digits, EAN-13 has 13: {lost} or {find}
--symbology upca
036000291452 | 000073513537 -> upca {}
00036000291452 -> upca 036000291452
4006381333931 -> ! {} has 13 digits, UPC-A has 12: {find}
--symbology ean8
01234565 -> ean8 {}
0000073513537 -> ! {} has 13 digits, EAN-8 has 8: write its 8 digits
--digits lost-zeros
36000291452 | 036000291452 -> ean13 0036000291452
4006381333931 -> ean13 {}
73513537 -> ean8 {}
36000291453 -> ! 0036000291453: {wrong} 2); {compare}
0 | 00000000 | 0000000000 | 0000000000000 -> ! "{}" has only zeros, and is not an article number
600029145 -> ! {} has 9 digits, {lengths}: {other}
36000300000 -> ! 0036000300000 {looks}
01234565 | 1234565 -> ! {} {upce}
0306406152 | 0-306-40615-2 -> ! {} {isbn} 9780306406157
--digits lost-zeros --symbology ean13
36000291452 | 036000291452 -> ean13 0036000291452
36000291453 -> ! 0036000291453: {wrong} 2); {compare}
73513537 -> ! {} has 8 digits, EAN-13 has 13: {lost} or {find}
--digits lost-zeros --symbology upca
36000291452 | 036000291452 -> upca 036000291452
73513537 -> ! {} has 8 digits, UPC-A has 12: {lost} or {find}
306406152 | 0306406152 -> ! {} {isbn} 9780306406157
--digits lost-zeros --symbology ean8
1234565 -> ean8 01234565
--allow-zeros
4006350000000 -> ean13 {}
20000004 -> ean8 {}
--digits no-check
400638133393 | 978030640615 -> ean13 {}
7351353 -> ean8 {}
03600029145 -> upca {}
1234565 -> ! {} {either} EAN-8 (--symbology ean8)
36000291452 -> ! {} {either} UPC-A (--symbology upca)
036000291452 -> ! {} {either} EAN-13 (--symbology ean13)
73513537 -> ! {} has 8 digits, EAN-8 has 7, UPC-A has 11, EAN-13 has 12: {whole}
0123456 -> ! {} {upce}
--digits no-check --symbology ean13
400638133393 | 978030640615 | 036000291452 | 400635100000 -> ean13 {}
4006381333931 -> ! {} has 13 digits, EAN-13 has 12: {whole}
400635000000 -> ! {} {looks}
400638133393.0 -> ! "{}" {signs} 13 is "."; {other}
978-0-306-40615 -> ! "{}" {signs} 4 is "-"; {other}
--digits no-check --symbology ean8
7351353 | 1234565 -> ean8 {}
73513537 -> ! {} has 8 digits, EAN-8 has 7: {whole}
--digits no-check --symbology upca
03600029145 | 36000291452 -> upca {}
036000291452 -> ! {} has 12 digits, UPC-A has 11: {whole}
--symbology code128
1E10 -> code128 {}
4,00638E+12 -> ! "{}": {rounded}
--symbology qr
1E10 -> qr {}
4,00638E+12 -> ! "{}": {rounded}
"""


class Numbers(TableTest):
    def test_what_becomes_of_each_number(self) -> None:
        for block in re.split("^(?=--)", NUMBERS, flags=re.MULTILINE)[1:]:
            options, *rows = block.splitlines()
            wanted = {}
            for row in rows:
                cells, _, result = row.partition(" -> ")
                for cell in cells.split(" | "):
                    said = result.replace("! ", REFUSED, 1).format(cell, **SAID)
                    wanted[cell] = said
            self.check_cells(options.split(), wanted)

    def test_each_symbology(self) -> None:
        for symbology, number in (("ean13", PENCIL), ("ean8", SMALL), ("upca", SOAP)):
            line = f"{symbology},height=030 {number}"
            arguments = ["--symbology", symbology, "--settings", "height=030"]
            self.check_cells(
                arguments, {number: line, f" {number} ": line, f"\u00a0{number}\u202f": line}
            )

    def test_no_right_isbn_of_ten_digits_becomes_an_ean(self) -> None:
        cells = []
        for number in range(100000000, 100001000):
            total = sum(int(digit) * weight for digit, weight in zip(str(number), range(10, 1, -1)))
            cells.append(f"{number}{'0123456789X'[-total % 11]}")
        for arguments in (
            (),
            ("--digits", "lost-zeros"),
            "--digits lost-zeros --symbology ean13".split(),
        ):
            table = "code\n" + "\n".join(cells)
            done = support.run_here(
                "label-table", "--code", "code", *arguments, input=table.encode()
            )
            self.assertEqual(parts_of(done.stdout)[1], [])
            messages = support.messages(done)
            self.assertTrue(all("is an ISBN of ten digits" in text for text in messages[:-1]))
            same = "skipped for the same reason as row 2"
            rest = f"label-table: rows 52-1001: {same}"
            self.assertEqual((len(messages), messages[-1]), (51, rest))

    def test_a_column_without_an_ean_or_upc_has_one_message(self) -> None:
        """Racks, lots, tickets and short numbers are told what draws them, once for all rows."""
        problem = f'standard input: no row has an EAN or UPC in column 1 ("code"); {OTHER}'
        for cells in (("A-01-01", "A-01-02", ""), ("101", "102", "4711"), ("LOT 7",)):
            table = "code;name\n" + "".join(f"{cell};x\n" for cell in cells)
            for arguments in (["--code", "code"], "--code code --digits no-check".split()):
                self.check(table, arguments, [], [problem], 1)

    def test_of_codes_without_check_digits_none_is_drawn(self) -> None:
        """One in ten has a right last digit by chance."""
        codes = [f"40063813339{number:02}" for number in range(30, 40)]
        done = support.run_here(
            "label-table", "--code", "1", "--header-row", "0", input="\n".join(codes).encode()
        )
        self.assertEqual((done.returncode, done.stdout), (1, b""))
        problem = "label-table: standard input: most codes in column 1 have a wrong check digit"
        problem += "; are check digits missing? add check digits to the codes "
        problem += "(--digits no-check) or draw the codes as Code 128 (--symbology code128)"
        self.assertEqual(support.messages(done)[-1], problem)
        table = f"code;price\n{SMALL};1\n{PENCIL};?\n73513538;1\n73513539;1\n"
        done = support.run_here(
            "label-table", "--code", "code", "--price", "price", input=table.encode()
        )
        self.assertEqual([line for _, line in parts_of(done.stdout)[1]], [f"ean8 {SMALL}"])


class Data(TableTest):
    def test_drawn_as_it_is(self) -> None:
        cells = (
            "LOT 7",
            "C:\\new",
            "a;b,c",
            "# 7",
            "A" * 80,
            "5 > 4 ~",
            "x=1",
            "1E5",
            'say ""hi"" now',
        )
        for symbology in ("code128", "qr"):
            wanted = {cell: f"{symbology} {cell}".replace('""', '"') for cell in cells}
            self.check_cells(["--symbology", symbology], wanted)
        arguments = "--symbology qr --settings level=Q,mask=auto".split()
        notice = 'row 2: some scanners show "Käse" wrongly; a QR code without accents is safe'
        lines = ["qr,level=Q,mask=auto Käse 日本"]
        self.check('code;name\n"Käse 日本";x\n', ["--code", "code", *arguments], lines, [notice])

    def test_drawn_though_unmeant(self) -> None:
        around = {
            " LOT 7": "before",
            "LOT 7 ": "after",
            "“LOT 7”": "quotes",
            "'LOT 7'": "quotes",
            "'00123": "apostrophe",
            "*LOT 9*": "asterisks",
            "level=H abc": "setting",
            "height=30 LOT": "setting",
            "mask=2 1": "setting",
            "min-version=3 x": "setting",
        }
        wanted = {
            **{cell: f'refused: "{cell}" {AROUND[what]}' for cell, what in around.items()},
            "LOT 7\u00a0": f'refused: "LOT 7<U+00A0>" {AROUND["after"]}',
            '""LOT 7""': f'refused: ""LOT 7"" {AROUND["quotes"]}',
            "=A1": 'refused: column 1 ("code") has "=A1", a formula: export its value',
            '=""00123""': "{symbology} 00123",
            '=""say """"hi"""" now""': '{symbology} say "hi" now',
        }
        for symbology in ("code128", "qr"):
            cells = {
                cell: result.replace("{symbology}", symbology) for cell, result in wanted.items()
            }
            self.check_cells(["--symbology", symbology], cells)

    def test_a_delimiter_that_may_be_data_is_asked_for(self) -> None:
        for symbology in ("code128", "qr"):
            for delimiter in (";", ","):
                ask = (
                    f"what is it? it is between cells (--delimiter '{delimiter}') or it is data"
                    " (--delimiter none)"
                )
                table = f"a{delimiter}b\nc{delimiter}d\n"
                arguments = ["--code", "1", "--header-row", "0", "--symbology", symbology]
                self.check(table, arguments, [], [f'row 1 has "{delimiter}": {ask}'], 2)
                whole = [f"{symbology} a{delimiter}b", f"{symbology} c{delimiter}d"]
                self.check(table, [*arguments, "--delimiter", "none"], whole)
                self.check(
                    table,
                    [*arguments, "--delimiter", delimiter],
                    [f"{symbology} a", f"{symbology} c"],
                )
                self.check(table, [*arguments, "--text", "2"], [f"{symbology} a", f"{symbology} c"])
                self.check(f'"x"{delimiter}b\n', arguments, [f"{symbology} x"])
        self.check("a\tb\n", "--code 1 --header-row 0 --symbology qr".split(), ["qr a"])
        self.check("Lot;Link\nA;B\n", "--code Lot --symbology qr".split(), ["qr A"])

    def test_a_delimiter_that_only_later_rows_have_is_asked_for(self) -> None:
        for delimiter, name, option in (
            (";", '";"', "';'"),
            (",", '","', "','"),
            ("\t", "a tab", "tab"),
        ):
            ask = (
                f"what is it? it is between cells (--delimiter {option}) or it is data"
                " (--delimiter none)"
            )
            table = f"code\nLOT 6\nLOT 7{delimiter}Name\n"
            arguments = "--code code --symbology code128".split()
            self.check(table, arguments, [], [f"row 3 has {name}: {ask}"], 2)
        lines = ["code128 LOT 6", "code128 LOT 7;Name"]
        self.check("code\nLOT 6\nLOT 7;Name\n", [*arguments, "--delimiter", "none"], lines)
        self.check('code\nLOT 6\n"LOT 7;Name"\n', arguments, lines)
        self.check(f"code\n{SMALL}\n", ["--code", "code"], [f"ean8 {SMALL}"])
        ask = "row 1 has \"^\": what is it? it is between cells (--delimiter '^') or it is data"
        table = f"code^Name\n{SMALL}^Tea\n"
        self.check(table, ["--code", "code"], [], [f"{ask} (--delimiter none)"], 2)
        self.check(table, "--code code --delimiter ^".split(), [f"ean8 {SMALL}"])


class Arguments(TableTest):
    def test_bad_arguments(self) -> None:
        done = support.run("label-table", input=b"code\n")
        self.assertEqual((done.returncode, done.stdout), (2, b""))
        wrong = "label-table: error: the following arguments are required: --code"
        self.assertEqual(support.messages(done), [f"{wrong}; try label-table --help"])
        self.check_usage(["--code"], "argument --code: expected one argument")
        self.check_usage("--code 1 --x".split(), "unrecognized arguments: --x")
        self.check_usage("--code 1 --fill".split(), "unrecognized arguments: --fill")
        self.check_usage("--code 1 a.csv b.csv".split(), "unrecognized arguments: b.csv")
        signs = 'argument --decimal: ";" is neither comma nor point'
        self.check_usage("--code 1 --decimal ;".split(), signs)
        for argument in (";;", "", '"', " ", "ä"):
            text = f'argument --delimiter: "{argument}" is not tab, none or a character that can separate cells'
            self.check_usage(["--code", "1", "--delimiter", argument], text)

    def test_arguments_that_do_not_go_together(self) -> None:
        text = "codes of Code 128 and QR have neither lost zeros nor check digits"
        ways = {
            "lost-zeros": "put no zeros in front (leave out --digits)",
            "no-check": "take the last digit as the check digit (leave out --digits)",
        }
        for symbology in ("code128", "qr"):
            for argument, way in ways.items():
                hint = f"{way} or find their kind (leave out --symbology)"
                words = ["--code", "1", "--symbology", symbology, "--digits", argument]
                self.check_usage(words, f"{text}: {hint}")
        text = (
            "there are no prices to be given another look: print prices as in the table (leave out"
        )
        text += " --price-as)"
        self.check_usage("--code 1 --price-as 0,00".split(), text)
        text = "EAN-13 has no setting level"
        self.check_usage("--code 1 --settings height=20,level=Q".split(), text)
        text = "QR Code has no setting height"
        self.check_usage("--code 1 --symbology qr --settings height=20".split(), text)

    def test_settings_of_another_symbology_leave_their_row_out(self) -> None:
        table = f"code;kind\n{SMALL};ean8\nLOT 7;qr\n"
        arguments = "--code code --symbology kind --settings height=20".split()
        problem = "row 3: QR Code has no setting height"
        self.check(table, arguments, [f"ean8,height=20 {SMALL}"], [problem], 1)

    def test_bad_settings(self) -> None:
        wrong = "|height|height 30|level=H 123|level=H,|,level=H|level=H\n|level"
        for setting in wrong.split("|"):
            text = f"argument --settings: {shown(setting)}: write it as height=30 or level=Q,mask=2"
            self.check_usage(["--code", "1", "--symbology", "qr", "--settings", setting], text)

    def test_options_of_the_other_kind_of_table(self) -> None:
        for words in (["--sheet", "x"], ["--hidden"], ["--links"], ["--date-as", "dd.mm.yyyy"]):
            problem = f"standard input is CSV: read it all the same (leave out {words[0]})"
            self.check(f"code\n{SMALL}\n", ["--code", "code", *words], [], [problem], 2)

    @support.slow
    def test_standard_input(self) -> None:
        (self.folder / "-").write_text(f"code\n{PENCIL}\n")
        for arguments in ((), ("-",)):
            done = support.run(
                "label-table",
                "--code",
                "code",
                *arguments,
                input=f"code\n{SMALL}\n".encode(),
                cwd=self.folder,
            )
            self.assertEqual(
                parts_of(done.stdout)[:2], ({"labels": 1}, [({"row": 2}, f"ean8 {SMALL}")])
            )
        done = support.run("label-table", "--code", "code", "./-", cwd=self.folder)
        self.assertEqual(parts_of(done.stdout)[1], [({"row": 2}, f"ean13 {PENCIL}")])


if __name__ == "__main__":
    unittest.main()
