"""Tests of tools/label-table with spreadsheets' own files, .xlsx and .ods: what is read, and what
is refused.

What number formats show was seen in LibreOffice 7.4 and is what Excel's documentation of its number
formats says.
"""

import io
import itertools
import subprocess
import unittest
import zipfile
from xml.sax.saxutils import escape

import support
from table_test import BOOK, parts_of, PENCIL, SMALL, SOAP, WorkbookTest
from workbooks import cell, MAIN, ods, ods_cell, packed, relations, rows, table, unpacked, xlsx, XML

STRICT = "http://purl.oclc.org/ooxml/spreadsheetml/main"
AGAIN = "open it in the spreadsheet and save it again"
LARGE = f"has a row of more than 1 MB: {AGAIN}"
LIMITS = "has more than 1048576 rows, 16384 columns or 256 merges across a row"
DAMAGED = "label-table: standard input is damaged, has a password, or is neither .xlsx nor .ods "


class Written(WorkbookTest):
    """A file says the same, in whatever form its rows and strings are written."""

    NAMES = ("EAN", "Name", "Preis", "Käse & Co", "Tee, grün", "zu _x0041_", PENCIL, SOAP)
    ROWS = (
        '<row r="1" spans="1:3"><c r="A1" t="s"><v>0</v></c><c r="B1" t="s"><v>1</v></c>'
        '<c r="C1" t="s"><v>2</v></c></row>',
        '<row r="2"><c r="A2" t="s"><v>6</v></c><c r="B2" t="s"><v>3</v></c><c r="C2"><v>1.5</v></c></row>',
        '<row r="3" ht="0"><c r="A3" t="s"><v>7</v></c></row>',
        '<row r="4"/>',
        f'<row r="5"><c r="A5" t="str"><f>"x"&amp;1</f><v>{BOOK}</v></c><c r="B5" t="s"><v>4</v></c>'
        '<c r="C5"/></row>',
        f'<row r="6"><c r="A6" t="inlineStr"><is><t>{PENCIL}</t></is></c><c r="B6" t="inlineStr">'
        '<is><t xml:space="preserve">Käse _x0042_</t></is></c>'
        '<c r="C6" t="inlineStr"><is><t></t></is></c></row>',
        f'<row r="7" s="1"><c r="A7"><v>{SMALL}</v></c><c r="B7" t="s"><v>5</v></c>'
        '<c r="C7" s="0"><f>A7*2</f><v>3.25</v></c></row>',
        '<row r="9"><c r="A9" t="s"><v>6</v></c><c r="B9" t="inlineStr"><is><t>Tee</t></is></c></row>',
    )
    LINES = [
        ({"row": 2, "title": "Käse & Co", "price": "1.5"}, f"ean13 {PENCIL}"),
        ({"row": 5, "title": "Tee, grün"}, f"ean13 {BOOK}"),
        ({"row": 6, "title": "Käse B"}, f"ean13 {PENCIL}"),
        ({"row": 7, "title": "zu A", "price": "3.25"}, f"ean8 {SMALL}"),
        ({"row": 9, "title": "Tee"}, f"ean13 {PENCIL}"),
    ]

    def said_of(self, data: bytes) -> tuple[object, list[str]]:
        """The labels of a file and their lines, and what is said."""
        words = "--code EAN --title Name --price Preis --decimal point".split()
        done = support.run_here("label-table", *words, input=data)
        return parts_of(done.stdout)[1] if done.stdout else None, support.messages(done)

    def strings(self, before: str = "", after: str = "") -> str:
        """Shared strings, each with something before and after its text."""
        return "".join(f"<si>{before}<t>{escape(name)}</t>{after}</si>" for name in self.NAMES)

    def test_each_form_says_the_same(self) -> None:
        plain, strings = "".join(self.ROWS), self.strings()
        odd = plain.replace('"><v>', '" ph="0"><v>').replace("<row r", "\n<row  r")
        remark = "<!-- <row r='1'><c r='A1'><v>7</v></c></row> -->"
        wanted = self.said_of(xlsx(plain, strings=strings))
        self.assertEqual(wanted[0], self.LINES)
        self.assertEqual(len(wanted[1]), 4)  # a hidden row, and what is odd
        forms = {
            "plain": xlsx(plain, strings=strings),
            "attributes and spaces": xlsx(odd, strings=strings),
            "a remark": xlsx(plain.replace('<row r="5', f'{remark}<row r="5'), strings=strings),
            "a remark in front": xlsx(remark + plain, strings=strings),
            "letters with a form": xlsx(plain, strings=self.strings("", "<rPh><t>x</t></rPh>")),
            "spaces": xlsx(plain, strings=strings.replace("<si>", "\n <si>")),
            "data as it is": xlsx(plain, strings=strings.replace("Tee,", "<![CDATA[Tee,]]>")),
        }
        for form, data in forms.items():
            self.assertEqual(self.said_of(data), wanted, form)

    def test_strings_in_another_encoding(self) -> None:
        parts = unpacked(xlsx("".join(self.ROWS), strings=self.strings()))
        name = "xl/sharedStrings.xml"
        text = parts[name].replace('encoding="UTF-8"', 'encoding="ISO-8859-1"')
        data = packed({**parts, name: text.encode("latin-1")})
        self.assertEqual(self.said_of(data)[0], self.LINES)
        for name in (name, "xl/worksheets/sheet1.xml"):
            wrong = packed({**parts, name: parts[name].encode("latin-1")})
            self.assertIn("is damaged", self.said_of(wrong)[1][-1], name)

    def test_rows_that_no_spreadsheet_writes(self) -> None:
        """What the parser refuses is refused, though it stands among plain rows."""
        for text, problem in (
            ("</row>", "is damaged"),
            ("<row r='8'>", "is damaged"),
            ('<row r="1"><c r="A1"/></row>', "out of order"),
            ('<row r="8"><c r="B8"/><c r="A8"/></row>', "out of order"),
            ("<!DOCTYPE a>", "is damaged"),
            ("\x01", "is damaged"),
        ):
            rows_of = (*self.ROWS[:-1], text, self.ROWS[-1])
            said = self.said_of(xlsx("".join(rows_of), strings=self.strings()))
            self.assertIsNone(said[0], text)
            self.assertIn(problem, said[1][-1], text)

    def test_a_cell_that_no_spreadsheet_writes(self) -> None:
        """It leaves out its row, and no other one."""
        for text in ('<c r="A8" t="s"><v>99</v></c>', '<c r="A8"><v>1e999</v></c>'):
            rows_of = (*self.ROWS[:-1], f'<row r="8">{text}</row>', self.ROWS[-1])
            lines, said = self.said_of(xlsx("".join(rows_of), strings=self.strings()))
            self.assertEqual(lines, self.LINES)
            self.assertTrue(any("row 8: " in each and "is damaged" in each for each in said), said)


class Xlsx(WorkbookTest):
    def test_numbers_as_codes(self) -> None:
        forms = (
            '0.00E+00|#,##0|0.00|dd/mm/yyyy|"LOT "0|0_ ;[Red]\\-0\\ ||0000|000\\-000|' + "0" * 12
        )
        formats: list[str | int] = [*forms.split("|"), "0,", '"SKU-"@']
        formats[6] = 14  # a date by the number of its format
        styles = (0, 1, 2, 3, 6)
        lines = {cell(int(PENCIL), style=style): f"ean13 {PENCIL}" for style in styles}
        lines["<c><v>4.006381333931E12</v></c>"] = f"ean13 {PENCIL}"
        lines["<c><v>4006381333931.0</v></c>"] = f"ean13 {PENCIL}"
        lines[cell(36000291452, style=10)] = f"upca {SOAP}"
        self.check_codes(lines, "auto", formats)
        texts = {cell(7, style=8): "code128 0007", cell(7): "code128 7"}
        not_understood = 'has the number format "{}", which is not understood'
        drawn = 'has the number format "{}", and would be drawn as 12'
        no_number = "is the number {}, which is not whole or has too many digits"
        for written, problem, shown in (
            (cell(7, style=5), not_understood, '"LOT "0'),
            (cell(7, style=9), not_understood, "000\\-000"),
            ('<c t="str" s="12"><v>100</v></c>', not_understood, '"SKU-"@'),
            (cell(45678, style=4), "is a date or a time, which is not a code", ""),
            (cell(45678, style=7), "is a date or a time, which is not a code", ""),
            (cell(12, style=1), drawn, "0.00E+00"),
            (cell(12, style=3), drawn, "0.00"),
            (cell(12, style=11), drawn, "0,"),
            (cell(1.5), no_number, "1.5"),
            (cell(10**15), no_number, str(10**15)),
        ):
            texts[written] = f"refused: {problem.format(shown)}: enter it again as text"
        self.check_codes(texts, "code128", formats)

    def test_cells_that_have_no_value(self) -> None:
        no_value = (
            "has a formula without a saved value: open the table in the spreadsheet and save it"
        )
        kind = (
            "has neither a text nor a number, but TRUE, FALSE or the like: enter it again as text"
        )
        error = 'has "#REF!", which the spreadsheet writes if it has no value to show'
        cells = {
            "<c><f>A1</f></c>": f"refused: {no_value}",
            "<c><f>A1</f><v></v></c>": f"refused: {no_value}",
            "<c><f>A1</f><v/></c>": f"refused: {no_value}",
            '<c t="e"><f>A1</f><v>#REF!</v></c>': f"refused: {error}",
            '<c t="b"><v>1</v></c>': f"refused: {kind}",
            '<c t="d"><v>2026-11-25</v></c>': f"refused: {kind}",
            f'<c t="str"><f>A1</f><v>{PENCIL}</v></c>': f"ean13 {PENCIL}",
            f"<c><f>A1</f><v>{PENCIL}</v></c>": f"ean13 {PENCIL}",
        }
        self.check_codes(cells, "auto")
        empty = [PENCIL, '<c t="str"><f>A1</f><v></v></c>']
        data = xlsx(rows(["EAN", "Name"], empty, [SMALL, "<c><f>A1</f></c>"]))
        problems = [f'row 3: column 2 ("Name") {no_value}', "row 2 has no title (1 of 1 label)"]
        self.check(data, "--code EAN --title Name".split(), [f"ean13 {PENCIL}"], problems, 1)
        self.check(data, ["--code", "EAN"], [f"ean13 {PENCIL}", f"ean8 {SMALL}"])

    def test_strings(self) -> None:
        strings = [
            "<si><t>EAN</t></si>",
            "<si><t>Name</t></si>",
            "<si><r><rPr><b/></rPr><t>Blei</t></r><r><t xml:space='preserve'>stift </t></r></si>",
            "<si><t>鉛筆</t><rPh sb='0' eb='2'><t>エンピツ</t></rPh><phoneticPr fontId='1'/></si>",
            "<si><t>a_x000D_\nb_x005F_x000D_ &amp; &lt;</t></si>",
            "<si><t>_xD83D__xDE00_ _x0041_</t></si>",
        ]
        shared = ['<c t="s"><v>{}</v></c>'.format(number) for number in range(6)]
        data = xlsx(
            rows(shared[:2], *([PENCIL, text] for text in shared[2:])), strings="".join(strings)
        )
        done = support.run_here("label-table", "--code", "EAN", "--title", "Name", input=data)
        titles = [label["title"] for label, _ in parts_of(done.stdout)[1]]
        self.assertEqual(titles, ["Bleistift", "鉛筆", "a\nb_x000D_ & <", "😀 A"])

    def test_a_text_of_a_cell_without_its_type_goes_nowhere(self) -> None:
        lost = "<c><is><t>lost</t></is></c>"
        data = xlsx(rows(["EAN", "x", "Name"], [PENCIL, lost, "Tea"]))
        label = {"row": 2, "title": "Tea"}
        self.assertEqual(self.found(data, "--title", "Name"), [(label, f"ean13 {PENCIL}")])

    def test_a_wrong_dimension_and_cells_without_references(self) -> None:
        sheet = rows(["EAN", "Name"], [PENCIL, "a"], [SMALL, "b"], [BOOK, "c"])
        for text in (sheet, sheet.replace('<row r="3">', "<row>").replace('<row r="4">', "<row>")):
            found = self.found(xlsx(text, before='<dimension ref="A1:A2"/>'), "--title", "Name")
            self.assertEqual(
                [(label["row"], label["title"]) for label, _ in found],
                [(2, "a"), (3, "b"), (4, "c")],
            )

    def test_references(self) -> None:
        lines = (
            f'<row r="1">{cell("EAN", "AB1")}</row><row'
            f' r="3">{cell("x", "B3")}{cell(PENCIL, "AB3")}</row>'
        )
        self.check(xlsx(lines), ["--code", "EAN"], [f"ean13 {PENCIL}"])
        self.refused(
            xlsx(rows(["EAN"]) + rows(["EAN"])), f"has row 1 or a cell of it out of order: {AGAIN}"
        )
        lines = f'<row r="1">{cell("EAN", "B1")}{cell("x", "A1")}</row>'
        self.refused(xlsx(lines), f"has row 1 or a cell of it out of order: {AGAIN}")
        self.refused(
            xlsx(f'<row r="1">{cell("EAN", "1")}</row>'),
            f"has row 1 or a cell of it out of order: {AGAIN}",
        )

    def test_rows_in_two_places(self) -> None:
        for count in (1, 1000):  # less than is read together, and more
            first = rows(["EAN"], *[[PENCIL]] * count)
            second = f'</sheetData><sheetData><row r="{count + 3}">{cell(SMALL)}</row>'
            found = [({"row": row}, f"ean13 {PENCIL}") for row in range(2, count + 2)]
            found.append(({"row": count + 3}, f"ean8 {SMALL}"))
            self.assertEqual(self.found(xlsx(first + second)), found)
            again = second.replace(str(count + 3), "1")
            self.refused(xlsx(first + again), f"has row 1 or a cell of it out of order: {AGAIN}")

    def test_prefixes_and_strict_namespaces(self) -> None:
        sheet = rows(["EAN"], [PENCIL])
        self.assertEqual(
            self.found(xlsx(sheet, namespace=STRICT)), [({"row": 2}, f"ean13 {PENCIL}")]
        )
        prefixed = (
            "<x:worksheet"
            f" xmlns:x=\"{MAIN}\"><x:sheetData>{sheet.replace('</', '</x:').replace('<', '<x:')}"
        )
        prefixed = (
            prefixed.replace("<x:/x:", "</x:").replace("<x:x:", "<x:")
            + "</x:sheetData></x:worksheet>"
        )
        parts = {name: text for name, text in unpacked(xlsx(sheet)).items() if "sheet1" not in name}
        data = packed({**parts, "xl/worksheets/sheet1.xml": prefixed})
        self.assertEqual(self.found(data), [({"row": 2}, f"ean13 {PENCIL}")])

    def test_empty_rows(self) -> None:
        lines = '<row r="1"><c t="inlineStr"><is><t>EAN</t></is></c></row>'
        lines += (
            f'<row r="4">{cell(PENCIL)}</row><row r="5"/><row r="6">{cell(SMALL)}</row><row'
            ' r="9"><c s="0"/></row>'
        )
        found = [({"row": 4}, f"ean13 {PENCIL}"), ({"row": 6}, f"ean8 {SMALL}")]
        self.assertEqual(self.found(xlsx(lines)), found)

    def test_options_of_csv(self) -> None:
        for option, value in (("--delimiter", ";"), ("--encoding", "cp1252")):
            self.refused(
                xlsx(rows(["EAN"], [PENCIL])),
                f"is not CSV: read it all the same (leave out {option})",
                option,
                value,
                status=2,
            )


class Formats(WorkbookTest):
    """What a number in a column of text is shown as."""

    def shown(
        self, value: object, number_format: str | int, *arguments: str, date1904: bool = False
    ) -> str:
        """The text of a number with a format; where it is refused, the message."""
        data = xlsx(
            rows(["EAN", "x"], [PENCIL, cell(value, style=1)]),
            formats=[number_format],
            date1904=date1904,
        )
        done = support.run_here(
            "label-table",
            "--code",
            "EAN",
            "--text",
            "x",
            *(arguments or ("--decimal", ",")),
            input=data,
        )
        labels = parts_of(done.stdout)[1]
        return str(labels[0][0].get("text", [""])[0]) if labels else support.messages(done)[0]

    # a value, its format, or the number of one that a file does not write, and what is shown
    SHOWN = r"""
0.8|#,##0.00\ "€"|0,80 €
12999|#,##0.00\ [$zł-415]|12.999,00 zł
1234567.891|#,##0.00|1.234.567,89
1234.5|4|1.234,50
1234.5|2|1234,50
0.8|ACCOUNTING|0,80 €
-0.8|ACCOUNTING|-0,80 €
0|ACCOUNTING|- €
5|General|5
1.25|General|1,25
4006381333931|General|4006381333931
999999999999999|General|999999999999999
0.1|@|0,1
7|000|007
7|0|7
0.5|0|1
2.5|0|3
0.4|#|
2.675|0.00|2,68
1.005|0.00|1,01
0.30000000000000004|General|0,3
0.5|0%|50%
0.1234|10|12,34%
0.5|#.##|,5
12.5|0.0#|12,5
-3.5|0.00;[Red]-0.00|-3,50
-3.5|0.00|-3,50
-1|0;(0)|(1)
0|0;0;"frei"|frei
5|0" Stück"|5 Stück
5|0 \S\t|5 St
5|"a;b" 0|a;b 5
9.9|€ 0.00|€ 9,90
9.9|[$€-2] 0.00|€ 9,90
1234.5|[$-407]#,##0.00|1.234,50
1234.5|[$-409]#,##0.00|1,234.50
1234.5|[$-40C]#,##0.00|1~234,50
1234.5|[$£-809]#,##0.00|£1.234,50
1234.5|[$-de-CH]#,##0.00|1’234.50
9.9|[Blue]$0.00|$9,90
45678|dd.mm.yyyy|21.01.2025
45678|d/m/yy|21/1/25
45678|yyyy-mm-dd|2025-01-21
45678.9|dd.mm.yy|21.01.25
61|d.m.yyyy|1.3.1900
2958465|d.m.yyyy|31.12.9999
""".strip().split(
        "\n"
    )
    ACCOUNTING = '_-* #,##0.00\\ "€"_-;\\-* #,##0.00\\ "€"_-;_-* "-"??\\ "€"_-;_-@_-'

    def test_formats_that_are_shown(self) -> None:
        for line in self.SHOWN:
            value, form, text = line.replace("~", "\u202f").split("|")
            number_format = self.ACCOUNTING if form == "ACCOUNTING" else form
            by_number = int(form) if form in ("2", "4", "10") else None
            self.assertEqual(self.shown(float(value), by_number or number_format), text, line)
        self.assertEqual(self.shown(44216, "dd.mm.yyyy", date1904=True), "21.01.2025")
        self.assertEqual(self.shown(12999.5, "#,##0.00", "--decimal", "."), "12,999.50")

    def test_formats_that_are_not_understood(self) -> None:
        again, unknown = (
            "enter it again as text",
            'has the number format "{}", which is not understood',
        )
        day = "is a date before March 1900 or after 9999"
        as_date = "print dates as 31.12.2026 (--date-as dd.mm.yyyy)"
        language = "has a number format that depends on the language of the spreadsheet"
        long = "is the number 0.333333333333333 in a format without fixed decimals"
        numbers = '# ?/?|0.00E+00|[h]:mm|[>4]0;0|0.00 EUR|000-000|0.00" €|0 0|x'
        days = "d. mmm yyyy|dddd|[$-F800]dddd\\,\\ d|yyy|dd 0|d%0|d%"
        cases: list[tuple[float, str | int, str, str]] = [
            *(
                (5, number_format, unknown.format(number_format), again)
                for number_format in numbers.split("|")
            ),
            *(
                (45678, number_format, unknown.format(number_format), as_date)
                for number_format in days.split("|")
            ),
            *((value, "d", day, again) for value in (60, -1, 2958466)),
            *((5, number, language, again) for number in (22, 44, 999)),
            (1 / 3, "General", long, "give it a format such as 0.00"),
            (
                10**15,
                "General",
                long.replace("0." + 15 * "3", f"{10**15}"),
                "give it a format such as 0.00",
            ),
        ]
        for value, form, problem, hint in cases:
            said = f'label-table: row 2: column 2 ("x") {problem}: {hint}'
            self.assertEqual(self.shown(value, form), said)

    @support.slow
    def test_the_signs_are_said_where_no_option_gives_them(self) -> None:
        data = xlsx(
            rows(["EAN", "x"], [PENCIL, cell(1, style=2)], [SMALL, cell(1234.5, style=1)]),
            formats=["0.00", "0"],
        )
        note = (
            'label-table: numbers are printed as "1234.50": how should numbers look? 1234,50'
            " (--decimal comma) or 1234.50 (--decimal point)"
        )
        for options, messages in (
            ((), [note]),
            (("--decimal", "point"), []),
            (("--text", "EAN"), [note]),
        ):
            done = support.run(
                "label-table", "--code", "EAN", "--price", "x", *options, input=data, locale="C"
            )
            self.assertEqual((done.returncode, support.messages(done)), (0, messages))
        done = support.run("label-table", "--code", "EAN", input=data, locale="C")
        self.assertEqual((done.returncode, support.messages(done)), (0, []))


class Ods(WorkbookTest):
    def test_numbers_as_codes(self) -> None:
        no_value = (
            "has a formula without a saved value: open the table in the spreadsheet and save it"
        )
        again = ": enter it again as text"
        day = ods_cell("25.11.26", "date", 'office:date-value="2026-11-25"')
        cells = {ods_cell("0007", "float", 'office:value="7"'): "code128 0007"}
        for text, value, problem in (
            ("1.234", "1234", 'is shown as "1.234", and would be drawn as 1234'),
            ("1,00E+05", "100000", 'is shown as "1,00E+05", and would be drawn as 100000'),
            ("0008", "7", 'is shown as "0008", and would be drawn as 0007'),
            ("LOT 7", "7", 'is shown as "LOT 7", which is not a whole number'),
            ("1,50", "1.5", "is the number 1.5, which is not whole or has too many digits"),
        ):
            cells[ods_cell(text, "float", f'office:value="{value}"')] = problem + again
        cells[day] = f"is a date or a time, which is not a code{again}"
        cells[
            ods_cell("WAHR", "boolean", 'office:boolean-value="true"')
        ] = f"has neither a text nor a number, but TRUE, FALSE or the like{again}"
        error = ods_cell("#NV", "string", 'calcext:value-type="error"')
        cells[error] = 'has "#NV", which the spreadsheet writes if it has no value to show'
        cells['<table:table-cell table:formula="of:=[.A1]"/>'] = no_value
        lines = [text for text in cells.values() if text.startswith("code128")]
        problems = [
            f'row {row}: column 1 ("EAN") {text}'
            for row, text in enumerate(cells.values(), 2)
            if text not in lines
        ]
        data = ods(table(["EAN"], *([text] for text in cells)))
        self.check(data, "--code EAN --symbology code128".split(), lines, problems, 1)
        data = ods(table(["EAN", "x"], [PENCIL, day]))
        self.assertEqual(self.found(data, "--text", "x")[0][0]["text"], ["25.11.26"])

    def test_what_is_repeated(self) -> None:
        twice = ods_cell("Seife", more='table:number-columns-repeated="2"')
        gap = '<table:table-cell table:number-columns-repeated="2"/>'
        row = f'<table:table-row table:number-rows-repeated="2">{ods_cell(SMALL)}</table:table-row>'
        empty = '<table:table-row table:number-rows-repeated="{}"><table:table-cell '
        empty += 'table:number-columns-repeated="{}"/></table:table-row>'
        lines = table(
            ["EAN", "a", "b", "c", "d", "e"],
            [PENCIL, twice, gap, "x"],
            end=row + empty.format(1048571, 16384),
        )
        found = self.found(ods(lines), "--text", "a", "--text", "b", "--text", "c", "--text", "e")
        self.assertEqual(found[0], ({"row": 2, "text": ["Seife", "Seife", "x"]}, f"ean13 {PENCIL}"))
        self.assertEqual(found[1:], [({"row": 3}, f"ean8 {SMALL}"), ({"row": 4}, f"ean8 {SMALL}")])
        lines = table(["EAN"], [PENCIL], end=empty.format(3, 5) + row)
        found = [({"row": row}, f"ean8 {SMALL}") for row in (6, 7)]
        self.assertEqual(self.found(ods(lines)), [({"row": 2}, f"ean13 {PENCIL}"), *found])

    def test_letters(self) -> None:
        comment = (
            "<office:annotation><dc:date"
            " xmlns:dc='x'>2026</dc:date><text:p>Notiz</text:p></office:annotation>"
        )
        drawn = "<draw:frame><draw:text-box><text:p>Bild</text:p></draw:text-box></draw:frame>"
        texts = {
            ods_cell("Bleistift", before=comment): "Bleistift",
            ods_cell("Bleistift", before=drawn): "Bleistift",
            ods_cell("a<text:s/>b<text:s text:c='2'/>c"): "a b  c",
            ods_cell("a<text:line-break/>b"): "a\nb",
            ods_cell(" a  <text:span>b </text:span> <text:a>c</text:a> "): "a b c",
            ods_cell("a &amp; b\n\nc"): "a & b\nc",
        }
        data = ods(table(["EAN", "x"], *([PENCIL, text] for text in texts)))
        done = support.run_here("label-table", "--code", "EAN", "--title", "x", input=data)
        titles = [label["title"] for label, _ in parts_of(done.stdout)[1]]
        self.assertEqual(titles, list(texts.values()))

    def test_other_tables_in_the_file(self) -> None:
        inner = f"<text:p>{PENCIL}</text:p>{table(['x'], ['y'])}"
        inner = f'<table:table-cell office:value-type="string">{inner}</table:table-cell>'
        links = f"<table:dde-link>{table(['EAN'], [SMALL])}</table:dde-link>"
        links = f"<table:dde-links>{links}</table:dde-links>"
        self.check(ods(table(["EAN"], [inner]), links), ["--code", "EAN"], [f"ean13 {PENCIL}"])


class Hostile(WorkbookTest):
    """Files that are damaged, of another kind, or made to do harm."""

    SHEET = rows(["EAN"], [PENCIL])

    def changed(self, part: str, old: str, new: str) -> bytes:
        parts = unpacked(xlsx(self.SHEET))
        self.assertIn(old, parts[part])
        return packed({**parts, part: parts[part].replace(old, new)})

    def test_entities_take_no_memory_and_read_no_file(self) -> None:
        signs = "abcdefghij"
        entities = f'<!DOCTYPE x [<!ENTITY {signs[0]} "aaaaaaaaaa">'
        for before, name in itertools.pairwise(signs):
            entities += f'<!ENTITY {name} "{f"&{before};" * 10}">'
        entities += '<!ENTITY file SYSTEM "/etc/passwd">]>'
        parts = unpacked(ods(table(["EAN"], [PENCIL])))
        for name, problem in ((signs[-1], "limit on input amplification"), ("file", "undefined")):
            content = parts["content.xml"].replace(XML, XML + entities).replace(PENCIL, f"&{name};")
            data = packed({**parts, "content.xml": content})
            done = support.run_here("label-table", "--code", "EAN", input=data)
            self.assertEqual((done.returncode, done.stdout), (1, b""))
            self.assertIn(problem, support.messages(done)[-1])

    @support.slow
    def test_huge_parts(self) -> None:
        """What is not read takes nothing, such as a picture."""
        stream = io.BytesIO(xlsx(self.SHEET))
        with zipfile.ZipFile(stream, "a", zipfile.ZIP_DEFLATED) as archive:
            with archive.open("xl/media/image1.png", "w") as part:
                for _ in range(260):
                    part.write(bytes(1 << 20))
        done = support.run("label-table", "--code", "EAN", input=stream.getvalue())
        self.assertEqual(support.messages(done), [])

    @support.slow
    def test_huge_cells_rows_and_nesting_take_no_more_than_the_system_gives(self) -> None:
        # Kept in memory, so many bytes or elements take more than the limit below.
        size, many = 60_000_000, 3_000_000
        taken = "takes too much, more than 51[0-9] MB of memory: is it a table[?]"
        bombs = {
            "a cell": (rows(["EAN"], ["x" * size]), taken),
            "a tag": (f'<row r="1" x="{"x" * size}"/>', taken),
            "cells": (f'<row r="1">{"<c/>" * many}</row>', taken),
            "depth": ("<a>" * (size // 3), taken),
            "texts": (f"<row><c><is>{'<t/>' * many}</is></c></row>", taken),
            "column": (f'<row r="1">{cell("EAN", "XFE1")}</row>', LIMITS),
            "row": (f'<row r="1048577">{cell("EAN")}</row>', LIMITS),
        }
        for name, (sheet, problem) in bombs.items():
            path = self.folder / "bomb.xlsx"
            path.write_bytes(xlsx(sheet))
            tool = [str(support.TOOLS / "label-table"), "--code", "EAN"]
            limited = ["bash", "-c", 'ulimit -v 100000 && exec "$@"', "sh", *tool]
            done = subprocess.run(
                [*limited, str(path)],
                capture_output=True,
                env=support.environment(),
                timeout=support.SECONDS,
            )
            self.assertRegex(done.stderr.decode(), f"\\Alabel-table: {path} {problem}\n\\Z", name)
            self.assertEqual((done.returncode, done.stdout), (1, b""))

    def test_repeats_of_ods_that_take_no_memory(self) -> None:
        wide = ods_cell("x", more='table:number-columns-repeated="1000000000"')
        self.refused(ods(table(["EAN"], [wide])), LIMITS)
        long = (
            "<table:table-row"
            f" table:number-rows-repeated=\"1000000000\">{ods_cell('x')}</table:table-row>"
        )
        self.refused(ods(table(["EAN"], end=long)), LIMITS)
        spaces = ods_cell("<text:s text:c='1000000000'/>")
        taken = "takes too much, more than 512 MB of memory: is it a table?"
        self.refused(ods(table(["EAN"], [spaces])), taken)
        self.refused(ods(table(["EAN"], [ods_cell("<text:s text:c='131068'/>x")] * 20)), LARGE)
        deep = ods_cell(f"{'<text:span>' * 20000}x{'</text:span>' * 20000}")
        done = support.run_here("label-table", "--code", "EAN", input=ods(table(["EAN"], [deep])))
        self.assertIn('row 2: column 1 ("EAN") is damaged', support.messages(done)[0])

    def test_more_merged_cells_than_a_sheet_has(self) -> None:
        merges = "".join(f'<mergeCell ref="A{row}:B1000000"/>' for row in range(2, 301))
        data = xlsx(
            "".join(f'<row r="{row}">{cell("EAN")}</row>' for row in range(1, 300)),
            after=f"<mergeCells>{merges}</mergeCells>",
        )
        done = support.run_here("label-table", "--code", "EAN", input=data)
        self.assertEqual((done.returncode, done.stdout), (1, b""))
        self.assertEqual(support.messages(done)[-1], f"label-table: standard input {LIMITS}")

    def test_files_of_other_kinds(self) -> None:
        word = [("rId1", "officeDocument", "word/document.xml")]
        files: list[dict[str, str]] = [
            {"word/document.xml": "<x/>"},
            {"mimetype": "application/vnd.oasis.opendocument.text", "content.xml": "<x/>"},
            {"x": "y"},
            {},
            {
                "_rels/.rels": relations([("rId1", "officeDocument", "xl/workbook.bin")]),
                "xl/workbook.bin": "\x83\x01",
            },
            {"_rels/.rels": relations(word), "word/document.xml": "<w/>"},
            {
                "_rels/.rels": relations(word),
                "word/document.xml": "<w/>",
                "word/_rels/document.xml.rels": "<x/>",
            },
        ]
        for parts in files:
            done = support.run_here("label-table", "--code", "EAN", input=packed(parts))
            self.assertEqual((done.returncode, done.stdout), (1, b""))
            self.assertRegex(support.messages(done)[0], f"^{DAMAGED}.*{AGAIN}$")
        lzma = packed(unpacked(xlsx(self.SHEET)), zipfile.ZIP_LZMA)
        done = support.run_here("label-table", "--code", "EAN", input=lzma)
        self.assertRegex(support.messages(done)[0], f"^{DAMAGED}.*packed as no spreadsheet is")

    def test_damaged_files(self) -> None:
        data = xlsx(self.SHEET)
        messages = set()
        for end in range(4, len(data), 97):
            done = support.run_here("label-table", "--code", "EAN", input=data[:end])
            self.assertEqual((done.returncode, done.stdout), (1, b""), end)
            messages.update(support.messages(done))
        self.assertTrue(messages and all(text.startswith(DAMAGED) for text in messages))
        for part, old, new in (
            ("xl/workbook.xml", 'r:id="rId1"', 'r:id="rId9"'),
            ("xl/worksheets/sheet1.xml", "</worksheet>", ""),
            ("xl/worksheets/sheet1.xml", 'r="2"', 'r="two"'),
            ("xl/_rels/workbook.xml.rels", "worksheets/sheet1.xml", "../../../etc/passwd"),
        ):
            done = support.run_here(
                "label-table", "--code", "EAN", input=self.changed(part, old, new)
            )
            self.assertEqual((done.returncode, done.stdout), (1, b""), (part, new))
            self.assertTrue(support.messages(done)[0].startswith(DAMAGED), (part, new))

    def test_each_byte_that_is_changed_ends_with_a_status(self) -> None:
        data = bytearray(packed(unpacked(xlsx(self.SHEET)), zipfile.ZIP_STORED))
        for place in range(0, len(data), 41):
            changed = bytes(data[:place] + bytes([data[place] ^ 0x15]) + data[place + 1 :])
            done = support.run_here("label-table", "--code", "EAN", input=changed)
            self.assertIn(done.returncode, (0, 1, 2), place)
            self.assertFalse(any("Traceback" in text for text in support.messages(done)), place)


class LongTables(WorkbookTest):
    @support.slow
    def test_many_rows_in_seconds(self) -> None:
        lines = [[PENCIL, "a", cell(0.5, style=1)] for _ in range(20000)]
        head = ["EAN", "Name", "Price"]
        url = f"https://example.com/01/0{PENCIL}/21"
        urls = "".join(f"{url}/{number};x;1\n" for number in range(20000))
        pencils = f'{PENCIL};"a, b";1\n' * 20000
        tables: list[tuple[bytes, str, int]] = [
            (f"EAN;Name;Price\n{pencils}".encode(), "auto", 20),
            (f"EAN;Name;Price\n{urls}".encode(), "qr", 20),
            (xlsx(rows(head, *lines), formats=["0.00"]), "auto", 40),
            (ods(table(head, *([PENCIL, "a", "1"] for _ in lines))), "auto", 40),
        ]
        for data, symbology, seconds in tables:
            before = support.processor_seconds()
            words = f"--code EAN --title Name --price Price --decimal , --symbology {symbology}"
            done = support.run("label-table", *words.split(), input=data)
            self.assertEqual((done.returncode, done.stderr), (0, b""))
            self.assertEqual(done.stdout.count(b"\n"), 40002)
            self.assertLess(support.processor_seconds() - before, seconds)


if __name__ == "__main__":
    unittest.main()
