"""Tests of what a cell is: its kind, its value, its runs and its text have to agree, and each
column takes some kinds alone.

What spreadsheets write for raised, struck, dated and conditional cells was seen in files of
LibreOffice 7.4 and XlsxWriter, and is what ISO/IEC 29500-1 and 26300 say.
"""

import unittest
from typing import Sequence

import support
from sheets import Cell, COLOURS, KINDS, Look, of_ods, of_xlsx, Sheet
from table_test import BOOK, parts_of, PENCIL, SMALL, SOAP, WorkbookTest
from workbooks import cell, ods, ods_cell, ODS_SPACES, rows, table, xlsx

HEAD = ["EAN", "Name", "Price"]
PRICED = "--code EAN --title Name --price Price --decimal .".split()
SHARED = '<c t="s"><v>0</v></c>'


def shared(*runs: tuple[str, str]) -> str:
    """A shared string of runs: a text, and what its form is."""
    texts = (f"<r><rPr>{form}</rPr><t xml:space='preserve'>{text}</t></r>" for text, form in runs)
    return f"<si>{''.join(texts)}</si>"


WHICH = "which one has your articles?"


class CellTest(WorkbookTest):
    """Steps that the tests share."""

    def ran(self, data: bytes, *words: str) -> tuple[list[str | None], list[str]]:
        """The prices, or else the titles, of a table, and what is said."""
        done = support.run_here("label-table", *words, input=data)
        labels = [label for label, _ in parts_of(done.stdout)[1]] if done.stdout else []
        said = [text.partition(": ")[2] for text in support.messages(done)]
        return [label.get("price", label.get("title")) for label in labels], said

    def check_price(self, data: bytes, price: str | None, said: str = "") -> None:
        """The price of row 2, or why it is left out."""
        prices, messages = self.ran(data, *PRICED)
        self.assertEqual(prices, [price] if price else [])
        self.assertEqual([text for text in messages if said not in text], [], messages)
        self.assertEqual(bool(messages), bool(said))


def ods_style(name: str, family: str, properties: str, more: str = "") -> str:
    """A style of .ods with properties of its letters."""
    named = f'style:name="{name}" ' if name else ""
    tag = "style" if name else "default-style"
    letters = f"<style:text-properties {properties}/>" if properties else ""
    return f'<style:{tag} {named}style:family="{family}" {more}>{letters}</style:{tag}>'


STRIKES = 'style:text-line-through-style="solid" style:text-line-through-type="single"'
STRIKES_NOT = 'style:text-line-through-style="none" style:text-line-through-type="none"'
RAISES = 'style:text-position="super 58%"'
IS_STRUCK = "has letters that are struck through"
IS_RAISED = "is a number that is raised or lowered"
IS_CUT = "has digits of two sizes side by side"
IS_UNSEEN = "has white letters, which nobody sees"


STRUCK, RAISED, WHITE = Look(is_struck=True), Look(is_raised=True), Look(colour="FFFFFF")


class Looks(CellTest):
    """How letters look, in a cell or a part of it, as both kinds of files have it."""

    def check_looks(self, *cases: tuple[Cell, str | None, str]) -> None:
        """Prices, and what is printed of each, or else why it is not."""
        for price, wanted, said in cases:
            for kind in KINDS:
                with self.subTest(price, kind=kind):
                    self.check_price(kind(Sheet([HEAD, [PENCIL, "Tea", price]])), wanted, said)

    def test_raised_letters_are_other_signs(self) -> None:
        self.check_looks(
            (Cell(runs=(("12", None), ("49", RAISED))), None, "is not a price"),
            (Cell(runs=(("1.49", None), ("2", RAISED))), "1.49²", ""),
            (Cell(runs=(("1.4", None), ("9", Look()))), "1.49", ""),
            (Cell(14.99, "0.00", "14.99", RAISED), None, IS_RAISED),
            (Cell("2,99", look=RAISED), None, "is not a price"),
        )
        for kind in KINDS:
            for title, wanted in (
                (Cell(runs=(("Fliese, 2 m", None), ("2", RAISED))), "Fliese, 2 m²"),
                (Cell("2", look=RAISED), "²"),
            ):
                data = kind(Sheet([HEAD, [PENCIL, title, 3]]))
                self.assertEqual(self.ran(data, *PRICED[:4]), ([wanted], []))

    def test_struck_letters_leave_their_row_out(self) -> None:
        self.check_looks(
            (Cell(runs=(("19.99", STRUCK), (" 14.99", None))), None, IS_STRUCK),
            (Cell(14.99, "0.00", "14.99", STRUCK), None, IS_STRUCK),
            (Cell("14.99", look=STRUCK), None, IS_STRUCK),
        )

    def test_a_number_goes_on_in_letters_of_its_size(self) -> None:
        """The cents of a price are typed smaller in place of a decimal sign."""
        small, usual, large = Look(size=7), Look(size=11), Look(size=20)
        self.check_looks(
            (Cell(look=usual, runs=(("12", None), ("49", small))), None, IS_CUT),
            (Cell(look=usual, runs=(("12", usual), ("49", small))), None, IS_CUT),
            (Cell(look=usual, runs=(("12", small), ("49", None))), None, IS_CUT),
            (Cell(look=large, runs=(("12", None), ("49", usual))), None, IS_CUT),
            (Cell(look=usual, runs=(("12", None), ("49", Look(size=10)))), "1249", ""),
            (Cell(look=usual, runs=(("12.", None), ("49", small))), "12.49", ""),
            (Cell(look=usual, runs=(("12.49", None), (" €", small))), "12.49 €", ""),
            (Cell(look=usual, runs=(("12", small), ("49", small))), "1249", ""),
        )

    def test_letters_that_nobody_sees_leave_their_row_out(self) -> None:
        dark, grey = Look(fill="202020"), Look(colour="F0F0F0")
        white_on_dark = Look(colour="FFFFFF", fill="202020")
        self.check_looks(
            (Cell(runs=(("12", None), ("49", WHITE))), None, IS_UNSEEN),
            (Cell(look=dark, runs=(("12", WHITE), ("49", WHITE))), "1249", ""),
            (Cell(runs=(("12", None), ("49", grey))), "1249", ""),
            (Cell("12.49", look=WHITE), None, IS_UNSEEN),
            (Cell("12.49", look=white_on_dark), "12.49", ""),
        )


class Sheets(CellTest):
    """Rows and sheets, as both kinds of files have them."""

    def test_a_table(self) -> None:
        euros = '#,##0.00\\ "€"'
        lines = [
            ["EAN", "Artikel", "Preis", "Stück"],
            [Cell(int(PENCIL), shown="4,01E+12"), "Bleistift\n2B", Cell(0.8, euros, "0,80 €"), 3],
            [int(SMALL), "Käse „x“ – …", Cell(12999, euros, "12.999,00 €"), 0],
        ]
        pencil = {"row": 2, "title": "Bleistift\n2B", "price": "0,80 €", "copies": 3}
        cheese = {"row": 3, "title": "Käse „x“ – …", "price": "12.999,00 €", "copies": 0}
        wanted = [(pencil, f"ean13 {PENCIL}"), (cheese, f"ean8 {SMALL}")]
        columns = "--title Artikel --price Preis --copies Stück".split()
        self.assertEqual(self.found(of_xlsx(Sheet(lines)), *columns, "--decimal", ","), wanted)
        self.assertEqual(self.found(of_ods(Sheet(lines)), *columns), wanted)

    def test_hidden_rows(self) -> None:
        sheet = Sheet([["EAN"], [PENCIL], [SMALL], [BOOK], [], [SOAP]], hidden=(3, 4, 5))
        shown = [f"ean13 {PENCIL}", f"upca {SOAP}"]
        note = "2 hidden rows are not printed: print hidden rows too (--hidden)"
        every = [f"ean13 {PENCIL}", f"ean8 {SMALL}", f"ean13 {BOOK}", f"upca {SOAP}"]
        for kind in KINDS:
            self.check(kind(sheet), ["--code", "EAN"], shown, [note])
            self.check(kind(sheet), ["--code", "EAN", "--hidden"], every)

    def test_merged_cells(self) -> None:
        lines = [
            ["EAN", "Name", Cell(span=(1, 4))],
            [Cell(PENCIL, span=(2, 1)), "a"],
            [None, "b"],
            [SMALL, Cell(span=(2, 1))],
            [BOOK, "c"],
        ]
        problems = [
            'row 3: column 1 ("EAN") is merged with row 2: unmerge the cells',
            'row 5: column 2 ("Name") is merged with row 4: unmerge the cells',
            "row 4 has no title (1 of 2 labels)",
        ]
        found = [f"ean13 {PENCIL}", f"ean8 {SMALL}"]
        for kind in KINDS:
            self.check(kind(Sheet(lines)), PRICED[:4], found, problems, 1)

    def test_several_sheets(self) -> None:
        first, empty = Sheet([["EAN"], [PENCIL]]), Sheet([[None]], "leer")
        old, new = Sheet([["EAN"], [SMALL]], "alt", (), False), Sheet([["EAN"], [SMALL]], "Preise")
        pencil, small = [({"row": 2}, f"ean13 {PENCIL}")], [({"row": 2}, f"ean8 {SMALL}")]
        for kind in KINDS:
            data = kind(first, empty, old)
            self.assertEqual(self.found(data), pencil)
            self.assertEqual(self.found(data, "--sheet", "alt"), small)
            self.assertEqual(self.found(kind(Sheet([[None]]), new)), small)
            self.assertEqual(self.found(kind(first, old)), pencil)  # in .xlsx, veryHidden
            data = kind(first, empty, old, new)
            named = f"has 2 visible sheets with data: {WHICH} Tabelle1 (--sheet Tabelle1) or Preise (--sheet Preise)"
            self.refused(data, named, status=2)
            self.assertEqual(self.found(data, "--sheet", "Preise"), small)
            every = ("Tabelle1", "leer", "alt", "Preise")
            names = " or ".join(f"{name} (--sheet {name})" for name in every)
            problem = f'has no sheet "preise" with data: {WHICH} {names}'
            self.refused(data, problem, "--sheet", "preise", status=2)
            problem = f"has 0 visible sheets with data: {WHICH} Tabelle1 (--sheet Tabelle1) or leer"
            problem += " (--sheet leer)"
            self.refused(kind(Sheet([]), empty), problem, status=2)


class Styles(CellTest):
    """What a style says of letters holds wherever the style is named."""

    def columns_of_ods(self, price: str, *styles: str, own: str = "", common: str = "") -> bytes:
        """An .ods whose third column has the style ce9, and a row with a price."""
        columns = '<table:table-column table:number-columns-repeated="2"/>'
        columns += '<table:table-column table:default-cell-style-name="ce9"/>'
        sheet = table(HEAD, [PENCIL, "Tea", price])
        sheet = sheet.replace("<table:table-row>", f"{columns}<table:table-row>", 1)
        if own:
            before, _, after = sheet.rpartition("<table:table-row>")
            sheet = f"{before}<table:table-row {own}>{after}"
        spaces = ODS_SPACES
        whole = f"<office:document-styles {spaces}><office:styles>{common}</office:styles>"
        extra = {"styles.xml": f"{whole}</office:document-styles>"}
        return ods(sheet, styles="".join(styles), extra=extra)

    def test_a_column_or_a_row_of_ods_strikes_its_cells(self) -> None:
        number = ods_cell("14.99", "float", 'office:value="14.99"')
        plain = ods_style("ce9", "table-cell", STRIKES_NOT)
        struck = ods_style("ce9", "table-cell", STRIKES)
        other = ods_style("ce1", "table-cell", STRIKES)
        for styles, row, said in (
            ([struck], "", IS_STRUCK),
            ([plain], "", ""),
            ([plain, other], 'table:default-cell-style-name="ce1"', IS_STRUCK),
            ([struck, ods_style("ce1", "table-cell", STRIKES_NOT)], "", IS_STRUCK),
        ):
            data = self.columns_of_ods(number, *styles, own=row)
            self.check_price(data, None if said else "14.99", said)
        data = self.columns_of_ods(number, ods_style("ce9", "table-cell", RAISES))
        self.check_price(data, None, IS_RAISED)
        data = self.columns_of_ods(ods_cell("2,99"), ods_style("ce9", "table-cell", RAISES))
        self.check_price(data, None, "is not a price")

    def test_equal_cells_of_ods_have_the_styles_of_their_columns(self) -> None:
        """LibreOffice writes two equal cells as one that is repeated."""
        two_prices = ods_cell(
            "4.50", "float", 'office:value="4.5" table:number-columns-repeated="2"'
        )
        sheet = table(["EAN", "Was", "Price"], [PENCIL, two_prices])
        columns = '<table:table-column/><table:table-column table:default-cell-style-name="ce9"/>'
        columns += '<table:table-column table:number-columns-repeated="9"/>'
        sheet = sheet.replace("<table:table-row>", f"{columns}<table:table-row>", 1)
        data = ods(sheet, styles=ods_style("ce9", "table-cell", STRIKES))
        self.assertEqual(self.ran(data, "--code", "EAN", "--price", "Price"), (["4.50"], []))
        prices, said = self.ran(data, "--code", "EAN", "--price", "Was")
        self.assertEqual((prices, IS_STRUCK in said[0]), ([], True))

    def test_a_style_of_ods_has_what_its_parents_say(self) -> None:
        number = ods_cell("14.99", "float", 'office:value="14.99" table:style-name="ce1"')
        gone = 'style:parent-style-name="Gone"'
        child = ods_style("ce1", "table-cell", "", gone)
        again = ods_style("ce1", "table-cell", STRIKES_NOT, gone)
        for styles, common, said in (
            (child, ods_style("Gone", "table-cell", STRIKES), IS_STRUCK),
            (child, ods_style("Gone", "table-cell", RAISES), IS_RAISED),
            (again, ods_style("Gone", "table-cell", STRIKES), ""),
            (child, ods_style("Gone", "text", STRIKES), ""),
            (child, ods_style("", "table-cell", STRIKES), IS_STRUCK),
            (child, ods_style("Gone", "table-cell", "", gone), ""),
        ):
            data = self.columns_of_ods(number, styles, common=common)
            self.check_price(data, None if said else "14.99", said)

    def test_properties_of_a_number_format_are_of_no_style(self) -> None:
        """LibreOffice writes a colour for amounts below zero into the format of the number."""
        red = f'<style:text-properties {COLOURS} fo:color="#ffffff"/>'
        form = f'<number:currency-style xmlns:number="n" style:name="N1">{red}'
        form += "</number:currency-style>"
        number = ods_cell("14.99", "float", 'office:value="14.99" table:style-name="ce1"')
        plain = ods_style("ce1", "table-cell", STRIKES_NOT)
        for styles in ((form, plain), (plain, form)):
            self.check_price(self.columns_of_ods(number, *styles), "14.99")

    def test_letters_in_a_named_style_of_ods_are_struck(self) -> None:
        span = '19.99<text:span text:style-name="Weg"> 14.99</text:span>'
        common = ods_style("Weg", "text", STRIKES)
        data = self.columns_of_ods(ods_cell(span), common=common)
        self.check_price(data, None, IS_STRUCK)


class Marks(CellTest):
    """What only one kind of files says of letters, or of all cells."""

    def of_ods(self, text: str, *styles: tuple[str, str, str]) -> bytes:
        """An .ods with a price, and styles by name, family and properties."""
        made = (ods_style(name, family, f"{COLOURS} {looks}") for name, family, looks in styles)
        price = ods_cell(text, more='table:style-name="ce1"')
        return ods(table(HEAD, [PENCIL, "Tea", price]), styles="".join(made))

    def test_letters_in_letters_of_ods(self) -> None:
        """The inner ones look as their style says; a height may be a number."""
        span = '12<text:span text:style-name="T1">49</text:span>'
        inner = '<text:span text:style-name="T1">12<text:span text:style-name="T2">49</text:span>'
        small = ("ce1", "table-cell", 'fo:font-size="20pt"'), *(
            (name, "text", 'fo:font-size="7pt"') for name in ("T1", "T2")
        )
        self.check_price(self.of_ods(f"{inner}</text:span>", *small), "1249")
        for place, price in (("33% 58%", None), ("0% 100%", "1249")):
            looks = f'style:text-position="{place}"'
            data = self.of_ods(span, ("T1", "text", looks))
            self.check_price(data, price, "" if price else "is not a price")

    def test_what_is_white_in_xlsx(self) -> None:
        for colour, price in (
            ('theme="0"', None),
            ('indexed="9"', None),
            ('theme="0" tint="-0.5"', "1249"),
            ('auto="1"', "1249"),
        ):
            strings = shared(("12", ""), ("49", f"<color {colour}/>"))
            data = xlsx(rows(HEAD, [PENCIL, "Tea", SHARED]), strings=strings)
            self.check_price(data, price, "" if price else IS_UNSEEN)

    def test_a_condition_that_takes_letters_away_is_reported(self) -> None:
        """The cells are read as they are without it: only the spreadsheet knows which it strikes."""
        report = "a condition of the spreadsheet strikes letters out or hides them, "
        report += "and is not read: look whether each row is meant, or choose rows (--where)"
        white = '<color rgb="FFFFFFFF"/>'
        after = '<conditionalFormatting sqref="A2:C9"><cfRule type="expression" dxfId="1" '
        after += 'priority="1"><formula>D2="x"</formula></cfRule></conditionalFormatting>'
        for font, fill, of_ods, is_said in (
            ("<strike/>", "", STRIKES, True),
            (white, "", f'{COLOURS} fo:color="#ffffff"', True),
            (white, "<fill><patternFill/></fill>", STRIKES_NOT, False),
            ('<color rgb="FFFF0000"/>', "", RAISES, False),
        ):
            styles = f"<dxfs><dxf/><dxf><font>{font}</font>{fill}</dxf></dxfs>"
            data = xlsx(rows(HEAD, [PENCIL, "Tea", 1.25]), after=after, styles=styles)
            self.assertEqual(self.ran(data, *PRICED), (["1.25"], [report] * is_said), font)
            named = ods_style("ce1", "table-cell", "").replace(
                "</", '<style:map style:apply-style-name="By"/></'
            )
            styles = named + ods_style("By", "table-cell", of_ods)
            data = ods(table(HEAD, [PENCIL, "Tea", "1.25"]), styles=styles)
            self.assertEqual(self.ran(data, *PRICED), (["1.25"], [report] * is_said), of_ods)

    def test_a_row_without_height_is_hidden(self) -> None:
        cases: list[tuple[str, list[str]]] = [
            ('ht="0" customHeight="1"', []),
            ('ht="15"', ["14.25"]),
            ('hidden="true"', []),
        ]
        for own, prices in cases:
            lines = rows(HEAD, [PENCIL, "Tea", 14.25], [SMALL, "Tea", 14.25])
            lines = lines.replace('<row r="2">', f'<row r="2" {own}>')
            found, said = self.ran(xlsx(lines), *PRICED)
            self.assertEqual(found, [*prices, "14.25"])
            self.assertEqual(["hidden row" in line for line in said], [True] * (not prices))


class Kinds(CellTest):
    def test_a_price_is_no_date_and_not_below_zero(self) -> None:
        date = "is a date or a time, which is not a price: enter it again as text"
        below = "is below zero, though its number format may not show it"
        for form, value, said in (
            ("d.mm", 46000, date),
            ("h.mm", 0.3, date),
            ('0.00" EUR";0.00" EUR"', -7.5, below),
            ("0.00;[Red]0.00", -7.5, below),
            ("0.00;@", -7.5, below),
            ("0.00;@", 7.5, ""),
        ):
            data = xlsx(rows(HEAD, [PENCIL, "Tea", cell(value, style=1)]), formats=[form])
            self.check_price(data, "7.50" if not said else None, said)
        for kind, more, text in (
            ("date", 'office:date-value="2026-05-04"', "4.05"),
            ("time", 'office:time-value="PT04H05M00S"', "4.05"),
        ):
            data = ods(table(HEAD, [PENCIL, "Tea", ods_cell(text, kind, more)]))
            self.check_price(data, None, date)

    def test_a_price_is_not_shown_as_another_one(self) -> None:
        """A number format that hides decimals makes another price of a number."""
        more = "give it a number format of two decimals"
        for form, value, price, said in (
            ("0", 12.49, None, f'is shown as "12", and its value is 12.49: {more}'),
            ("0", 2.99, "3", "row 2 shows the price 3, and its value is 2.99"),
            ("0.0", 2.99, "3.0", "row 2 shows the price 3.0, and its value is 2.99"),
            ("#,##0", 1249, "1,249", ""),
            ("0.00", 2.6775, "2.68", ""),
            ("0.000", 1.8594, "1.859", ""),
            ("0", 3, "3", ""),
            ('0.00"9"', 12.4, None, f'is shown as "12.409", and its value is 12.4: {more}'),
            ('0".99"', 120, None, f'is shown as "120.99", and its value is 120: {more}'),
        ):
            data = xlsx(rows(HEAD, [PENCIL, "Tea", cell(value, style=1)]), formats=[form])
            prices, messages = self.ran(data, *PRICED)
            self.assertEqual(prices, [price] if price else [], form)
            self.assertEqual(
                bool(said), any(said in message for message in messages if said), messages
            )
        more = "give it a number format of two decimals"
        for text, number, said in (
            ("4,50 €", "4.4999", ""),
            ("1.234,50", "1234.5", ""),
            ("1.30", "1299", f'is shown as "1.30", and its value is 1299: {more}'),
            ("4,50 €", "450", f'is shown as "4,50 €", and its value is 450: {more}'),
        ):
            shown = ods_cell(text, "float", f'office:value="{number}"')
            data = ods(table(HEAD, [PENCIL, "Tea", shown]))
            self.check_price(data, None if said else text, said)

    def test_the_value_says_what_a_sign_before_three_digits_is(self) -> None:
        for value, said in (("1200.5", True), ("1201", False), ("1.201", False)):
            shown = ods_cell("1,201 €", "float", f'office:value="{value}"')
            _, messages = self.ran(ods(table(HEAD, [PENCIL, "Tea", shown])), *PRICED)
            rounded = ["row 2 shows the price 1,201 €, and its value is 1200.5"]
            self.assertEqual(messages, rounded if said else [])

    def test_a_date_is_no_number_of_copies(self) -> None:
        data = xlsx(rows(["EAN", "N"], [PENCIL, cell(3, style=1)]), formats=["d.m.yy"])
        problem = 'row 2: column 2 ("N") is a date or a time, which is not a number of copies: '
        problem += "enter it again as text"
        self.check(data, "--code EAN --copies N".split(), [], [problem], 1)

    def test_letters_of_ods_have_all_styles_around_them(self) -> None:
        """Gnumeric writes a style for each property, one in the other."""
        styles = f'{RAISED.style("text")}{Look(size=11).style("text")}'
        cents = f'<text:span text:style-name="{Look(size=11).name}">99</text:span>'
        text = f'7<text:span text:style-name="{RAISED.name}">{cents}</text:span> €'
        data = ods(table(HEAD, [PENCIL, "Tea", ods_cell(text)]), styles=styles)
        self.check_price(data, None, 'has "7⁹⁹ €", which is not a price')

    def test_a_text_of_ods_is_whole(self) -> None:
        for value, text, said in (
            ('office:value="47"', "###", "has the value"),  # the column is narrow
            ('office:currency="EUR"', "2,50 €", "a number without its value"),
            ('office:value="0.45"', "45 %", ""),
        ):
            data = ods(table(["EAN", "Name"], [PENCIL, ods_cell(text, "float", value)]))
            found, messages = self.ran(data, *PRICED[:4])
            self.assertEqual(found, [] if said else [text])
            self.assertEqual(
                [said in message for message in messages], [True] if said else [], text
            )

    def test_a_number_of_ods_has_no_more_digits_than_a_file_keeps(self) -> None:
        shown, value = "10293847565647400000", "1.02938475656474E+019"
        data = ods(table(["EAN"], [ods_cell(shown, "float", f'office:value="{value}"')], ["A7"]))
        done = support.run_here(
            "label-table", "--code", "EAN", "--symbology", "code128", input=data
        )
        self.assertEqual([line for _, line in parts_of(done.stdout)[1]], ["code128 A7"])
        self.assertIn("has too many digits", support.messages(done)[0])

    def test_what_was_not_calculated_has_no_value(self) -> None:
        price = "<c><f>D2*2</f><v>3</v></c>"
        for calculation, wanted in (
            ('<calcPr calcMode="manual" calcCompleted="0"/>', None),
            ('<calcPr calcId="191029"/>', "3"),
        ):
            data = xlsx(rows(HEAD, [PENCIL, "Tea", price]), calculation=calculation)
            self.check_price(data, wanted, "" if wanted else "without a saved value")


class Texts(CellTest):
    def test_utf_8_that_was_read_as_another_encoding(self) -> None:
        for text, encoding in (
            ("Käse", "cp850"),
            ("Käse", "mac_roman"),
            ("Żółw", "cp1250"),
            ("Чай", "cp1251"),
            ("Tee – grün", "cp1252"),
            ("Füller", "cp1252"),
        ):
            wrong = text.encode().decode(encoding)
            for name, meant in ((wrong, text), (f"Größe {wrong}", f"Größe {text}")):
                is_part = name != wrong
                if is_part and encoding in ("cp1250", "cp1251"):
                    continue  # these letters may be those of words
                titles, said = self.ran(f"EAN;Name\n{PENCIL};{name}\n".encode(), *PRICED[:4])
                self.assertEqual((titles, len(said)), ([], 1), name)
                self.assertIn(f'which was encoded twice, for "{meant}"', said[0])
        for text in (
            "NESCAFÉ®",
            "CASĂ®",
            "Mousse d’été",
            "OPCIÓ…",
            "Її сік",
            "«área»",
            "Cóż",
            "√2 ¬",
        ):
            titles, said = self.ran(f"EAN;Name\n{PENCIL};{text}\n".encode(), *PRICED[:4])
            self.assertEqual((titles, said), ([text], []))

    def test_what_another_program_has_left_is_said_once(self) -> None:
        for text in ("Tee &amp; Co", "<b>Tee</b>", "Tee<br/>", "Gr&#252;ntee"):
            data = f"EAN\tName\n{PENCIL}\t{text}\n{SMALL}\t{text}\n".encode()
            titles, said = self.ran(data, *PRICED[:4])
            self.assertEqual((titles, len(said)), ([text, text], 1))
            self.assertTrue(said[0].startswith(f'row 2 has "{text}", as programs write it'))
        for text in ("Salt & Pepper", "a < b", "5' lang"):
            data = f"EAN;Name\n{PENCIL};{text}\n".encode()
            self.assertEqual(self.ran(data, *PRICED[:4]), ([text], []))


class Heads(CellTest):
    """A row may name columns again: what is below may be another table."""

    def test_a_row_that_names_other_columns_ends_the_table(self) -> None:
        words = "--code EAN --title Name --price VK".split()
        names = "row 3: the row names other columns than the first one"
        below = "row 4: the row is below row 3, which names other columns"
        for head, row in (
            ("EAN;Name;EK;VK", f"{SMALL};Tea;1,11;2,22"),
            ("Name;EAN;Stock;VK", f"Tea;{SMALL};1;2,22"),
            ("GTIN-13;Artikel;EK", f"{SMALL};Tea;1,11"),
            ("Código de barras;Artikel;EK", f"{SMALL};Tea;1,11"),
            ("EAN;Artikel;EK", f"{SMALL};Tea;1,11"),
        ):
            table = f"EAN;Name;VK;Stock;\n{PENCIL};Tea;3,33;7;\n"
            fill = ";" * (4 - head.count(";"))
            data = f"{table}{head}{fill}\n{row}{fill}\n".encode()
            done = support.run_here("label-table", *words, input=data)
            self.assertEqual([label["price"] for label, _ in parts_of(done.stdout)[1]], ["3,33"])
            said = [message.partition(": ")[2] for message in support.messages(done)]
            hint = "make it a table of its own"
            self.assertEqual(said[:2], [f"{names}: {hint}", f"{below}: {hint}"], head)

    def test_the_same_names_end_no_table(self) -> None:
        """Lists have them on each page; an article may be called as a column is."""
        words = "--code EAN --title Name --price VK".split()
        again = "row 3: the row has the names of the columns again"
        empty = 'row 3: column 1 ("EAN") is empty'
        for head, problem in (
            ("EAN;Name;VK;Stock", again),
            ("EAN;Name;VK;", again),
            (";Name;;", empty),
        ):
            data = f"EAN;Name;VK;Stock\n{PENCIL};Tea;3,33;7\n{head}\n{SMALL};Tea;2,22;7\n".encode()
            self.assertEqual(self.ran(data, *words), (["3,33", "2,22"], [problem]), head)
        data = f"Code;Name;VK\nName;VK;3,33\n{SMALL};Tea;2,22\n".encode()
        free = "--code Code --price VK --symbology code128".split()
        prices, said = self.ran(data, *free)
        self.assertEqual((prices, "names other columns" in said[0]), ([], True))

    def test_prices_of_cents_or_of_many_are_reported(self) -> None:
        printed = (
            "but its prices are printed as they are: make a column with the price of one article"
        )
        cents, many = f"says cents, {printed}", f"says prices per 100 or 1000, {printed}"
        for name, price, said in (
            ("price_cents", "199", cents),
            ("Preis (ct)", "199", cents),
            ("Preis (ct)", "199 ct", ""),
            ("Center", "199", ""),
            ("Preis/100", "3,33", many),
            ("Preis (TEUR)", "3,33", many),
            ("price per 1000", "3,33", many),
            ("Preis", "3,33", ""),
            ("Preis / 100 g", "3,33", ""),
            ("VK 1000", "3,33", ""),
        ):
            data = f"EAN;{name}\n{PENCIL};{price}\n".encode()
            prices, messages = self.ran(data, "--code", "EAN", "--price", name)
            self.assertEqual(prices, [price])
            self.assertEqual(
                [said in message for message in messages], [True] if said else [], name
            )


class Codes(CellTest):
    def test_codes_that_are_meant_for_another_program(self) -> None:
        words = "--code EAN --symbology code128".split()
        code = f"(01)0{PENCIL}(17)270131"
        said = "the code of row 2 is GS1's in brackets, which is drawn as plain text: "
        said += "no scanner of GS1 takes it"
        self.check(f"EAN\n{code}\n", words, [f"code128 {code}"], [said])
        self.check("EAN\n(01)12\n", words, ["code128 (01)12"])

    def test_an_article_has_one_number(self) -> None:
        said = f"rows 2 and 3 have the same code, 0{SOAP}, and another title, text or price"
        data = f"EAN;Name\n{SOAP};Soap\n0{SOAP};Soap, blue\n"
        words = "--code EAN --title Name".split()
        self.check(data, words, [f"upca {SOAP}", f"ean13 0{SOAP}"], [said])
        problem = f"row 2: 00{SMALL} may be an EAN-8 with zeros in front: "
        problem += "write its 8 digits; draw the codes as EAN-13 (--symbology ean13)"
        self.check(f"EAN\n00{SMALL}\n", "--code EAN --digits lost-zeros".split(), [], [problem], 1)


class Prices(CellTest):
    def priced(self, lines: Sequence[str], *words: str) -> tuple[list[str | None], list[str]]:
        """The prices of a table of articles, and what is said."""
        codes = (PENCIL, SMALL, BOOK)
        text = "".join(f"{code}\tTea\t{line}\n" for code, line in zip(codes, lines))
        head = "\t".join(["EAN", "Name", "Price", *(["Old"] if "--old-price" in words else [])])
        data = f"{head}\n{text}".encode()
        return self.ran(data, *PRICED[:6], *words)

    def test_a_rounded_price_is_said(self) -> None:
        found, said = self.priced(["2.3456 €/l", "1.00"], "--price-as", "0.00 €", "--decimal", ".")
        wanted = "row 2 has 2.3456 €/l, which is rounded to 2.35 €/l"
        self.assertEqual((found, said), (["2.35 €/l", "1.00 €"], [wanted]))
        found, said = self.priced(["0.0149 €/g"], "--price-as", "0.00 €")
        self.assertEqual(found, [])
        self.assertIn("it would be rounded by more than 1 %", said[0])
        found, said = self.priced(["8.330000000000002"], "--price-as", "0.00 €")
        self.assertEqual((found, said), (["8.33 €"], []))

    def test_an_old_price_that_is_not_above_the_price_is_said_once(self) -> None:
        lines = ["1.00\t0.90", "2.00\t2.00", "3.00\t4.00"]
        said = self.priced(lines, "--old-price", "Old")[1]
        below = "row 2 has the old price 0.90, below the price 1.00"
        self.assertEqual(said, [below, "row 3 has 2.00 as the old price and as the price"])
        said = self.priced([lines[0], lines[0], lines[2]], "--old-price", "Old")[1]
        self.assertEqual(said, [f"{below} (2 rows)"])
        for line in ("2.00 €\t1.00 $", "1.234\t1.00", "1.00\t"):
            self.assertEqual(self.priced([line], "--old-price", "Old")[1], [], line)

    def test_a_pattern_keeps_the_words_about_values(self) -> None:
        found, said = self.priced(["0", "2.50"], "--price-as", "0.00 €")
        self.assertEqual(said, ["row 2 has the price 0"])
        found, said = self.priced(["2 €", "2.50 $"], "--price-as", "0.00 ¤")
        self.assertEqual(len(said), 1)
        self.assertIn("several currencies", said[0])

    def test_the_number_of_a_cell_is_no_month(self) -> None:
        for kind in KINDS:
            found = self.ran(kind(Sheet([HEAD, [PENCIL, "Tea", 12.2026]])), *PRICED)[0]
            self.assertEqual(found, ["12.2026"])

    def test_the_general_sign_is_no_currency(self) -> None:
        found, said = self.priced(["2.50 ¤"])
        self.assertEqual((found, len(said)), ([], 1))


if __name__ == "__main__":
    unittest.main()
