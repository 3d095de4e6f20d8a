"""Tests of the rules of label-table: a wrong label, text, price, count or row is never written
without a word.

Each case is a table such as a shop, a web shop's export or a spreadsheet makes.
"""

import csv
import io
import re
import unittest

import support
from labeltools.common.messages import quoted
from sheets import Cell, KINDS, Sheet
from table_test import BOOK, Label, parts_of, PENCIL, SMALL, SOAP, TableTest
from workbooks import (
    cell,
    KINDS as SPACE,
    ods,
    ods_cell,
    packed,
    relations,
    rows,
    table,
    unpacked,
    xlsx,
)

NO_PRICE = "which is not a price: it"
WORDS = "has words that are not part of a price; is it right? take any text as a price (--price-as text)"
NUMBER = 400638100000
MOVED = "cells may have moved, so compare the row with the table"
HINT = "open it in the spreadsheet and save it again"


MONTH = "may be a month; if it is none, choose how prices are printed (--price-as)"


class RulesTest(TableTest):
    """Steps that the tests share."""

    def said(
        self, data: str | bytes, *arguments: str
    ) -> tuple[int, list[str], list[tuple[Label, str]]]:
        """The status, the messages without the tool's name, and the labels and lines of a table."""
        table_data = data.encode() if isinstance(data, str) else data
        done = support.run_here("label-table", *arguments, input=table_data)
        messages = [message.removeprefix("label-table: ") for message in support.messages(done)]
        return done.returncode, messages, parts_of(done.stdout)[1]

    def price(self, price: str, *arguments: str) -> str:
        """What is printed of a price, or why it is not."""
        stream = io.StringIO()
        csv.writer(stream, delimiter=";").writerows([["EAN", "Preis"], [SMALL, price]])
        _, messages, labels = self.said(
            stream.getvalue(), *"--code EAN --price Preis".split(), *arguments
        )
        if labels:
            return str(labels[0][0].get("price", ""))
        return messages[0].removeprefix(
            f'row 2: column 2 ("Preis") has {quoted(price)}, {NO_PRICE} '
        )


class Widths(RulesTest):
    """A row of CSV has the cells of row 1."""

    ARGUMENTS = "--code EAN --title Name --price Price".split()

    def test_quotes_around_rows(self) -> None:
        """A quote that begins in one row ends in another one, and the rows between are a title."""
        text = f'EAN;Name;Price\n{SMALL};"Pen;1,99\n{PENCIL};Ink;2,99\n{SMALL};Cap";0,99\n'
        self.check(text, self.ARGUMENTS, [], ["row 2: a quote is not closed"], 1)
        text = f'EAN,Name,Price\n{SMALL},"Clock, 30\nround, 40",1.99\n'
        self.check(text, self.ARGUMENTS, [f"ean8 {SMALL}"])

    def test_a_price_cut_in_two_where_row_1_ends_in_an_empty_name(self) -> None:
        text = f"EAN,Name,Price,\n{SMALL},Pen,1.99,\n{PENCIL},Pen,0,80\n"
        problem = 'row 3: has "80" in column 4, which has no name: ' + MOVED
        self.check(text, self.ARGUMENTS, [f"ean8 {SMALL}"], [problem], 1)

    def test_delimiters_at_the_end_of_each_row_but_the_first(self) -> None:
        text = f"EAN;Name;Price\n{SMALL};Pen;1,99;\n{PENCIL};Ink;2,99;\n"
        self.check(text, self.ARGUMENTS, [f"ean8 {SMALL}", f"ean13 {PENCIL}"])

    def test_a_value_under_an_empty_name_leaves_its_row_out(self) -> None:
        text = f"EAN;Name;Price;\n{SMALL};Pen;1,99;order\n{PENCIL};Ink;2,99;\n"
        problem = 'row 2: has "order" in column 4, which has no name: ' + MOVED
        self.check(text, self.ARGUMENTS, [f"ean13 {PENCIL}"], [problem], 1)
        self.check(text, [*self.ARGUMENTS, "--text", "4"], [f"ean8 {SMALL}", f"ean13 {PENCIL}"])


class Prices(RulesTest):
    """A price is a price."""

    # what spreadsheets and programs write where they have no value, in languages of Europe and Asia
    NONE = (
        "#VALEUR !|#WERT!|#NV|Fehler:502|Err :502|Erreur :502|Virhe:502|#¡VALOR!|nan|NULL|None|TRUE"
        "|n/a|Loading...|€|1e3|verzinkt|undefined|-|01.02.2026|12:50|4006381333931|5 kg|3 – 5 €"
        "|-30 %|007|A100|\\1,080|&euro;3.00|<b>3.00</b>|z³ 3,00|#ЗНАЧ!|Za¿ó³æ"
    ).split("|")

    def test_what_is_no_price_leaves_its_row_out(self) -> None:
        for price in self.NONE:
            for symbology in ((), ("--symbology", "code128")):
                with self.subTest(price):
                    stream = io.StringIO()
                    csv.writer(stream).writerows([["EAN", "Preis"], [SMALL, price], [BOOK, "1.20"]])
                    arguments = ("--code", "EAN", "--price", "Preis", *symbology)
                    status, messages, labels = self.said(stream.getvalue(), *arguments)
                    self.assertEqual((status, len(labels)), (1, 1))
                    self.assertRegex(messages[0], "^row 2: column 2 ")
                    self.assertIn(quoted(price), messages[0])

    def test_the_message_says_what_to_do(self) -> None:
        no_number = "has no number; is it right? take any text as a price (--price-as text)"
        self.assertEqual(self.price("verzinkt"), no_number)
        self.assertEqual(self.price("auf Anfrage ab 5"), WORDS)
        hint = "is it a currency? take {0} as a currency (--currency-name {0})"
        self.assertEqual(
            self.price("Zz12.50"),
            f"has letters before its digits, as a code has; {hint.format('Zz')}",
        )
        self.assertEqual(self.price("Zz12.50", "--currency-name", "Zz"), "Zz12.50")
        hint = hint.format("R")
        self.assertEqual(self.price("R12"), f"has letters before its digits, as a code has; {hint}")
        self.assertEqual(self.price("R12", "--currency-name", "R"), "R12")

    def test_a_zero_that_is_a_dash(self) -> None:
        dash = Cell(0, '#,##0.00\\ "€";-#,##0.00\\ "€";"-"\\ "€"', "- €")
        problem = f'row 2: column 2 ("Preis") has "- €", {NO_PRICE} has no number; '
        problem += "it is a zero, which its number format shows like this"
        for kind in KINDS:
            data = kind(Sheet([["EAN", "Preis"], [SMALL, dash]]))
            self.check(data, "--code EAN --price Preis".split(), [], [problem], 1)

    def test_free_text(self) -> None:
        for price in ("auf Anfrage", "gratis", "3 zum Preis von 2"):
            self.assertEqual(self.price(price, "--price-as", "text"), price)
        problem = "has neither a letter nor a digit"
        self.assertEqual(self.price("€", "--price-as", "text"), problem)
        for price in ("undefined", "Fehler:502", "#WERT!"):
            found = self.price(price, "--price-as", "text")
            self.assertRegex(found, "which (a program|the spreadsheet) writes if it has no value")

    def test_a_price_is_printed_as_it_is(self) -> None:
        for price in (
            "0,80 €",
            "1.234,50 €",
            "CHF 4.–",
            "\u200f٣٫٩٩ ر.س",
            "1'234.50",
            "12,- €",
            "12.999,00 zł",
            "1\u202f299,00\u00a0€",
        ):
            self.assertEqual(self.price(price), price)
        self.assertEqual(self.price("0,80\t€"), "0,80 €")
        self.assertEqual(self.price('="1,20"'), "1,20")

    def test_a_text_that_may_be_a_month_is_no_price(self) -> None:
        """Excel makes 12.2026 of a date; a program's number may be the same."""
        for text in ("12.2026", "1.1999"):
            self.assertEqual(self.price(text), MONTH)
            self.assertEqual(self.price(text, "--price-as", "text"), text)
            self.assertEqual(self.price(text, "--price-as", "0.00"), f"{float(text):.2f}")
        for text in ("13.2026", "12.2126", "12.20265", "12.2026 €"):
            self.assertEqual(self.price(text), text)

    def test_what_a_column_says_once(self) -> None:
        program = "row 2 has {}, as programs write prices{}: print two decimals (--price-as {})"
        cases = {
            ("1.234", "5.678"): "",
            ("1,50", "1.50"): "",
            ("7.5", "8.2"): program.format("7.5", " (2 rows)", "0.00"),
            ("7,5", "8"): program.format("7,5", "", "0,00"),
            ("34.000000", "8.125"): program.format("34.000000", "", "0.00"),
            ("7.5 €", "8.00 €"): program.format("7.5 €", "", "'0.00 ¤'"),
            ("0.0249 €/g", "0.0184 €/g"): "",
            ("0,00", "0"): "row 2 has the price 0,00 (2 rows)",
            ("5 €", "5 CHF"): "the prices have several currencies: CHF, EUR",
            ("1.234", "0,80"): "",
            ("1,005", "1234,500"): "",
        }
        for prices, wanted in cases.items():
            text = "".join(f"{code};{price}\n" for code, price in zip((SMALL, BOOK), prices))
            status, messages, labels = self.said(
                f"EAN;Preis\n{text}", *"--code EAN --price Preis".split()
            )
            self.assertEqual(
                (status, messages, len(labels)), (0, [wanted] if wanted else [], 2), prices
            )

    def test_prices_that_are_written_anew(self) -> None:
        cases = {
            ("EUR 1'234.5", "0.000,00 €"): "1.234,50 €",
            ("4.00", "0,– €"): "4,– €",
            ("1080円", "¥0,000"): "¥1,080",
            ("3.50 €/kg", "#,##0.00 €"): "3.50 €/kg",
        }
        for (price, pattern), wanted in cases.items():
            self.assertEqual(self.price(price, "--price-as", pattern), wanted)
        refused = {
            (
                "2.675",
                "0,00 €",
            ): "may have thousands or decimals; which sign is before the cents? the "
            "comma, as in 1,50 (--decimal comma) or the point, as in 1.50 (--decimal point)",
            ("0.001", "0,00 €"): "would be printed as zero",
            ("3 €", "0,00"): "has EUR, and the format of prices has no currency",
            ("3", "0,00 ¤"): "has no currency, and the format of prices wants one",
        }
        for (price, pattern), wanted in refused.items():
            found = self.price(price, "--price-as", pattern)
            start = (
                f'row 2: column 2 ("Preis") has "{price}", which cannot be printed like that: it '
            )
            self.assertEqual(found.removeprefix(start), wanted)
        self.assertEqual(self.price("2.675", "--price-as", "0,00 €", "--decimal", ","), "2675,00 €")

    def test_the_column_decides_what_one_cell_does_not_say(self) -> None:
        arguments = ("--code", "EAN", "--price", "Preis", "--price-as", "0.000,00 €")
        text = f"EAN;Preis\n{SMALL};1.234\n{BOOK};0,80\n"
        self.assertEqual(
            [label["price"] for label, _ in self.said(text, *arguments)[2]],
            ["1.234,00 €", "0,80 €"],
        )
        text = f"EAN;Preis\n{SMALL};1.005\n{BOOK};0.80\n"
        status, messages, labels = self.said(text, *arguments)
        problem = 'row 2: column 2 ("Preis") has "1.005", which cannot be printed like that: '
        problem += "it has three digits after ., which is the decimal sign of its column; "
        problem += "write two decimals"
        self.assertEqual((status, messages, len(labels)), (1, [problem], 1))

    def test_a_currency_in_a_column_of_its_own(self) -> None:
        text = f"EAN;Preis;Währung\n{SMALL};7.5;EUR\n{BOOK};3.20;CHF\n{PENCIL};1.00;RF\n"
        arguments = "--code EAN --price Preis --currency Währung".split()
        _, said, labels = self.said(text, *arguments)
        found = [label["price"] for label, _ in labels]
        self.assertEqual(found, ["7.5 EUR", "3.20 CHF", "1.00 RF"])
        self.assertIn("the prices have several currencies: CHF, EUR, RF", said)
        found = [
            label["price"] for label, _ in self.said(text, *arguments, "--price-as", "¤ 0,00")[2]
        ]
        self.assertEqual(found, ["EUR 7,50", "CHF 3,20", "RF 1,00"])
        status, messages, labels = self.said(text, *arguments, "--price-as", "0,00 €")
        self.assertEqual((status, [label["price"] for label, _ in labels]), (1, ["7,50 €"]))
        self.assertIn("it has CHF, and the format of prices has EUR", messages[0])
        labels = self.said(f"EAN;Preis;Währung\n{SMALL};7.50 €;EUR\n", *arguments)[2]
        self.assertEqual([label["price"] for label, _ in labels], ["7.50 €"])  # which has it

    def test_a_column_that_has_no_currencies(self) -> None:
        """One that is not known is said; one with digits, none, or another one than that of the
        price is refused; it stands before the unit of a price.
        """
        row = f"{SMALL};1.00;2.00/kg;"
        text = f"EAN;Preis;Grundpreis;Währung\n{row}EUR\n{row}Soap\n{row}7\n{row}\n"
        text += f"{SMALL};1.00 €;;USD\n"
        arguments = "--code EAN --price Preis --unit-price Grundpreis --currency Währung".split()
        status, messages, labels = self.said(text, *arguments)
        found = [(label["price"], label["unit"]) for label, _ in labels]
        self.assertEqual(found, [("1.00 EUR", "2.00 EUR/kg"), ("1.00 Soap", "2.00 Soap/kg")])
        cannot = "which cannot be printed like that: it has"
        for message in (
            'row 4: column 4 ("Währung") has "7", which is not a currency: write it as EUR or €',
            f'row 5: column 2 ("Preis") has "1.00", {cannot} no currency, and its row has none; '
            "write it into one of them",
            f'row 6: column 2 ("Preis") has "1.00 €", {cannot} EUR, and its row has USD; '
            "write the same currency in both",
            'row 3 has the currency "Soap", which is not known: is it right? take '
            "Soap as a currency (--currency-name Soap)",
        ):
            self.assertIn(message, messages)
        labels = self.said(text, *arguments, "--price-as", "0,00 €")[2]
        self.assertEqual([label["price"] for label, _ in labels], ["1,00 €", "1,00 €"])

    def test_the_price_of_a_unit_and_the_old_price(self) -> None:
        text = f"EAN;Preis;Grundpreis;Alt\n{SMALL};1,99;1 kg = 7,96 €;2,49\n{BOOK};5,00;5,00 €/l;\n"
        arguments = "--code EAN --price Preis --unit-price Grundpreis --old-price Alt".split()
        status, messages, labels = self.said(text, *arguments)
        first, second = (label for label, _ in labels)
        self.assertEqual((status, messages), (0, []))
        wanted = {"row": 2, "price": "1,99", "unit": "1 kg = 7,96 €", "was": "2,49"}
        self.assertEqual((first, second), (wanted, {"row": 3, "price": "5,00", "unit": "5,00 €/l"}))
        _, _, labels = self.said(text.replace(",", "."), *arguments, "--price-as", "0,00 €")
        self.assertEqual(labels[0][0], {**wanted, "price": "1,99 €", "was": "2,49 €"})
        for name in ("verzinkt", "nan"):
            status, messages, _ = self.said(text.replace("2,49", name), *arguments)
            self.assertEqual((status, messages[0][:22]), (1, 'row 2: column 4 ("Alt"'))


class Copies(RulesTest):
    def test_a_truth_value_is_no_number_of_copies(self) -> None:
        shown = Cell(1, '"TRUE";"TRUE";"FALSE"', "TRUE")
        for kind in KINDS:
            data = kind(Sheet([["EAN", "Copies"], [SMALL, shown]]))
            status, messages, labels = self.said(data, "--code", "EAN", "--copies", "Copies")
            self.assertEqual((status, labels), (1, []))
            self.assertRegex(messages[0], '^row 2: column 2 \\("Copies"\\)')


class Titles(RulesTest):
    def test_empty_titles_and_prices_are_said_once(self) -> None:
        lines = "".join(
            f"{support.ean13(number)};{'x' if number % 7 else ''};\n"
            for number in range(NUMBER, NUMBER + 40)
        )
        arguments = "--code EAN --title Name --price Preis".split()
        status, messages, labels = self.said(f"EAN;Name;Preis\n{lines}", *arguments)
        said = ["rows 4, 11, 18, 25, 32, 39 have no title (6 of 40 labels)"]
        said.append("rows 2-41 have no price (40 of 40 labels)")
        self.assertEqual((status, messages, len(labels)), (0, said, 40))

    def test_what_programs_write_is_no_title(self) -> None:
        titles = ["nan", "NULL", "None", "#VALEUR !", "Fehler:502", "undefined"]
        for title in (*titles, "(NULL)", "[none]", "\\N", "NA", "5,9E+12"):
            status, messages, labels = self.said(
                f"EAN;Name\n{SMALL};{title}\n{BOOK};Na\n", *"--code EAN --title 2".split()
            )
            self.assertEqual(
                (status, len(labels), quoted(title) in messages[0]), (1, 1, True), title
            )

    def test_what_another_program_has_escaped_is_said_once_a_column(self) -> None:
        words = "--code EAN --title Name --text Text".split()
        once = "(2 rows): it is printed as it is"
        for first, other, said in (
            ("K\\u00e4se", "Br\\u00f6tchen", 'row 2 has "K\\u00e4se", which a program has escaped'),
            ('Heft \\"A5\\"', "L\\'eau", 'row 2 has "Heft \\"A5\\"", which a program has escaped'),
            ("Tee", "C:\\temp", ""),
            ('5" rod', "12'' rod", ""),
        ):
            text = f"EAN\tName\tText\n{PENCIL}\t{first}\tx\n{SMALL}\t{other}\ty\n"
            status, messages, labels = self.said(text, *words, "--delimiter", "tab")
            self.assertEqual((status, messages), (0, [f"{said} {once}"] if said else []))
            self.assertEqual([label["title"] for label, _ in labels], [first, other])

    def test_quotes_around_each_text_of_a_column_are_said(self) -> None:
        said = """each text in column 2 ("Name") is in quotes, as 'Tee' in row 2: it is printed as it is"""
        for texts, wanted in (
            (("'Tee'", "'Brot'", "'Tee, grün'"), [said]),
            (("'Tee'", "Brot", "'Tee, grün'"), []),
            (("'Tee'",), []),  # one may have them
        ):
            rows = "".join(f"{code};{text}\n" for code, text in zip((PENCIL, SMALL, BOOK), texts))
            done = self.said(f"EAN;Name\n{rows}", *"--code EAN --title Name".split())
            self.assertEqual(done[1], wanted)

    def test_variants_have_the_title_of_the_first_row(self) -> None:
        """A row that is left out, or not marked, still gives its title; none is there in silence."""
        table = (
            f"Handle;Title;EAN;Sell\na;Shirt;;x\na;;{PENCIL};x\nb;Cap;{SMALL};\nb;;{BOOK};x\n"
            f"c;;{SOAP.zfill(13)};x\n"
        )
        words = "--code EAN --title Title --where Sell=x".split()
        status, messages, labels = self.said(table, *words)
        self.assertEqual([label.get("title") for label, _ in labels], [None] * 3)
        status, messages, labels = self.said(table, *words, "--variants-of", "Handle")
        self.assertEqual([label.get("title") for label, _ in labels], ["Shirt", "Cap", None])
        self.assertEqual(
            messages,
            [
                'row 2: column 3 ("EAN") is empty',
                "row 6 has no title (1 of 3 labels)",
                'row 3 has the title of row 2, "Shirt" (2 rows)',
            ],
        )
        done = support.run_here("label-table", *"--code EAN --variants-of Handle".split())
        self.assertIn(
            "variants have one title, and there is none: name its column (--title)",
            support.messages(done)[0],
        )

    def test_tabs_and_marks_of_the_direction_are_white(self) -> None:
        labels = self.labels(
            f"EAN,Name\n{SMALL},a\tb \u200fc\n", *"--code EAN --title Name".split()
        )
        self.assertEqual(labels, [{"row": 2, "title": "a b \u200fc"}])


class Codes(RulesTest):
    """What the spreadsheet shows is what is drawn."""

    FREE = "--code EAN --symbology code128".split()

    def test_what_programs_write_is_no_code(self) -> None:
        for text in ("nan", "NULL", "None", "Loading...", "TRUE", "Fehler:502", "#VALEUR !"):
            status, messages, labels = self.said(
                f"EAN;x\nA-1;x\nA-2;x\nA-3;x\n{text};x\n", *self.FREE
            )
            self.assertIn(quoted(text), messages[0])
            self.assertEqual(
                (status, len(labels)), (0, 4) if text == "Loading..." else (1, 3), text
            )

    def test_a_code_unlike_all_others_is_said(self) -> None:
        text = "EAN;Name\nA-1;x\nA-2;y\nA-3;z\nSumme;\n"
        said = 'the code of row 5, "Summe", has no digit, and others have: if it is not a code, '
        said += "delete the row"
        self.check(
            text, self.FREE, [f"code128 {code}" for code in ("A-1", "A-2", "A-3", "Summe")], [said]
        )

    def test_a_sum_below_few_rows_is_said(self) -> None:
        for word in ("Total", "SUMME:", "Итого"):
            said = (
                f'the code of row 3, "{word}", has no digit, and others have: if it is not a code, '
            )
            said += "delete the row"
            lines = ["code128 A-1", f"code128 {word}"]
            free = self.FREE if word.isascii() else [*self.FREE[:-1], "qr"]
            lines = lines if word.isascii() else ["qr A-1", f"qr {word}"]
            notices = [
                f'row 3: some scanners show "{word}" wrongly; a QR code without accents is safe'
            ]
            notices = [] if word.isascii() else notices
            self.check(f"EAN;Name\nA-1;x\n{word};\n", free, lines, [said, *notices])
        self.check("EAN;Name\nA-1;x\nLeft;\n", self.FREE, ["code128 A-1", "code128 Left"])

    def test_the_symbology_of_each_row(self) -> None:
        text = (
            f"EAN;Art\n{PENCIL};EAN-13\nLOT 7;Code"
            f" 128\nhttps://example.com/7;qr\n{SMALL};\nA;Aztec\n"
        )
        problem = 'row 6: column 2 ("Art") has "Aztec", which is not a symbology: '
        problem += "it is one of EAN-13, EAN-8, UPC-A, Code 128, QR Code"
        lines = [f"ean13 {PENCIL}", "code128 LOT 7", "qr https://example.com/7", f"ean8 {SMALL}"]
        self.check(text, "--code EAN --symbology Art".split(), lines, [problem], 1)
        wrong = '"eab13" is neither a symbology nor a column; row 1 has 1 "EAN", 2 "Art": give one '
        wrong += "of auto, ean8, upca, ean13, code128, qr, or the column that has them"
        self.check(text, "--code EAN --symbology eab13".split(), [], [wrong], 2)
        self.check(f"EAN\n{PENCIL}\n", "--code EAN --symbology EAN-13".split(), lines[:1])

    def test_a_cell_that_leads_to_an_address(self) -> None:
        link = f'<hyperlinks xmlns:r="{SPACE}"><hyperlink ref="A2" r:id="rId1"/></hyperlinks>'
        targets = relations([("rId1", "hyperlink", "https://example.com/7")])
        targets = targets.replace("Target=", 'TargetMode="External" Target=')
        parts = unpacked(xlsx(rows(["EAN"], ["Hier klicken"], ["B7"]), after=link))
        parts["xl/worksheets/_rels/sheet1.xml.rels"] = targets
        formula = '<c t="str"><f>HYPERLINK("https://example.com/7","Hier klicken")</f>'
        formula += "<v>Hier klicken</v></c>"
        inside = "<text:a xmlns:xlink='http://www.w3.org/1999/xlink' "
        inside += "xlink:href='https://example.com/7'>Hier klicken</text:a>"
        files = (
            packed(parts),
            xlsx(rows(["EAN"], [formula], ["B7"])),
            ods(table(["EAN"], [ods_cell(inside)], ["B7"])),
        )
        said = "the code of row 2 is a text that leads to an address: draw the address (--links)"
        for data in files:
            arguments = "--code EAN --symbology qr".split()
            self.check(data, arguments, ["qr Hier klicken", "qr B7"], [said])
            self.check(data, [*arguments, "--links"], ["qr https://example.com/7", "qr B7"])


class Names(RulesTest):
    def test_a_name_over_several_columns(self) -> None:
        names = ["EAN", Cell("Preis", span=(1, 2)), None]
        problem = 'the name "Preis" is over the columns 2 to 3: '
        problem += "give the number of one of these columns"
        for kind in KINDS:
            data = kind(Sheet([names, [SMALL, "1,00", "1,19"]]))
            self.check(data, "--code EAN --price Preis".split(), [], [problem], 2)
            prices = [
                label["price"] for label in self.labels(data, *"--code EAN --price 3".split())
            ]
            self.assertEqual(prices, ["1,19"])

    def test_names_below_a_title(self) -> None:
        lines = [
            "Preisliste 2026",
            "",
            "Stand;1. Mai",
            "",
            "EAN;Name;Preis",
            f"{SMALL};Pen;1,20",
            f"{BOOK};Atlas;24,00",
        ]
        text = "\n".join(lines)
        arguments = "--code EAN --title Name --price Preis".split()
        status, messages, labels = self.said(text, *arguments)
        self.assertEqual((status, labels), (2, []))
        said = '^no column "EAN"; row 1 has 1 "Preisliste 2026".*: take the names from row 5'
        self.assertRegex(messages[0], f"{said} [(]--header-row 5[)]$")
        status, messages, labels = self.said(text, *arguments, "--header-row", "5")
        self.assertEqual((status, messages), (0, []))
        self.assertEqual(
            [(label["row"], label["title"]) for label, _ in labels], [(6, "Pen"), (7, "Atlas")]
        )
        data = xlsx(rows(*(line.split(";") for line in lines)))
        self.assertRegex(
            self.said(data, *arguments)[1][0], "take the names from row 5 [(]--header-row 5[)]$"
        )
        labels = self.said(data, *arguments, "--header-row", "5")[2]
        self.assertEqual([label["row"] for label, _ in labels], [6, 7])
        problem = "standard input has nothing in row 4"
        self.check(text, [*arguments, "--header-row", "4"], [], [problem], 1)

    def test_names_that_macos_takes_apart(self) -> None:
        text = f"EAN;Stu\u0308ck\n{SMALL};3\n"
        self.assertEqual(
            self.labels(text, "--code", "EAN", "--copies", "Stück"), [{"row": 2, "copies": 3}]
        )


class Marked(RulesTest):
    TEXT = f"EAN;Name;Drucken\n{SMALL};a;x\n{BOOK};b;\n{PENCIL};c; X \n"

    def test_rows_that_are_marked(self) -> None:
        self.check(
            self.TEXT, "--code EAN --where Drucken=x".split(), [f"ean8 {SMALL}", f"ean13 {PENCIL}"]
        )
        self.check(
            self.TEXT, "--code EAN --where Drucken=x --where Name=c".split(), [f"ean13 {PENCIL}"]
        )
        self.check(self.TEXT, "--code EAN --where 3=".split(), [f"ean13 {BOOK}"])

    def test_rows_that_a_truth_value_marks(self) -> None:
        truth = '<c t="b"><v>{}</v></c>'
        lines = [["EAN", "Drucken"], [SMALL, truth.format(1)], [BOOK, truth.format(0)]]
        data = xlsx(rows(*lines))
        self.check(data, "--code EAN --where Drucken=true".split(), [f"ean8 {SMALL}"])

    def test_no_row_is_marked(self) -> None:
        problem = (
            'standard input has no row with "ja" in column 3 ("Drucken"): check how the cells are'
            " spelled"
        )
        self.check(self.TEXT, "--code EAN --where Drucken=ja".split(), [], [problem], 1)

    def test_an_older_table_is_not_its_lines(self) -> None:
        text = f"EAN;Name;Preis\n{SMALL};a;1,00\n"
        older = self.folder / "old.csv"
        older.write_text(text)
        arguments = ("--code", "EAN", "--title", "Name", "--new-since", str(older))
        status, messages, labels = self.said(text, *arguments)
        self.assertEqual((status, labels), (1, []))
        problem = (
            f"{older} has lines that are not of label-table: give the file that label-table made"
        )
        self.assertEqual(messages, [f"{problem} of a table"])

    def test_only_what_is_new(self) -> None:
        text = f"EAN;Name;Preis\n{SMALL};a;1,00\n{BOOK};b;2,00\n{PENCIL};c;3,00\n"
        arguments = "--code EAN --title Name --price Preis".split()
        older = self.folder / "old.lines"
        older.write_bytes(support.run_here("label-table", *arguments, input=text.encode()).stdout)
        changed = text.replace("2,00", "2,20") + f"{SOAP};d;4,00\n"
        status, messages, labels = self.said(changed, *arguments, "--new-since", str(older))
        self.assertEqual((status, messages), (0, ["2 rows have not changed, and are not printed"]))
        self.assertEqual([label["title"] for label, _ in labels], ["b", "d"])
        for part in ("title", "price"):
            without = [
                word
                for word in arguments
                if word not in (f"--{part}", {"title": "Name", "price": "Preis"}[part])
            ]
            self.assertEqual(len(self.said(text, *without, "--new-since", str(older))[2]), 3)
        older.write_bytes(older.read_bytes()[:-20])
        status, messages, _ = self.said(text, *arguments, "--new-since", str(older))
        self.assertRegex(messages[0], f"^{older}: line 8: the remark is not a JSON object")


class Summary(RulesTest):
    def test_what_was_understood(self) -> None:
        text = f"EAN;Preis;Stück\n{SMALL};0,80 €;1\n{BOOK};1.299,00 €;3\nx;1,00 €;1\n"
        arguments = "--code EAN --price Preis --copies Stück --summary".split()
        said = (
            "4 labels from 2 rows: 1 EAN-8, 1 EAN-13; prices 0,80 € to 1.299,00 €; copies 1 to 3; 1"
            " row skipped"
        )
        self.assertEqual(self.said(text, *arguments)[1][-1], said)
        self.assertNotIn(said, self.said(text, *arguments[:-1])[1])

    def test_it_is_written_where_somebody_sees_it(self) -> None:
        support.needs("script")
        command = f"printf 'EAN\\n{SMALL}\\n' | label-table --code EAN > '{self.folder}/lines'"
        done = support.run("/usr/bin/script", "--quiet", "--command", command, "/dev/null")
        self.assertIn(b"label-table: 1 label from 1 row: 1 EAN-8", done.stdout)


class Workbooks(RulesTest):
    """What cannot be known is refused, and what can be is read."""

    def test_formulas_that_are_to_be_calculated(self) -> None:
        data = xlsx(
            rows(["EAN", "Preis"], [SMALL, "<c><f>A1*2</f><v>0</v></c>"], [BOOK, cell(2, style=1)]),
            formats=["0.00"],
        )
        parts = unpacked(data)
        book = parts["xl/workbook.xml"].replace(
            "</workbook>", '<calcPr calcId="1" fullCalcOnLoad="1"/></workbook>'
        )
        again = "open the table in the spreadsheet and save it"
        problem = f'row 2: column 2 ("Preis") has a formula without a saved value: {again}'
        arguments = "--code EAN --price Preis --decimal point".split()
        data = packed({**parts, "xl/workbook.xml": book})
        self.check(data, arguments, [f"ean13 {BOOK}"], [problem], 1)
        sheet = "xl/worksheets/sheet1.xml"
        saved = {sheet: parts[sheet].replace("<v>0</v>", "<v>3</v>"), "xl/workbook.xml": book}
        said = f"the results of formulas in this file may be out of date: {HINT}"
        self.check(
            packed({**parts, **saved}), arguments, [f"ean8 {SMALL}", f"ean13 {BOOK}"], [said], 0
        )

    def test_an_empty_text_of_a_formula(self) -> None:
        """LibreOffice writes an empty text for it, and libraries that calculate nothing none."""
        for text, status in (("<text:p/>", 0), ("", 1)):
            empty = '<table:table-cell table:formula="of:=&quot;&quot;">{}</table:table-cell>'
            data = ods(table(["EAN", "Name"], [SMALL, empty.format(text)]))
            self.assertEqual(self.said(data, "--code", "EAN", "--title", "Name")[0], status)

    def test_dates(self) -> None:
        def dates(number_format: str | int, *arguments: str) -> list[str]:
            data = xlsx(
                rows(["EAN", "MHD"], [SMALL, cell(46351, style=1)]), formats=[number_format]
            )
            status, messages, labels = self.said(data, "--code", "EAN", "--text", "MHD", *arguments)
            return [*(label["text"][0] for label, _ in labels), *messages]

        self.assertEqual(dates("yyyy-mm-dd h:mm:ss"), ["2026-11-25 0:00:00"])
        self.assertEqual(dates("h:mm AM/PM"), ["12:00 AM"])
        said = (
            'dates are printed as "2026-11-25": print dates as 31.12.2026 (--date-as' " dd.mm.yyyy)"
        )
        self.assertEqual(dates(14), ["2026-11-25", said])
        formats: list[str | int] = [
            14,
            "d. mmmm yyyy",
            "yyyy-mm-dd h:mm:ss",
            "[$-F800]dddd, mmmm dd, yyyy",
        ]
        for number_format in formats:
            self.assertEqual(dates(number_format, "--date-as", "dd.mm.yy"), ["25.11.26"])
            self.assertEqual(dates(number_format, "--date-as", "YYYY-M-D"), ["2026-11-25"])
        more = 'office:date-value="2026-11-25"'
        data = ods(table(["EAN", "MHD"], [SMALL, ods_cell("Mi 25. Nov", "date", more)]))
        arguments = "--code EAN --text MHD".split()
        self.assertEqual(self.said(data, *arguments)[2][0][0]["text"], ["Mi 25. Nov"])
        self.assertEqual(
            self.said(data, *arguments, "--date-as", "d.m.yyyy")[2][0][0]["text"], ["25.11.2026"]
        )
        for form in ("xx", "d.mmm.yyyy", "0.00", "d.m;d"):  # names of months have no language here
            said = f"argument --date-as: '{form}': write it as 'dd.mm.yyyy'"
            self.check_usage(["--code", "1", "--date-as", form], said)

    def test_damaged_numbers_and_counts(self) -> None:
        damaged = "standard input is damaged, has a password, or is neither .xlsx nor .ods "
        ods_files = []
        for count in ("0", "-1", "1.5", "abc", "99999999999"):
            row = (
                "<table:table-row"
                f' table:number-rows-repeated="{count}">{ods_cell(SMALL)}</table:table-row>'
            )
            ods_files.append(ods(table(["EAN"], end=row)))
            ods_files.append(
                ods(table(["EAN", ods_cell("x", more=f'table:number-columns-repeated="{count}"')]))
            )
        for data in ods_files:
            status, messages, labels = self.said(data, "--code", "EAN")
            self.assertEqual((status, labels, len(messages)), (1, [], 1))
            self.assertTrue(messages[0].startswith(damaged), messages)

    def test_damaged_cells(self) -> None:
        """Each leaves out its row, and no other one."""
        values = ("abc", "sNaN", "1e1000000", "1e-1000000", "NaN", "Infinity")
        numbers = [ods_cell("1", "float", f'office:value="{value}"') for value in values]
        files = [ods(table(["EAN", "x"], [SMALL, number], [SMALL, "a"])) for number in numbers]
        shared = ('<c t="s"><v>-2</v></c>', '<c t="s"><v>7</v></c>', cell(7, style=-1))
        for odd in (*shared, "<c><v>1E999</v></c>", '<c s="9"><v>7</v></c>'):
            lines = (["EAN", "x"], [SMALL, odd], [SMALL, "a"])
            files.append(xlsx(rows(*lines), strings="<si><t>a</t></si>", formats=["0"]))
        for data in files:
            status, messages, labels = self.said(data, "--code", "EAN", "--text", "x")
            self.assertEqual((status, [label[0]["row"] for label in labels]), (1, [3]), messages)
            self.assertRegex(messages[0], r'^row 2: column 2 \("x"\) is damaged')

    def test_one_part_twice(self) -> None:
        parts = unpacked(xlsx(rows(["EAN"], [SMALL])))
        data = packed(parts).replace(b"xl/styles.xml", b"xl/sheets.xml")
        twice = packed({**parts, "xl/sheets.xml": "<x/>"}).replace(
            b"xl/sheets.xml", b"xl/styles.xml"
        )
        self.assertNotEqual(data, twice)
        status, messages, _ = self.said(twice, "--code", "EAN")
        self.assertEqual((status, "one part twice" in messages[0]), (1, True))


class Encodings(RulesTest):
    def test_the_encoding_of_a_till_is_among_those_that_are_shown(self) -> None:
        german = "Käse, Füller, Größe, Äpfel"
        for text, codecs in (
            (german, "cp1252 cp850 cp437 mac_roman iso8859-15"),
            (f"{german}, 2,99 €", "cp1252 iso8859-15"),
            ("Bœuf pâté crème", "cp1252 iso8859-15 mac_roman"),
            ("pão, avó, coração", "cp1252 cp850 mac_roman"),
            ("Smør, blåbær", "cp1252 cp850 iso8859-15"),
            ("Zażółć gęślą jaźń", "cp1250 iso8859-2 cp852"),
            ("Čaj žlutý, přírodní", "cp1250 iso8859-2 cp852"),
            ("Şeker, çay, ığdır", "cp1254"),
            ("Мыло душистое", "cp1251 cp866 koi8-r"),
            ("Μελάνι", "cp1253"),
            ("税込価格 お茶 りんごジュース", "cp932"),
        ):
            for codec in codecs.split():
                data = f"EAN;Name\n{SMALL};{text}\n".encode(codec)
                _, messages, _ = self.said(data, "--code", "EAN", "--title", "Name")
                found = re.findall(r"(?:; |\) or )(.*?) \(--encoding ([\w-]+)", messages[0])
                read = {name: word for word, name in found}
                self.assertLessEqual(len(read), 4)
                words = text.replace(",", " ").split()
                right = [name for name, word in read.items() if set(word.split()) <= set(words)]
                decoded = [name for name in right if data.decode(name).endswith(f"{text}\n")]
                self.assertTrue(decoded, (codec, messages))

    def test_an_encoding_is_never_named_twice(self) -> None:
        data = "EAN;Name\n\x81;\xfd\n".encode("latin-1")
        _, messages, _ = self.said(data, "--code", "EAN", "--encoding", "cp1252")
        self.assertNotIn("cp1252", messages[0])

    def test_an_encoding_that_is_no_text(self) -> None:
        done = support.run("label-table", "--code", "1", "--encoding", b"\xff", input=b"EAN\n")
        problem = 'label-table: the encoding "<U+DCFF>" is unknown: give one as cp1252'
        problem += " (--encoding)"
        self.assertEqual((done.returncode, support.messages(done)), (2, [problem]))


class Messages(RulesTest):
    def test_many_messages_that_are_alike_are_counted(self) -> None:
        text = "EAN;Name\n" + "".join(f"{SMALL};{number}\n" for number in range(5000))
        status, messages, labels = self.said(text, "--code", "Name")
        self.assertEqual((status, labels), (1, []))
        self.assertLess(len(messages), 500)
        self.assertIn("skipped for the same reason as row ", messages[-1])

    def test_control_characters_reach_no_terminal(self) -> None:
        done = support.run("label-table", "--code", "\x1b[2J", input=f"EAN\n{SMALL}\n".encode())
        self.assertNotIn(b"\x1b", done.stderr)
        path = self.folder / "a\x1b[2Jb.csv"
        path.write_text("")
        for argument in (str(path), f"{path}.missing"):
            done = support.run("label-table", "--code", "EAN", argument)
            self.assertNotIn(b"\x1b", done.stderr)
            self.assertIn(b"a<U+001B>[2Jb.csv", done.stderr)


if __name__ == "__main__":
    unittest.main()
