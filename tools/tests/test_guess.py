"""What the columns of a table are guessed to be for, on tables of many shops, with decoys."""

import itertools
import shlex
import tempfile
import unittest
from dataclasses import replace
from decimal import Decimal
from pathlib import Path

import guess_fit
import support
from guess_tables import FOLDER, small_tables, tables, Verdict, verdict_of
from labeltools.common.messages import Talk
from labeltools.lines.file import read_lines
from labeltools.sheets.file_options import FileOptions
from labeltools.tables.evidence import WEIGHTS
from labeltools.tables.facts import is_weight
from labeltools.tables.first_labels import line_of_label
from labeltools.tables.guess import guess, Guess, guess_of
from labeltools.tables.name_words import column_words
from labeltools.tables.table_options import TableOptions
from sheets import KINDS, Sheet

NAMES = "Warengruppe;Artikel;GTIN;Preis EUR"
ROW = "Brot;Roggenbrot;4006381333931;3,20"
# of the small tables whose codes are no EAN, by the name of their first column
SYMBOLOGIES = {
    "Regal": "qr",
    **dict.fromkeys(("Inventarnummer", "Charge", "Bestellnummer", "Artikelnummer"), "code128"),
    **dict.fromkeys(("N° billet", "Etikett", "Order ID", "Product ID", "barcode"), "code128"),
    "Copy Barcode": "code128",
}

# tables with one command and with several, an old price, a price of a unit, numbers of labels
SHOWN = (
    *("aktion.csv", "de-at-ch-preise.csv", "de-ean-neu-wenige.csv", "de-hofladen-grundpreis.csv"),
    *("racks-copies.xlsx", "libreoffice.ods", "de-mitglieder.csv", "mn-zakh.csv", "ar-arqam.csv"),
)

LANGUAGES = (
    "Barcode;Product name;Selling price;Cost price;Stock on hand",
    "Strichcode;Artikelbezeichnung;VK brutto;VK netto;Bestand",
    "Code-barres;Désignation;Prix de vente TTC;Prix de vente HT;Quantité",
    "Código de barras;Nombre del producto;Precio de venta;Precio de compra;Existencias",
    "Codice a barre;Descrizione;Prezzo ivato;Prezzo netto;Giacenza",
    "Streepjescode;Omschrijving;Verkoopprijs incl. btw;Verkoopprijs excl. btw;Voorraad",
    "Código de barras;Descrição;Preço de venda;Preço de custo;Estoque",
    "Kod kreskowy;Nazwa towaru;Cena sprzedaży brutto;Cena sprzedaży netto;Stan",
    "Čárový kód;Název zboží;Prodejní cena s DPH;Prodejní cena bez DPH;Sklad",
    "Stregkode;Varenavn;Salgspris;Kostpris;Lager",
    "Streckkod;Benämning;Försäljningspris;Inköpspris;Lagersaldo",
    "Strekkode;Varenavn;Utsalgspris;Innkjøpspris;Lagerbeholdning",
    "Viivakoodi;Tuotenimi;Verollinen hinta;Veroton hinta;Varastosaldo",
    "Vonalkód;Megnevezés;Bruttó eladási ár;Beszerzési ár;Készlet",
    "Barkod;Ürün Adı;Satış Fiyatı;Alış Fiyatı;Stok",
    "Штрихкод;Наименование;Цена продажи;Цена закупки;Остаток",
    "Γραμμωτός κωδικός;Περιγραφή;Τιμή λιανικής;Τιμή χονδρικής;Απόθεμα",
)


def commands_in(said: str) -> list[str]:
    """The words of the commands that label-table proposes, each on a line of its own."""
    lines = said.splitlines()
    return [line.partition(" ")[2] for line in lines if line.startswith("label-table ")]


def guessed(text: str, options: TableOptions = TableOptions()) -> Guess:
    """The guess of a table."""
    return guess_of(text.encode(), "table.csv", options, Talk())


class Guesses(unittest.TestCase):
    def test_columns_of_shops(self) -> None:
        """The small tables of names.txt, most of one row: what is asked is asked, and no more."""
        for table in small_tables():
            names = table.name
            rows = zip(*table.columns)
            found = guessed("\n".join(map(";".join, rows)) + "\n")
            verdict, why = verdict_of(table, found)
            is_shop = len(table.columns[0]) == 2
            needless = () if is_shop else (Verdict.NEEDLESS, Verdict.INCOMPLETE)
            self.assertIn(verdict, (Verdict.RIGHT, Verdict.FAIR, *needless), (names, why))
            self.assertEqual(found.header, 1)
            if is_shop:
                wanted = SYMBOLOGIES.get(names.partition(";")[0], "auto")
                kind = found.rules_of(next(iter(found.codes), -1)).symbology
                self.assertEqual(kind, wanted, names)

    def test_what_a_shop_pays_is_no_price(self) -> None:
        names = "EAN;Artikel;EK netto"
        row = "4006381333931;Salbe, kühlend;2,10 €"
        self.assertNotIn("price", guessed(f"{names}\n{row}\n").columns)
        found = guessed(f"{names};Verkaufspreis\n{row};4,95 €\n")
        self.assertEqual(found.columns["price"], 3)
        found = guessed(f"{names};Apothekenpreis\n{row};4,95 €\n")  # a word that is not known
        self.assertEqual(found.columns["price"], 3)
        found = guessed(f"{names};Apothekenpreis;Kassapreis\n{row};4,95 €;5,95 €\n")
        self.assertEqual(found.doubts, {"price": [3, 4]})

    def test_the_row_of_the_names(self) -> None:
        names, row = NAMES, ROW
        long_names = ";".join(f"The {letter} of the article, as in the shop" for letter in "wxyz")
        for above, header in (
            ("", 1),
            ("Preisliste;;;\n;;;\n", 3),
            ("Stand;Mai;;\n", 2),
            ("Liste;Stand:;01.11.2026;\n", 2),
            ("fa;fb;fc;fd\n", 2),  # names that a program has for itself
            ("Pflicht;Pflicht;Pflicht;Pflicht\n", 2),
            (f"{long_names}\n", 2),
            ("Preisliste, Stand Mai\n", 2),  # one that has no delimiter, or another one
            ("Preisliste\nMai\n\nStand 1\n", 5),
        ):
            self.assertEqual(guessed(f"{above}{names}\n{row}\n").header, header, above)
        found = guessed("4006381333931;Kerze;1,20\n96385074;Docht;0,80\n")
        self.assertEqual((found.header, found.columns["price"]), (0, 2))
        for place in ("A-01-", "SN-4711-000", "https://t.example/"):  # a name of the form of codes
            found = guessed(f"{place}1\n{place}2\n{place}3\n")
            self.assertEqual((found.header, found.columns), (0, {"code": 0}), place)
        said = guessed(f"{names}\n{row}\n", TableOptions(file=FileOptions(header_row=0)))
        self.assertEqual(said.header, 0)
        said = guessed(f"{row}\n{names}\n", TableOptions(file=FileOptions(header_row=1)))
        self.assertEqual(said.header, 1)

    def test_two_columns_of_codes_are_asked_about(self) -> None:
        rows = [f"{code};{other}" for code, other in zip(CODES, ("", "", "036000291452"))]
        for names in ("EAN;UPC", "EAN;EAN neu", "Barcode;EAN"):
            found = guessed("\n".join([names, *rows]))
            self.assertEqual((found.columns, found.doubts), ({}, {"code": [0, 1]}), names)

    @support.slow
    def test_label_table_proposes_columns(self) -> None:
        names = "Produkt;Strichcode;Normalpreis;Sonderpreis;Anzahl Etiketten"
        row = "Honig Linde;4006381333931;3,50 €;2,99 €;4"
        with tempfile.TemporaryDirectory() as folder:
            path = Path(folder, "Hofladen Mai.csv")
            path.write_text(f"Hofladen;\n{names}\n{row}\n")
            done = support.run("label-table", path)
            self.assertEqual((done.returncode, done.stdout), (2, b""))
            prices = {"Normalpreis": "3,50 €", "Sonderpreis": "2,99 €"}
            self.assertEqual(
                support.messages(done),
                [
                    "label-table: found the code in Strichcode, the title in Produkt, the number of "
                    "labels in 'Anzahl Etiketten'",
                    "label-table: only you know which column has the price: Normalpreis, Sonderpreis",
                    "label-table: one of these makes the labels:",
                    *(
                        line
                        for price, shown in prices.items()
                        for line in (
                            f"label-table --code Strichcode --title Produkt --price {price} "
                            f"--copies 'Anzahl Etiketten' --header-row 2 '{path}'",
                            f"    EAN-13 4006381333931 | Honig Linde | {shown} | 4 labels",
                        )
                    ),
                ],
            )
            path.write_text("Ware;Code;SKU;VK\nKugellager;M-10023;S-77120;4,20\n")
            said = support.run("label-table", path).stderr.decode()
            self.assertIn("only you know which column has the code: Code, SKU\n", said)
            self.assertEqual(
                commands_in(said),
                [
                    f"--code {name} --title Ware --price VK --symbology code128 '{path}'"
                    for name in ("Code", "SKU")
                ],
            )
            said = support.messages(support.run("label-table", "--symbology", "qr", path))[-1]
            self.assertNotIn("code128", said)  # what was asked for stays
            self.check_proposals(Path(folder))
            path.write_text("Name;Ort\nUlla;Ulm\n")
            said = support.messages(support.run("label-table", path))[-1]
            what = f"error: no column of {path} seems to have codes: "
            self.assertEqual(said, f"label-table: {what}name the column that has them (--code)")
            done = support.run("label-table", Path(folder, "none.csv"))
            self.assertIn("No such file", support.messages(done)[-1])

    @support.slow
    def test_codes_that_are_no_ean_are_asked_about_and_each_way_runs(self) -> None:
        """Their check digits are wrong or missing, or their zeros are lost; else they are any text."""
        none = "--symbology code128"
        for name, codes, ways in (
            ("Nr", "4006381333932 4006381333933 4006381333934", [none]),
            ("Nr", "400638133390 400638133391 400638133392", ["--digits no-check", none]),
            ("EAN", "72651101016 72651101023", ["--digits lost-zeros", none]),
            ("EAN", "4006381 4006382 4006383", ["--digits no-check", none]),
        ):
            with tempfile.TemporaryDirectory() as folder:
                path = Path(folder, "table.csv")
                path.write_text("\n".join([name, *codes.split()]))
                said = support.run_here("label-table", path).stderr.decode()
                self.assertIn(f"most codes in {name} are not EAN or UPC: ", said)
                proposed = commands_in(said)
                self.assertEqual(proposed, [f"--code {name} {way} {path}" for way in ways])
                for command in proposed:
                    done = support.run_here("label-table", *shlex.split(command))
                    self.assertIn(b'"row"', done.stdout, command)
                    self.assertNotIn(b"most codes", done.stderr)
                done = support.run_here("label-table", *shlex.split(ways[0]), path)
                self.assertEqual(
                    commands_in(done.stderr.decode()), [f"--code {name} {ways[0]} {path}"]
                )

    def test_codes_that_can_be_no_ean_are_not_asked_about(self) -> None:
        """Of a length that none has, or numbers that a country gives to medicines."""
        for name, codes in (
            ("Barcode", "100201 100202 100203"),
            ("Barcode", "0117320881 0117320882 0117320883"),
            ("PZN", "01342116 04829126 07110246"),
        ):
            said, done = self.proposed_and_run("\n".join([name, *codes.split(), ""]))
            self.assertNotIn("most codes", said)
            self.assertEqual(done.stdout.count(b"code128 "), 3, name)

    def test_zeros_that_were_lost_are_proposed(self) -> None:
        """By their check digits, of three numbers at least, whether others have all digits."""
        short = ("72651101016", "72651101023", "72651101030")
        for codes, is_sure in (
            (short, True),
            ((*CODES, *short), True),
            (short[:2], False),
            ((*short, "72651101041"), False),  # this one is no UPC
        ):
            text = "UPC\n" + "".join(f"{code}\n" for code in codes)
            said, done = self.proposed_and_run(text)
            self.assertEqual(
                "--digits lost-zeros" in said and "most codes" not in said, is_sure, codes
            )
            if is_sure:
                self.assertEqual((done.returncode, done.stderr), (0, b""))
                self.assertEqual(done.stdout.count(b"ean13 "), len(codes))
                self.assertIn(b"ean13 0072651101016\n", done.stdout)

    def proposed_and_run(self, text: str) -> "tuple[str, support.Finished[bytes]]":
        """What is said of a table, and what the first command that is proposed makes of it."""
        with tempfile.TemporaryDirectory() as folder:
            path = Path(folder, "table.csv")
            path.write_text(text)
            said = support.run_here("label-table", path).stderr.decode()
            words = shlex.split(commands_in(said)[0])
            return said, support.run_here("label-table", *words)

    def test_the_labels_that_are_shown_are_those_that_the_command_makes(self) -> None:
        """Each one, of each command, with its prices and its number."""
        for name in SHOWN:
            path = FOLDER / name
            said = support.run_here("label-table", path).stderr.decode()
            first, *blocks = said.split("\nlabel-table --")
            for block in blocks:
                command, *lines = block.splitlines()
                done = support.run_here("label-table", *shlex.split(f"--{command}"))
                made = [*map(line_of_label, read_lines(done.stdout, name).records)]
                shown = [line[4:] for line in lines if line.startswith("    ")]
                self.assertEqual(shown, [label for label in map(str, made) if label in shown], name)
                self.assertTrue(shown, (name, command))

    def test_an_amount_is_on_a_label_or_named(self) -> None:
        """Whatever its column is called, and in the digits of any script, with what is in it beside
        the first label.
        """
        for name, given, wanted in (
            ("Qwx", "", "Qwx 12; if one is the price, name its column (--price)"),
            ("VAT", "", "VAT 12; if one is the price, name its column (--price)"),
            ("Cost", "", "Cost 12; if one is the price, name its column (--price)"),
            ("Cost", "--price Cost", ""),
            ("Cost", "--text 3", ""),
        ):
            for digits in ("12", "١٢"):
                text = f"EAN;Name;{name}\n4006381333932;Gum;7\n{CODES[0]};Tea;{digits}\n"
                with tempfile.TemporaryDirectory() as folder:
                    path = Path(folder, "table.csv")
                    path.write_text(text)
                    said = support.run_here("label-table", *given.split(), path).stderr.decode()
                _, is_named, rest = said.partition("not on the labels: ")
                self.assertEqual(rest.strip(), wanted.replace("12", digits), (name, given))
                self.assertEqual(bool(is_named), bool(wanted))

    def test_the_row_that_is_shown_is_one_in_which_commands_differ(self) -> None:
        rows = [f"{CODES[0]};Tea;4,95;4,95", f"{CODES[1]};Gum;1,20;0,99"]
        said, _ = self.proposed_and_run("\n".join(["EAN;Name;Price;Sale price", *rows, ""]))
        self.assertIn(" | Gum | 1,20\n", said)
        self.assertIn(" | Gum | 0,99\n", said)

    def test_the_plain_name_wins_and_the_others_are_named(self) -> None:
        row = "4006381333931;Tea, green;4,95;3,95;2,95"
        for names, others in (
            ("EAN;Name;VK;VK Kette;VK 2", "'VK Kette' 3,95; 'VK 2' 2,95"),
            ("EAN;Name;VK1;VK2;VK3", "VK2 3,95; VK3 2,95"),
            ("EAN;Name;Prix;Prix pro;Prix 10+", "'Prix pro' 3,95; 'Prix 10+' 2,95"),
            ("EAN;Name;Price;Price web;Desk price", "'Price web' 3,95; 'Desk price' 2,95"),
        ):
            price = names.split(";")[2]
            said, done = self.proposed_and_run(f"{names}\n{row}\n")
            self.assertIn(f"\nlabel-table: not on the labels: {others}\n", said)
            [command] = commands_in(said)
            self.assertIn(f"--code EAN --title Name --price {shlex.quote(price)} ", command)
            self.assertIn(b'"price":"4,95"', done.stdout)
        for names in ("EAN;Name;Price;Sale price", "EAN;Name;Preis A;Preis B"):
            said, done = self.proposed_and_run(f"{names}\n{row[:-5]}\n")  # two that may be paid
            prices = names.split(";")[2:]
            self.assertIn("\nlabel-table: only you know which column has the price: ", said)
            for price, command in zip(prices, commands_in(said), strict=True):
                self.assertIn(f" --price {shlex.quote(price)} ", command)
            self.assertIn(b'"price"', done.stdout)

    def test_amounts_and_numbers_decide_where_names_do_not(self) -> None:
        """The command of a table whose names are plain, but for which one is meant."""
        texts = [f"{code};Tea {number}" for number, code in enumerate(CODES, 1)]
        for more, rows, wanted in (
            ("VK1;VK2", ("1.99;2.37", "8.40;10.00", "2.05;2.44"), "--price VK2"),  # with 19 %
            ("Standard price;Price", ("8.00;8.00", "9.00;5.00", "2.00;2.00"), "--price Price"),
            ("Name EN", ("Tea one", "", "Tea three"), "--title Name"),
            ("Item ID;Seriennummer", ("1201;S-4711", "1202;S-4712", "1203;S-4713"), "--code EAN"),
        ):
            lines = [f"EAN;Name;{more}", *map(";".join, zip(texts, rows))]
            said, done = self.proposed_and_run("\n".join(lines) + "\n")
            self.assertIn(f" {wanted} ", said, more)
            self.assertEqual((done.returncode, done.stdout.count(b"ean13 ")), (0, 3), more)
        lines = ["priref;Objektnummer;Title", "40012;1956.012;Tea", "40013;1956.013a;Gum"]
        said, _ = self.proposed_and_run("\n".join(lines) + "\n")
        self.assertIn("only you know which column has the code: priref, Objektnummer\n", said)

    def test_variants_of_a_shop(self) -> None:
        """Programs of shops write the title into the first row of an article alone."""
        rows = [
            f"shirt;Shirt, blue;<p>Soft</p>;S;19.95;{CODES[0]}",
            f"shirt;;;M;19.95;{CODES[1]}",
            f"shirt;;;L;21.95;{CODES[2]}",
            "cap;Cap, wool;<p>Warm</p>;;9.95;96385074",
        ]
        names = "Handle;Title;Body (HTML);Option1 Value;Variant Price;Variant Barcode"
        said, done = self.proposed_and_run("\n".join([names, *rows, ""]))
        self.assertIn(" --title Title --price 'Variant Price' --variants-of Handle ", said)
        self.assertEqual(done.stdout.count(b'"title":"Shirt, blue"'), 3)
        self.assertIn(b'row 3 has the title of row 2, "Shirt, blue" (2 rows)', done.stderr)
        for other in ("cap;;;;9.95;96385074", "shirt;Shirt;;;9.95;96385074"):
            said, _ = self.proposed_and_run("\n".join([names, *rows[:3], other, ""]))
            self.assertNotIn("--variants-of", said)  # the rows do not say it
        units = [f"{'Jar' if row[0] == 'c' else 'Box'};{row.partition(';')[2]}" for row in rows]
        said, _ = self.proposed_and_run("\n".join([names.replace("Handle", "Unit"), *units, ""]))
        self.assertNotIn("--variants-of", said)  # these are no names of articles

    def test_the_number_of_a_booking_is_no_title(self) -> None:
        """Several tickets share it: above the code it would look like the ticket's own."""
        rows = [
            "7QX2LA;T-0001;Le Cid;12,00",
            "7QX2LA;T-0002;Le Cid;12,00",
            "9KD3PB;T-0003;Ubu;8,00",
        ]
        names = "Dossier;Numéro de billet;Pièce;Tarif"
        said, done = self.proposed_and_run("\n".join([names, *rows, ""]))
        self.assertIn("--code 'Numéro de billet' --title 'Pièce' --price Tarif", said)
        self.assertNotIn(b"7QX2LA", done.stdout)

    def test_own_numbers_may_have_a_space(self) -> None:
        found = guessed("Item barcode;Title\nK 201;Red Sea\nK 202;Blue Hill\nK 203;Green Lane\n")
        self.assertEqual(found.columns, {"code": 0, "title": 1})

    def test_a_first_and_a_last_name_are_one_title(self) -> None:
        """The one of a guest, not that of the buyer; what has the first name in it is the whole."""
        rows = ["T-1001;Adler;Anna;Becker;Ben;8.00", "T-1002;Becker;Ben;Becker;Ben;8.00", ""]
        names = "Ticket code;Last name;First name;Buyer last name;Buyer first name;Price"
        said, done = self.proposed_and_run("\n".join([names, *rows]))
        self.assertIn(": Price 8.00; if one is the price, name its column (--price)\n", said)
        self.assertNotIn("others may have", said)
        self.assertIn("--code 'Ticket code' --title 'First name' --title 'Last name' --sym", said)
        self.assertIn(b'"title":"Anna\\nAdler"', done.stdout)
        for names, row, wanted, second in (
            ("Ticket code;Nom;Prénom", "T-1001;Adler;Anna", {"code": 0, "title": 2}, 1),
            ("Ticket code;Nom;Prénom", "T-1001;Anna Adler;Anna", {"code": 0, "title": 1}, None),
            ("Ticket code;Vorname;Nachname;Buch", "T-1001;Anna;Adler;Herbst", {"code": 0}, None),
            ("Barcode;FamilyName;CalcName", "T-1001;Rosaceae;Rosa canina", {"code": 0}, None),
        ):
            found = guessed(f"{names}\n{row}\n")
            self.assertEqual((found.columns, found.beside.get("title")), (wanted, second), row)

    @support.slow
    def test_an_old_encoding_is_proposed_where_one_reading_is_sensible(self) -> None:
        """By the letters of the language of the names; where other letters are sensible, too, it is
        asked as before, and without a proposal nothing is read in an old encoding.
        """
        german, english = "EAN;Artikel;Preis", "EAN;Name;Price"
        for names, title, encoding, wanted in (
            (german, "Käse", "cp1252", "cp1252"),
            (german, "Crème fraîche", "cp1252", "cp1252"),
            (german, "Möhre ½ kg", "cp850", ""),  # of DOS, which is only offered
            (english, "Tea 12,50 €", "cp1252", "cp1252"),  # a currency beside an amount
            (german, "Möhren, weiß", "mac_roman", ""),
            (german, "Größe 5 €", "iso8859-15", ""),
            ("EAN;Désignation;Prix TTC", "Crème brûlée", "cp1252", "cp1252"),
            ("EAN;Nazwa;Cena", "Mąka, świeża", "cp1250", "cp1250"),
            ("EAN;Nazwa;Cena", "Mąka, świeża", "iso8859-2", ""),
            ("EAN;Název;Cena", "Čaj", "cp1250", "cp1250"),
            ("EAN;Megnevezés;Bruttó ár", "Tej, sűrű", "cp1250", "cp1250"),
            ("Barkod;Ürün Adı;Fiyat", "Yağ, ışık", "cp1254", "cp1254"),
            ("Штрихкод;Наименование;Цена", "Мыло", "cp1251", "cp1251"),
            ("Barcode;Περιγραφή;Τιμή", "Τσάι", "cp1253", "cp1253"),
            (english, "Füller, weiß", "cp1252", "cp1252"),
            ("JANコード;商品名;販売価格", "緑茶", "cp932", "cp932"),
            ("条码;商品名称;零售价", "绿茶", "gb18030", "gb18030"),
            ("條碼;商品名稱;售價", "綠茶", "big5", "big5"),
            ("바코드;상품명;판매가", "녹차", "cp949", "cp949"),
            (english, "Łosoś, żółty, mąka", "cp1250", "cp1250"),
            (english, "Crème", "cp1252", ""),  # or Crčme
            ("EAN;Name of the wine;Price (me)", "Château Côte Cuvée", "cp1252", "cp1252"),
            ("Stregkode;Varenavn;Pris", "Spærret", "cp1252", "cp1252"),  # no Spµrret of cp850
            (english, "Kőr", "cp1250", ""),  # or Kõr
            (english, "Мыло, чай чёрный, рис, Соль", "koi8-r", ""),
            (german, "Käse 12 ¤", "cp1252", ""),
        ):
            text = f"{names}\n4006381333931;{title};1,20\n"
            with tempfile.TemporaryDirectory() as folder:
                path = Path(folder, "table.csv")
                path.write_bytes(text.encode(encoding))
                said = support.run_here("label-table", path).stderr.decode()
                self.assertEqual(f" --encoding {wanted} {path}" in said, bool(wanted), said)
                if wanted:
                    self.assertIn("the letters are read as ", said)
                    self.assertIn(
                        ": check the letters; read them in another way (leave out --encoding)\n",
                        said,
                    )
                    [command] = commands_in(said)
                    done = support.run_here("label-table", *shlex.split(command))
                    self.assertIn(f'"title":"{title}"'.encode(), done.stdout)
                else:
                    self.assertEqual(commands_in(said), [])
                done = support.run_here("label-table", "--code", "1", "--title", "2", path)
                self.assertEqual((done.returncode, done.stdout), (1, b""), title)
                self.assertIn(b" is not UTF-8, as line ", done.stderr)

    def test_single_things_get_no_price(self) -> None:
        """Tickets, copies of books and things of an inventory; what is sold gets its price."""
        for names, row in (
            ("Asset Tag ID;Description;Price", "AT-1001;Chair, red;9.00"),
            ("Ticket code;First name;Last name;Price", "T-1001;Anna;Adler;9.00"),
            ("Barcode;ISBN;Title;Price", "AB-1001;978-3-16-148410-0;Herbstlicht;9.00"),
        ):
            found = guessed(f"{names}\n{row}\n")
            self.assertEqual(found.amounts, [names.count(";")], names)
            self.assertNotIn("price", found.columns)
            self.assertNotIn("price", found.doubts)
        found = guessed("PLU;Article;Price\n4100;Pears;9.00\n")  # which a shop sells
        self.assertEqual(found.columns.get("price"), 2)

        for more, is_single in (("Custodian", True), ("Emprunteur", True), ("Colour", False)):
            found = guessed(f"SKU;Name;Price;{more}\nAB-1001;Chair, red;9.00;Anna\n")
            self.assertEqual("price" not in found.columns, is_single, more)
        found = guessed("SKU;Name;Selling price;Asset\nAB-1001;Chair, red;9.00;1400\n")
        self.assertEqual(found.columns.get("price"), 2)

    def test_codes_of_tickets_are_their_own_numbers(self) -> None:
        """Twelve digits without the right check digit, beside a first and a last name."""
        rows = "745944522779;Adler;Anna\n511260041544;Becker;Ben\n651268188657;Clay;Carla\n"
        for names in ("Code-barres;Nom;Prénom", "Barcode;Last name;First name"):
            said, done = self.proposed_and_run(f"{names}\n{rows}")
            self.assertIn(" --symbology code128 ", said)
            self.assertNotIn("most codes", said)
            self.assertIn(b"code128 745944522779\n", done.stdout)
        said, _ = self.proposed_and_run(f"Barcode;Name;Maker\n{rows}")
        self.assertIn("most codes in Barcode are not EAN or UPC", said)

    def test_a_name_may_look_like_a_number(self) -> None:
        """As those of computers; what runs on them is not the title."""
        row = "INV20241;PC-ACC-021;Windows 11 Professional"
        for names in (
            "Numéro d'inventaire;Nom;Système d'exploitation - Nom",
            "Asset tag;Name;OS name",
        ):
            found = guessed(f"{names}\n{row}\n")
            self.assertIn(found.columns.get("title"), (1, None), names)
            self.assertIn(1, found.doubts.get("title", [1]), names)

    def test_a_title_of_some_kind_is_asked_about_beside_other_texts(self) -> None:
        row = "4006381333931;Tea, green;Tea of Fuzhou"
        for names, is_sure in (
            ("EAN;Artikel;Web name", True),
            ("EAN;Line;Web name", False),
            ("EAN;Web name;Preis", True),
            ("EAN;Vendor name;Web name", True),
            ("EAN;Product name;Web name", True),
        ):
            found = guessed(f"{names}\n{row}\n")
            self.assertEqual("title" in found.columns, is_sure, names)

    def test_a_code_of_something_else_is_asked_about(self) -> None:
        """Of a carton; or one that few rows have, where all have a number of their country."""
        carton = [["Item no", *NUMBERS[1]], ["Carton EAN", *CODES]]
        self.assertEqual(guess(carton, 1).doubts, {"code": [0, 1]})
        plain = [["Item no", *NUMBERS[1]], ["EAN", *CODES], ["Carton EAN", *CODES[::-1]]]
        self.assertEqual(guess(plain, 1).columns, {"code": 1})
        # an inventory number a shop may have, too
        numbered = [["Inventory number", *NUMBERS[1]], ["EAN", *CODES]]
        self.assertEqual(guess(numbered, 1).columns, {"code": 1})
        tickets = [["Ticket number", *NUMBERS[1]], ["Barcode", *NUMBERS[0]]]
        self.assertEqual(guess(tickets, 1).columns, {"code": 1})
        few = [["Item no", *NUMBERS[1]], ["EAN", CODES[0], "", ""]]
        self.assertEqual(guess(few, 1).columns, {"code": 1})
        few[0][0] = "PZN"
        self.assertEqual(guess(few, 1).doubts, {"code": [0, 1]})
        old = [["Book no", *NUMBERS[1]], ["ISBN", CODES[0], "", ""]]
        self.assertEqual(guess(old, 1).doubts, {"code": [0, 1]})
        shop = [["EAN", *CODES], ["ISBN", "", "978-0-306-40615-7", ""]]
        self.assertEqual(guess(shop, 1).columns, {"code": 0})  # the same number, less often
        shop = [["handleId", "tea-a", "tea-b", "tea-c"], ["sku", "T-A", "T-B", "T-C"]]
        self.assertEqual(guess(shop, 1).columns, {"code": 1})
        library = [["Accession no", "1201", "1202", "1203"], ["Barcode", *NUMBERS[0]]]
        self.assertEqual(guess([*library, ["ISBN", *CODES]], 1).columns, {"code": 1})
        for isbn in ([CODES[1], CODES[1], CODES[0]], [*CODES[:2], ""]):
            found = guess([["Book no", *NUMBERS[1]], ["ISBN", *isbn]], 1)  # of copies, of old books
            self.assertNotIn("code", found.columns)
        tens = ("180615904X", "0062890964", '="0301198063"')
        books = [["ISBN", *(f'="{code}"' for code in CODES)], ["ISBN-10", *tens]]
        self.assertEqual(guess(books, 1).columns, {"code": 0})
        urls = [
            ["code", "1201", "1202", "1203"],
            ["image", *(f"https://x.example/{letter}" for letter in "abc")],
        ]
        self.assertEqual(guess(urls, 1).columns, {"code": 0})

    def test_html_is_no_title(self) -> None:
        names = "EAN;Description;Text"
        row = "4006381333931;<p>A <b>mild</b> tea</p>;Tea, mild\n"
        self.assertEqual(guessed(f"{names}\n{row}").columns["title"], 2)

    def test_prices_of_programs_get_two_decimals(self) -> None:
        for names, price, proposed, wanted in (
            ("EAN;Price (EUR);x", "0.8;y", "--price-as '0.00 EUR'", "0.80 EUR"),
            (
                "EAN;Price;Currency",
                "34.000000;EUR",
                "--currency Currency --price-as '0.00 ¤'",
                "34.00",
            ),
            ("EAN;Preis;x", '"0,8 €";y', "--price-as '0,00 ¤'", "0,80 €"),
            ("EAN;Price;x", "0.8;y", "--price-as 0.00", "0.80"),
            ("EAN;Preis;x", "0,8;y", "--price-as 0,00", "0,80"),
            ("EAN;Price;x", "1.859;y", "", "1.859"),  # which is no rounding
            ("EAN;Price (EUR);x", "0.80;y", "", "0.80"),
            ("EAN;Price;x", "3.44850000;y", "--price-as 0.00", "3.45"),  # which is too long
        ):
            said, done = self.proposed_and_run(f"{names}\n4006381333931;{price}\n")
            self.assertIn(proposed, said)
            self.assertEqual("--price-as" in said, bool(proposed), names)
            self.assertIn(f'"price":"{wanted}', done.stdout.decode())

    def test_of_several_sheets_the_one_with_codes_is_proposed(self) -> None:
        goods = Sheet([["EAN", "Name"], [CODES[0], "Tea"]], "Goods")
        notes = Sheet([["Rate", "VAT"], ["full", "19"]], "Notes")
        old = replace(goods, name="Tabelle1")
        for kind, first in itertools.product(KINDS, (notes, old)):
            with tempfile.TemporaryDirectory() as folder:
                path = Path(folder, "table.xlsx")
                path.write_bytes(kind(first, goods))
                said = support.run_here("label-table", path).stderr.decode()
            if first is notes:
                self.assertIn("\nlabel-table --code EAN --title Name --sheet Goods ", said)
            else:
                self.assertIn("Tabelle1 (--sheet Tabelle1) or Goods (--sheet Goods)", said)

    def test_hidden_columns_are_not_proposed(self) -> None:
        """A hidden price is that of the shop; with `--hidden` it is one like others."""
        lines = [["EAN", "VK", "Preis"], [CODES[0], "1,20", "0,80"]]
        for kind in KINDS:
            data = kind(Sheet(lines, hidden_columns=(3,)))
            found = guess_of(data, "x", TableOptions(), Talk())
            self.assertEqual(found.columns, {"code": 0, "price": 1})
            shown = TableOptions(file=FileOptions(hidden=True))
            self.assertEqual(guess_of(data, "x", shown, Talk()).doubts, {"price": [1, 2]})
            codes = kind(Sheet(lines, hidden_columns=(1, 3)))  # it is the only one
            self.assertEqual(guess_of(codes, "x", TableOptions(), Talk()).columns["code"], 0)

    def test_names_of_many_languages(self) -> None:
        """Each has a price that customers pay, and one that the shop pays, or without its tax."""
        row = "4006381333931;Tea, green;4,95;3,95;7"
        for names in LANGUAGES:
            found = guessed(f"{names}\n{row}\n")
            self.assertEqual(found.columns, {"code": 0, "title": 1, "price": 2}, names)
            self.assertEqual(found.doubts, {}, names)

    def test_no_word_has_two_meanings(self) -> None:
        """What is a price cannot be a cost, and what is a name cannot be what has none."""
        words = column_words()
        for kinds, others in (
            (("prices", "taxed", "paid", "sold", "beside-prices", "sale"), ("cost", "net")),
            (("titles", "descriptions"), ("others", "numbers")),
            (("codes", "own-numbers"), ("others", "titles")),
            (("short",), ("long",)),
        ):
            for kind, other in itertools.product(kinds, others):
                shared = {word for word in words[kind].all if words[other].knows(word)}
                shared |= {word for word in words[other].all if words[kind].knows(word)}
                self.assertEqual(shared, set(), f"{kind} and {other}")

    def check_proposals(self, folder: Path) -> None:
        """Racks, lots, short numbers and tickets, and what was given, in two commands."""
        for text, words, more in (
            ("Platz;Pfeil\nA-01-01-1;▼\nA-01-01-2;▲\n", "", "--symbology code128"),
            ("Location\nA1-01\nA1-02\n", "", "--symbology code128"),
            ("PLU;Artikel;Preis\n101;Gurke;0,99\n102;Tomaten;2,99\n", "", "--price Preis"),
            ("Ticket;Platz\nFR26-0099123;B14\nFR26-0099124;B15\n", "", "--code Ticket"),
            ("Ware;Adresse\nHaken;https://example.com/1\n", "", "--symbology qr"),
            (f"EAN|Name|Preis\n{CODES[0]}|Käse|1,20\n", "--encoding cp1252", "--title Name"),
            (f"EAN+Name+Preis\n{CODES[0]}+Tee+1,20\n", "--delimiter + --decimal comma", ""),
            (f"Liste, Mai\nEAN;Name\n{CODES[0]};Tee\n", "", "--header-row 2"),
            (
                f"Liste, Mai\nEAN;Name\n{CODES[0]};Tee\n",
                "--header-row 2",
                f"--title Name --header-row 2 {folder}",
            ),
            (
                "Platz;Platz\nA-01-01;Ost\nA-01-02;Ost\n",
                "",
                "--symbology code128 --header-row 1",
            ),
            (f"EAN;Text\n{CODES[0]};Tee\n", "--title Text --settings height=20", "--code EAN"),
        ):
            path = Path(folder, "table.csv")
            path.write_text(text, encoding="cp1252" if "cp1252" in words else "utf-8")
            done = support.run("label-table", *words.split(), path)
            proposed = commands_in(done.stderr.decode())[0]
            bare = " ".join(shlex.split(proposed))  # quotes are those of a person
            self.assertTrue(words in bare and more in bare, proposed)
            done = support.run("label-table", *shlex.split(proposed))
            self.assertEqual((done.returncode, done.stderr), (0, b""), proposed)
            titles = 2 if "header-row 2" in more else 1
            self.assertEqual(done.stdout.count(b'"row"'), text.count("\n") - titles)


# names of amounts that no customer pays, or of which only the keeper knows it
NO_PRICES = (
    *("Consignor", "Zuzahlung", "Lagerwert", "EK", "Ihr Preis", "Preis netto", "Bruttogewicht"),
    *("Cena ewidencyjna", "Verrechnungspreis", "NC", "Preis je Ktn"),
    *("VK-Menge", "Shelf life", "Montant TTC", "Preisfaktor", "Price code"),
)
# amounts of three columns, and the number of the one that is the price; 0 where only the keeper
# knows it
NUMBERS = (("30-11821", "30-11822", "77-40013"), ("KB-2001", "KB-2002", "KB-2003"))
CODES = ("4006381333931", "9780306406157", "5901234123457")
LOW, HIGH = ("1,20", "8,40", "2,05"), ("1,99", "12,49", "3,10")
# names of a price that is advised, usual or old, and of the one that customers pay beside it
DEARER = """\
RRP;Sell MSRP;Price RRP;Price_inc_VAT List;Sell List_price;Price Old_price;Price Was;Now
UVP;VK UVP;Verkaufspreis_brutto Listenpreis;Preis Alter_Preis;Neuer_Preis Statt;Preis Normalpreis;Preis
Prix_conseillé;Prix PVC;Prix_TTC Prix_catalogue;Prix Ancien_prix;Nouveau_prix Prix_barré;Prix
PVPR;PVP PVPR;Precio Precio_recomendado;Precio_de_venta Precio_anterior;Precio Antes;Ahora
Prezzo_consigliato;Prezzo Listino;Prezzo_vendita Prezzo_di_listino;Prezzo Prezzo_pieno;Prezzo
Adviesprijs;Prijs Adviesprijs;Verkoopprijs Oude_prijs;Nieuwe_prijs Catalogusprijs;Prijs Van;Voor
Cena_sugerowana;Cena Cena_katalogowa;Cena Stara_cena;Nowa_cena Cena_regularna;Cena
Rek._pris;Pris Ord._pris;Pris Tidigare_pris;Pris Riktpris;Försäljningspris Listpris;Pris
""".split()
LEAST_RIGHT, MOST_NEEDLESS = 0.75, 0.08  # parts of the judged tables, at least and at most
OWN = ("8.00", "19.95", "3.99", "12.00")
PERCENT_OFF = (5, 10, 15, 20, 25, 30, 33, 40, 50)
PERCENT_MORE = (5, 10, 15, 20, 25)


class Codes(unittest.TestCase):
    def test_two_numbers_of_articles_are_asked_about(self) -> None:
        """Nothing says which of them a scanner is to read: the shop's, or the maker's."""
        for names in ("Producer code;Item no.", "Stock number;SKU", "Kennung;Artikelnummer"):
            columns = [[name, *numbers] for name, numbers in zip(names.split(";"), NUMBERS)]
            found = guess([["Title", "Tea", "Book", "Gum"], *columns], 1)
            self.assertEqual((found.doubts, "code" in found.columns), ({"code": [1, 2]}, False))
        for name, is_asked in (("Artikelnummer", False), ("Kennung", False), ("Telefon", True)):
            found = guess([["Title", "Tea", "Book", "Gum"], [name, *NUMBERS[0]]], 1)
            self.assertEqual("code" in found.doubts, is_asked, name)

    def test_wrong_check_digits_are_never_proposed_as_code_128(self) -> None:
        """What has as many digits as an EAN or UPC may be one with a typing error."""
        ends = ("0", "1", "2", "3")
        for start, wanted in (
            ("400638133393", "auto"),
            ("03600029145", "auto"),
            ("9638507", "auto"),
            ("40063813339", "auto"),  # 12 digits
            ("4006381", "auto"),  # 8 digits
            ("400638133", "code128"),
            ("400638", "code128"),
        ):
            numbers = [f"{start}{end}" for end in ends]
            found = guess([["Nr", *numbers], ["Name", "Tea", "Book", "Gum", "Pen"]], 1)
            self.assertEqual(
                (found.rules_of(0).symbology, found.columns["code"]), (wanted, 0), start
            )
        text = "Nr\n" + "".join(f"{number}\n" for number in ("4006381333932", "4006381333933"))
        done = support.run_here("label-table", "--code", "Nr", input=text.encode())
        self.assertIn('most codes in column 1 ("Nr") have a wrong', support.messages(done)[-1])

    def test_a_number_of_the_program_is_not_that_of_the_thing(self) -> None:
        """Both are another one in each row; a name that is not known is asked about."""
        of_museum = ["1956.012", "1956.013a", "1971.104"]
        for names in ("priref;Objektnummer", "Object record ID;Account object number"):
            of_program, of_thing = names.split(";")
            found = guess([[of_program, "40012", "40013", "40014"], [of_thing, *of_museum]], 1)
            self.assertIn(1, found.doubts.get("code", [found.columns.get("code")]), names)
        serial = ["Seriennummer", "5CG1432XKJ", "5CG1432XKL", "CN0H7P2A"]
        found = guess([["Mittel-ID", "LAP00124", "LAP00125", "MON00310"], serial], 1)
        self.assertEqual(found.columns, {"code": 0})

    def test_what_is_there_again_or_has_no_digit_is_no_code_of_a_single_thing(self) -> None:
        """As the accession of several plants, and whether a bar code was printed."""
        accession = ["Accession no", "1998-0231", "1998-0231", "2003-0011"]
        item = ["Item full no", "1998-0231*1", "1998-0231*2", "2003-0011*1"]
        found = guess([accession, item, ["Barcode printed", "No", "No", "Yes"]], 1)
        self.assertEqual(found.columns, {"code": 1})

    def test_an_id_is_the_code_only_alone(self) -> None:
        found = guess([["ID (Barcodes)", *NUMBERS[0]], ["Barcode (Barcodes)", *CODES]], 1)
        self.assertEqual(found.columns, {"code": 1})
        found = guess([["Item ID", *NUMBERS[0]], ["Description", "Tea", "Book", "Gum"]], 1)
        self.assertEqual(found.columns, {"code": 0, "title": 1})

    def test_of_old_books_with_few_isbns_their_own_numbers_are_asked_about(self) -> None:
        found = guess([["Book ID", "000412", "000413", "000431"], ["ISBN", CODES[0], "", ""]], 1)
        self.assertEqual(found.doubts, {"code": [0, 1]})

    def test_a_number_that_all_rows_share_is_no_code(self) -> None:
        for name in ("GLN Hersteller", "Depot"):
            shared = [name, *["4012345000009"] * 3]
            self.assertEqual(guess([shared, ["EAN", *CODES]], 1).columns["code"], 1, name)
        families = ["Code famille", "F-1001", "F-1001", "F-1002"]
        self.assertEqual(guess([families, ["Référence", *NUMBERS[1]]], 1).columns["code"], 1)

    def test_of_two_texts_the_short_one_is_the_title_or_it_is_asked(self) -> None:
        texts = ["Tea, green", "Bread, dark", "Soap, hard"]
        for names, wanted in (
            ("Kurztext;Langtext", [1]),
            ("Langtext;Kurztext", [2]),
            ("Kurzbeschreibung;Beschreibung", []),
            ("Name;Long description", [1]),
            ("Name;Description", [1]),
            ("Kurzbeschreibung;Titel", [2]),
            ("Item;Description", [1]),
            ("Bezeichnung 1;Bezeichnung 2", [1]),
            ("Name DE;Name EN", [1]),
            ("Name EN;Name DE", []),
            ("Name;Name EN", [1]),
        ):
            columns = [[name, *texts] for name in names.split(";")]
            found = guess([["EAN", *CODES], *columns], 1)
            said = [found.columns["title"]] if "title" in found.columns else []
            self.assertEqual(said, wanted, names)
            self.assertEqual(found.doubts.get("title", [1, 2]), [1, 2], names)

    def test_of_plain_names_none_is_meant_that_few_rows_have_or_that_has_no_words(self) -> None:
        for name, other in (
            (["Object name", "Quilt", "Churn", "Shoe"], ["Title", "Log Cabin Quilt", "", ""]),
            (["Display name", "Tent, green", "Tent, red", "Stove"], ["Name", "T-G", "T-R", "KIT"]),
        ):
            found = guess([["Barcode", *CODES], other, name], 1)
            self.assertEqual(found.columns.get("title", 2), 2, other)
            self.assertEqual(found.doubts.get("title", [1, 2]), [1, 2], other)

    def test_names_of_some_kind_that_are_there_again_are_no_titles(self) -> None:
        maker = ["Main maker: Name", "Green", "Green", "Green"]
        found = guess([["EAN", *CODES], maker, ["Description", "Tea", "Book", "Gum"]], 1)
        self.assertEqual(found.columns.get("title"), 2)

    def test_a_title_that_few_rows_have_is_not_proposed_beside_another_one(self) -> None:
        few = ["Name", "Tea", "", ""]
        for name in ("Web name", "Description"):
            found = guess([["EAN", *CODES], few, [name, "Tea 1", "Tea 2", "Tea 3"]], 1)
            self.assertIn(2, found.doubts.get("title", [found.columns.get("title")]), name)

    def test_a_text_without_a_name_is_the_title_if_it_is_the_only_one(self) -> None:
        jobs = [["Job", "HT-10482", "HT-10483", "HT-10484"], ["Bike", "Epic", "Domane", "TCR"]]
        self.assertEqual(guess(jobs, 1).columns, {"code": 0, "title": 1})
        kinds = ["Service type", "Major service", "Minor service", "Puncture"]
        self.assertEqual(guess([*jobs, kinds], 1).columns, {"code": 0, "title": 1})
        count = ["Quantity", "24 pieces", "60 pieces", "36 pieces"]  # which is no title
        self.assertEqual(guess([*jobs[:1], count], 1).doubts, {})

    def test_names_that_are_there_again_are_no_articles(self) -> None:
        found = guessed("PLU;Artikel\n101;Gurke\nPLU;Artikel\n102;Tomate\nPLU;Artikel\n")
        self.assertEqual(found.columns, {"code": 0, "title": 1})

    def test_hidden_rows_are_not_looked_at(self) -> None:
        sheet = Sheet([["EAN"], [CODES[0]], ["4006381333932"]], hidden=(2,))
        for kind in KINDS:
            found = guess_of(kind(sheet), "x", TableOptions(), Talk())
            self.assertIn("a digit is wrong", str(found.codes[0].problem))

    def test_numbers_of_articles_are_no_titles(self) -> None:
        columns = [["Item", *NUMBERS[1]], ["UPC", *CODES], ["Desc", "Tea", "Book", "Gum"]]
        self.assertEqual(guess(columns, 1).columns["title"], 2)


class Prices(unittest.TestCase):
    def test_what_is_not_named_a_price_is_none(self) -> None:
        for name in NO_PRICES:
            columns = [["EAN", *CODES], [name, "1,20 €", "8,40 €", "2,05 €"]]
            self.assertNotIn("price", guess(columns, 1).columns, name)

    def test_a_price_that_has_no_amounts_is_asked_about(self) -> None:
        """A spreadsheet that was not calculated has errors in place of the prices of the shop."""
        columns = [["EAN", *CODES], ["EK", *LOW], ["VK", *["#WERT!"] * 3], ["UVP", *HIGH]]
        self.assertEqual(guess(columns, 1).doubts, {"price": [2, 3]})
        for name in ("Listeneinkaufspreis", "Leverantörspris", "Personalpreis"):
            found = guess([["EAN", *CODES], [name, *HIGH]], 1)
            self.assertNotIn("price", found.columns, name)

    def test_prices_that_few_rows_have_are_asked_about(self) -> None:
        codes = ["EAN", *CODES, "96385074"]
        for cells in (["", "", "", ""], ["9,99", "", "", ""]):
            found = guess([codes, ["EK", *LOW, "1"], ["VK", *cells], ["UVP", *HIGH, "5"]], 1)
            self.assertEqual(found.doubts, {"price": [2, 3]}, cells)
            found = guess([codes, ["Netto", *LOW, "1,00"], ["Preis", *cells]], 1)
            self.assertIn(2, found.doubts["price"], cells)

    def test_of_prices_that_are_the_same_the_plainest_is_meant(self) -> None:
        codes, cost, sale = ["EAN", *CODES], ["Cost", *LOW], ["Sale price", *HIGH]
        found = guess([codes, cost, sale, ["Takeaway price", *HIGH]], 1)
        self.assertEqual(found.columns.get("price"), 2)
        found = guess([codes, cost, sale, ["Takeaway price", *LOW]], 1)
        self.assertEqual(found.doubts, {"price": [2, 3]})

    def test_prices_in_several_currencies_are_asked_about(self) -> None:
        """Though only one of them is plain: a book is sold in three countries."""
        prices = [["Preis EUR (D)", *HIGH], ["Preis EUR (A)", *HIGH], ["Preis CHF", *HIGH]]
        found = guess([["EAN", *CODES], *prices], 1)
        self.assertEqual(found.doubts, {"price": [1, 3]})  # the second one is the first one again
        found = guess([["EAN", *CODES], *prices[:1], ["Preis Euro", *HIGH]], 1)
        self.assertEqual(found.columns.get("price"), 2)

    def test_prices_that_are_none_are_not_proposed(self) -> None:
        """Zeros, a weight, what is empty, and what a customer paid before."""
        codes, name = ["EAN", *CODES], ["Name", "Tea", "Book", "Gum"]
        for names, first, second in (
            ("Retail price;Desk price", ["0.00"] * 3, HIGH),
            ("Brutto;Web price", ["0,25", "0,35", "1,05"], HIGH),
            ("Price;Cost price", [""] * 3, [""] * 3),
        ):
            left, right = names.split(";")
            found = guess([codes, name, [left, *first], [right, *second]], 1)
            self.assertNotEqual(found.columns.get("price"), 2, names)
            self.assertEqual(found.doubts.get("price", [3]), [3], names)
        for few in ("Ordinary price", "Shop price"):  # which are named beside it
            found = guess([codes, name, ["Price", *LOW], [few, "2,40", "", ""]], 1)
            self.assertEqual(found.columns.get("price"), 2, few)

    def test_the_usual_price_yields_to_one_that_is_never_above_it(self) -> None:
        """As a program has it that keeps the crossed price beside the one of today."""
        codes, usual = ["EAN", *CODES], ["Standard price", *HIGH]
        for price, wanted in ((LOW, 1), (HIGH, 1), (["99.00", *HIGH[1:]], None)):
            found = guess([codes, ["Price", *price], usual], 1)
            self.assertEqual(found.columns.get("price"), wanted, price)

    def test_an_advised_price_yields_to_the_same_amounts(self) -> None:
        codes = ["EAN", *CODES]
        for advised in ("MSRP", "UVP"):
            same = guess([codes, [advised, *HIGH], ["Price", *HIGH]], 1)
            self.assertEqual(same.columns.get("price"), 2, advised)
            other = guess([codes, [advised, *HIGH], ["Price", *LOW]], 1)
            self.assertEqual(other.doubts, {"price": [1, 2]}, advised)

    def test_an_advised_price_yields_to_what_the_shop_sells_for(self) -> None:
        """But not if that is far below or of odd cents, as what other shops pay is."""
        for sold, advised in (
            ("VK", "UVP"),
            ("Prix de vente", "Prix conseillé"),
            ("Precio de venta", "Precio sugerido"),
            ("Preț vânzare", "Preț recomandat"),
            ("Prodajna cijena", "Preporučena cijena"),
        ):
            found = guess([["EAN", *CODES], [sold, *LOW], [advised, "1,49", "9,90", "2,50"]], 1)
            self.assertEqual(found.columns.get("price"), 1, sold)
            for other, dear in ((LOW, ("2,90", "19,90", "4,50")), (("1,23", "8,41", "2,06"), HIGH)):
                found = guess([["EAN", *CODES], [sold, *other], [advised, *dear]], 1)
                self.assertEqual(found.doubts, {"price": [1, 2]}, sold)

    def test_no_discount_makes_a_dearer_price_the_one_that_customers_pay(self) -> None:
        """20 % off are a factor of 1.25, which is a tax, too; 10 % on top are one of 1.10."""
        factors = [100 / Decimal(100 - percent) for percent in PERCENT_OFF]
        factors += [1 + Decimal(percent) / 100 for percent in PERCENT_MORE]
        codes = ["EAN", *CODES, "96385074"]
        for names, factor in itertools.product(DEARER, factors):
            dearer, paid = names.replace("_", " ").split(";")
            amounts = [str(round(factor * Decimal(amount), 2)) for amount in OWN]
            found = guess([codes, [dearer, *amounts], [paid, *OWN]], 1)
            self.assertNotEqual(found.columns.get("price"), 1, (names, factor))
            self.assertIn(2, found.doubts.get("price", [2]), (names, factor))

    def test_what_has_the_amounts_of_another_price_with_a_tax_is_the_price(self) -> None:
        """Even where its name says that it is a sum; else that is one of several."""
        codes = ["EAN", *CODES, "96385074"]
        bare, whole = ["10.00", "20.00", "5.00", "8.00"], ["11.90", "23.80", "5.35", "8.00"]
        for names, wanted in (
            ("Precio base;Precio total", 2),
            ("Prix;Prix total", 2),
            ("Cena;Cena razem", 2),
            ("Price;Total value", 1),
            ("Price;Retail price", 2),
            ("Price;Sale price", None),
        ):
            left, right = names.split(";")
            found = guess([codes, [left, *bare], [right, *whole]], 1)
            self.assertEqual(found.columns.get("price"), wanted, names)
        reduced = [["Tag price", *whole], ["Current price", *whole[:2], "4.28", "6.40"]]
        self.assertNotEqual(guess([codes, *reduced], 1).columns.get("price"), 1)
        of_stock = ["Total price", "10.00", "240.00", "5.00", "16.00"]
        self.assertEqual(guess([codes, ["Price", *bare], of_stock], 1).columns.get("price"), 1)
        bare, whole = ["156.20", "214.05", "164.46", "288.43"], ["189", "259", "199", "349"]
        found = guess([codes, ["Prodejní", *bare], ["Prodejní s DPH", *whole]], 1)
        self.assertEqual(found.columns.get("price"), 2)

    def test_a_word_that_a_cost_has_is_no_kind_of_price(self) -> None:
        for cost, price in (("Purchase rate", "Rate"), ("Tarif achat", "Tarif")):
            found = guess([["EAN", *CODES], [price, *HIGH], [cost, *LOW]], 1)
            self.assertEqual(found.columns.get("price"), 1, price)
        found = guess([["EAN", *CODES], ["Rate", *HIGH]], 1)
        self.assertEqual(found.columns.get("price"), 1)

    def test_what_a_stock_is_named_for_is_no_kind_of_price(self) -> None:
        codes, price = ["EAN", *CODES], ["Price Corner Cafe", *HIGH]
        found = guess([codes, price, ["Stock Corner Cafe", "1", "2", "3"]], 1)
        self.assertEqual(found.columns.get("price"), 1)

    def test_a_sale_of_most_articles_is_asked_about(self) -> None:
        """Programs write nothing, or zero, where there is none. What few rows have is named."""
        codes, price = ["EAN", *CODES], ["Price", *HIGH]
        for sales, is_sure in (("", True), ("0.00", True), ("9.99", False)):
            found = guess([codes, price, ["Sale price", "0.99", sales, ""]], 1)
            self.assertEqual("price" in found.columns, is_sure, sales)
            self.assertEqual(found.doubts.get("price", [1, 2]), [1, 2])
        none = ["Price", "", "", ""]
        self.assertEqual(guess([codes, none, ["Sale price", *HIGH]], 1).columns, {"code": 0})
        found = guess([codes, ["Cost", *LOW], ["Sale price", *HIGH]], 1)  # what the shop sells for
        self.assertEqual(found.columns.get("price"), 2)

    def test_a_column_that_is_named_as_prices_has_prices(self) -> None:
        for name in ("Tarif", "Preis", "Price"):
            columns = [["EAN", *CODES], ["Name", "Tea", "Book", "Gum"], [name, "A", "B", "C"]]
            self.assertNotIn("price", guess(columns, 1).columns, name)
        prices = ["Preis", "1.299,00", "899,00", "12,50"]
        self.assertEqual(guess([["EAN", *CODES], prices], 1).columns["price"], 1)


class Weights(unittest.TestCase):
    @support.slow
    def test_the_weights_are_those_that_the_tables_make(self) -> None:
        """So that they are never changed by hand, nor a table without them; and judged tables are as
        right as DECISIONS says.
        """
        weights = guess_fit.fitted_weights()
        self.assertEqual(guess_fit.text_of(weights), WEIGHTS.read_text(encoding="utf-8"))
        few = guess_fit.fitted([*guess_fit.cases_of(small_tables(), "price")])
        self.assertNotEqual(few, weights["price"])

    def test_no_table_that_weights_are_not_made_from_gets_a_wrong_command(self) -> None:
        judged = [table for table in tables() if table.is_judge]
        found = [verdict_of(table, table.guess())[0] for table in judged]
        self.assertEqual((found.count(Verdict.WRONG), found.count(Verdict.BOLD)), (0, 2))
        self.assertGreater(found.count(Verdict.RIGHT), LEAST_RIGHT * len(judged))
        self.assertLess(found.count(Verdict.NEEDLESS), MOST_NEEDLESS * len(judged))

    def test_each_fact_and_weight_has_a_table_whose_verdict_it_changes(self) -> None:
        """And one that changes none is named: so no rule stays that nobody needs."""
        self.assertEqual([*guess_fit.needless_parts(guess_fit.parts())], [])
        same = guess_fit.Part(is_weight.__name__, is_weight)
        self.assertEqual([*guess_fit.needless_parts([same])], [same.title])
        self.assertEqual([*guess_fit.needless_parts([guess_fit.Part("new")])], [" new"])


if __name__ == "__main__":
    unittest.main()
