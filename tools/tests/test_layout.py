"""How labels are laid out: on all kinds of paper nothing overlaps, sizes follow the label, and one
label does not shrink the others.
"""

import itertools
import os
import unittest
from typing import Any, Sequence

import support
from labeltools.layout.area import ROLL_SMALLEST
from labeltools.layout.fitting import LEFT, LINE_END, MIDDLE, RIGHT
from labeltools.layout.layout import LaidOut
from labeltools.layout.letters import FONT, Letters, OTHER_FONT
from labeltools.layout.needs import PRICE_STYLES
from labeltools.lines.symbologies import SYMBOLOGIES
from laying import boxes_of, Laid, laid_out, look, sizes_of, texts_in

EVERY = (
    "ean13 400638133393",
    "ean8 7351353",
    "upca 03600029145",
    "code128 SHELF-7",
    "qr,level=H https://example.com/7",
)
LONG = "Ein langer Name, der in zwei Zeilen steht und nicht in eine einzige passt"
FULL: dict[str, Any] = {
    "title": LONG,
    "text": ["Art. 7"],
    "price": "12,80 €",
    "was": "14,95 €",
    "unit": "1 l = 2 €",
}
FULL_BUT_TITLE = {**FULL, "title": "Seife"}
PRICED = {"title": "Bleistift, weich, 2B", "price": "0,80 €"}
# millimetres
SIZES = (
    (20.0, 10.0),
    (38.1, 21.2),
    (36.0, 89.0),
    (38.0, 38.0),
    (40.0, 30.0),
    (50.0, 25.0),
    (57.0, 32.0),
    (60.0, 13.0),
    (60.0, 40.0),
    (63.5, 38.1),
    (70.0, 37.0),
    (100.0, 30.0),
    (105.0, 74.0),
    (105.0, 148.0),
)
STOCKS = (
    ((63.5, 38.1), 600),
    ((38.1, 21.2), 600),
    ((70.0, 37.0), 300),
    ((99.1, 38.1), 600),
    ((105.0, 74.0), 300),
    ((60.0, 40.0), 203),
    ((50.0, 25.0), 203),
    ((57.0, 32.0), 300),
    ((40.0, 30.0), 300),
    ((100.0, 50.0), 203),
)
HOSTILE = (
    "Å̂Çg jpqy",
    "日本語のとても長い名前をもつ商品です、二行になります",
    "قلم رصاص",
    "x" * 200,
    "A\nB\nC",
    "Z̴̧̛͇̓a̵̮̅l̷͔̈́g̶̬͑o̷͖̿" * 3,
)


def setUpModule() -> None:
    os.environ["LABELS"] = str(support.labels_program())


def filed(*fields: dict[str, Any], line: str = "ean13 400638133393") -> bytes:
    """A file of labels of one line."""
    return support.file_of([(line, dict(label)) for label in fields])


class Boxes(unittest.TestCase):
    """Nothing touches another part, leaves its place or is cut off; each label is read."""

    def test_every_size_design_and_symbology(self) -> None:
        mixes: Sequence[dict[str, Any]] = (
            {},
            {"title": LONG},
            PRICED,
            FULL,
            {"text": ["a", "b"]},
            FULL_BUT_TITLE,
        )
        seen = 0
        for size, design in itertools.product(SIZES, ("article", "shelf")):
            dpi = 300 if size[0] > 60 else 600
            for line in EVERY:
                laid = laid_out(filed(*mixes, line=line), size, dpi, design=design)
                seen += len(laid.labels)
                for item in laid.labels:
                    look(self, laid, item)
                    self.assertIsNone(laid.fault(item), (size, line, design))
        self.assertGreater(seen, 600)

    def test_dots_of_a_thermal_printer(self) -> None:
        seen = 0
        for size, design in itertools.product(SIZES, ("article", "shelf")):
            laid = laid_out(
                support.file_of([(line, FULL) for line in EVERY]),
                size,
                203,
                design=design,
                is_roll=True,
            )
            seen += len(laid.labels)
            for item in laid.labels:
                look(self, laid, item)
                self.assertIsNone(laid.fault(item), (size, design))
        self.assertGreater(seen, 60)

    def test_hostile_texts(self) -> None:
        prices = ("0,80 €", "12.999,00 zł", "")
        texts: Sequence[list[str]] = ([], ["rot"], ["rot\nblau", "gjpq ÅÇ"])
        fields = [
            {"title": title, "price": price, "text": text, "unit": "1 kg = 5,98 €" if text else ""}
            for title, price, text in itertools.product(HOSTILE, prices, texts)
        ]
        for line in EVERY:
            for size, dpi in (((64.0, 50.0), 203), ((70.0, 60.0), 300), ((36.0, 89.0), 300)):
                laid = laid_out(filed(*fields, line=line), size, dpi)
                self.assertEqual(len(laid.labels), len(fields), (line, size, laid.reasons[:1]))
                for item in laid.labels:
                    look(self, laid, item)


class Frames(unittest.TestCase):
    """The labels of a file look alike."""

    def test_one_long_title_makes_no_others_small(self) -> None:
        """It is cut, or has a line more: the price and the other titles lose little by it."""
        usual = [
            {"title": f"Bleistift, weich, {number}B", "price": "0,80 €"} for number in range(7)
        ]
        long = {"title": "Heft „Größe A5“, kariert, 32 Blatt mit Rand", "price": "1,10 €"}
        for font in (FONT, OTHER_FONT):
            laid = laid_out(filed(*usual, long), (63.5, 38.1), 300, font=font)
            alone = laid_out(filed(*usual), (63.5, 38.1), 300, font=font)
            sizes, usual_sizes = sizes_of(laid.labels[0]), sizes_of(alone.labels[0])
            self.assertGreaterEqual(sizes["price"], 0.9 * usual_sizes["price"])
            self.assertGreaterEqual(sizes["title"], 0.6 * usual_sizes["title"])

    def test_a_wide_price_among_many_equal_labels(self) -> None:
        """What nine of ten labels have counts, not what nine of ten different labels have."""
        usual = [{"price": "2,95 €"}] * 40
        laid = laid_out(filed(*usual, {"price": "12.999.499,00 €"}), (60.0, 40.0), 300)
        alone = laid_out(filed(*usual), (60.0, 40.0), 300)
        self.assertEqual(sizes_of(laid.labels[0]), sizes_of(alone.labels[0]))

    def test_labels_that_do_not_fit_together(self) -> None:
        """Each has room by itself, and no one frame serves both."""
        wide: tuple[str, dict[str, Any]] = ("code128 " + "x" * 28, {})
        many = ("code128 x", {"text": ["a"] * 6})
        laid = laid_out(support.file_of([wide, many]), (100.0, 24.0), 300)
        self.assertEqual(len(laid.labels), 2, laid.reasons)
        for item in laid.labels:
            look(self, laid, item)

    def test_what_fits_in_no_frame_spoils_no_other(self) -> None:
        """A label with too many lines is left out; it is not drawn in letters of a dot."""
        data = filed(PRICED, {**PRICED, "text": ["a"] * 60})
        laid = laid_out(data + b"code128 " + b"x" * 80 + b"\n", (60.0, 40.0), 300)
        alone = laid_out(filed(PRICED), (60.0, 40.0), 300)
        self.assertEqual(len(laid.labels), 1)
        self.assertEqual(sizes_of(laid.labels[0]), sizes_of(alone.labels[0]))

    def test_a_line_with_a_height_of_its_own(self) -> None:
        data = b"code128,height=40 SHELF-7\ncode128 SHELF-7\nean8,height=60 7351353\n"
        laid = laid_out(data, (70.0, 40.0), 300)
        heights = [boxes_of(item)["bars"].height for item in laid.labels]
        modules = [item.finest.module for item in laid.labels]
        self.assertEqual((heights[0], heights[2]), (40 * modules[0], 60 * modules[2]))
        self.assertEqual([laid.fault(item) for item in laid.labels], [None] * 3)
        tall = laid_out(b"ean8,height=400 7351353\nean8 7351353\n", (70.0, 40.0), 300)
        self.assertEqual(len(tall.labels), 1)

    def test_invisible_letters_are_no_price(self) -> None:
        plain = laid_out(filed({"title": "Seife"}), (80.0, 40.0), 300).labels[0]
        unseen = laid_out(filed({"title": "Seife", "price": "\u200b"}), (80.0, 40.0), 300).labels[0]
        self.assertEqual(boxes_of(plain), boxes_of(unseen))


class Sizes(unittest.TestCase):
    """Sizes follow the label, and no module is below what its standard allows."""

    def test_the_designs(self) -> None:
        """For a till bars are half as high as wide; on a shelf the price is larger."""
        for size in ((57.0, 32.0), (63.5, 38.1), (70.0, 37.0)):
            till = laid_out(filed(FULL), size, 600).labels[0]
            shelf = laid_out(filed(FULL), size, 600, design="shelf").labels[0]
            bars = boxes_of(till)["bars"]
            self.assertGreaterEqual(bars.height, 0.35 * 95 * till.finest.module, size)
            on_shelf, at_till = (
                PRICE_STYLES[price.place.price_style] * price.style.size
                for price in (texts_in(item)["price"] for item in (shelf, till))
            )
            self.assertGreaterEqual(on_shelf, at_till, size)

    def test_modules(self) -> None:
        """No module below 80 % of an EAN, 0.249 mm of it on a roll, or 0.25 mm of others."""
        seen = set[str]()
        for dpi, is_roll in itertools.product(
            (96, 150, 180, 203, 300, 360, 600, 720, 1200), (False, True)
        ):
            data = "".join(f"{line}\n" for line in EVERY).encode()
            for size in ((120.0, 60.0), (40.0, 30.0)):
                laid = laid_out(data, size, dpi, is_roll=is_roll)
                for item in laid.labels:
                    module = laid.millimetres(item.finest.module)
                    symbology = item.finest.symbology
                    seen.add(item.record.symbology)
                    least = 0.25
                    if symbology.is_number:
                        least = ROLL_SMALLEST if is_roll else 0.264
                    self.assertGreaterEqual(module, least, (dpi, size))
                    self.assertLessEqual(module, 0.6601 if symbology.nominal else 1.06)
        self.assertEqual(seen, {*SYMBOLOGIES})

    def test_bars_are_never_below_5_mm(self) -> None:
        seen = set[str]()
        data = "".join(f"{line}\n" for line in EVERY[:4]).encode()
        for size, dpi in itertools.product(SIZES, (203, 300, 600)):
            laid = laid_out(data, size, dpi, design="shelf", is_roll=True)
            seen |= {item.record.symbology for item in laid.labels}
            for item in laid.labels:
                self.assertGreaterEqual(laid.millimetres(boxes_of(item)["bars"].height), 5, size)
        self.assertEqual(seen, {*SYMBOLOGIES} - {"qr"})

    def test_a_module_that_is_given(self) -> None:
        laid = laid_out(b"ean8 7351353\n", (60.0, 40.0), 300, module=0.5)
        self.assertEqual(laid.labels[0].finest.module, 6)
        refused = laid_out(filed(PRICED), (60.0, 40.0), 600, module=0.2)
        self.assertRegex(refused.reasons[0], "has no modules of 0.264 mm or more")


class Words(unittest.TestCase):
    """What belongs on a shelf, and how it is written."""

    def test_digits_are_in_their_places(self) -> None:
        laid = laid_out(b"ean13 400638133393\n", (60.0, 40.0), 600)
        (item,) = laid.labels
        box, module = boxes_of(item)["digits"], item.finest.module
        dots = laid.dots(item)[box.top + 6 * module : box.bottom]
        inked = dots.any(axis=0).nonzero()[0]
        places = sorted({(int(place) - box.left) // module for place in inked})
        spans = SYMBOLOGIES["ean13"].places
        for place in places:
            self.assertTrue(any(span.left - 2 <= place < span.right for span in spans), places)

    def test_shortened_titles_are_said_before_anything_is_drawn(self) -> None:
        data = filed(PRICED, {**PRICED, "title": LONG * 3}, {**PRICED, "text": ["x" * 300]})
        laid = laid_out(data, (60.0, 40.0), 300)
        self.assertEqual(
            [str(remark.problem.line) for remark in laid.prepared.remarks],
            [
                "rows 3-4: a text is too long, so it ends in “…”: shorten it, or choose a larger label"
            ],
        )

    def test_labels_that_are_the_same_once_shortened_are_said(self) -> None:
        """What differs at the end of two titles is lost, and two articles look like one."""
        long = "Pfefferminztee lose aus kontrolliertem Anbau im wiederverschließbaren Beutel " * 3
        kilos, grams = {"title": f"{long}1 kg"}, {"title": f"{long}500 g"}
        other = {"title": f"Roter {long}1 kg"}
        laid = laid_out(filed(kilos, grams, other, other), (60.0, 40.0), 300)
        first, second = [str(remark.problem.line) for remark in laid.prepared.remarks]
        self.assertEqual(
            first,
            "rows 2-5: a text is too long, so it ends in “…”: shorten it, or choose a larger label",
        )
        self.assertRegex(second, '^rows 2-3: alike once shortened, "Pfefferminztee lose')
        (shown,) = {laid.pen.shown_texts(item) for item in laid.labels[:2]}
        self.assertTrue(f"{long}1 kg".startswith(shown[0].removesuffix("…")), shown)
        self.assertTrue(shown[0].endswith("…"))

    def test_quick_and_slow_answers_agree(self) -> None:
        """Whether a title is shortened is mostly seen by widths; Pango has the last word."""
        words = "Bleistift Heft Umschlag kariert Rand weich Übergröße 32 Blatt und mit".split()
        titles = [
            " ".join(words[(7 * number + step) % len(words)] for step in range(1 + number % 30))
            for number in range(200)
        ]
        laid = laid_out(
            filed(*({"title": title, "price": "1 €"} for title in titles)),
            (38.0, 20.0),
            203,
            is_roll=True,
        )
        cut = 0
        for item in laid.labels:
            _, text, box, style = texts_in(item)["title"]
            layout = laid.pen.fitter.laid_out(text, style, box.width, style.size)
            self.assertEqual(laid.pen.is_shortened(item), layout.is_ellipsized(), item.record.title)
            cut += layout.is_ellipsized()
        self.assertTrue(5 < cut < 150, cut)


class Lines(unittest.TestCase):
    """Where the lines of titles end."""

    def lines(self, title: str, size: tuple[float, float]) -> list[str]:
        """The lines of the title of a label."""
        (item,) = laid_out(filed({"title": title, "price": "1 €"}), size, 300).labels
        return texts_in(item)["title"].text.split(LINE_END)

    def test_lines_are_about_equally_long(self) -> None:
        title = "Crème fraîche épaisse aus der Normandie von Hand geschöpft im Glas"
        lines = self.lines(title, (60.0, 40.0))
        self.assertEqual(" ".join(lines), title)
        self.assertGreater(len(lines), 1)
        widths = [Letters(FONT).width(line, True) for line in lines]
        self.assertGreater(min(widths), 0.6 * max(widths), lines)

    def test_no_word_is_parted(self) -> None:
        for size in ((60.0, 40.0), (63.5, 38.1), (99.1, 38.1), (102.0, 152.0)):
            title = "Donaudampfschifffahrtskapitän mit Mütze"
            lines = self.lines(title, size)
            self.assertEqual(" ".join(lines), title, size)
            (item,) = laid_out(filed({"title": title, "price": "1 €"}), size, 300).labels
            placed = texts_in(item)["title"]
            widest = max(Letters(FONT).width(line, True) for line in lines)
            self.assertLessEqual(widest * placed.style.size, placed.box.width, (size, lines))

    def test_lines_end_behind_hyphens_and_not_before_units(self) -> None:
        parts = Letters(FONT).wrapping_parts("Erdbeer-Rhabarber-Mus 3,8 % in 15 bar, Klasse I")
        found = [part.rstrip() for part in parts]
        self.assertEqual(found[:3], ["Erdbeer-", "Rhabarber-", "Mus"])
        self.assertEqual(found[3:], ["3,8 %", "in", "15", "bar,", "Klasse I"])

    def test_a_text_in_arabic_is_at_its_side(self) -> None:
        """Where texts end at the right, those in Arabic do not begin at the left of their room."""
        label = {
            "title": "حليب كامل الدسم",
            "price": "٣٫٢٠ د.إ",
            "text": ["لتر"],
            "unit": "١ لتر = ٣٫٢٠",
        }
        seen = 0
        for size in SIZES:
            laid = laid_out(filed(label), size, 300)
            for item in laid.labels:
                placed = texts_in(item).get("text")
                if placed is None or placed.place.across != RIGHT:
                    continue
                box = placed.box
                dots = laid.dots(item)[box.top : box.bottom, box.left : box.right]
                (inked,) = dots.any(axis=0).nonzero()
                self.assertLess(box.width - inked[-1], 0.5 * placed.style.size, size)
                seen += 1
        self.assertGreater(seen, 0)


class Prices(unittest.TestCase):
    """Prices with raised cents, and old prices beside them."""

    def numbers(self, price: str, size: tuple[float, float], **fields: str) -> list[Any]:
        """The parts of the price of a label, and its old price, as they are placed."""
        laid = laid_out(filed({"title": "Seife", "price": price, **fields}), size, 300)
        (item,) = laid.labels
        look(self, laid, item)
        box = boxes_of(item)["price"]
        texts = laid.pen.texts(item)
        return [text for text in texts if text.box.top == box.top and text.box.height == box.height]

    def test_cents_are_raised_where_that_makes_the_price_larger(self) -> None:
        rows = filed({"title": "Seife", "price": "2,80 €", "unit": "1 l = 2 €"})
        plain = laid_out(rows, (57.0, 32.0), 300, has_raised_cents=False)
        (item,) = plain.labels
        parts = self.numbers("2,80 €", (57.0, 32.0), unit="1 l = 2 €")
        self.assertEqual(len(parts), 3)
        whole, cents, euro = parts
        self.assertGreater(whole.text.size, sizes_of(item)["price"])
        self.assertLess(cents.text.size, whole.text.size)
        self.assertGreaterEqual(cents.text.size * 25.4 / 300 * 0.729, 2.2)  # millimetres
        self.assertLess(whole.box.right - whole.text.size * 0.1, cents.box.left)
        self.assertGreater(euro.style.base, cents.style.base)

    def test_cents_are_not_raised_where_that_is_wished(self) -> None:
        rows = filed({"title": "Seife", "price": "2,80 €"})
        for is_wished, parts in ((True, 3), (False, 1)):
            laid = laid_out(rows, (57.0, 32.0), 300, has_raised_cents=is_wished)
            (item,) = laid.labels
            self.assertFalse(laid.fault(item))
            bold = [text for text in laid.pen.texts(item) if text.style.is_bold]
            self.assertEqual(len(bold) - 1, parts, is_wished)

    def test_prices_that_have_no_cents_stay_whole(self) -> None:
        for price in ("12 €", "1.250", "1,259 €/l", "2 für 3,00 €", "٣٫٢٠"):
            self.assertEqual(len(self.numbers(price, (63.5, 38.1))), 1, price)

    def test_raised_cents_can_be_read(self) -> None:
        seen = set()
        for size, design in itertools.product(SIZES, ("article", "shelf")):
            data = support.file_of([(EVERY[0], FULL)])
            laid = laid_out(data, size, 203, design=design, is_roll=True)
            for item in laid.labels:
                box = boxes_of(item)["price"]
                texts = laid.pen.texts(item)
                beside = [text for text in texts if text.box.top == box.top]
                inside = [text for text in beside if not text.style.struck]
                parts = [text for text in inside if text.style.is_bold and not text.style.lines]
                seen.add(len(parts))
                if len(parts) > 1:
                    self.assertGreaterEqual(laid.millimetres(parts[1].text.size) * 0.729, 2.2)
        self.assertEqual(seen, {1, 3})

    def test_an_old_price_is_beside_the_price(self) -> None:
        seen = 0
        for size in ((60.0, 40.0), (57.0, 32.0), (63.5, 38.1), (72.0, 50.0)):
            for design in ("article", "shelf"):
                laid = laid_out(filed(FULL), size, 600, design=design)
                (item,) = laid.labels
                look(self, laid, item)
                struck = [text for text in laid.pen.texts(item) if text.style.struck]
                self.assertEqual(len(struck), 1)
                seen += struck[0].box.top == boxes_of(item)["price"].top
        self.assertGreater(seen, 0)

    def test_a_part_less_makes_no_price_much_smaller(self) -> None:
        """There is a trade between price, title and code, and no jump."""
        for (size, dpi), design in itertools.product(STOCKS, ("article", "shelf")):
            sizes = []
            for part in ("", "text", "was", "unit"):
                label = {key: value for key, value in FULL.items() if key != part}
                laid = laid_out(filed(label), size, dpi, design=design, is_roll=True)
                price = texts_in(laid.labels[0])["price"]
                sizes.append(PRICE_STYLES[price.place.price_style] * price.style.size)
            self.assertGreaterEqual(min(sizes), 0.75 * sizes[0], (size, design))
            self.assertLessEqual(max(sizes), 1.8 * sizes[0], (size, design))


class Edges(unittest.TestCase):
    """Words and codes begin at one edge, or have one middle."""

    NEAR = 1.0  # millimetres

    def edges(self, laid: Laid, item: LaidOut, *names: str) -> tuple[float, float]:
        """Where the ink in boxes of a label begins and ends, in millimetres."""
        found = boxes_of(item)
        boxes = [found[name] for name in names if name in found]
        dots = laid.dots(item)
        ends = []
        for box in boxes:
            (inked,) = dots[box.top : box.bottom, box.left : box.right].any(axis=0).nonzero()
            ends += [box.left + inked[0], box.left + inked[-1] + 1]
        return laid.millimetres(min(ends)), laid.millimetres(max(ends))

    def test_title_price_and_code_have_one_edge(self) -> None:
        fields = [{"title": "Butter", "price": "2,80 €"}, {"title": "Butter"}, FULL_BUT_TITLE]
        seen = set[tuple[int, int | None]]()
        for (size, dpi), design in itertools.product(STOCKS, ("article", "shelf")):
            for line, label in itertools.product(EVERY, fields):
                laid = laid_out(filed(label, line=line), size, dpi, design=design, is_roll=True)
                for item in laid.labels:
                    boxes, texts = boxes_of(item), texts_in(item)
                    what = (size, dpi, design, line, label, boxes)
                    words = texts["title"].place.across
                    numbers = texts["price"].place.across if "price" in texts else None
                    seen.add((words, numbers))
                    title = self.edges(laid, item, "title")
                    code = self.edges(laid, item, "bars", "digits")
                    bars = boxes["bars"]
                    if words == MIDDLE:
                        middle = laid.millimetres(bars.left + bars.width / 2)
                        self.assertAlmostEqual(sum(title) / 2, middle, delta=self.NEAR, msg=what)
                    elif boxes["title"].left < bars.right:  # not beside the code
                        self.assertAlmostEqual(title[0], code[0], delta=self.NEAR, msg=what)
        self.assertGreaterEqual(seen, {(MIDDLE, MIDDLE), (LEFT, RIGHT)})

    def test_unit_prices_can_be_read(self) -> None:
        """Their digits are 2 mm high where there is room, which is the case on most stocks."""
        line = {"title": "Butter", "price": "2,80 €", "unit": "1 kg = 5,98 €"}
        heights = []
        for (size, dpi), design in itertools.product(STOCKS, ("article", "shelf")):
            laid = laid_out(filed(line), size, dpi, design=design, is_roll=True)
            letters = laid.millimetres(sizes_of(laid.labels[0])["unit"])
            heights.append(0.729 * letters)
        self.assertGreaterEqual(min(heights), 1.5)
        self.assertGreaterEqual(sum(height >= 2 for height in heights), 14, heights)


class Measures(unittest.TestCase):
    def test_simple_letters_are_as_pango_has_them(self) -> None:
        """Widths that are added up letter by letter agree with those of whole texts, but for pairs
        of letters that move together.
        """
        letters = Letters(FONT)
        for text in (
            "12,80 €",
            "1.299,00 €",
            "0,30 zł",
            "Heft „Größe A5“",
            "Карандаш",
            "1 kg = 5,98 €",
        ):
            for is_bold in (False, True):
                ink, found = letters.whole_sign(text, is_bold), letters.whole(text, is_bold)
                self.assertAlmostEqual(found.width, ink.width, delta=0.03 * ink.width, msg=text)
                self.assertAlmostEqual(found.top, ink.top, delta=0.01, msg=text)
                self.assertAlmostEqual(found.bottom, ink.bottom, delta=0.01, msg=text)

    def test_nothing_has_no_ink(self) -> None:
        letters = Letters(FONT)
        for text in ("", " ", "\u200b"):
            whole = letters.whole(text, True)
            self.assertEqual((whole.width, whole.bottom - whole.top), (0.0, 0.0), repr(text))


if __name__ == "__main__":
    unittest.main()
