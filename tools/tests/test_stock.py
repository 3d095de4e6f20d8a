"""Sheets by their name and by their size: the parts that glabels knows."""

import tempfile
import unittest
import unittest.mock
from pathlib import Path

import support
from labeltools.common.messages import ToolError
from labeltools.paper import stock
from labeltools.paper.stock import Grid


class Stock(unittest.TestCase):
    def setUp(self) -> None:
        if not stock.TEMPLATES.exists():
            support.skip("not installed: glabels-data")

    def test_names(self) -> None:
        for name in ("Avery L7160", "avery l 7160", "AVERY-L7160", "l7160"):
            said = str(stock.stock_sheet(name).said)
            self.assertEqual(said, "21 labels of 63.99 by 38.1 mm on 210 by 297 mm", name)
        self.assertEqual(len(stock.stock_sheet("Herma 4464").places), 24)
        self.assertAlmostEqual(stock.stock_sheet("Herma 4464").beyond(), 0.61, 2)

    def test_refusals(self) -> None:
        for name, reason in (
            ("Avery 99999", "no such sheet"),
            ("Avery 8293", "not rectangles (round)"),
            ("Connect KF10647", "larger than its page"),
            ("Endisch B200147A5", "larger than its page"),
        ):
            done = support.printed("--stock", name, input=b"ean8 7351353\n")
            self.assertEqual((done.returncode, done.stdout), (2, b""))
            self.assertIn(reason, done.stderr.decode(), name)
        names: dict[str, set[str]] = {}
        for brand, part in stock.glabels_parts():
            names.setdefault(stock.bare_name(part), set()).add(brand)
        shared = next(name for name, brands in names.items() if len(brands) > 1)
        with self.assertRaisesRegex(Exception, "several makers have it; name one of "):
            stock.stock_sheet(shared)

    def test_list(self) -> None:
        done = support.printed("--list-stock", "herma 4464")
        self.assertEqual(
            (done.returncode, done.stdout),
            (0, b"Herma 4464: 24 labels of 70.2 by 37.04 mm on 210 by 297 mm\n"),
        )
        done = support.printed("--list-stock")
        self.assertGreater(len(done.stdout.splitlines()), 900)
        done = support.printed("--list-stock", "nowhere")
        self.assertEqual((done.returncode, done.stdout.strip()), (1, b""))
        self.assertGreater(len(list(stock.list_stock(""))), 1400)

    def test_lengths_namespaces_and_chains(self) -> None:
        self.assertGreater(sum(brand == "Hama" for brand, _ in stock.glabels_parts()), 3)
        self.assertAlmostEqual(stock.stock_sheet("Herma 4464").cell[0], 199 / 72 * 25.4)
        element = stock.glabels_parts()["Connect", "KF10647"]
        layout = next(element.iterfind(".//{*}Layout"))
        self.assertLess(stock.lengths_of(layout, "x0", "y0")[0], 1e-9)
        followed = [key for key, part in stock.glabels_parts().items() if part.get("equiv")]
        self.assertGreater(len(followed), 500)
        several = stock.glabels_sheet(("JAC", "F-3070"))
        layouts = list(stock.glabels_parts()["JAC", "F-3070"].iterfind(".//{*}Layout"))
        self.assertGreater(len(layouts), 1)
        self.assertEqual(
            len(several.places),
            sum(int(grid.get("nx", 0)) * int(grid.get("ny", 0)) for grid in layouts),
        )
        same = stock.glabels_sheet(("Avery", "J8160"))
        self.assertEqual(same, stock.glabels_sheet(("Avery", "L7160")))

    def test_without_the_package(self) -> None:
        with tempfile.TemporaryDirectory() as folder, unittest.mock.patch.object(
            stock, "TEMPLATES", Path(folder)
        ):
            for clear in (stock.glabels_parts.cache_clear, stock.brands.cache_clear):
                clear()
                self.addCleanup(clear)
            with self.assertRaisesRegex(Exception, "glabels-data, which is not installed"):
                stock.stock_sheet("l7160")

    def test_several_makers_in_a_name(self) -> None:
        """Shops say "Avery Zweckform" of what glabels has as Avery or as Zweckform."""
        sheet = stock.stock_sheet("l7160")
        self.assertEqual(stock.stock_sheet("Avery Zweckform L7160"), sheet)
        found = dict(stock.list_stock("Avery Zweckform L7160"))
        self.assertEqual(found["Avery L7160"], sheet)
        self.assertTrue(all("L7160" in name for name in found), found)

    def test_a_size_is_searched_for(self) -> None:
        found = dict(stock.list_stock("herma 70x37"))
        self.assertIn("Herma 4464", found)
        for name, sheet in found.items():
            self.assertRegex(name, "^Herma ")
            self.assertRegex(str(sheet.said), r"of (69|70)[.0-9]* by 3[67][.0-9]* mm")
        self.assertEqual(list(stock.list_stock("herma 37x7")), [])

    def test_nothing_is_found(self) -> None:
        done = support.printed("--list-stock", "nowhere 12x34")
        self.assertEqual((done.returncode, done.stdout), (1, b""))
        said = "label-print: no sheet has all of these words: nowhere 12x34: "
        self.assertTrue(support.messages(done)[0].startswith(said))


class Grids(unittest.TestCase):
    def test_a_page_of_too_many_cells(self) -> None:
        with self.assertRaisesRegex(ToolError, "9999 by 9999 cells: the maximum is 10,000"):
            stock.grid_sheet(Grid((9999.0, 9999.0), (1.0, 1.0), 9999, 9999))
        done = support.printed(
            *("--cell", "1x1", "--grid", "9999x9999", "--paper", "9999x9999"),
            input=b"ean8 7351353\n",
        )
        self.assertEqual((done.returncode, done.stdout), (2, b""))

    def test_the_middle_of_the_page(self) -> None:
        sheet = stock.grid_sheet(Grid((100.0, 50.0), (40.0, 20.0), 2, 2, None, (2.0, 4.0)))
        self.assertEqual(sheet.places, ((9.0, 3.0), (51.0, 3.0), (9.0, 27.0), (51.0, 27.0)))


if __name__ == "__main__":
    unittest.main()
