"""The labels that designs/README.md shows: each is laid out without a fault, and two readers read
it.
"""

import os
import tempfile
import unittest
from pathlib import Path
from typing import Any

import jobs
import layouts
import support
from laying import laid_out, look


def setUpModule() -> None:
    os.environ["LABELS"] = str(support.labels_program())


class Pictures(unittest.TestCase):
    def laid(self, case: Any, design: str) -> Any:
        """The labels of a case."""
        data = support.file_of(case.labels)
        return laid_out(data, case.size, case.dpi, design=design, is_roll=case.is_roll)

    def test_each_label_is_laid_out_and_read(self) -> None:
        seen = []
        with tempfile.TemporaryDirectory() as folder:
            for design in ("article", "shelf"):
                for number, case in enumerate(layouts.CASES):
                    laid = self.laid(case, design)
                    self.assertEqual(laid.reasons, [], (case.size, design))
                    for place, item in enumerate(laid.labels[: case.count]):
                        look(self, laid, item)
                        self.assertIsNone(laid.fault(item), (case.size, design))
                        path = Path(folder, f"{design}-{number}-{place}.pbm")
                        dots = laid.dots(item, 40).repeat(2, axis=0).repeat(2, axis=1)
                        path.write_bytes(jobs.pbm_of(dots))
                        seen.append((item.record.data.decode(), path))
            read = [self.is_read(data, path) for data, path in seen]
        self.assertGreater(len(read), 80)
        self.assertTrue(all(read))

    def is_read(self, data: str, path: Path) -> bool:
        """Whether zbar reads the data of a label; it never reads anything else."""
        codes = [code.partition(":")[2] for code in support.read_codes(path)]
        same = [data, f"0{data}"]  # a UPC-A is read as an EAN-13
        self.assertTrue(set(codes) <= set(same), (codes, data))
        return bool(codes)


if __name__ == "__main__":
    unittest.main()
