"""Laws rest on laws: what proofs/Laws of a crate has about definitions cites no lemma of a function, and of another
crate a proof cites only laws."""

import glob
import os
import re
import unittest

from support import TOP, read


def cited_beside_laws(text: str) -> list[str]:
    """The lemmas of our crates that a text cites and that are no laws, each by its crate and file."""
    cited = re.findall(r"^ *use Rattle\.(\w+)\.proofs\.(\w+)", text, re.M)
    return [f"{crate}.{file}" for crate, file in cited if os.path.isdir(f"{TOP}/crates/{crate}") and file != "Laws"]


def cited_of_others(path: str, text: str) -> list[str]:
    """Those of other crates than that of the file with this path."""
    (own,) = re.findall(r"crates/(\w+)/", path)
    return [name for name in cited_beside_laws(text) if not name.startswith(f"{own}.")]


class Laws(unittest.TestCase):
    def test_laws_rest_on_laws(self) -> None:
        laws = glob.glob(f"{TOP}/crates/*/proofs/Laws/*.antt")
        self.assertTrue(laws)
        self.assertEqual({path: found for path in laws if (found := cited_beside_laws(read(path)))}, {})

    def test_proofs_cite_laws_of_other_crates(self) -> None:
        proofs = glob.glob(f"{TOP}/crates/*/proofs/**/*.antt", recursive=True)
        self.assertEqual({path: found for path in proofs if (found := cited_of_others(path, read(path)))}, {})

    def test_a_lemma_of_a_function_is_seen(self) -> None:
        text = "use Rattle.std.proofs.Common.{refl}\nuse Rattle.gf256.proofs.Laws.FieldLaws.{sum}\n"
        self.assertEqual(cited_beside_laws(text), [])
        wrong = f"{text}use Rattle.gf256.proofs.RegisterLaws.{{step}}\n"
        self.assertEqual(cited_beside_laws(wrong), ["gf256.RegisterLaws"])
        self.assertEqual(cited_of_others("crates/gf256/proofs/new/Answers.antt", wrong), [])
        self.assertEqual(cited_of_others("crates/qrdata/proofs/new/Answers.antt", wrong), ["gf256.RegisterLaws"])
