"""Each field of the records that promise what a run does has a wrong body that breaks it, and so has each case of the
words that do, and each clause of the functions that carry them.

A line `alone: Runs.ended` of a body names the field that it breaks, and has it tried against this field alone, or with
those before it, and once without (scripts/edits.py). So the body is refused for this field, and for nothing else.
`refutes: Filter::finish.status` names a clause, and `clause: status` does the same. What no body can break holds by a
law that the check proves. Cases have numbers: `Ends.8` is the eighth.
"""

import glob
import os
import re
import unittest
from typing import Iterable

from support import TOP, cases_of, module, read

edits = module("edits")

CASES = cases_of("test_fields")
RECORDS, FUNCTIONS, LAWS = CASES["records"], CASES["functions"], CASES["laws"]
# Of these the prover does not find by itself what is left without them (docs/EVIDENCE.md): `refutes:` names
# them in a body.
BESIDE = {"Shows.images", "RunsOver.runs", "RunsOver.whole", *(f"Ends.{case}" for case in range(1, 10))}
# Of this one the clause is in the trait, so that there is no copy with the field alone.
BESIDE |= {"IsDrawn.drawn"}


def path_of(name: str) -> str:
    return os.path.join(TOP, "crates", name)


def fields_of(name: str, text: str) -> list[str]:
    """The fields of a record that are statements: those that a later one speaks of are values."""
    record = edits.blocks_in(text)[name]
    return [f"{name}.{field}" for field in record.parts(name) if field not in record.values()]


def clauses_of(name: str, text: str) -> list[str]:
    """The named clauses of a function."""
    found = re.search(rf"\bfn {name.split('::')[-1]}<(.*?)^ *\{{$", text, re.M | re.S)
    assert found, f"there is no function {name}"
    return [f"{name}.{clause}" for clause in re.findall(r"^ *ensures (\w+) \{", found[1], re.M)]


def refuted(text: str) -> set[str]:
    """What wrong bodies name as broken."""
    lines = re.findall("^refutes:(.*)", text, re.M)
    return {name for line in lines for name in line.split()} | tried_alone(text)


def tried_alone(text: str) -> set[str]:
    """The fields that bodies are tried against alone, of the records of a run."""
    return {name for name in re.findall(r"^alone:.* (\S+)$", text, re.M) if name.split(".")[0] in RECORDS}


def without_a_body(wanted: Iterable[str], text: str) -> set[str]:
    """What has neither a wrong body nor a law, and what is named and is not there."""
    return {*wanted} ^ (refuted(text) | {*LAWS})


# All fields and clauses, the files of all wrong bodies, and these as one text.
FIELDS = {field for name, file in RECORDS.items() for field in fields_of(name, read(path_of(file)))}
PROMISED = {clause for name, file in FUNCTIONS.items() for clause in clauses_of(name, read(path_of(file)))} | FIELDS
BODIES = {path: read(path) for path in glob.glob(path_of("*/wrong-bodies/*.edit"))}
GIVEN = "\n".join(BODIES.values())


class Fields(unittest.TestCase):
    def test_each_has_a_body_or_a_law(self) -> None:
        self.assertEqual(without_a_body(PROMISED, GIVEN), set())
        self.assertEqual(refuted(GIVEN) & {*LAWS}, set())

    def test_each_field_is_judged(self) -> None:
        """Alone, but for those that cannot be."""
        self.assertEqual(FIELDS ^ tried_alone(GIVEN), BESIDE | ({*LAWS} & FIELDS))

    def test_each_clause_is_judged(self) -> None:
        """A body that names a clause of its function is tried against this clause alone."""
        for path, text in BODIES.items():
            named = {name.rpartition(".")[2] for name in refuted(text) if name.rpartition(".")[0] in FUNCTIONS}
            self.assertLessEqual(named, {*re.findall("^clause: (.*)$", text, re.M)}, path)

    def test_each_law_is_there(self) -> None:
        proofs = [*glob.glob(path_of("*/proofs/**/*.antt"), recursive=True), *glob.glob(path_of("*/src/*.rt"))]
        texts = "\n".join(map(read, proofs))
        for law in LAWS.values():
            self.assertRegex(texts, rf"(?m)^ *pub (fn {law}\(|{law} :)", law)

    def test_one_without_is_seen(self) -> None:
        """Each, once its lines are gone; a field and a clause more; and a name of nothing."""
        lines = "\n".join(re.findall("^(?:refutes|alone):.*", GIVEN, re.M))
        for name in PROMISED - {*LAWS}:
            gone = re.sub(rf"(?<=[ ]){re.escape(name)}(?= |$)", "", lines, flags=re.M)
            self.assertEqual(without_a_body(PROMISED, gone), {name})
        record = read(path_of(RECORDS["Runs"])) + "\n  pub later : OnOk r (out.is_flushed o' ≡ true)\n"
        self.assertIn("Runs.later", fields_of("Runs", record.replace("\n\n  pub later", "\n  pub later")))
        function = read(path_of(FUNCTIONS["program"])).replace("ensures shows {", "ensures later {")
        self.assertIn("program.later", clauses_of("program", function))
        self.assertIn("Runs.none", without_a_body(PROMISED, f"{GIVEN}\nrefutes: Runs.none"))
