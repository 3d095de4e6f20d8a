"""What is taken away, planted or written otherwise in a copy of the repository makes a script fail that says so."""

import os
import re
from typing import Any
from unittest import mock

from support import PYTHON, TOP, InCopy, cases_of, module, read, run_command, slow

README, PROOF, READING = "README.md", "docs/PROOF.md", "crates/picture/specs/Reading.antt"
EVIDENCE = "docs/EVIDENCE.md"
COUNTS, RESULTS = "scripts/counts.txt", "scripts/believed_rows.txt"


def found_in(pattern: str, file: str) -> str:
    """What a file has of a pattern, which has to be there."""
    found = re.search(pattern, read(os.path.join(TOP, file)), re.M)
    assert found, pattern
    return found[0]


def with_more(file: Any) -> str:
    """The text of a file of specs/ with one word more at the end of each definition."""
    text = file.text
    for end in sorted((file.extent(definition.tokens)[1] for definition in file.declarations), reverse=True):
        text = f"{text[:end]} more{text[end:]}"
    return str(text)


# How many changes of definitions are judged, as a step and a page have it, and a number of a page.
JUDGED = found_in(r"\d+(?= changes of)", COUNTS)
NUMBER = found_in(r"[\d,]+ lines of\s+\[definitions", README)
CASES = cases_of(
    "test_copy",
    judged=JUDGED,
    count=f"{int(JUDGED):,}",
    number=NUMBER,
    line=found_in(f".*{NUMBER.split()[0]}.*", README),
    shows=found_in(r"\| the clause `shows` of `program` .*", PROOF),
    runs=found_in(r"\| the clause `runs` of `program` .*", PROOF),
    fail_at=found_in(r"^testing/FailAt .*", RESULTS),
    letters="a" * 500,
)


class Changed(InCopy):
    """What is moved away or written otherwise makes a step fail that runs before the proofs."""

    def judged(self, name: str, *arguments: str) -> tuple[int, str]:
        """What a step says of the copy. No lint runs but those of this process; those of tests run in another one."""
        if name == "run_tests.py":
            return run_command([PYTHON, self.path("scripts", name), *arguments])
        with mock.patch.object(module("lints"), "all_lints", return_value=()):
            return super().judged(name, *arguments)

    def test_what_is_moved_away(self) -> None:
        for step, together in CASES["moved"].items():
            for moved in together:
                with self.subTest(step=step, moved=moved):
                    for name, _ in moved:
                        os.rename(self.path(name), self.path(f"{name}-away"))
                        self.addCleanup(os.rename, self.path(f"{name}-away"), self.path(name))
                    status, said = self.judged(*step.split())
                    self.assertEqual((status, [wanted for _, wanted in moved if wanted not in said]), (1, []), said)
                self.doCleanups()

    @slow
    def test_what_is_written_otherwise(self) -> None:
        for step, files in CASES["together"].items():
            changes = [(file, old, new, wanted) for file, rows in files.items() for old, new, wanted in rows]
            with self.subTest(step=step):
                said = self.fails(step, *changes)
            if step == "unused.py":
                self.assertEqual(said.count("\n"), len(changes) + 1, said)

    def test_what_is_written_otherwise_alone(self) -> None:
        for step, files in CASES["alone"].items():
            for file, rows in files.items():
                for old, new, wanted in rows:
                    with self.subTest(step=step, file=file, old=old, new=new):
                        self.fails(step, (file, old, new, wanted))

    def test_nothing_to_look_at(self) -> None:
        self.replace("crates.txt", "")
        os.rename(self.path("crates"), self.path("boxes"))
        self.addCleanup(os.rename, self.path("boxes"), self.path("crates"))
        self.assertEqual(self.judged("unused.py")[0], 1)


class Numbers(InCopy):
    """The numbers of pages that steps of the gate and the files have."""

    def test_what_write_leaves_is_right(self) -> None:
        text = read(self.path(EVIDENCE))
        self.replace(EVIDENCE, re.sub(r"\*\*\d[\d,]* ", "**1 ", text))
        self.assertEqual(self.judged("pages.py")[0], 1)
        status, said = self.judged("pages.py", "--write")
        self.assertEqual((status, read(self.path(EVIDENCE))), (0, text), said)


class Believed(InCopy):
    """The numbers, the table and the names of std on the pages, and what they are of."""

    def test_what_write_leaves_is_right(self) -> None:
        """Each contract has a line, and the second needs less than both."""
        self.assertEqual(self.judged("believed.py", "--write")[0], 0)
        status, said = self.judged("believed.py", "--check")
        self.assertEqual(status, 0, said)
        found = re.findall(r"^(.*): (\d+) lines, (\d+) of definitions, (\d+) of code, (\d+) names$", said, re.M)
        lines = {what: [int(number) for number in numbers] for what, *numbers in found}
        clauses = [f"the clause `{name}` of `program`" for name in ("shows", "runs")]
        program, exports = "both clauses of `program`", "the 10 exports of the C library"
        apart = ["not in these numbers: what stands behind the names of `clap`"]
        apart.append("not in these numbers: `main` and `arguments_of`, which have no clause")
        self.assertEqual([*lines], [*clauses, program, exports, *apart])
        self.assertTrue(all(row[0] == sum(row[1:]) for row in lines.values()), said)
        shows, runs = (lines[clause][0] for clause in clauses)
        self.assertTrue(max(shows, runs) < lines[program][0] < shows + runs, said)

    def test_show(self) -> None:
        """A list has what a clause rests on, with its comment, and says by which clause of a standard."""
        feed, penalty = "- LF: the line feed\n", "Why: `penalty`: in the manner of 7.8.3.\n"
        for name, has, has_not in (
            ("shows", (feed, "- contract program, ", "- IsShown: "), (penalty, "- Produces: ")),
            ("runs", (feed, penalty, "- Produces: "), ("- IsShown: ",)),
            ("program", (feed, penalty, "- Produces: ", "- IsShown: "), ("- NotADefinition: ",)),
            ("library", (feed, penalty, "- contract labels_proved_draw, "), ("- contract program, ",)),
        ):
            with self.subTest(name):
                status, said = self.judged("believed.py", "--show", name)
                self.assertEqual(status, 0, said)
                self.assertEqual([line for line in has if line not in said], [])
                self.assertEqual([line for line in has_not if line in said], [])

    @slow
    def test_what_any_crate_promises_is_named(self) -> None:
        """Each definition outside of `Private` that has a word more, and each contract of a function that demands what
        it ensured: all at once. In the files of the crates below too, on which no user relies."""
        repository = module("bases").read_repository(self.path())
        contracts = [
            contract for contract in repository.promises if contract.kind == "contract" and "ensures" in contract.words
        ]
        wanted = {f"\n-{contract.crate}/{contract.file} contract {contract.name} " for contract in contracts}
        for file in repository.code:
            self.replace(file.path, file.text.replace("ensures ", "requires "))
        for file in repository.specs.values():
            if not file.module.startswith("Private"):
                self.replace(file.path, with_more(file))
                wanted |= {f"\n-{file.title} {definition.name} " for definition in file.declarations}
        status, said = self.judged("believed.py", "--check")
        self.assertEqual((status, [line for line in wanted if line not in said]), (1, []))
        self.assertGreater(len(wanted), 800)

    @slow
    def test_results_as_they_are(self) -> None:
        """They hold with another comment, too."""
        text = read(self.path(READING))
        self.assertIn("-- the decimal number that", text)
        self.replace(READING, text.replace("-- the decimal number that", "-- the number that"))
        status, said = self.judged("believed_rows.py")
        self.assertEqual(status, 0, said)
        behind = ", ".join(rf"\d+ of \d+ behind the {name}" for name in ("program", "library"))
        refused = rf"^\d{{4}} changes of \d{{3}} definitions, {behind}, are refused"
        self.assertRegex(said, rf"{refused}, \d+ mean the same, sum [\da-f]{{8}}\n$")
