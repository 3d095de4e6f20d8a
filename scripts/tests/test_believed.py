"""What comes of changes of definitions, by stand-ins of the prover."""

import contextlib
import io
import re
import sys
import unittest
from typing import Any, Callable, Container, Iterable
from unittest import mock

from support import TOP, module, read

believed_rows = module("believed_rows")
judging = module("judging")
changes = module("changes")


# What a check says of copies of three changes, of which it refuses the first by a worked value, and the last as no
# definition.
SAID = """./proofs/V0/Examples.antt:1:2: error: `one`: 1 is not 2
./proofs/V0/Examples.antt:3:2: error: `other`: 1 is not 2
./proofs/V2/Field.antt:1:2: error: no such name
"""


class Judging(unittest.TestCase):
    """What comes of copies, by a stand-in of the kit's check."""

    def setUp(self) -> None:
        self.crate = changes.read_crates(TOP)["gf256"]
        self.found = changes.all_changes({"gf256": self.crate})[:3]
        self.rooms: list[dict[str, str]] = []

    def judged(self, *said: str) -> int:
        """How many copies are refused, where the check says this."""

        def check(_kit: Any, room: str, _words: Any) -> str:
            paths = module("sources").files_below(room, "")
            self.rooms.append({path.removeprefix(f"{room}/"): read(path) for path in paths})
            return "".join(said)

        file = self.crate.examples["Examples"]
        values = frozenset(declaration.name for declaration in file.declarations)
        with mock.patch.object(judging.libraries, "check", check):
            copies = [judging.Copy(change, self.crate, file, values) for change in self.found]
            return len(judging.judge_copies(None, [], copies))

    def test_what_a_check_says(self) -> None:
        self.assertEqual(self.judged(SAID, "logic=refuted\n"), 2)
        self.assertEqual([change.by for change in self.found], ["one", "", judging.NO_DEFINITION])
        for said in (SAID, f"{SAID}./proofs/V3/Examples.antt:1:2: error: `one`: 1 is not 2\nlogic=refuted\n"):
            with self.subTest(said), self.assertRaises(SystemExit):
                self.judged(said)

    def test_what_is_checked(self) -> None:
        """Each copy has its own change, and the last one none. It has the files between too: gf256's values rest on
        the products of its polynomials by its field."""
        every = changes.all_changes({"gf256": self.crate})
        self.found = [change for change in every if change.file.module == "BinaryPolynomial"][:3]
        self.judged("logic=proved\n")
        (room,) = self.rooms
        folders = [f"proofs/V{number}/" for number in range(4)]
        for folder, change in zip(folders, [*self.found, None]):
            file = self.found[0].file
            wanted = judging.with_imports(change.text(), change.new) if change else file.text
            own = re.sub(
                rf"Rattle\.judge\.proofs\.{folder[7:-1]}\b", "Rattle.gf256.specs", room[f"{folder}{file.module}.antt"]
            )
            self.assertEqual(own, wanted)
            self.assertIn(f"Rattle.judge.proofs.{folder[7:-1]}.{file.module}", room[f"{folder}Examples.antt"])
        between = ("BinaryPolynomial", "ErrorCorrection", "Examples", "Field", "Polynomial")
        paths = {f"{folder}{module}.antt" for folder in folders for module in between}
        self.assertEqual({path for path in room if path.count("/") > 1}, paths)
        self.assertEqual([path for path in paths if "Rattle.gf256.specs" in room[path]], [])

    def test_imports(self) -> None:
        text = "-- a\n\nuse Rattle.a.specs.B.{◌+◌, c}\n"
        for word, line in (
            ("-", "use Rattle.std.specs.Prelude.{◌-◌}"),
            ("=!=", "use Rattle.judge.proofs.Differ.{◌=!=◌}"),
            ("list_any", "use Rattle.std.specs.List.{list_any}"),
            ("itself", "use Rattle.judge.proofs.Differ.{itself}"),
        ):
            self.assertEqual(judging.with_imports(text, word), text.replace("\nuse", f"\n{line}\nuse", 1))
        for word in ("+", "5", "c", "x"):
            self.assertEqual(judging.with_imports(text, word), text)

    def checks_of(self, found: Any, values: Any) -> list[str]:
        """The texts of worked values that are checked for changes, of which none is refused."""
        copied: list[str] = []

        def judge_copies(_kit: Any, _words: Any, copies: Any) -> list[Any]:
            copied.extend(copy.text for copy in copies)
            return []

        kit = mock.Mock(**{"crates_below.return_value": []})
        bent: dict[str, Any] = {"words_for": lambda *_: [], "judge_copies": judge_copies}
        with mock.patch.multiple(judging, **bent), mock.patch.object(judging.libraries, "kit", lambda: kit):
            with contextlib.redirect_stdout(io.StringIO()):
                judging.judge(TOP, True, changes.read_crates(TOP), found, values)
        return copied

    def test_worked_values(self) -> None:
        """Each that rests on the definition judges it, or of these just those that are named."""
        file, (first, *_) = self.crate.examples["Examples"], self.found
        resting = self.crate.resting_on(first.definition.name, file)
        names = [value.name for value in file.declarations if changes.is_worked(value) and value.name in resting]
        self.assertGreater(len(names), 1)
        for values, judging_it in ((names, names), (names[:1], names[:1]), (names[-1:], names[-1:]), (None, names)):
            copied = self.checks_of([first], values and {first.file.title: values})
            self.assertEqual(copied, [changes.with_values(file, judging_it)])
        self.assertEqual(self.checks_of([first], {first.file.title: []}), [])

    def test_what_judges_is_checked_as_it_is(self) -> None:
        """A copy of no change has all worked values of a file that are to judge, and no other."""
        (file,) = self.crate.examples.values()
        names = [value.name for value in file.declarations if changes.is_worked(value)]
        first, *others = names
        copies = [judging.Copy(change, self.crate, file, frozenset([first])) for change in self.found]
        (control,) = judging.as_they_are(copies)
        self.assertEqual(control.text, changes.with_values(file, [first]))
        self.assertEqual(control.change.text(), self.found[0].file.text)
        copies.append(judging.Copy(self.found[0], self.crate, file, frozenset(others)))
        (control,) = judging.as_they_are(copies)
        self.assertEqual(control.text, file.text)


class Sample(unittest.TestCase):
    """Changes that are judged again, by a stand-in of the prover."""

    def sampled(self, refuses: Callable[[Any], bool]) -> tuple[int, str]:
        """The status of --sample and its last line, where `refuses` says whether a change is refused."""

        def judge(_top: str, _as_left: bool, _crates: Any, changes: Iterable[Any], values: Container[str]) -> None:
            every = [*changes]
            self.assertEqual(len({*map(id, every)}), len(every), "one is judged twice")
            for change in every:
                self.assertIn(change.file.title, values)
                change.by = "value" if refuses(change) else ""

        with (
            mock.patch.object(believed_rows, "judge", judge),
            mock.patch.object(sys, "argv", ["believed_rows.py", "--sample"]),
            contextlib.redirect_stdout(io.StringIO()) as said,
        ):
            return believed_rows.main(), said.getvalue().split("\n")[-2]

    def test_sample(self) -> None:
        """All is as judged where the changes are refused and those that mean the same are not."""
        for refuses, status, wrong in (
            (lambda change: not change.is_same, 0, 0),
            (lambda change: True, 1, 2),
            (lambda change: False, 1, 30),
        ):
            with self.subTest(wrong):
                last = f"30 changes judged again, 2 mean the same, {wrong} not as judged"
                self.assertEqual(self.sampled(refuses), (status, last))

    def test_worked_values_by_their_text(self) -> None:
        """One ends with refl or with omega arith; what is none stays in each copy."""
        for crate in ("gf256", "labelcore"):
            (file,) = module("reader").files_at(TOP, [f"{TOP}/crates/{crate}/proofs/Examples.antt"])
            texts = {declaration.name: file.text_of(declaration.tokens) for declaration in file.declarations}
            worked = [name for name, text in texts.items() if re.search(r"\b(refl|omega\s+arith)\b", text)]
            self.assertEqual([value.name for value in file.declarations if changes.is_worked(value)], worked)
            left = changes.with_values(file, worked[-1:])
            self.assertEqual([name for name, text in texts.items() if text not in left], worked[:-1])
            self.assertEqual((changes.with_values(file, worked), changes.with_values(file, ["gone"])), (file.text, ""))

    def test_worked_values_that_cite_others(self) -> None:
        """What a proof cites is copied with it."""
        (file,) = module("reader").files_at(TOP, [f"{TOP}/crates/filter/proofs/Examples.antt"])
        copied = changes.with_values(file, ["other_number"])
        are_there = [name for name in ("other_number", "image_read", "symbols_of_input") if f"\n{name} :" in copied]
        self.assertEqual(are_there, ["other_number", "image_read"])
