"""The scripts see what they are there to see: each mistake makes the script fail, and nothing passes unseen."""

import contextlib
import io
import os
import shutil
import sys
import tempfile
import types
import unittest
from typing import Any, Callable, Iterable, Iterator, Sequence
from unittest import mock

from support import PYTHON, SCRIPTS, TOP, InFolder, cases_of, in_copy, module, read, run_command, write

compare_symbols = module("compare_symbols")
named_tests = module("named_tests")
read_foreign = module("read_foreign")
edits = module("edits")
instructions = module("instructions")
libraries = module("libraries")
pages = module("pages")
run_recipes = module("run_recipes")
pictures = module("pictures")
plain_builds = module("plain_builds")
sources = module("sources")
stand_ins = module("stand_ins")
wrong_bodies = module("wrong_bodies")


class Arguments(InFolder):
    """Help ends with status 0 and an unknown argument with usage and status 2, in each script."""

    def test_help_and_an_unknown_flag(self) -> None:
        programs = [name for name in os.listdir(SCRIPTS) if os.access(f"{SCRIPTS}/{name}", os.X_OK)]
        for name in [name for name in programs if name.endswith(".py")]:
            for word, wanted in (("--help", 0), ("--no-such-flag", 2)):
                status, said = in_copy(TOP, name, word)
                self.assertEqual((name, status, "usage: " in said), (name, wanted, True))

    def test_no_such_program(self) -> None:
        for name in ("compare_symbols.py", "run_recipes.py", "refuse_each_growth.py"):
            self.assertEqual(in_copy(TOP, name, "/no/such/program")[0], 2, name)


class WrongBodies(InFolder):
    """No crate passes unseen."""

    def test_crates(self) -> None:
        """A misspelled crate, one without wrong bodies, no kit."""
        for crate, path, status, wanted in (
            ("labelcor", os.environ["PATH"], 2, "no crate labelcor"),
            ("labels", os.environ["PATH"], 1, "no wrong bodies in labels"),
            ("gf256", "/usr/bin:/bin", 2, "rt is not on the path"),
        ):
            with self.subTest(wanted):
                found, said = run_command([PYTHON, f"{SCRIPTS}/wrong_bodies.py", crate], PATH=path)
                self.assertEqual((found, wanted in said), (status, True), said)


ONE = """/// One.
pub fn one() -> u8
    ensures { result ≡ 1 }
{
    1
}
"""
CASES = cases_of("test_scripts", one=ONE)
NAMED = CASES["named"]
OTHER = "\nfn other() -> u8 {\n    7\n}\n"
THIRD = "\nfn third() -> u8 {\n    9\n}\n"
LIB, WRONG, RIGHT = "src/lib.rt", "wrong-bodies/one.edit", "right-bodies/one.edit"
SECOND = "wrong-bodies/second.edit"
# What a check says of a function, and of its answers.
LEFT = "no proof: expected answers in Answers.antt; `search` did not prove `{}`"
NOT, HOLES = LEFT.format("returns"), "no holes"
CALLS = "no proof: it calls `small::other`"
HOLED = "depends on a hole in `Rattle.small.proofs.{}_spec`"
RESTS = (
    "not proved; it stands on `Rattle.small.proofs.{}`, which antt refuses; "
    "it calls `small::other`, which is not proved"
)
ANSWERS = "/tmp/x/crates/{}/proofs/one/Answers.antt:1:2: error: `returns`: "
GONE = ANSWERS.format("small") + "record `Rattle.small.proofs.one.Lts.At` has no field `min`\n"
FALSE = ANSWERS.format("small") + "the two types differ\n"
OF_OTHER = ANSWERS.format("smaller") + "the two types differ\n"
UNENDED = "fn small::one: not proved\nkilled"
# What is reported of bodies.
ACCEPTED, UNJUDGED = ["one: NOT REFUSED"], ["one: not judged"]
UNREPORTED = ["one: it is right, and not reported as not refused"]
CONTROL = "one calling itself: it is right, and not reported as not refused"
GHOST = ["second: it has a clause, a ghost item or an attribute"]


def edit(new: str, old: str = "1", function: str = "one", file: str = LIB) -> str:
    """A body that is a change of the code."""
    return f"refused: {function}\nfile: {file}\nold:     {old}\nnew:     {new}\n"


def body(text: str, function: str = "one") -> str:
    """A body that is a text in place of that of a function."""
    return f"refused: {function}\nbody: {text}\n"


def said(**lines: str) -> str:
    """What a check says of functions, and its last line."""
    return "".join(f"fn small::{name}: {line}\n" for name, line in lines.items()) + "only=1 proved=0\n"


def of_copies(*lines: str) -> str:
    """What a check says of two copies of a function, and of the control beside them."""
    return said(**dict(zip(("one_0", "one_1", "one_calling_itself"), lines)))


BLANK, BLANKS = 'let _ = " ";', 'let _ = "  ";'
CLAUSE = "old:     ensures { result ≡ 1 }\nnew:     ensures { result ≡ result }\n"
TWO_TEXTS = {WRONG: body("one() + 1"), "wrong-bodies/two.edit": body("one() + 2")}
TWO_FUNCTIONS = {LIB: ONE + OTHER, WRONG: edit("2"), "wrong-bodies/other.edit": edit("8", "7", "other")}
BESIDE = {
    LIB: ONE + OTHER + THIRD,
    "wrong-bodies/a.edit": body("one() + 1"),
    "wrong-bodies/b.edit": body("one() + 2"),
    "wrong-bodies/c.edit": edit("8", "7", "other"),
    "wrong-bodies/d.edit": edit("8", "9", "third"),
    "wrong-bodies/e.edit": edit("2"),
}
# The files of a crate, what its checks say one after the other, and what comes of them: how many bodies are refused,
# how many right ones accepted, and what is reported.
TRIED: tuple[tuple[dict[str, str], list[str], tuple[int, int, list[str]]], ...] = (
    ({WRONG: edit("2")}, [said(one="not proved")], (1, 0, [])),
    ({WRONG: edit("2")}, [said(one=NOT)], (1, 0, [])),
    ({WRONG: edit("2")}, [said(one=RESTS.format("one.Answers.returns"))], (1, 0, [])),
    # An answer that names a step of the code that the body does not have says nothing of the body.
    ({WRONG: edit("2")}, [GONE + said(one=RESTS.format("one.Answers.returns"))] * 2, (0, 0, UNJUDGED)),
    ({WRONG: edit("2")}, [GONE + FALSE + said(one=RESTS.format("one.Answers.returns"))], (1, 0, [])),
    ({WRONG: edit("2")}, [GONE + OF_OTHER + said(one=RESTS.format("one.Answers.returns"))] * 2, (0, 0, UNJUDGED)),
    ({WRONG: edit("2")}, [said(one=RESTS.format("OneLaws.is_one"))], (1, 0, [])),
    ({WRONG: edit("2")}, [said(one=HOLED.format("other.Proof.other"))], (0, 0, ACCEPTED)),
    ({WRONG: edit("2")}, [said(one=HOLED.format("one.Answers.returns"))] * 2, (0, 0, UNJUDGED)),
    ({WRONG: edit("2")}, [said(one=HOLES)], (0, 0, ACCEPTED)),
    ({WRONG: edit("2")}, [said()], (0, 0, ACCEPTED)),
    ({WRONG: edit("2")}, [said(one=CALLS)] * 2, (0, 0, UNJUDGED)),
    ({WRONG: edit("2")}, [said(one="was not reached")] * 2, (0, 0, UNJUDGED)),
    ({WRONG: edit("2")}, [UNENDED], (1, 0, ["the check did not reach its end:", *UNENDED.split("\n")])),
    ({RIGHT: edit("0 + 1")}, [said(one=HOLES)], (0, 1, [])),
    ({RIGHT: edit("0 + 1")}, [said(one=HOLED.format("other.Proof.other"))], (0, 1, [])),
    ({RIGHT: edit("0 + 1")}, [said(one=NOT)], (0, 0, UNREPORTED)),
    ({RIGHT: edit("0 + 1")}, [said()], (0, 0, UNREPORTED)),
    # A body that no longer applies, or changes something else than a body, is a fault, whatever a check says.
    ({WRONG: edit("2", old="3")}, [], (0, 0, ["one: an old: text is not in its file just once"])),
    *(
        ({WRONG: edit("2", file=name)}, list[str](), (0, 0, [f"one: it changes {name}, which is no file of src/"]))
        for name in ("specs/One.antt", "src/../x.rt", "src/gone.rt")
    ),
    ({WRONG: edit("2") + CLAUSE}, [], (0, 0, ["one: it changes a clause, a ghost item or an attribute"])),
    ({WRONG: edit(" 1")}, [], (0, 0, ["one: it changes no code"])),
    ({LIB: ONE.replace("    1\n", f"    {BLANK}\n    1\n"), WRONG: edit(BLANKS, BLANK)}, [said(one=NOT)], (1, 0, [])),
    # A text is tried in a copy of the function, beside a control in which nothing may be wrong.
    ({WRONG: body("one() + 1")}, [said(one_0=NOT, one_calling_itself=HOLES)], (1, 1, [])),
    ({WRONG: body("one() + 1")}, [said(one_0=HOLES, one_calling_itself=HOLES)], (0, 1, ACCEPTED)),
    ({WRONG: body("one() + 1")}, [said(one_0=LEFT.format("overflow"), one_calling_itself=HOLES)], (0, 1, ACCEPTED)),
    (TWO_TEXTS, [of_copies(NOT, NOT, HOLES)], (2, 1, [])),
    (TWO_TEXTS, [of_copies(NOT, HOLES, HOLES)], (1, 1, ["two: NOT REFUSED"])),
    (TWO_TEXTS, [of_copies(NOT, NOT, NOT)], (2, 0, [CONTROL])),
    (TWO_TEXTS, ["only=3\n"], (0, 0, ["one: NOT REFUSED", "two: NOT REFUSED", CONTROL])),
    # What fails only by what it calls is tried again, and so is a control.
    (TWO_TEXTS, [of_copies(CALLS, NOT, HOLES), said(one_0=NOT)], (2, 1, [])),
    (TWO_TEXTS, [of_copies(CALLS, NOT, HOLES), said(one_0=HOLES)], (1, 1, ACCEPTED)),
    (TWO_TEXTS, [of_copies(CALLS, NOT, HOLES), said(one_0=CALLS)], (1, 1, UNJUDGED)),
    (TWO_TEXTS, [of_copies(NOT, NOT, CALLS), said(one_calling_itself=HOLES)], (2, 1, [])),
    (TWO_TEXTS, [of_copies(NOT, NOT, CALLS), said(one_calling_itself=NOT)], (2, 0, [CONTROL])),
    # One check tries copies, and bodies in the places of other functions. After it comes what is in the place of a
    # function that the copies call.
    (BESIDE, [said(other=NOT, third=NOT) + of_copies(NOT, NOT, HOLES), said(one=NOT)], (5, 1, [])),
    # Two functions are tried in one check, and what fails by what it calls after the others, and then alone.
    (TWO_FUNCTIONS, [said(one=NOT, other=NOT)], (2, 0, [])),
    (TWO_FUNCTIONS, [said(one=NOT, other=CALLS), said(other=NOT)], (2, 0, [])),
    (TWO_FUNCTIONS, [said(one=NOT, other=CALLS), *[said(other=CALLS)] * 2], (1, 0, ["other: not judged"])),
    (TWO_FUNCTIONS, [said(one=CALLS, other=CALLS), said(one=NOT), said(other=NOT)], (2, 0, [])),
    (TWO_FUNCTIONS, [said(one=CALLS, other=CALLS)] * 3, (0, 0, ["one: not judged", "other: not judged"])),
    (TWO_FUNCTIONS, [said(one=NOT, other=RESTS.format("one.Answers.returns")), said(other=NOT)], (2, 0, [])),
    # Texts that are not tried.
    *(
        ({WRONG: body("2"), SECOND: second}, [said(one_0=NOT, one_calling_itself=HOLES)], (1, 1, reported))
        for second, reported in (
            (body("1"), ["second: it changes no code"]),
            (body("fn two() -> u8 ensures { result ≡ 1 } { 1 } 3"), GHOST),
            (body("#[inline] 3"), GHOST),
            (body("2", "other"), ["second: other is no function that can be there twice: write old: and new:"]),
        )
    ),
)


class Outcomes(InFolder):
    """What comes of bodies, by a stand-in of the kit's check."""

    def crate(self, files: dict[str, str]) -> types.SimpleNamespace:
        """A crate of one function with these files more."""
        folder = tempfile.mkdtemp(dir=self.folder)
        for name, text in {LIB: ONE, **files}.items():
            write(os.path.join(folder, name), text)
        return types.SimpleNamespace(name="small", folder=folder)

    def test_what_comes_of_bodies(self) -> None:
        for number, (files, checks, wanted) in enumerate(TRIED):
            with (
                self.subTest(number, files=files, checks=checks),
                mock.patch.object(wrong_bodies, "check", side_effect=checks),
                contextlib.redirect_stdout(io.StringIO()),
            ):
                (tried,) = wrong_bodies.try_all(None, [self.crate(files)])
                self.assertEqual((len(tried.refused), tried.accepted, tried.lines), wanted)

    def test_crates_in_one_check(self) -> None:
        """Crates are tried in one check where none uses another, and in the next those of which bodies are left."""
        low, side, high, top = (types.SimpleNamespace(name=name, deps=[]) for name in ("low", "side", "high", "top"))
        high.deps, top.deps = [low], [side, high]
        self.assertEqual(wrong_bodies.groups_of([top, side, high, low]), [[top], [side, low], [high]])
        crates = [self.crate({WRONG: edit("2")}), self.crate(TWO_FUNCTIONS)]
        crates[1].name = "large"
        checks = [said(one=NOT), said(one=NOT, other=CALLS).replace("small", "large"), said(other=NOT)]
        checks = [checks[0] + checks[1], checks[2].replace("small", "large")]
        with (
            mock.patch.object(wrong_bodies, "check", side_effect=checks) as check,
            contextlib.redirect_stdout(io.StringIO()) as printed,
        ):
            tried = wrong_bodies.try_all(None, crates)
        self.assertEqual(
            [(result.crate, result.refused, result.lines) for result in tried],
            [("small", ["one"], []), ("large", ["one", "other"], [])],
        )
        self.assertEqual(
            [[trial.crate.name for trial in call.args[1]] for call in check.call_args_list],
            [["small", "large"], ["large"]],
        )
        self.assertEqual(printed.getvalue(), "small: 1 refused, 0 accepted\nlarge: 2 refused, 0 accepted\n")

    def test_a_body_as_a_text(self) -> None:
        """It is always a copy with the clause that it names, beside the function that it can call, and a control that
        calls it and has all clauses."""
        other = "ensures low { result < 2 }"
        lib = ONE.replace("ensures {", f"{other}\n    ensures value {{")
        folder = self.crate({LIB: lib, WRONG: body("one() + 1") + "clause: value\n"}).folder
        (copy, calling) = edits.copies_of(edits.bodies_of(folder), folder)
        text = lib.partition("\n")[2].partition("{\n")[0]
        self.assertEqual(copy.text, text.replace("one(", "one_0(").replace(other, "") + "{ one() + 1 }")
        self.assertEqual(calling.text, text.replace("one(", "one_calling_itself(") + "{ one() }")
        placed = edits.with_copies([copy, calling], folder)[LIB]
        self.assertTrue(placed.startswith(lib.rstrip()))
        self.assertEqual(placed.count(copy.text) + placed.count(calling.text), 2)

    def test_a_field_alone(self) -> None:
        """The copy's clause has the record with that field alone, and the control's without it."""
        record = "pub record All (r : N) : Type 0 where\n  pub one : r\n    + text\n  pub two : Here\n\n"
        specs = {"specs/Lib.antt": "", "specs/Run.antt": f"use A.{{B, C as D}}\n\n{record}abbrev pub Here : N\n"}
        lib = ONE.replace("result", "All result", 1)
        folder = self.crate({LIB: lib, **specs, WRONG: body("2") + "alone: All.two All.one\n"}).folder
        texts = edits.with_copies(edits.copies_of(edits.bodies_of(folder), folder), folder)
        for number, field in enumerate(["  pub one : r\n    + text\n", ""]):
            self.assertIn(f"All_{number} result", texts[LIB])
            text = texts[f"specs/Alone{number}.antt"]
            for wanted in (f"where\n{field}  pub two : Here\n", "use A.{C as D}\n", ".specs.Run.{Here}\n"):
                self.assertIn(wanted, text)
        with self.assertRaises(SystemExit):
            edits.with_fields(["All.later"], "0", folder)

    def test_a_case_alone(self) -> None:
        """The copy's clause has the word with that case alone, and so has each word by which it speaks of it."""
        cases = "abbrev pub Cases : (a : N)\n    → N\nCases zero =\n    zero\nCases (suc n) = n\n\n"
        says = "abbrev pub Says : N → N\nSays a = Cases a\n\nabbrev pub Other : N\nOther = Says zero\n"
        folder = self.crate({"specs/Lib.antt": "", "specs/Run.antt": f"use A.{{B}}\n\n{cases}{says}"}).folder
        text, names = edits.with_fields(["Cases.2"], "7", folder, "ensures { Says zero }")
        self.assertEqual(names, {"Cases": "Cases_7", "Says": "Says_7"})
        alone = "Cases_7 : (a : N)\n    → N\nCases_7 zero = ⊤\nCases_7 (suc n) = n\n"
        self.assertIn(f"abbrev pub {alone}\nabbrev pub Says_7 : N → N\nSays_7 a = Cases_7 a\n", text)
        self.assertNotIn("Other", text)

    def test_bodies_of_no_form(self) -> None:
        for text in (body("2") + edit("2").partition("\n")[2], "refused: one\n", "body: 2\n"):
            with self.subTest(text), self.assertRaises(SystemExit):
                edits.bodies_of(self.crate({WRONG: text}).folder)

    def tried(self, folder: str, said_of_two: Sequence[str], from_nothing: bool = False) -> tuple[bool, list[str]]:
        """Whether a check tries the bodies of a crate in this copy of the repository, and says this of two; and which
        are refused."""
        crate = types.SimpleNamespace(name="small", folder=folder, stamp=lambda: read(f"{folder}/{LIB}"))
        top = mock.patch.object(wrong_bodies.sources, "TOP", folder)
        with top, contextlib.redirect_stdout(io.StringIO()):
            with mock.patch.object(wrong_bodies, "check", side_effect=said_of_two) as check:
                (found,) = wrong_bodies.tried_once(None, [crate], from_nothing)
        return check.called, found.refused

    def test_verdicts_that_are_kept(self) -> None:
        """They hold until something changes that decides them, in another copy of the repository too; those with a
        fault are not kept, and --from-nothing reads none."""
        self.enterContext(mock.patch.dict(os.environ, XDG_CACHE_HOME=self.path("cache")))
        one, other = self.path("one"), self.path("other")
        write(f"{one}/{LIB}", ONE)
        write(f"{one}/{WRONG}", edit("2"))
        for name in wrong_bodies.SCRIPTS:
            write(f"{one}/scripts/{name}.py", "")
        right, wrong = [said(one=NOT), said(one=HOLES)], ["only=0\n"] * 2
        for file, text, is_tried in CASES["kept"]:
            if file:
                write(f"{one}/{file}", text)
            with self.subTest(file=file, text=text):
                self.assertEqual(self.tried(one, right), (is_tried, ["one"]))
        shutil.copytree(one, other)
        self.assertEqual(self.tried(other, wrong), (False, ["one"]))
        self.assertEqual(self.tried(other, wrong, from_nothing=True), (True, []))
        write(f"{one}/{LIB}", OTHER + ONE)
        for _ in range(2):
            self.assertEqual(self.tried(one, wrong), (True, []))

    def test_beside_the_proofs(self) -> None:
        """A crate is tried once `rt ci` says that those below it are proved, over links to their libraries."""
        path, room = self.path("said.txt"), self.path("room")
        others = "rt: low NOT PROVED\nrt: lower proved\nrt: low proved by none\n"
        for last in ("rt: low proved\n", "rt: low is kept: an earlier run proved it\n"):
            low = types.SimpleNamespace(name="low", rlib=self.path("low.rlib"), below=list)
            high = types.SimpleNamespace(name="high", below=lambda: [low])
            texts = iter([others, others + last])
            write(path, "")
            write(self.path("low.rlib/format"), "")
            with self.subTest(last), mock.patch.object(wrong_bodies.time, "sleep") as slept:
                slept.side_effect = lambda _: write(path, next(texts))
                self.assertEqual([*wrong_bodies.each_once_built([[high], [low]], path, room)], [[low], [high]])
                self.assertEqual((low.rlib, [*texts]), (f"{room}/low.rlib", []))
                self.assertTrue(os.path.samefile(f"{room}/low.rlib/format", self.path("low.rlib/format")))
            shutil.rmtree(room)

    def test_as_many_at_a_time_as_the_memory_takes(self) -> None:
        processors = mock.patch("os.sched_getaffinity", lambda _: {1, 2, 3, 4})
        for megabytes, counts in ((500, (1, 1)), (5_000, (2, 1)), (8_000, (4, 2)), (16_000, (4, 4))):
            text = f"MemFree: 1 kB\nMemAvailable: {megabytes:9}000 kB\n"
            with mock.patch.object(wrong_bodies.sources, "read", {"/proc/meminfo": text}.get), processors:
                self.assertEqual((wrong_bodies.at_once(False), wrong_bodies.at_once(True)), counts, megabytes)
        self.assertGreaterEqual(wrong_bodies.at_once(True), 1)

    def test_calls_of_a_function_by_itself(self) -> None:
        for number, (head, is_method, wanted) in enumerate(CASES["calls"]):
            name = f"src/call_{number}.rt"
            write(self.path(name), f"{head} {{\n}}\n")
            (item,) = edits.file_at(self.folder, name).declarations
            with self.subTest(head):
                self.assertEqual(edits.call_of(item, is_method), wanted)

    def test_status(self) -> None:
        """What is wrong with a body is printed and makes the status 1."""
        tried = wrong_bodies.Tried
        for results, wanted in (
            ([tried("a", ["b", "c"], 1)], (0, "3 passed, 0 failed\n")),
            ([tried("a", ["c"], 1, ["b: NOT REFUSED"])], (1, "a/b: NOT REFUSED\n2 passed, 1 failed\n")),
        ):
            with contextlib.redirect_stdout(io.StringIO()) as printed:
                self.assertEqual((wrong_bodies.judged(results), printed.getvalue()), wanted)

    def test_no_copies(self) -> None:
        """A method can be there twice, with its attributes, and one of a trait that has clauses of its own in an
        `impl` of the type; one without cannot, nor one that calls itself."""
        text = "const A: u8 = 7;\nimpl<T> Some<T> {\n    #[inline]\n    fn one() -> u8 { 1 }\n}\n"
        for trait, clause in (("Trait", ""), ("Other<u8>", " ensures { result ≡ 12 }")):
            text += f"impl<T: Trait> {trait} for Some<T> {{\n    fn one() -> u8{clause} {{ 11 }}\n}}\n"
        write(self.path("src/part.rt"), text)
        write(self.path("src/cycle.rt"), "#[cycle(one)]\nfn one() -> u8 { 1 }\n")
        for function, wanted in (
            ("part::Some::one", "    #[inline]\n    fn one_0() -> u8 { 2 }"),
            ("part::SomeTrait::one", None),
            (
                "part::SomeOther::one",
                "impl<T: Trait> Some<T> {\n    fn one_0() -> u8 ensures { result ≡ 12 } { 2 }\n}",
            ),
            ("other::Some::one", None),
            ("cycle::one", None),
        ):
            copy = edits.copy_of(edits.Body("", function, " 2 "), "0", self.folder)
            self.assertEqual(copy and copy.text, wanted, function)


class StandIns(InFolder):
    """What a check of other functions takes by their contracts alone."""

    def test_functions(self) -> None:
        """All have a hole and a body that calls nothing, but one that is asked for and those of other names."""
        folder = self.path("crates", "small")
        write(f"{folder}/src/lib.rt", ONE)
        wanted = read(f"{SCRIPTS}/tests/functions.txt")
        write(f"{folder}/src/part.rt", wanted)
        write(f"{folder}/src/main.rt", "fn main() {\n    one();\n}\n")
        more = "use crate::part::{Other, Some};\n\nimpl Some {\n    fn three() -> u8 {\n        3\n    }\n}\n"
        write(f"{folder}/src/more.rt", more)
        for function in ("Some/one", "Some/two", "SomeCounts/count"):
            write(f"{folder}/proofs/part/{function}/Answers.antt", "")
        stand_ins.put(self.folder, "small", ["part::Some::two"])
        for text in ("        1\n    }", "        self.count() == 1\n    }", "        A\n    }"):
            wanted = wanted.replace("{\n" + text, "{ loop {} }")
        self.assertEqual(read(f"{folder}/src/part.rt"), wanted)
        self.assertTrue(read(f"{folder}/src/lib.rt").endswith("\n{ loop {} }\n"))
        self.assertIn("one();", read(f"{folder}/src/main.rt"))
        files = sources.files_below(f"{folder}/proofs", ".antt")
        proofs = [os.path.relpath(path, f"{folder}/proofs") for path in files]
        holed = ["one", "part/Counts/is_one", "part/Some/one", "part/Some/three", "part/SomeCounts/count"]
        holes = [f"{path}/Proof.antt" for path in holed]
        self.assertEqual(proofs, sorted([*holes, "part/Some/two/Answers.antt"]))
        hole = read(f"{folder}/proofs/part/SomeCounts/count/Proof.antt")
        self.assertIn("use Rattle.small.proofs.part.SomeCounts.count.Statement.{statement}\n", hole)
        self.assertTrue(hole.endswith("\ncount_spec 𝓤 𝓛 𝓜 𝓡 w = ?\n"))


def bars() -> Any:
    """The modules of a symbol that nobody drew."""
    return pictures.modules_in(["101" + "0" * 64])


def readings(found: Callable[[Any], bytes | None]) -> Callable[[Any], Any]:
    """What stands in for the readings of symbols, each by itself."""
    return lambda symbols: [found(symbol) for symbol in symbols]


def of_foreign() -> Iterator[tuple[str, bool]]:
    yield from read_foreign.wrong_cases(read_foreign.Symbol("nobody", "ean8", b"73513537", bars()))


def of_symbols() -> Iterator[tuple[str, bool]]:
    with (
        mock.patch.object(compare_symbols, "pictures_of", return_value=[bars()]),
        mock.patch.object(compare_symbols, "readings", lambda _, labels: [(label, label.full) for label in labels]),
    ):
        yield from compare_symbols.wrong_cases("")


SHOWN = len(compare_symbols.SHOWN)
# What shows wrong cases, what is put in the place of a part of a judge, and how many cases that one does not report.
BENT: tuple[tuple[Callable[[], Iterable[tuple[str, bool]]], Any, dict[str, Any], int], ...] = (
    (of_foreign, read_foreign, {"readings": readings(lambda symbol: b"73513537")}, 3),
    (of_foreign, read_foreign, {"readings": readings(lambda symbol: bytes(symbol.data))}, 21),
    (of_symbols, compare_symbols, {"is_as_zint": lambda *_: True, "is_read_back": lambda *_: True}, 6 * SHOWN),
    (of_symbols, compare_symbols, {"is_as_zint": lambda *_: False, "is_read_back": lambda *_: False}, 2 * SHOWN),
    (run_recipes.wrong_cases, run_recipes.Commands, {"fault": lambda *_: ""}, 39),
    (run_recipes.wrong_cases, run_recipes, {"fault_of_picture": lambda *_: ""}, 9),
    (run_recipes.wrong_cases, run_recipes, {"judged": lambda *_: (3, 3)}, 48),
    (instructions.wrong_cases, instructions, {"ROOM": 50}, 60),
    (instructions.wrong_cases, instructions, {"fault_of": lambda *_: ""}, 70),
    (instructions.wrong_cases, instructions, {"shape_of": lambda row: ""}, 10),
    (instructions.wrong_cases, instructions, {"faults": lambda *_: []}, 110),
)


class Judges(unittest.TestCase):
    """A judge that passes everything is found by the wrong cases that it is shown in each run."""

    def test_bent_judges(self) -> None:
        for number, (cases, where, bent, count) in enumerate(BENT):
            with self.subTest(number, bent=[*bent]), mock.patch.multiple(where, **bent):
                self.assertEqual(sum(not is_reported for _, is_reported in cases()), count)

    def test_wrong_cases_that_pass_are_heeded(self) -> None:
        for cases, wanted in (
            ([], (0, "fine\n")),
            ([("one", True)], (0, "fine; 1 wrong cases shown\n")),
            (
                [("one", True), ("two", False)],
                (1, "this wrong case is not reported: two\nfine; 2 wrong cases shown\n"),
            ),
        ):
            with contextlib.redirect_stdout(io.StringIO()) as said:
                self.assertEqual((sources.ended([], "fine", cases), said.getvalue()), wanted)

    def test_words_of_code(self) -> None:
        """Each counts, but white space, comments and the commas that a formatter puts last."""
        for code, words in (
            ("f(a, b)", " f ( a , b ) "),
            ("f(\n    a,\n    b,\n)", " f ( a , b ) "),
            ("[1, 2], // three", " [ 1 , 2 ] "),
            ('"a, b" http://c', ' "a, b" http : / / c '),
        ):
            self.assertEqual(pages.words_of(code), words)

    def test_long_paragraphs(self) -> None:
        """Those of lists count too; tables and code do not."""
        most, more = ("word " * count for count in (pages.MOST_WORDS, pages.MOST_WORDS + 1))
        code, table = f"```text\n{more}\n```", f"| One |\n|---|\n| {more} |"
        found = [*pages.long_paragraphs(f"{most}\n\n{more}\n\n- {more}\n\n{code}\n\n{table}\n")]
        self.assertEqual(found, [(3, pages.MOST_WORDS + 1), (5, pages.MOST_WORDS + 1)])


# In the place of Python, which writes the table: what stands in for the tools reads none.
NO_TABLE = {"python3": "true"}
PAGES = ("README.md", "docs/TABLE.md", "docs/pictures/sheet.png")


class NamedTests(InFolder):
    """What the tests of the crates say that they compared, and bent code."""

    def test_what_differs(self) -> None:
        """What is left out of a test of `one`: each such text of `rt ci`, and what is said of it."""
        wanted = {"one": {"a::first": "3 rows", "a::second": ""}}
        for said_by_ci, differs in NAMED["differs"]:
            with self.subTest(said_by_ci):
                found = named_tests.tests_in(said_by_ci)
                self.assertEqual([*named_tests.differences(wanted, found)], differs)

    def test_tests_over_bent_code(self) -> None:
        """A test that passes there is reported. Verdicts are kept until the code changes."""
        self.enterContext(mock.patch.dict(os.environ, XDG_CACHE_HOME=self.path("cache")))
        write(self.path("crates.txt"), "one:\n")
        write(self.path("crates/one/src/lib.rt"), "let four = 4;\n")
        write(self.path("scripts/named_tests.toml"), NAMED["list"])
        for name in ("named_tests", "sources"):
            write(self.path(f"scripts/{name}.py"), "")
        write(self.path("out/steps/rt-ci.txt"), NAMED["differs"][0][0])
        for changed, tried, status, words in NAMED["bent"]:
            write(
                self.path("bin/rt"), f"#!/bin/sh\ngrep -q 5 src/lib.rt && touch {self.path('tried')}\n{tried}\n", True
            )
            if changed:
                write(self.path("crates/one/src/lib.rt"), changed)
            path = mock.patch.dict(os.environ, PATH=f"{self.path('bin')}:{os.environ['PATH']}")
            kit = mock.patch.object(named_tests.libraries, "kit", lambda: types.SimpleNamespace(KIT=self.folder))
            write(self.path("WHAT"), "kit-1")
            with self.subTest(changed=changed, words=words), path, kit:
                found, said_then = in_copy(self.folder, "named_tests.py", *words)
                self.assertEqual((found, os.path.exists(self.path("tried"))), (status, bool(tried)), said_then)
            if tried:
                os.remove(self.path("tried"))

    def test_code_that_cannot_be_bent(self) -> None:
        write(self.path("crates.txt"), "one:\n")
        write(self.path("crates/one/src/lib.rt"), "4 4\n")
        os.mkdir(self.path("room"))
        for old in ("4", "5"):
            with mock.patch.object(named_tests.sources, "TOP", self.folder), self.assertRaises(SystemExit):
                named_tests.bend(self.path("room"), {"one/src/lib.rt": [[old, "6"]]})
            shutil.rmtree(self.path("room/crates"))


class PackageTests(InFolder):
    """The tests of the packages fail for a program that is wrong: they run in a fresh Debian, by hand."""

    def passes(self, name: str, pages: str, **programs: str) -> bool:
        """Whether a test of the packages passes with these programs in the place of right ones."""
        folder = tempfile.mkdtemp(dir=self.folder)
        for program, text in {**CASES["right_programs"], **programs}.items():
            write(os.path.join(folder, "bin", program), f"#!/bin/sh\n{text}\n", is_program=True)
        where = {"PATH": f"{folder}/bin:/usr/bin:/bin", "AUTOPKGTEST_TMP": folder, "PAGES": pages}
        return run_command([f"{TOP}/debian/tests/{name}"], **where)[0] == 0

    def test_right_programs_pass(self) -> None:
        names = {name for name, *_ in CASES["wrong_programs"]}
        self.assertEqual(names, {*os.listdir(f"{TOP}/debian/tests")} - {"control", "library"})
        for name in names:
            self.assertTrue(self.passes(name, TOP), name)
            self.assertTrue(self.passes(name, TOP, **NO_TABLE), name)

    def test_wrong_programs_fail(self) -> None:
        for name, program, text in CASES["wrong_programs"]:
            with self.subTest(name, program=program, text=text):
                self.assertFalse(self.passes(name, TOP, **NO_TABLE, **{program: text}))
        for gone in PAGES:
            for page in PAGES:
                write(self.path(gone, page), "")
            os.remove(self.path(gone, gone))
            self.assertFalse(self.passes("program", self.path(gone)), gone)


class PlainBuilds(InFolder):
    def test_contracts_that_are_assumed(self) -> None:
        """The number of contracts of C functions on the page is that of the verdict on the program."""
        page = "- 39 contracts\nof C functions"
        for assumed, is_right in ((" axioms=39", True), (" axioms=38", False), (" axioms=390", False), ("", False)):
            verdict = f"axioms libc: 39\nlogic=proved functions=3{assumed} target=x86_64\n"
            self.assertEqual((assumed, plain_builds.fault_of_page(page, verdict) == ""), (assumed, is_right))

    def test_what_is_taken_as_rt_ci_left_it(self) -> None:
        """All libraries, or none: each is newer than its files and those below it, and has no stamp of `rt check`."""
        for changed, is_taken in (("", True), ("low/src/lib.rt", False), ("high/out/rlib/stamp", False)):
            shutil.rmtree(self.folder)
            low, high = (self.crate(name) for name in ("low", "high"))
            high.below = lambda: [low]
            if changed:
                write(self.path(changed), "")
                os.utime(self.path(changed), (3, 3))
            with self.subTest(changed):
                self.assertEqual(libraries.build([low, high], as_left=True), "")
                self.assertEqual((low.build_rlib.called, high.build_rlib.called), (not is_taken, not is_taken))

    def crate(self, name: str) -> Any:
        """A crate whose library was built in second 2 of a file of second 1."""
        crate = mock.Mock(folder=self.path(name), rlib=self.path(name, "out/rlib/built.rlib"), below=list)
        crate.build_rlib.return_value = 0
        for path, seconds in ((f"{crate.folder}/src/lib.rt", 1), (f"{crate.rlib}/format", 2)):
            write(path, "")
            os.utime(path, (seconds, seconds))
        os.utime(crate.rlib, (2, 2))
        return crate


class Instructions(unittest.TestCase):
    """What is counted is printed as the page has it."""

    def test_what_is_printed(self) -> None:
        """It is what is compared: a page of what is printed has nothing wrong, and one of a table less has."""
        head, rows = ["Label", "labels", "zint"], {"one": [1234, None], "two": [12.4, "7.5"], "three": [99]}
        text = "| Label | labels | zint |\n| --- | --- | --- |\n| one | 1,200 | - |\n"
        text += "| two | 12 | 7.5 |\n| three | 99 | - |\n"
        self.assertEqual(instructions.text_of([(head, rows)]), text)
        counts: dict[str, Any] = {"PAGE": mock.Mock(**{"read_text.return_value": text}), "counted": None}
        said = io.StringIO()
        tables: tuple[tuple[list[Any], int], ...] = (([(head, rows)], 0), ([(head, rows)] * 2, 1), ([], 1))
        for made, status in tables:
            counts["counted"] = lambda _: made
            with mock.patch.multiple(instructions, **counts), contextlib.redirect_stdout(said):
                with mock.patch.object(sys, "argv", ["instructions.py", "--check"]):
                    self.assertEqual(instructions.main(), status, said.getvalue())

    def test_what_is_not_counted(self) -> None:
        """A program that draws nothing or fails, and valgrind where it is not installed."""
        for program, wanted in (("true", "draws no label"), ("false", "status 1"), ("valgrind-9", "not installed")):
            said = io.StringIO()
            with mock.patch.multiple(instructions, PROGRAM=program, command_of=lambda *given: [program]):
                with contextlib.redirect_stderr(said), self.assertRaises(SystemExit) as ended:
                    instructions.one_more(program, instructions.EAN)
            self.assertEqual((ended.exception.code, wanted in said.getvalue()), (2, True), said.getvalue())
