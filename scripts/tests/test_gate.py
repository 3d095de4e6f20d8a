"""The gate cannot look away: what is taken away in a copy of the repository makes a step of the gate fail."""

import importlib.util
import io
import os
import re
import shutil
import signal
import subprocess
import sys
import time
import unittest
from itertools import product
from typing import Any, Iterable, Mapping
from unittest import mock

from support import PYTHON, SCRIPTS, TOP, InFolder, cases_of, in_copy, module, read, run_command, write

gate = module("gate")
kept_proofs = module("kept_proofs")
INSTALL = "apt-get install -y --no-install-recommends zint"
CASES = cases_of(
    "test_gate",
    all=f"{len(gate.ALL)}",
    but_two=f"{len(gate.ALL) - 2}",
    install=INSTALL,
    missing=f"packages are missing; as root: .ci/run --install, or apt-get update && {INSTALL}",
)
# Of these one passes, and with --quick two are left out. The ways of single tests run_tests.py is shown in each run.
WAYS = """import run_tests, subprocess, unittest
class One(unittest.TestCase):
    def test_right(self):
        pass
    def test_endless(self):
        with subprocess.Popen(["sleep", "60"]) as process:
            run_tests.give_time(0.1)
class Two(unittest.TestCase):
    @classmethod
    def setUpClass(cls):
        raise unittest.SkipTest("takes seconds: two")
    def test_one(self):
        pass
    def test_two(self):
        pass
class Three(unittest.TestCase):
    @classmethod
    def setUpClass(cls):
        raise ValueError
    def test_three(self):
        pass
"""
# This one fails beside others, and passes by itself.
ONCE = """import os, unittest
class Four(unittest.TestCase):
    def test_once(self):
        if not os.path.exists("again"):
            open("again", "w").close()
            self.fail()
    def test_never(self):
        self.fail()
"""
# This one ends its process, and with it those of its file.
ENDS = "import os, unittest\nclass One(unittest.TestCase):\n    def test_one(self):\n        os._exit(3)\n"


class Ways(InFolder):
    """The ways in which tests do not pass, and the time that each has."""

    def test_ways_in_which_tests_do_not_pass(self) -> None:
        for name in ("run_tests.py", "sources.py"):
            write(self.path("scripts", name), read(os.path.join(SCRIPTS, name)))
        os.mkdir(self.path("tests"))
        command = [PYTHON, self.path("scripts/run_tests.py"), "tests"]
        self.assertEqual(run_command(command)[0], 1)
        write(self.path("tests/test_one.py"), WAYS)
        write(self.path("tests/test_two.py"), ENDS)
        for words, last in (("", "1 passed, 5 failed"), ("--quick", "1 passed, 3 failed, 2 left out")):
            status, said = run_command([*command, *words.split()])
            self.assertEqual((status, said.split("\n")[-2]), (1, last), said)

    def test_what_passes_only_by_itself_is_named(self) -> None:
        """And not where many fail."""
        for name in ("run_tests.py", "sources.py"):
            write(self.path("scripts", name), read(os.path.join(SCRIPTS, name)))
        os.mkdir(self.path("tests"))
        write(self.path("tests/test_once.py"), ONCE)
        command = [PYTHON, self.path("scripts/run_tests.py"), "tests"]
        status, said = run_command(command)
        self.assertEqual((status, said.split("\n")[-2]), (1, "1 passed, 1 failed"), said)
        self.assertIn("\nunsteady: test_once.Four.test_once\n", said)
        os.remove(self.path("again"))
        write(self.path("tests/test_two.py"), WAYS)
        status, said = run_command(command)
        self.assertEqual((status, said.split("\n")[-2]), (1, "1 passed, 6 failed"), said)

    def test_each_test_has_its_time(self) -> None:
        """And what is set up before it and after it."""
        run_tests = module("run_tests")
        with mock.patch.object(run_tests, "give_time") as given:
            run_tests.judged(unittest.TestSuite([run_tests.Shown("right")]), False, io.StringIO())
        self.assertEqual(given.mock_calls, [mock.call(), mock.call()])


# Makefiles, which no lint reads.
NOT_READ = {"debian/rules"}
KINDS = ("python", "shell", "completion", "manual")


class Lints(InFolder):
    """What the lints read is what there is, and they look at it again where something has changed."""

    def test_each_program_is_read(self) -> None:
        """Each file with an ending or a first line of a program, but for the crates and what is built."""
        lints = module("lints")
        os.chdir(TOP)
        no_code = {"out", ".git", "crates", "__pycache__"}
        wanted = set[str]()
        for folder, folders, names in os.walk("."):
            folders[:] = [name for name in folders if name not in no_code]
            paths = [os.path.join(folder, name).removeprefix("./") for name in names]
            wanted |= {path for path in paths if re.search(r"\.(py|sh|bash|[1-8])$", path) or is_program(path)}
        files = lints.files_by_kind()
        self.assertEqual(wanted - {path for kind in KINDS for path in files[kind]}, NOT_READ)
        read_by = [path for lint in lints.all_lints(files) for path in lint.files]
        self.assertEqual(wanted - NOT_READ - {*read_by}, set())
        # One for its layout and its style, one for its types.
        self.assertEqual([path for path in files["python"] if read_by.count(path) != 2], [])

    def test_files_that_no_lint_would_read(self) -> None:
        """Another first line, a lint without files, and settings beside the code that the lints do not look at."""
        lints = module("lints")
        for name in lints.FOLDERS:
            os.mkdir(self.path(name))
        for name, text in CASES["planted"].items():
            write(self.path(name), text)
        with mock.patch.multiple(lints, faults_of_rules=lambda: [], TYPED=()):
            status, said = in_copy(self.folder, "lints.py")
        for wanted in CASES["said_of_planted"]:
            self.assertIn(wanted, said)
        self.assertEqual(status, 1)

    def test_a_subject_that_is_too_long(self) -> None:
        lints = module("lints")
        lines = [f"0a1b2c3d {letters * 'x'}" for letters in (lints.LONGEST, lints.LONGEST + 1, 1)]
        with mock.patch.object(lints.sources, "run", lambda _: (0, "\n".join(lines))):
            self.assertEqual([fault.split(": ")[1] for fault in lints.faults_of_subjects()], lines[1:2])

    def test_what_is_kept(self) -> None:
        """A lint runs again where one of its files, its command or a package has changed, and where it found
        something."""
        lints = module("lints")
        write(self.path("bin/look"), '#!/bin/sh\necho "$@" >> log\n! grep -l wrong "$@"\n', is_program=True)
        bent: dict[str, Any] = {name: lambda: iter(()) for name in ("unseen_in_python", "faults_of_rules")}
        bent |= {
            "faults_of_subjects": lambda: iter(()),
            "files_by_kind": lambda: dict.fromkeys(KINDS, []),
            "PACKAGES": "packages",
            "SETTINGS": "settings",
            "all_lints": lambda _: [lints.Program("look", ["one"], ["settings"], "bad", "wrong")],
        }
        path = mock.patch.dict(os.environ, PATH=f"{self.path('bin')}:{os.environ['PATH']}")
        for name in ("packages", "settings"):
            write(self.path(name), "none")
        for changed, text, status, runs in CASES["kept"]:
            write(self.path(changed or "none"), text)
            write(self.path("log"), "")
            with self.subTest(changed=changed, text=text), mock.patch.multiple(lints, **bent), path:
                found, said = in_copy(self.folder, "lints.py")
                self.assertEqual((found, read(self.path("log")).count("\n")), (status, runs), said)


def is_program(path: str) -> bool:
    """Whether the first line of a file names what reads it."""
    with open(path, "rb") as file:
        return file.read(2) == b"#!"


def is_alive(process: str) -> bool:
    """Whether there is a process of this number that has not ended."""
    try:
        return read(f"/proc/{process}/stat").rpartition(")")[2].split()[0] not in "ZX"
    except FileNotFoundError:
        return False


class Gate(InFolder):
    """gate.py over stand-ins of its steps, and `.ci/run` over stand-ins of what it calls."""

    def step(self, name: str, text: str) -> None:
        """Writes the stand-in of a step."""
        path = self.path("bin/rt") if name == "rt" else self.path("scripts", name)
        write(path, f"#!/bin/sh\n{text}", is_program=name == "rt")

    def command(self, steps: Iterable[str], kept: Mapping[str, str], processors: int = 2) -> list[str]:
        """The command of the gate over stand-ins on so many processors, where these lines are kept."""
        for name in ("kept_proofs.py", "libraries.py"):
            write(self.path("scripts", name), read(os.path.join(SCRIPTS, name)))
        write(self.path("scripts/counts.txt"), "".join(f"{step}: {kept[step]}\n" for step in kept if kept[step]))
        for name, old, new in (
            ("gate.py", "PROCESSORS = len(os.sched_getaffinity(0))", f"PROCESSORS = {processors}"),
            ("sources.py", f'PYTHON = "{PYTHON}"', 'PYTHON = "/bin/sh"'),  # it starts sooner
        ):
            text = read(os.path.join(SCRIPTS, name))
            self.assertIn(old, text)
            write(self.path("scripts", name), text.replace(old, new))
        return [PYTHON, self.path("scripts/gate.py"), *steps]

    def judged(self, steps: Iterable[str], kept: Mapping[str, str], processors: int = 2) -> tuple[int, str]:
        """What the gate then says, over a stand-in of the kit and a cache folder of its own."""
        write(self.path("bin/rtlib.py"), f"KIT = {self.path('bin')!r}\n")
        decides = (f"bin/{name}" for name in ("KIT-ID", "WHAT"))
        for name in (*decides, *kept_proofs.BUILT, "HANDLES", "crates.txt", "docs/PROOF.md", "Makefile"):
            write(self.path(name), "")
        path = f"{self.path('bin')}:{os.environ['PATH']}"
        return run_command(self.command(steps, kept, processors), PATH=path, XDG_CACHE_HOME=self.path("cache"))

    def test_proofs_that_are_kept(self) -> None:
        """Proofs are taken where nothing of the crates has changed since they passed, with what they built."""
        names = {"rt" if step == gate.PROOFS else step.split()[0] for step in gate.ALL}
        for name in names:
            self.step(name, "echo right\n")
        proofs = "echo >> proofs\necho right\n"
        self.step("rt", proofs)
        kept = dict.fromkeys(gate.ALL, "right")
        for words, changed, runs in CASES["kept_proofs"]:
            write(self.path(changed), "changed")
            with self.subTest(words=words, changed=changed):
                self.assertEqual(self.judged([word.replace("+", " ") for word in words.split()], kept)[0], 0)
                self.assertEqual(read(self.path("proofs")).count("\n"), runs)

    def test_steps(self) -> None:
        names = {"rt" if step == "rt ci" else step.split()[0] for step in gate.ALL}
        for changed, lines, status, said in CASES["runs"]:
            shutil.rmtree(self.path("cache"), ignore_errors=True)
            for name in names:
                ends = changed.get(name, f"{name} is right (in 2 seconds)" if name == "rt" else f"{name} is right")
                code, line = (ends, "x") if isinstance(ends, int) else (0, ends)
                self.step(name, f"echo 'one\n{line}'\nexit {code}\n")
            kept = {step: f"{'rt' if step == 'rt ci' else step.split()[0]} is right" for step in gate.ALL} | lines
            with self.subTest(changed=changed, lines=lines):
                found, printed = self.judged(["all"], kept)
                self.assertEqual((found, [text for text in said if text not in printed]), (status, []), printed)

    def test_from_nothing(self) -> None:
        """The steps that keep verdicts are told to read none, and no others."""
        for step in (gate.WRONG, gate.NAMED, gate.QUICK[0]):
            name, *words = step.split()
            self.step(name, 'echo said "$@"\n')
            for given in (["--from-nothing"], list[str]()):
                wanted = " ".join(["said", *words, *(given if step in gate.KEEPING else [])])
                with self.subTest(step=step, given=given):
                    self.assertEqual(self.judged([*given, step], {step: wanted})[0], 0)

    def test_wrong_bodies_beside_the_proofs(self) -> None:
        """They begin while these are on their way, with the file of what these say, and end where these fail."""
        steps = gate.PROOFS, gate.WRONG
        waits = "echo proofs\nwhile [ ! -e begun ]; do sleep 0.01; done\n"
        for status, more in ((0, ""), (3, "sleep 999\n")):
            self.step("rt", f"{waits}rm begun\nexit {status}\n")
            read_it = 'while [ ! -s "$3" ]; do sleep 0.01; done\ncat "$3"'
            self.step("wrong_bodies.py", f"{read_it}\necho $1 $2\ntouch begun\n{more}")
            with self.subTest(status):
                found = self.judged(steps, dict(zip(steps, ("proofs", "--built --beside"))))
                passed = 2 if status == 0 else 0
                self.assertEqual(found[0], status, found[1])
                self.assertIn(f"{passed} passed, {2 - passed - status // 3} failed\n", found[1])
                self.assertEqual(read(self.path("out/steps/wrong-bodies-py-built.txt")), "proofs\n--built --beside\n")

    def test_libraries_that_were_built_before(self) -> None:
        """`rt ci` would put them back in the place of its own."""
        write(self.path("crates/one/out/rlib/one.rlib/format"), "")
        self.step("rt", "[ ! -e crates/one/out/rlib ] && echo right\n")
        self.assertEqual(self.judged([gate.PROOFS], {gate.PROOFS: "right"})[0], 0)
        self.assertTrue(os.path.isdir(self.path("crates/one/out")))

    def test_steps_that_run_together(self) -> None:
        """As many as there are processors: the third begins once the second has ended, though the first waits for
        it. They are judged in their order."""
        for steps, processors in product((gate.QUICK[2:5], gate.BUILT[4:7]), (2, 1)):
            waits = "while [ ! -e third ]; do sleep 0.01; done" if processors == 2 else "[ ! -e second ]"
            for step, text in zip(steps, (waits, "touch second", "touch third")):
                self.step(step, f"{text}\necho {step}\n")
            with self.subTest(steps=steps, processors=processors):
                status, said = self.judged(steps, dict(zip(steps, steps)), processors)
                self.assertEqual((status, re.findall(r"^ok: (\S+),", said, re.M)), (0, [*steps]), said)
            for name in ("second", "third"):
                os.remove(self.path(name))

    def test_a_step_that_hangs(self) -> None:
        """It is ended, with what it started."""
        self.step("hangs.py", "sleep 99 &\necho $!\nsleep 99\n")
        write(self.path("out/steps/hangs-py.txt"), "")
        here = mock.patch.multiple(gate.sources, TOP=self.folder, PYTHON="/bin/sh")
        with here, mock.patch.object(gate, "LONGEST", 2.0):
            status, said, taken, _ = gate.run("hangs.py", gate.command_of("hangs.py", False))
        started, last = said.splitlines()
        self.assertEqual((status, last), (-9, "it took longer than 2 seconds, and was ended"))
        self.assertGreaterEqual(taken, 2)
        end = time.monotonic() + 30
        while is_alive(started) and time.monotonic() < end:
            time.sleep(0.01)
        self.assertFalse(is_alive(started))

    def test_a_signal_ends_the_step_too(self) -> None:
        self.step("lints.py", "echo $$\nsleep 9999\n")
        said = self.path("out/steps/lints-py.txt")
        with subprocess.Popen(self.command(["lints.py"], {}), stdout=subprocess.PIPE) as started:
            while not os.path.exists(said) or not read(said).endswith("\n"):
                time.sleep(0.01)
            started.terminate()
            self.assertEqual(started.wait(), 128 + signal.SIGTERM)
        self.assertFalse(is_alive(read(said).strip()))

    def test_start(self) -> None:
        for words, variables, changed, status, said in CASES["starts"]:
            for name, text in {**CASES["programs"], **changed}.items():
                write(self.path("bin", name), f"#!/bin/sh\n{text}\n", is_program=True)
            for name in (".ci/run", "scripts/packages.txt", "Makefile"):
                write(self.path(name), read(os.path.join(TOP, name)))
            write(self.path("docs/PROOF.md"), "The kit: `kit-1 logic 1`.\n")
            write(self.path("scripts/gate.py"), "import sys\nprint('gate', *sys.argv[1:])\n")
            given = {"CI": "", "PATH": f"{self.path('bin')}:/usr/bin:/bin", **variables}
            with self.subTest(words=words, variables=variables):
                found = run_command(["bash", self.path(".ci/run"), *words.split()], **given)
                self.assertEqual((found[0], said in found[1]), (status, True), found[1])
        for name, sign in (("a b", "space"), ("a&b", "&")):
            for file in (".ci/run", "scripts/packages.txt", "Makefile"):
                write(self.path(name, file), read(os.path.join(TOP, file)))
            found = run_command(["bash", self.path(name, ".ci/run")], **{**given, "MISSING": ""})
            said = f"make cannot handle the {sign} in the name of this folder: {self.path(name)}"
            self.assertEqual((found[0], said in found[1]), (1, True), found[1])


# A module that is imported, or several.
IMPORT = re.compile(r"^ *(?:from (\w+)[\w.]* import |import ([\w.]+(?: as \w+)?(?:, [\w.]+(?: as \w+)?)*)$)", re.M)


class Packages(unittest.TestCase):
    """The list of packages, and the steps of the gate."""

    def test_each_has_a_reason(self) -> None:
        lines = read(os.path.join(TOP, "scripts/packages.txt")).split("\n")
        lines = [line for line in lines if line and not line.startswith("#")]
        self.assertGreater(len(lines), 20)
        self.assertEqual([line for line in lines if len(line.split()) < 2], [])

    def test_each_module_is_of_a_package(self) -> None:
        """What the scripts, the tools and their tests import is Python's own, is theirs, or is of a listed package."""
        listed = read(os.path.join(TOP, "scripts/packages.txt"))
        os.chdir(TOP)
        paths = module("lints").files_by_kind()["python"]
        own = {re.sub(r"\.py$", "", part) for path in paths for part in path.split(os.sep)}
        found = [pair for path in paths for pair in IMPORT.findall(read(path))]
        names = {name for first, several in found for name in (first, *re.findall(r"(?:^|, )(\w+)", several)) if name}
        others = names - own - sys.stdlib_module_names
        self.assertIn("numpy", others)
        files = [spec.origin if (spec := importlib.util.find_spec(name)) else None for name in others]
        self.assertNotIn(None, files, others)
        rows = run_command(["dpkg", "-S", *map(str, files)])[1].splitlines()
        self.assertEqual(sorted(row.split(": ")[1] for row in rows), sorted(map(str, files)))
        for row in rows:
            with self.subTest(row):
                self.assertRegex(listed, rf"(?m)^{re.escape(row.partition(':')[0])} ")

    def test_each_script_is_a_step(self) -> None:
        """Each program of scripts/ is a step of the gate, or is run by `.ci/run` or a page, or is for contributors."""
        names = {"gate.py", *(step.split()[0] for step in gate.ALL if step != gate.PROOFS)}
        pages = [read(os.path.join(TOP, page)) for page in module("pages").RUN]
        names |= {name for page in pages for name in re.findall(r"(?m)^scripts/(\S+) ", page)}
        programs = {name for name in os.listdir(SCRIPTS) if os.access(os.path.join(SCRIPTS, name), os.X_OK)}
        programs = {name for name in programs if os.path.isfile(os.path.join(SCRIPTS, name))}
        names |= programs & set(re.findall(r"`scripts/(\w+\.py)", read(os.path.join(TOP, "CONTRIBUTING.md"))))
        self.assertEqual(programs, names)
