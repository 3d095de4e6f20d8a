"""What `make deb` and `make release` make: packages and source, the same each time; `make deb-test`
installs them.
"""

import hashlib
import os
import re
import shutil
import subprocess
import tempfile
import unittest
from pathlib import Path

import support
from making import command_of, make, PROVED_ARM64

MOST_OF_LABELS = 250_000  # bytes of the program's package
# Each package, and the processors that it is for.
PACKAGES = {
    ("labels", "amd64"),
    ("label-tools", "all"),
    ("liblabels1", "amd64"),
    ("liblabels1", "arm64"),
    ("liblabels-dev", "amd64"),
    ("liblabels-dev", "arm64"),
    ("python3-liblabels", "all"),
}
OF_THE_WINDOW = ("share/applications/", "share/metainfo/", "share/icons/", "bin/label-window")


def sums_of(folder: Path) -> dict[str, str]:
    """The checksum of each file of a folder."""
    return {path.name: hashlib.sha256(path.read_bytes()).hexdigest() for path in folder.iterdir()}


class Release(unittest.TestCase):
    folder: Path
    release: Path
    other: Path

    @classmethod
    def setUpClass(cls) -> None:
        """Makes two releases of new clones, the second one by a user who hides his files."""
        support.needs("dpkg-buildpackage", "dh", "lintian")
        support.needs("aarch64-linux-gnu-gcc")
        if not PROVED_ARM64.exists():
            support.skip(f"{PROVED_ARM64} is not built: run scripts/plain_builds.py")
        folder = tempfile.TemporaryDirectory()
        cls.addClassCleanup(folder.cleanup)
        cls.folder = Path(folder.name)
        os.chmod(cls.folder, 0o755)  # apt reads as a user of its own
        cls.release, cls.other = (cls.made(name, mask) for name, mask in (("a", 0o22), ("b", 0o77)))

    @classmethod
    def made(cls, name: str, mask: int) -> Path:
        clone = cls.folder / name
        command_of("git", "clone", "-q", str(support.TOP), str(clone))
        before = os.umask(mask)
        try:
            make("release", top=clone)
        finally:
            os.umask(before)
        return clone / "out/release"

    def test_two_releases_are_equal(self) -> None:
        self.assertEqual(sums_of(self.release), sums_of(self.other))

    def test_all_packages_are_there_and_lintian_finds_nothing(self) -> None:
        names = [path.stem.split("_") for path in self.release.glob("*.deb")]
        self.assertLessEqual(PACKAGES, {(name, processor) for name, _, processor in names})
        changes = [str(path) for path in (self.folder / "a/out/deb").glob("*.changes")]
        self.assertEqual(len(changes), 2)
        self.assertEqual(command_of("lintian", "--allow-root", "-EIL", "+pedantic", *changes), "")

    def test_sums_are_of_all_files(self) -> None:
        lines = (self.release / "SHA256SUMS").read_text(encoding="utf-8").split("\n")
        said = {line.split("  ./")[1]: line.split("  ./")[0] for line in lines[:-1]}
        self.assertEqual({**said, "SHA256SUMS": ""}, {**sums_of(self.release), "SHA256SUMS": ""})

    def packages(self) -> dict[str, set[str]]:
        """The files of each package for this processor."""
        found = {}
        for path in self.release.glob("*.deb"):
            if not path.name.endswith("_arm64.deb"):
                listed = command_of("dpkg-deb", "--contents", str(path)).splitlines()
                found[path.name.partition("_")[0]] = {
                    line.split()[5].removeprefix("./usr/") for line in listed if line[0] != "d"
                }
        return found

    def test_what_is_in_which_package(self) -> None:
        """No file is in two, only the window needs a desktop, and pages are apart, as they are."""
        packages = self.packages()
        files = [file for names in packages.values() for file in names]
        self.assertEqual(len(files), len({*files}))
        with_window = {
            name
            for name, names in packages.items()
            for file in names
            if file.startswith(OF_THE_WINDOW)
        }
        self.assertEqual(with_window, {"label-window"})
        with_pages = {name for name, names in packages.items() for file in names if ".md" in file}
        self.assertEqual(with_pages, {"labels-doc"})
        wheels = [file for file in packages["python3-liblabels"] if file.endswith(".whl")]
        self.assertEqual([Path(file).parts[:2] for file in wheels], [("share", "python-wheels")])
        packed = {Path(file).name for file in files if not file.startswith("share/man/")}
        self.assertEqual({name for name in packed if name.endswith(".gz")}, {"changelog.gz"})
        (program,) = self.release.glob("labels_*_amd64.deb")
        self.assertLess(program.stat().st_size, MOST_OF_LABELS)

    def test_the_source_is_what_is_committed(self) -> None:
        (dsc,) = self.release.glob("*.dsc")
        self.assertEqual(command_of("lintian", "--allow-root", "-EIL", "+pedantic", str(dsc)), "")
        source, clone = self.folder / "source", self.folder / "a"
        command_of("dpkg-source", "--no-check", "--extract", str(dsc), str(source))
        files = {str(path.relative_to(source)) for path in source.rglob("*") if path.is_file()}
        listing = command_of("git", "-c", "core.quotePath=false", "ls-files", cwd=clone)
        committed = {*listing.splitlines()} - {".gitignore"}
        self.assertEqual(files, {*committed, "debian/changelog"})
        for name in sorted(committed):
            self.assertEqual((source / name).read_bytes(), (clone / name).read_bytes(), name)


# A word at the place of a command: first in a line of a recipe, or behind what ends a command.
COMMAND = re.compile(r"(?:^\t[@-]?|[;&|{][ \t]+|\b(?:do|then) )([a-z][\w-]*)(?= )", re.M)


class Rules(unittest.TestCase):
    """What debian/ says of a build, beside what is built."""

    def test_each_program_of_a_build_is_asked_for(self) -> None:
        """Each that a recipe calls is of Debian's base, of build-essential, or of a package that
        debian/control names.
        """
        recipes = [read(name) for name in ("Makefile", "lib/Makefile")]
        recipes[0] = recipes[0].split("\ninstall: all")[1].split("\ndebian/changelog:")[0]
        calls = {*COMMAND.findall("\n".join(recipes).replace("\\\n", " "))}
        paths = {str(Path(path).resolve()) for call in calls if (path := shutil.which(call))}
        self.assertIn("/usr/bin/msgfmt", paths)
        found = subprocess.run(["dpkg", "-S", *paths], capture_output=True, text=True).stdout
        owners = {line.partition(":")[0] for line in found.splitlines()}
        base = command_of("dpkg-query", "-W", "-f", "${Essential} ${Package}\n")
        given = {*re.findall(r"(?m)^yes (.*)$", base)}
        named = re.findall(r"(?m)^Build-Depends: (.*)$", read("debian/control"))[0]
        given |= {*re.findall(r"[\w.+-]+", named), "binutils", "gcc", "make"}  # of build-essential
        self.assertEqual(
            {owner for owner in owners if owner.partition("-x86")[0] not in given}, set()
        )

    def test_a_release_for_amd64_needs_nothing_of_arm64(self) -> None:
        """Without the kit and without a library for arm64; a message says so."""
        given = [f"{name}={support.TOP / 'Makefile'}" for name in ("LABELS", "PROVED")]
        given.append("PROVED_ARM64=out/arm64/liblabels_c.a")
        planned = self.planned(*given, "ARCHITECTURES=amd64")
        self.assertEqual(planned.returncode, 0, planned.stderr)
        self.assertIn("dpkg-buildpackage -b", planned.stdout)
        self.assertNotRegex(planned.stdout, "arm64|aarch64")
        self.assertIn("rt lib --target aarch64", self.planned(*given).stdout)
        self.assertIn("ARCHITECTURES=amd64", self.planned(*given).stdout)
        for wrong in ("arm64", "amd64 riscv64"):
            refused = self.planned(*given, f"ARCHITECTURES={wrong}")
            self.assertEqual((refused.returncode, "ARCHITECTURES" in refused.stderr), (2, True))

    def planned(self, *words: str) -> subprocess.CompletedProcess[str]:
        """What make would do for a release of a tree in which nothing is built."""
        command = ["make", "--dry-run", "--always-make", "release", *words]
        return subprocess.run(command, cwd=support.TOP, capture_output=True, text=True)

    def test_a_package_is_made_of_what_was_checked(self) -> None:
        """Without a library its check fails, and so does the build."""
        support.needs("dpkg-buildpackage")
        folder = self.enterContext(tempfile.TemporaryDirectory())
        for name in ("debian/rules", "lib/check.sh", "lib/exports.txt"):
            Path(folder, name).parent.mkdir(exist_ok=True)
            shutil.copy(support.TOP / name, Path(folder, name))
        command = ["dpkg-architecture", "-c", "debian/rules override_dh_auto_test"]
        done = subprocess.run(command, cwd=folder, capture_output=True, text=True)
        self.assertNotEqual(done.returncode, 0)
        self.assertIn("lib/check.sh: there is no out/lib/", done.stderr)

    def test_each_call_has_the_version_that_brought_it(self) -> None:
        """As the library's own map has it."""
        rows = re.findall(r"(?m)^ (\S+)@LABELS_(\S+) (\S+)$", read("debian/liblabels1.symbols"))
        parts = re.findall(r"LABELS_(\S+) \{\s+global:([^}]*?)(?:local|\})", read("lib/labels.map"))
        wanted = {(name, of) for of, names in parts for name in re.findall(r"\w+", names)}
        wanted |= {(f"LABELS_{of}", of) for of, _ in parts}
        self.assertEqual({(name, of) for name, of, _ in rows}, wanted)
        self.assertEqual([row for row in rows if row[2].rstrip("~") != f"{row[1]}.0"], [])


def read(name: str) -> str:
    return (support.TOP / name).read_text(encoding="utf-8")


if __name__ == "__main__":
    unittest.main()
