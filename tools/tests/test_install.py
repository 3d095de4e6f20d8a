"""What `make install` makes runs, and goes again; the version, and the notices of the kit."""

import os
import re
import shutil
import subprocess
import tempfile
import unittest
from datetime import datetime, timedelta
from pathlib import Path
from typing import Any

import support
from making import command_of, make

TOOLS = sorted(path.name for path in support.TOOLS.glob("label-*"))
DEFINITIONS = ("crates/command/src/entry.rt", ":(glob)crates/*/specs/*.antt")
NOT_INSTALLED = {"make.py", "labels.bash", "__pycache__"}  # that of bash is named as the command


def text(name: str) -> str:
    return (support.TOP / name).read_text(encoding="utf-8")


class InFolder(unittest.TestCase):
    def setUp(self) -> None:
        self.folder = Path(self.enterContext(tempfile.TemporaryDirectory()))


class Install(unittest.TestCase):
    folder: Path

    @classmethod
    def setUpClass(cls) -> None:
        """Installs twice, as one who keeps new files for himself; the second time replaces."""
        cls.folder = Path(cls.enterClassContext(tempfile.TemporaryDirectory()))
        cls.addClassCleanup(os.umask, os.umask(0o077))
        for _ in range(2):
            make("install", f"PREFIX={cls.folder}")

    def test_what_is_installed_runs(self) -> None:
        self.assertEqual(sorted(os.listdir(self.folder / "bin")), [*TOOLS, "labels"])
        path = f"{self.folder}/bin:{os.environ['PATH']}"
        environment = {**os.environ, "PATH": path, "PYTHONSAFEPATH": "1"}
        command = "printf 'EAN\\n4006381333931\\n' | label-table --code EAN | labels --height 1"
        how: dict[str, Any] = {"cwd": self.folder, "env": environment, "capture_output": True}
        drawn = subprocess.run(["sh", "-c", command], **how)
        self.assertEqual((drawn.returncode, drawn.stderr, drawn.stdout[:8]), (0, b"", b"P1\n113 1"))
        for tool in TOOLS:
            helped = subprocess.run([str(self.folder / "bin" / tool), "--help"], **how)
            self.assertEqual((helped.returncode, helped.stderr), (0, b""), tool)

    def test_each_file_is_installed(self) -> None:
        """Of the tools with their translations, and of the pages with what they show."""
        for place, folders in (
            ("share/label-tools", ["tools/label-*", "tools/labeltools"]),
            ("share/doc/labels", ["README.md", "docs", "designs", "examples", *DEFINITIONS]),
        ):
            names = command_of("git", "ls-files", *folders).split()
            wanted = {name.removeprefix("tools/") for name in names}
            if "tools/labeltools" in folders:
                languages = [path.stem for path in (support.TOP / "tools/po").glob("*.po")]
                locale = "labeltools/locale/{}/LC_MESSAGES/label-tools.mo"
                wanted |= {locale.format(language) for language in languages}
                shown = command_of("git", "ls-files", "designs/*.svg", "docs/pictures/design-*")
                wanted |= {f"designs/{Path(name).name}" for name in shown.split()}
            else:
                wanted |= {"lib/examples/read.py", "tools/tests/printers.py"}
            top = self.folder / place
            files = {path.relative_to(top) for path in top.rglob("*") if path.is_file()}
            compiled = {path for path in files if path.parent.name == "__pycache__"}
            self.assertEqual({str(path) for path in files - compiled}, wanted)
            modules = {path for path in files if path.suffix == ".py" and place.endswith("tools")}
            sources = {path.parent.parent / path.name.partition(".")[0] for path in compiled}
            self.assertEqual(sources, {path.with_suffix("") for path in modules})

    def test_the_desktop_has_what_it_needs(self) -> None:
        """What is beside the code, the help in each language, and the completion of each shell."""
        names = {path.name for path in (self.folder / "share").rglob("*")}
        wanted = {path.name for path in (support.TOP / "tools/data").iterdir()}
        wanted |= {path.name for path in (support.TOP / "completions").iterdir()} - NOT_INSTALLED
        self.assertEqual(wanted - names, set())
        languages = {"C", *(path.stem for path in (support.TOP / "tools/po").glob("*.po"))}
        helped = (self.folder / "share/help").glob("*/label-window/index.html")
        self.assertEqual({path.parent.parent.name for path in helped}, languages)

    def test_all_users_can_read_what_is_installed(self) -> None:
        installed = [*self.folder.rglob("*")]
        self.assertGreater(len(installed), 100)
        self.assertEqual([path for path in installed if path.stat().st_mode & 0o044 != 0o044], [])

    def test_completions_are_of_commands_that_they_complete(self) -> None:
        share = self.folder / "share"
        completion = share / "bash-completion/completions"
        named = re.findall(
            r"(?m)^complete .* -F _labels (.*)$", (completion / "labels").read_text()
        )
        self.assertEqual(sorted(os.listdir(completion)), sorted(" ".join(named).split()))
        fish = [path.stem for path in (share / "fish/vendor_completions.d").iterdir()]
        self.assertEqual(sorted(fish), sorted(os.listdir(completion)))

    def test_manuals_name_pages_that_are_there(self) -> None:
        share = self.folder / "share"
        for name, section in (*((name, 1) for name in ("labels", *TOOLS)), ("label-table", 5)):
            page = (share / f"man/man{section}/{name}.{section}").read_text(encoding="utf-8")
            self.assertIn(f".TH {name.upper()} {section} ", page)
            plain = page.replace("\\-", "-")
            for named in re.findall(r"^\.IR? (/\S*/share/\S+)", plain, re.M):
                is_there = Path(named).exists() and named.startswith(str(share))
                self.assertTrue(is_there, f"{name}: {named}")

    def test_pages_link_what_is_there(self) -> None:
        pages = [*(self.folder / "share/doc/labels").rglob("*.md")]
        links = [
            page.parent / link
            for page in pages
            for link in re.findall(r"\]\(([^()#:]+)", page.read_text(encoding="utf-8"))
        ]
        self.assertEqual([link for link in links if not link.exists()], [])
        self.assertGreater(len(links), 50)


class Folders(InFolder):
    def test_a_folder_that_make_cannot_handle_is_refused_at_once(self) -> None:
        """By the sign that is in its name: one that make cuts names at, or that the shell takes."""
        for sign in (" ", *"\"#%&'()*;<=>?[\\]^`{|}!"):
            for name in ("PREFIX", "DESTDIR"):
                place = f"{self.folder}/a{sign}b".replace("#", "\\#")
                done = subprocess.run(
                    ["make", "-s", "-C", support.TOP, "install", f"{name}={place}"],
                    capture_output=True,
                    text=True,
                )
                self.assertEqual((done.returncode, done.stdout), (2, ""), sign)
                said = f"make cannot handle the {sign if sign != ' ' else 'space'} in {name}: "
                self.assertIn(said, done.stderr)
        self.assertEqual([*self.folder.iterdir()], [])

    def test_what_was_installed_goes(self) -> None:
        mine = self.folder / "share/man/man1/mine.1"
        mine.parent.mkdir(parents=True)
        mine.write_text("mine")
        make("install", f"PREFIX={self.folder}")
        make("uninstall", f"PREFIX={self.folder}")
        left = [path for path in self.folder.rglob("*") if "label" in path.name or path.is_file()]
        self.assertEqual(left, [mine])


class Versions(InFolder):
    def test_one_version(self) -> None:
        """Programs, manuals, header and crates name the same; no section of the changelog is above it."""
        version = command_of(str(support.labels_program()), "--help").split("\n")[0]
        version = version.removeprefix("labels ")
        newest = re.findall(r"^## (\d\S+) \(", text("CHANGELOG.md"), re.M)[0]
        command_of("dpkg", "--compare-versions", newest, "le", version)
        for page in ("man/labels.1", "man/labels.3"):
            self.assertIn(f'"labels {version}"', text(page).split("\n")[0])
        self.assertIn(f'#define LABELS_VERSION "{version}"', text("lib/labels.h"))
        for tool in ("label-table", "label-print"):
            said = support.run(tool, "--version").stdout
            self.assertEqual(said.decode(), f"{tool} {version}\n")
        for path in (support.TOP / "crates").glob("*/src/*.rt"):
            found = re.findall(r"\blabels (\d+\.\d+\.\d+)", path.read_text(encoding="utf-8"))
            self.assertEqual({*found} - {version}, set(), path)

    def version_of_head(self) -> str:
        """The version of the package of the last commit."""
        first = command_of("debian/changelog.py", cwd=self.folder).split("\n")[0]
        match = re.fullmatch(r"labels \((\S+)\) unstable; urgency=medium", first)
        assert match, first
        return match[1]

    @support.slow
    def test_versions_rise(self) -> None:
        """A commit has a version above that of the one before, and of all of the days before, as
        they were given away, and of the last release; a tag has the plain version, which is above
        those of its commits.
        """
        for name in ("debian/changelog.py", "CHANGELOG.md", "lib/labels.h"):
            (self.folder / name).parent.mkdir(exist_ok=True)
            shutil.copy(support.TOP / name, self.folder / name)
        command_of("git", "init", "-q", cwd=self.folder)
        author = ("-c", "user.name=A", "-c", "user.email=a@example.com")
        released = re.findall(r"^## (\d\S+) \(", text("CHANGELOG.md"), re.M)[0]
        versions: list[str] = []
        for day in (*["2026-11-28"] * 11, "2026-11-30", "2026-12-01", "2027-01-01"):
            date = f"{day}T01:00:00+0300"  # in Coordinated Universal Time it is the day before
            words = ("--allow-empty", "-m", f"Commit of {day}", "--date", date)
            dated = ("env", f"GIT_COMMITTER_DATE={date}", "git", *author, "commit", "-q", *words)
            command_of(*dated, cwd=self.folder)
            versions.append(self.version_of_head())
            before = datetime.fromisoformat(day) - timedelta(days=2)
            for sign in (f"{released}+", f"{versions[0].partition('~')[0]}~"):
                older = f"{sign}git{before:%Y%m%d}.9999.ffffffff"
                command_of("dpkg", "--compare-versions", older, "lt", versions[-1])
        newest = versions[0].partition("~")[0]
        changes = self.folder / "CHANGELOG.md"
        heading = f"## {newest} (2026-12-01)"
        changes.write_text(text("CHANGELOG.md").replace("## Unreleased", heading))
        command_of("git", "tag", f"v{newest}", cwd=self.folder)
        self.assertEqual(self.version_of_head(), newest)
        rising = [released, *versions, newest]
        for older, newer in zip(rising, rising[1:]):
            command_of("dpkg", "--compare-versions", older, "lt", newer)


class Notices(unittest.TestCase):
    def test_the_notices_are_those_of_the_kit(self) -> None:
        """Each crate of the kit in the program, and what it takes, is in debian/copyright."""
        rt = shutil.which("rt")
        if not rt:
            support.skip("not installed: rt")
        kit = Path(rt).resolve().parent.parent / "rattle"
        lines = re.findall(r"^(\w+)[^:\n]*:(.*)$", text("crates.txt"), re.M)
        own = {name for name, _ in lines}
        crates: set[str] = {word for _, words in lines for word in words.split()} - own
        for crate in [*crates]:
            code = [path.read_text(encoding="utf-8") for path in (kit / crate).rglob("src/**/*.rt")]
            taken = {name for source in code for name in re.findall(r"\b(\w+)::", source)}
            crates |= {name for name in taken if [*(kit / name).glob("LICENSE*")]}
        self.assertEqual(crates, {"arrayvec", "clap", "itoa", "strsim", "thiserror"})
        notices = " ".join(text("debian/copyright").replace("\n .\n", "\n").split())
        for crate in sorted(crates):
            names = [name for name in ("LICENSE-MIT", "LICENSE") if (kit / crate / name).exists()]
            notice = (kit / crate / names[0]).read_text(encoding="utf-8")
            holders, _, terms = notice.partition("Permission is")
            wanted = [
                line.strip() for line in holders.replace("The MIT License (MIT)", "").split("\n")
            ]
            wanted.append(" ".join(f"Permission is{terms}".split()))
            missing = [line for line in wanted if line not in notices]
            self.assertEqual(missing, [], crate)


if __name__ == "__main__":
    unittest.main()
