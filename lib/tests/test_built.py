"""The built library: its files, its names, and what it may not have. Each check is shown a library that is wrong."""

import re
import shutil
import tempfile
import unittest
from pathlib import Path

from support import LIB, LIBDIR, PROGRAM, PYTHON, PYTHONDIR, WithLibrary, run, text_of

METADATA = f"{PYTHONDIR}/liblabels-1.2.0.dist-info/METADATA"
WHEEL = "usr/share/python-wheels/liblabels-1.2.0-py3-none-any.whl"
FILES = {
    "usr/include/labels.ffi.h",
    "usr/include/labels.h",
    f"{LIBDIR}/liblabels.a",
    f"{LIBDIR}/liblabels.so",
    f"{LIBDIR}/liblabels.so.1",
    f"{LIBDIR}/liblabels.so.1.2.0",
    f"{LIBDIR}/pkgconfig/labels.pc",
    f"{PYTHONDIR}/liblabels/__init__.py",
    f"{PYTHONDIR}/liblabels/__main__.py",
    f"{PYTHONDIR}/liblabels/_binding.py",
    f"{PYTHONDIR}/liblabels/_glyphs.py",
    f"{PYTHONDIR}/liblabels/_layout.py",
    f"{PYTHONDIR}/liblabels/_pictures.py",
    f"{PYTHONDIR}/liblabels/_reading.py",
    f"{PYTHONDIR}/liblabels/py.typed",
    METADATA,
    WHEEL,
    "usr/share/man/man3/labels.3",
}
LAST = "const char *labels_version(void) { return LABELS_VERSION; }"
MORE = ("labels.c", LAST, LAST + "\nLABELS_API int labels_more(void);\nint labels_more(void) { return 0; }")
# What is said of a library with some changes.
WRONG = (
    (
        "exports other names",
        (MORE, ("labels.map", "        labels_line;", "        labels_line;\n        labels_more;")),
    ),
    (
        "liblabels.a has other names",
        (MORE, ("Makefile", "$(OBJCOPY) --keep", "$(OBJCOPY) --keep-global-symbol=labels_more --keep")),
    ),
    *(
        (
            "needs other names",
            (("labels.c", LAST, f"#include <{header}>\n" + LAST.replace("return", f'return {call} ? "" :')),),
        )
        for header, call in (("stdlib.h", 'getenv("X")'), ("errno.h", "errno"))
    ),
    (
        "a relocation in the code",
        (
            ("labels.c", LAST, LAST + '\n__asm__(".text\\n.quad labels_version\\n");'),
            ("Makefile", "-z,defs", "-z,defs,-z,notext"),
        ),
    ),
    ("a stack that can be executed", (("Makefile", "noexecstack", "execstack"),)),
    ("not of every amd64 processor", (("labels.c", LAST, LAST + '\n__asm__(".text\\npopcnt %rax, %rax\\n");'),)),
)
# Instructions that came with SSE3 and later, and with x86-64-v2 and -v3, one of each kind.
NEWER = (
    "andn %rax,%rbx,%rcx",
    "crc32b %al,%ecx",
    "fisttpll -8(%rsp)",
    "haddps %xmm1,%xmm0",
    "lzcnt %rax,%rcx",
    "movbe 8(%rsp),%rcx",
    "pabsd %xmm1,%xmm0",
    "pminud %xmm1,%xmm0",
    "popcnt %rax,%rcx",
    "roundsd $1,%xmm1,%xmm0",
    "vxorps %ymm1,%ymm1,%ymm0",
)


class Built(WithLibrary):
    def check(self, folder: Path, program: Path = PROGRAM) -> "tuple[int, str]":
        done = run(LIB / "check.sh", folder, PROGRAM, program)
        return done.returncode, text_of(done)

    def test_files(self) -> None:
        root = self.library.root
        found = {str(path.relative_to(root)) for path in root.rglob("*") if not path.is_dir()}
        self.assertEqual(found, FILES)
        self.assertEqual((root / LIBDIR / "liblabels.so").resolve(), (root / LIBDIR / "liblabels.so.1.2.0").resolve())

    def test_other_archives_are_refused(self) -> None:
        """PROVED is the library of the proved calls: no installed one, none for another processor, no other file."""
        folder = Path(tempfile.mkdtemp(dir=self.library.folder))
        self.run_ok("aarch64-linux-gnu-gcc", f"-I{LIB}", "-c", LIB / "labels.c", "-o", folder / "labels.o")
        self.run_ok("ar", "rcs", folder / "arm64.a", folder / "labels.o")
        for proved, said in (
            (self.library.libdir / "liblabels.a", "lacks the call labels_proved_bitmap, as an installed liblabels.a"),
            (folder / "arm64.a", "is for another processor"),
            (LIB / "labels.h", "is not an archive"),
        ):
            with self.subTest(said):
                made = run("make", "-s", "-C", LIB, f"PROVED={proved}", f"OUT={folder / 'out'}", "all")
                self.assertEqual(made.returncode, 2)
                first, *_ = made.stderr.decode().splitlines()
                self.assertEqual(first.partition(said)[0], f"PROVED={proved} ")
                self.assertIn("liblabels_c.a that `rt lib` makes in crates/labels_c", first)

    def test_one_version(self) -> None:
        code = "import liblabels as it; print(it.version(), it.__version__, version('liblabels'))"
        code = f"from importlib.metadata import version; {code}"
        version, *others = self.run_ok(PYTHON, "-c", code).decode().split()
        self.assertEqual(others, [version, version])
        header = (LIB / "labels.h").read_text(encoding="utf-8")
        self.assertIn(f'#define LABELS_VERSION "{version}"', header)
        self.assertEqual(self.run_ok("pkg-config", "--modversion", "labels").decode().strip(), version)
        dynamic = self.run_ok("readelf", "-d", self.library.shared).decode()
        self.assertEqual(re.findall(r"SONAME.*\[(.*)\]", dynamic), [f"liblabels.so.{version.partition('.')[0]}"])

    def test_names_and_instructions(self) -> None:
        self.assertEqual(self.check(self.library.built), (0, ""))

    def test_wrong_libraries_are_refused(self) -> None:
        for said, changes in WRONG:
            with self.subTest(changes):
                out = Path(tempfile.mkdtemp(dir=self.library.folder))
                made = self.library.make(self.library.changed(*changes), out, "all")
                self.assertEqual(made.returncode, 0, text_of(made))
                status, text = self.check(out)
                self.assertEqual((status, said in text), (1, True), text)

    def test_programs_for_newer_processors_are_refused(self) -> None:
        """Also where no test runs the instruction."""
        folder = Path(tempfile.mkdtemp(dir=self.library.folder))
        for newer in NEWER:
            with self.subTest(newer):
                source, program = folder / "newer.s", folder / "newer"
                source.write_text(f".globl main\nmain: ret\n{newer}\n", encoding="ascii")
                self.run_ok("gcc", source, "-o", program)
                status, text = self.check(self.library.built, program)
                said = f"not of every amd64 processor: .*{newer.split()[0][:5]}"
                self.assertEqual((status, bool(re.search(said, text))), (1, True), text)

    def test_the_test_of_the_packages(self) -> None:
        """debian/tests/library passes, and fails where one of the three ways to the library draws otherwise, or has no
        version, and where the package depends on an older C library than it needs."""
        self.assertEqual(self.packages_tested({}), 0)
        self.assertNotEqual(self.packages_tested({}, libc="2.2.5"), 0)
        lower = "{LABELS_PBM, 1, 40, LABELS_LEVEL_M, 1, LABELS_MASK_AUTO, 0, {0}};"
        source = self.library.changed(("labels.c", "defaults = LABELS_DEFAULTS;", f"defaults = {lower}"))
        wrong = Path(tempfile.mkdtemp(dir=self.library.folder))
        self.assertEqual(self.library.make(source, wrong, "all").returncode, 0)
        module = self.wrong_module("    return picture\n", "    return picture + picture\n")
        shared = self.library.shared.resolve().name
        for name, found in (
            (f"{LIBDIR}/liblabels.a", wrong / "liblabels.a"),
            (f"{LIBDIR}/{shared}", wrong / shared),
            (f"{PYTHONDIR}/liblabels/__init__.py", module / "liblabels/__init__.py"),
            (METADATA, module / "METADATA"),
        ):
            with self.subTest(name):
                self.assertNotEqual(self.packages_tested({name: found}), 0)

    def packages_tested(self, changed: dict[str, Path], libc: str = "2.14") -> int:
        """The status of debian/tests/library over a copy of what is installed, with other files in it; `libc` is the
        version of the C library that the package depends on."""
        folder = Path(tempfile.mkdtemp(dir=self.library.folder))
        said = folder / "bin/dpkg-query"
        said.parent.mkdir()
        said.write_text(f"#!/bin/sh\necho 'libc6 (>= {libc})'\n", encoding="ascii")
        said.chmod(0o755)
        root = folder / "root"
        shutil.copytree(self.library.root, root, symlinks=True)
        for name, file in changed.items():
            shutil.copy(file, root / name)
        places = {
            name: value.replace(str(self.library.root), str(root)) for name, value in self.library.environment.items()
        }
        test = LIB.parent / "debian/tests/library"
        places["PATH"] = f"{said.parent}:{places['PATH']}"
        return run("bash", test, environment={**places, "AUTOPKGTEST_TMP": str(folder)}).returncode

    def test_each_file_is_looked_for(self) -> None:
        folder = Path(tempfile.mkdtemp(dir=self.library.folder))
        for gone in ("liblabels.a", "liblabels.so.1.2.0"):
            shutil.copytree(self.library.built, folder / gone, symlinks=True)
            (folder / gone / gone).unlink()
            status, text = self.check(folder / gone)
            self.assertEqual((status, "there is no " in text), (1, True), text)
        status, text = self.check(self.library.built, folder / "none")
        self.assertEqual((status, f"there is no {folder / 'none'}" in text), (1, True), text)


if __name__ == "__main__":
    unittest.main()
