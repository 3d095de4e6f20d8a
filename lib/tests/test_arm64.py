"""liblabels for arm64, and for the oldest amd64: that it draws as on this processor. qemu-user runs it."""

import random
import tempfile
import unittest
from pathlib import Path

import random_lines
from support import LIB, PROGRAM, PROVED, PROVED_ARM64, WithLibrary, run, text_of

LINES = 1000
PREFIX = "aarch64-linux-gnu-"
# It runs programs for arm64 with the C library of the cross compiler.
QEMU = ("qemu-aarch64", "-L", "/usr/aarch64-linux-gnu")
# A processor of amd64 with none of the instructions that came with x86-64-v2 and -v3, nor with SSE3.
OLDEST = ("qemu-x86_64", "-cpu", "qemu64,-sse3,-ssse3,-sse4.1,-sse4.2,-popcnt,-cx16")
TOOLS = [
    f"{name}={PREFIX}{tool}" for name, tool in (("CC", "gcc"), ("LD", "ld"), ("AR", "ar"), ("OBJCOPY", "objcopy"))
]


class Arm64(WithLibrary):
    def setUp(self) -> None:
        self.assertTrue(PROVED_ARM64.is_file(), f"{PROVED_ARM64} is not built: scripts/plain_builds.py makes it")

    def program(self, compiler: str, proved: Path, source: Path = LIB) -> Path:
        """The test program for a processor, over labels.c of a folder."""
        out = Path(tempfile.mkdtemp(dir=self.library.folder)) / "same"
        flags = ("-std=c11", "-O2", "-Wall", "-Wextra", "-Werror", f"-I{LIB}", f"-I{LIB}/tests")
        done = run(compiler, *flags, LIB / "tests/same.c", source / "labels.c", proved, "-o", out)
        self.assertEqual(done.returncode, 0, text_of(done))
        return out

    def lines(self) -> bytes:
        rng = random.Random(64)
        return b"".join(random_lines.line(rng, number % 2 == 0) + b"\n" for number in range(LINES))

    def test_the_oldest_amd64(self) -> None:
        """The library and the program give the same bytes there; one with a newer instruction ends."""
        text, place = self.lines(), "    labels_answer own;\n"
        for program in (self.program("gcc", PROVED), PROGRAM):
            wanted, found = run(program, given=text), run(*OLDEST, program, given=text)
            self.assertIn(wanted.returncode, (0, 1))
            self.assertEqual(*((done.returncode, done.stdout, done.stderr) for done in (found, wanted)))
        for newer in ("andn %rax, %rbx, %rcx", "crc32b %al, %ecx", "pabsd %xmm1, %xmm0", "haddps %xmm1, %xmm0"):
            with self.subTest(newer):
                code = f'__asm__ volatile("{newer.replace("%", "%%")}" ::: "rcx", "xmm0", "cc");\n'
                source = self.library.changed(("labels.c", place, place + code))
                self.assertLess(run(*OLDEST, self.program("gcc", PROVED, source), given=text).returncode, 0)

    def test_lines(self) -> None:
        """Random lines give the same bytes on both processors, and another library gives others."""
        text = self.lines()
        wanted = self.run_ok(self.program("gcc", PROVED), given=text)
        self.assertEqual(wanted.count(b"\n"), LINES)
        arm64 = f"{PREFIX}gcc"
        self.assertEqual(self.run_ok(*QEMU, self.program(arm64, PROVED_ARM64), given=text), wanted)
        place = "(uint32_t)symbology, data"
        wrong = self.library.changed(("labels.c", place, place.replace("symbology", "symbology ^ 1")))
        self.assertNotEqual(self.run_ok(*QEMU, self.program(arm64, PROVED_ARM64, wrong), given=text), wanted)

    def test_library(self) -> None:
        """The shared library is for arm64, has the names that it should have, and draws where it is linked."""
        out = Path(tempfile.mkdtemp(dir=self.library.folder))
        done = run("make", "-s", "-C", LIB, f"PROVED={PROVED_ARM64}", f"OUT={out}", *TOOLS, "all")
        self.assertEqual(done.returncode, 0, text_of(done))
        self.run_ok(LIB / "check.sh", out)
        shared = out / "liblabels.so.1.2.0"
        self.assertIn(b"AArch64", self.run_ok("readelf", "-h", shared))
        (out / "liblabels.so.1").symlink_to(shared)
        for flags in ([shared], [out / "liblabels.a"]):
            program = out / "draw"
            self.run_ok(f"{PREFIX}gcc", f"-I{LIB}", LIB / "examples/draw.c", *flags, "-o", program)
            drawn = self.run_ok(*QEMU, "-E", f"LD_LIBRARY_PATH={out}", program)
            self.assertEqual(drawn[:10], b"P1\n113 50\n")


if __name__ == "__main__":
    unittest.main()
