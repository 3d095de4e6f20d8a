"""How a tool ends, where a stream fails or is closed: tried by a small one."""

import os
import subprocess
import sys
import tempfile
import unittest

import support


class Ending(unittest.TestCase):
    """How main_of ends a tool, tried by a small one."""

    SCRIPT = """
import sys
sys.path.insert(0, {tools!r})
from labeltools.common.arguments import Parser
from labeltools.common.process import main_of, standard_output
from labeltools.common.messages import ToolError
def function():
    about = "A tool for this test."
    arguments = Parser("small-tool", "small-tool [OPTIONS]", about).parse_args()
    {body}
main_of("small-tool", function)
"""

    def small_tool(
        self, body: str, *arguments: str, shell: str = '"$@"', data: bytes = b""
    ) -> tuple[int, bytes, str]:
        script = self.SCRIPT.format(tools=str(support.TOOLS), body=body)
        words = ["-c", shell, "sh", sys.executable, "-c", script, *arguments]
        done = support.run("/bin/bash", *words, input=data, locale="C")
        return done.returncode, done.stdout, done.stderr.decode()

    @support.slow
    def test_how_it_ends(self) -> None:
        missing = "small-tool: nothing.txt: No such file or directory; is its name right?\n"
        for body, ended in (
            ("print('fine')", (0, b"fine\n", "")),
            ("return 1", (1, b"", "")),
            ("raise ToolError('wrong')", (1, b"", "small-tool: wrong\n")),
            ("raise ToolError('wrong', status=2)", (2, b"", "small-tool: wrong\n")),
            ("open('nothing.txt')", (1, b"", missing)),
        ):
            self.assertEqual(self.small_tool(body), ended, body)

    def test_arguments(self) -> None:
        status, out, message = self.small_tool("pass", "--help")
        self.assertEqual((status, message), (0, ""))
        self.assertIn(b"A tool for this test.", out)
        for argument in ("--wrong", "--hel"):
            wrong = f"small-tool: error: unrecognized arguments: {argument}; try small-tool --help"
            self.assertEqual(self.small_tool("pass", argument), (2, b"", f"{wrong}\n"))

    def test_its_streams_wait(self) -> None:
        """Who gives them may have made them such as do not."""
        body = "import os; print(*map(os.get_blocking, range(3)))"
        script = self.SCRIPT.format(tools=str(support.TOOLS), body=body)
        source, sink = os.pipe()
        for end in (source, sink):
            os.set_blocking(end, False)
        with open(source, "rb") as taken, open(sink, "wb") as given:
            words = [sys.executable, "-c", script]
            subprocess.run(words, stdin=taken, stdout=given, stderr=given, check=True)
            given.close()
            self.assertEqual(taken.read(), b"True True True\n")

    @support.slow
    def test_a_full_disk(self) -> None:
        full = (1, b"", "small-tool: standard output: No space left on device\n")
        for unbuffered in ("", "export PYTHONUNBUFFERED=1; "):
            for body in ("print('x')", "print('x' * 100000)", "standard_output().write(b'x')"):
                ended = self.small_tool(body, shell=unbuffered + '"$@" > /dev/full')
                self.assertEqual(ended, full, (unbuffered, body))

    def test_messages_that_nobody_takes(self) -> None:
        body = "print('fine', flush=True); raise ToolError('wrong')"
        for redirection, out in (
            ("2>&-", b"fine\n"),
            ("2> /dev/full", b"fine\n"),
            ("> /dev/full 2>&1", b""),
            ("2>&- >&-", b""),
        ):
            ended = self.small_tool(body, shell=f'"$@" {redirection}')
            self.assertEqual(ended, (1, out, ""), redirection)

    def test_an_output_without_a_buffer(self) -> None:
        shell = 'export PYTHONUNBUFFERED=1; "$@"'
        ended = self.small_tool("print('ä'); standard_output().write(b'x')", shell=shell)
        self.assertEqual(ended, (0, "xä\n".encode(), ""))

    def test_a_file_that_takes_a_part(self) -> None:
        body = "[standard_output().write(b'x' * 3000) for _ in range(4)]"
        for unbuffered in ("", "export PYTHONUNBUFFERED=1; "):
            with tempfile.TemporaryDirectory() as folder:
                ended = self.small_tool(
                    body, shell=f'{unbuffered}ulimit -f 4; "$@" > "{folder}/out"'
                )
            self.assertEqual(ended, (1, b"", "small-tool: standard output: File too large\n"))

    def test_a_closed_pipe(self) -> None:
        status, _, message = self.small_tool(
            "print('x' * 1000000)", shell='"$@" | true; exit ${PIPESTATUS[0]}'
        )
        self.assertEqual((status, message), (1, "small-tool: standard output: Broken pipe\n"))

    def test_closed_streams(self) -> None:
        ended = self.small_tool("standard_output()", shell='"$@" >&-')
        self.assertEqual(ended, (1, b"", "small-tool: standard output is closed\n"))


if __name__ == "__main__":
    unittest.main()
