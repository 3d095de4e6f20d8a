"""Draws the lines that are its arguments, one after another, by one process of labels(1).

python3 client.py 'ean13 400638133393' 'qr HELLO' > codes.pbm
"""

import subprocess
import sys
from types import TracebackType


class Labels:
    """A running `labels`. Its pictures are plain PBM."""

    def __init__(self, *options: str) -> None:
        self.process = subprocess.Popen(
            ["labels", *options],
            stdin=subprocess.PIPE,
            stdout=subprocess.PIPE,
            stderr=subprocess.STDOUT,  # one pipe for both: a refused line has its message there
        )

    def __enter__(self) -> "Labels":
        return self

    def __exit__(
        self, kind: type[BaseException] | None, error: BaseException | None, trace: TracebackType | None
    ) -> None:
        self.process.communicate()

    def draw(self, line: bytes) -> bytes:
        """Returns the picture of a line such as b"ean13 400638133393".

        Raises ValueError with the message where the line is refused, EOFError where `labels` has ended.
        """
        assert self.process.stdin and self.process.stdout
        if b"\n" in line or not line or line.startswith(b"#"):
            raise ValueError("not one line with a label")  # labels answers nothing, or twice
        self.process.stdin.write(line + b"\n")
        self.process.stdin.flush()
        head = self.process.stdout.readline()
        if not head or head.startswith(b"labels: "):
            raise EOFError(f"labels has ended: {head.decode()}")
        if head != b"P1\n":
            raise ValueError(head.decode().rstrip())
        size = self.process.stdout.readline()
        width, height = map(int, size.split())
        # A row has its pixels, and a line end after each 70 of them and after the last one.
        return head + size + self.process.stdout.read(height * (width + (width + 69) // 70))


def main(lines: list[str]) -> int:
    """Writes the picture of each line, or its message to standard error. Returns 1 if a line is refused, 2 if `labels`
    has ended.
    """
    status = 0
    with Labels() as labels:
        for line in lines:
            try:
                sys.stdout.buffer.write(labels.draw(line.encode()))
            except ValueError as why:
                print(why, file=sys.stderr)
                status = 1
            except (EOFError, BrokenPipeError):
                print("labels has ended", file=sys.stderr)
                return 2
    return status


if __name__ == "__main__":
    sys.exit(main(sys.argv[1:]))
