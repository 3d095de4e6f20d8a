"""Pages as other programs draw them."""

import subprocess
import tempfile
from pathlib import Path

import jobs
import support


def rendered(command: list[str], data: bytes) -> jobs.Dots:
    """The dots of a document, which is FILE in a command that writes PBM."""
    with tempfile.TemporaryDirectory() as folder:
        path = Path(folder, "label")
        path.write_bytes(data)
        words = [word.replace("FILE", str(path)) for word in command]
        done = subprocess.run(words, capture_output=True, cwd=folder, timeout=support.SECONDS)
        if done.returncode:
            raise AssertionError(done.stderr.decode())
        found = sorted(Path(folder).glob("out*"))
        return jobs.pictures_of_pbm(found[0].read_bytes() if found else done.stdout)[0]
