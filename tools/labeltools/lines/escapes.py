"""The escapes of labels(1), both ways."""

import re

ESCAPE = re.compile(rb"\\(?:x([0-9A-Fa-f]{2})|([n\\]))")
ESCAPED = {b"n": b"\n", b"\\": b"\\"}
STRANGE = re.compile(rb"[^ -\[\]-~]")  # what is written as escapes, but for blanks at the end
ESCAPES = {bytes([byte]): b"\\x%02X" % byte for byte in range(256)} | {b"\\": b"\\\\"}


def escaped(data: bytes) -> bytes:
    """Returns data on one line: with the escapes of labels(1) for what is no letter of ASCII, and
    for a blank at its end.

    >>> escaped(b"a\\\\b\\nc ")
    b'a\\\\\\\\b\\\\x0Ac\\\\x20'
    """
    inner = data.rstrip(b" ")
    blanks = ESCAPES[b" "] * (len(data) - len(inner))
    return STRANGE.sub(lambda byte: ESCAPES[byte[0]], inner) + blanks


def unescaped(data: bytes) -> bytes:
    """Returns data without escapes, each of which is the byte that it means."""
    return ESCAPE.sub(escaped_byte, data)


def escaped_byte(match: re.Match[bytes]) -> bytes:
    """Returns the byte that an escape of labels(1) means."""
    return bytes([int(match[1], 16)]) if match[1] else ESCAPED[match[2]]
