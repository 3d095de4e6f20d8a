"""Lines of all symbologies, right and wrong, with settings and escapes. The same seed gives the same lines."""

import random

BAD_SETTINGS = (b"size=3", b"height", b"height=501", b"height=0", b"level=X", b"mask=8", b"min-version=11", b"", b"=")
BAD_NAMES = (b"", b"QR", b"ean", b"qrr", b"\xff", b"code 128")
BAD_ENDS = (b"\\", b"\\q", b"\\x1", b"\\xgg")
NOT_DRAWN = (b"", b"#", b"# x", b"#{}")
DIGITS = b"0123456789"
ALPHABETS = (DIGITS, b"ABC $%*+-./:", bytes(range(256)))
ASCII = (DIGITS, bytes(range(128)), b"ABCdef")


def some_of(rng: random.Random, alphabet: bytes, most: int) -> bytes:
    return bytes(rng.choice(alphabet) for _ in range(rng.randint(1, most)))


def ean_data(rng: random.Random, count: int) -> bytes:
    """Digits, with or without a check digit, which is mostly right, or with what is none."""
    digits = bytes(rng.choice(DIGITS) for _ in range(count))
    check = -(sum(digit - 48 for digit in digits) + 2 * sum(digit - 48 for digit in digits[::-2])) % 10
    right = b"%d" % check
    return digits + rng.choice((b"", right, right, b"%d" % rng.randint(0, 9), b"x", b"00"))


def name_and_data(rng: random.Random) -> tuple[bytes, bytes]:
    name = rng.choice((b"ean13", b"ean8", b"upca", b"code128", b"code128", b"qr", b"qr", b"qr"))
    if name == b"qr":
        parts = (some_of(rng, rng.choice(ALPHABETS), rng.choice((3, 20, 60))) for _ in range(rng.randint(1, 6)))
        return name, b"".join(parts)
    if name == b"code128":
        parts = (some_of(rng, rng.choice(ASCII), 20) for _ in range(rng.randint(1, 6)))
        return name, b"".join(parts) + b"\x80" * (rng.random() < 0.03)
    counts = {b"ean13": 12, b"ean8": 7, b"upca": 11}
    return name, ean_data(rng, counts[name])


def setting(rng: random.Random, name: bytes) -> bytes:
    chance = rng.random()
    if chance < 0.08:
        return rng.choice(BAD_SETTINGS)
    if name != b"qr" and chance > 0.12:
        return b"height=%d" % rng.choice((1, 2, 50, 500, rng.randint(1, 80)))
    level = b"level=" + rng.choice((b"L", b"M", b"Q", b"H"))
    return rng.choice((level, b"mask=%d" % rng.randint(0, 7), b"mask=auto", b"min-version=%d" % rng.randint(1, 10)))


def escaped(rng: random.Random, data: bytes) -> bytes:
    """Data with escapes for what is not printed, and for some of the rest."""

    def of_byte(byte: int) -> bytes:
        if byte == ord("\\"):
            return b"\\\\"
        if byte == ord("\n") and rng.random() < 0.5:
            return b"\\n"
        if byte < 32 or byte > 126 or rng.random() < 0.05:
            return b"\\x%02x" % byte
        return bytes([byte])

    return b"".join(map(of_byte, data))


def line(rng: random.Random, escapes: bool) -> bytes:
    if rng.random() < 0.03:
        return rng.choice(NOT_DRAWN)
    name, data = name_and_data(rng)
    if rng.random() < 0.04:
        name = rng.choice(BAD_NAMES)
    settings = (setting(rng, name) for _ in range(rng.choice((0, 0, 1, 1, 2, 3))))
    head = b",".join([name, *settings])
    if escapes:
        data = escaped(rng, data)
    if rng.random() < 0.03:
        data += rng.choice(BAD_ENDS)
    if rng.random() < 0.02:
        data = b""
    if rng.random() < 0.02:
        data += b"1" * rng.choice((1100, 1093, 1096, 1097, 1200))
    between = b" " if rng.random() < 0.98 else b""
    return (head + between + data).replace(b"\n", b"")
