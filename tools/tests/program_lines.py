"""Lines for the program, and what it makes of them."""

from typing import Sequence

# `qr 01234567` at level M under mask 2 (ISO/IEC 18004, Annex I), without its quiet zone.
SYMBOL = """
111111100101101111111
100000100111101000001
101110101000001011101
101110101100001011101
101110101011101011101
100000101000101000001
111111101010101111111
000000001001100000000
101111100100101111100
000101011010100101100
001000110101010011111
000010000100000111100
000111111001010010000
000000001011111001100
111111100110101100000
100000101011111000101
101110101000100101100
101110101100100100000
101110101011010010100
100000100000000110110
111111101111010010100
""".split()
QR = [29 * "0"] * 4 + [f"0000{row}0000" for row in SYMBOL] + [29 * "0"] * 4

EAN8 = "000000010101110110111101011000100110010101010000101001110100001010001001010000000"
# A line and the rows of its picture, one module high, under mask 2 and with escapes.
DRAWN = (
    (b"ean8 7351353", [EAN8]),
    (
        b"ean13 4006381333931",
        [
            "0000000000010100011010100111010111101111010001001011001101010100001010"
            "0001010000101110100100001011001101010000000"
        ],
    ),
    (
        b"upca 03600029145",
        [
            "0000000001010001101011110101011110001101000110100011010101011011001110"
            "1001100110101110010011101101100101000000000"
        ],
    ),
    (
        b"code128 A123456",
        [
            "0000000000110100100001010001100010111011110101100111001000101100011100"
            "0101101001000011011000111010110000000000"
        ],
    ),
    # A setting and escaped digits, and then a shift between code sets.
    (rb"ean8,height=2 73\x35\x31353", [EAN8, EAN8]),
    (
        rb"code128 a\x01b",
        [
            "0000000000110100100001001011000011110100010100101100001001000011011011"
            "00110011000111010110000000000"
        ],
    ),
    (b"qr 01234567", QR),
)
# A line for each refusal that no setting causes, with escapes, and what the message says of it.
REFUSED = (
    (b"ean8 73x1353", b"not a digit at byte 3"),
    (b"ean13 123", b"wrong number of digits: 3"),
    (b"qr", b"no data"),
    (b"qr ", b"no data"),
    (b" qr x", b"unknown symbology"),
    (rb"code128 a\q", b"bad escape at byte 2"),
    (b"code128 \xc3\xa9", b"byte 1 is not ASCII"),
    (b"code128 " + 81 * b"a", b"data is longer than 80 bytes"),
)
OPTIONS = ("--height", "1", "--mask", "2", "--escapes")


def pbm(rows: Sequence[str]) -> bytes:
    """The plain PBM of rows of pixels: a line feed after each 70 pixels and at the end of each row."""
    lines = [row[start : start + 70] for row in rows for start in range(0, len(row), 70)]
    return "\n".join([f"P1\n{len(rows[0])} {len(rows)}", *lines, ""]).encode()
