"""The sizes of paper that have names, in millimetres."""

from labeltools.paper.stock import Size

A4 = (210.0, 297.0)
LETTER = (215.9, 279.4)
# by what CUPS calls them
NAMED = {
    "A3": (297.0, 420.0),
    "A4": A4,
    "A5": (148.0, 210.0),
    "A6": (105.0, 148.0),
    "Letter": LETTER,
    "Legal": (215.9, 355.6),
}


def is_near(size: Size, other: Size, most: float) -> bool:
    """Returns whether no side of two sizes differs by more than `most`."""
    return max(abs(size[0] - other[0]), abs(size[1] - other[1])) <= most
