"""A rectangle of dots."""

from typing import NamedTuple


class Box(NamedTuple):
    """A rectangle in which a part of a label may have ink."""

    left: int
    top: int
    width: int
    height: int

    @property
    def right(self) -> int:
        """The column behind it."""
        return self.left + self.width

    @property
    def bottom(self) -> int:
        """The row below it."""
        return self.top + self.height

    def turned(self, height: int) -> "Box":
        """Returns where it is in an area of a height that is turned to the right.

        >>> Box(1, 2, 30, 4).turned(10)
        Box(left=4, top=1, width=4, height=30)
        """
        return Box(height - self.bottom, self.left, self.height, self.width)
