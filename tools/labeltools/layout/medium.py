"""What labels are drawn on."""

from dataclasses import dataclass


@dataclass(frozen=True)
class Medium:
    """What is drawn on: its dots an inch; whether letters are made of these dots; whether bars are
    rectangles, since programs that show it smooth a stretched picture; the fonts whose letters are
    shapes.
    """

    dpi: int
    is_dots: bool
    is_smooth: bool = False
    outlines: frozenset[str] = frozenset()

    @property
    def is_pdf(self) -> bool:
        """Whether it is a page of PDF."""
        return not self.is_dots and not self.is_smooth
