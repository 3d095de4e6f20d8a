"""A page in dots: what is drawn, and what is read back."""

import struct
from dataclasses import dataclass
from functools import lru_cache
from typing import Callable

KNOWN = 1024  # sizes of parts of pages that are kept


@dataclass(frozen=True, slots=True)
class Picture:
    """A page in dots: rows of whole bytes from the left, one behind another, in which 1 is dark."""

    width: int
    height: int
    packed: bytes

    @property
    def stride(self) -> int:
        """The bytes of a row."""
        return (self.width + 7) // 8

    @property
    def rows(self) -> tuple[bytes, ...]:
        """The rows."""
        return rows_reader(0, self.stride, 0, self.height)(self.packed)


@lru_cache(KNOWN)
def rows_reader(before: int, size: int, behind: int, high: int) -> Callable[..., tuple[bytes, ...]]:
    """Returns what gives so many bytes of each of some rows, which have others before and behind:
    a quarter of the time that slices take.
    """
    return struct.Struct(f"{before}x{size}s{behind}x" * high).unpack_from
