"""Numbers, places and counts as the library gives them, and a refusal as an exception."""
import ctypes
from typing import NamedTuple, Optional, Tuple

from .library import lib

DONE, INSIDE, OUTSIDE, BOUNDARY = 0, 1, 2, 3
KNOWN_ON_CIRCLE, QUERY_OPPOSITE = 16, 18
POSITION_OUTSIDE = 31
TOO_MANY_SIDES, SIDES_SHARE, BOOK_LONG = 34, 35, 36

_KINDS = ("none", "side", "vertex", "byte", "bytes needed", "position", "none")


def meaning(number: int) -> str:
    """The library's text for a number."""
    text = ctypes.create_string_buffer(200)
    length = lib.spg_meaning_text(number, text, len(text))
    return text.raw[:length].decode("ascii")


def place_kind(number: int) -> str:
    """What the place of a number is: none, side, vertex, byte, bytes needed or position."""
    kind = lib.spg_place_kind(number)
    return _KINDS[kind] if kind < len(_KINDS) else "none"


class Verdict(NamedTuple):
    """The answer to a query that was not refused: 1 inside, 2 outside, 3 boundary."""

    number: int
    place: int
    count: int  # type: ignore[assignment]  # a tuple has a method of this name

    @property
    def inside(self) -> bool:
        """Whether the query is inside; a point of the boundary is not."""
        return self.number == INSIDE

    @property
    def outside(self) -> bool:
        """Whether the query is outside."""
        return self.number == OUTSIDE

    @property
    def boundary(self) -> bool:
        """Whether the query is on a border side; `place` is the lowest such side."""
        return self.number == BOUNDARY


class Refused(ValueError):
    """A refusal by the library: number, place, count, what kind of place it is, and what the number means."""

    def __init__(self, number: int, place: int = 0, count: int = 0, where: Optional[str] = None,
                 kind: Optional[str] = None) -> None:
        self.number, self.place, self.count = number, place, count
        self.kind, self.meaning, self.where = kind or place_kind(number), meaning(number), where
        super().__init__(number, place, count, where, kind)

    def __str__(self) -> str:
        return f"{self.number}, {self.meaning}" + (f", {self.place_in_words()}" if self.place_in_words() else "")

    def place_in_words(self) -> str:
        """The place as `side 4`, and where that is, if known; empty if the number has no place."""
        parts = [] if self.kind == "none" else [f"{self.kind} {self.place}"]
        if self.number == SIDES_SHARE:
            parts = [f"sides {self.place} and {self.count}"]
        return ", ".join(parts + ([self.where] if self.where else []))

    def __reduce__(self) -> Tuple[type, Tuple[int, int, int, Optional[str], str]]:
        return Refused, (self.number, self.place, self.count, self.where, self.kind)
