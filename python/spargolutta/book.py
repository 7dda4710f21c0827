"""Books: zones joined end to end, and which of them hold each of many places."""
from array import array
import sys
from typing import Iterable, Iterator, List, NamedTuple, Sequence, Union

from . import angles
from .angles import Number
from .library import SHEETS_MOST, lib
from .numbers import BOOK_LONG, DONE, Refused
from .zone import Zone


class Sets(NamedTuple):
    """Of one place, the zones that it is inside of, on the boundary of, and refused by: bit i is zone i."""

    inside: int
    boundary: int
    refused: int


def sheets_of(book: bytes) -> Iterator[bytes]:
    """The sheets of a book, by their fields alone. Raises Refused, with the place from the book's start."""
    at = 0
    while at < len(book):
        number = lib.spg_book_next_number(book, len(book), at)
        if number != DONE:
            raise Refused(number, lib.spg_book_next_place(book, len(book), at))
        size = lib.spg_book_next_count(book, len(book), at)
        yield book[at:at + size]
        at += size


class Book:
    """Zones, from a book's bytes or one by one; any number of them, though only 64 are a book in one file."""

    def __init__(self, zones: Union[bytes, Iterable[Zone]]) -> None:
        if isinstance(zones, (bytes, bytearray, memoryview)):
            zones = [Zone(sheet) for sheet in sheets_of(bytes(zones))]
        self.zones: List[Zone] = list(zones)
        self._parts = [self._parts_on(grid) for grid in (angles.COARSE, angles.FINE)]

    def _parts_on(self, grid: int) -> List[List[int]]:
        """The numbers of the zones on a grid, as many together as one book may have."""
        found = [i for i, zone in enumerate(self.zones) if zone.grid == grid]
        return [found[i:i + SHEETS_MOST] for i in range(0, len(found), SHEETS_MOST)]

    def __bytes__(self) -> bytes:
        """The book's bytes; over 64 zones are refused with 36."""
        sizes = [len(zone.sheet) for zone in self.zones[:SHEETS_MOST]]
        if len(self.zones) > SHEETS_MOST:
            raise Refused(BOOK_LONG, sum(sizes))
        return b"".join(zone.sheet for zone in self.zones)

    def which(self, lons: Sequence[Number], lats: Sequence[Number]) -> List[Sets]:
        """For each place in degrees the zones that hold it. One out of range is refused by all."""
        from .many import degrees
        return self.which_of(degrees(lons, lats))

    def which_of(self, positions: bytes) -> List[Sets]:
        """The same for positions of eight bytes."""
        count = len(positions) // 8
        total = [Sets(0, 0, 0)] * count
        for grid, parts in enumerate(self._parts):
            points = angles.points_of(positions, grid) if parts else b""
            for part in parts:
                sets = _feed(b"".join(self.zones[i].sheet for i in part), grid, points)
                if part == list(range(len(part))) and len(part) == len(self.zones):
                    return list(map(Sets, sets[0::3], sets[1::3], sets[2::3]))
                _add(total, sets, part)
        return total


def _feed(book: bytes, grid: int, points: bytes) -> "array[int]":
    """One feed to one book: three sets for each point."""
    results = bytearray(2 * len(points))
    arguments = (book, len(book), grid, points, len(points))
    number = lib.spg_book_feed_number(*arguments, angles.lent(results), len(results))
    if number != DONE:
        raise Refused(number, lib.spg_book_feed_place(*arguments, len(results)))
    sets = array("Q", bytes(results))
    if sys.byteorder == "little":
        sets.byteswap()
    return sets


def _add(total: List[Sets], sets: "array[int]", part: List[int]) -> None:
    """Puts the zones of a part, numbered in it, where they stand among all zones."""
    for k in range(len(total)):
        three = sets[3 * k:3 * k + 3]
        if any(three):
            total[k] = Sets(*(have | _spread(new, part) for have, new in zip(total[k], three)))


def _spread(bits: int, part: List[int]) -> int:
    return sum(1 << i for k, i in enumerate(part) if bits >> k & 1)
