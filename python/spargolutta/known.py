"""The known point of a zone: found well inside by the map's own meaning, or given and checked against it.

Either way the far side of the globe is asked by the library: where it is inside, the known point is doubtful.
"""
from itertools import chain
from typing import Callable, Iterator, List, Optional, Sequence, Tuple

from . import angles, plane
from .angles import Point, Position
from .numbers import INSIDE, KNOWN_ON_CIRCLE, Refused
from .rings import Ring
from .zone import Zone

Make = Callable[[Point], Zone]
_CUTS = (9, 63)
_MOVES = 32


class WrongKnown(ValueError):
    """A known point that the map itself has outside, or none that is inside."""


class FarSideInside(ValueError):
    """The far side of the globe would be inside."""

    def __init__(self, position: Position) -> None:
        super().__init__(f"with the known point {angles.words(position)} the far side of the globe is inside: "
                         "the known point is wrong, the zone is as small as the grid's steps (--grid fine), or it is "
                         "larger than a hemisphere (--far-side-inside)")


def _moved(position: Position, grid: int) -> Iterator[Position]:
    """The position, and some near it, one to some steps of the grid away."""
    yield position
    step = (617, 11)[grid]
    for k in range(1, _MOVES + 1):
        turn = ((1, 0), (0, 1), (-1, 0), (0, -1))[k % 4]
        yield Position(position.lon + turn[0] * k * step + k * step // 3, position.lat + turn[1] * k * step)


def _zone_at(position: Position, grid: int, make: Make) -> Zone:
    return make(angles.grid_points([position], grid)[0])


def given(rings: Sequence[Ring], position: Position, grid: int, make: Make, far_side_inside: bool) -> Zone:
    """The zone with the known point that was given. Raises WrongKnown, FarSideInside, Refused."""
    where = plane.locate(rings, position)
    if where != plane.INSIDE:
        raise WrongKnown(f"known point {angles.words(position)} is {where} by the map itself")
    zone = _zone_at(position, grid, make)
    if zone.far_side() == INSIDE and not far_side_inside:
        raise FarSideInside(position)
    return zone


def _candidates(rings: Sequence[Ring]) -> Iterator[Position]:
    found: Iterator[List[plane.Candidate]] = (plane.well_inside(rings, cuts) for cuts in _CUTS)
    return (candidate.position for candidate in chain.from_iterable(found))


def find(rings: Sequence[Ring], grid: int, make: Make, far_side_inside: bool) -> Tuple[Zone, Position]:
    """A zone with a known point well inside, moved while it is on the great circle of a side (16), and that point."""
    refused: Optional[Refused] = None
    doubt: Optional[Position] = None
    for candidate in _candidates(rings):
        for position in _moved(candidate, grid):
            if plane.locate(rings, position) != plane.INSIDE:
                continue
            try:
                zone = _zone_at(position, grid, make)
            except Refused as error:
                if error.number != KNOWN_ON_CIRCLE:
                    raise
                refused = error
                continue
            if zone.far_side() != INSIDE or far_side_inside:
                return zone, position
            doubt = position
            break
    if doubt is not None:
        raise FarSideInside(doubt)
    raise refused or WrongKnown("no point inside was found: by the even-odd rule the map has no inside")
