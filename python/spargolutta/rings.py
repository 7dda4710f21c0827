"""Rings in whole ten-millionths of a degree, and the repairs that make them outlines of the sphere.

A ring here has no closing position. The repairs say what they did; none of them changes what is inside by the even-odd
rule, in the plane of degrees, by more than the rounding that is said.
"""
from decimal import Decimal
from typing import Iterable, List, Sequence, Tuple

from . import angles
from .angles import HALF_TURN, UNITS, Point, Position
from .geojson import RawRing
from .numbers import POSITION_OUTSIDE, Refused

Ring = List[Position]
RING_OPEN = 32
QUARTER_TURN = 90 * UNITS
_METRE = 111_195 / UNITS  # of a ten-millionth of latitude


class Rounding:
    """How many numbers were rounded, and by how much at most; how many altitudes were dropped."""

    def __init__(self) -> None:
        self.count, self.most, self.altitudes = 0, Decimal(0), 0

    def angle(self, value: Decimal) -> int:
        """Ten-millionths of a degree; counts what is rounded."""
        angle = angles.of_decimal(value)
        if abs(angle) < angles.BEYOND:
            change = abs(value - Decimal(angle).scaleb(-7))
            if change:
                self.count += 1
                self.most = max(self.most, change)
        return angle

    def notes(self) -> List[str]:
        """What was done, a line each."""
        said = []
        if self.altitudes:
            said.append(f"altitudes dropped: {self.altitudes}")
        if self.count:
            metres = float(self.most) * UNITS * _METRE
            said.append(f"numbers rounded to seven decimals, half to even: {self.count}, "
                        f"by at most {float(self.most):.1e} degrees ({metres:.4f} m)")
        return said


def rounded(raw: RawRing, where: str, rounding: Rounding) -> Ring:
    """The ring's positions without the closing one. Raises Refused: 31, 32."""
    ring = [Position(rounding.angle(numbers[0]), rounding.angle(numbers[1])) for numbers in raw]
    rounding.altitudes += sum(len(numbers) > 2 for numbers in raw)
    for i, point in enumerate(angles.grid_points(ring, angles.COARSE)):
        if point == (0, 0, 0):
            shown = ", ".join(str(number)[:20] for number in raw[i][:2])
            raise Refused(POSITION_OUTSIDE, i, 0, f"{where}: {shown}")
    if len(raw) < 4:
        raise Refused(RING_OPEN, 0, 0, f"{where} has {len(raw)} positions")
    if raw[0][:2] != raw[-1][:2]:
        raise Refused(RING_OPEN, 0, 0,
                      f"{where} begins at {angles.words(ring[0])} and ends at {angles.words(ring[-1])}")
    return ring[:-1]


def sides(ring: Sequence[Position]) -> Iterable[Tuple[Position, Position]]:
    """The sides of a ring, the last one back to the first position."""
    return zip(ring, [*ring[1:], ring[0]])


def _on_cut(a: Position, b: Position) -> bool:
    return a.lon == b.lon and abs(a.lon) == HALF_TURN


def _at_pole(a: Position, b: Position) -> bool:
    return a.lat == b.lat and abs(a.lat) == QUARTER_TURN


def is_cut(ring: Ring) -> bool:
    """Whether a side lies on the cut at 180 degrees."""
    return any(_on_cut(a, b) for a, b in sides(ring))


def cut_latitudes(rings: Iterable[Ring]) -> List[int]:
    """The latitudes of all positions at 180 degrees, in order."""
    return sorted({position.lat for ring in rings for position in ring if abs(position.lon) == HALF_TURN})


def with_cut(ring: Ring, latitudes: List[int]) -> Ring:
    """The ring with a vertex at each of these latitudes on its sides along 180 degrees: so the two sides of a cut have
    the same vertices, and cancel."""
    found: Ring = []
    for a, b in sides(ring):
        found.append(a)
        if latitudes and _on_cut(a, b):
            between = [lat for lat in latitudes if min(a.lat, b.lat) < lat < max(a.lat, b.lat)]
            found += [Position(a.lon, lat) for lat in (between if a.lat < b.lat else between[::-1])]
    return found


def _between(a: Position, b: Position) -> List[Position]:
    """Positions on the straight line from a to b, at most one degree apart; none along a pole, which is one point."""
    if _at_pole(a, b):
        return []
    pieces = -(-max(abs(b.lon - a.lon), abs(b.lat - a.lat)) // UNITS)
    return [Position(_part(a.lon, b.lon, k, pieces), _part(a.lat, b.lat, k, pieces)) for k in range(1, pieces)]


def _part(a: int, b: int, k: int, pieces: int) -> int:
    """a + (b - a) k / pieces, half to even: the same from either end."""
    whole, rest = divmod(a * pieces + (b - a) * k, pieces)
    return whole + (2 * rest > pieces or (2 * rest == pieces and whole % 2 == 1))


def lengthened(ring: Ring) -> Ring:
    """The ring with vertices added on sides of over one degree."""
    found: Ring = []
    for a, b in sides(ring):
        found.append(a)
        found += _between(a, b)
    return found


def longest_side(rings: Iterable[Ring]) -> int:
    """The longest side in longitude or latitude; along a pole, which is one point, a side has no length."""
    return max((max(abs(b.lon - a.lon), abs(b.lat - a.lat)) for ring in rings for a, b in sides(ring)
                if not _at_pole(a, b)), default=0)


def same_direction(p: Point, q: Point) -> bool:
    """Whether two points are one direction."""
    (a, b, c), (x, y, z) = p, q
    return b * z == c * y and c * x == a * z and a * y == b * x and a * x + b * y + c * z > 0


def distinct(points: Sequence[Point]) -> List[int]:
    """The numbers of the points that are left when of neighbours in one direction the later ones are left out."""
    kept: List[int] = []
    for i, point in enumerate(points):
        if not kept or not same_direction(points[kept[-1]], point):
            kept.append(i)
    while len(kept) > 1 and same_direction(points[kept[-1]], points[kept[0]]):
        kept.pop()
    return kept
