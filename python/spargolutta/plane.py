"""Inside by the map's own meaning: the even-odd rule in the plane of degrees, exactly, in whole numbers.

It finds and checks known points, and says nothing of stops.
"""
import math
from fractions import Fraction
from typing import List, NamedTuple, Sequence

from .angles import UNITS, Position
from .rings import Ring, sides

INSIDE, OUTSIDE, ON_OUTLINE = "inside", "outside", "on the outline"


def locate(rings: Sequence[Ring], p: Position) -> str:
    """Where a position is by the even-odd rule over all rings."""
    inside = False
    for ring in rings:
        for a, b in sides(ring):
            turn = (b.lon - a.lon) * (p.lat - a.lat) - (b.lat - a.lat) * (p.lon - a.lon)
            if turn == 0 and min(a.lon, b.lon) <= p.lon <= max(a.lon, b.lon) \
                    and min(a.lat, b.lat) <= p.lat <= max(a.lat, b.lat):
                return ON_OUTLINE
            if (a.lat > p.lat) != (b.lat > p.lat) and (turn > 0) == (b.lat > a.lat):
                inside = not inside
    return INSIDE if inside else OUTSIDE


class Candidate(NamedTuple):
    """A position inside, and about how far from the outline it is, in ten-millionths of a degree of latitude."""

    distance: float
    position: Position


def _stretches(rings: Sequence[Ring], twice_lat: int) -> List[Fraction]:
    """Where the line at a latitude, given doubled and odd so that no vertex is on it, meets the outline, in order."""
    found = []
    for ring in rings:
        for a, b in sides(ring):
            if (2 * a.lat > twice_lat) != (2 * b.lat > twice_lat):
                found.append(a.lon + Fraction((twice_lat - 2 * a.lat) * (b.lon - a.lon), 2 * (b.lat - a.lat)))
    return sorted(found)


def _distance(rings: Sequence[Ring], p: Position) -> float:
    """How far the outline is, by floating point: for choosing alone."""
    scale, least = math.cos(math.radians(p.lat / UNITS)), math.inf
    for ring in rings:
        for a, b in sides(ring):
            ax, ay = (a.lon - p.lon) * scale, a.lat - p.lat
            dx, dy = (b.lon - a.lon) * scale, b.lat - a.lat
            size = dx * dx + dy * dy
            along = max(0.0, min(1.0, -(ax * dx + ay * dy) / size)) if size else 0.0
            least = min(least, math.hypot(ax + along * dx, ay + along * dy))
    return least


def well_inside(rings: Sequence[Ring], cuts: int) -> List[Candidate]:
    """Positions inside, the one farthest from the outline first: on each of some parallels the middle of its widest
    stretch inside."""
    lats = [position.lat for ring in rings for position in ring]
    low, high, found = min(lats), max(lats), []
    for k in range(cuts):
        twice = 2 * (low + (high - low) * (2 * k + 1) // (2 * cuts)) + 1
        ends = _stretches(rings, twice)
        stretches = list(zip(ends[0::2], ends[1::2]))
        if stretches:
            west, east = max(stretches, key=lambda stretch: stretch[1] - stretch[0])
            position = Position(round((west + east) / 2), twice // 2)
            if locate(rings, position) == INSIDE:
                found.append(Candidate(_distance(rings, position), position))
    return sorted(found, reverse=True)
