"""Fewer vertices, each dropped one within a tolerance of the side that takes its place; by floating point, as it is a
choice and no verdict."""
import math
from typing import List, Sequence

from .angles import HALF_TURN, UNITS, Position
from .rings import QUARTER_TURN, Ring

_METRE = 111_195 / UNITS


def _off_side(p: Position, a: Position, b: Position) -> float:
    """How far p is from the straight line between a and b, in metres."""
    scale = math.cos(math.radians(p.lat / UNITS))
    px, py = (p.lon - a.lon) * scale, p.lat - a.lat
    dx, dy = (b.lon - a.lon) * scale, b.lat - a.lat
    size = dx * dx + dy * dy
    along = max(0.0, min(1.0, (px * dx + py * dy) / size)) if size else 0.0
    return math.hypot(px - along * dx, py - along * dy) * _METRE


def _fixed(p: Position) -> bool:
    """Vertices on the cut at 180 degrees and at the poles stay: what lies beyond has them too."""
    return abs(p.lon) == HALF_TURN or abs(p.lat) == QUARTER_TURN


def simplified(ring: Ring, metres: float) -> Ring:
    """The ring without vertices that are within the tolerance; at least three are left."""
    kept: List[Position] = [ring[0]]
    start = 0
    for i in range(1, len(ring)):
        nearby: Sequence[Position] = ring[start + 1:i + 1]
        ahead = ring[(i + 1) % len(ring)]
        if _fixed(ring[i]) or any(_off_side(p, ring[start], ahead) > metres for p in nearby):
            kept.append(ring[i])
            start = i
    return kept if len(kept) >= 3 else ring
