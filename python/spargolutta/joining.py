"""Rings joined to one outline by corridors, walked out and straight back, at the nearest pair of vertices.

By the even-odd rule a corridor changes nothing: its two sides cancel. Which pair is taken does not matter to any
verdict.
"""
from typing import Dict, List, NamedTuple, Sequence, Tuple

from .angles import Point


class Pair(NamedTuple):
    """Two vertices and the square of their distance: `here` of ring `ring`, `there` of the ring to join."""

    square: int
    ring: int
    here: int
    there: int


class Joined(NamedTuple):
    """One outline, and how many corridors it took."""

    outline: List[Point]
    corridors: int


def _nearest(number: int, ring: Sequence[Point], other: Sequence[Point]) -> Pair:
    """The nearest pair of vertices of a ring that is joined and another."""
    best = Pair(1 << 62, number, 0, 0)
    for i, (a, b, c) in enumerate(ring):
        squares = [(x - a) ** 2 + (y - b) ** 2 + (z - c) ** 2 for x, y, z in other]
        least = min(squares)
        if least < best.square:
            best = Pair(least, number, i, squares.index(least))
            if least == 0:
                break
    return best


def join(rings: Sequence[Sequence[Point]]) -> Joined:
    """One outline of all rings, begun with the largest, the nearest of the others always next."""
    first = max(range(len(rings)), key=lambda i: len(rings[i]))
    outline = list(rings[first])
    names: List[Tuple[int, int]] = [(first, i) for i in range(len(outline))]
    waiting: Dict[int, Pair] = {i: _nearest(first, rings[first], ring) for i, ring in enumerate(rings) if i != first}
    corridors = 0
    while waiting:
        added = min(waiting, key=lambda i: waiting[i].square)
        pair, ring = waiting.pop(added), rings[added]
        at = names.index((pair.ring, pair.here))
        order = [*range(pair.there, len(ring)), *range(pair.there), pair.there]
        outline[at + 1:at + 1] = [ring[i] for i in order] + [outline[at]]
        names[at + 1:at + 1] = [(added, i) for i in order] + [names[at]]
        corridors += pair.square > 0
        for i, known in waiting.items():
            waiting[i] = min(known, _nearest(added, ring, rings[i]))
    return Joined(outline, corridors)
