"""A picture of zones and stops as SVG: the globe in orthographic projection, by floating point for drawing alone."""
import math
from html import escape
from typing import Any, Dict, List, Sequence, Tuple

from .angles import UNITS
from .describe import corridors
from .draw import Vector, unit, unit_at, view_of
from .zone import Zone

_SIZE = 800
_COLOURS = ("#0072b2", "#d55e00", "#009e73", "#cc79a7", "#e69f00", "#56b4e9")
_MARKS = {
    "inside": '<circle cx="{x:.1f}" cy="{y:.1f}" r="4" fill="#00795c"/>',
    "boundary": '<rect x="{x4:.1f}" y="{y4:.1f}" width="8" height="8" fill="#b26a00"/>',
    "outside": '<circle cx="{x:.1f}" cy="{y:.1f}" r="4" fill="#fff" stroke="#5a6b7b" stroke-width="2"/>',
    "refused": '<path d="M{x:.1f} {y4:.1f}l4.5 9h-9z" fill="#fff" stroke="#b4002f" stroke-width="2"/>',
}


class View:
    """The directions of a view, and where a direction is in the picture."""

    def __init__(self, lon: float, lat: float, zoom: float) -> None:
        self.z, self.x = unit_at(lon, lat), unit_at(lon + 90, 0)
        (a, b, c), (x, y, z) = self.z, self.x
        self.y = (b * z - c * y, c * x - a * z, a * y - b * x)
        self.radius = 0.46 * _SIZE * zoom

    def sees(self, p: Vector) -> bool:
        """Whether a direction is on the near side."""
        return sum(map(_times, p, self.z)) >= 0

    def place(self, p: Vector) -> Tuple[float, float]:
        """Where it is in the picture."""
        right, up = sum(map(_times, p, self.x)), sum(map(_times, p, self.y))
        return _SIZE / 2 + self.radius * right, _SIZE / 2 - self.radius * up


def _times(a: float, b: float) -> float:
    return a * b


def _pieces(a: Vector, b: Vector) -> List[Vector]:
    """Directions on the arc from a to b, three degrees apart at most."""
    angle = 2 * math.asin(min(1.0, math.dist(a, b) / 2))
    count = max(1, math.ceil(math.degrees(angle) / 3))
    found = []
    for k in range(count + 1):
        s, t = (1.0, 0.0) if angle == 0 else (math.sin((1 - k / count) * angle), math.sin(k / count * angle))
        p = [s * u + t * v for u, v in zip(a, b)]
        size = math.sqrt(sum(c * c for c in p))
        found.append((p[0] / size, p[1] / size, p[2] / size))
    return found


def _path(view: View, lines: Sequence[Sequence[Vector]]) -> str:
    """What is seen of some lines, as the data of a path."""
    parts: List[str] = []
    for line in lines:
        down = False
        for p in line:
            if view.sees(p):
                x, y = view.place(p)
                parts.append(f"{'L' if down else 'M'}{x:.1f} {y:.1f}")
            down = view.sees(p)
    return "".join(parts)


def _zone(view: View, zone: Zone, colour: str) -> str:
    ends = [unit(point) for point in zone.vertices]
    arcs = [_pieces(a, b) for a, b in zip(ends, ends[1:] + ends[:1])]
    walked = set(corridors(zone))
    border = _path(view, [arc for i, arc in enumerate(arcs) if i not in walked])
    dashed = _path(view, [arc for i, arc in enumerate(arcs) if i in walked])
    whole = _path(view, [[p for arc in arcs for p in arc]]) if all(map(view.sees, ends)) else ""
    known = _path(view, [[unit(zone.known)]])
    return (f"<g><title>{zone.number} {escape(zone.name)}</title>"
            f'<path d="{whole}" fill="{colour}" fill-opacity=".25" fill-rule="evenodd"/>'
            f'<path d="{border}" fill="none" stroke="{colour}" stroke-width="2"/>'
            f'<path d="{dashed}" fill="none" stroke="{colour}" stroke-dasharray="5 4"/>'
            + (f'<path d="{known}m-6 0h12m-6 -6v12" stroke="#1b2733" fill="none"/>' if known else "") + "</g>")


def _graticule() -> List[List[Vector]]:
    lines = [[unit_at(lon, lat) for lat in range(-90, 91, 3)] for lon in range(-180, 180, 30)]
    return lines + [[unit_at(lon, lat) for lon in range(-180, 181, 3)] for lat in range(-60, 61, 30)]


def _stop(view: View, stop: Dict[str, Any]) -> str:
    direction = unit_at(stop["lon"] / UNITS, stop["lat"] / UNITS)
    if not view.sees(direction):
        return ""
    x, y = view.place(direction)
    name = escape(f"{stop['id']} {stop['name']}, {stop['kind']}")
    return f"<g><title>{name}</title>{_MARKS[stop['kind']].format(x=x, y=y, x4=x - 4, y4=y - 4)}</g>"


def picture(zones: Sequence[Zone], stops: Sequence[Dict[str, Any]]) -> bytes:
    """The whole picture. A zone that goes behind the globe has its border alone."""
    view = View(**view_of(zones, stops))
    parts = [f'<svg xmlns="http://www.w3.org/2000/svg" viewBox="0 0 {_SIZE} {_SIZE}" width="{_SIZE}" height="{_SIZE}">',
             f'<circle cx="{_SIZE / 2}" cy="{_SIZE / 2}" r="{view.radius:.1f}" fill="#eef4fa" stroke="#c9d6e2"/>',
             f'<path d="{_path(view, _graticule())}" fill="none" stroke="#c9d6e2"/>']
    parts += [_zone(view, zone, _COLOURS[i % len(_COLOURS)]) for i, zone in enumerate(zones)]
    parts += [_stop(view, stop) for stop in stops]
    return "\n".join([*parts, "</svg>"]).encode("utf-8", "backslashreplace")
