"""What a zone is, in words: for `show`, `check` and `compare`. Verdicts in it are the library's."""
from collections import Counter
from math import gcd
from typing import Any, Dict, List, Optional, Tuple

from . import angles
from .angles import LIMITS, Point, Position
from .library import lib
from .numbers import INSIDE, OUTSIDE, Refused
from .zone import CHARSETS, Zone

FIELDS = {1: "number", 2: "character set", 3: "name", 4: "known point", 5: "ring", 6: "grid", 7: "second known point"}
FAR_SIDE = {0: "none: the outline goes round the globe", INSIDE: "inside", OUTSIDE: "outside"}


def _direction(point: Point) -> Point:
    x, y, z = point
    common = gcd(gcd(x, y), z)
    return x // common, y // common, z // common


def corridors(zone: Zone) -> List[int]:
    """The sides that are no border: an even number of sides joins their two directions."""
    ends = [_direction(point) for point in zone.vertices]
    pairs = [frozenset((a, b)) for a, b in zip(ends, ends[1:] + ends[:1])]
    count = Counter(pairs)
    return [i for i, pair in enumerate(pairs) if count[pair] % 2 == 0]


def _pole_inside(zone: Zone, z: int) -> bool:
    try:
        return zone.judge_point((0, 0, z * LIMITS[zone.grid])).inside
    except Refused:
        return False


def extent(zone: Zone) -> Tuple[Position, Position]:
    """South-west and north-east of the vertices: west is greater than east where 180 degrees lies between them, and
    with a pole inside it is all longitudes up to that pole."""
    places = [angles.place_of(point) for point in zone.vertices]
    south, north = min(p.lat for p in places), max(p.lat for p in places)
    lons = sorted({p.lon for p in places if abs(p.lat) < 90 * angles.UNITS}) or [0]
    gaps = [(b - a, b, a) for a, b in zip(lons, lons[1:] + [lons[0] + 2 * angles.HALF_TURN])]
    _, west, east = max(gaps)
    west = west - 2 * angles.HALF_TURN if west > angles.HALF_TURN else west
    poles = [sign for sign in (-1, 1) if _pole_inside(zone, sign)]
    if poles:
        west, east = -angles.HALF_TURN, angles.HALF_TURN
        south = -90 * angles.UNITS if -1 in poles else south
        north = 90 * angles.UNITS if 1 in poles else north
    return Position(west, south), Position(east, north)


def _place(point: Optional[Point]) -> Optional[str]:
    return None if point is None else angles.words(angles.place_of(point))


def shown(path: str, zone: Zone) -> Dict[str, Any]:
    """What `show` says of a zone, by name."""
    low, high = extent(zone)
    simple = zone.is_simple()
    return {
        "file": path, "number": zone.number, "name": zone.name,
        "character set": next(name for name, number in CHARSETS.items() if number == zone.charset),
        "grid": angles.GRIDS[zone.grid], "vertices": len(zone.vertices),
        "known point": _place(zone.known), "second known point": _place(zone.second),
        "extent": f"{angles.words(low)} to {angles.words(high)}",
        "far side": FAR_SIDE.get(zone.far_side(), "refused"),
        "simple": {True: "yes", False: "no", None: "not asked, over 512 vertices"}[simple],
        "corridors": len(corridors(zone)),
    }


def doubts(zone: Zone) -> List[str]:
    """What a checked zone may still be wrong in."""
    found = []
    if zone.far_side() == INSIDE:
        found.append(f"the far side of the globe is inside: the known point {_place(zone.known)} is wrong, or the zone "
                     "is larger than a hemisphere")
    try:
        shared = zone.shared()
    except Refused as refused:
        found.append(f"basin profile: {refused}")
    else:
        if shared is not None:
            a, b = (" to ".join(map(angles.words, zone.side(i))) for i in shared)
            found.append(f"basin profile: {Refused(35, *shared)}: {a}; {b}")
    return found


def differences(left: Zone, right: Zone) -> List[str]:
    """What two zones differ in, in words, and where; empty if in nothing."""
    both = (left.sheet, len(left.sheet), right.sheet, len(right.sheet))
    fields = [number for number in lib.spg_compare_fields(*both).to_bytes(8, "little") if number]
    values = {1: _pair(left.number, right.number), 2: _pair(left.charset, right.charset),
              3: _pair(left.name, right.name), 4: _pair(_place(left.known), _place(right.known)),
              5: _ring(left, right, lib.spg_compare_place(*both)),
              6: _pair(angles.GRIDS[left.grid], angles.GRIDS[right.grid]),
              7: _pair(_place(left.second), _place(right.second))}
    found = [f"{FIELDS[number]}: {values[number]}" for number in fields]
    way, place = lib.spg_compare_way(*both), lib.spg_compare_place(*both)
    if way == 2 or (way == 1 and place):
        how = "run backwards" if way == 2 else "started elsewhere"
        found.append(f"same ring, {how}: vertex {place} of the new one is vertex 0 of the old one, "
                     f"{_place(left.vertices[0])}")
    return found


def _pair(old: Any, new: Any) -> str:
    return f"{'none' if old is None else old} before, {'none' if new is None else new} now"


def _ring(left: Zone, right: Zone, place: int) -> str:
    """Where two rings part."""
    ends = [_place(zone.vertices[place]) if place < len(zone.vertices) else "no such vertex" for zone in (left, right)]
    return (f"{len(left.vertices)} vertices before, {len(right.vertices)} now; "
            f"first difference at vertex {place}: {ends[0]} before, {ends[1]} now")
