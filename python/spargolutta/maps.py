"""Zones from maps: GeoJSON as tools write it, repaired, every repair said.

The text that goes to the library's import is the strict one; where corridors, a pole or the fine grid need it, points
go by the library's degrees and writing.
"""
import warnings
from dataclasses import dataclass
from typing import Any, Dict, List, NamedTuple, Optional, Sequence, Tuple, Union

from . import angles, geojson, joining, known, rings, simplify
from .angles import COARSE, UNITS, Point, Position
from .library import NAME_MOST, VERTICES_MOST, lib
from .numbers import SIDES_SHARE, Refused
from .rings import Ring
from .zone import CODECS, UTF8, Zone, where_in_vertices

BAD_LIST, SHEET_LENGTH = 10, 22


class Repaired(UserWarning):
    """What was changed on the way from a map to a zone."""


class NotUnderstood(ValueError):
    """A map or an option that cannot be taken as it is."""


@dataclass(frozen=True)
class Options:
    """How zones are made of a map. A known point is for a map of one feature."""

    known: Optional[Position] = None
    grid: int = COARSE
    charset: int = UTF8
    simplify: Optional[float] = None
    far_side_inside: bool = False
    number: Optional[int] = None
    name: Optional[str] = None
    number_from: Optional[str] = None
    name_from: Optional[str] = None


class Outline(NamedTuple):
    """An outline on the grid: its vertices; their positions, if it is one plain ring."""

    points: List[Point]
    positions: Optional[Ring]


def _positions(feature: geojson.Feature, notes: List[str]) -> List[Ring]:
    """All rings of a feature in ten-millionths of a degree."""
    rounding, found = rings.Rounding(), []
    for p, polygon in enumerate(feature.polygons):
        for r, raw in enumerate(polygon):
            found.append(rings.rounded(raw, f"polygon {p}, ring {r}", rounding))
    if not found:
        raise Refused(rings.RING_OPEN, 0, 0, "no ring at all")
    notes += rounding.notes()
    return found


def _simplified(drawn: List[Ring], metres: Optional[float], notes: List[str]) -> List[Ring]:
    if metres is None:
        return drawn
    found = [simplify.simplified(ring, metres) for ring in drawn]
    before, after = sum(map(len, drawn)), sum(map(len, found))
    notes.append(f"simplified within {metres:g} m: {after} vertices of {before}")
    return found


def _lengthened(drawn: List[Ring], notes: List[str]) -> List[Ring]:
    """The rings with vertices added along a cut at 180 degrees, and on sides of over one degree."""
    latitudes = rings.cut_latitudes(drawn)
    cut = [rings.with_cut(ring, latitudes) for ring in drawn]
    found = [rings.lengthened(ring) for ring in cut]
    on_cut, added = (sum(map(len, b)) - sum(map(len, a)) for a, b in ((drawn, cut), (cut, found)))
    if on_cut:
        notes.append(f"vertices added along the cut at 180 degrees, so that its two sides cancel: {on_cut}")
    longest = rings.longest_side(drawn)
    if added:
        notes.append(f"vertices added on sides of over one degree, straight in degrees: {added}, "
                     f"the longest side has {angles.to_text(longest)} degrees")
    if longest > angles.HALF_TURN:
        notes.append("doubt: a side goes round more than half of the globe; a ring that is meant to cross 180 degrees "
                     "has to be cut there")
    return found


def _on_grid(drawn: List[Ring], grid: int, notes: List[str]) -> List[Outline]:
    """The rings on the grid, without neighbours on one point and without rings that have no area left."""
    found, left_out, vanished = [], 0, 0
    for ring in drawn:
        points = angles.grid_points(ring, grid)
        kept = rings.distinct(points)
        left_out += len(points) - len(kept)
        if len(kept) < 3:
            vanished += 1
        else:
            found.append(Outline([points[i] for i in kept], [ring[i] for i in kept]))
    if left_out:
        notes.append(f"neighbours on one point of the {angles.GRIDS[grid]} grid, one left out: {left_out}")
    if vanished:
        notes.append(f"rings smaller than a step of the grid left out: {vanished}")
    return found


def _say_crossings(outlines: Sequence[Outline], grid: int, notes: List[str]) -> None:
    """Says where a ring crosses or touches itself, by the library's basin profile, which takes up to 512 sides. A ring
    that is cut at 180 degrees may touch itself there."""
    for outline in outlines:
        if outline.positions is not None and rings.is_cut(outline.positions):
            continue
        vertices = angles.in_bytes([number for point in outline.points for number in point])
        arguments = (vertices, len(vertices), grid)
        if lib.spg_basin_number(*arguments) == SIDES_SHARE:
            pair = lib.spg_basin_place(*arguments), lib.spg_basin_count(*arguments)
            place = angles.words(angles.place_of(outline.points[pair[0]]))
            notes.append(f"a ring crosses or touches itself: its sides {pair[0]} and {pair[1]}, near {place}; "
                         "inside is by the even-odd rule")


def _joined(outlines: List[Outline], notes: List[str]) -> Outline:
    total = sum(len(outline.points) for outline in outlines)
    if not 3 <= total <= VERTICES_MOST:
        raise Refused(BAD_LIST, 0, 0, f"{total} vertices" + (
            ": --simplify METRES makes fewer" if total else ": smaller than a step of the grid, --grid fine has finer"))
    if len(outlines) == 1:
        return outlines[0]
    joined = joining.join([outline.points for outline in outlines])
    points = [joined.outline[i] for i in rings.distinct(joined.outline)]
    notes.append(f"{len(outlines)} rings (holes, islands, pieces) joined to one outline, corridors: "
                 f"{joined.corridors}, walked out and back")
    return Outline(points, None)


def _strict_text(ring: Ring) -> bytes:
    """The one text that the library's import takes."""
    closed = [*ring, ring[0]]
    listed = ",".join(f"[{angles.to_text(p.lon)},{angles.to_text(p.lat)}]" for p in closed)
    return ('{"type":"Polygon","coordinates":[[' + listed + "]]}").encode("ascii")


def _maker(outline: Outline, number: int, name: bytes, options: Options) -> known.Make:
    """What makes the zone for a known point."""
    ring = outline.positions
    vertices = angles.in_bytes([number for point in outline.points for number in point])
    if ring is None or options.grid != COARSE or rings.longest_side([ring]) > UNITS:
        return lambda point: Zone.write(vertices, point, number, name, options.grid, options.charset)
    text = _strict_text(ring)

    def imported(point: Point) -> Zone:
        try:
            return Zone.read_text(text, point, number, name, options.charset)
        except Refused as refused:
            refused.where = where_in_vertices(vertices, refused.number, refused.place)
            raise
    return imported


def _name_bytes(name: str, charset: int) -> bytes:
    try:
        encoded = name.encode(CODECS[charset])
    except UnicodeEncodeError:
        raise NotUnderstood(f"name {name[:60]!r} has characters that {CODECS[charset]} lacks") from None
    if not 1 <= len(encoded) <= NAME_MOST:
        raise Refused(SHEET_LENGTH, 0, 0, f"a name of {len(encoded)} bytes: 1 to {NAME_MOST} are allowed", "none")
    return encoded


def zone_of(feature: geojson.Feature, number: int, name: str, options: Options) -> Zone:
    """The zone of a feature, with notes of what was changed. Raises Refused, NotUnderstood, WrongKnown or
    FarSideInside."""
    notes = list(feature.notes)
    encoded = _name_bytes(name, options.charset)
    drawn = _simplified(_positions(feature, notes), options.simplify, notes)
    outlines = _on_grid(_lengthened(drawn, notes), options.grid, notes)
    outline = _joined(outlines, notes)
    _say_crossings(outlines, options.grid, notes)
    if len(outline.points) > VERTICES_MOST:
        raise Refused(BAD_LIST, 0, 0, f"{len(outline.points)} vertices: --simplify METRES makes fewer")
    make = _maker(outline, number, encoded, options)
    if options.known is None:
        zone, position = known.find(drawn, options.grid, make, options.far_side_inside)
        notes.append(f"known point found: {angles.words(position)}")
    else:
        zone = known.given(drawn, options.known, options.grid, make, options.far_side_inside)
    if zone.far_side() == 0:
        notes.append("the outline goes round the globe: no far side to ask")
    zone.notes = notes
    return zone


def numbered(feature: geojson.Feature, order: int, stem: str, options: Options) -> Tuple[int, str]:
    """The number and name of a feature's zone, by the options or its properties, else in order and by the file."""
    number = (1 if options.number is None else options.number) + order
    if options.number_from is not None:
        text = geojson.property_of(feature, options.number_from) or ""
        if not (text.isascii() and text.isdigit() and len(text) < 20 and int(text) < 2**32):
            raise NotUnderstood(f"property '{options.number_from}' is no number from 0 to 4294967295: '{text[:40]}'")
        number = int(text)
    if not 0 <= number < 2**32:
        raise NotUnderstood(f"zone number {number}: 0 to 4294967295 are allowed")
    name = options.name
    if name is None:
        name = geojson.property_of(feature, options.name_from or "name")
        if name is None and options.name_from is not None:
            raise NotUnderstood(f"no property '{options.name_from}'")
    return number, stem if name is None else name


def zone_of_text(text: Union[str, bytes], number: int, name: str, options: Dict[str, Any]) -> Zone:
    """The zone of a map of one feature, with a warning for each repair."""
    data = text.encode("utf-8", "surrogatepass") if isinstance(text, str) else bytes(text)
    place = options.pop("known", None)
    if place is not None:
        options["known"] = Position(angles.of_number(place[0]), angles.of_number(place[1]))
    found = geojson.features(geojson.parse(data))
    if len(found) != 1:
        raise NotUnderstood(f"{len(found)} features with polygons: one is needed")
    zone = zone_of(found[0], number, name, Options(**options))
    for note in zone.notes:
        warnings.warn(note, Repaired, stacklevel=3)
    return zone
