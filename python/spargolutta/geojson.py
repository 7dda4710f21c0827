"""GeoJSON as tools write it, unwrapped to features with polygons; numbers are decimals, exactly as the text has them.

What is left out is said in the feature's notes. A text that is no GeoJSON, has no polygon or is not in WGS 84 raises
Refused or NotWgs84.
"""
import json
import re
from dataclasses import dataclass, field
from decimal import Decimal
from typing import Any, Dict, Iterator, List, Optional, Tuple

from .numbers import Refused

Numbers = List[Decimal]
RawRing = List[Numbers]

_WGS84 = re.compile(r"(urn:ogc:def:crs:OGC:[0-9.]*:CRS84|urn:ogc:def:crs:EPSG:([0-9.]*:)?4326|OGC:CRS84|EPSG:4326|CRS84"
                    r"|https?://www\.opengis\.net/def/crs/(OGC/1\.3/CRS84|EPSG/0/4326))", re.IGNORECASE)
_OTHERS = ("Point", "MultiPoint", "LineString", "MultiLineString")
NOT_A_TEXT = 30


class NotWgs84(ValueError):
    """A coordinate reference system other than WGS 84."""


@dataclass
class Feature:
    """One feature: its polygons, each a list of rings, the outer one first; its properties; what was left out."""

    polygons: List[List[RawRing]] = field(default_factory=list)
    properties: Dict[str, Any] = field(default_factory=dict)
    notes: List[str] = field(default_factory=list)
    index: int = 0


def refuse(where: str, place: Optional[int] = None) -> Refused:
    """30, with what is wrong in words, and the byte if one is to blame."""
    return Refused(NOT_A_TEXT, place or 0, 0, where, "none" if place is None else None)


def _constant(name: str) -> Any:
    raise refuse(f"{name} is no number")


def _members(pairs: List[Tuple[str, Any]]) -> Dict[str, Any]:
    """An object. A member that decides something must not be there twice."""
    found = dict(pairs)
    if len(found) < len(pairs):
        names = [name for name, _ in pairs]
        twice = [name for name in ("type", "coordinates", "geometry", "features", "crs") if names.count(name) > 1]
        if twice:
            raise refuse(f"member '{twice[0]}' twice in one object")
    return found


def parse(text: bytes, codec: str = "utf-8") -> Any:
    """The value of a JSON text, with every number a Decimal. Raises Refused with 30, line and column."""
    try:
        decoded = text.decode(codec)
    except UnicodeDecodeError as error:
        line = text.count(b"\n", 0, error.start) + 1
        raise refuse(f"line {line}: byte {text[error.start]:#04x} is not {codec}", error.start) from None
    if decoded.startswith("\ufeff"):
        decoded = decoded[1:]
    try:
        return json.loads(decoded, parse_float=Decimal, parse_int=Decimal, parse_constant=_constant,
                          object_pairs_hook=_members)
    except json.JSONDecodeError as error:
        place = len(decoded[:error.pos].encode(codec, "replace"))
        raise refuse(f"line {error.lineno}, column {error.colno}: {error.msg}", place) from None
    except RecursionError:
        raise refuse("nested too deep") from None
    except ArithmeticError:
        raise refuse("a number that is too long") from None


def features(value: Any) -> List[Feature]:
    """The features of a GeoJSON value that have polygons; those that have none are noted on the first."""
    found, without = [], []
    for index, (member, inherited) in enumerate(_unwrapped(value)):
        feature = Feature(properties=inherited, index=index)
        _collect(member, feature, 0)
        if feature.polygons:
            found.append(feature)
        else:
            without.append(index)
    if not found:
        raise refuse("no Polygon or MultiPolygon in it")
    if without:
        listed = ", ".join(map(str, without[:5])) + (", .." if len(without) > 5 else "")
        found[0].notes.append(f"{len(without)} features without a polygon left out (numbers {listed})")
    return found


def _unwrapped(value: Any) -> Iterator[Tuple[Any, Dict[str, Any]]]:
    """Geometries with the properties of their features."""
    _check_crs(value)
    kind = _kind(value)
    if kind != "FeatureCollection":
        members = [value]
    else:
        members = value.get("features")
        if not isinstance(members, list):
            raise refuse("a FeatureCollection without features")
    for member in members:
        _check_crs(member)
        if _kind(member) != "Feature":
            yield member, {}
            continue
        properties = member.get("properties")
        yield member.get("geometry"), dict(properties) if isinstance(properties, dict) else {}


def _kind(value: Any) -> str:
    if not isinstance(value, dict):
        raise refuse("an object with a type is needed")
    kind = value.get("type")
    if not isinstance(kind, str):
        raise refuse("an object without a type")
    return kind


def _check_crs(value: Any) -> None:
    """Raises NotWgs84 for a member `crs` that names another system than WGS 84."""
    crs = value.get("crs") if isinstance(value, dict) else None
    if crs is None:
        return
    properties = crs.get("properties") if isinstance(crs, dict) else None
    name = properties.get("name") if isinstance(properties, dict) else None
    if not isinstance(name, str) or not _WGS84.fullmatch(name.strip()):
        shown = name if isinstance(name, str) else json.dumps(crs, default=str)
        raise NotWgs84(f"coordinate reference system {shown[:80]}: only WGS 84 (CRS84, EPSG:4326) is read")


def _collect(geometry: Any, feature: Feature, depth: int) -> None:
    """Adds the polygons of a geometry to the feature."""
    if geometry is None:
        return
    kind = _kind(geometry)
    _check_crs(geometry)
    if kind == "GeometryCollection":
        members = geometry.get("geometries")
        if not isinstance(members, list) or depth > 50:
            raise refuse("a GeometryCollection without geometries, or nested too deep")
        for member in members:
            _collect(member, feature, depth + 1)
    elif kind == "Polygon":
        feature.polygons.append(_polygon(geometry.get("coordinates")))
    elif kind == "MultiPolygon":
        feature.polygons.extend(_polygon(polygon) for polygon in _array(geometry.get("coordinates")))
    elif kind in _OTHERS:
        feature.notes.append(f"a {kind} left out")
    else:
        raise refuse(f"type '{kind[:40]}' is none of GeoJSON's")


def _array(value: Any) -> List[Any]:
    if not isinstance(value, list):
        raise refuse("an array of coordinates is needed")
    return value


def _polygon(value: Any) -> List[RawRing]:
    return [[_position(position) for position in _array(ring)] for ring in _array(value)]


def _position(value: Any) -> Numbers:
    if len(_array(value)) < 2 or not all(isinstance(number, Decimal) for number in value):
        shown = json.dumps(value, default=str)
        raise refuse(f"{shown[:60]} is no position: two or more numbers are needed")
    return list(value)


def property_of(feature: Feature, name: str) -> Optional[str]:
    """A property as text: a string or a number; None where it is missing or something else."""
    value = feature.properties.get(name)
    if isinstance(value, str):
        return value
    if isinstance(value, Decimal) and value.is_finite() and abs(value.adjusted()) < 40:
        return format(value.normalize(), "f")
    return None
