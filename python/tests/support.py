"""What the tests share: the repository's folders, the command in a process of its own, the even-odd rule exactly."""
import json
import os
import subprocess
import sys
from fractions import Fraction
from math import cos, hypot, radians
from pathlib import Path
from typing import Any, List, Sequence, Tuple

REPOSITORY = Path(__file__).resolve().parents[2]
MAPS = REPOSITORY / "tests" / "maps"
SAMPLE = REPOSITORY / "sample"

Place = Tuple[Fraction, Fraction]


def run(*words: object, stdin: bytes = b"", env: Any = None) -> "subprocess.CompletedProcess[str]":
    """The command in a process of its own, with its output as text."""
    done = subprocess.run([sys.executable, "-m", "spargolutta", *map(str, words)], input=stdin, capture_output=True,
                          cwd=REPOSITORY / "python", env={**os.environ, **(env or {})}, check=False)
    return subprocess.CompletedProcess(done.args, done.returncode, done.stdout.decode("utf-8"),
                                       done.stderr.decode("utf-8", "backslashreplace"))


def rings_of(path: Path) -> List[List[List[Place]]]:
    """The rings of each feature of a map, in exact fractions of degrees as the text has them."""
    value = json.loads(path.read_text("utf-8-sig"), parse_float=Fraction, parse_int=Fraction)
    found: List[List[List[Place]]] = []
    for feature in value.get("features", [value]):
        rings = _rings(feature.get("geometry", feature) if feature["type"] == "Feature" else feature)
        if rings:
            found.append(rings)
    return found


def _rings(geometry: Any) -> List[List[Place]]:
    if geometry is None:
        return []
    if geometry["type"] == "GeometryCollection":
        return [ring for member in geometry["geometries"] for ring in _rings(member)]
    polygons = {"Polygon": lambda c: [c], "MultiPolygon": lambda c: c}.get(geometry["type"], lambda c: [])
    return [[(p[0], p[1]) for p in ring] for polygon in polygons(geometry.get("coordinates")) for ring in polygon]


def is_inside(rings: Sequence[Sequence[Place]], p: Place) -> bool:
    """The even-odd rule over closed rings, exactly: how often the half-line to the east meets them."""
    inside = False
    for ring in rings:
        for (ax, ay), (bx, by) in zip(ring, ring[1:]):
            if (ay <= p[1]) != (by <= p[1]) and ((p[0] - ax) * (by - ay) < (p[1] - ay) * (bx - ax)) == (by > ay):
                inside = not inside
    return inside


def distance(rings: Sequence[Sequence[Tuple[float, float]]], p: Tuple[float, float]) -> float:
    """About how far the outline is, in degrees of latitude: to leave out what is too near to compare."""
    scale, least = max(1e-4, cos(radians(p[1]))), 1e9
    for ring in rings:
        for (ax, ay), (bx, by) in zip(ring, ring[1:]):
            ux, uy, dx, dy = (ax - p[0]) * scale, ay - p[1], (bx - ax) * scale, by - ay
            size = dx * dx + dy * dy
            along = max(0.0, min(1.0, -(ux * dx + uy * dy) / size)) if size else 0.0
            least = min(least, hypot(ux + along * dx, uy + along * dy))
    return least
