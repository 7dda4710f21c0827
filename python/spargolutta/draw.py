"""`draw`: zones and stops as one HTML page that fetches nothing, or as an SVG picture."""
import base64
import json
import math
import os
from pathlib import Path
from typing import Any, Dict, List, Optional, Sequence, Tuple

from . import angles
from .angles import UNITS
from .describe import corridors
from .library import HERE, lib
from .numbers import BOUNDARY, DONE, INSIDE, OUTSIDE, Refused
from .report import Report, stop_text
from .stops import Stops
from .zone import Zone

_SCRIPTS = ("judge.js", "globe.js", "marks.js", "panel.js", "events.js")
_FURTHEST, _CLOSEST = 1.0, 2e6

Vector = Tuple[float, float, float]


def library_as_wasm() -> Optional[bytes]:
    """The library as WebAssembly, where it was built: named by SPARGOLUTTA_WASM, beside this file, or in the tree."""
    named = os.environ.get("SPARGOLUTTA_WASM")
    tree = HERE.parent.parent
    for path in [Path(named)] if named else [HERE / "spargolutta.wasm", tree / "target" / "wasm" / "spargolutta.wasm"]:
        if path.is_file():
            return path.read_bytes()
    return None


def unit(point: Sequence[int]) -> Vector:
    """A point's direction, of length 1."""
    size = math.sqrt(sum(c * c for c in point))
    return point[0] / size, point[1] / size, point[2] / size


def zone_data(zone: Zone) -> Dict[str, Any]:
    """What the page has of a zone."""
    return {"number": zone.number, "name": zone.name, "grid": zone.grid,
            "sheet": base64.b64encode(zone.sheet).decode("ascii"), "vertices": zone.vertices,
            "corridors": corridors(zone), "known": [point for point in (zone.known, zone.second) if point]}


def _kind(answers: Sequence[Dict[str, int]]) -> str:
    """The one word for a stop: boundary before inside, refused where nothing holds it."""
    numbers = {answer["number"] for answer in answers}
    if BOUNDARY in numbers:
        return "boundary"
    return "inside" if INSIDE in numbers else "refused" if numbers else "outside"


def stop_data(zones: Sequence[Zone], stops: Stops, path: str, report: Report) -> List[Dict[str, Any]]:
    """What the page has of the stops: the answers of the zones that they are not outside of."""
    found: List[Dict[str, Any]] = []
    for part in stops:
        rows: List[Dict[str, Any]] = [{"id": i, "name": name, "answers": []} for i, name in zip(part.ids, part.names)]
        for i, zone in enumerate(zones):
            results = angles.from_bytes(zone.judge_points(angles.points_of(part.positions, zone.grid)), unsigned=True)
            for k in range(len(rows)):
                if results[3 * k] != OUTSIDE:
                    number, place, count = results[3 * k:3 * k + 3]
                    rows[k]["answers"].append({"zone": i, "number": number, "place": place, "count": count})
        numbers = angles.from_bytes(part.positions)
        for k, row in enumerate(rows):
            lon, lat = numbers[2 * k], numbers[2 * k + 1]
            number = lib.spg_point_number(lon, lat)
            if number != DONE:
                why = Refused(number, 0, 0, f"longitude {angles.to_text(lon)}, latitude {angles.to_text(lat)}", "none")
                report.refuse(f"{path}, line {part.lines[k]}", stop_text(row["id"], row["name"], why))
                continue
            found.append({**row, "key": len(found), "lon": lon, "lat": lat, "kind": _kind(row["answers"])})
    return found


def view_of(zones: Sequence[Zone], stops: Sequence[Dict[str, Any]]) -> Dict[str, float]:
    """Where to look first: at everything, or at the first zone where everything is more than half of the globe."""
    first = [unit(point) for point in zones[0].vertices]
    every = [unit(point) for zone in zones for point in zone.vertices]
    every += [unit_at(stop["lon"] / UNITS, stop["lat"] / UNITS) for stop in stops]
    for directions in (every, first):
        total = [sum(direction[k] for direction in directions) for k in range(3)]
        size = math.sqrt(sum(c * c for c in total)) or 1.0
        middle = [c / size for c in total]
        widest = max(math.dist(direction, middle) for direction in directions)
        if widest < 1:
            break
    lon, lat = math.degrees(math.atan2(middle[1], middle[0])), math.degrees(math.asin(max(-1, min(1, middle[2]))))
    return {"lon": lon, "lat": max(-89.0, min(89.0, lat)),
            "zoom": min(_CLOSEST, max(_FURTHEST, 0.8 / widest if widest else 1.0))}


def unit_at(lon: float, lat: float) -> Vector:
    """The direction of degrees."""
    a, b = math.radians(lon), math.radians(lat)
    return math.cos(b) * math.cos(a), math.cos(b) * math.sin(a), math.sin(b)


def page(zones: Sequence[Zone], stops: Sequence[Dict[str, Any]]) -> bytes:
    """The whole page."""
    folder = HERE / "page"
    data = json.dumps({"zones": [zone_data(zone) for zone in zones], "stops": stops, "view": view_of(zones, stops)})
    wasm = base64.b64encode(library_as_wasm() or b"").decode("ascii")
    scripts = "".join((folder / name).read_text("utf-8") for name in _SCRIPTS)
    text = (folder / "page.html").read_text("utf-8")
    for mark, value in (("@SCRIPTS@", scripts), ("@WASM@", wasm), ("@DATA@", data.replace("<", "\\u003c"))):
        before, after = text.split(mark)
        text = before + value + after
    return text.encode("utf-8")
