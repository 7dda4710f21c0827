"""Repairs keep the meaning: verdicts of thousands of stops equal the even-odd rule over the map's own rings, in exact
fractions of degrees, wherever the outline is farther than the grid's step and the bend of a side of one degree."""
import random
import unittest
from fractions import Fraction
from math import ceil, cos, hypot, radians, tan
from pathlib import Path
from typing import List, Sequence, Tuple

from spargolutta import FINE, geojson
from spargolutta.angles import COARSE, UNITS
from spargolutta.maps import Options, zone_of

from .support import MAPS, Place, distance, is_inside, rings_of

_STEP = {COARSE: 8.0, FINE: 0.4}  # metres: a step, and the rounding of the stop itself
_METRES = 111_000
_SCALE = 10**18  # of a degree: decimals of the maps are whole numbers of it, so that all work is exact


def zones(path: Path, **options: object) -> List[object]:
    found = geojson.features(geojson.parse(path.read_bytes()))
    return [zone_of(feature, 1, "x", Options(**options)) for feature in found]


def bend(rings: Sequence[Sequence[Place]]) -> float:
    """How far in metres an arc may be from the straight line in degrees: a line of slope t from the east has the
    curvature tan(lat) cos(t) (1 + sin(t)^2) / R, under 1.1 tan(lat) / R, and a piece of it is at most a degree."""
    most = 0.0
    for ring in rings:
        for a, b in zip(ring, ring[1:]):
            east, north = abs(float(b[0] - a[0])), abs(float(b[1] - a[1]))
            pieces = max(1, ceil(max(east, north)))
            lats = sorted(min(89.9, abs(float(p[1]))) for p in (a, b))
            length = hypot(radians(east / pieces) * cos(radians(lats[0])), radians(north / pieces))
            most = max(most, 6_371_000 * length ** 2 / 8 * 1.1 * tan(radians(lats[1])) if east else 0.0)
    return most


def stops(rings: Sequence[Sequence[Place]], count: int, seed: int) -> List[Tuple[int, int]]:
    """Positions in ten-millionths, within the outline's extent and some way around it."""
    source = random.Random(seed)
    lons, lats = [[float(p[k]) for ring in rings for p in ring] for k in (0, 1)]
    edge = 0.1 * max(max(lons) - min(lons), max(lats) - min(lats), 0.01)
    found = []
    for _ in range(count):
        lon = source.uniform(max(-180, min(lons) - edge), min(180, max(lons) + edge))
        lat = source.uniform(max(-90, min(lats) - edge), min(90, max(lats) + edge))
        found.append((round(lon * UNITS), round(lat * UNITS)))
    return found


class Meaning(unittest.TestCase):
    def same(self, name: str, count: int = 2500, at_least: float = 0.5, **options: object) -> None:
        """Judges stops by the zones of a map and by the even-odd rule; that share of them must be far enough."""
        path = MAPS / name
        for rings, zone in zip(rings_of(path), zones(path, **options)):
            tolerance = _STEP[zone.grid] + bend(rings)
            asked = stops(rings, count, len(name))
            told = zone.judge_many([Fraction(p[0], UNITS) for p in asked], [Fraction(p[1], UNITS) for p in asked])
            compared, drawn = 0, [[(float(p[0]), float(p[1])) for p in ring] for ring in rings]
            scaled = [[(p[0] * _SCALE, p[1] * _SCALE) for p in ring] for ring in rings]
            self.assertTrue(all(c.denominator == 1 for ring in scaled for p in ring for c in p))
            whole = [[(p[0].numerator, p[1].numerator) for p in ring] for ring in scaled]
            for (lon, lat), number in zip(asked, told.numbers):
                if distance(drawn, (lon / UNITS, lat / UNITS)) > tolerance / _METRES:
                    compared += 1
                    place = lon * (_SCALE // UNITS), lat * (_SCALE // UNITS)
                    self.assertEqual(number, 1 if is_inside(whole, place) else 2, (name, lon, lat))
            self.assertGreater(compared, at_least * count, name)

    def test_hole_altitude_properties(self) -> None:
        self.same("gdal.geojson")
        self.same("gdal-id.geojson", grid=FINE)

    def test_islands_and_island_in_a_lake(self) -> None:
        self.same("geopandas.geojson", grid=FINE)
        self.same("by-hand-lake-island.geojson")

    def test_cut_at_180_degrees(self) -> None:
        self.same("gdal-wrapped.geojson")
        self.same("gdal-rfc7946.geojson", grid=FINE)
        self.same("by-hand-date-line-hole.geojson")

    def test_poles(self) -> None:
        self.same("shapely-pole.geojson", at_least=0.2)
        self.same("by-hand-north-pole.geojson", at_least=0.2)

    def test_rounding_and_exponents(self) -> None:
        self.same("gdal-15-decimals.geojson")
        self.same("shapely-buffer.geojson")
        self.same("by-hand-exponents.geojson")

    def test_long_sides(self) -> None:
        self.same("shapely-box.geojson")
        self.same("by-hand-not-cut.geojson")

    def test_neighbours(self) -> None:
        self.same("by-hand-neighbours.geojson")

    def test_crossing(self) -> None:
        self.same("by-hand-crossing.geojson")

    def test_collection(self) -> None:
        self.same("gdal-collection.geojson")


if __name__ == "__main__":
    unittest.main()
