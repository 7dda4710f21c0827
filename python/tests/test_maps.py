"""Maps as tools write them: what is said of each file, and what became of it. docs/landings/tool.md has the table."""
import tempfile
import unittest
from pathlib import Path
from typing import Dict, List

import spargolutta as spg
from spargolutta import angles, geojson, maps
from spargolutta.describe import corridors

from .support import MAPS, run

HARBOUR = ["2 rings (holes, islands, pieces) joined to one outline, corridors: 1, walked out and back",
           "known point found: 23.6375 east, 37.9283333 north"]
ISLANDS = ["4 rings (holes, islands, pieces) joined to one outline, corridors: 3, walked out and back",
           "known point found: 25.4 east, 36.3333333 north"]
DATE_LINE = ["2 rings (holes, islands, pieces) joined to one outline, corridors: 0, walked out and back",
             "known point found: 179.905 west, 16.775 south"]
THREE = ([f"feature 0: {line}" for line in ["altitudes dropped: 12", *HARBOUR]]
         + [f"feature 1: {line}" for line in ISLANDS] + [f"feature 2: {line}" for line in DATE_LINE])
CRS = "refused: coordinate reference system urn:ogc:def:crs:EPSG::{}: only WGS 84 (CRS84, EPSG:4326) is read"
FIFTEEN = "numbers rounded to seven decimals, half to even: 3, by at most 1.0e-14 degrees (0.0000 m)"

TOLD: Dict[str, List[str]] = {
    "gdal.geojson": THREE, "gdal-rfc7946.geojson": THREE, "geopandas.geojson": THREE,
    "geopandas-to-json.geojson": THREE,
    "gdal-id.geojson": ["altitudes dropped: 12", *HARBOUR],
    "gdal-collection.geojson": [line for line in THREE if "altitudes" not in line],
    "gdal-wrapped.geojson": DATE_LINE,
    "gdal-15-decimals.geojson": ["numbers rounded to seven decimals, half to even: 4, by at most 3.3e-08 degrees "
                                 "(0.0037 m)", "known point found: 10.5 east, 54.1648148 north"],
    "gdal-greek-grid.geojson": [CRS.format(2100)], "gdal-web-mercator.geojson": [CRS.format(3857)],
    "geopandas-laea.geojson": [CRS.format(3035)],
    "shapely-box.geojson": ["vertices added on sides of over one degree, straight in degrees: 60, the longest side has "
                            "20 degrees", "known point found: 2 west, 46 north"],
    "shapely-buffer.geojson": ["numbers rounded to seven decimals, half to even: 122, by at most 4.3e-08 degrees "
                               "(0.0048 m)", "known point found: 18.06 east, 59.33 north"],
    "shapely-pole.geojson": ["vertices added on sides of over one degree, straight in degrees: 365, the longest side "
                             "has 120 degrees", "neighbours on one point of the coarse grid, one left out: 1",
                             "known point found: 0.0009872 east, 87.8611112 south"],
    "spatialite.geojson": [FIFTEEN, "known point found: 5.2916666 east, 60.3416666 north"],
    "spatialite-crs-bbox.geojson": [FIFTEEN, "known point found: 5.2916666 east, 60.3416666 north"],
    "by-hand-bom.geojson": ["known point found: 5.3194444 east, 58.1388888 north"],
    "by-hand-crs-null.geojson": ["known point found: 5.5 east, 58.2777777 north"],
    "by-hand-crossing.geojson": ["a ring crosses or touches itself: its sides 0 and 2, near 11.9999837 east, "
                                 "54.9999784 north; inside is by the even-odd rule",
                                 "known point found: 12.05 east, 55.1 north"],
    "by-hand-date-line-hole.geojson": [
        "vertices added along the cut at 180 degrees, so that its two sides cancel: 7",
        "vertices added on sides of over one degree, straight in degrees: 2, the longest side has 2 degrees",
        "4 rings (holes, islands, pieces) joined to one outline, corridors: 0, walked out and back",
        "known point found: 179.5 east, 66.6666666 north"],
    "by-hand-exponents.geojson": ["numbers rounded to seven decimals, half to even: 1, by at most 1.5e-08 degrees "
                                  "(0.0017 m)", "known point found: 12.1 east, 55.0342935 north"],
    "by-hand-lake-island.geojson": [
        "feature 0: 2 features without a polygon left out (numbers 1, 2)",
        "feature 0: 3 rings (holes, islands, pieces) joined to one outline, corridors: 2, walked out and back",
        "feature 0: known point found: 10.1 east, 60.1388888 north", "feature 3: a Point left out",
        "feature 3: 2 rings (holes, islands, pieces) joined to one outline, corridors: 1, walked out and back",
        "feature 3: known point found: 11.1 east, 61.0277777 north"],
    "by-hand-neighbours.geojson": ["neighbours on one point of the coarse grid, one left out: 3",
                                   "known point found: 5.3194444 east, 58.1388916 north"],
    "by-hand-north-pole.geojson": [
        "vertices added on sides of over one degree, straight in degrees: 358, the longest side has 90 degrees",
        "neighbours on one point of the coarse grid, one left out: 1",
        "known point found: 100.0000005 east, 88.1666666 north"],
    "by-hand-not-cut.geojson": [
        "vertices added on sides of over one degree, straight in degrees: 716, the longest side has 359 degrees",
        "doubt: a side goes round more than half of the globe; a ring that is meant to cross 180 degrees has to be cut "
        "there", "known point found: 0 east, 16.5 south"],
    "by-hand-unclosed.geojson": ["refused: 32, ring not closed or under four positions, polygon 0, ring 0 begins at "
                                 "12 east, 55 north and ends at 12 east, 55.2 north"],
}


def zone(name: str, **options: object) -> spg.Zone:
    found = geojson.features(geojson.parse((MAPS / name).read_bytes()))
    return maps.zone_of(found[0], 1, "x", maps.Options(**options))


class Maps(unittest.TestCase):
    maxDiff = None

    def test_what_is_said(self) -> None:
        self.assertEqual(sorted(TOLD), sorted(path.name for path in MAPS.glob("*.geojson")))
        with tempfile.TemporaryDirectory() as folder:
            for name, lines in TOLD.items():
                done = run("zone", MAPS / name, "-o", folder + "/")
                self.assertEqual(done.stderr.splitlines(), [f"{MAPS / name}: {line}" for line in lines])
                self.assertEqual(done.returncode, 1 if "refused" in lines[0] else 0)

    def test_import_and_writing_agree(self) -> None:
        """A plain ring by the library's import is the sheet that writing its points gives."""
        for name in ("shapely-buffer.geojson", "by-hand-neighbours.geojson", "by-hand-crossing.geojson"):
            made = zone(name)
            self.assertEqual(spg.Zone.write(made.vertex_bytes, made.known, 1, "x"), made)

    def test_cut_is_no_border(self) -> None:
        made = zone("gdal-wrapped.geojson")
        self.assertEqual(len(corridors(made)), 2)
        self.assertTrue(made.judge(180, "-16.7").inside and made.judge(-180, "-16.7").inside)
        self.assertTrue(zone("by-hand-date-line-hole.geojson").judge(180, 66).outside)

    def test_poles_are_inside(self) -> None:
        for name, lat in (("shapely-pole.geojson", -90), ("by-hand-north-pole.geojson", 90)):
            made = zone(name)
            for lon in (-180, -90, 0, 17, 180):
                self.assertTrue(made.judge(lon, lat).inside)
            self.assertTrue(made.judge(0, -lat).outside)

    def test_simplify(self) -> None:
        made = zone("shapely-buffer.geojson", simplify=100.0)
        self.assertIn("simplified within 100 m: ", made.notes[1])
        self.assertLess(len(made.vertices), 40)
        self.assertTrue(made.judge(18.06, 59.33).inside)

    def test_names_and_numbers(self) -> None:
        with tempfile.TemporaryDirectory() as folder:
            out, greek = Path(folder) / "x.book", Path(folder) / "greek.geojson"
            text = (MAPS / "by-hand-lake-island.geojson").read_text("utf-8")
            greek.write_bytes(text.encode("cp1253"))
            self.assertIn("line 2: byte 0xcb is not utf-8", run("zone", greek, "-o", out).stderr)
            done = run("zone", greek, "--number-from", "no", "--name-from", "title",
                       "--charset", "windows-1253", "-o", out)
            self.assertEqual(done.returncode, 0)
            book = spg.Book(out.read_bytes())
            self.assertEqual([(z.number, z.name, z.charset) for z in book.zones],
                             [(31, "Λίμνη", spg.WINDOWS_1253), (34, "Two", spg.WINDOWS_1253)])
            done = run("zone", MAPS / "gdal.geojson", "-o", Path(folder) / "one.sheet")
            self.assertEqual(done.returncode, 2)
            self.assertIn("3 zones: name a folder (-o one/) or a .book to write", done.stderr)

    def test_densified_both_ways_alike(self) -> None:
        from spargolutta.rings import lengthened
        a, b = angles.Position(-123456789, 501234567), angles.Position(-23456781, 481234560)
        there, back = lengthened([a, b])[1:], lengthened([b, a])[1:]
        middle = len(there) // 2
        self.assertEqual(there[:middle], there[middle + 1:][::-1])
        self.assertEqual(sorted(there[:middle]), sorted(back[:middle]))


if __name__ == "__main__":
    unittest.main()
