"""The message of every refusal that the command can meet: number, meaning, place in words and in degrees, status."""
import json
import struct
import tempfile
import unittest
from math import atan2, degrees
from pathlib import Path
from typing import List, Sequence, Tuple

from .support import run

Point = Tuple[int, int, int]
OCTANT = [(1, 0, 0), (0, 1, 0), (0, 0, 1)]


def field(tag: int, body: bytes) -> bytes:
    return struct.pack(">BH", tag, len(body)) + body


def points(listed: Sequence[Point]) -> bytes:
    return b"".join(struct.pack(">3i", *point) for point in listed)


def sheet(vertices: Sequence[Point], known: Point = (1, 1, 1), charset: int = 1, second: Sequence[Point] = ()) -> bytes:
    """A sheet byte by byte, as document 01 lays it out."""
    return (field(1, struct.pack(">I", 7)) + field(2, bytes([charset])) + field(3, b"A") + field(4, points([known]))
            + field(5, points(vertices)) + (field(6, points(second)) if second else b""))


def polygon(*ring: Tuple[float, float]) -> bytes:
    return json.dumps({"type": "Polygon", "coordinates": [ring]}).encode()


class Refusals(unittest.TestCase):
    def setUp(self) -> None:
        folder = tempfile.TemporaryDirectory()
        self.addCleanup(folder.cleanup)
        self.folder = Path(folder.name)

    def file(self, name: str, data: bytes) -> Path:
        path = self.folder / name
        path.write_bytes(data)
        return path

    def told(self, expected: str, *words: object, status: int = 1) -> None:
        """Runs the command; standard error must have the one line, after the file's name."""
        done = run(*words)
        self.assertEqual(done.returncode, status, done.stderr)
        self.assertIn(expected, done.stderr.splitlines())

    def check(self, data: bytes, refusal: str) -> None:
        path = self.file("bad.sheet", data)
        self.told(f"{path}: refused: {refusal}", "check", path)

    def test_sheets_by_their_vertices(self) -> None:
        self.check(sheet([(1, 0, 0), (0, 1048577, 0), (0, 0, 1)]),
                   "11, vertex beyond the grid, vertex 1, numbers 0 1048577 0")
        self.check(sheet([(1, 0, 0), (0, 1, 0), (0, 0, 0)]), "12, vertex all zero, vertex 2")
        self.check(sheet([(1, 0, 0), (0, 1, 0), (0, 2, 0), (0, 0, 1)]),
                   "13, side's ends in the same direction, side 1, 90 east, 0 north to 90 east, 0 north")
        self.check(sheet([(1, 0, 0), (-1, 0, 0), (0, 0, 1)]),
                   "14, side's ends opposite, side 0, 0 east, 0 north to 180 east, 0 north")
        self.check(sheet(OCTANT, known=(0, 0, 0)), "15, known point beyond the grid or all zero")
        self.check(sheet(OCTANT, known=(1, -1, 0)),
                   "16, known point on the great circle of a side, side 0, 0 east, 0 north to 90 east, 0 north")
        self.check(sheet(OCTANT, second=[(1, 1, -1)]), "19, no second known point that passes")

    def test_sheets_by_their_bytes(self) -> None:
        whole = sheet(OCTANT)
        self.check(b"", "20, sheet cut short, byte 0")
        self.check(whole[:40], "20, sheet cut short, byte 30")
        self.check(b"\x02" + whole[1:], "21, wrong tag in the sheet, byte 0")
        self.check(whole[:1] + b"\x00\x05" + whole[3:], "22, length not allowed in the sheet, byte 0")
        self.check(sheet(OCTANT, charset=9), "23, unknown character set, byte 7")

    def test_books(self) -> None:
        path = self.file("long.book", sheet(OCTANT) * 65)
        self.told(f"{path}: refused: 36, bytes left after 64 sheets, byte {64 * 69}", "check", path)
        path = self.file("trailing.book", sheet(OCTANT) + b"x")
        self.told(f"{path}: refused: 20, sheet cut short, byte 69", "show", path)
        path = self.file("mixed.book", sheet(OCTANT) + sheet(OCTANT, known=(0, 0, 0)))
        self.told(f"{path}: refused: sheet 1: 15, known point beyond the grid or all zero", "check", path)
        one = self.file("one.sheet", sheet(OCTANT))
        self.told(f"{self.folder / 'x'}: refused: 36, bytes left after 64 sheets, byte {64 * 69}: 65 zones, and a book "
                  "has up to 64", "book", *[one] * 65, "-o", self.folder / "x", status=2)
        self.assertFalse((self.folder / "x").exists())

    def test_compare(self) -> None:
        good, bad = self.file("good.sheet", sheet(OCTANT)), self.file("bad.sheet", sheet(OCTANT) + b"\x07")
        self.told(f"{bad}: refused: 20, sheet cut short, byte 69", "compare", good, bad)

    def test_doubts(self) -> None:
        far = run("check", self.file("far.sheet", sheet(OCTANT, known=(-1, -1, -2))))
        self.assertEqual(far.returncode, 1)
        self.assertIn("zone 7 (A): doubt: the far side of the globe is inside: the known point 135 west, "
                      "54.7356103 south is wrong, or the zone is larger than a hemisphere", far.stdout)
        self.assertEqual(run("check", "--far-side-inside", self.folder / "far.sheet").returncode, 0)
        crossing = [(4, 0, 1), (0, 4, 1), (4, 4, 1), (0, 0, 1)]
        told = run("check", self.file("crossing.sheet", sheet(crossing, known=(8, 7, 3))))
        self.assertIn("doubt: basin profile: 35, two sides share a point, sides 0 and 2: 0 east, 14.0362435 north to "
                      "90 east, 14.0362435 north; 45 east, 10.0249879 north to 0 east, 90 north", told.stdout)
        ring = [(1000, 1000 - i, i * i) for i in range(600)] + [(1000, i - 600, 700_000) for i in range(600)]
        many = run("check", self.file("many.sheet", sheet(ring, known=(1001, 500, 399_999))))
        self.assertIn("doubt: basin profile: 34, over 512 vertices", many.stdout, many.stderr)

    def test_maps(self) -> None:
        out = self.folder / "out.sheet"
        cases: List[Tuple[bytes, str]] = [
            (b'{"type":"Polygon",\n"coordinates":[[[1,2],}', "30, not one GeoJSON Polygon of the kind that is read, "
             "byte 41, line 2, column 23: Expecting value"),
            (b'{"type":"Polygon","coordinates":[[[1,"2"]]]}', "30, not one GeoJSON Polygon of the kind that is read, "
             '["1", "2"] is no position: two or more numbers are needed'),
            (b'{"type":"Point","coordinates":[1,2]}', "30, not one GeoJSON Polygon of the kind that is read, "
             "no Polygon or MultiPolygon in it"),
            (b'{"type":"Polygon","coordinates":[],"type":"Polygon"}', "30, not one GeoJSON Polygon of the kind that is "
             "read, member 'type' twice in one object"),
            (b'{"type":"Polygon","name":"\xff"}', "30, not one GeoJSON Polygon of the kind that is read, byte 26, "
             "line 1: byte 0xff is not utf-8"),
            (polygon((0, 0), (200.5, 0), (1, 1), (0, 0)), "31, latitude past 90 or longitude past 180 degrees, "
             "position 1, polygon 0, ring 0: 200.5, 0"),
            (polygon((0, 0), (1, 0), (0, 0)), "32, ring not closed or under four positions, "
             "polygon 0, ring 0 has 3 positions"),
            (polygon((0, 0), (1, 0), (1, 1), (0, 1)), "32, ring not closed or under four positions, "
             "polygon 0, ring 0 begins at 0 east, 0 north and ends at 0 east, 1 north"),
            (polygon(*[(i % 700 / 1000, i // 700 / 1000) for i in range(4200)], (0, 0)), "10, list of a length not "
             "allowed, 4200 vertices: --simplify METRES makes fewer"),
            (polygon((0, 0), (1e-6, 0), (1e-6, 1e-6), (0, 0)), "10, list of a length not allowed, 0 vertices: smaller "
             "than a step of the grid, --grid fine has finer"),
        ]
        for data, refusal in cases:
            path = self.file("bad.geojson", data)
            self.told(f"{path}: refused: {refusal}", "zone", path, "-o", out)
        self.assertFalse(out.exists())

    def test_options(self) -> None:
        square = self.file("square.geojson", polygon((1, 1), (2, 1), (2, 2), (1, 2), (1, 1)))
        out = self.folder / "out.sheet"
        self.told(f"{square}: refused: 22, length not allowed in the sheet, a name of 121 bytes: 1 to 120 are "
                  "allowed", "zone", square, "--name", "x" * 121, "-o", out)
        self.told(f"{square}: refused: name 'Ж' has characters that iso8859-7 lacks", "zone", square, "--name", "Ж",
                  "--charset", "iso-8859-7", "-o", out)
        self.told(f"{square}: refused: known point 2.5 east, 1.5 north is outside by the map itself",
                  "zone", square, "--known", "2.5,1.5", "-o", out)
        self.told(f"{square}: refused: known point 2 east, 1.5 north is on the outline by the map itself",
                  "zone", square, "--known", "2,1.5", "-o", out)
        self.told(f"{square}: refused: property 'no' is no number from 0 to 4294967295: ''",
                  "zone", square, "--number-from", "no", "-o", out)
        self.told("--known: '1;2' is not LON,LAT in degrees", "zone", square, "--known", "1;2", "-o", out, status=2)
        self.assertFalse(out.exists())
        ring = ((-1, 0), (0, 0), (0.2, -0.5), (1, -0.5), (1, 0.5), (-1, 0.5), (-1, 0))
        level = self.file("level.geojson", polygon(*ring))
        west = degrees(atan2(18300, 1048416))  # 2^20 sin and cos of one degree, rounded
        self.told(f"{level}: refused: 16, known point on the great circle of a side, side 0, {west:.7f} west, 0 north "
                  "to 0 east, 0 north", "zone", level, "--known", "0.7,0", "-o", out)

    def test_far_side(self) -> None:
        world = self.file("world.geojson", polygon((-180, -90), (180, -90), (180, 90), (-180, 90), (-180, -90)))
        out = self.folder / "out.sheet"
        hole = json.dumps({"type": "Polygon", "coordinates": [
            [[-180, -90], [180, -90], [180, 90], [-180, 90], [-180, -90]],
            [[10, 10], [11, 10], [11, 11], [10, 10]]]}).encode()
        for path in (world, self.file("but.geojson", hole)):
            done = run("zone", path, "-o", out)
            self.assertEqual(done.returncode, 0, done.stderr)
            self.assertIn("the outline goes round the globe: no far side to ask", done.stderr)
        # Some metres wide: no point of the coarse grid is inside, and the nearest ones are outside the outline.
        sliver = self.file("sliver.geojson", polygon((10.8802325, 50.0868526), (10.8802025, 50.0867538),
                                                     (10.8801928, 50.0867361), (10.8802325, 50.0868526)))
        self.told(f"{sliver}: refused: with the known point 10.8802292 east, 50.0868424 north the far side of the "
                  "globe is inside: the known point is wrong, the zone is as small as the grid's steps (--grid fine), "
                  "or it is larger than a hemisphere (--far-side-inside)", "zone", sliver, "-o", out)
        self.assertEqual(run("zone", sliver, "--far-side-inside", "-o", out).returncode, 0)
        self.assertEqual(run("zone", sliver, "--grid", "fine", "-o", out).returncode, 0)

    def test_stops(self) -> None:
        path = self.file("zone.sheet", sheet(OCTANT))
        stops = self.file("stops.csv", b"id,name,lon,lat\na,A,-135,-35.2643897\nb,B,200,1\nc,C,,5\nd,D,1\ne,\xff,1,1\n"
                          b'f,"F"x,1,1\ng,G,45,45\n')
        done = run("which", path, stops)
        self.assertEqual(done.returncode, 1)
        self.assertEqual(done.stdout, "stop_id,stop_name,zone,zone_name,verdict,side\ng,G,7,A,inside,\n")
        self.assertEqual(done.stderr.splitlines(), [f"{stops}, line {line}" for line in (
            "4: refused: no degrees: longitude '', latitude '5'",
            "5: refused: 3 fields, and longitude or latitude is not among them",
            "6: refused: byte 0xff is not utf-8 (--charset names another)",
            "7: refused: not CSV: ',' expected after '\"'",
            "2: refused: stop a (A): 18, query opposite the known point, zone 7 (A), 135 west, 35.2643897 south",
            "3: refused: stop b (B): 31, latitude past 90 or longitude past 180 degrees, longitude 200, latitude 1",
        )])

    def test_opposite_the_known_point(self) -> None:
        limit = 1 << 20
        path = self.file("axis.sheet", sheet([(limit, 9, 9), (limit, -9, 9), (limit, 3, -9)], known=(limit, 0, 0)))
        stops = self.file("stops.csv", b"id,name,lon,lat\nx,Far,180,0\n")
        self.told(f"{stops}, line 2: refused: stop x (Far): 18, query opposite the known point, zone 7 (A), "
                  "180 east, 0 north", "which", path, stops)


if __name__ == "__main__":
    unittest.main()
