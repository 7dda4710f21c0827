"""The command as it is used: verbs, GTFS and other CSV, exit status, closed pipes and full disks, speed."""
import json
import os
import pty
import random
import resource
import signal
import subprocess
import sys
import tempfile
import time
import unittest
from math import cos, pi, sin
from pathlib import Path
from xml.etree import ElementTree

import spargolutta as spg
from spargolutta import geojson, maps

from .support import MAPS, REPOSITORY, run

HEADER = "stop_id,stop_name,zone,zone_name,verdict,side\n"
COMMAND = [sys.executable, "-m", "spargolutta"]


class Files(unittest.TestCase):
    def setUp(self) -> None:
        folder = tempfile.TemporaryDirectory()
        self.addCleanup(folder.cleanup)
        self.folder = Path(folder.name)

    def sheet(self, name: str = "harbour.sheet", source: str = "gdal-id.geojson", *words: str) -> Path:
        path = self.folder / name
        done = run("zone", MAPS / source, *words, "-o", path)
        self.assertEqual(done.returncode, 0, done.stderr)
        return path


class Which(Files):
    def test_gtfs(self) -> None:
        """BOM, quotes, CRLF, a line break in a name, generic nodes without coordinates, parent stations."""
        rows = [b"\xef\xbb\xbfstop_id,stop_code,stop_name,stop_lat,stop_lon,location_type,parent_station",
                'S,,"Λιμάνι, ""σταθμός""",37.93,23.64,1,'.encode(), b"Q1,,Quay 1,37.925,23.645,0,S",
                b"N,,Node,,,3,S", b"B,,Berth,,,4,Q1", b'L,,"Light\r\nhouse",37.94,23.66,0,', b"H,,Hole,37.93,23.61,0,",
                b"E,,No place,,,0,"]
        done = run("which", self.sheet(), "-", stdin=b"\r\n".join(rows) + b"\r\n")
        self.assertEqual(done.stdout, HEADER + 'S,"Λιμάνι, ""σταθμός""",1,Λιμάνι,inside,\n'
                         'Q1,Quay 1,1,Λιμάνι,inside,\nL,"Light\r\nhouse",1,Λιμάνι,boundary,7\n')
        self.assertEqual(done.stderr.splitlines(), [
            "standard input, line 9: refused: no degrees: longitude '', latitude ''",
            "standard input: generic nodes and boarding areas without coordinates, not judged: 2"])
        self.assertEqual(done.returncode, 1)

    def test_other_csv(self) -> None:
        stops = self.folder / "quays.csv"
        stops.write_bytes("Bezeichnung;Länge;Breite\nKai;23.64;37.925\nMole;1.5;2\n".encode())
        words = (self.sheet(), stops, "--delimiter", ";", "--lon", "Länge", "--lat", "Breite")
        done = run("which", *words, "--name", "Bezeichnung", "--id", "Bezeichnung", "--all")
        self.assertEqual(done.stdout, HEADER + "Kai,Kai,1,Λιμάνι,inside,\nMole,Mole,,,outside,\n")
        done = run("which", *words, "--json")
        self.assertEqual(json.loads(done.stdout), {"stop_id": "2", "stop_name": "", "zone": 1, "zone_name": "Λιμάνι",
                                                   "verdict": "inside", "side": None})
        done = run("which", self.sheet(), stops)
        self.assertEqual(done.returncode, 2)
        self.assertIn("name them with --lon and --lat (--delimiter)", done.stderr)

    def test_charset(self) -> None:
        stops = self.folder / "greek.csv"
        stops.write_bytes("id,name,lon,lat\n1,Ωκεανός,23.64,37.925\n".encode("iso8859-7"))
        self.assertEqual(run("which", self.sheet(), stops).returncode, 1)
        done = run("which", self.sheet(), stops, "--charset", "iso-8859-7")
        self.assertEqual(done.stdout, HEADER + "1,Ωκεανός,1,Λιμάνι,inside,\n")

    def test_folders_maps_books(self) -> None:
        """Sheets on both grids, a book and a map in one run, from a folder and by name."""
        inner = self.folder / "zones"
        inner.mkdir()
        self.sheet("zones/a.sheet", "gdal-id.geojson", "--number", "4")
        self.sheet("zones/b.sheet", "gdal-id.geojson", "--number", "5", "--grid", "fine", "--name", "fine")
        (inner / "notes.txt").write_text("no zone")
        self.sheet("islands.book", "gdal.geojson")
        stops = self.folder / "s.csv"
        stops.write_text("id,name,lon,lat\nx,X,23.64,37.925\ny,Y,5.3,60.35\n")
        done = run("which", inner, self.folder / "islands.book", MAPS / "spatialite.geojson", stops)
        self.assertEqual(done.stdout, HEADER + "x,X,4,Λιμάνι,inside,\nx,X,5,fine,inside,\nx,X,1,Λιμάνι,inside,\n"
                         "y,Y,1,spatialite,inside,\n")
        self.assertEqual(done.returncode, 0)

    def test_rows_while_it_reads(self) -> None:
        """Rows of the first stops are out before the input ends."""
        process = subprocess.Popen([*COMMAND, "which", str(self.sheet()), "-"], cwd=REPOSITORY / "python",
                                   stdin=subprocess.PIPE, stdout=subprocess.PIPE)
        assert process.stdin is not None and process.stdout is not None
        process.stdin.write(b"id,name,lon,lat\n" + b"1,A,23.64,37.925\n" * 64)
        process.stdin.flush()
        self.assertEqual(process.stdout.readline().decode(), HEADER)
        self.assertEqual(process.stdout.readline(), "1,A,1,Λιμάνι,inside,\n".encode())
        process.stdin.close()
        self.assertEqual(process.stdout.read().count(b"inside"), 63)
        process.stdout.close()
        self.assertEqual(process.wait(), 0)


class Sheets(Files):
    def test_show(self) -> None:
        path = self.sheet()
        done = run("show", path)
        expected = {"file": str(path), "number": "1", "name": "Λιμάνι", "character set": "utf-8", "grid": "coarse",
                    "vertices": "12", "far side": "outside", "simple": "no", "corridors": "2"}
        told = dict(line.split(":", 1) for line in done.stdout.splitlines())
        self.assertEqual({key: told[key].strip() for key in expected}, expected)
        self.assertRegex(told["known point"], r"^ +23\.637\d+ east, 37\.928\d+ north$")
        self.assertEqual(json.loads(run("show", "--json", path).stdout)["far_side"], "outside")

    def test_check(self) -> None:
        path = self.sheet("buffer.sheet", "shapely-buffer.geojson")
        done = run("check", path)
        self.assertEqual((done.stdout, done.returncode), (f"{path}: zone 1 (shapely-buffer): good\n", 0))

    def test_compare(self) -> None:
        old, new = self.sheet(), self.sheet("new.sheet", "gdal-id.geojson", "--number", "9", "--grid", "fine")
        zone = spg.Zone(old.read_bytes())
        turned = zone.vertex_bytes[36:] + zone.vertex_bytes[:36]
        moved = self.folder / "moved.sheet"
        moved.write_bytes(spg.Zone.write(turned, zone.known, 1, zone.name).sheet)
        self.assertEqual(run("compare", old, old).stdout, "no difference\n")
        done = run("compare", old, new)
        self.assertIn("number: 1 before, 9 now\n", done.stdout)
        self.assertIn("grid: coarse before, fine now\n", done.stdout)
        self.assertRegex(done.stdout, "ring: 12 vertices before, 12 now; first difference at vertex 0: 23\\.6[0-9]* ")
        self.assertRegex(run("compare", old, moved).stdout, "^same ring, started elsewhere: vertex 9 of the new one is "
                         "vertex 0 of the old one, 23\\.6[0-9]* east, 37\\.92[0-9]* north\n$")

    def test_compare_backwards(self) -> None:
        old = self.sheet("old.sheet", "spatialite.geojson")
        zone = spg.Zone(old.read_bytes())
        parts = [zone.vertex_bytes[i:i + 12] for i in (24, 12, 0)]
        new = self.folder / "new.sheet"
        new.write_bytes(spg.Zone.write(b"".join(parts), zone.known, 1, zone.name).sheet)
        told = run("compare", old, new).stdout
        self.assertRegex(told, "^same ring, run backwards: vertex 2 of the new one is vertex 0 of the old one, ")

    def test_book(self) -> None:
        one, two, out = self.sheet(), self.sheet("b.sheet", "spatialite.geojson"), self.folder / "x.book"
        self.assertEqual(run("book", one, two, "-o", out).returncode, 0)
        self.assertEqual(out.read_bytes(), one.read_bytes() + two.read_bytes())


class Draw(Files):
    def test_svg(self) -> None:
        """A picture with zones and stops by name; a folder of zones and no stops will do."""
        stops = self.folder / "s.csv"
        stops.write_text("id,name,lon,lat\nx,<X>,23.64,37.925\ny,Y,23.61,37.93\nz,Z,23.66,37.94\n")
        out = self.folder / "map.svg"
        self.assertEqual(run("draw", self.sheet(), stops, "-o", out).returncode, 0)
        titles = [title.text for title in ElementTree.parse(out).iter("{http://www.w3.org/2000/svg}title")]
        self.assertEqual(titles, ["1 Λιμάνι", "x <X>, inside", "y Y, outside", "z Z, boundary"])
        self.assertEqual(run("draw", self.folder, "-o", out).returncode, 0)
        again = self.folder / "again.svg"
        run("draw", self.folder / "harbour.sheet", "-", "-o", again, stdin=stops.read_bytes())
        self.assertIn("z Z, boundary", again.read_text("utf-8"))

    def test_page_without_stops(self) -> None:
        out = self.folder / "map.html"
        self.assertEqual(run("draw", self.sheet(), "-o", out).returncode, 0)
        self.assertIn('"stops": []', out.read_text("utf-8"))
        self.assertEqual(run("draw", self.folder / "none", "-o", out).returncode, 2)

    def test_names_are_no_script(self) -> None:
        """Names go into the page as data: none of them ends its script."""
        stops, out = self.folder / "s.csv", self.folder / "map.html"
        stops.write_text("id,name,lon,lat\n</script>,<!--<script>,23.64,37.925\n")
        self.assertEqual(run("draw", self.sheet(), stops, "-o", out).returncode, 0)
        text = out.read_text("utf-8")
        self.assertEqual((text.count("</script>"), text.count("<!--")), (1, 0))


class Ends(Files):
    def test_usage(self) -> None:
        for words in ((), ("fly",), ("zone",), ("zone", "x", "-o", "y", "--grid", "rough")):
            self.assertEqual(run(*words).returncode, 2)
        for verb in ("zone", "which", "show", "check", "compare", "book", "draw"):
            done = run(verb, "--help")
            self.assertEqual(done.returncode, 0)
            self.assertIn(f"example:\n  spargolutta {verb} ", done.stdout)

    def test_files(self) -> None:
        for words in (("show", "nowhere.sheet"), ("which", self.sheet(), "nowhere.txt"),
                      ("zone", MAPS / "gdal-id.geojson", "-o", "/nowhere/x.sheet"), ("show", self.folder / "a")):
            done = run(*words)
            self.assertEqual(done.returncode, 2)
            self.assertRegex(done.stderr, "No such file or directory\n$")

    def test_full_disk_and_closed_pipe(self) -> None:
        stops = self.folder / "s.csv"
        stops.write_text("id,name,lon,lat\n" + "1,A,23.64,37.925\n" * 50_000)
        words = [*COMMAND, "which", str(self.sheet()), str(stops)]
        with open("/dev/full", "w") as full:
            done = subprocess.run(words, stdout=full, stderr=subprocess.PIPE, cwd=REPOSITORY / "python", check=False)
        self.assertEqual((done.returncode, done.stderr), (2, b"standard output: No space left on device\n"))
        piped = subprocess.run(["bash", "-c", '"$@" | head -n 1; exit ${PIPESTATUS[0]}', "_", *words], check=False,
                               capture_output=True, cwd=REPOSITORY / "python")
        self.assertEqual((piped.returncode, piped.stderr, piped.stdout.decode()), (2, b"", HEADER))

    def test_interrupt(self) -> None:
        process = subprocess.Popen([*COMMAND, "which", str(self.sheet()), "-"], cwd=REPOSITORY / "python",
                                   stdin=subprocess.PIPE, stdout=subprocess.PIPE, stderr=subprocess.PIPE)
        assert process.stdout is not None
        process.stdin.write(b"id,name,lon,lat\n")  # type: ignore[union-attr]
        process.stdin.flush()  # type: ignore[union-attr]
        process.stdout.readline()
        process.send_signal(signal.SIGINT)
        _, errors = process.communicate()
        self.assertEqual((process.returncode, errors), (130, b"interrupted\n"))

    def test_progress_on_a_terminal(self) -> None:
        """Work of over a second shows how far it is, on a terminal alone."""
        leader, follower = pty.openpty()
        process = subprocess.Popen([*COMMAND, "which", str(self.sheet()), "-"], cwd=REPOSITORY / "python",
                                   stdin=subprocess.PIPE, stdout=subprocess.DEVNULL, stderr=follower)
        assert process.stdin is not None
        process.stdin.write(b"id,name,lon,lat\n" + b"1,A,23.64,37.925\n" * 64)
        process.stdin.flush()
        time.sleep(2)
        process.stdin.write(b"1,A,23.64,37.925\n" * 400)
        process.stdin.close()
        self.assertEqual(process.wait(), 0)
        os.close(follower)
        shown = os.read(leader, 10_000).decode()
        os.close(leader)
        self.assertRegex(shown, r"^\r +[0-9]+ stops .*\r +\r$")

    def test_no_library(self) -> None:
        done = run("show", self.folder, env={"SPARGOLUTTA_LIBRARY": "/nowhere.so"})
        self.assertEqual(done.returncode, 2)


class Speed(Files):
    def test_100000_stops_to_64_zones(self) -> None:
        """At most two seconds of processor time with everything, and constant memory for a million stops."""
        source = random.Random(3)
        sheets = []
        for i in range(64):
            lon, lat = source.uniform(-170, 170), source.uniform(-75, 75)
            ring = [[round(lon + 0.05 * ((k % 2) + 1) * x, 7), round(lat + 0.05 * ((k % 2) + 1) * y, 7)]
                    for k, (x, y) in enumerate(_circle(256))]
            text = json.dumps({"type": "Polygon", "coordinates": [[*ring, ring[0]]]})
            sheets.append((geojson.parse(text.encode()), lon, lat, i))
        book = self.folder / "z.book"
        book.write_bytes(b"".join(_sheet(*sheet) for sheet in sheets))
        stops = self.folder / "stops.txt"
        with open(stops, "w") as file:
            file.write("stop_id,stop_name,stop_lat,stop_lon\n")
            for k in range(100_000):
                _, lon, lat, _ = source.choice(sheets)
                file.write(f"{k},Stop {k},{lat + source.uniform(-.2, .2):.6f},{lon + source.uniform(-.2, .2):.6f}\n")
        before, start = resource.getrusage(resource.RUSAGE_CHILDREN), time.monotonic()
        with open(self.folder / "out.csv", "w") as out:
            subprocess.run([*COMMAND, "which", str(book), str(stops)], stdout=out, check=True,
                           cwd=REPOSITORY / "python")
        after = resource.getrusage(resource.RUSAGE_CHILDREN)
        spent = after.ru_utime + after.ru_stime - before.ru_utime - before.ru_stime
        print(f"100,000 stops to 64 zones: {spent:.2f} s of processor time, {time.monotonic() - start:.2f} s in all",
              file=sys.stderr)
        self.assertLess(spent, 2)
        self.assertGreater((self.folder / "out.csv").read_text().count("\n"), 1000)


def _circle(count: int) -> list:
    return [(cos(2 * pi * k / count), sin(2 * pi * k / count)) for k in range(count)]


def _sheet(value: object, lon: float, lat: float, number: int) -> bytes:
    return maps.zone_of(geojson.features(value)[0], number, f"zone {number}", maps.Options()).sheet


if __name__ == "__main__":
    unittest.main()
