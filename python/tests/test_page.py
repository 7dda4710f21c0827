"""The page in headless Chromium: its verdicts are the library's, a click is answered, nothing is fetched, keys work."""
import json
import math
import os
import random
import re
import sys
import tempfile
import unittest
from pathlib import Path
from typing import Any, List

import spargolutta as spg
from spargolutta import angles, draw, geojson, maps
from spargolutta.book import sheets_of

from .browser import PROGRAM, Browser
from .support import SAMPLE, run

SKIPPED = "chromium is not there: the page is not tested" if PROGRAM is None else \
    "the library as WebAssembly is not built: the page is not tested" if draw.library_as_wasm() is None else ""
if SKIPPED:
    print(SKIPPED, file=sys.stderr)


def sample(folder: Path) -> Path:
    """The page of the sample."""
    for name, words in (("harbours.book", ()), ("berths.sheet", ("--grid", "fine"))):
        source = SAMPLE / (name.split(".")[0] + ".geojson")
        done = run("zone", source, "--number-from", "number", *words, "-o", folder / name)
        assert done.returncode == 0, done.stderr
    done = run("draw", folder / "harbours.book", folder / "berths.sheet", SAMPLE / "stops.txt", "-o",
               folder / "map.html")
    assert done.returncode == 1 and "line 17: refused: no degrees" in done.stderr, done.stderr
    return folder / "map.html"


@unittest.skipIf(SKIPPED, SKIPPED)
class Page(unittest.TestCase):
    @classmethod
    def setUpClass(cls) -> None:
        cls.folder = tempfile.TemporaryDirectory()
        cls.path = sample(Path(cls.folder.name))
        cls.browser = Browser()
        cls.browser.open(cls.path.as_uri())
        sheets = b"".join((cls.path.parent / name).read_bytes() for name in ("harbours.book", "berths.sheet"))
        cls.zones = [spg.Zone(sheet) for sheet in sheets_of(sheets)]

    @classmethod
    def tearDownClass(cls) -> None:
        cls.browser.close()
        cls.folder.cleanup()

    def setUp(self) -> None:
        self.browser.value("Object.assign(view, DATA.view); draw()")

    def judged(self, lon: int, lat: int) -> List[Any]:
        """The library's own answers, without the page."""
        found = []
        for zone in self.zones:
            point = angles.grid_points([(lon, lat)], zone.grid)[0]
            try:
                found.append(list(zone.judge_point(point)))
            except spg.Refused as refused:
                found.append([refused.number, refused.place, refused.count])
        return found

    def test_verdicts_equal_the_library_s(self) -> None:
        source = random.Random(8)
        places = [[round(source.uniform(-180, 180) * 1e7), round(source.uniform(-90, 90) * 1e7)] for _ in range(300)]
        places += [[round(source.uniform(23.59, 23.67) * 1e7), round(source.uniform(37.91, 37.98) * 1e7)]
                   for _ in range(700)]
        places += self.browser.value("stops.map((stop) => [stop.lon, stop.lat])")
        told = self.browser.value(f"{json.dumps(places)}.map((p) => judgeAll(...p)"
                                  ".map((a) => [a.number, a.place, a.count]))")
        self.assertEqual(told, [self.judged(lon, lat) for lon, lat in places])

    def test_stops_are_as_found(self) -> None:
        for stop in self.browser.value("DATA.stops"):
            judged = enumerate(self.judged(stop["lon"], stop["lat"]))
            expected = [(i, *answer) for i, answer in judged if answer[0] != 2]
            self.assertEqual([(a["zone"], a["number"], a["place"], a["count"]) for a in stop["answers"]], expected)
        kinds = {stop["id"]: stop["kind"] for stop in self.browser.value("DATA.stops")}
        self.assertEqual([kinds[i] for i in ("H0", "H2", "H3", "I1", "A1")],
                         ["inside", "outside", "boundary", "inside", "refused"])

    def answer(self) -> str:
        return str(self.browser.value("document.getElementById('answer').innerText"))

    def test_a_click_is_answered(self) -> None:
        for x, y in ((300, 300), (300, 700), (440, 445)):
            self.browser.click(x, y)
            said = self.answer()
            lon, east, lat, north = re.search(r"([\d.]+) (east|west), ([\d.]+) (north|south)", said).groups()
            place = (angles.of_text(lon) * (1 if east == "east" else -1), angles.of_text(lat))
            first = self.judged(*place)[0]
            expected = f"1 inside, count {first[2]}: zone 1" if first[0] == 1 else "outside of 5 zones"
            self.assertIn(expected, said)
            self.assertEqual(north, "north")

    def test_a_click_on_a_stop(self) -> None:
        x, y = self.browser.value("project(stops.find((stop) => stop.id === 'H3').at)")
        self.browser.click(x, y)
        self.assertIn("H3 Φάρος (on the corner)\n23.66 east, 37.94 north", self.answer())
        self.assertIn("3 boundary, side 7: zone 1", self.answer())

    def test_a_stop_is_dragged(self) -> None:
        self.browser.open(self.path.as_uri())
        x, y = self.browser.value("draw(), project(stops.find((stop) => stop.id === 'H2').at)")
        self.browser.mouse("Pressed", x, y)
        for step in range(1, 9):
            self.browser.mouse("Moved", x - 20 * step, y)
        self.browser.mouse("Released", x - 160, y)
        stop = self.browser.value("stops.find((stop) => stop.id === 'H2')")
        self.assertEqual((stop["kind"], stop["moved"]), ("inside", True))
        self.assertEqual([a["number"] for a in stop["answers"]],
                         [n for n, _, _ in self.judged(stop["lon"], stop["lat"]) if n != 2])
        self.browser.open(self.path.as_uri())

    def test_keys(self) -> None:
        self.browser.value("canvas.focus()")
        before = self.browser.value("({...view})")
        for key in ("ArrowLeft", "ArrowUp", "+", "+", "-"):
            self.browser.key(key)
        after = self.browser.value("({...view})")
        self.assertTrue(after["lon"] < before["lon"] and after["lat"] > before["lat"])
        self.assertAlmostEqual(after["zoom"], 1.5 * before["zoom"])
        self.browser.key("Home")
        self.assertEqual(self.browser.value("view.lon"), before["lon"])
        self.browser.key("Enter", 13)
        self.assertIn("This place", self.answer())
        self.browser.value("document.querySelector('#stops button').focus()")
        self.browser.key("ArrowDown")
        self.assertEqual(self.browser.value("document.activeElement.value"), "1")
        self.browser.value("document.activeElement.click()")
        self.assertIn("H1 Quay E1, north side", self.answer())

    def test_filter(self) -> None:
        script = "document.getElementById('filter').value = '{}'; document.getElementById('kind').value = '{}'; " \
            "list(); [...document.querySelectorAll('#stops button')].map((b) => b.innerText.split(' ')[0])"
        self.assertEqual(self.browser.value(script.format("ΛΙΜ", "")), ["H0", "H2"])
        self.assertEqual(self.browser.value(script.format("", "refused")), ["A1"])
        self.browser.value(script.format("", ""))

    def test_nothing_is_fetched(self) -> None:
        self.browser.requests.clear()
        self.browser.open(self.path.as_uri())
        self.browser.click(300, 300)
        self.assertEqual(self.browser.requests, [self.path.as_uri()])
        self.assertEqual(self.browser.errors, [])

    def test_picture(self) -> None:
        """docs/page.png is such a picture; DRAW_PICTURE names a file to write it to."""
        picture = self.browser.picture()
        self.assertGreater(len(picture), 20_000)
        if "DRAW_PICTURE" in os.environ:
            Path(os.environ["DRAW_PICTURE"]).write_bytes(picture)


@unittest.skipIf(SKIPPED, SKIPPED)
class Large(unittest.TestCase):
    def test_smooth(self) -> None:
        """4,096 sides and 10,000 stops: no frame of a scripted turn takes over 100 ms; the best of three turns, as other
        programs may run."""
        ring = [[20 + (0.2 + 0.05 * (k % 2)) * math.cos(2 * math.pi * k / 4096),
                 40 + (0.2 + 0.05 * (k % 2)) * math.sin(2 * math.pi * k / 4096)] for k in range(4096)]
        text = json.dumps({"type": "Polygon", "coordinates": [[*ring, ring[0]]]}).encode()
        zone = maps.zone_of(geojson.features(geojson.parse(text))[0], 1, "x", maps.Options())
        self.assertGreater(len(zone.vertices), 4000)
        source = random.Random(2)
        stops = [{"key": k, "id": str(k), "name": "", "answers": [], "kind": "outside",
                  "lon": round(source.uniform(19, 21) * 1e7), "lat": round(source.uniform(39, 41) * 1e7)}
                 for k in range(10_000)]
        with tempfile.TemporaryDirectory() as folder:
            path = Path(folder) / "large.html"
            path.write_bytes(draw.page([zone], stops))
            browser = Browser()
            try:
                browser.open(path.as_uri())
                turn = ("(async () => { const times = []; for (let k = 0; k < 60; k++) { "
                        "await new Promise(requestAnimationFrame); const start = performance.now(); "
                        "turn(7, k % 2 ? 3 : -3); draw(); times.push(performance.now() - start); } return times; })()")
                times = min((browser.value(turn) for _ in range(3)), key=max)
            finally:
                browser.close()
        print(f"a page of {len(zone.vertices)} sides and 10,000 stops: frames of {sorted(times)[30]:.0f} ms, "
              f"the longest {max(times):.0f} ms", file=sys.stderr)
        self.assertLess(max(times), 100)


@unittest.skipIf(PROGRAM is None, "chromium is not there")
class WithoutLibrary(unittest.TestCase):
    def test_stops_are_shown(self) -> None:
        with tempfile.TemporaryDirectory() as name:
            os.environ["SPARGOLUTTA_WASM"] = "/nowhere"
            try:
                path = sample(Path(name))
            finally:
                del os.environ["SPARGOLUTTA_WASM"]
            browser = Browser()
            try:
                browser.open(path.as_uri())
                x, y = browser.value("project(stops.find((stop) => stop.id === 'H3').at)")
                browser.click(x, y)
                said = browser.value("document.getElementById('answer').innerText")
                self.assertIn("3 boundary, side 7: zone 1", said)
                browser.click(300, 300)
                self.assertIn("The library is not in this page", browser.value(
                    "document.getElementById('answer').innerText"))
            finally:
                browser.close()


if __name__ == "__main__":
    unittest.main()
