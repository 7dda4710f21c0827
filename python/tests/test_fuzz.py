"""Any bytes as map, stops, sheet or book: a clear line and status 0, 1 or 2, never a traceback. The environment
variable FUZZ says for how many seconds mutated samples are tried."""
import io
import os
import random
import sys
import tempfile
import time
import unittest
from pathlib import Path
from typing import Dict, List, Tuple

from spargolutta.cli import main

from .support import MAPS, SAMPLE

WORDS = [b"1e999", b"-1e-999", b"NaN", b"180", b"-180.0000001", b"90", b"-90", b"null", b"[]", b"{}", b"[", b"]", b"}",
         b'"', b",", b"\xff", b"\x00", b"\xef\xbb\xbf", b"1" * 400, b"[" * 2000, b'"\\ud800"', b"\r", b";", b"0.5e-7",
         b'{"type":"Feature","geometry":', b'"crs":{"type":"name","properties":{"name":"EPSG:3857"}},', b"4294967296"]


def mutated(data: bytes, others: List[bytes], source: random.Random) -> bytes:
    """The bytes with some changes of several kinds."""
    made = bytearray(data)
    for _ in range(source.choice((1, 1, 2, 4, 12))):
        at, to = source.randrange(len(made) + 1), source.randrange(len(made) + 1)
        kind = source.randrange(6)
        if kind == 0 and made:
            made[at % len(made)] = source.randrange(256)
        elif kind == 1:
            del made[min(at, to):min(at, to) + source.choice((1, 3, 40, 4000))]
        elif kind == 2:
            made[at:at] = source.choice(WORDS)
        elif kind == 3:
            made[at:at] = made[min(at, to):min(at, to) + source.choice((2, 20, 200))]
        elif kind == 4 and made:
            made[at % len(made)] ^= 1 << source.randrange(8)
        else:
            other = source.choice(others)
            start = source.randrange(len(other) + 1)
            made[at:at + source.choice((0, 10, 100))] = other[start:start + source.choice((5, 50, 500))]
    return bytes(made)


def _text(stream: io.TextIOWrapper) -> str:
    stream.flush()
    return stream.buffer.getvalue().decode("utf-8")  # type: ignore[attr-defined, no-any-return]


def run(words: List[str]) -> Tuple[object, str]:
    """The command in this process: its status, and what it says."""
    kept = sys.stdout, sys.stderr
    sys.stdout, sys.stderr = io.TextIOWrapper(io.BytesIO(), "utf-8"), io.TextIOWrapper(io.BytesIO(), "utf-8",
                                                                                      "backslashreplace")
    try:
        status: object = main(words)
        said = "".join(_text(stream) for stream in (sys.stdout, sys.stderr))
    except SystemExit as end:
        status, said = end.code, "usage"
    finally:
        sys.stdout, sys.stderr = kept
    return status, said


class Fuzz(unittest.TestCase):
    def test_mutated_samples(self) -> None:
        seconds, seed = float(os.environ.get("FUZZ", "3")), int(os.environ.get("SEED", str(int(time.time()))))
        source = random.Random(seed)
        with tempfile.TemporaryDirectory() as name:
            folder = Path(name)
            seeds = self.seeds(folder)
            end, count, slowest = time.monotonic() + seconds, 0, 0.0
            while time.monotonic() < end:
                kind = source.choice(sorted(seeds))
                data = mutated(source.choice(seeds[kind]), [one for list_ in seeds.values() for one in list_], source)
                start = time.monotonic()
                self.judge(folder, kind, data, seed, count)
                slowest, count = max(slowest, time.monotonic() - start), count + 1
        print(f"mutated samples: {count}, the slowest {slowest:.1f} s, seed {seed}", file=sys.stderr)

    def seeds(self, folder: Path) -> Dict[str, List[bytes]]:
        """Maps, stops, sheets and books, all of them good or refused for a reason."""
        maps = [path.read_bytes() for path in sorted(MAPS.glob("*.geojson")) if path.stat().st_size < 4000]
        for name, grid in (("harbours.geojson", "coarse"), ("berths.geojson", "fine")):
            words = ["zone", str(SAMPLE / name), "--grid", grid, "-o", str(folder / (name + ".book"))]
            self.assertEqual(run(words)[0], 0)
        books = [(folder / f"{name}.geojson.book").read_bytes() for name in ("harbours", "berths")]
        return {"map": maps, "sheet": books, "stops": [(SAMPLE / "stops.txt").read_bytes(),
                                                       b"id,name,lon,lat\r\n1,\"a\",23.61,37.93\r\n2,b,1e1,-5\r\n"]}

    def judge(self, folder: Path, kind: str, data: bytes, seed: int, count: int) -> None:
        path, good = folder / "input", str(folder / "harbours.geojson.book")
        path.write_bytes(data)
        file, out, html = str(path), str(folder / "out.sheet"), str(folder / "out.html")
        verbs = {"map": [["zone", file, "-o", out], ["zone", file, "-o", str(folder / "x.book"), "--simplify", "50"]],
                 "sheet": [["show", file], ["check", file], ["compare", good, file], ["which", file, good]],
                 "stops": [["which", good, file], ["which", good, file, "--json", "--all"],
                           ["draw", good, file, "-o", html]]}[kind]
        for words in verbs:
            try:
                status, said = run(words)
            except BaseException:
                Path(os.environ.get("FUZZ_KEEP", "/tmp/spargolutta-fuzz-input")).write_bytes(data)
                print(f"seed {seed}, input {count}: {words}", file=sys.stderr)
                raise
            self.assertIn(status, (0, 1, 2), words)
            self.assertNotIn("Traceback", said)
            self.assertTrue(status == 0 or said, words)


if __name__ == "__main__":
    unittest.main()
