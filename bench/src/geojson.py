"""Document 02's P7 as a user of Python's json would write it: prints the least time of many rounds, in microseconds.

    python3 geojson.py TEXT SHEET      reads the file TEXT, writes the file SHEET
"""
import json
import math
import struct
import sys
import time

ROUNDS = 60
KNOWN = (-314159, 271828, 577215)


def grid(longitude, latitude):
    a, b = math.radians(longitude), math.radians(latitude)
    point = (math.cos(b) * math.cos(a), math.cos(b) * math.sin(a), math.sin(b))
    return [round(1048576 * k) for k in point]


def import_zone(text):
    polygon = json.loads(text)
    assert set(polygon) == {"type", "coordinates"} and polygon["type"] == "Polygon"
    (ring,) = polygon["coordinates"]
    assert all(abs(p[0]) <= 180 and abs(p[1]) <= 90 for p in ring)
    assert len(ring) >= 4 and ring[0] == ring[-1]
    assert all(abs(p[k] - q[k]) <= 1 for p, q in zip(ring, ring[1:]) for k in (0, 1))
    numbers = [k for p in ring[:-1] for k in grid(*p)]
    head = struct.pack(">BHIBHBBH1sBH3i", 1, 4, 7, 2, 1, 1, 3, 1, b"A", 4, 12, *KNOWN)
    return head + struct.pack(">BH%di" % len(numbers), 5, 4 * len(numbers), *numbers)


def main():
    with open(sys.argv[1], "rb") as file:
        text = file.read()
    least = math.inf
    for _ in range(ROUNDS):
        start = time.process_time()
        sheet = import_zone(text)
        least = min(least, time.process_time() - start)
    with open(sys.argv[2], "wb") as file:
        file.write(sheet)
    print(1e6 * least)


main()
