"""The package's core: rules of document 01 by hand, degrees, refusals, books."""
import pickle
import random
import unittest
import warnings
from decimal import Decimal
from fractions import Fraction

import spargolutta as spg
from spargolutta import angles, many
from spargolutta.maps import Repaired

OCTANT = spg.Zone.write(angles.in_bytes([1, 0, 0, 0, 1, 0, 0, 0, 1]), (1, 1, 1), 7, "A")
RING = ('{"type":"Polygon","coordinates":[[[23.60,37.92],[23.66,37.92],[23.66,37.94],[23.62,37.94],[23.62,37.97],'
        '[23.60,37.97],[23.60,37.92]]]}')


def harbour(**options: object) -> spg.Zone:
    with warnings.catch_warnings():
        warnings.simplefilter("ignore", Repaired)
        return spg.Zone.from_geojson(RING, number=7, name="Λιμάνι", **options)


class Core(unittest.TestCase):
    def test_octant(self) -> None:
        asked = {(1, 1, 1): (1, 0, 0), (3, 2, 1): (1, 0, 0), (1, 1, 0): (3, 0, 0), (1, 0, 0): (3, 0, 0),
                 (1, 1, -1): (2, 0, 1), (-1, -1, 1): (2, 0, 1), (-1, 1, 0): (2, 0, 1)}
        for point, told in asked.items():
            self.assertEqual(OCTANT.judge_point(point), told)
        with self.assertRaises(spg.Refused) as caught:
            OCTANT.judge_point((-1, -1, -1))
        self.assertEqual((caught.exception.number, caught.exception.kind), (18, "none"))
        self.assertEqual((len(OCTANT.sheet), OCTANT.number, OCTANT.name, OCTANT.known), (69, 7, "A", (1, 1, 1)))

    def test_harbour(self) -> None:
        zone = harbour()
        self.assertEqual((zone.name, zone.number, len(zone.vertices), zone.shared()), ("Λιμάνι", 7, 6, None))
        self.assertTrue(zone.judge("23.61", "37.93").inside)
        self.assertTrue(zone.judge(Decimal("23.61"), Fraction(3796, 100)).inside)
        self.assertTrue(zone.judge(23.65, 37.96).outside)
        self.assertEqual(zone.judge(23.66, 37.94), (3, 1, 0))
        self.assertEqual(zone.far_side(), spg.OUTSIDE)
        for bad in ((200, 0), (0, "90.00000006"), (float("nan"), 0)):
            with self.assertRaises(spg.Refused) as caught:
                zone.judge(*bad)
            self.assertEqual(caught.exception.number, 31)

    def test_warnings(self) -> None:
        with self.assertWarnsRegex(Repaired, "known point found: 23.63 east"):
            spg.Zone.from_geojson(RING, number=7, name="x")

    def test_known_point_given(self) -> None:
        self.assertEqual(harbour(known=("23.61", "37.93")).judge("23.61", "37.93").count, 0)
        with self.assertRaisesRegex(ValueError, "23.9 east, 37.93 north is outside by the map itself"):
            harbour(known=(23.9, 37.93))

    def test_many(self) -> None:
        zone = harbour(grid=spg.FINE)
        lons = [23.61, 23.61, 23.66, 23.65, 200.0, 23.60000005]
        lats = [37.93, 37.96, 37.94, 37.96, 0.0, 37.93]
        expected = [1, 1, 3, 2, 31]
        answers = zone.judge_many(lons, lats)
        self.assertEqual(list(answers.numbers)[:5], expected)
        self.assertEqual((answers.places[2], answers.counts[3]), (1, 1))
        kept, many.numpy = many.numpy, None
        try:
            self.assertEqual(list(map(list, zone.judge_many(lons, lats))), list(map(list, answers)))
        finally:
            many.numpy = kept
        with self.assertRaises(ValueError):
            zone.judge_many([1.0], [])

    @unittest.skipIf(many.numpy is None, "numpy is not there")
    def test_numpy_rounds_as_one_by_one(self) -> None:
        source = random.Random(5)
        lons = [source.uniform(-200, 200) for _ in range(3000)] + [(k + 0.5) / 1e7 for k in range(-50, 50)]
        lats = [source.uniform(-90, 90) for _ in lons]
        arrays = many.numpy.array(lons), many.numpy.array(lats)
        self.assertEqual(many.degrees(*arrays), many.degrees(lons, lats))

    def test_book(self) -> None:
        zones = [harbour(), OCTANT, harbour(grid=spg.FINE)]
        book = spg.Book(bytes(spg.Book(zones)))
        self.assertEqual([zone.sheet for zone in book.zones], [zone.sheet for zone in zones])
        told = book.which(["23.61", "23.66", "-120", "200"], ["37.93", "37.94", "10", "1"])
        self.assertEqual(told, [(0b111, 0, 0), (0b010, 0b101, 0), (0, 0, 0), (0, 0, 0b111)])
        self.assertEqual(spg.Book(zones[:1] * 70).which([23.61], [37.93]), [((1 << 70) - 1, 0, 0)])
        with self.assertRaises(spg.Refused) as caught:
            bytes(spg.Book([OCTANT] * 65))
        self.assertEqual((caught.exception.number, caught.exception.place), (36, 64 * 69))

    def test_refusals(self) -> None:
        cases = ((lambda: spg.Zone(b""), 20, 0), (lambda: spg.Zone(OCTANT.sheet + b"x"), 24, 69),
                 (lambda: spg.Zone.read_text(b"{", (1, 1, 1), 1, "x"), 30, 1),
                 (lambda: spg.Book(OCTANT.sheet + b"x"), 20, 69),
                 (lambda: spg.Zone.from_geojson("{", 1, "x"), 30, 1))
        for make, number, place in cases:
            with self.assertRaises(spg.Refused) as caught:
                make()
            self.assertEqual((caught.exception.number, caught.exception.place), (number, place))
        self.assertEqual(str(spg.Refused(16, 4)), "16, known point on the great circle of a side, side 4")
        self.assertEqual(pickle.loads(pickle.dumps(spg.Refused(16, 4))).place, 4)
        self.assertEqual(pickle.loads(pickle.dumps(OCTANT)), OCTANT)


class Degrees(unittest.TestCase):
    def test_half_to_even(self) -> None:
        for text, angle in (("0.00000005", 0), ("0.00000015", 2), ("-0.00000025", -2), ("0.000000250000001", 3),
                            ("23.6", 236_000_000), ("-179.9999999", -1_799_999_999), ("1e1", 100_000_000),
                            (" 1.5 ", 15_000_000), ("+7", 70_000_000), ("1E-400", 0), ("00012.5", 125_000_000)):
            self.assertEqual(angles.of_text(text), angle, text)
            self.assertEqual(angles.of_number(Decimal(text)), angle)
            self.assertEqual(angles.of_number(Fraction(text.strip())), angle)
        for text in ("", "x", "1,5", "nan", "inf", "1_0", "٣", "0x10", "--1", "1.2.3", "."):
            with self.assertRaises(ValueError):
                angles.of_text(text)
        self.assertEqual(angles.of_text("1e400"), angles.BEYOND)
        self.assertEqual(angles.of_text("-1e400"), -angles.BEYOND)

    def test_texts(self) -> None:
        for angle, text in ((0, "0"), (-1, "-0.0000001"), (236_000_000, "23.6"), (1_800_000_000, "180")):
            self.assertEqual(angles.to_text(angle), text)
        self.assertEqual(angles.words(angles.Position(-236_100_000, 5)), "23.61 west, 0.0000005 north")

    def test_floats_by_their_value(self) -> None:
        source = random.Random(1)
        for _ in range(2000):
            value = source.uniform(-180, 180)
            self.assertEqual(angles.of_number(value), round(Fraction(value) * 10**7))


if __name__ == "__main__":
    unittest.main()
