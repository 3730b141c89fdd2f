"""The plane in which degrees become points."""
from __future__ import annotations

import random
import unittest

import ran  # noqa: F401
from degrees import degrees
from frame import WIDTH, Frame, ellipsoid_distance
from layers import thinned


class Frames(unittest.TestCase):
    def test_from_the_centre_distances_are_those_of_the_ellipsoid(self) -> None:
        draw = random.Random(1)
        for latitude in (0, 47.14, -33.9, 70, 90, -90):
            for kilometres, most in ((20, 2e-6), (500, 6e-6), (2500, 1e-4), (5000, 6e-4)):
                frame = Frame(latitude, 10, kilometres)
                for _ in range(50):
                    x, y = draw.randrange(WIDTH), draw.randrange(WIDTH)
                    far = ((x - WIDTH // 2) ** 2 + (y - WIDTH // 2) ** 2) ** 0.5 * frame.step
                    true = ellipsoid_distance(latitude, 10, *frame.place(x, y))
                    self.assertAlmostEqual(far / true, 1, delta=most + 1e-9 * frame.step, msg=f"{latitude} {kilometres}")
                self.assertLess(frame.off_centre(), most)

    def test_a_known_distance(self) -> None:
        # Flinders Peak to Buninyong, 54,972.271 m by the geodetic survey of Australia
        peak, buninyong = (-37.951033417, 144.424867889), (-37.652821139, 143.926495528)
        self.assertAlmostEqual(ellipsoid_distance(*peak, *buninyong), 54972.271, delta=0.5)
        east, north = Frame(*peak, 100).plane()(*buninyong)
        self.assertAlmostEqual((east * east + north * north) ** 0.5, 54972.271, delta=0.5)

    def test_points_go_to_places_and_back(self) -> None:
        draw = random.Random(2)
        for latitude, longitude, kilometres in ((47, 9.5, 20), (-36.8, 174.8, 900), (89, 0, 3000), (-90, 7, 2000), (0, 180, 5000)):
            frame = Frame(latitude, longitude, kilometres)
            point = frame.grid()
            for _ in range(200):
                spot = draw.randrange(WIDTH), draw.randrange(WIDTH)
                self.assertEqual(point(*frame.place(*spot)), spot)

    def test_no_other_distance_is_longer_than_told(self) -> None:
        draw = random.Random(3)
        frame = Frame(48, 16, 1000)
        for _ in range(300):
            one, two = ((draw.randrange(WIDTH), draw.randrange(WIDTH)) for _ in range(2))
            plane = ((one[0] - two[0]) ** 2 + (one[1] - two[1]) ** 2) ** 0.5 * frame.step
            true = ellipsoid_distance(*frame.place(*one), *frame.place(*two))
            self.assertTrue(true * (1 - 2e-5) - 1 <= plane <= true * (1 + frame.stretched() + 2e-5) + 1)

    def test_degrees_are_read_in_many_forms(self) -> None:
        for text, want in (("48.5", 48.5), (" -48.5 ", -48.5), ("48°30'0\"N", 48.5), ("48 30 S", -48.5), ("S 48:30:36", -48.51),
                           ("48° 30′ 36″ N", 48.51), ("1e1", 10)):
            self.assertAlmostEqual(degrees(text, 90, "latitude"), want, msg=text)
        for text in ("", "north", "91", "-90.1", "nan", "48,5", "48 30 E", "N 48 N", "4\u00b2"):
            self.assertRaises(ValueError, degrees, text, 90, "latitude")

    def test_the_flattest_corners_of_a_ring_go_first(self) -> None:
        square = [(0, 0), (5, 1), (10, 0), (10, 10), (0, 10)]
        self.assertEqual(thinned(square, 4), [(0, 0), (10, 0), (10, 10), (0, 10)])
        circle = [(x, y * y) for x, y in zip(range(500), range(500))]
        self.assertEqual(len(thinned(circle, 64)), 64)


if __name__ == "__main__":
    unittest.main()
