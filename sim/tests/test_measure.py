"""Percentiles and Jain's index against numbers worked by hand."""
from __future__ import annotations

import math
import unittest

from sim.measure import always_wanting, jain, nearest_rank

from .support import ONE_STATION, THREE_STATIONS, scenario


class Measures(unittest.TestCase):
    def test_nearest_rank(self) -> None:
        values = [10, 20, 30, 40]
        self.assertEqual([nearest_rank(values, percent) for percent in (1, 25, 50, 51, 99, 100)], [10, 10, 20, 30, 40, 40])
        self.assertTrue(math.isnan(nearest_rank([], 50)))

    def test_jain(self) -> None:
        self.assertEqual(jain([5, 5, 5]), 1)
        self.assertEqual(jain([1, 0, 0, 0]), 0.25)
        self.assertAlmostEqual(jain([1, 2, 3]), 36 / 42)
        self.assertTrue(math.isnan(jain([0, 0])))

    def test_jain_leaves_out_stations_that_want_little(self) -> None:
        self.assertEqual(always_wanting(scenario(THREE_STATIONS)), {0, 1, 2})
        sparse = THREE_STATIONS + '[[station]]\nname = "sparse"\n[[flow]]\nstation = "sparse"\nevery_ms = 10\n'
        self.assertEqual(always_wanting(scenario(sparse)), {0, 1, 2})
        self.assertEqual(always_wanting(scenario(ONE_STATION)), {0})


if __name__ == "__main__":
    unittest.main()
