"""Airtime that the driver measures with an error."""
from __future__ import annotations

import unittest

from sim.baselines.one_list import OneList
from sim.measure import Result

from .support import machine, run, scenario

TWO = """
seconds = 0.5
warmup = 0.1
[[station]]
name = "a"
rate = "7 20 long"
{keys}
[[station]]
name = "b"
rate = "7 20 long"
[[flow]]
station = "a"
backlog = 100
size = 1500
[[flow]]
station = "b"
backlog = 100
size = 1500
"""


class Measured(unittest.TestCase):
    def result(self, keys: str, over_a_model: bool = False) -> Result:
        """A run of two stations over the machine, or over a model."""
        chosen = scenario(TWO.format(keys=keys))
        return run(chosen, OneList(chosen) if over_a_model else machine(chosen))[1]

    def test_a_station_that_is_charged_twice_gets_a_third(self) -> None:
        for over_a_model in (False, True):
            result = self.result("charge_bias = 1", over_a_model)
            self.assertAlmostEqual(result.stations[0].share, 1 / 3, delta=0.02)

    def test_an_error_without_a_bias_evens_out(self) -> None:
        result = self.result("charge_error = 0.3")
        self.assertAlmostEqual(result.stations[0].share, 0.5, delta=0.04)

    def test_results_have_what_was_used(self) -> None:
        result = self.result("charge_bias = 1")
        charged = [int(line.split()[4]) for line in result.summary if " be charged " in line]
        self.assertAlmostEqual(charged[0], charged[1], delta=12_000)
        self.assertGreater(result.busy, 0.9)


if __name__ == "__main__":
    unittest.main()
