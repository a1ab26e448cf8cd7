"""The statements of docs/SIM.md about the scenarios that come with the bench, on shorter runs."""
from __future__ import annotations

import math
import unittest
from collections.abc import Sequence

from sim.baselines.fifo import Fifo
from sim.bench import Bench
from sim.frames import Frame, Path
from sim.measure import Result
from sim.models import MODELS, choose
from sim.program import TOP
from sim.reading import read
from sim.scenario import Scenario

from .support import fates, machine, run, scenario, shortened

PAPER = (42.2, 42.3, 2.2)  # "Ending the Anomaly", table 1: Mbit/s with airtime fairness, as calculated
SCENARIOS = sorted(path.stem for path in TOP.glob("sim/scenarios/*.toml"))

TCP = """
seconds = {seconds}
warmup = {warmup}
[[station]]
name = "fast"
count = 2
rate = "15 20 short"
[[station]]
name = "slow"
rate = "0 20 short"
[[flow]]
station = "fast"
tcp = "cubic"
[[flow]]
station = "slow"
tcp = "cubic"
"""


def path_of(chosen: Scenario) -> Path | None:
    """A model to run a scenario over, or None if it needs the machine."""
    first = next((name for name in chosen.compare if name in MODELS), None)
    return MODELS[first](chosen) if first else None


def over_each(name: str, seconds: float, warmup: float = 0) -> list[tuple[Bench, Result]]:
    """The runs of a scenario over each of its paths, all of which are the machine."""
    chosen = shortened(name, seconds, warmup)
    own = [chosen.with_settings(choose(path).settings) for path in chosen.compare]
    return [run(one, machine(one)) for one in own]


def overtaken(frames: Sequence[Frame]) -> int:
    """How many frames of a flow are released after a later one."""
    count, first = 0, math.inf
    for one in reversed(frames):
        if one.released is not None:
            count += one.released > first
            first = min(first, one.released)
    return count


class Claims(unittest.TestCase):
    def test_the_anomaly(self) -> None:
        chosen = shortened("anomaly", 4, 1)
        _, airtime = run(chosen, machine(chosen))
        for one, mbit in zip(airtime.stations, PAPER):
            self.assertAlmostEqual(one.share, 1 / 3, delta=0.01)
            self.assertAlmostEqual(one.mbit, mbit, delta=0.05 * mbit)
        self.assertGreater(airtime.jain, 0.999)

    def test_fifo_with_floods(self) -> None:
        """No station gets more than another, so the slow one has most of the air."""
        chosen = shortened("anomaly", 6, 2)
        _, fifo = run(chosen, Fifo(chosen))
        for one in fifo.stations:
            self.assertAlmostEqual(one.mbit, 5.6, delta=0.4)
        self.assertAlmostEqual(fifo.stations[2].share, 0.87, delta=0.015)

    def test_no_headline_depends_on_a_backlog(self) -> None:
        for name in SCENARIOS:
            for flow in read(TOP / f"sim/scenarios/{name}.toml").flows:
                self.assertNotEqual(flow.kind, "backlog", name)

    def test_floods_exceed_their_links(self) -> None:
        for name in ("anomaly", "weights", "turns", "lossy"):
            chosen = shortened(name, 2.5, 1)
            _, result = run(chosen, machine(chosen))
            self.assertEqual(result.below_the_link(), [], name)

    def test_delays(self) -> None:
        chosen = shortened("latency", 4, 2)
        _, airtime = run(chosen, machine(chosen))
        _, fifo = run(chosen, Fifo(chosen))
        for ours, theirs in zip(airtime.flows, fifo.flows):
            if ours.flow.name == "ping":
                self.assertGreater(theirs.percentile(50), 10 * ours.percentile(50))

    def test_stations_do_not_stay_in_phase(self) -> None:
        """With deficits in lockstep a ping next to 29 busy stations takes 31 ms."""
        chosen = shortened("thirty", 3, 1)
        _, result = run(chosen, machine(chosen))
        self.assertLess(result.flows[-1].percentile(50), 20_000)

    def test_pending_shortens_delays(self) -> None:
        (_, without), (_, pending) = over_each("pending", 6, 2)
        self.assertGreater(without.flows[-1].percentile(95), 2 * pending.flows[-1].percentile(95))

    def test_a_debt_is_a_wait(self) -> None:
        """The first frame for the station that sent waits for the four others, which receive as much airtime."""
        firsts = [bench.frames[-1][0] for bench, _ in over_each("debt", 5.5)]
        times = [(one.released or 0) - one.came for one in firsts]
        self.assertAlmostEqual(times[0], 3_900_000, delta=200_000)
        self.assertAlmostEqual(times[1], 80_000, delta=40_000)

    def test_keep_order_keeps_a_flow_in_order(self) -> None:
        counts = [overtaken(bench.frames[-1]) for bench, _ in over_each("order", 0.3)]
        self.assertGreater(counts[0], 10)
        self.assertEqual(counts[1], 0)

    def test_weights(self) -> None:
        chosen = shortened("weights", 3, 1)
        _, airtime = run(chosen, machine(chosen))
        for one in airtime.stations:
            self.assertAlmostEqual(one.share, one.station.weight / 7, delta=0.01)

    def test_tcp_over_fifo_does_not_depend_on_the_length_of_a_run(self) -> None:
        totals = []
        for warmup, seconds in ((8, 18), (18, 38)):
            chosen = scenario(TCP.format(warmup=warmup, seconds=seconds))
            totals.append(run(chosen, Fifo(chosen))[1].total)
        self.assertAlmostEqual(totals[0], totals[1], delta=0.1 * totals[1])


class Seeds(unittest.TestCase):
    def test_each_scenario_depends_on_the_seed(self) -> None:
        self.assertGreaterEqual(len(SCENARIOS), 11)
        for name in SCENARIOS:
            runs = []
            for seed in (1, 2):
                chosen = shortened(name, 0.5, 0, seed)
                runs.append(fates(run(chosen, path_of(chosen) or machine(chosen))[0]))
            self.assertNotEqual(runs[0], runs[1], name)

    def test_identical_stations_come_out_alike(self) -> None:
        for name, over_fifo in (("anomaly", True), ("thirty", False)):
            chosen = shortened(name, 4, 1)
            paths: list[Path] = [machine(chosen), *([Fifo(chosen)] if over_fifo else [])]
            for path in paths:
                _, result = run(chosen, path)
                alike = [one.mbit for one in result.stations if one.station.group == "fast"]
                mean = sum(alike) / len(alike)
                for mbit in alike:
                    self.assertAlmostEqual(mbit, mean, delta=0.12 * mean, msg=name)

    def test_random_numbers_are_the_standard(self) -> None:
        """A scenario that fixes the access before each exchange says so by `access`, and none of ours does."""
        for name in SCENARIOS:
            self.assertIsNone(read(TOP / f"sim/scenarios/{name}.toml").air.access)
        chosen = scenario('seconds = 1\n[[station]]\n[[flow]]\nstation = "station 0"\nflood_mbit = 1\n')
        self.assertGreater(chosen.stations[0].loss, 0)
        self.assertGreater(chosen.flows[0].offset, 0)
        self.assertGreater(len(chosen.flows[0].sizes), 1)


if __name__ == "__main__":
    unittest.main()
