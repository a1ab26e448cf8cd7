"""Beacons and group frames: when they go, who hears them, and how a file asks for them."""
from __future__ import annotations

import io
import json
import unittest

from sim.bench import Bench
from sim.cli import check_model
from sim.exports import run_numbers, write_csv
from sim.fields import Fault
from sim.measure import Result
from sim.table import multicast_table

from .support import ONE_STATION, machine, run, scenario, shortened

STREAM = ONE_STATION + '[[flow]]\nname = "stream"\nto = "all"\nevery_ms = 10\nsize = 300\noffset_ms = 0\n'
SLEEPING = STREAM.replace("loss = 0\n", "loss = 0\nsleeps = [{ from = 0.3, to = 0.8 }]\npoll_ms = 50\n")
GROUP_AIR = 464  # microseconds of 300 octets at 6 Mbit/s
BEACON = 102_400
# Stations that fall asleep and wake at all times, next to one that loses frames.
RESTLESS = """
seconds = 6
[[station]]
name = "restless"
count = 3
rate = "7 20 long"
loss = 0
sleeps = [{ from = 0.35, to = 0.36 }, { from = 0.511, to = 1.7 }, { from = 1.7, to = 1.75 }, { from = 2.2, to = 5.5 }]
poll_ms = 30
[[station]]
name = "far"
rate = "0 20 long"
loss = 0.3
sleeps = [{ from = 2.0, to = 2.1 }, { from = 2.3, to = 2.31 }, { from = 4.04, to = 4.05 }]
leave = 5
[[flow]]
station = "restless"
mbit = 3
[[flow]]
name = "stream"
to = "all"
poisson_per_s = 120
[[flow]]
name = "announcements"
to = "all"
every_ms = 200
burst = 30
[machine]
buffered = 40
"""


# Two BSSs: the station of the second one sleeps for half of the run.
TWO = """
seconds = 1
[[bss]]
name = "home"
[[bss]]
name = "guests"
offset_ms = 20
[[station]]
name = "a"
rate = "7 20 long"
loss = 0
[[station]]
name = "b"
rate = "7 20 long"
loss = 0
bss = 1
sleeps = [{ from = 0.3, to = 0.8 }]
[[flow]]
station = "a"
mbit = 1
[[flow]]
name = "at home"
to = "all"
every_ms = 10
size = 300
offset_ms = 0
[[flow]]
name = "for guests"
to = "all"
bss = 1
every_ms = 10
size = 300
offset_ms = 0
"""


def with_period(text: str, period: int) -> str:
    """A scenario with a DTIM period."""
    if "[machine]" in text:
        return text.replace("[machine]", f"[machine]\nperiod = {period}")
    return f"{text}[machine]\nperiod = {period}\n"


def run_text(text: str) -> tuple[Bench, Result, list[str]]:
    """The bench, the result and the trace of a scenario over the machine."""
    copy = io.StringIO()
    chosen = scenario(text)
    bench, result = run(chosen, machine(chosen, copy))
    return bench, result, copy.getvalue().splitlines()


class OverTheMachine(unittest.TestCase):
    def test_while_all_are_awake_each_frame_goes_at_once(self) -> None:
        _, result, _ = run_text(STREAM)
        one = result.multicast[0]
        self.assertEqual((one.received, one.lost, one.missed, one.refused), (100, 0, 0, 0))  # and one that comes at the end
        self.assertGreaterEqual(one.delays[0], GROUP_AIR + 34)
        self.assertLess(one.delays[-1], 10_000)

    def test_while_one_sleeps_frames_wait_for_a_dtim_beacon(self) -> None:
        for period in (1, 3):
            _, result, _ = run_text(with_period(SLEEPING, period))
            one = result.multicast[0]
            self.assertEqual((one.missed, one.refused), (0, 0))
            self.assertGreater(one.delays[-1], (period - 1) * BEACON)
            self.assertLess(one.delays[-1], period * BEACON + 30 * (GROUP_AIR + 34) + 10_000)

    def test_a_sleeping_station_misses_no_frame_but_by_loss(self) -> None:
        for period in (1, 2, 4):
            _, result, _ = run_text(with_period(RESTLESS, period))
            self.assertEqual([one.missed for one in result.multicast], [0] * len(result.multicast))
            for one in result.multicast:
                self.assertGreater(one.received, 0)
                self.assertEqual(one.lost > 0, one.station.name == "far")
                self.assertLessEqual(one.received + one.lost, one.offered - one.refused)

    def test_a_bench_that_ignores_the_bit_would_see_frames_missed(self) -> None:
        chosen = scenario(with_period(RESTLESS, 2))
        path = machine(chosen)
        beacon = path.beacon
        setattr(path, "beacon", lambda bss: beacon(bss) and False)
        _, result = run(chosen, path)
        self.assertGreater(sum(one.missed for one in result.multicast), 0)

    def test_a_beacon_goes_at_its_time_and_before_group_frames(self) -> None:
        bench, _, lines = run_text(SLEEPING)
        self.assertEqual(lines.count("beacon"), 9)
        self.assertGreater(bench.multicast.used, 9 * 104)
        self.assertEqual(run_text(SLEEPING.replace("seconds = 1", "seconds = 1\nwarmup = 0.99"))[2].count("beacon"), 9)

    def test_a_full_queue_refuses_frames(self) -> None:
        _, result, _ = run_text(SLEEPING + "[machine]\nbuffered = 2\n")
        self.assertGreater(result.multicast[0].refused, 0)
        self.assertEqual(result.multicast[0].missed, 0)

    def test_each_bss_has_its_own_group_frames(self) -> None:
        _, result, lines = run_text(TWO)
        self.assertEqual([(one.flow.name, one.station.name) for one in result.multicast], [("at home", "a"), ("for guests", "b")])
        home, guests = result.multicast
        self.assertEqual((home.received, home.missed, guests.missed), (100, 0, 0))
        # Nobody of the first BSS sleeps, so its frames do not wait for a beacon.
        self.assertLess(home.delays[-1], 30_000)
        self.assertGreater(guests.delays[-1], BEACON - 20_000)
        self.assertEqual([lines.count(line) for line in ("bss 1 1", "beacon", "beacon 1")], [1, 9, 9])
        self.assertLess(lines.index("beacon"), lines.index("beacon 1"))

    def test_the_scenario_of_two_bsses(self) -> None:
        chosen = shortened("two-bsses", 12, 1)
        _, result = run(chosen, machine(chosen))
        self.assertEqual([one.missed for one in result.multicast], [0, 0])
        self.assertTrue(all(one.delays[-1] > 40_000 for one in result.multicast))

    def test_the_scenario_of_the_page(self) -> None:
        chosen = shortened("multicast", 5, 1)
        for period in (1, 3):
            one = chosen.with_settings({"period": period})
            _, result = run(one, machine(one))
            self.assertTrue(all(of.delays[-1] < period * BEACON + 10_000 for of in result.multicast))

    def test_the_same_run_for_the_same_seed(self) -> None:
        first, again = (run_text(RESTLESS)[1].multicast for _ in range(2))
        self.assertEqual([one.delays for one in first], [one.delays for one in again])

    def test_numbers_and_tables(self) -> None:
        _, result, _ = run_text(SLEEPING)
        numbers = run_numbers(result)
        self.assertEqual(json.loads(json.dumps(numbers))["multicasts"][0]["missed_frames"], 0)
        written = io.StringIO()
        write_csv(written, [numbers])
        rows = written.getvalue().splitlines()
        self.assertTrue(rows[0].endswith(",received_frames,lost_frames,missed_frames,refused_frames"))
        self.assertEqual([row.split(",")[3] for row in rows[1:]], ["station", "flow", "multicast"])
        self.assertIn("stream to a", multicast_table(result)[2])


class Read(unittest.TestCase):
    def test_group_frames_may_wait_and_beacons_go_out(self) -> None:
        chosen = scenario(STREAM)
        self.assertEqual((chosen.setting("buffered"), chosen.air.beacon), (128, BEACON))
        self.assertEqual(len(chosen.flows), 1)
        self.assertIsNone(scenario(ONE_STATION).air.beacon)
        self.assertEqual(scenario(ONE_STATION + "[machine]\nbuffered = 1\n").air.beacon, BEACON)
        self.assertEqual(scenario(STREAM + "[air]\nbeacon_ms = 50\n").air.beacon, 50_000)

    def test_mistakes(self) -> None:
        for text, expected in (
            (STREAM.replace('to = "all"', 'to = "b"'), 'to = "b": expected one of all'),
            (STREAM.replace('to = "all"', 'to = "all"\nstation = "a"'), "expected no station"),
            (STREAM.replace('to = "all"', 'to = "all"\ntid = 6'), "expected no tid"),
            (STREAM.replace("every_ms = 10", "backlog = 10"), "backlog is no kind of a flow to all stations"),
            (STREAM + "[machine]\nbuffered = 0\n", "buffered = 0: expected at least 1"),
            (TWO.replace("bss = 1\nevery_ms", "bss = 2\nevery_ms"), "bss = 2: expected .* 1"),
            (TWO.replace("bss = 1\nsleeps", "bss = 2\nsleeps"), "bss = 2: expected .* 1"),
            (STREAM + "[machine]\nbsses = 2\n", r"bsses = 2: expected no such key here: write a table \[\[bss\]\] for each"),
            (STREAM + "[[bss]]\n" * 17, "the file has 17 BSSs: expected at most 16"),
            (ONE_STATION.replace('station = "a"', 'to = "all"'), r"expected a table \[\[flow\]\] with a station"),
        ):
            with self.assertRaisesRegex(Fault, expected):
                scenario(text)

    def test_a_model_has_none(self) -> None:
        with self.assertRaisesRegex(Fault, "fifo: models have no beacons and no group frames"):
            check_model("fifo", scenario(STREAM))


if __name__ == "__main__":
    unittest.main()
