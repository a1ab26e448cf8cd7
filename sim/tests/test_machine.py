"""The machine on its pipe, and the models next to it. Tests that need a program are skipped if there is none."""
from __future__ import annotations

import io
import subprocess
import unittest
import unittest.mock

from sim.baselines.fq_mac import FqMac
from sim.fields import Fault
from sim.machine import head_of
from sim.models import MODELS
from sim.program import Pipe
from sim.settings import settings

from .support import ONE_STATION, THREE_STATIONS, fates, machine, program, run, scenario

COMING_AND_GOING = """
seconds = 1
[[station]]
name = "a"
rate = "7 20 long"
join = 0.1
leave = 0.6
rates = [{ at = 0.3, rate = "0 20 long" }]
[[station]]
name = "b"
rate = "7 20 long"
[[flow]]
station = "a"
backlog = 300
echo = true
[[flow]]
station = "b"
tid = 6
mbit = 2
"""

SLEEPING = """
seconds = 2
[[station]]
name = "a"
rate = "7 20 long"
sleeps = [{ from = 0.5, to = 1.5 }]
poll_ms = 100
loss = 0
[[flow]]
station = "a"
every_ms = 200
start = 0.45
offset_ms = 0
"""

TCP = """
seconds = 2
[[station]]
name = "a"
rate = "7 20 long"
[[flow]]
station = "a"
tcp = "cubic"
octets = 200000
[[flow]]
station = "a"
tcp = "reno"
direction = "up"
[[flow]]
station = "a"
web = "small"
"""


class Models(unittest.TestCase):
    def test_the_same_run_for_the_same_seed(self) -> None:
        for model in MODELS.values():
            first, again = (run(chosen, model(chosen))[0] for chosen in (scenario(THREE_STATIONS), scenario(THREE_STATIONS)))
            self.assertEqual(fates(first), fates(again))
            other = scenario(THREE_STATIONS.replace("seed = 5", "seed = 6"))
            self.assertNotEqual(fates(first), fates(run(other, model(other))[0]))

    def test_each_frame_is_counted_once(self) -> None:
        for model in MODELS.values():
            chosen = scenario(THREE_STATIONS)
            bench, result = run(chosen, model(chosen))
            for one, frames in zip(result.flows, bench.frames):
                inside = sum(1 for frame in frames if frame.fate in (None, "acked") and frame.released is None)
                self.assertEqual(one.offered, one.delivered + sum(one.dropped.values()) + inside)
                self.assertLessEqual(inside, 364)

    def test_released_in_order(self) -> None:
        chosen = scenario(THREE_STATIONS)
        bench, _ = run(chosen, FqMac(chosen))
        times = [frame.released for frame in bench.frames[0] if frame.released is not None]
        self.assertEqual(times, sorted(times))

    def test_stations_that_come_and_go(self) -> None:
        for model in MODELS.values():
            chosen = scenario(COMING_AND_GOING)
            _, result = run(chosen, model(chosen))
            self.assertGreater(result.flows[0].dropped["left"], 0)
            self.assertEqual(result.flows[1].delivered, result.flows[1].offered)


class TheMachine(unittest.TestCase):
    def test_the_trace_replays_to_the_same_summary(self) -> None:
        for text in (THREE_STATIONS, COMING_AND_GOING, SLEEPING, TCP):
            copy = io.StringIO()
            chosen = scenario(text)
            _, result = run(chosen, machine(chosen, copy))
            done = subprocess.run([program()[0], "replay"], input=copy.getvalue(), capture_output=True, text=True, check=True)
            self.assertEqual(done.stdout.splitlines()[-len(result.summary) :], result.summary)
            self.assertEqual(result.summary[0], f"calls {result.calls}")

    def test_the_same_trace_for_the_same_seed(self) -> None:
        traces = []
        for seed in (5, 5, 6):
            copy = io.StringIO()
            chosen = scenario(THREE_STATIONS.replace("seed = 5", f"seed = {seed}"))
            run(chosen, machine(chosen, copy))
            traces.append(copy.getvalue())
        self.assertEqual(traces[0], traces[1])
        self.assertNotEqual(traces[0], traces[2])

    def test_the_counts_are_those_of_the_summary(self) -> None:
        chosen = scenario(THREE_STATIONS)
        bench, result = run(chosen, machine(chosen))
        words = result.summary[2].split()
        counts = dict(zip(words[0::2], map(int, words[1::2])))
        frames = [frame for flow in bench.frames for frame in flow]
        self.assertEqual(counts["frames"], len(frames))
        for fate in ("acked", "codel", "retries"):
            self.assertAlmostEqual(sum(1 for frame in frames if frame.fate == fate), counts[fate], delta=40)  # not reaped yet at the end
        charges = [line.split() for line in result.summary if " be charged " in line]
        self.assertEqual([one.airtime - one.uplink for one in result.stations], [int(words[4]) for words in charges])
        self.assertEqual([one.uplink for one in result.stations], [int(words[6]) for words in charges])
        self.assertGreater(result.stations[2].uplink, 0)

    def test_uplink_is_charged_only_if_the_scenario_says_so(self) -> None:
        chosen = scenario(THREE_STATIONS + "[air]\ncharge_uplink = false\n")
        _, result = run(chosen, machine(chosen))
        self.assertGreater(result.stations[2].uplink, 0)
        self.assertEqual({line.split()[6] for line in result.summary if " be charged " in line}, {"0"})

    def test_access_is_charged_if_the_scenario_says_so(self) -> None:
        chosen = scenario(THREE_STATIONS + "[air]\ncharge_access = true\n")
        bench, result = run(chosen, machine(chosen))
        charged = [int(line.split()[4]) for line in result.summary if " be charged " in line]
        self.assertEqual([one.airtime - one.uplink for one in result.stations], charged)
        self.assertGreater(result.jain, 0.995)
        self.assertEqual([served.access for served in bench.served[:2]], [0, 0])  # these send nothing

    def test_airtime_is_shared(self) -> None:
        chosen = scenario(THREE_STATIONS.replace("loss = 0.05", "loss = 0").replace("ack_loss = 0.02", "ack_loss = 0"))
        _, result = run(chosen, machine(chosen))
        self.assertGreater(result.jain, 0.999)

    def test_it_fits_the_models_airtimes(self) -> None:
        rates = ["0 20 long", "7 40 short", "15 20 short", "11 40 long", "vht 9 80 short 2", "vht 0 20 long 1", "he 11 80 800 2", "he 0 20 3200 1"]
        for rate in [*rates, "ofdm 6", "ofdm 54", "dsss 2", "dsss 11"]:
            text = f'seconds = 0.3\n[[station]]\nname = "a"\nrate = "{rate}"\n[[flow]]\nstation = "a"\nsize = 1001\nbacklog = 300\n'
            ours, theirs = scenario(text), scenario(text)
            model, result = run(ours, FqMac(ours))[1], run(theirs, machine(theirs))[1]
            self.assertEqual(model.stations[0].airtime, result.stations[0].airtime)
            self.assertEqual(model.stations[0].mbit, result.stations[0].mbit)

    def test_a_burst_fills_no_pipe(self) -> None:
        chosen = scenario(ONE_STATION.replace("mbit = 10", "mbit = 1\nburst = 20000"))
        _, result = run(chosen, machine(chosen))
        self.assertEqual(result.flows[0].dropped["overlimit"], 20000 - 8192)

    def test_frames_that_come_while_the_driver_is_full_are_written_together(self) -> None:
        chosen = scenario(ONE_STATION.replace("mbit = 10", "flood_mbit = 100"))
        path = machine(chosen)
        with unittest.mock.patch.object(path.pipe, "ask", wraps=path.pipe.ask) as asked:
            _, result = run(chosen, path)
        self.assertLess(asked.call_count, result.calls / 20)

    def test_the_run_ends_when_no_more_calls_are_taken(self) -> None:
        chosen = scenario(THREE_STATIONS + "[machine]\ncalls = 5000\n")
        bench, result = run(chosen, machine(chosen))
        self.assertTrue(result.cut)
        self.assertLess(result.seconds, 1)
        self.assertLessEqual(max(frame.came for frames in bench.frames for frame in frames), bench.clock.now)
        self.assertLessEqual(result.calls, 5000)
        self.assertGreater(result.calls, 4400)

    def test_a_sleeping_station_gets_a_frame_a_poll(self) -> None:
        chosen = scenario(SLEEPING)
        bench, _ = run(chosen, machine(chosen))
        delays = [frame.released - frame.came for frame in bench.frames[0] if frame.released is not None]
        # Frames come at 450, 650, .. ms; polls are at 600, 700, .. 1400 ms; it wakes at 1500 ms.
        self.assertEqual([round(delay / 1000) for delay in delays], [0, 50, 50, 50, 50, 50, 0, 0])

    def test_a_class_that_waited_for_the_airtime_limit_sends_when_another_class_has_ended(self) -> None:
        voice = '[[flow]]\nstation = "a"\ntid = 6\nevery_ms = 1000\nstart = 0.5\noffset_ms = 0\n'
        chosen = scenario(ONE_STATION.replace("mbit = 10", "flood_mbit = 100") + voice + "[machine]\naql_total = 1\n")
        _, result = run(chosen, machine(chosen))
        self.assertEqual(len(result.flows[1].delays), 1)
        self.assertLess(result.flows[1].delays[0], 20_000)

    def test_every_setting_is_accepted(self) -> None:
        chosen = scenario(ONE_STATION + "[machine]\ncharge = 5000\nflows = 512\nsleeping = 10\n")
        _, result = run(chosen, machine(chosen))
        self.assertGreater(result.flows[0].delivered, 0)

    def test_the_first_line_of_a_trace(self) -> None:
        self.assertEqual(head_of({"flows": settings()["flows"].standard, "sleeping": 10, "charge": 5000}), "cell sleeping=10 charge=5000")
        with self.assertRaisesRegex(Fault, "first line of [0-9]+ octets: expected at most 160, so set fewer of them"):
            head_of({name: one.greatest for name, one in settings().items()})

    def test_a_program_that_stops(self) -> None:
        pipe = Pipe(program()[0], "cell", 10)
        with self.assertRaisesRegex(Fault, "stopped after call 1: fault line 2 word"):
            pipe.ask(["fly"])
        pipe.abandon()


if __name__ == "__main__":
    unittest.main()
