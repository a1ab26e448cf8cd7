"""When frames of each kind of flow come, and what a window does about losses."""
from __future__ import annotations

import itertools
import unittest

from sim.arrivals import Arrivals
from sim.baselines.fifo import Fifo
from sim.bench import Bench
from sim.frames import Frame
from sim.scenario import Flow
from sim.traffic import Backlog, Eager, Tcp, Timed
from sim.window import Cubic, Reno

from .support import ONE_STATION, fates, run, scenario


def flow(line: str) -> Flow:
    return scenario(ONE_STATION.replace("mbit = 10", line)).flows[0]


def times(source: Timed, count: int) -> list[int]:
    """The times of the first frames."""
    return [time for time, *_ in itertools.islice(itertools.chain.from_iterable(source.blocks()), count)]


class TimedFlows(unittest.TestCase):
    def test_every(self) -> None:
        self.assertEqual(times(Timed(flow("every_ms = 1.5\nstart = 0.1"), 1), 3), [100_000, 101_500, 103_000])

    def test_mbit(self) -> None:
        # 1500 octets at 9 Mbit/s: 1333.3 microseconds, without drift.
        self.assertEqual(times(Timed(flow("mbit = 9"), 1), 4), [0, 1333, 2666, 4000])

    def test_mbit_of_the_fastest_rates(self) -> None:
        self.assertEqual(times(Timed(flow("mbit = 6000"), 1), 3), [0, 2, 4])

    def test_burst_and_stop(self) -> None:
        self.assertEqual(times(Timed(flow("every_ms = 2\nburst = 3\nstop = 0.005"), 1), 9), [0, 0, 0, 2000, 4000])

    def test_poisson_is_the_same_for_the_same_seed(self) -> None:
        poisson = flow("poisson_per_s = 1000")
        first = times(Timed(poisson, 1), 500)
        self.assertEqual(first, times(Timed(poisson, 1), 500))
        self.assertNotEqual(first, times(Timed(poisson, 2), 500))
        self.assertAlmostEqual(first[-1] / 500, 1000, delta=150)

    def test_a_flood_has_its_rate_on_average(self) -> None:
        found = times(Timed(flow("flood_mbit = 12"), 1), 2000)  # 1500 octets: one each millisecond
        self.assertAlmostEqual(found[-1] / 2000, 1000, delta=70)

    def test_a_flood_has_its_rate_with_any_sizes(self) -> None:
        mixed = scenario(ONE_STATION.replace("mbit = 10", "flood_mbit = 12").replace("size = 1500", "size = [[1500, 1], [500, 1]]"))
        found = times(Timed(mixed.flows[0], 1), 2000)  # 1000 octets on average
        self.assertAlmostEqual(found[-1] / 2000, 1000 * 2 / 3, delta=50)

    def test_the_start_is_late_by_a_drawn_offset(self) -> None:
        late = scenario(ONE_STATION.replace("offset_ms = 0", "offset_ms = 10")).flows[0]
        starts = {Timed(late, seed).start for seed in range(50)}
        self.assertGreater(len(starts), 40)
        self.assertTrue(all(0 <= start <= 10_000 for start in starts))

    def test_two_flows_of_one_name_have_their_own_random_numbers(self) -> None:
        flows = scenario(ONE_STATION.replace("mbit = 10", "poisson_per_s = 100") + '[[flow]]\nstation = "a"\npoisson_per_s = 100\n').flows
        self.assertEqual(flows[0].label, flows[1].label)
        self.assertNotEqual(times(Timed(flows[0], 1), 20), times(Timed(flows[1], 1), 20))

    def test_sizes_come_by_their_weights(self) -> None:
        mixed = scenario(ONE_STATION.replace("size = 1500", "size = [[1500, 3], [100, 1]]")).flows[0]
        source = Timed(mixed, 1)
        sizes = [octets for *_, octets in itertools.islice(itertools.chain.from_iterable(source.blocks()), 2000)]
        self.assertEqual(set(sizes), {100, 1500})
        self.assertAlmostEqual(sizes.count(1500) / 2000, 0.75, delta=0.04)


class Merged(unittest.TestCase):
    def arrivals(self, *lines: str) -> list[tuple[int, int, int]]:
        """The time, the flow and the order of all arrivals of flows of these kinds."""
        flows = "".join(f'[[flow]]\nstation = "a"\noffset_ms = 0\n{line}\n' for line in lines[1:])
        chosen = scenario(ONE_STATION.replace("mbit = 10", lines[0]) + flows)
        merged, found = Arrivals([Timed(one, 1) for one in chosen.flows]), []
        while (time := merged.next_time()) < 1_000_000:
            some = merged.before(time + 1000)
            merged.skip(len(some))
            found += [(at, number, order) for at, number, order, _ in some]
        return found

    def test_all_come_once_in_the_order_of_time_and_of_flows(self) -> None:
        found = self.arrivals("every_ms = 1\nburst = 1000\nstop = 0.5", "poisson_per_s = 2700", "every_ms = 100\nstop = 0.4", "mbit = 1\nstop = 0")
        self.assertEqual(found, sorted(found))
        counts = [sum(number == nth for _, number, _ in found) for nth in (1, 2, 3, 4)]
        self.assertEqual((counts[0], counts[2], counts[3]), (1499, 4, 0))
        self.assertAlmostEqual(counts[1], 2700, delta=200)
        self.assertEqual([order for _, number, order in found if number == 1], list(range(1, 1500)))


class Backlogs(unittest.TestCase):
    def test_a_backlog_is_kept(self) -> None:
        source = Backlog(flow("backlog = 2"), 1)
        frames = []
        for _ in range(2):
            self.assertTrue(source.wants(0))
            frames.append(source.frame(0))
        self.assertFalse(source.wants(0))
        source.ended(frames[0])
        self.assertTrue(source.wants(0))

    def test_a_backlog_waits_for_room(self) -> None:
        chosen = scenario(ONE_STATION.replace("mbit = 10", "backlog = 5000"))
        _, result = run(chosen, Fifo(chosen))
        self.assertEqual(result.flows[0].dropped["overlimit"], 0)
        self.assertGreater(result.flows[0].delivered, 3000)

    def test_flows_are_asked_only_when_they_might_send(self) -> None:
        """With 30 flows and one that sends, the number of questions grows with the frames, not with frames times flows."""
        stations = "".join(f'[[station]]\nname = "s{n}"\n[[flow]]\nstation = "s{n}"\nbacklog = 1\nstop = 0.01\n' for n in range(30))
        chosen = scenario(ONE_STATION.replace("mbit = 10", "backlog = 20") + stations)
        bench = Bench(chosen, Fifo(chosen))
        asked = 0
        ask = bench.ask

        def counted(source: Eager) -> None:
            nonlocal asked
            asked += 1
            ask(source)

        bench.ask = counted  # type: ignore[assignment]
        bench.run(1_000_000)
        self.assertLess(asked, 4 * sum(map(len, bench.frames)))


class Senders(unittest.TestCase):
    def setUp(self) -> None:
        self.source = Tcp(flow('tcp = "reno"'), 1)
        self.window = self.source.window

    def send(self, count: int) -> list[Frame]:
        return [self.source.frame(0) for _ in range(count)]

    def release(self, frames: list[Frame], now: int) -> None:
        for frame in frames:
            frame.released = now
        self.source.acknowledged(frames[-1], now + 1000)

    def test_it_sends_a_window(self) -> None:
        for _ in range(10):
            self.assertTrue(self.source.wants(0))
            self.source.frame(0)
        self.assertFalse(self.source.wants(0))

    def test_slow_start_then_half_then_one_a_round_trip(self) -> None:
        frames = self.send(10)
        self.release(frames[:8], 20_000)
        self.assertEqual(self.window.frames, 18)
        more = self.send(16)
        self.release(more[:2], 40_000)  # the frames 9 and 10 were dropped
        self.assertEqual(self.window.frames, 10)  # 18 and 2, halved
        self.release(more[3:4], 41_000)  # one more was lost in the same round trip
        self.assertAlmostEqual(self.window.frames, 10 + 1 / 10)

    def test_a_timeout(self) -> None:
        self.release(self.send(10), 20_000)
        self.send(5)
        self.source.check(30_000)
        self.assertEqual(len(self.source.outstanding), 5)
        self.source.check(1_000_000)
        self.assertEqual((len(self.source.outstanding), self.window.frames), (0, 1))

    def test_a_frame_that_was_given_up_is_not_lost_again(self) -> None:
        frames = self.send(10)
        self.source.check(2_000_000)
        self.release(frames, 2_100_000)
        self.assertEqual(self.window.frames, 1)

    def test_its_acknowledgements_take_air(self) -> None:
        chosen = scenario(ONE_STATION.replace("mbit = 10", 'tcp = "cubic"'))
        bench, result = run(chosen, Fifo(chosen))
        self.assertGreater(result.stations[0].uplink, 5000)
        self.assertTrue(all(frame.fate == "acked" for frame in bench.frames[0][:1000]))

    def test_the_same_run_again(self) -> None:
        chosen = scenario(ONE_STATION.replace("mbit = 10", 'tcp = "cubic"'))
        self.assertEqual(*(fates(run(chosen, Fifo(chosen))[0]) for _ in range(2)))


class Windows(unittest.TestCase):
    def test_reno(self) -> None:
        window = Reno()
        window.lost()
        self.assertEqual((window.frames, window.threshold), (5, 5))
        window.acknowledged(1, 0.1)
        self.assertAlmostEqual(window.frames, 5 + 1 / 5)

    def test_no_window_is_below_two_after_a_loss(self) -> None:
        for window in (Reno(), Cubic()):
            for _ in range(20):
                window.lost()
            self.assertEqual(window.frames, 2)

    def test_cubic_reaches_the_window_of_the_loss_after_its_plateau(self) -> None:
        # From 100 to 70 frames; (30/0.4)^(1/3) = 4.217 s until 100 frames again; at a round trip of 0.1 s Reno would have less.
        window = Cubic()
        window.frames = 100.0
        window.lost()
        self.assertAlmostEqual(window.frames, 70)
        now = 0.0
        while now < 4.217:
            for _ in range(round(window.frames)):
                window.acknowledged(now, 0.1)
            now += 0.1
        self.assertAlmostEqual(window.plateau, (30 / 0.4) ** (1 / 3))
        self.assertAlmostEqual(window.frames, 100, delta=1)

    def test_cubic_converges_faster_after_a_second_loss(self) -> None:
        window = Cubic()
        window.frames = 100.0
        window.lost()
        window.lost()  # at 70, below the last maximum
        self.assertAlmostEqual(window.most, 70 * 1.7 / 2)
        self.assertAlmostEqual(window.frames, 49)

    def test_slow_start_ends_when_the_round_trip_rises(self) -> None:
        window = Cubic()
        for round_trip in (0.020, 0.021):
            window.begin_round()
            for _ in range(8):
                window.sample(round_trip)
        self.assertEqual(window.threshold, float("inf"))
        window.begin_round()
        for _ in range(8):
            window.sample(0.026)  # the last round's 21 ms and 4 more
        self.assertEqual(window.threshold, window.frames)


if __name__ == "__main__":
    unittest.main()
