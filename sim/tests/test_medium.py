"""Backoff, contention, and what stations send."""
from __future__ import annotations

import unittest

from sim.baselines.fifo import Fifo
from sim.frames import Exchange
from sim.medium import AccessPoint, Medium, Uplink, UplinkFrame
from sim.rates import Legacy, charge
from sim.scenario import Air

from .support import ONE_STATION, run, scenario

STATION = scenario(ONE_STATION).stations[0]


def access_point(count: int) -> AccessPoint:
    """An access point with this many exchanges."""
    made = AccessPoint()
    for number in range(count):
        made.add(Exchange(number, 0, 0, 100, []))
    return made


def uplink(*octets: int) -> Uplink:
    """A station with frames to send."""
    made = Uplink(STATION, 4000)
    for size in octets:
        made.add(UplinkFrame(size, 0, lambda now: None))
    return made


class Backoff(unittest.TestCase):
    def test_alone_each_exchange_waits_for_difs_and_a_drawn_backoff(self) -> None:
        medium = Medium(Air(), 1)
        times = [medium.next([access_point(1)])[1] for _ in range(4000)]
        self.assertEqual({time - 34 for time in times}, {9 * slots for slots in range(16)})
        self.assertAlmostEqual(sum(times) / 4000, 34 + 7.5 * 9, delta=1)

    def test_the_draws_depend_on_the_seed(self) -> None:
        drawn = {Medium(Air(), seed).next([access_point(1)])[1] for seed in range(20)}
        self.assertGreater(len(drawn), 5)

    def test_who_waits_keeps_what_is_left(self) -> None:
        medium = Medium(Air(), 1)
        first, second = access_point(100), uplink(60)
        first.backoff, second.backoff = 3, 7
        self.assertEqual(medium.next([first, second]), (first, 34 + 3 * 9))
        self.assertEqual((first.backoff, second.backoff), (None, 4))

    def test_two_that_always_send_get_half_each(self) -> None:
        medium = Medium(Air(), 1)
        first, second = access_point(1), uplink(60)
        wins = [medium.next([first, second])[0] is first for _ in range(4000)]
        self.assertAlmostEqual(sum(wins) / 4000, 0.5, delta=0.03)

    def test_a_fixed_access_gives_turns(self) -> None:
        medium = Medium(Air(access=102), 1)
        first, second = access_point(1), uplink(60)
        turns = [medium.next([first, second]) for _ in range(4)]
        self.assertEqual(turns, [(first, 102), (second, 102), (first, 102), (second, 102)])

    def test_the_urgent_class_goes_first(self) -> None:
        made = access_point(1)
        made.add(Exchange(7, 0, 6, 100, []))
        self.assertEqual([made.take().number, made.take().number], [7, 0])


class Uplinks(unittest.TestCase):
    def test_an_aggregate_and_its_airtime(self) -> None:
        exchange = uplink(60, 60, 1500).take()
        # Two padded subframes of 96 octets and one of 1534.
        self.assertEqual((len(exchange.frames), exchange.air), (3, charge(STATION.rate, 96 + 96 + 1534, 64)))

    def test_at_a_rate_of_ofdm_a_frame_goes_alone(self) -> None:
        sender = uplink(60, 60)
        sender.rate = Legacy("ofdm", 54)
        exchange = sender.take()
        # 90 octets are 742 bits, four symbols of 216; SIFS and the Ack are 44.
        self.assertEqual((len(exchange.frames), exchange.air), (1, 20 + 16 + 44))

    def test_frames_that_did_not_arrive_are_sent_again(self) -> None:
        sender = uplink(60, 61, 62)
        taken = sender.finish(sender.take(), [True, False, True])
        self.assertEqual([frame.octets for frame in taken], [60, 62])
        self.assertEqual([frame.octets for frame in sender.take().frames], [61])

    def test_a_station_that_left_sends_nothing(self) -> None:
        sender = uplink(60)
        sender.leave()
        sender.add(UplinkFrame(60, 0, lambda now: None))
        self.assertEqual(sender.count, 0)

    def test_an_aggregate_is_bounded(self) -> None:
        self.assertEqual(len(uplink(*[60] * 100).take().frames), 64)
        self.assertEqual(len(uplink(*[2000] * 40).take().frames), 15)  # 4 ms at 65 Mbit/s

    def test_a_reply_makes_a_round_trip(self) -> None:
        echo = scenario(ONE_STATION.replace("mbit = 10", "every_ms = 10\necho = true\nstop = 0.9"))
        bench, result = run(echo, Fifo(echo))
        for frame in bench.frames[0]:
            assert frame.released and frame.answered
            self.assertGreaterEqual(frame.answered - frame.released, 34 + result.stations[0].uplink / len(bench.frames[0]))
        self.assertEqual(result.flows[0].delays[0], min((frame.answered or 0) - frame.came for frame in bench.frames[0]))

    def test_replies_take_air_from_others(self) -> None:
        text = ONE_STATION.replace("mbit = 10", "flood_mbit = 100")
        quiet = scenario(text)
        busy = scenario(text + '[[flow]]\nstation = "a"\ntid = 3\nevery_ms = 1\nsize = 1500\necho = true\n')
        self.assertGreater(run(quiet, Fifo(quiet))[1].flows[0].delivered, 1.1 * run(busy, Fifo(busy))[1].flows[0].delivered)


if __name__ == "__main__":
    unittest.main()
