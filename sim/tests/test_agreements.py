"""Agreements that begin at the first frame of a TID: what the driver does, and the machine below it."""
from __future__ import annotations

import io
import subprocess
import unittest
import unittest.mock
from collections.abc import Iterator

from sim.agreements import ADDBA, Agreements
from sim.fields import Fault
from sim.frames import Exchange, Path
from sim.medium import AccessPoint
from sim.rates import SIFS

from .support import ONE_STATION, fates, frame, machine, program, run, scenario

FIRST_FRAME = ONE_STATION.replace("loss = 0\n", 'loss = 0.2\nack_loss = 0.05\nagreements = "first-frame"\n').replace(
    "mbit = 10", "backlog = 200"
)
VOICE = '[[flow]]\nstation = "a"\ntid = 6\nevery_ms = 20\nsize = 200\n'
LATE_VOICE = '[[flow]]\nstation = "a"\ntid = 6\nevery_ms = 500\nstart = 0.4995\noffset_ms = 0\nsize = 200\n'
# The station falls asleep while its first frame is on the air, and leaves while its second TID is held.
SLEEPING = FIRST_FRAME.replace("rate =", "sleeps = [{ from = 0.0001, to = 0.3 }]\npoll_ms = 20\nrate =")
LEAVING = FIRST_FRAME.replace("rate =", "leave = 0.5\nrate =") + LATE_VOICE
NEW_WORDS = ("plain", "hold", "begin", "free")


def exchange(number: int, station: int = 0, tid: int = 0) -> Exchange:
    """An exchange of one frame without an agreement."""
    return Exchange(number, station, tid, 100, [frame(scenario(ONE_STATION).flows[0])], is_plain=True)


def traced(text: str) -> list[tuple[int, str, str]]:
    """The calls of a run with their times and answers."""
    copy = io.StringIO()
    chosen = scenario(text)
    run(chosen, machine(chosen, copy))
    done = subprocess.run([program()[0], "replay"], input=copy.getvalue(), capture_output=True, text=True, check=True)
    calls: list[tuple[int, str, str]] = []
    now = 0
    for line, answer in zip(copy.getvalue().splitlines()[1:-1], done.stdout.splitlines()):
        now += int(line.split()[1]) if line.startswith("tick ") else 0
        calls.append((now, line, answer))
    return calls


def of_tid(calls: list[tuple[int, str, str]], tid: int) -> Iterator[tuple[int, list[str]]]:
    """The times and words of the exchanges that open for a TID, and of the calls on its agreement."""
    for now, line, answer in calls:
        words = answer.split() if line.startswith("pull ") else line.split()
        if (words[0] == "send" and words[5] == str(tid)) or (words[0] in NEW_WORDS[1:] and words[2] == str(tid)):
            yield now, words


class TheDriver(unittest.TestCase):
    def setUp(self) -> None:
        self.chosen = scenario(FIRST_FRAME)
        self.station = self.chosen.stations[0]
        self.path = unittest.mock.Mock(spec=Path)
        self.point = AccessPoint()
        self.agreements = Agreements(self.chosen, self.path, self.point)

    def asked(self) -> list[str]:
        """The names of the calls that the path was asked so far."""
        return [name for name, _, _ in self.path.method_calls]

    def end(self, sent: Exchange, fate: str | None) -> None:
        """Ends an exchange: its frame has this fate, or it waits."""
        sent.frames[0].fate = fate
        self.agreements.ended(sent)

    def test_it_holds_a_tid_at_its_first_frame_and_asks_when_that_has_ended(self) -> None:
        first, again = exchange(0), exchange(1)
        self.agreements.opened(first)
        self.end(first, None)
        self.agreements.opened(again)
        self.assertEqual((self.asked(), self.point.count), (["hold"], 0))
        self.end(again, "retries")
        request = self.point.take()
        self.assertEqual((request.is_addba, request.tid, request.air), (True, 0, ADDBA))
        self.station.loss = 1.0
        self.assertFalse(self.agreements.answered(request))
        self.assertIs(self.point.take(), request)
        self.station.loss = 0.0
        self.assertTrue(self.agreements.answered(request))
        self.assertEqual((self.asked(), self.agreements.held), (["hold", "begin"], {}))

    def test_each_tid_has_its_own(self) -> None:
        for tid in (0, 6):
            self.agreements.opened(exchange(tid, tid=tid))
        self.assertEqual(self.path.hold.call_args_list, [unittest.mock.call(self.station, tid) for tid in (0, 6)])

    def test_a_station_that_falls_asleep_is_asked_later(self) -> None:
        first = exchange(0)
        self.agreements.opened(first)
        self.end(first, "acked")
        self.agreements.sleep(self.station)
        self.assertEqual((self.asked(), self.point.count), (["hold", "free"], 0))
        self.agreements.opened(exchange(1))
        self.assertEqual(self.asked(), ["hold", "free"])
        self.agreements.wake(self.station)
        self.agreements.opened(exchange(2))
        self.assertEqual(self.asked(), ["hold", "free", "hold"])

    def test_an_answer_that_comes_too_late_begins_nothing(self) -> None:
        first = exchange(0)
        self.agreements.opened(first)
        self.end(first, "acked")
        request = self.point.take()
        self.agreements.cancel(self.station)
        self.assertFalse(self.agreements.answered(request))
        self.end(first, "acked")
        self.assertEqual((self.asked(), self.point.count), (["hold", "free"], 0))


class OverTheMachine(unittest.TestCase):
    def test_an_agreement_begins_after_the_first_frame(self) -> None:
        calls = traced(FIRST_FRAME + VOICE)
        self.assertEqual(calls[0][1], "plain 0 0 3 1")
        for tid in (0, 6):
            listed = list(of_tid(calls, tid))
            names = [words[0] for _, words in listed]
            held, begun = names.index("hold"), names.index("begin")
            self.assertEqual((held, names.count("hold"), names.count("begin"), names.count("free")), (1, 1, 1, 0))
            before = [words[8:] for _, words in listed[:begun] if words[0] == "send"]
            self.assertEqual({tuple(words) for words in before}, {("plain", before[0][1])})
            self.assertTrue(all(words[8] in ("data", "bar") for _, words in listed[begun + 1 :]))
            self.assertGreaterEqual(listed[begun][0] - listed[begun - 1][0], ADDBA + SIFS)
        self.assertTrue(any(len(words) > 20 for _, words in of_tid(calls, 0)))

    def test_a_sleeping_station_gets_frames_one_at_a_time(self) -> None:
        names = [(words[0], now) for now, words in of_tid(traced(SLEEPING), 0) if words[0] != "send"]
        self.assertEqual([name for name, _ in names], ["hold", "free", "hold", "begin"])
        self.assertEqual(names[1][1], 100)
        self.assertGreaterEqual(names[2][1], 300_000)

    def test_a_station_that_leaves_is_asked_no_more(self) -> None:
        calls = traced(LEAVING)
        self.assertIn((500_000, "free 0 6", "freed"), calls)
        self.assertIn(("leave 0", "left"), [(line, answer.split()[0]) for _, line, answer in calls])

    def test_frames_are_released_in_order_and_once(self) -> None:
        chosen = scenario(FIRST_FRAME)
        bench, result = run(chosen, machine(chosen))
        times = [one.released for one in bench.frames[0] if one.released is not None]
        self.assertEqual(times, sorted(times))
        self.assertGreater(len(times), 0.8 * result.flows[0].offered)
        charged = [int(line.split()[4]) for line in result.summary if " be charged " in line]
        self.assertEqual([result.stations[0].airtime - result.stations[0].uplink], charged)

    def test_the_same_run_for_the_same_seed(self) -> None:
        for text in (FIRST_FRAME, SLEEPING, LEAVING):
            first, again = (run(chosen, machine(chosen))[0] for chosen in (scenario(text), scenario(text)))
            self.assertEqual(fates(first), fates(again))

    def test_a_standard_station_has_all_agreements_at_its_join(self) -> None:
        words = {line.split()[0] for _, line, _ in traced(ONE_STATION)}
        self.assertFalse(words & set(NEW_WORDS))
        same = ONE_STATION.replace("loss = 0\n", 'loss = 0\nagreements = "join"\n')
        self.assertEqual(traced(same), traced(ONE_STATION))


class Read(unittest.TestCase):
    def test_a_wrong_value(self) -> None:
        with self.assertRaisesRegex(Fault, 'agreements = "later": expected one of join, first-frame'):
            scenario(FIRST_FRAME.replace("first-frame", "later"))
        with self.assertRaisesRegex(Fault, "expected no agreements, since the device of an offloaded station makes its own"):
            scenario(FIRST_FRAME.replace("agreements", "offload = true\nagreements"))


if __name__ == "__main__":
    unittest.main()
