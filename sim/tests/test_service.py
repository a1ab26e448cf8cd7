"""Service periods: what opens and ends them, the order of their exchanges on the air, and how a file asks for them."""
from __future__ import annotations

import io
import json
import subprocess
import unittest
from collections.abc import Iterator, Sequence
from dataclasses import dataclass, field

from sim.bench import Bench
from sim.exports import SERVICE_COLUMNS, run_numbers, write_csv
from sim.fields import Fault
from sim.measure import Result
from sim.scenario import Scenario
from sim.table import services_table

from .support import machine, program, run, scenario, shortened

PHONE = """
seconds = 1
[[station]]
name = "phone"
rate = "7 20 long"
loss = 0
sleeps = [{ from = 0.1, to = 1 }]
apsd = "vo"
max = 2
[[flow]]
name = "call"
station = "phone"
tid = 6
voip = true
direction = "up"
"""
DOWN = '[[flow]]\nname = "call"\nstation = "phone"\ntid = 6\nvoip = true\n'
# Stations that sleep most of the time, with flows of several classes both ways. A frame that failed makes a BlockAckReq due, which
# may be all that is left for a service period.
RESTLESS = """
seconds = 4
[[station]]
name = "phone"
count = 3
rate = "7 20 long"
loss = 0.2
sleeps = [{ from = 0.2, to = 1.5 }, { from = 1.6, to = 3.1 }, { from = 3.15, to = 4 }]
poll_ms = 40
apsd = "vo vi be"
max = 4
[[station]]
name = "tablet"
rate = "0 20 long"
loss = 0.1
sleeps = [{ from = 0.1, to = 2 }]
apsd = "vi vo"
leave = 2
[[station]]
name = "busy"
rate = "15 20 short"
[[flow]]
name = "voice"
station = "phone"
tid = 6
poisson_per_s = 60
[[flow]]
name = "video"
station = "phone"
tid = 5
poisson_per_s = 40
[[flow]]
name = "mail"
station = "phone"
poisson_per_s = 10
[[flow]]
name = "other"
station = "phone"
tid = 1
poisson_per_s = 5
[[flow]]
name = "from"
station = "phone"
tid = 6
poisson_per_s = 40
direction = "up"
[[flow]]
name = "from"
station = "phone"
tid = 4
poisson_per_s = 20
direction = "up"
[[flow]]
name = "video"
station = "tablet"
tid = 5
poisson_per_s = 50
echo = true
[[flow]]
name = "from"
station = "tablet"
tid = 4
poisson_per_s = 30
direction = "up"
[[flow]]
name = "load"
station = "busy"
mbit = 5
[machine]
attempts = 2
"""


@dataclass
class Period:
    """A service period in a trace: the exchanges that were sent, their frames, how many of them had the EOSP bit, and how it ended."""

    exchanges: list[int] = field(default_factory=list)
    frames: int = 0
    ends: int = 0
    by: str = ""


def run_text(text: str) -> tuple[Bench, Result, list[str]]:
    """The bench, the result and the trace of a scenario over the machine."""
    return run_scenario(scenario(text))


def run_scenario(chosen: Scenario) -> tuple[Bench, Result, list[str]]:
    """The same of a scenario that was read."""
    copy = io.StringIO()
    bench, result = run(chosen, machine(chosen, copy))
    return bench, result, copy.getvalue().splitlines()


def played(lines: Sequence[str]) -> Iterator[tuple[list[str], list[str]]]:
    """The words of each call of a trace, and of its answer."""
    text = "".join(f"{line}\n" for line in lines)
    done = subprocess.run([program()[0], "replay"], input=text, capture_output=True, text=True, check=True)
    for call, answer in zip(lines[1:-1], done.stdout.splitlines()):
        yield call.split(), answer.split()


def periods(lines: Sequence[str], station: int, tids: Sequence[int]) -> list[Period]:
    """The service periods of a station. Outside of them, while it sleeps, it gets no frame of these TIDs."""
    found: list[Period] = []
    is_open = is_asleep = False
    for call, answer in played(lines):
        if call[0] in ("sleep", "wake", "leave") and call[1] == str(station):
            is_asleep = call[0] == "sleep"
        if call[0] == "trigger" and call[1] == str(station) and answer[0] == "triggered":
            is_open = True
            found.append(Period())
        elif is_open and call[0] in ("eosp", "wake", "leave") and call[1] == str(station):
            is_open, found[-1].by = False, call[0]
        elif answer[0] == "send" and answer[3] == str(station) and int(answer[5]) in tids and is_asleep:
            assert is_open, answer
            found[-1].exchanges.append(int(answer[1]))
            found[-1].frames += sum(word[0].isdigit() for word in answer[9:]) if answer[8] != "bar" else 0
            if answer[-1] == "eosp":
                is_open, found[-1].by = False, "send"
                found[-1].ends += 1
    return found


class OverTheMachine(unittest.TestCase):
    def test_the_scenario_of_the_page(self) -> None:
        for seed in (1, 2, 3):
            _, result, lines = run_scenario(shortened("uapsd", 1.5, 0.6, seed))
            found = periods(lines, 0, (6, 7))
            self.assertGreater(len(found), 40)
            self.assertTrue(all((one.ends, one.by) == (1, "send") and 1 <= one.frames <= 2 for one in found))
            self.assertLess(result.flows[0].delays[-1], 1.5 * 20_000)
            self.assertGreater(result.flows[0].delivered, 40)

    def test_without_a_sleeping_station_nothing_is_triggered(self) -> None:
        _, result, lines = run_text(PHONE.replace("sleeps", "#") + DOWN)
        self.assertEqual([line for line in lines if line.startswith(("apsd", "trigger", "eosp"))], ["apsd 0 8 2"])
        assert result.stations[0].service is not None
        self.assertEqual(result.stations[0].service.triggers, 0)

    def test_a_trigger_with_nothing_to_send_gets_a_null_frame(self) -> None:
        bench, result, lines = run_text(PHONE)
        service = result.stations[0].service
        assert service is not None
        self.assertEqual((service.periods, service.frames), (0, 0))
        self.assertGreater(service.nulls, 40)
        self.assertEqual(sum(line.startswith("trigger") for line in lines), service.nulls)
        self.assertGreater(bench.served[0].access, 100 * service.nulls)

    def test_exchanges_go_in_the_order_of_their_pulls(self) -> None:
        _, result, lines = run_text(RESTLESS)
        ended = [int(call[1]) for call, _ in played(lines) if call[0] == "done"]
        place = {exchange: nth for nth, exchange in enumerate(ended)}
        ends = set()
        for station, tids, most in ((0, (0, 3, 4, 5, 6, 7), 4), (1, (0, 3, 4, 5, 6, 7), 4), (3, (4, 5, 6, 7), 1000)):
            found = periods(lines, station, tids)
            self.assertGreater(len(found), 20)
            for one in found:
                places = [place[exchange] for exchange in one.exchanges if exchange in place]
                self.assertEqual(places, sorted(places))
                self.assertLessEqual(one.frames, most)
                self.assertEqual(one.ends, int(one.by == "send"))
                ends.add(one.by)
        self.assertLessEqual({"send", "eosp"}, ends)
        services = [one.service for one in result.stations]
        self.assertEqual([one is not None for one in services], [True] * 4 + [False])
        self.assertTrue(all(one.periods <= one.triggers and one.nulls for one in services if one))

    def test_the_airtime_limit_of_all_classes_ends_no_service_period(self) -> None:
        text = PHONE + DOWN + '[[flow]]\nname = "load"\nstation = "phone"\ntid = 1\npoisson_per_s = 50\n' + "[machine]\naql_total = 500\n"
        _, _, lines = run_text(text.replace('apsd = "vo"', 'apsd = "vo bk"'))
        self.assertTrue(any(answer[:2] == ["refused", "ahead"] for _, answer in played(lines)))
        self.assertNotIn("eosp 0", lines)

    def test_an_offloaded_station_has_service_periods(self) -> None:
        _, result, lines = run_text(PHONE.replace("loss = 0", "loss = 0.1\noffload = true") + DOWN)
        found = periods(lines, 0, (6, 7))
        self.assertGreater(len(found), 20)
        self.assertTrue(all(one.ends == int(one.by == "send") for one in found))
        self.assertGreater(result.flows[1].delivered, 35)

    def test_the_same_run_for_the_same_seed(self) -> None:
        self.assertEqual(run_text(RESTLESS)[2], run_text(RESTLESS)[2])

    def test_numbers_and_tables(self) -> None:
        _, result, _ = run_text(PHONE + DOWN)
        numbers = run_numbers(result)
        station = json.loads(json.dumps(numbers))["stations"][0]
        self.assertGreaterEqual(station["triggers"], station["service_periods"])
        written = io.StringIO()
        write_csv(written, [numbers])
        self.assertTrue(written.getvalue().splitlines()[0].endswith("," + ",".join(SERVICE_COLUMNS)))
        self.assertIn("phone", services_table(result)[2])


class Read(unittest.TestCase):
    def test_the_classes_of_a_station(self) -> None:
        station = scenario(PHONE.replace('"vo"', '"vo bk vi"')).stations[0]
        self.assertEqual((station.apsd, station.classes, station.most), (("vo", "bk", "vi"), 13, 2))
        self.assertEqual(scenario(PHONE.replace("max = 2\n", "")).stations[0].most, 0)

    def test_mistakes(self) -> None:
        for text, expected in (
            (PHONE.replace('"vo"', '"vx"'), 'apsd = "vx": expected some of vo, vi, be and bk, each once, such as "vo vi"'),
            (PHONE.replace('"vo"', '"vo vo"'), 'apsd = "vo vo": expected some of vo'),
            (PHONE.replace('"vo"', "8"), "apsd = 8: expected a text"),
            (PHONE.replace("max = 2", "max = 256"), "max = 256: expected a whole number from 0 to 255"),
            (PHONE.replace('apsd = "vo"\n', ""), "max = 2: expected no max without apsd"),
        ):
            with self.assertRaisesRegex(Fault, expected):
                scenario(text)


if __name__ == "__main__":
    unittest.main()
