"""The machine in this process makes the calls, and has the results, of the machine on a pipe."""
from __future__ import annotations

import functools
import importlib
import io
import os
import subprocess
import sys
import unittest
import unittest.mock
from typing import Any

from sim import library
from sim.fields import Fault
from sim.machine import Held, NoRoom
from sim.models import choose
from sim.program import TOP
from sim.runs import Job, Program, find_program, run_one
from sim.scenario import Scenario

from .support import ONE_STATION, THREE_STATIONS, fates, machine, program, run, scenario
from .test_agreements import FIRST_FRAME, LEAVING as LEAVING_HELD, SLEEPING as SLEEPING_HELD
from .test_machine import COMING_AND_GOING, SLEEPING, TCP
from .test_multicast import RESTLESS, with_period
from .test_offload import LEAVING, OFFLOADED, SLEEPING as SLEEPING_OFFLOADED
from .test_service import RESTLESS as IN_SERVICE

MIXED = THREE_STATIONS + """
[[flow]]
station = "slow"
flood_mbit = 100
[[flow]]
station = "fast"
tid = 6
ping_ms = 3
[machine]
limit = 700
"""
LEGACY = """
seconds = 2
[[station]]
name = "old"
rate = "dsss 2"
rates = [{ at = 0.5, rate = "ofdm 54" }, { at = 1.5, rate = "dsss 11" }]
sleeps = [{ from = 0.8, to = 1.2 }]
poll_ms = 20
leave = 1.8
loss = 0.1
ack_loss = 0.05
[[station]]
name = "offloaded"
rate = "ofdm 6"
offload = true
loss = 0.1
[[flow]]
station = "old"
flood_mbit = 20
[[flow]]
station = "old"
tid = 6
ping_ms = 5
[[flow]]
station = "offloaded"
flood_mbit = 20
"""


@functools.cache
def module() -> Any:
    """The module sim.cell; the test that asks is skipped if there is no library."""
    if library.find() is None:
        raise unittest.SkipTest("no library is built from these sources: build one by './wf lib --unproved'")
    return importlib.import_module("sim.cell")


def file() -> str:
    """The library's file."""
    module()
    found = library.find()
    assert found
    return found[1]


def inside(chosen: Scenario, calls: int = 1 << 22) -> Held:
    made: Held = module().Cell(chosen, file(), calls)
    return made


class TheCell(unittest.TestCase):
    def test_it_gives_what_the_pipe_gives(self) -> None:
        device = choose("airtime:device").settings
        charged = THREE_STATIONS + "[air]\ncharge_access = true\n"
        chosen_all = [scenario(text) for text in (THREE_STATIONS, COMING_AND_GOING, SLEEPING, TCP, MIXED, charged)]
        chosen_all += [scenario(text) for text in (OFFLOADED, SLEEPING_OFFLOADED, LEAVING, FIRST_FRAME, SLEEPING_HELD, LEAVING_HELD, LEGACY)]
        # With fewer digits the head fits in a line also with the settings for a device.
        chosen_all += [scenario(with_period(RESTLESS.replace("buffered = 40", "buffered = 9"), 2)), scenario(IN_SERVICE)]
        for chosen in [*chosen_all, *(one.with_settings(device) for one in chosen_all)]:
            (ours, here), (theirs, there) = (run(chosen, path) for path in (inside(chosen), machine(chosen)))
            self.assertEqual(fates(ours), fates(theirs))
            self.assertEqual(here.calls, there.calls)
            self.assertEqual(here.stations, there.stations)

    def test_each_format_of_rates(self) -> None:
        for rate in ("7 40 short", "vht 9 80 short 2", "he 11 80 800 2", "ofdm 54", "dsss 2"):
            chosen = scenario(ONE_STATION.replace("7 20 long", rate))
            self.assertEqual(fates(run(chosen, inside(chosen))[0]), fates(run(chosen, machine(chosen))[0]))

    def test_the_run_ends_when_no_more_calls_are_taken(self) -> None:
        chosen = scenario(THREE_STATIONS + "[machine]\ncalls = 5000\n")
        _, result = run(chosen, inside(chosen))
        self.assertTrue(result.cut)
        self.assertLessEqual(result.calls, 5000)
        self.assertGreater(result.calls, 4400)

    def test_a_full_history_is_left_to_the_pipe(self) -> None:
        chosen = scenario(THREE_STATIONS)
        with unittest.mock.patch.object(module(), "HISTORIES", (5000,)):
            with self.assertRaises(NoRoom):
                run(chosen, inside(chosen))
            path, calls = program()
            job = Job(chosen, choose("airtime"), Program(path, "", calls, file()), 1_000_000)
            self.assertEqual(run_one(job).calls, run(chosen, machine(chosen))[1].calls)

    def test_a_full_history_without_a_program(self) -> None:
        with unittest.mock.patch.object(module(), "HISTORIES", (5000,)), self.assertRaisesRegex(NoRoom, "more calls than the library"):
            run_one(Job(scenario(THREE_STATIONS), choose("airtime"), Program(None, "", 1 << 22, file()), 1_000_000))

    def test_a_trace_without_a_program(self) -> None:
        with self.assertRaisesRegex(Fault, "a trace needs a program"):
            run_one(Job(scenario(ONE_STATION), choose("airtime"), Program(None, "", 1 << 22, file()), 1_000_000), io.StringIO())

    def test_which_decides(self) -> None:
        path, library_file = program()[0], file()
        patch = unittest.mock.patch
        for found, kind, script, expected in (
            (("unproved", path), "unproved", TOP / "wf", (path, library_file)),
            (("proved", path), "unproved", TOP / "wf", (path, None)),
            (("named", path), "unproved", None, (path, None)),
            (("installed", path), "proved", None, (path, library_file)),
            (None, "installed", None, (None, library_file)),
        ):
            inside = (kind, library_file)
            with patch("sim.runs.find", return_value=found), patch("sim.runs.build", return_value=None), patch("sim.runs.SCRIPT", script):
                with patch("sim.library.find", return_value=inside):
                    chosen = find_program(lambda what: None)
            self.assertEqual((chosen.path, chosen.library), expected)

    def test_no_memory_is_left_to_the_pipe(self) -> None:
        found = module()
        with unittest.mock.patch.object(found, "RawCell", side_effect=found.NoMemory), self.assertRaises(NoRoom):
            inside(scenario(ONE_STATION))

    def test_without_a_library_there_is_the_pipe(self) -> None:
        told = "from sim import library; print(library.find())"
        variables = {**os.environ, "PYTHONPATH": str(TOP), "WFPATH_LIBRARY": "/dev/null"}
        done = subprocess.run([sys.executable, "-P", "-c", told], env=variables, capture_output=True, text=True, check=True)
        self.assertEqual(done.stdout, "None\n")


if __name__ == "__main__":
    unittest.main()
