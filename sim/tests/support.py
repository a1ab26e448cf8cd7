"""Helpers of several tests: scenarios from text, frames, and a program if there is one."""
from __future__ import annotations

import functools
import tomllib
import unittest
from typing import TextIO

from sim.bench import Bench
from sim.fields import Table
from sim.frames import Frame, Path
from sim.machine import Machine
from sim.measure import Result, measure
from sim.program import TOP, find, most_calls
from sim.reading import from_table, read
from sim.scenario import Flow, Scenario

ONE_STATION = """
seconds = 1
[[station]]
name = "a"
rate = "7 20 long"
loss = 0
[[flow]]
station = "a"
mbit = 10
size = 1500
offset_ms = 0
"""

# Flows with a backlog send the same over a model and over the machine, whatever their timing.
THREE_STATIONS = """
seconds = 1
seed = 5
[[station]]
name = "fast"
count = 2
rate = "15 20 short"
loss = 0.05
ack_loss = 0.02
[[station]]
name = "slow"
rate = "0 20 short"
[[flow]]
name = "bulk"
station = "fast"
backlog = 300
size = 1500
[[flow]]
name = "bulk"
station = "slow"
backlog = 300
size = 1500
[[flow]]
name = "ping"
station = "slow"
size = 100
poisson_per_s = 50
echo = true
"""


def scenario(text: str) -> Scenario:
    """The scenario of a file with this text."""
    return from_table(Table("test.toml", "", tomllib.loads(text)), "test")


def shortened(name: str, seconds: float, warmup: float = 0.5, seed: int = 1) -> Scenario:
    """A scenario that comes with the bench, made shorter."""
    chosen = read(TOP / f"sim/scenarios/{name}.toml")
    chosen.seconds, chosen.warmup, chosen.seed = seconds, warmup, seed
    return chosen


def run(chosen: Scenario, path: Path) -> tuple[Bench, Result]:
    """The bench and the result of a run."""
    bench = Bench(chosen, path)
    return bench, measure(bench, "test", "airtime", bench.run(round(chosen.seconds * 1e6)), 0.0)


Fate = tuple[int, int | None, int | None, str | None]


def fates(bench: Bench) -> list[Fate]:
    """The fates of all frames, in order: the same for two runs that are the same."""
    return [(frame.came, frame.released, frame.ended, frame.fate) for frames in bench.frames for frame in frames]


def frame(flow: Flow, came: int = 0) -> Frame:
    return Frame(flow, came, flow.sizes[0][0])


@functools.cache
def program() -> tuple[str, int]:
    """The path of a program and the most calls that it takes; the test that asks is skipped if there is none."""
    found = find()
    if found is None:
        raise unittest.SkipTest("no program is built from these sources: build one by './wf build --unproved'")
    return found[1], most_calls(found[1])


def machine(chosen: Scenario, copy: TextIO | None = None) -> Machine:
    """The machine for a scenario."""
    return Machine(chosen, *program(), copy)
