"""Compares the bench of sim/ with ns-3's own Wi-Fi, over the scenarios of checks/ns3.d.

ns-3 runs the same stations, rates, losses and floods (checks/ns3.d/wifi.cc): its own Wi-Fi below PfifoFastQueueDisc and below
FqCoDelQueueDisc, and a path of the library in the device's place. The bench runs `fifo`, `fq_codel` and `airtime`. Each has to give each
station the throughput that ns-3 gives it, up to MOST_APART.
"""
import resource
import subprocess
import time
from collections.abc import Sequence
from dataclasses import dataclass
from pathlib import Path

from wfdev.harness.script import Script

from sim.models import choose
from sim.rates import MimoRate
from sim.reading import read
from sim.runs import Job, Program, run_one
from sim.scenario import MACHINE, Flow, Scenario

MODULES = ["applications", "internet", "traffic-control", "wifi", "mobility", "network", "core"]
DISCIPLINES = {"fifo": ("PfifoFastQueueDisc", "queue"), "fq_codel": ("FqCoDelQueueDisc", "fq_limit")}
NAMES = {"fifo": "ns-3 PfifoFast", "fq_codel": "ns-3 FqCoDel", "airtime": "ns-3, path"}
MOST_APART = 0.10  # of ns-3's throughput


@dataclass(frozen=True)
class Row:
    """The shares of the airtime and the Mbit/s of stations, and the processor seconds of the run."""

    shares: list[float]
    mbit: list[float]
    took: float

    def text(self, name: str) -> str:
        """A line of the table."""
        shares = " ".join(f"{100 * one:6.1f}" for one in self.shares)
        return f"{name:16} {' '.join(f'{one:7.2f}' for one in self.mbit)}   {shares}   {self.took:8.2f}"


def line(flow: Flow) -> str:
    """The station and the flood of a flow, for standard input of the program."""
    rate, loss = flow.station.rate, flow.station.loss
    if not isinstance(rate, MimoRate):
        raise ValueError(f"{rate}: expected a rate of HT, VHT or HE, since wifi.cc sets no others")
    weights = sum(weight for _, weight in flow.sizes)
    mbit = 8 * sum(octets * weight for octets, weight in flow.sizes) / weights / flow.every
    sizes = " ".join(f"{octets} {weight:g}" for octets, weight in flow.sizes)
    return f"{rate.format} {rate.mcs} {rate.mhz} {rate.guard} {rate.streams} {mbit:g} {loss:g} {sizes}\n"


def words_for(scenario: Scenario, path: str) -> list[str]:
    """The words of the command line with which ns-3 runs a scenario."""
    words = [f"--seconds={scenario.seconds:g}", f"--warmup={scenario.warmup:g}", f"--seed={scenario.seed}"]
    words.append(f"--frames={scenario.setting('agg')}")
    if path not in DISCIPLINES:
        return [*words, "--path"]
    discipline, limit = DISCIPLINES[path]
    return [*words, f"--discipline=ns3::{discipline}", f"--limit={scenario.model(limit)}", f"--queue={scenario.model('buffer')}"]


def over_ns3(built: Path, scenario: Scenario, path: str) -> Row:
    """Returns the results of the stations of a scenario over ns-3."""
    before = resource.getrusage(resource.RUSAGE_CHILDREN)
    lines = "".join(map(line, scenario.flows))
    done = subprocess.run([built, *words_for(scenario, path)], input=lines, capture_output=True, text=True, check=True)
    after = resource.getrusage(resource.RUSAGE_CHILDREN)
    rows = [tuple(map(float, one.split())) for one in done.stdout.splitlines()]
    airtime = sum(row[0] for row in rows)
    took = after.ru_utime + after.ru_stime - before.ru_utime - before.ru_stime
    return Row([row[0] / airtime for row in rows], [row[1] for row in rows], took)


def over_sim(scenario: Scenario, path: str, program: Program | None) -> Row:
    """Returns their results over the bench."""
    before = time.process_time()
    result = run_one(Job(scenario, choose(path), program, round(1e6 * scenario.seconds)))
    return Row([one.share for one in result.stations], [one.mbit for one in result.stations], time.process_time() - before)


def apart(ours: Row, theirs: Row) -> float:
    """How far the throughputs of a station are apart at most, as a share of ns-3's."""
    return max(abs(our - their) / their for our, their in zip(ours.mbit, theirs.mbit))


def compare(script: Script, built: Path, file: Path, program: Program | None) -> int:
    """Compares the paths of one scenario. Returns how many differ."""
    scenario = read(file)
    names = ", ".join(one.name for one in scenario.stations)
    print(f"{scenario.name}, {scenario.seconds:g} s: Mbit/s of {names}; their % of the airtime; seconds of a processor")
    bad = 0
    for path in scenario.compare:
        if path == MACHINE and program is None:
            continue
        theirs, ours = over_ns3(built, scenario, path), over_sim(scenario, path, program if path == MACHINE else None)
        print(theirs.text(NAMES[path]), ours.text(f"sim {path}"), sep="\n", flush=True)
        if apart(ours, theirs) > MOST_APART:
            script.say(f"{scenario.name}: {path} differs from ns-3 by {100 * apart(ours, theirs):.0f} %: expected at most 10 %")
            bad += 1
    return bad


def compare_all(script: Script, built: Path, program: Program | None, names: Sequence[str] = ()) -> int:
    """Compares all scenarios, or those that are named. Returns how many rows differ."""
    files = [file for file in sorted(script.folder.glob("*.toml")) if not names or file.stem in names]
    return sum(compare(script, built, file, program) for file in files)
