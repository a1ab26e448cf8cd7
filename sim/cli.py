"""The command line: `./wf sim SCENARIO`."""
from __future__ import annotations

import argparse
import math
import os
import signal
import sys
from collections.abc import Sequence
from dataclasses import dataclass
from pathlib import Path
from typing import TextIO

from . import paper, summary
from .exports import Numbers, run_numbers, write_csv, write_json
from .fields import Fault
from .figures import MISSING, write_figures
from .keep import Store, standard_folder
from .measure import Result
from .models import NAMES, Choice, choose_all
from .outputs import Outputs, about
from .plots import file_name, pictures
from .progress import CLEAR, is_terminal, progress, report, within
from .reading import LONGEST, MOST_SEED, load
from .runs import Job, Program, find_program, jobs_of, repeated, run_one, run_side_by_side
from .scenario import MACHINE, Scenario
from .sweep import Point, parse_all, points
from .table import text

WRONG, WRITE_FAULT, INTERRUPTED = 2, 4, 128 + signal.SIGINT
MOST_SEEDS = 1000
MOST_PROCESSES = 1024


class WriteFault(Exception):
    """Standard output took no more."""


def parser() -> argparse.ArgumentParser:
    description = "Runs a scenario in simulated time and prints airtime, throughput and delays (docs/SIM.md)."
    made = argparse.ArgumentParser(prog="./wf sim", description=description)
    made.add_argument("scenario", nargs="?", help="a file such as sim/scenarios/anomaly.toml")
    papers = "run the experiments of \"Ending the Anomaly\" instead of a scenario and write a page (default: docs/PAPER.md)"
    made.add_argument("--paper", metavar="FILE", nargs="?", const=str(paper.PAGE), help=papers)
    compared = f"run over these: {', '.join(NAMES)}; airtime:limit=600 is airtime with another setting"
    made.add_argument("--compare", metavar="PATH,..", help=compared)
    made.add_argument("--plot", metavar="FOLDER", help="draw the scenario's pictures there, as SVG")
    made.add_argument("--figures", metavar="FOLDER", help="draw figures there by matplotlib, as PNG, SVG and PDF")
    made.add_argument("--json", metavar="FILE", help="write all numbers")
    made.add_argument("--frames", action="store_true", help="with --json: write the times of each frame too")
    made.add_argument("--csv", metavar="FILE", help="write a row for each station and each flow of each run")
    made.add_argument("--trace", metavar="FILE", help="write the trace of the first run of airtime, for `wf replay`")
    made.add_argument("--seconds", help=f"simulate this long instead of what the scenario says: at most {LONGEST}")
    made.add_argument("--seed", help=f"take random numbers by this seed instead of the scenario's: 0 to {MOST_SEED}")
    made.add_argument("--seeds", metavar="N", help="run N seeds, from the scenario's on, and print 95 %% confidence intervals")
    swept = "run with each of these values, as in station.slow.loss=0,0.1; several make a grid"
    made.add_argument("--sweep", metavar="KEY=VALUE,..", action="append", default=[], help=swept)
    made.add_argument("--processes", metavar="N", help="run at most N runs side by side (default: the number of processors)")
    made.add_argument("--keep", metavar="FOLDER", help=f"keep results of repeated runs there (default: {standard_folder()})")
    made.add_argument("--again", action="store_true", help="run again what is kept")
    made.add_argument("--quiet", action="store_true", help="show no progress")
    return made


def arguments(words: Sequence[str] | None) -> argparse.Namespace:
    made = parser()
    given = made.parse_args(words)
    if given.paper:
        refuse_for_paper(given)
    elif given.scenario is None:
        made.error("the following arguments are required: scenario")
    if given.frames and not given.json:
        raise Fault("--frames: expected --json FILE next to it")
    if is_repeated(given):
        for name in ("trace", "plot", "frames"):
            if getattr(given, name):
                raise Fault(f"--{name}: expected one seed and no sweep: leave out --seeds and --sweep")
    return given


def refuse_for_paper(given: argparse.Namespace) -> None:
    """Refuses options that have no meaning for the experiments of the paper."""
    for name in ("scenario", "compare", "plot", "figures", "json", "csv", "trace", "seed", "sweep"):
        if getattr(given, name):
            raise Fault(f"--paper: expected no {'--' if name != 'scenario' else ''}{name} next to it")


def is_repeated(given: argparse.Namespace) -> bool:
    """Whether there are several runs of a path, by seeds or by a sweep."""
    return given.seeds is not None or bool(given.sweep)


def count_of(word: str, name: str, most: int) -> int:
    """The value of an option that is a count."""
    if not (word.isascii() and word.isdecimal() and len(word) <= 9 and 1 <= int(word) <= most):
        raise Fault(f"{name} {word}: expected a whole number from 1 to {most}")
    return int(word)


def seconds_of(word: str, warmup: float) -> float:
    """The value of --seconds."""
    try:
        seconds = float(word) if len(word) <= 40 else math.nan
    except ValueError:
        seconds = math.nan
    if not 0.001 <= seconds <= LONGEST:
        raise Fault(f"--seconds {word}: expected a number from 0.001 to {LONGEST}")
    if seconds <= warmup:
        raise Fault(f"--seconds {word}: expected more than the scenario's warm-up of {warmup:g} seconds")
    return seconds


def seed_of(word: str) -> int:
    """The value of --seed."""
    if not (word.isascii() and word.isdecimal() and len(word) <= 19 and int(word) <= MOST_SEED):
        raise Fault(f"--seed {word}: expected a whole number from 0 to {MOST_SEED}")
    return int(word)


def read_points(given: argparse.Namespace) -> list[Point]:
    """The scenario with each value of the sweeps, and with what the command line says instead of it."""
    found = points(given.scenario, load(given.scenario), parse_all(given.sweep))
    for point in found:
        if given.seconds is not None:
            point.scenario.seconds = seconds_of(given.seconds, point.scenario.warmup)
        if given.seed is not None:
            point.scenario.seed = seed_of(given.seed)
    return found


def check_model(name: str, scenario: Scenario) -> None:
    """Refuses a model for a scenario that only the machine can run."""
    if any(station.sleeps for station in scenario.stations):
        raise Fault(f"{name}: models have no power save, and stations of this scenario sleep: expected {MACHINE} alone")
    if scenario.air.beacon or scenario.multicast:
        raise Fault(f"{name}: models have no beacons and no group frames, and this scenario has some: expected {MACHINE} alone")
    if any(station.offload for station in scenario.stations):
        raise Fault(f"{name}: models have no offloaded stations, and this scenario has some: expected {MACHINE} alone")
    if any(station.plain for station in scenario.stations):
        raise Fault(f"{name}: in models all agreements begin at the join, and in this scenario some do not: expected {MACHINE} alone")


def choices_of(given: argparse.Namespace, scenario: Scenario) -> list[Choice]:
    """The paths to run over. A model has no power save, no group frames, no offloaded stations, and no agreements that begin later."""
    if given.compare is None:
        choices = choose_all(scenario.compare, f"{given.scenario}: compare")
    else:
        choices = choose_all(given.compare.split(","), "--compare")
    for choice in choices:
        if not choice.is_machine:
            check_model(choice.name, scenario)
    if given.trace and not any(choice.is_machine for choice in choices):
        raise Fault(f"--trace: only {MACHINE} makes a trace, and it is not compared: add it to --compare")
    return choices


@dataclass
class Order:
    """A command line after everything that it names has been read, found and opened."""

    given: argparse.Namespace
    points: Sequence[Point]
    choices: Sequence[Choice]
    program: Program | None
    files: dict[str, TextIO]
    outputs: Outputs

    @property
    def scenario(self) -> Scenario:
        """The scenario, or that of a sweep's first point."""
        return self.points[0].scenario

    @property
    def described(self) -> str:
        """The program in words."""
        return self.program.description if self.program else ""


def run_all(order: Order) -> list[Result]:
    """The results in the order of the choices. The machine runs first, and a model no longer than it could."""
    results: dict[str, Result] = {}
    scenario, trace = order.scenario, order.files.get("trace")
    until = round(scenario.seconds * 1e6)
    jobs = jobs_of(scenario, order.choices, order.program)
    for job in sorted(jobs, key=lambda job: not job.choice.is_machine):
        job.until = until
        result = run_one(job, trace, within(job.choice.label, scenario.seconds, order.given.quiet))
        if is_terminal() and not order.given.quiet:
            print(CLEAR, end="", file=sys.stderr, flush=True)
        results[job.choice.label] = result
        if job.choice.is_machine:
            trace = None
            until = min(until, round(result.seconds * 1e6))
    return [results[choice.label] for choice in order.choices]


def show(printed: str) -> None:
    """Writes on standard output."""
    try:
        if sys.stdout is None:
            raise WriteFault("standard output is closed")
        sys.stdout.write(printed)
        sys.stdout.flush()
    except OSError as error:
        raise WriteFault(f"standard output: {error.strerror}") from None


def open_files(given: argparse.Namespace, scenario: Scenario, outputs: Outputs) -> dict[str, TextIO]:
    """The files to write, by output or kind of picture: opened before anything runs."""
    files = {name: outputs.open(path) for name in ("json", "csv", "trace") if (path := getattr(given, name))}
    if given.plot:
        with about(given.plot):
            os.makedirs(given.plot, exist_ok=True)
        for kind in scenario.pictures:
            files[kind] = outputs.open(os.path.join(given.plot, file_name(scenario, kind)))
    return files


def run_single(order: Order) -> str:
    """Runs one seed, writes the files, and returns the tables."""
    results = run_all(order)
    write_numbers(order, [run_numbers(result, frames=order.given.frames) for result in results])
    for kind, drawn in pictures(order.scenario, results).items() if order.given.plot else ():
        order.files[kind].write(drawn)
    return text(order.scenario, results, order.described)


def side_by_side(given: argparse.Namespace, groups: Sequence[Sequence[Job]]) -> list[Numbers]:
    """The numbers of groups of runs, by the options of the command line."""
    processes = count_of(given.processes, "--processes", MOST_PROCESSES) if given.processes else None
    store = Store(Path(given.keep) if given.keep else standard_folder(), is_fresh=given.again)
    return run_side_by_side(groups, store, progress(sum(map(len, groups)), given.quiet), processes)


def groups_of(order: Order, seeds: int) -> list[list[Job]]:
    """The runs of each point of a sweep with each seed."""
    return [
        jobs_of(one, order.choices, order.program, point.parameters)
        for point in order.points
        for one in repeated(point.scenario, seeds)
    ]


def run_repeated(order: Order) -> str:
    """Runs several seeds and points side by side, writes the files, and returns the tables."""
    given = order.given
    seeds = count_of(given.seeds or "1", "--seeds", min(MOST_SEEDS, MOST_SEED - order.scenario.seed + 1))
    runs = side_by_side(given, groups_of(order, seeds))
    write_numbers(order, runs)
    return summary.text(order.scenario, runs, order.described)


def write_numbers(order: Order, runs: Sequence[Numbers]) -> None:
    """Writes the files of numbers and the figures that are asked for."""
    if "json" in order.files:
        write_json(order.files["json"], order.scenario, runs, order.described)
    if "csv" in order.files:
        write_csv(order.files["csv"], runs)
    folder = order.given.figures
    if folder and not write_figures(order.outputs, folder, order.scenario, runs):
        report(MISSING)


def run_paper(given: argparse.Namespace) -> None:
    """Runs the experiments of the paper, and writes the page."""
    seeds = count_of(given.seeds, "--seeds", MOST_SEEDS) if given.seeds else paper.STANDARD_SEEDS
    seconds = None if given.seconds is None else seconds_of(given.seconds, 0)
    with Outputs() as outputs:
        file = outputs.open(given.paper)
        program = find_program((lambda what: None) if given.quiet else report)
        experiments = paper.all_groups(program, seeds, seconds)
        runs = iter(side_by_side(given, [group for groups in experiments for group in groups]))
        results = [[next(runs) for group in groups for _ in group] for groups in experiments]
        has_pictures = paper.draw_all(outputs, given.paper, results)
        if not has_pictures:
            report(MISSING)
        file.write(paper.page(results, seeds, seconds, has_pictures))


def run(given: argparse.Namespace) -> None:
    """Everything that the command line asks for."""
    found = read_points(given)
    choices = [choices_of(given, point.scenario) for point in found][0]
    with Outputs() as outputs:
        files = open_files(given, found[0].scenario, outputs)
        say = (lambda what: None) if given.quiet else report
        program = find_program(say) if any(choice.is_machine for choice in choices) else None
        order = Order(given, found, choices, program, files, outputs)
        printed = run_repeated(order) if is_repeated(given) else run_single(order)
    show(printed)


def main(words: Sequence[str] | None = None) -> int:
    """Returns the status: 0; 2 if something that was asked for is wrong; 4 if standard output took no more; 130 after Ctrl-C."""
    try:
        given = arguments(words)
        run_paper(given) if given.paper else run(given)
    except Fault as fault:
        report(str(fault))
        return WRONG
    except WriteFault as fault:
        report(str(fault))
        leave_standard_output()
        return WRITE_FAULT
    except OSError as error:
        report(f"{error.filename or 'an output'}: {error.strerror}")
        return WRONG
    except KeyboardInterrupt:
        report("interrupted; no file was written")
        return INTERRUPTED
    return 0


def leave_standard_output() -> None:
    """Points standard output elsewhere, so that Python does not try to write there again at its end."""
    if sys.stdout is not None:
        os.dup2(os.open(os.devnull, os.O_WRONLY), sys.stdout.fileno())
