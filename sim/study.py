"""Runs from Python, as in a notebook: `run` makes one, and `repeat` many. Their results are tables of pandas if it is installed."""
from __future__ import annotations

import dataclasses
import importlib
from collections.abc import Sequence
from dataclasses import dataclass
from pathlib import Path
from typing import Any

from .exports import Numbers, rows_of, run_numbers
from .fields import Fault
from .keep import Store, standard_folder
from .models import choose_all
from .progress import Progress
from .reading import load, read
from .runs import Program, find_program, jobs_of, repeated, run_one, run_side_by_side
from .scenario import MACHINE, Scenario
from .sweep import parse_all, points


@dataclass(frozen=True)
class Study:
    """The results of runs. `runs` has a dictionary for each, as `--json` writes it."""

    runs: list[Numbers]

    @property
    def stations(self) -> Any:
        """A row for each station of each run: a DataFrame, or a list of dictionaries without pandas."""
        return table(rows_of(self.runs, "station"))

    @property
    def flows(self) -> Any:
        """A row for each flow of each run: a DataFrame, or a list of dictionaries without pandas."""
        return table(rows_of(self.runs, "flow"))


def table(rows: list[Numbers]) -> Any:
    """Rows as a DataFrame if pandas is installed. Names of columns have their units."""
    try:
        pandas: Any = importlib.import_module("pandas")
    except ImportError:
        return rows
    return pandas.DataFrame(rows).drop(columns="row", errors="ignore")


def program_for(paths: Sequence[str]) -> Program | None:
    """The program, if one of these paths is the machine."""
    is_needed = any(path.partition(":")[0] == MACHINE for path in paths)
    return find_program(lambda what: None) if is_needed else None


def run(scenario: Scenario | str | Path, path: str = MACHINE, seed: int | None = None, seconds: float | None = None) -> Study:
    """Runs a scenario, or that of a file, over one path. Nothing is stored.

    `path` is a word of `--compare`. `seed` and `seconds` replace the scenario's. A mistake raises `sim.fields.Fault`.
    """
    chosen = scenario if isinstance(scenario, Scenario) else read(scenario)
    chosen = dataclasses.replace(
        chosen, seed=chosen.seed if seed is None else seed, seconds=chosen.seconds if seconds is None else seconds
    )
    if chosen.seconds <= chosen.warmup:
        raise Fault(f"seconds = {chosen.seconds:g}: expected more than the warm-up of {chosen.warmup:g} s")
    (job,) = jobs_of(chosen, choose_all([path], "path"), program_for([path]))
    return Study([run_numbers(run_one(job))])


def repeat(
    file: str | Path, paths: Sequence[str] = (MACHINE,), seeds: int = 10, sweeps: Sequence[str] = (), processes: int | None = None
) -> Study:
    """Runs the scenario of a file over some paths with several seeds, side by side. Runs that are stored are read.

    `sweeps` are words of `--sweep`. A mistake raises `sim.fields.Fault`.
    """
    choices, program = choose_all(paths, "paths"), program_for(paths)
    groups = [
        jobs_of(one, choices, program, point.parameters)
        for point in points(str(file), load(file), parse_all(sweeps))
        for one in repeated(point.scenario, seeds)
    ]
    return Study(run_side_by_side(groups, Store(standard_folder()), Progress(), processes))
