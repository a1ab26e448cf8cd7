"""Runs of a scenario: one after the other with all that they found, or many side by side with their numbers alone."""
from __future__ import annotations

import contextlib
import dataclasses
import functools
import gc
import multiprocessing
import signal
import time
from collections.abc import Callable, Iterator, Sequence
from concurrent.futures import Executor, Future, ProcessPoolExecutor, as_completed
from dataclasses import dataclass, field
from typing import TextIO

from . import library
from .bench import Bench
from .exports import Numbers, run_numbers
from .fields import Fault
from .frames import Path
from .keep import Store, key
from .machine import Machine, NoRoom
from .measure import Result, measure
from .models import MODELS, Choice
from .program import SCRIPT, build, describe, find, most_calls
from .progress import Progress
from .scenario import Scenario

Within = Callable[[int], None]  # is called with the simulated time


@dataclass(frozen=True)
class Program:
    """The machine: the program's file, how tables name what decides, the most calls of one run, and the library's file, if it decides.

    At least one of the two files is there.
    """

    path: str | None
    description: str
    calls: int
    library: str | None = None

    @property
    def decides(self) -> str:
        """The file that identifies the machine in stored results."""
        found = self.path or self.library
        assert found is not None
        return found


def find_program(report: Callable[[str], None]) -> Program:
    """The program that `./wf which` names; the unproved one is built if there is none. A line says which it is.

    If a library is built from the same sources, and is proved if the program is, it decides in the program's place. Without a checkout,
    the library of wfpath decides, and an installed program is for traces and for runs with more calls.
    """
    found, inside = find() or build(), library.find()
    if inside and (found[0] in (inside[0], "installed") if found else SCRIPT is None):
        described = describe(*inside, "library")
        made = Program(found[1] if found else None, described, most_calls(found[1]) if found else library.most_calls(), inside[1])
    elif found:
        made = Program(found[1], describe(*found), most_calls(found[1]))
    else:
        raise Fault("no program is built from these sources: build one by './wf build --unproved'")
    report(f"by {made.description}")
    return made


@dataclass
class Job:
    """A run that any process can do: a scenario with its seed, over a path, until a microsecond."""

    scenario: Scenario
    choice: Choice
    program: Program | None
    until: int
    parameters: dict[str, str] = field(default_factory=dict)

    @property
    def label(self) -> str:
        """The run in words, for a line of progress."""
        swept = [f"{name}={value}" for name, value in self.parameters.items()]
        return ", ".join([*swept, self.choice.label, f"seed {self.scenario.seed}"])

    @property
    def key(self) -> str:
        return key(self.scenario, self.choice.label, self.program.decides if self.program else None, self.until)


def paths_of(job: Job, trace: TextIO | None) -> list[Callable[[Scenario], Path]]:
    """The ways to make a job's path: the first one that has room for the run is the one to take."""
    program = job.program
    if not job.choice.is_machine or program is None:
        return [MODELS[job.choice.name]]
    ways: list[Callable[[Scenario], Path]] = []
    if program.library is not None and trace is None and library.raw() is not None:
        from .cell import Cell  # it imports wfpath, which there may not be

        ways.append(functools.partial(Cell, library=program.library, calls=program.calls))
    if program.path is not None:
        ways.append(functools.partial(Machine, program=program.path, calls=program.calls, copy=trace))
    if not ways:
        raise Fault("a trace needs a program: expected wf on the PATH, or WF_PROGRAM with its path")
    return ways


def run_one(job: Job, trace: TextIO | None = None, within: Within | None = None) -> Result:
    """The result of a run, which ends early if the program takes no more calls."""
    *others, last = paths_of(job, trace)
    for make in others:
        with contextlib.suppress(NoRoom):
            return run_over(job, make, within)
    return run_over(job, last, within)


def run_over(job: Job, make: Callable[[Scenario], Path], within: Within | None) -> Result:
    """The result of a run over a path that is made for it."""
    chosen = job.scenario.with_settings(job.choice.settings)
    began = time.monotonic()
    path = make(chosen)
    try:
        with without_collection():
            bench = Bench(chosen, path, within)
            reached = bench.run(job.until)
            return measure(bench, job.choice.label, job.choice.name, reached, time.monotonic() - began)
    except BaseException:
        path.abandon()
        raise


@contextlib.contextmanager
def without_collection() -> Iterator[None]:
    """Keeps Python from looking for cycles of objects: a run keeps all its frames, and looking at them again and again takes long."""
    was_on = gc.isenabled()
    gc.disable()
    try:
        yield
    finally:
        if was_on:
            gc.enable()


def work(job: Job) -> Numbers:
    """The numbers of a run."""
    return run_numbers(run_one(job), job.parameters)


def jobs_of(scenario: Scenario, choices: Sequence[Choice], program: Program | None, parameters: dict[str, str] | None = None) -> list[Job]:
    """The runs of a scenario with one seed, in the order of the choices."""
    until = round(scenario.seconds * 1e6)
    return [Job(scenario, choice, program if choice.is_machine else None, until, parameters or {}) for choice in choices]


def repeated(scenario: Scenario, seeds: int) -> list[Scenario]:
    """The scenario with this many seeds: its own and those after it."""
    return [dataclasses.replace(scenario, seed=scenario.seed + nth) for nth in range(seeds)]


def run_jobs(jobs: Sequence[Job], store: Store, executor: Executor, progress: Progress) -> list[Numbers]:
    """The numbers of some runs, in their order. A result that was kept is read; every other run is kept as soon as it ends."""
    results: dict[int, Numbers] = {}
    futures: dict[Future[Numbers], int] = {}
    keys = [job.key for job in jobs]
    for nth, job in enumerate(jobs):
        kept = store.get(keys[nth])
        if kept is not None:
            results[nth] = {**kept, "parameters": job.parameters}
            progress.finished(job.label, is_kept=True)
        else:
            futures[executor.submit(work, job)] = nth
    try:
        for future in as_completed(futures):
            nth = futures[future]
            results[nth] = future.result()
            store.put(keys[nth], results[nth])
            progress.finished(jobs[nth].label, is_kept=False)
    except BaseException:
        for future in futures:
            future.cancel()
        raise
    return [results[nth] for nth in range(len(jobs))]


def run_many(groups: Sequence[Sequence[Job]], store: Store, executor: Executor, progress: Progress) -> list[Numbers]:
    """The numbers of groups of runs, each group over the same scenario and seed.

    The machine's runs come first: if the program takes no more calls in one, the models of its group run no longer than it did.
    """
    jobs = [job for group in groups for job in group]
    machines = [nth for nth, job in enumerate(jobs) if job.choice.is_machine]
    results = dict(zip(machines, run_jobs([jobs[nth] for nth in machines], store, executor, progress)))
    first = 0
    for group in groups:
        of_group = range(first, first + len(group))
        first += len(group)
        least = min((round(1e6 * results[nth]["simulated_s"]) for nth in of_group if nth in results), default=group[0].until)
        for nth in of_group:
            jobs[nth] = dataclasses.replace(jobs[nth], until=min(jobs[nth].until, least))
    models = [nth for nth in range(len(jobs)) if nth not in results]
    results.update(zip(models, run_jobs([jobs[nth] for nth in models], store, executor, progress)))
    return [results[nth] for nth in range(len(jobs))]


def become_worker() -> None:
    """Lets a process of the pool end at once when the bench ends it. Ctrl-C at a terminal is the bench's alone."""
    signal.signal(signal.SIGINT, signal.SIG_IGN)
    signal.signal(signal.SIGTERM, signal.SIG_DFL)


def run_side_by_side(groups: Sequence[Sequence[Job]], store: Store, progress: Progress, processes: int | None) -> list[Numbers]:
    """The numbers of groups of runs on several processors. An exception ends all of them."""
    with ProcessPoolExecutor(processes, initializer=become_worker) as executor:
        try:
            return run_many(groups, store, executor, progress)
        except BaseException:
            executor.shutdown(wait=False, cancel_futures=True)
            for child in multiprocessing.active_children():
                child.terminate()
            raise
        finally:
            progress.close()
