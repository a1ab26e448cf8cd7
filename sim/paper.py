"""The experiments of "Ending the Anomaly", as a page: `./wf sim --paper` runs all of them and writes docs/PAPER.md.

The paper's numbers here come from its table 1, as we read them in the paper: the repository has no copy of it, and no script compares
them. It has no other number of the paper.
"""
from __future__ import annotations

import dataclasses
from collections.abc import Callable, Sequence
from dataclasses import dataclass, field
from pathlib import Path

from .exports import Numbers
from .fields import Fault
from .figures import write_picture
from .models import choose_all
from .outputs import Outputs
from .program import FOLDER, SCRIPT, TOP
from .reading import load
from .runs import Job, Program, jobs_of, repeated
from .summary import Group, grouped, of_runs, over
from .sweep import Point, parse_all, points

PAGE = TOP / "docs" / "PAPER.md" if SCRIPT else Path("PAPER.md")
PICTURES = "pictures/paper"  # below the folder of the page
STANDARD_SEEDS = 10
ALL = ("fifo", "fq_codel", "fq_mac", "one_list", "airtime", "airtime:device")

ABOUT = "`{}` runs these experiments and writes this page. [SIM.md](SIM.md) describes the bench and what is modelled."
PATHS = (
    "`airtime` is the machine with the standard settings, and `airtime device` with those for a driver of a device. `one_list` is the model "
    "next to Linux 6.1: both have one list of stations for each class ([SIM.md](SIM.md#baselines) says how they differ)."
)
LEFT_OUT = (
    "The paper's numbers are in the first table alone, as we read them in the paper; no script compares them with it. The numbers of its "
    "other tables and figures are left out, because this repository has no copy of them."
)

# Table 1: by path and station the calculated share of the airtime in %, and the calculated and the measured Mbit/s.
TABLE_1 = {
    "fifo": (("10", "9.7", "7.1"), ("11", "11.4", "6.3"), ("79", "5.1", "5.3")),
    "airtime": (("a third", "42.2", "38.8"), ("a third", "42.3", "35.6"), ("a third", "2.2", "2.0")),
}


@dataclass(frozen=True)
class Column:
    """A column: its head, and one number of a station, of a flow or of whole runs, with its digits and a factor."""

    head: str
    name: str
    of: str = ""  # a station, or a flow as `NAME to STATION`; empty for whole runs
    digits: int = 1
    factor: float = 1.0

    def text(self, group: Group) -> str:
        """The number with its interval, over the runs of a group."""
        if not self.of:
            return of_runs(group, self.name).text(self.digits, self.factor)
        kind = "flows" if " to " in self.of else "stations"
        return over(group, kind, place(group[0], kind, self.of), self.name).text(self.digits, self.factor)


def place(run: Numbers, kind: str, name: str) -> int:
    """The place of a station, or of the first flow with a label."""
    for nth, one in enumerate(run[kind]):
        if name == (one["station"] if kind == "stations" else f"{one['flow']} to {one['station']}"):
            return nth
    raise KeyError(name)


def share(station: str) -> Column:
    return Column(f"{station}, airtime %", "airtime_share", station, 1, 100)


def delay(flow: str, percent: int, head: str) -> Column:
    return Column(f"{head}, p{percent} ms", f"delay_p{percent}_us", flow, 1, 1e-3)


JAIN = Column("Jain's index", "jain", digits=4)
TOTAL = Column("all, Mbit/s", "throughput_mbit_per_s")


@dataclass(frozen=True)
class Experiment:
    """An experiment: its scenario, the paths, the columns of its table, and how the set-up differs from the paper's."""

    title: str
    file: str
    columns: Sequence[Column]
    differs: str
    paths: Sequence[str] = ALL
    sweeps: Sequence[str] = ()
    figures: Sequence[str] = ()  # kinds of figures (`sim.figures`)
    table: Callable[[Experiment, Sequence[Group]], list[str]] | None = field(default=None, compare=False)

    def points(self, seconds: float | None) -> list[Point]:
        """The scenario, at each point of the sweeps."""
        found = points(self.file, load(FOLDER / self.file), parse_all(self.sweeps))
        for point in found:
            if seconds is not None:
                point.scenario.seconds = seconds
            if point.scenario.seconds <= point.scenario.warmup:
                raise Fault(f"--seconds {seconds:g}: expected more than the warm-up of {self.file}, {point.scenario.warmup:g} s")
        return found

    def groups(self, program: Program, seeds: int, seconds: float | None) -> list[list[Job]]:
        """The runs of each point with each seed."""
        choices = choose_all(self.paths, self.file)
        found = self.points(seconds)
        return [
            jobs_of(one, choices, program, point.parameters)
            for point in found
            for one in repeated(dataclasses.replace(point.scenario, seed=1), seeds)
        ]


def row(cells: Sequence[str]) -> str:
    return f"| {' | '.join(cells)} |"


def head_of(cells: Sequence[str]) -> list[str]:
    return [row(cells), f"|{'---|' * len(cells)}"]


def by_path(experiment: Experiment, groups: Sequence[Group]) -> list[str]:
    """A row for each path, and for each point of a sweep."""
    parameters = list(groups[0][0]["parameters"])
    lines = head_of([*parameters, "path", *(column.head for column in experiment.columns)])
    for group in groups:
        cells = [*group[0]["parameters"].values(), f"`{group[0]['path']}`"]
        lines.append(row([*cells, *(column.text(group) for column in experiment.columns)]))
    return lines


def table_1(experiment: Experiment, groups: Sequence[Group]) -> list[str]:
    """The paper's table 1 next to ours: a row for each path and station."""
    lines = head_of(
        [
            *("path", "station", "airtime %: paper, calculated", "here"),
            *("Mbit/s: paper, calculated", "paper, measured", "here", "frames an aggregate, here"),
        ]
    )
    for group in groups:
        path = group[0]["path"]
        for nth, station in enumerate(group[0]["stations"]):
            calculated, mbit, measured = TABLE_1[path][nth] if path in TABLE_1 else ("", "", "")
            ours = [over(group, "stations", nth, "airtime_share").text(1, 100)]
            rates = [over(group, "stations", nth, name).text(1) for name in ("throughput_mbit_per_s", "aggregate_frames")]
            lines.append(row([f"`{path}`", station["station"], calculated, *ours, mbit, measured, *rates]))
    return [*lines, "", *by_path(experiment, groups)]


EXPERIMENTS = (
    Experiment(
        "Table 1, and the airtime of UDP",
        "scenarios/anomaly.toml",
        (JAIN, TOTAL),
        "The paper calculates from aggregates that it measured, 18 frames for a fast station under `airtime`; the standard here is 32, "
        "and `airtime agg=18` has the paper's. It counts a share by the time of the data; a share here includes SIFS and BlockAck. "
        "Measured stations also collide, and their host takes time.",
        paths=(*ALL, "airtime:agg=18"),
        figures=("airtime", "throughput"),
        table=table_1,
    ),
    Experiment(
        "Latency",
        "scenarios/latency.toml",
        tuple(delay(f"ping to {one}", percent, one) for one in ("fast 1", "slow") for percent in (50, 95)),
        "Floods are UDP, and a ping comes every 10 ms.",
        figures=("delay",),
    ),
    Experiment(
        "The airtime of TCP, and Jain's index",
        "paper/tcp.toml",
        (share("fast 1"), share("fast 2"), share("slow"), JAIN, TOTAL),
        "One flow of CUBIC to each station; the rest of a round trip is 20 ms.",
        figures=("airtime", "throughput"),
    ),
    Experiment(
        "The sparse station optimisation",
        "scenarios/sparse.toml",
        (delay("ping to sparse", 50, "sparse"), delay("ping to sparse", 95, "sparse")),
        "`one_list` is `airtime` without the optimisation. Pings come 10 ms apart on average.",
        paths=("one_list", "airtime", "airtime:device"),
        figures=("delay",),
    ),
    Experiment(
        "Thirty stations",
        "scenarios/thirty.toml",
        (share("slow"), TOTAL, delay("ping to sparse", 50, "sparse"), delay("ping to sparse", 95, "sparse")),
        "The slow station of the paper sends at 1 Mbit/s, a legacy rate that the machine does not have; here it has 7.2 Mbit/s. Floods are UDP.",
        figures=("throughput", "delay"),
    ),
    Experiment(
        "Calls (table 2)",
        "paper/voip.toml",
        (
            Column("best effort, MOS", "mos", "best effort to slow", 2),
            Column("voice, MOS", "mos", "voice to slow", 2),
            delay("best effort to slow", 50, "best effort"),
            TOTAL,
        ),
        "The score is that of [SIM.md](SIM.md), with the best playout delay. Both calls run at once, and the path has no other delay.",
    ),
    Experiment(
        "Pages",
        "paper/web.toml",
        (
            Column("mean s", "transfer_mean_us", "web to fast", 2, 1e-6),
            Column("p95 s", "transfer_p95_us", "web to fast", 2, 1e-6),
            Column("pages", "transfers", "web to fast", 0),
        ),
        "The pages are those of the paper: 56 kB in 3 requests, and 3 MB in 110. Four connections; no names are looked up. A page that has not "
        "ended at the end of the run is left out, so long times are too short here.",
        sweeps=("flow.web.web=small,large",),
    ),
)


def all_groups(program: Program, seeds: int, seconds: float | None) -> list[list[list[Job]]]:
    """The runs of each experiment."""
    return [experiment.groups(program, seeds, seconds) for experiment in EXPERIMENTS]


def name_of(experiment: Experiment, kind: str) -> str:
    """The name of a picture of an experiment, below the page's folder, without its suffix."""
    return f"{PICTURES}/{Path(experiment.file).stem}-{kind}"


def draw_all(outputs: Outputs, page_file: str, results: Sequence[Sequence[Numbers]]) -> bool:
    """Draws the pictures of all experiments next to a page. Returns whether matplotlib is there."""
    for experiment, runs in zip(EXPERIMENTS, results):
        scenario = experiment.points(None)[0].scenario
        for kind in experiment.figures:
            path = Path(page_file).parent / name_of(experiment, kind)
            if not write_picture(outputs, str(path), scenario, runs, kind):
                return False
    return True


def interval_of(seeds: int) -> str:
    """Says how a number of the page was computed."""
    if seeds == 1:
        return "A number is of one run, with seed 1."
    return f"A number is the mean over {seeds} seeds with its 95 % confidence interval by Student's t."


def command(seeds: int, seconds: float | None) -> str:
    """The command that writes the page."""
    options = [f" --seeds {seeds}" if seeds != STANDARD_SEEDS else "", f" --seconds {seconds:g}" if seconds is not None else ""]
    return "".join(["./wf sim --paper", *options])


def page(results: Sequence[Sequence[Numbers]], seeds: int, seconds: float | None = None, has_pictures: bool = False) -> str:
    """The page, from the runs of each experiment."""
    lines = [
        '# The experiments of "Ending the Anomaly"',
        "",
        "<!-- Written by ./wf sim --paper; do not edit. -->",
        "",
        *wrapped(f"{ABOUT.format(command(seeds, seconds))} {interval_of(seeds)}"),
        "",
        *wrapped(PATHS),
        "",
        *wrapped(LEFT_OUT),
    ]
    for experiment, runs in zip(EXPERIMENTS, results):
        groups = grouped(runs)
        lines += ["", f"## {experiment.title}", "", *wrapped(f"{length(experiment, runs[0])} {experiment.differs}"), ""]
        lines += (experiment.table or by_path)(experiment, groups)
        if has_pictures and experiment.figures:
            lines += ["", *(f"![{experiment.title}: {kind}]({name_of(experiment, kind)}.svg)" for kind in experiment.figures)]
    return "\n".join(lines) + "\n"


def length(experiment: Experiment, run: Numbers) -> str:
    """The scenario of an experiment, and how long a run of it is."""
    warmup = experiment.points(None)[0].scenario.warmup
    return f"`sim/{experiment.file}`, {run['simulated_s']:g} s, of which the first {warmup:g} s are not counted."


def wrapped(text: str) -> list[str]:
    """A paragraph in lines of at most 110 characters."""
    lines = [""]
    for word in text.split(" "):
        if lines[-1] and len(lines[-1]) + 1 + len(word) > 110:
            lines.append(word)
        else:
            lines[-1] = f"{lines[-1]} {word}".strip()
    return lines
