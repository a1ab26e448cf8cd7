"""The tables of repeated runs: each number with its 95 % confidence interval over the seeds."""
from __future__ import annotations

from collections.abc import Sequence
from typing import Any

from .exports import SERVICE_COLUMNS, Numbers
from .frames import CAUSES
from .intervals import Interval, interval
from .measure import PERCENTILES
from .scenario import Scenario
from .table import MOST_COLUMNS, SERVICES, rows

Group = list[Numbers]  # the runs of one path and one point of a sweep, by seed


def grouped(runs: Sequence[Numbers]) -> list[Group]:
    """The runs by parameters and path, in the order in which these come first."""
    groups: dict[tuple[Any, ...], Group] = {}
    for run in runs:
        groups.setdefault((tuple(run["parameters"].items()), run["path"]), []).append(run)
    return list(groups.values())


def over(group: Group, kind: str, nth: int, name: str) -> Interval:
    """The interval of one number of a station or of a flow."""
    return interval(run[kind][nth][name] for run in group)


def of_runs(group: Group, name: str) -> Interval:
    """The interval of one number of whole runs."""
    return interval(run[name] for run in group)


def stations_table(group: Group) -> list[str]:
    has_uplink = any(one["uplink_us"] for run in group for one in run["stations"])
    sends_up = any(flow["direction"] == "up" for flow in group[0]["flows"])
    head = ["station", "rate", "airtime %", *(["uplink s"] if has_uplink else []), "Mbit/s"]
    head += [*(["Mbit/s up"] if sends_up else []), "aggregate", "retries"]
    lines = []
    for nth, station in enumerate(group[0]["stations"]):
        line = [station["station"], station["rate"], over(group, "stations", nth, "airtime_share").text(1, 100)]
        line += [over(group, "stations", nth, "uplink_us").text(2, 1e-6)] if has_uplink else []
        line.append(over(group, "stations", nth, "throughput_mbit_per_s").text(2))
        line += [over(group, "stations", nth, "throughput_up_mbit_per_s").text(2)] if sends_up else []
        line.append(over(group, "stations", nth, "aggregate_frames").text(1))
        lines.append([*line, over(group, "stations", nth, "retries_frames").text(0)])
    return rows(head, lines)


def label(flow: Numbers) -> str:
    ends = f"{flow['flow']} {'from' if flow['direction'] == 'up' else 'to'} {flow['station']}"
    return f"{ends}, connection {flow['connection']}" if flow["connection"] > 1 else ends


def flows_table(group: Group) -> list[str]:
    """A column for each cause that some frame was dropped for."""
    causes = [cause for cause in CAUSES if any(one[f"dropped_{cause}_frames"] for run in group for one in run["flows"])]
    percentiles = [f"p{percent}" for percent in PERCENTILES]
    counts = ["offered", "delivered", *(f"dropped_{cause}" for cause in causes)]
    lines = []
    for nth, flow in enumerate(group[0]["flows"]):
        line = [label(flow), *(over(group, "flows", nth, f"{name}_frames").text(0) for name in counts), flow["delay"]]
        lines.append([*line, *(over(group, "flows", nth, f"delay_{name}_us").text(1, 1e-3) for name in ("mean", *percentiles))])
    return rows(["flow", "offered", "delivered", *causes, "delay", "mean", *percentiles], lines)


def multicast_table(group: Group) -> list[str]:
    """The table of multicast flows at each station. It is empty if there are none."""
    counts = ("offered", "received", "lost", "missed", "refused")
    delays = ("mean", *(f"p{percent}" for percent in PERCENTILES))
    lines = []
    for nth, one in enumerate(group[0]["multicasts"]):
        line = [f"{one['flow']} to {one['station']}", *(over(group, "multicasts", nth, f"{name}_frames").text(0) for name in counts)]
        lines.append([*line, *(over(group, "multicasts", nth, f"delay_{name}_us").text(1, 1e-3) for name in delays)])
    return ["", *rows(["multicast", *counts, *delays], lines)] if lines else []


def services_table(group: Group) -> list[str]:
    """The table of stations with service periods. It is empty if there are none."""
    lines = [
        [station["station"], *(over(group, "stations", nth, name).text(0) for name in SERVICE_COLUMNS)]
        for nth, station in enumerate(group[0]["stations"])
        if "triggers" in station
    ]
    return ["", *rows(SERVICES, lines)] if lines else []


def transfers_table(group: Group) -> list[str]:
    """The seconds that transfers and pages took, and the quality of calls, if there are any."""
    transfers, calls = [], []
    for nth, flow in enumerate(group[0]["flows"]):
        if any(run["flows"][nth]["transfers"] for run in group):
            times = [over(group, "flows", nth, f"transfer_{name}_us").text(2, 1e-6) for name in ("mean", "p50", "p95")]
            transfers.append([label(flow), over(group, "flows", nth, "transfers").text(0), *times])
        if any(run["flows"][nth]["mos"] is not None for run in group):
            calls.append([label(flow), over(group, "flows", nth, "mos").text(2)])
    lines = ["", *rows(["transfer", "ended", "mean s", "p50 s", "p95 s"], transfers)] if transfers else []
    return lines + (["", *rows(["call", "MOS"], calls)] if calls else [])


def foot(group: Group) -> list[str]:
    jain, total, busy = (of_runs(group, name) for name in ("jain", "throughput_mbit_per_s", "air_in_use_share"))
    lines = [f"Jain's index of airtime {jain.text(4)}; {total.text(1)} Mbit/s in all; air in use {busy.text(1, 100)} %"]
    cut = sum(1 for run in group if run["cut"])
    return lines + ([f"{cut} runs ended early, because the program takes no more calls in one trace."] if cut else [])


def swept(run: Numbers) -> str:
    """The parameters of a run in words."""
    return ", ".join(f"{name}={value}" for name, value in run["parameters"].items())


def comparison(scenario: Scenario, groups: Sequence[Group]) -> list[str]:
    """One line for each path and point of a sweep: stations if these are few, or medians of the delays that pictures show."""
    shown = [flow for flow in scenario.flows if scenario.shows(flow)] if {"delay", "time"} & set(scenario.pictures) else []
    flows = shown if len(shown) <= MOST_COLUMNS else []
    same = len({tuple(one["station"] for one in group[0]["stations"]) for group in groups}) == 1
    stations = scenario.stations if same and not flows and len(scenario.stations) <= MOST_COLUMNS else []
    flows = flows if same else []
    parameters = list(groups[0][0]["parameters"])
    head = [*parameters, "path", "Jain", "Mbit/s", *(f"{one.name} %" for one in stations), *(f"{one.name} Mbit/s" for one in stations)]
    head += [f"{flow.label} p50" for flow in flows]
    lines = []
    for group in groups:
        line = [*group[0]["parameters"].values(), group[0]["path"], of_runs(group, "jain").text(4)]
        line.append(of_runs(group, "throughput_mbit_per_s").text(1))
        line += [over(group, "stations", one.number, "airtime_share").text(1, 100) for one in stations]
        line += [over(group, "stations", one.number, "throughput_mbit_per_s").text(2) for one in stations]
        line += [over(group, "flows", flow.number - 1, "delay_p50_us").text(1, 1e-3) for flow in flows]
        lines.append(line)
    return rows(head, lines)


def text(scenario: Scenario, runs: Sequence[Numbers], program: str) -> str:
    """Everything that is printed about repeated runs."""
    groups = grouped(runs)
    count = len(groups[0])
    last = scenario.seed + count - 1
    seeds = f"seeds {scenario.seed} to {last}; 95 % intervals by Student's t" if count > 1 else f"seed {scenario.seed}"
    lines = [f"{scenario.title}: {scenario.seconds:g} s, {seeds}. Delays in ms."]
    for group in groups:
        head = ", ".join(filter(None, (swept(group[0]), group[0]["path"])))
        lines += ["", f"== {head} ==", *stations_table(group), "", *flows_table(group)]
        lines += [*multicast_table(group), *services_table(group), *transfers_table(group), "", *foot(group)]
    if len(groups) > 1:
        lines += ["", "== compared ==", *comparison(scenario, groups)]
    if program:
        lines += ["", f"airtime is {program}; the other paths are models in Python (docs/SIM.md)."]
    return "\n".join(lines) + "\n"
