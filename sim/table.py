"""The text that a run prints: a table of stations, a table of flows, and the lines below them."""
from __future__ import annotations

import math
from collections.abc import Sequence

from .frames import CAUSES
from .measure import PERCENTILES, Result, nearest_rank
from .scenario import MACHINE, Scenario

MOST_COLUMNS = 6  # stations, or flows, in a line of the comparison
SERVICES = ("asleep", "triggers", "service periods", "frames", "QoS Null")  # the head of the table of service periods


def rows(head: Sequence[str], lines: Sequence[Sequence[str]]) -> list[str]:
    """Columns as wide as their widest word: the first to the left, the others to the right."""
    widths = [max(len(line[column]) for line in [head, *lines]) for column in range(len(head))]
    aligned = []
    for first, *others in [head, *lines]:
        words = [first.ljust(widths[0]), *(word.rjust(width) for word, width in zip(others, widths[1:]))]
        aligned.append("  ".join(words).rstrip())
    return aligned


def millis(micros: float) -> str:
    return "-" if math.isnan(micros) else f"{micros / 1000:.1f}"


def stations_table(result: Result) -> list[str]:
    """A column of weights if some station has one, and of uplink airtime if some station sent something."""
    weights = any(one.station.weight != 1 for one in result.stations)
    head = ["station", "rate", *(["weight"] if weights else []), "airtime %"]
    head += [*(["uplink %"] if result.has_uplink else []), "Mbit/s", *(["Mbit/s up"] if result.sends_up else [])]
    head += ["aggregate", "retries"]
    everything = sum(one.airtime for one in result.stations) or 1
    lines = []
    for one in result.stations:
        line = [one.station.name, str(one.station.rate), *([str(one.station.weight)] if weights else []), f"{100 * one.share:.1f}"]
        line += [f"{100 * one.uplink / everything:.1f}"] if result.has_uplink else []
        line += [f"{one.mbit:.2f}", *([f"{one.mbit_up:.2f}"] if result.sends_up else [])]
        lines.append([*line, f"{one.aggregate:.1f}", str(one.retries)])
    return rows(head, lines)


def flows_table(result: Result) -> list[str]:
    """A column for each cause that some frame was dropped for, and one that says which delays are round trips."""
    causes = [cause for cause in CAUSES if any(one.dropped[cause] for one in result.flows)]
    echoes = any(one.flow.echo for one in result.flows)
    head = ["flow", "offered", "delivered", *causes, *(["delay"] if echoes else []), "mean"]
    head += [f"p{percent}" for percent in PERCENTILES]
    lines = []
    for one in result.flows:
        line = [one.flow.label, str(one.offered), str(one.delivered), *(str(one.dropped[cause]) for cause in causes)]
        line += [("round-trip" if one.flow.echo else "one-way")] if echoes else []
        lines.append([*line, millis(one.mean), *(millis(one.percentile(percent)) for percent in PERCENTILES)])
    return rows(head, lines)


def multicast_table(result: Result) -> list[str]:
    """The table of multicast flows at each station. It is empty if there are none. Refused frames have a column if there are any."""
    refused = any(one.refused for one in result.multicast)
    head = ["multicast", "offered", *(["refused"] if refused else []), "received", "lost", "missed", "mean"]
    head += [f"p{percent}" for percent in PERCENTILES]
    lines = []
    for one in result.multicast:
        line = [f"{one.flow.name} to {one.station.name}", str(one.offered), *([str(one.refused)] if refused else [])]
        line += [str(one.received), str(one.lost), str(one.missed), millis(one.mean)]
        lines.append([*line, *(millis(one.percentile(percent)) for percent in PERCENTILES)])
    return ["", *rows(head, lines)] if lines else []


def services_table(result: Result) -> list[str]:
    """The table of stations with service periods. It is empty if there are none."""
    lines = []
    for station in result.stations:
        if one := station.service:
            lines.append([station.station.name, *map(str, (one.triggers, one.periods, one.frames, one.nulls))])
    return ["", *rows(SERVICES, lines)] if lines else []


def transfers_table(result: Result) -> list[str]:
    """The seconds that transfers and pages took, if there are any."""
    lines = []
    for one in result.flows:
        if one.flow.octets is not None or one.flow.connection == 1:
            times = [f"{nearest_rank(one.loads, percent) / 1e6:.2f}" if one.loads else "-" for percent in PERCENTILES]
            mean = f"{sum(one.loads) / len(one.loads) / 1e6:.2f}" if one.loads else "-"
            lines.append([one.flow.label, str(len(one.loads)), mean, *times])
    head = ["transfer", "ended", "mean s", *(f"p{percent} s" for percent in PERCENTILES)]
    return ["", *rows(head, lines)] if lines else []


def calls_table(result: Result) -> list[str]:
    """The quality of calls, if there are any."""
    lines = [[one.flow.label, f"{one.mos:.2f}"] for one in result.flows if one.flow.kind == "voip" and one.offered]
    return ["", *rows(["call", "MOS"], lines)] if lines else []


def foot(result: Result) -> list[str]:
    """The lines below the tables of a run."""
    by = f" by {result.calls} calls" if result.calls else ""
    lines = [
        f"Jain's index of airtime {result.jain:.4f}; {result.total:.1f} Mbit/s in all; air in use {100 * result.busy:.1f} %",
        f"{result.seconds:g} s simulated in {result.took:.1f} s{by}",
    ]
    if result.cut:
        lines.append(f"The run ended at {result.seconds:g} s, because the program takes no more calls in one trace.")
    lines += [f"{name}: this flood does not fill the link; raise flood_mbit." for name in result.below_the_link()]
    return lines + [f"Never served: {name}." for name in result.never_served()]


def comparison(scenario: Scenario, results: Sequence[Result]) -> list[str]:
    """One line for each run: airtime and throughput of each station if these are few, or medians of the delays that pictures show."""
    stations = scenario.stations if len(scenario.stations) <= MOST_COLUMNS else []
    flows = [flow for flow in scenario.flows if scenario.shows(flow)] if {"delay", "time"} & set(scenario.pictures) else []
    flows = flows if len(flows) <= MOST_COLUMNS else []
    if flows:
        stations = []
    head = ["path", "Jain", "Mbit/s", *(f"{one.name} %" for one in stations), *(f"{one.name} Mbit/s" for one in stations)]
    head += [f"{flow.label} p50" for flow in flows]
    lines = []
    for result in results:
        line = [result.label, f"{result.jain:.4f}", f"{result.total:.1f}"]
        line += [f"{100 * result.stations[one.number].share:.1f}" for one in stations]
        line += [f"{result.stations[one.number].mbit:.2f}" for one in stations]
        line += [millis(result.flows[flow.number - 1].percentile(50)) for flow in flows]
        lines.append(line)
    return rows(head, lines)


def text(scenario: Scenario, results: Sequence[Result], program: str) -> str:
    """Everything that is printed about a scenario's runs."""
    delays = "Delays in ms: one-way from a frame's coming to its release in order"
    delays += ", round-trip to its reply's coming." if any(flow.echo for flow in scenario.flows) else "."
    lines = [f"{scenario.title}: {scenario.seconds:g} s, seed {scenario.seed}. {delays}"]
    for result in results:
        lines += ["", f"== {result.label} ==", *stations_table(result), "", *flows_table(result)]
        lines += [*multicast_table(result), *services_table(result), *transfers_table(result), *calls_table(result)]
        lines += ["", *foot(result)]
    if len(results) > 1:
        lines += ["", "== compared ==", *comparison(scenario, results)]
    if program:
        models = "" if all(result.model == MACHINE for result in results) else "; the other paths are models in Python (docs/SIM.md)"
        lines += ["", f"airtime is {program}{models}."]
    return "\n".join(lines) + "\n"
