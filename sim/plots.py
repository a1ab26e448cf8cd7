"""The pictures of a scenario's runs: airtime shares, throughputs, distributions of delays, and delays in time."""
from __future__ import annotations

from collections.abc import Callable, Sequence

from .measure import FlowResult, Result, StationResult
from .scenario import Scenario
from .styles import FLOWS, Style, styles_of
from .svg import Axis, Entry, Picture, linear, logarithmic

DASHES = ["", "6 3", "2 2", "8 3 2 3"]  # one for each flow
MOST_POINTS = 200  # of a curve
MOST_MARKS = 600  # points of a flow in time
MOST_LABELS = 16  # groups of bars that get labels

Drawn = tuple[Result, Style, FlowResult, str]  # a run and its style, one of its flows and the dash of that


def styles(results: Sequence[Result]) -> list[Style]:
    """The style of each run."""
    return styles_of([result.label for result in results])


def bars(scenario: Scenario, results: Sequence[Result], up_name: str, value: Callable[[StationResult], float]) -> str:
    """A group of bars for each station, a bar for each run."""
    names = [station.name for station in scenario.stations]
    values = [[value(one) for one in result.stations] for result in results]
    legend = [Entry(result.label, style) for result, style in zip(results, styles(results))]
    few = len(names) <= MOST_LABELS
    across = Axis("" if few else "station, by number", 0, len(names), [])
    picture = Picture(scenario.title, scenario.note, across, linear(up_name, 1.05 * max(max(one) for one in values)), legend)
    for group, name in enumerate(names):
        if few or group % 5 == 0:
            picture.text(picture.x(group + 0.5), picture.y(0) + 16, name if few else str(group))
        for nth, style in enumerate(styles(results)):
            left = group + 0.08 + 0.84 * nth / len(results)
            height = values[nth][group]
            label = f"{height:.1f}" if len(names) * len(results) <= MOST_LABELS else None
            picture.bar(left, left + 0.84 / len(results) * 0.94, height, style, label)
    return picture.svg()


def airtime(scenario: Scenario, results: Sequence[Result]) -> str:
    return bars(scenario, results, "share of the airtime, %", lambda one: 100 * one.share)


def throughput(scenario: Scenario, results: Sequence[Result]) -> str:
    return bars(scenario, results, "throughput, Mbit/s", lambda one: one.mbit)


def drawn_flows(scenario: Scenario, results: Sequence[Result]) -> list[Drawn]:
    """The flows that pictures of delays show and that have some: the run gives the style, the flow the dash."""
    drawn = []
    for result, style in zip(results, styles(results)):
        flows = [one for one in result.flows if one.delays and scenario.shows(one.flow)]
        drawn += [(result, style, one, DASHES[nth % len(DASHES)]) for nth, one in enumerate(flows)]
    return drawn


def label(result: Result, flow: FlowResult, drawn: Sequence[Drawn]) -> str:
    """The words of a legend's entry: the run, and the flow if pictures show several of one run."""
    several = len({one.flow.number for _, _, one, _ in drawn}) > 1
    return f"{result.label}: {flow.flow.label}" if several else result.label


def delay_name(drawn: Sequence[Drawn]) -> str:
    """The name of an axis of delays."""
    kinds = {"round-trip time, ms" if one.flow.echo else "one-way delay, ms" for _, _, one, _ in drawn}
    return kinds.pop() if len(kinds) == 1 else "delay, ms"


def distribution(delays: Sequence[int]) -> list[tuple[float, float]]:
    """Steps of the share of delays that are at most this many milliseconds, thinned out."""
    count = len(delays)
    step = max(1, count // MOST_POINTS)
    ranks = [*range(0, count - 1, step), count - 1]
    return [(max(delays[rank], 1) / 1000, (rank + 1) / count) for rank in ranks]


def delay(scenario: Scenario, results: Sequence[Result]) -> str:
    """The distribution of each flow's delay, on a logarithmic axis from the least first percentile to the greatest delay."""
    drawn = drawn_flows(scenario, results)
    least = min((one.percentile(1) for _, _, one, _ in drawn), default=1000)
    most = max((one.delays[-1] for _, _, one, _ in drawn), default=1000)
    picture = Picture(
        scenario.title,
        scenario.note,
        logarithmic(delay_name(drawn), max(least, 100) / 1000, max(most, 100) / 1000),
        Axis("share of the frames", 0, 1, [0, 0.25, 0.5, 0.75, 1]),
        [Entry(label(result, one, drawn), style, "curve", dash) for result, style, one, dash in drawn],
    )
    for _, style, one, dash in drawn:
        picture.curve(distribution(one.delays), style, dash)
    return picture.svg()


def in_time(scenario: Scenario, results: Sequence[Result]) -> str:
    """The delay of each frame by when it came; each run and flow has its own style."""
    drawn = drawn_flows(scenario, results)
    palette = [style for _, style, _, _ in drawn]
    if len(set(palette)) < len(palette):
        palette = [FLOWS[nth % len(FLOWS)] for nth in range(len(drawn))]
    longest = max((one.delays[-1] for _, _, one, _ in drawn), default=1000)
    legend = [Entry(label(result, one, drawn), style, "points") for (result, _, one, _), style in zip(drawn, palette)]
    picture = Picture(
        scenario.title,
        scenario.note,
        linear("time at which the frame came, s", max(result.seconds for result in results)),
        linear(delay_name(drawn), 1.05 * longest / 1000),
        legend,
    )
    for (_, _, one, _), style in zip(drawn, palette):
        points = one.points()
        points = points[:: max(1, len(points) // MOST_MARKS)]
        picture.points([(came / 1e6, waited / 1000) for came, waited in points], style)
    return picture.svg()


PICTURES: dict[str, Callable[[Scenario, Sequence[Result]], str]] = {
    "airtime": airtime,
    "throughput": throughput,
    "delay": delay,
    "time": in_time,
}


def file_name(scenario: Scenario, kind: str) -> str:
    """The name of a picture's file."""
    return f"{scenario.name}-{kind}.svg"


def pictures(scenario: Scenario, results: Sequence[Result]) -> dict[str, str]:
    """The pictures that a scenario asks for, by kind."""
    return {kind: PICTURES[kind](scenario, results) for kind in scenario.pictures}
