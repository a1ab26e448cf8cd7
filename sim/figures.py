"""Figures by matplotlib, as PNG, SVG and PDF, from the numbers of runs. Without that package nothing is drawn, and a line says so."""
from __future__ import annotations

import importlib
import math
import os
from collections.abc import Sequence
from dataclasses import dataclass
from typing import Any

from .exports import Numbers
from .intervals import Interval
from .outputs import Outputs
from .scenario import Scenario
from .styles import Style, styles_of
from .summary import Group, grouped, label, over, swept

MISSING = (
    "matplotlib is not installed, so no figure was drawn (Debian: python3-matplotlib); "
    "--plot draws SVG without it"
)
FORMATS = ("png", "svg", "pdf")
UNDATED: dict[str, dict[str, None]] = {"png": {}, "svg": {"Date": None}, "pdf": {"CreationDate": None}}
MOST_PLACES = 16  # on the axis; the values of more stations are drawn as boxes
MOST_ALONE = 4  # stations that are shown by name next to boxes
MOST_LEVEL = 6  # names on the axis that are not turned
IN_A_ROW = 6  # names in a row of the legend, at most
SIZE = (7.0, 4.2)  # inches


@dataclass(frozen=True)
class Figure:
    """A kind of figure: its name, the title of its axis, and the number that it shows of stations or of flows."""

    kind: str
    axis: str
    of: str
    name: str
    factor: float
    is_delay: bool = False  # a delay is drawn as points on a logarithmic axis, and everything else as bars from 0


FIGURES = (
    Figure("airtime", "share of the airtime, %", "stations", "airtime_share", 100),
    Figure("throughput", "throughput, Mbit/s", "stations", "throughput_mbit_per_s", 1),
    Figure("delay", "median {}, ms", "flows", "delay_p50_us", 1e-3, is_delay=True),
)


def library() -> Any | None:
    """matplotlib.pyplot, which draws into files alone; None if it is not installed."""
    try:
        importlib.import_module("matplotlib").use("Agg")
        return importlib.import_module("matplotlib.pyplot")
    except ImportError:
        return None


def names(group: Group, figure: Figure, scenario: Scenario) -> list[tuple[int, str]]:
    """The stations or the flows that a figure shows, by number and name."""
    if figure.of == "stations":
        return [(nth, one["station"]) for nth, one in enumerate(group[0]["stations"])]
    shown = {flow.number - 1 for flow in scenario.flows if scenario.shows(flow)}
    return [(nth, label(one)) for nth, one in enumerate(group[0]["flows"]) if nth in shown]


def group_name(group: Group) -> str:
    """The path of a group, and its point of a sweep."""
    return ", ".join(filter(None, (group[0]["path"], swept(group[0]))))


def styles(groups: Sequence[Group]) -> list[Style]:
    """The style of each group."""
    return styles_of([group_name(group) for group in groups])


def values(group: Group, figure: Figure, numbers: Sequence[int]) -> list[Interval]:
    return [over(group, figure.of, nth, figure.name) for nth in numbers]


def halves(found: Sequence[Interval], figure: Figure) -> list[float] | None:
    """Half the widths of intervals; None if all are of a single run."""
    if all(math.isnan(one.half) for one in found):
        return None
    return [0.0 if math.isnan(one.half) else figure.factor * one.half for one in found]


def draw_bars(axes: Any, groups: Sequence[Group], figure: Figure, shown: Sequence[tuple[int, str]]) -> None:
    """A group of bars for each station, with the 95 % interval of each bar."""
    width = 0.84 / len(groups)
    for place, (group, style) in enumerate(zip(groups, styles(groups))):
        found = values(group, figure, [nth for nth, _ in shown])
        axes.bar(
            [nth - 0.42 + width * (place + 0.5) for nth in range(len(found))],
            [figure.factor * one.mean for one in found],
            0.94 * width,
            yerr=halves(found, figure),
            capsize=2,
            color=style.colour,
            hatch=style.hatch,
            edgecolor="black",
            linewidth=0.5,
            label=group_name(group),
        )
    axes.set_ylim(bottom=0)


def draw_points(axes: Any, groups: Sequence[Group], figure: Figure, shown: Sequence[tuple[int, str]]) -> None:
    """A group of points for each flow, with the 95 % interval of each. A bar has no meaning on a logarithmic axis."""
    width = 0.6 / len(groups)
    for place, (group, style) in enumerate(zip(groups, styles(groups))):
        found = values(group, figure, [nth for nth, _ in shown])
        axes.errorbar(
            [nth - 0.3 + width * (place + 0.5) for nth in range(len(found))],
            [figure.factor * one.mean for one in found],
            yerr=halves(found, figure),
            capsize=3,
            fmt=style.mark,
            markersize=7,
            color="black",
            markerfacecolor=style.colour,
            markeredgecolor="black",
            linewidth=1,
            label=group_name(group),
        )
    axes.set_xlim(-0.5, len(shown) - 0.5)


def named_alone(scenario: Scenario, figure: Figure, shown: Sequence[tuple[int, str]]) -> list[tuple[int, str]]:
    """A few stations that have their own tables next to others that share one: a figure of boxes shows them by name."""
    alone = [(nth, name) for nth, name in shown if figure.of == "stations" and scenario.stations[nth].group == name]
    return alone if len(alone) <= MOST_ALONE else []


def draw_boxes(axes: Any, scenario: Scenario, groups: Sequence[Group], figure: Figure, shown: Sequence[tuple[int, str]]) -> None:
    """A box for each path: the distribution over many stations or flows. Stations that are named alone are points."""
    alone = named_alone(scenario, figure, shown)
    boxed = [nth for nth, name in shown if (nth, name) not in alone]
    found = [[figure.factor * one.mean for one in values(group, figure, boxed) if one.count] for group in groups]
    boxes = axes.boxplot(found, widths=0.5, patch_artist=True, medianprops={"color": "black", "linewidth": 1.5}, flierprops={"markersize": 3})
    for box, style in zip(boxes["boxes"], styles(groups)):
        box.set(facecolor=style.colour, hatch=style.hatch)
    for place, (group, style) in enumerate(zip(groups, styles(groups)), 1):
        for nth, (one, (_, name)) in enumerate(zip(values(group, figure, [nth for nth, _ in alone]), alone)):
            at = (place, figure.factor * one.mean)
            side, anchor = [(7, "left"), (-7, "right")][nth % 2]
            axes.plot(*at, style.mark, color=style.colour, markeredgecolor="black", markersize=7)
            axes.annotate(name, at, (side, -3), textcoords="offset points", ha=anchor, fontsize="small")
    axes.set_xticks(range(1, len(groups) + 1), [group_name(group) for group in groups])
    axes.set_xlabel(f"{len(boxed)} {figure.of}; box: quartiles and median, whiskers: 1.5 interquartile ranges", fontsize="small")
    if not figure.is_delay:
        axes.set_ylim(bottom=0)


def axis_title(figure: Figure, group: Group, shown: Sequence[tuple[int, str]]) -> str:
    """The title of the axis; a delay is one-way or a round trip."""
    kinds = {group[0]["flows"][nth]["delay"] for nth, _ in shown} if figure.is_delay else set()
    word = {"one-way": "one-way delay", "round-trip": "round-trip time"}[kinds.pop()] if len(kinds) == 1 else "delay"
    return figure.axis.format(word)


def make_logarithmic(axes: Any) -> None:
    """Makes the axis of values logarithmic, with plain numbers such as 50 and 200."""
    ticker: Any = importlib.import_module("matplotlib.ticker")
    axes.set_yscale("log")
    axes.yaxis.set_major_locator(ticker.LogLocator(subs=(1, 2, 3, 5)))
    axes.yaxis.set_major_formatter(ticker.FuncFormatter(lambda value, _: f"{value:g}"))
    axes.yaxis.set_minor_formatter(ticker.NullFormatter())


def draw(pyplot: Any, scenario: Scenario, groups: Sequence[Group], figure: Figure) -> Any:
    """One figure."""
    drawn, axes = pyplot.subplots(figsize=SIZE, layout="constrained")
    shown = names(groups[0], figure, scenario)
    if len(shown) > MOST_PLACES:
        draw_boxes(axes, scenario, groups, figure, shown)
    else:
        (draw_points if figure.is_delay else draw_bars)(axes, groups, figure, shown)
        turned = {"rotation": 30, "ha": "right"} if len(shown) > MOST_LEVEL else {}
        axes.set_xticks(range(len(shown)), [name.replace(" to ", "\nto ") for _, name in shown], fontsize="small", **turned)
        axes.legend(loc="lower center", bbox_to_anchor=(0.5, 1.0), ncols=columns(len(groups)), frameon=False, fontsize="small")
    if figure.is_delay:
        make_logarithmic(axes)
    axes.set_ylabel(axis_title(figure, groups[0], shown))
    axes.grid(axis="y", linewidth=0.4, alpha=0.6)
    axes.set_axisbelow(True)
    drawn.suptitle(scenario.title, fontsize="large")
    drawn.supxlabel(foot(len(groups[0]), len(shown) > MOST_PLACES), fontsize="x-small")
    return drawn


def columns(entries: int) -> int:
    """The columns of a legend, so that its rows are about equally long."""
    return math.ceil(entries / math.ceil(entries / IN_A_ROW))


def foot(seeds: int, are_boxes: bool) -> str:
    """The line below a figure: how many seeds its values are of."""
    if seeds == 1:
        return "1 seed"
    return f"{'means' if are_boxes else 'means and 95 % intervals'} of {seeds} seeds"


def save(outputs: Outputs, pyplot: Any, drawn: Any, path: str, forms: Sequence[str]) -> None:
    """Writes a figure in some formats. The same figure gives the same files: they have no date, and no random names."""
    with pyplot.rc_context({"svg.fonttype": "none", "svg.hashsalt": "wf"}):
        for form in forms:
            drawn.savefig(outputs.reserve(f"{path}.{form}"), format=form, dpi=200, metadata=UNDATED[form])
    pyplot.close(drawn)


def write_figures(outputs: Outputs, folder: str, scenario: Scenario, runs: Sequence[Numbers]) -> bool:
    """Draws all figures of some runs into a folder. Returns whether matplotlib is there."""
    pyplot = library()
    if pyplot is None:
        return False
    os.makedirs(folder, exist_ok=True)
    for figure in FIGURES:
        drawn = draw(pyplot, scenario, grouped(runs), figure)
        save(outputs, pyplot, drawn, os.path.join(folder, f"{scenario.name}-{figure.kind}"), FORMATS)
    return True


def write_picture(outputs: Outputs, path: str, scenario: Scenario, runs: Sequence[Numbers], kind: str) -> bool:
    """Draws one figure for a page, as SVG. Returns whether matplotlib is there."""
    pyplot = library()
    if pyplot is None:
        return False
    os.makedirs(os.path.dirname(path), exist_ok=True)
    figure = next(one for one in FIGURES if one.kind == kind)
    save(outputs, pyplot, draw(pyplot, scenario, grouped(runs), figure), path, ("svg",))
    return True
