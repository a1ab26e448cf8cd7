"""Results as JSON, and as tidy CSV with a row for each station and each flow of each run. Names have their units."""
from __future__ import annotations

import csv
import json
import math
from collections.abc import Mapping, Sequence
from typing import Any, TextIO

from .frames import CAUSES
from .measure import PERCENTILES, FlowResult, MulticastResult, Result, StationResult, nearest_rank
from .scenario import Scenario
from .service import Service

Numbers = dict[str, Any]
KINDS_OF_ROWS = ("station", "flow", "multicast")
STATION_COLUMNS = (
    *("rate", "weight", "airtime_us", "uplink_us", "airtime_share", "throughput_mbit_per_s", "throughput_up_mbit_per_s"),
    *("aggregate_frames", "retries_frames"),
)
FLOW_COLUMNS = (
    *("tid", "delay", "offered_frames", "delivered_frames"),
    *(f"dropped_{cause}_frames" for cause in CAUSES),
    *("delay_mean_us", *(f"delay_p{percent}_us" for percent in PERCENTILES)),
    *("direction", "mos", "transfers", "transfer_mean_us", *(f"transfer_p{percent}_us" for percent in PERCENTILES)),
)

SERVICE_COLUMNS = ("triggers", "service_periods", "service_frames", "null_frames")  # of stations with service periods
MULTICAST_COLUMNS = ("received_frames", "lost_frames", "missed_frames", "refused_frames")  # next to columns of flows


def finite_or_none(value: float) -> float | None:
    """A number as JSON can have it."""
    return value if math.isfinite(value) else None


def flow_numbers(one: FlowResult) -> Numbers:
    """The numbers of a flow, for a row or an object."""
    flow = one.flow
    return {
        "flow": flow.name,
        "station": flow.station.name,
        "tid": flow.tid,
        "delay": "round-trip" if flow.echo else "one-way",
        "offered_frames": one.offered,
        "delivered_frames": one.delivered,
        **{f"dropped_{cause}_frames": count for cause, count in one.dropped.items()},
        "delay_mean_us": finite_or_none(one.mean),
        **{f"delay_p{percent}_us": finite_or_none(one.percentile(percent)) for percent in PERCENTILES},
        "direction": "up" if flow.is_up else "down",
        "connection": flow.connection,
        "mos": finite_or_none(one.mos),
        "transfers": len(one.loads),
        "transfer_mean_us": sum(one.loads) / len(one.loads) if one.loads else None,
        **{f"transfer_p{percent}_us": finite_or_none(nearest_rank(one.loads, percent)) for percent in PERCENTILES},
    }


def service_numbers(one: Service) -> Numbers:
    """The numbers of the service periods of a station."""
    return dict(zip(SERVICE_COLUMNS, (one.triggers, one.periods, one.frames, one.nulls)))


def station_numbers(one: StationResult) -> Numbers:
    return {
        "station": one.station.name,
        "rate": str(one.station.rate),
        "weight": one.station.weight,
        "airtime_us": one.airtime,
        "uplink_us": one.uplink,
        "airtime_share": one.share,
        "throughput_mbit_per_s": one.mbit,
        "throughput_up_mbit_per_s": one.mbit_up,
        "aggregate_frames": one.aggregate,
        "retries_frames": one.retries,
        **(service_numbers(one.service) if one.service else {}),
    }


def multicast_numbers(one: MulticastResult) -> Numbers:
    """The numbers of a multicast flow at one station."""
    return {
        "flow": one.flow.name,
        "station": one.station.name,
        "offered_frames": one.offered,
        "received_frames": one.received,
        "lost_frames": one.lost,
        "missed_frames": one.missed,
        "refused_frames": one.refused,
        "delay_mean_us": finite_or_none(one.mean),
        **{f"delay_p{percent}_us": finite_or_none(one.percentile(percent)) for percent in PERCENTILES},
    }


def frame_times(one: FlowResult) -> list[Sequence[int | str | None]]:
    """The times at which each frame came, was released and ended, and its fate; with replies also the time of that."""
    if one.flow.echo:
        return [(came, released, ended, fate, answered) for came, released, answered, ended, fate in one.frames]
    return [(came, released, ended, fate) for came, released, _, ended, fate in one.frames]


def run_numbers(result: Result, parameters: Mapping[str, str] | None = None, frames: bool = False) -> Numbers:
    """One run, with the parameters of a sweep."""
    flows = [flow_numbers(one) for one in result.flows]
    if frames:
        for numbers, one in zip(flows, result.flows):
            numbers["frames"] = frame_times(one)
    return {
        "path": result.label,
        "seed": result.seed,
        "parameters": dict(parameters or {}),
        "simulated_s": result.seconds,
        "cut": result.cut,
        "jain": finite_or_none(result.jain),
        "throughput_mbit_per_s": result.total,
        "air_in_use_share": result.busy,
        "took_s": result.took,
        "calls": result.calls,
        "summary": result.summary,
        "stations": [station_numbers(one) for one in result.stations],
        "flows": flows,
        "multicasts": [multicast_numbers(one) for one in result.multicast],
    }


def write_json(file: TextIO, scenario: Scenario, runs: Sequence[Numbers], program: str) -> None:
    whole: Numbers = {"scenario": scenario.name, "title": scenario.title, "program": program}
    json.dump({**whole, "runs": runs}, file)
    file.write("\n")


def rows_of(runs: Sequence[Numbers], kind: str) -> list[Numbers]:
    """For each run, a row for each station, for each flow, or for each station of a multicast flow (`kind`), with the columns in which
    runs differ."""
    return [
        {"path": run["path"], "seed": run["seed"], "simulated_s": run["simulated_s"], **run["parameters"], "row": kind, **numbers}
        for run in runs
        for numbers in run[f"{kind}s"]
    ]


def write_csv(file: TextIO, runs: Sequence[Numbers]) -> None:
    """Writes for each run a row for each station, for each flow, and for each station of a multicast flow. Cells that have no meaning
    for a row are empty. The columns of service periods and of multicast flows exist only if there are some."""
    parameters = list(runs[0]["parameters"])
    head = ["path", "seed", *parameters, "simulated_s", "row", "station", "flow", *STATION_COLUMNS, *FLOW_COLUMNS]
    head += SERVICE_COLUMNS if any("triggers" in one for one in runs[0]["stations"]) else ()
    head += MULTICAST_COLUMNS if runs[0]["multicasts"] else ()
    writer = csv.DictWriter(file, head, lineterminator="\n", extrasaction="ignore")
    writer.writeheader()
    for run in runs:
        for kind in KINDS_OF_ROWS:
            writer.writerows(rows_of([run], kind))
