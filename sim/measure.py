"""The results of a run: shares, throughputs, delays, and Jain's index."""
from __future__ import annotations

import math
from array import array
from collections import Counter
from collections.abc import Iterator, Sequence
from dataclasses import dataclass, field

from .bench import Bench
from .frames import CAUSES, Frame
from .scenario import Flow, Scenario, Station
from .service import Service
from .voice import score

PERCENTILES = (50, 95, 99)
NOT_YET = -1
NEARLY_ALL = 0.95
Times = tuple[int, int | None, int | None, int | None, str | None]


@dataclass
class StationResult:
    """A station: its airtime in microseconds and as a share of all, and what it was delivered."""

    station: Station
    airtime: int  # of exchanges to it, as they are charged, and of what it sent
    uplink: int  # of what it sent
    share: float
    mbit: float  # released to it
    mbit_up: float  # of flows that it sends
    aggregate: float  # mean frames of an aggregate
    retries: int
    service: Service | None = None  # if some of its classes are delivery-enabled


def unpacked(time: int) -> int | None:
    return None if time == NOT_YET else time


@dataclass
class FrameTimes:
    """The times of many frames in little memory: when each came, was released, answered and ended, and its fate."""

    came: array[int]
    released: array[int]
    answered: array[int]
    ended: array[int]
    fates: list[str | None]

    @classmethod
    def of(cls, frames: Sequence[Frame]) -> FrameTimes:
        return cls(
            came=array("q", [one.came for one in frames]),
            released=array("q", [NOT_YET if one.released is None else one.released for one in frames]),
            answered=array("q", [NOT_YET if one.answered is None else one.answered for one in frames]),
            ended=array("q", [NOT_YET if one.ended is None else one.ended for one in frames]),
            fates=[one.fate for one in frames],
        )

    def __len__(self) -> int:
        return len(self.came)

    def __iter__(self) -> Iterator[Times]:
        for came, *others, fate in zip(self.came, self.released, self.answered, self.ended, self.fates):
            released, answered, ended = map(unpacked, others)
            yield came, released, answered, ended, fate


@dataclass
class FlowResult:
    """A flow: its frames by what became of them, and its delays in microseconds, sorted.

    A delay is the time from a frame's arrival at the path until its release, or until its reply if the flow has replies.
    """

    flow: Flow
    frames: FrameTimes
    offered: int
    delivered: int
    dropped: dict[str, int]
    delays: list[int]
    loads: list[int] = field(default_factory=list)  # microseconds of each transfer or page that ended, sorted

    @property
    def mos(self) -> float:
        """The mean opinion score of a call; NaN for another flow."""
        if self.flow.kind != "voip" or not self.offered:
            return math.nan
        return score(self.delays, sum(self.dropped.values()), self.flow.delay)

    @property
    def mean(self) -> float:
        return sum(self.delays) / len(self.delays) if self.delays else math.nan

    def percentile(self, percent: float) -> float:
        """The nearest-rank percentile of the delays."""
        return nearest_rank(self.delays, percent)

    def points(self) -> list[tuple[int, int]]:
        """When each frame with a delay came, and its delay."""
        ends = self.frames.answered if self.flow.echo else self.frames.released
        return [(came, end - came) for came, end in zip(self.frames.came, ends) if end != NOT_YET]


@dataclass
class MulticastResult:
    """A multicast flow at one station: how many of the frames that were sent while the station was live it lost and missed, and the
    delays of the others in microseconds, sorted. A delay is the time from a frame's arrival at the path until the end of its
    transmission."""

    flow: Flow
    station: Station
    offered: int
    refused: int
    lost: int
    missed: int
    delays: list[int]

    @property
    def received(self) -> int:
        return len(self.delays)

    @property
    def mean(self) -> float:
        return sum(self.delays) / len(self.delays) if self.delays else math.nan

    def percentile(self, percent: float) -> float:
        """The nearest-rank percentile of the delays."""
        return nearest_rank(self.delays, percent)


@dataclass
class Result:
    """A whole run of one path."""

    label: str
    model: str
    seed: int
    seconds: float  # simulated
    stations: list[StationResult]
    flows: list[FlowResult]
    jain: float
    total: float  # Mbit/s delivered
    busy: float  # share of the time in which an exchange or the access before it was on the air
    took: float  # seconds that the run took
    calls: int  # of the machine; 0 for a model
    summary: list[str]  # the machine's summary, line by line
    cut: bool  # whether the program took no more calls before the scenario's end
    multicast: list[MulticastResult] = field(default_factory=list)  # of each multicast flow at each station

    @property
    def has_uplink(self) -> bool:
        return any(one.uplink for one in self.stations)

    @property
    def sends_up(self) -> bool:
        """Whether some flow is from a station."""
        return any(one.flow.is_up for one in self.flows)

    def never_served(self) -> list[str]:
        """The flows of which nothing was delivered, and the stations without airtime."""
        return [f"flow {one.flow.label}" for one in self.flows if not one.delivered] + [
            f"station {one.station.name}" for one in self.stations if not one.airtime
        ]

    def below_the_link(self) -> list[str]:
        """The floods that were delivered nearly whole while the air had time left: they do not fill the link."""
        floods = [one for one in self.flows if one.flow.kind == "flood_mbit"]
        return [one.flow.label for one in floods if one.delivered > NEARLY_ALL * one.offered and self.busy < NEARLY_ALL]


def nearest_rank(values: Sequence[int], percent: float) -> float:
    """The least of sorted values that at least this many per cent of them do not exceed; NaN if there is none."""
    return values[max(1, math.ceil(len(values) * percent / 100)) - 1] if values else math.nan


def jain(values: Sequence[float]) -> float:
    """Jain's index of fairness: 1 if all are equal, 1/n if one has all."""
    squares = sum(value * value for value in values)
    return sum(values) ** 2 / (len(values) * squares) if squares else math.nan


def flow_result(flow: Flow, frames: Sequence[Frame], loads: Sequence[tuple[int, int]], warmup: int) -> FlowResult:
    """The result of a flow, from the frames that came and the transfers that began after the warm-up."""
    counted = [frame for frame in frames if frame.came >= warmup]
    fates = Counter([frame.fate for frame in counted if frame.released is None])
    dropped = {cause: fates[cause] for cause in CAUSES}
    times = FrameTimes.of(counted)
    delivered = len(counted) - times.released.count(NOT_YET)
    result = FlowResult(flow, times, len(counted), delivered, dropped, [])
    result.delays = sorted(delay for _, delay in result.points())
    result.loads = sorted(took for began, took in loads if began >= warmup)
    return result


def station_result(station: Station, bench: Bench, octets: tuple[int, int], everything: int, span: float) -> StationResult:
    """The result of a station with this many octets released to it and from it, in a span of microseconds."""
    served = bench.served[station.number]
    return StationResult(
        station=station,
        airtime=served.airtime + served.uplink,
        uplink=served.uplink,
        share=(served.airtime + served.uplink) / everything,
        mbit=8 * octets[0] / span,
        mbit_up=8 * octets[1] / span,
        aggregate=served.transmissions / served.aggregates if served.aggregates else 0.0,
        retries=served.retries,
        service=bench.services.counts[station.number] if station.apsd else None,
    )


def octets_released(bench: Bench) -> list[tuple[int, int]]:
    """Octets of flows to each station, and of flows from it, that were released after the warm-up."""
    octets = [[0, 0] for _ in bench.served]
    for flow, frames in zip(bench.scenario.flows, bench.frames):
        mine, way = octets[flow.station.number], int(flow.is_up)
        mine[way] += sum([frame.octets for frame in frames if frame.released and frame.released > bench.warmup])
    return [(down, up) for down, up in octets]


def multicast_results(bench: Bench) -> list[MulticastResult]:
    """The results of each multicast flow at each station of its BSS."""
    found, flows = bench.multicast, bench.scenario.multicast
    return [
        MulticastResult(flow, station, sending.offered, sending.refused, one.lost, one.missed, sorted(one.delays))
        for flow, sending, heard in zip(flows, found.sending, found.heard)
        for station, one in zip(bench.scenario.stations, heard)
        if station.bss == flow.station.bss
    ]


def always_wanting(scenario: Scenario) -> set[int]:
    """The numbers of the stations that Jain's index compares: those with a flow that wants all airtime that it can get; if fewer than
    two have one, all that have a flow."""
    wanting = {flow.station.number for flow in scenario.flows if flow.wants_all}
    return wanting if len(wanting) > 1 else {flow.station.number for flow in scenario.flows}


def measure(bench: Bench, label: str, model: str, reached: int, took: float) -> Result:
    """The result of a bench that ran to a time."""
    scenario = bench.scenario
    span = max(reached - bench.warmup, 1)
    everything = sum(served.airtime + served.uplink for served in bench.served)
    rows = zip(scenario.stations, octets_released(bench))
    stations = [station_result(station, bench, octets, everything or 1, span) for station, octets in rows]
    wanting = always_wanting(scenario)
    return Result(
        label=label,
        model=model,
        seed=scenario.seed,
        seconds=reached / 1e6,
        stations=stations,
        flows=[flow_result(*of_flow, bench.warmup) for of_flow in zip(scenario.flows, bench.frames, bench.loads)],
        jain=jain([one.airtime / one.station.weight for one in stations if one.station.number in wanting]),
        total=sum(one.mbit + one.mbit_up for one in stations),
        busy=(everything + sum(served.access for served in bench.served) + bench.multicast.used) / span,
        took=took,
        calls=bench.path.calls,
        summary=bench.path.summary,
        cut=reached < scenario.seconds * 1e6,
        multicast=multicast_results(bench),
    )
