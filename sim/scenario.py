"""The parts of a scenario: its air, stations and flows. `reading` makes them of a file; docs/SIM.md has the grammar."""
from __future__ import annotations

import math
from collections.abc import Mapping
from dataclasses import dataclass, field, replace

from .rates import Legacy, Rate
from .settings import settings

MACHINE = "airtime"  # the path that is no model
MODEL_SETTINGS = {  # settings of the models: least, greatest and standard value
    "queue": (1, 1_000_000, 1000),  # packets in the queue of `fifo`
    "buffer": (1, 1_000_000, 123),  # frames of a class in the driver below `fifo` and `fq_codel`
    "fq_limit": (1, 1_000_000, 10_240),  # packets in the queues of `fq_codel`
}
NUMBERED = ("bk", "be", "vi", "vo")  # the classes by their numbers
Sizes = tuple[tuple[int, float], ...]  # pairs of octets and a weight
STANDARD_SIZES: Sizes = ((1500, 8), (576, 1), (100, 1))


@dataclass
class Air:
    """The medium. Times are microseconds."""

    difs: int = 34
    slot: int = 9
    cw: int = 15  # the backoff before an exchange is 0 to `cw` slots, drawn
    access: int | None = None  # a fixed time before each exchange instead of DIFS and a drawn backoff
    charge_access: bool = False  # whether an exchange is charged the access before it
    charge_uplink: bool = True  # whether a station is charged for what it sends
    inflight: int = 2  # exchanges of a class that the driver holds
    beacon: int | None = None  # time between beacons; None for no beacons

    @property
    def longest_access(self) -> int:
        """The longest time before an exchange of the access point when no station contends."""
        return self.difs + self.slot * self.cw if self.access is None else self.access


@dataclass
class Station:
    """A station. Times are microseconds of the run."""

    number: int
    name: str
    group: str  # the name in the file, which stations of one table share
    rate: Rate
    weight: int
    window: int
    loss: float
    ack_loss: float
    join: int
    leave: float
    rates: list[tuple[int, Rate]]  # changes of the rate: when, and to which
    sleeps: list[tuple[int, int]]  # from when to when it sleeps
    poll: int  # time between polls while it sleeps; 0 for none
    charge_bias: float = 0.0  # of the airtime that the driver measures: its mean error, and the standard deviation, as shares
    charge_error: float = 0.0
    offload: bool = False  # whether the device numbers, aggregates and repeats its frames
    plain: bool = False  # whether it joins without agreements: that of a TID begins at its first frame
    apsd: tuple[str, ...] = ()  # its delivery-enabled classes
    most: int = 0  # frames of a service period; 0 for no limit
    bss: int = 0  # the number of its BSS

    @property
    def classes(self) -> int:
        """The number of the set of its delivery-enabled classes."""
        return sum(1 << NUMBERED.index(frame_class) for frame_class in self.apsd)

    @property
    def is_single(self) -> bool:
        """Whether its rates are of OFDM or DSSS, at which frames go one by one."""
        return isinstance(self.rate, Legacy)

    @property
    def joins_plain(self) -> bool:
        """Whether it joins without agreements."""
        return self.plain or self.is_single

    @property
    def legacy(self) -> int:
        """The least value of the setting `legacy` that allows its rates."""
        return max(rate.setting if isinstance(rate, Legacy) else 0 for rate in [self.rate, *(rate for _, rate in self.rates)])

    @property
    def is_measured(self) -> bool:
        """Whether the driver's measure of its airtime has an error."""
        return bool(self.charge_bias or self.charge_error)


def everyone(rate: Rate, bss: int) -> Station:
    """Returns a station that represents all stations of a BSS, as the receiver of a multicast flow at this rate."""
    name, forever = "all", math.inf
    return Station(
        -1, name, name, rate, weight=1, window=1, loss=0, ack_loss=0, join=0, leave=forever, rates=[], sleeps=[], poll=0, bss=bss
    )


@dataclass
class Bss:
    """A BSS of the access point, which has beacons and group frames of its own."""

    name: str
    offset: int = 0  # microseconds by which its beacons come after those of a BSS without an offset


@dataclass
class Page:
    """A page that a browser loads again and again, with a pause in microseconds between two loads."""

    octets: int
    requests: int
    connections: int
    pause: int


@dataclass
class Flow:
    """A flow of frames to or from a station. Times are microseconds."""

    number: int
    name: str
    station: Station
    kind: str  # the key that says what makes it send
    tid: int = 0
    sizes: Sizes = STANDARD_SIZES
    start: int = 0
    stop: float = math.inf
    offset: int = 0  # the most by which its start is late, drawn
    echo: bool = False  # whether the station answers each frame
    is_up: bool = False  # whether the station sends it
    every: float = 0.0  # time between frames; their mean, if they come at random times
    burst: int = 1  # frames that come at once at the start
    backlog: int = 0
    delay: int = 0  # the part of a round trip that is neither queue nor air
    congestion: str = "cubic"
    octets: int | None = None  # of data in all; None for no end
    page: Page | None = None
    connection: int = 0  # which of the connections of its page, from 1; 0 for a flow without a page

    @property
    def label(self) -> str:
        ends = f"{self.name} {'from' if self.is_up else 'to'} {self.station.name}"
        return f"{ends}, connection {self.connection}" if self.connection > 1 else ends

    @property
    def wants_all(self) -> bool:
        """Whether the flow wants all airtime that it can get."""
        return self.kind in ("flood_mbit", "backlog", "tcp") and self.octets is None


@dataclass
class Scenario:
    """A whole scenario."""

    name: str
    title: str
    note: str
    seconds: float
    warmup: float
    seed: int
    settings: dict[str, int]  # of the machine, as far as the file gives them
    models: dict[str, int]  # of the models
    air: Air
    stations: list[Station]
    flows: list[Flow]
    multicast: list[Flow] = field(default_factory=list)  # flows to all stations of a BSS, whose `station` is `everyone`
    bsses: list[Bss] = field(default_factory=lambda: [Bss("bss 0")])
    pictures: list[str] = field(default_factory=list)
    shown: list[str] = field(default_factory=list)  # names or labels of flows whose delays are shown; empty for all
    compare: list[str] = field(default_factory=list)

    def setting(self, name: str) -> int:
        """A setting of the machine, or its standard value."""
        return self.settings.get(name, settings()[name].standard)

    def model(self, name: str) -> int:
        """A setting of the models, or its standard value."""
        return self.models.get(name, MODEL_SETTINGS[name][2])

    def shows(self, flow: Flow) -> bool:
        """Whether pictures and the comparison show the delays of a flow."""
        return not self.shown or flow.name in self.shown or flow.label in self.shown

    def with_settings(self, changed: Mapping[str, int]) -> Scenario:
        """The same scenario with other settings of the machine or of the models."""
        air = replace(self.air, inflight=changed.get("inflight", self.air.inflight))
        models = {name: value for name, value in changed.items() if name in MODEL_SETTINGS}
        machine = {name: value for name, value in changed.items() if name not in models and name != "inflight"}
        return replace(self, air=air, settings={**self.settings, **machine}, models={**self.models, **models})
