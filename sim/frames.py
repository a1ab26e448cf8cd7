"""Frames, exchanges, and the interface of a transmit path, which the machine and every model implement."""
from __future__ import annotations

from abc import ABC, abstractmethod
from collections.abc import Callable, Sequence
from dataclasses import dataclass, field

from .rates import Rate
from .scenario import Flow, Station

CLASSES = ("vo", "vi", "be", "bk")  # the most urgent first: the order in which they get the air
CLASS_OF_TID = ("be", "bk", "bk", "be", "vi", "vi", "vo", "vo")
CAUSES = ("overlimit", "codel", "retries", "left", "refused")  # why a frame was dropped


class Frame:
    """One frame. Times are microseconds: when it came, was released in order by its receiver, was answered, and ended."""

    __slots__ = ("flow", "station", "tid", "octets", "came", "order", "sent", "number", "released", "answered", "ended", "fate", "action")

    def __init__(self, flow: Flow, came: int, octets: int, order: int = 0) -> None:
        self.flow = flow
        self.station = flow.station.number
        self.tid = flow.tid
        self.octets = octets
        self.came = came
        self.order = order  # its place among the frames of its flow
        self.sent = 0  # transmissions so far
        self.number = -1  # the sequence number that a model gave it
        self.released: int | None = None
        self.answered: int | None = None  # when the station's reply to it arrived
        self.ended: int | None = None
        self.fate: str | None = None
        self.action: Callable[[], None] | None = None  # what its release does, if it is no data of its flow


@dataclass(slots=True)
class Exchange:
    """An aggregate of data frames, or a BlockAckReq if it has none. `air` of a batch is the airtime of its next transmission."""

    number: int
    station: int
    tid: int
    air: int  # microseconds on the air, without channel access
    frames: list[Frame]
    charge: int | None = None  # the airtime that the driver measured, if it charges that
    is_batch: bool = False  # whether the station's device numbers and repeats the frames
    is_plain: bool = False  # whether it is one frame without an agreement
    is_addba: bool = False  # whether it is an ADDBA request with its response, which the path does not know
    is_null: bool = False  # whether it is a QoS Null frame with its Ack, which the path does not know
    is_served: bool = False  # whether it is part of a service period
    eosp: bool = False  # whether it is the last one of a service period

    @property
    def charged(self) -> int:
        """Microseconds that the exchange is charged."""
        return self.air if self.charge is None else self.charge


@dataclass(slots=True)
class GroupSend:
    """A group frame that goes on the air: its id, its airtime in microseconds, and the More Data bit."""

    number: int
    air: int
    more: bool


@dataclass
class Path(ABC):
    """A transmit path. Calls come in the order of time; `advance` says the time of the calls that follow."""

    now: int = 0
    ended: list[Frame] = field(default_factory=list)  # frames that ended since `take_ended`
    calls: int = 0  # calls that the machine was asked; 0 for a model
    summary: list[str] = field(default_factory=list)  # the machine's summary
    is_ahead: bool = False  # whether the latest pull was refused because of the airtime in flight of all classes

    def take_ended(self) -> list[Frame]:
        """The frames that ended since this was asked last."""
        ended, self.ended = self.ended, []
        return ended

    def end(self, frame: Frame, fate: str) -> None:
        """Notes that a frame ended now."""
        self.end_at(frame, fate, self.now)

    def end_at(self, frame: Frame, fate: str, time: int) -> None:
        """Notes that a frame ended earlier."""
        frame.ended = time
        frame.fate = fate
        self.ended.append(frame)

    def advance(self, now: int) -> None:
        self.now = now

    @abstractmethod
    def join(self, station: Station) -> None:
        """Adds a station."""

    @abstractmethod
    def leave(self, station: Station) -> None:
        """Drops all frames held for a station. No exchange of it is open."""

    @abstractmethod
    def set_rate(self, station: Station, rate: Rate) -> None:
        """Changes the rate of a station."""

    @abstractmethod
    def has_room(self, flow: Flow) -> bool:
        """Whether a flow with a backlog may put in one more frame, so that some room is left for other flows."""

    @abstractmethod
    def enqueue(self, frame: Frame) -> None:
        """Takes a frame, or drops it."""

    def enqueue_all(self, frames: Sequence[Frame]) -> None:
        """Takes frames one after the other, each at the time at which it comes."""
        for frame in frames:
            self.advance(frame.came)
            self.enqueue(frame)

    @abstractmethod
    def pull(self, frame_class: str) -> Exchange | None:
        """The next exchange of a class, if there is one."""

    @abstractmethod
    def finish(self, exchange: Exchange, arrived: Sequence[bool], heard: bool) -> list[Frame]:
        """Ends an exchange: which transmissions arrived, and whether the BlockAck was heard. Returns the frames released in order."""

    def report(self, exchange: Exchange, acked: Sequence[int], unsent: Sequence[int], is_over: bool) -> None:
        """Reports which frames of a batch were acknowledged and which were never sent, by index, and whether the batch ends."""

    def hold(self, station: Station, tid: int) -> None:
        """Holds a TID without an agreement: only a frame that was sent before is sent. A model has all agreements."""

    def begin(self, station: Station, tid: int) -> None:
        """Begins the agreement of a held TID, with the station's window."""

    def free(self, station: Station, tid: int) -> None:
        """Lets the frames of a held TID go one at a time again."""

    def received(self, station: Station, frame_class: str, air: int) -> None:
        """Charges a station for airtime that it used to send. A path without an airtime scheduler ignores it."""

    def can_sleep(self) -> bool:
        """Whether the path has power save. A model has none."""
        return False

    def sleep(self, station: Station) -> None:
        """Notes that a station sleeps."""

    def wake(self, station: Station) -> None:
        """Notes that a station is awake."""

    def poll(self, station: Station) -> str | None:
        """The class that a sleeping station's poll got a credit for, if any."""
        return None

    def apsd(self, station: Station) -> None:
        """Notes the delivery-enabled classes of a station, and the most frames of its service periods."""

    def trigger(self, station: Station) -> bool:
        """A sleeping station sent a trigger frame. Returns whether this opens a service period, or there is nothing to send."""
        return False

    def end_service(self, station: Station) -> None:
        """Notes that the device ended a service period by a QoS Null frame."""

    def set_bss(self, station: Station) -> None:
        """Sets the BSS of a station, which is 0 when it joins. A model has no group frames, and no beacons."""

    def group(self, octets: int, bss: int) -> bool:
        """Takes a group frame of a BSS, and returns whether it has room for it."""
        raise NotImplementedError

    def beacon(self, bss: int) -> bool:
        """Notes that a beacon of a BSS goes out. Returns whether it announces group frames."""
        raise NotImplementedError

    def group_pull(self, bss: int) -> GroupSend | None:
        """The next group frame of a BSS, if one may go now."""
        raise NotImplementedError

    def group_done(self, bss: int) -> None:
        """Notes that the group frame of a BSS on the air has ended."""
        raise NotImplementedError

    def close(self) -> None:
        """Ends the path; it is asked nothing afterwards."""

    def abandon(self) -> None:
        """Releases what the path holds, whatever it does; it is asked nothing afterwards."""
