"""A live station, and the exchanges with it: MACHINE.md, Stations and clock, and Exchanges."""
import enum
from dataclasses import dataclass, field

from wfdev.model.frames import CLASS_TIDS, TIDS, Class
from wfdev.model.rates import LOWEST, Rate
from wfdev.model.receiver import BlockAck, Receiver
from wfdev.model.session import End, Session


class Mode(enum.Enum):
    """The mode of a TID: its frames go one at a time, no frame gets a number, or there is an agreement."""

    PLAIN = "plain"
    HELD = "held"
    AGREED = "agreed"


def zeros() -> dict[Class, int]:
    """Returns a 0 for each class."""
    return dict.fromkeys(Class, 0)


def first_turns() -> dict[Class, int]:
    """Returns the lower TID of each class."""
    return {one: min(tids) for one, tids in CLASS_TIDS.items()}


@dataclass
class Station:
    """A live station. `turns` has the TID whose turn it is in each class; `credit` is the class of a poll.

    `delivery` has its delivery-enabled classes, and `most` the most frames of a service period, 0 if there is no limit.
    `service` is how many frames are left of the service period that is open, and 0 if there is no limit.

    All of its TIDs begin with the mode `mode`; `modes` has their modes now.
    `ampdu` is the most octets of its aggregates of VHT and HE, if that was stated. The device of one that is
    `offloaded` numbers, aggregates and repeats its frames.
    """

    number: int
    window: int
    first: int
    exponent: int
    weight: int
    rate: Rate = LOWEST
    ampdu: int | None = None
    mode: Mode = Mode.AGREED
    offloaded: bool = False
    stopped: bool = False
    bss: int = 0
    asleep: bool = False
    credit: Class | None = None
    delivery: frozenset[Class] = frozenset()
    most: int = 0
    service: int | None = None
    turns: dict[Class, int] = field(default_factory=first_turns)
    charged: dict[Class, int] = field(default_factory=zeros)
    received: dict[Class, int] = field(default_factory=zeros)
    modes: list[Mode] = field(init=False)
    sessions: list[Session] = field(init=False)
    receivers: list[Receiver] = field(init=False)

    def __post_init__(self) -> None:
        self.modes = [self.mode] * TIDS
        self.sessions = [Session(self.window, self.first) for _ in range(TIDS)]
        self.receivers = [Receiver(self.window, self.first) for _ in range(TIDS)]

    @property
    def polled(self) -> frozenset[Class]:
        """The classes that a poll, and the TIM, look at: those that are not delivery-enabled, or all if all are."""
        return frozenset(Class.__members__.values()) - self.delivery or self.delivery

    def is_served(self, access: Class) -> bool:
        """Returns whether an exchange of a class is part of the service period that is open."""
        return self.asleep and self.service is not None and access in self.delivery

    def is_used_up(self, frames: int) -> bool:
        """Returns whether nothing is left of the service period after this many frames."""
        return bool(self.service) and frames >= (self.service or 0)

    def is_plain(self, tid: int) -> bool:
        """Returns whether a TID has no agreement and no device that makes one."""
        return not self.offloaded and self.modes[tid] is not Mode.AGREED

    def catch_up(self, tid: int) -> list[int]:
        """Both sides of a TID agree on the start of its window. Returns the frames that are passed up."""
        start = self.sessions[tid].start
        self.sessions[tid].hear_request(start)
        return self.receivers[tid].request(start)

    def catch_up_if_plain(self, tid: int) -> None:
        """Without an agreement no request tells the receiver where the window starts."""
        if self.modes[tid] is not Mode.AGREED:
            self.catch_up(tid)

    def resize(self, tid: int, window: int) -> None:
        """A TID has this window from now on."""
        self.sessions[tid].window = self.receivers[tid].window = window


@dataclass
class Exchange:
    """An open exchange: numbers of data, or a request if it has a start; what arrived, and its BlockAck.

    `unsent` and `given_up` have the indices of the transmissions that never went on the air, and of those that the
    device will not try again. The device itself numbers and repeats the frames of a `batch`, and says which of them
    were acknowledged: these arrived. An Ack answers the frame of a `plain` one.
    """

    station: int
    tid: int
    charge: int
    numbers: list[int]
    request: int | None = None
    arrived: set[int] = field(default_factory=set)
    answer: BlockAck | None = None
    unsent: set[int] = field(default_factory=set)
    given_up: set[int] = field(default_factory=set)
    batch: bool = False
    plain: bool = False

    def has_mark(self, index: int) -> bool:
        """Returns whether a transmission is marked."""
        return index in self.unsent or index in self.given_up

    def end_of(self, index: int, heard: BlockAck | None) -> End:
        """Returns how the exchange ends for the number of a transmission, with the BlockAck that was heard."""
        if index in self.unsent:
            return End.UNSENT
        if self.batch:
            return End.ACKNOWLEDGED if index in self.arrived else End.GIVEN_UP
        if heard is not None and self.numbers[index] in heard.shown:
            return End.ACKNOWLEDGED
        return End.GIVEN_UP if index in self.given_up else End.MISSED

    @property
    def transmissions(self) -> int:
        """The number of transmissions."""
        return len(self.numbers) if self.request is None else 1
