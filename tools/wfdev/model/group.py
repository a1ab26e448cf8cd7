"""Group frames and beacons: MACHINE.md, Group frames."""
from collections import deque
from dataclasses import dataclass, field

from wfdev.model.rates import CHECK, ofdm_time
from wfdev.model.settings import Settings

HEADER, MBPS = 24, 6


@dataclass
class GroupFrame:
    """A group frame: the octets of its body, and its number once it has gone to the air."""

    id: int
    length: int
    number: int | None = None


@dataclass
class Group:
    """The group frames of a BSS: those that are queued and the one on the air, and what its latest beacon said."""

    settings: Settings
    count: int = 0
    announced: bool = False
    served_below: int = 0
    queued: deque[GroupFrame] = field(default_factory=deque)
    flying: GroupFrame | None = None
    number: int = 0
    accepted: int = 0
    sent: int = 0
    air: int = 0

    @property
    def period(self) -> int:
        """The DTIM period."""
        return self.settings.period or 1

    @property
    def held(self) -> int:
        """How many group frames are queued or on the air."""
        return len(self.queued) + (self.flying is not None)

    def time(self, frame: GroupFrame) -> int:
        """Returns the airtime of a group frame."""
        return ofdm_time(MBPS, HEADER + frame.length + self.settings.overhead + CHECK)

    def next_number(self) -> int:
        """Returns a fresh sequence number."""
        self.number += 1
        return self.number - 1

    def accept(self, length: int) -> int:
        """Puts a frame last into the queue, and returns its id."""
        self.queued.append(GroupFrame(self.accepted, length))
        self.accepted += 1
        return self.accepted - 1

    def beacon(self) -> None:
        """Sends a beacon."""
        self.next_number()
        self.count = (self.count or self.period) - 1
        self.served_below = self.accepted if self.count == 0 else 0
        self.announced = self.may_go(True)

    def may_go(self, sleeps: bool) -> bool:
        """Returns whether the first queued frame may go now, by whether a station sleeps."""
        return bool(self.queued) and (not sleeps or self.queued[0].id < self.served_below)

    def pull(self) -> GroupFrame:
        """Hands the first queued frame to the air, and returns it."""
        self.flying = self.queued.popleft()
        self.flying.number = self.next_number()
        return self.flying

    def done(self) -> int:
        """Ends the transmission of the frame on the air, and returns its id."""
        assert self.flying is not None
        frame, self.flying = self.flying, None
        self.sent += 1
        self.air += self.time(frame)
        return frame.id
