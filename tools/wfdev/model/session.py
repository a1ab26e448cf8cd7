"""The access point's side of one TID's block acknowledgement: MACHINE.md, Windows and numbers, and Exchanges.

Numbers grow without bound; on the air they are modulo 4096.
"""
import enum
from dataclasses import dataclass, field

from wfdev.model.frames import Frame
from wfdev.model.rates import NARROW_WINDOW

FAR = 2048


class State(enum.Enum):
    """The state of a number that is not settled."""

    WAITING = "waiting"
    FLYING = "flying"


class End(enum.Enum):
    """How an exchange ends for one of its numbers."""

    ACKNOWLEDGED = "acknowledged"
    MISSED = "missed"
    GIVEN_UP = "given-up"
    UNSENT = "unsent"


class Ended(enum.Enum):
    """The outcome of a transmission for its number."""

    ACKED = "acked"
    WAITING = "waiting"
    FAILED = "failed"


@dataclass
class Slot:
    """A number that is not settled: its frame, and how often it was sent in vain."""

    frame: Frame
    state: State
    attempts: int = 0


@dataclass
class Session:
    """The window of a TID. `next` is N, and `asked` is R in MACHINE.md; `acked` is above each acknowledged number."""

    window: int
    first: int
    slots: dict[int, Slot] = field(default_factory=dict)
    failed: set[int] = field(default_factory=set)
    next: int = field(init=False)
    asked: int = field(init=False)
    acked: int = field(init=False)

    def __post_init__(self) -> None:
        self.next = self.asked = self.acked = self.first

    @property
    def start(self) -> int:
        """F: the first number that is neither acknowledged nor failed."""
        return min(self.slots, default=self.next)

    def has_room(self) -> bool:
        """Returns whether a fresh number is inside the window."""
        return self.next < self.start + self.window

    @property
    def is_wide(self) -> bool:
        """Whether its BlockAcks have 256 bits."""
        return self.window > NARROW_WINDOW

    def is_far(self, number: int) -> bool:
        """Returns whether a number without an agreement is 2,048 or more above the last acknowledged one."""
        return number - (self.acked - 1) >= FAR

    def request_is_due(self) -> bool:
        """Returns whether the receiver may wait for a number that failed."""
        start = self.start
        return any(self.asked <= number < start for number in self.failed)

    def waiting(self) -> list[int]:
        """Returns the numbers that wait, from the lowest up."""
        return sorted(number for number, slot in self.slots.items() if slot.state is State.WAITING)

    def length(self, number: int) -> int:
        """Returns the length of a number's body."""
        return self.slots[number].frame.length

    def add(self, frame: Frame) -> int:
        """Gives a fresh frame the next number, which waits."""
        number, self.next = self.next, self.next + 1
        self.slots[number] = Slot(frame, State.WAITING)
        return number

    def fly(self, number: int) -> None:
        """Sends a number."""
        self.slots[number].state = State.FLYING

    def fail(self, number: int) -> Frame:
        """Has a number fail, and returns its frame."""
        self.failed.add(number)
        return self.slots.pop(number).frame

    def end(self, number: int, end: End, attempts: int) -> Ended:
        """Ends a transmission of a number; it fails with this many attempts in vain."""
        if end is End.ACKNOWLEDGED:
            del self.slots[number]
            self.acked = max(self.acked, number + 1)
            return Ended.ACKED
        slot = self.slots[number]
        slot.attempts += end is End.MISSED
        if end is not End.UNSENT and (end is End.GIVEN_UP or slot.attempts >= attempts):
            self.fail(number)
            return Ended.FAILED
        slot.state = State.WAITING
        return Ended.WAITING

    def hear_request(self, start: int) -> None:
        """Ends a request with this start as heard."""
        self.asked = max(self.asked, start)
        self.failed = {number for number in self.failed if number >= self.asked}
