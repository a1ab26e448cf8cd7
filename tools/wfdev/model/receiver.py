"""A station's side of one TID's block acknowledgement: MACHINE.md, Exchanges."""
from collections.abc import Iterator
from dataclasses import dataclass, field


@dataclass(frozen=True)
class BlockAck:
    """A BlockAck: its start, and the numbers that it shows."""

    start: int
    shown: frozenset[int]

    @property
    def bits(self) -> int:
        """The bitmap; offset i has the bit 2^i."""
        return sum(1 << number - self.start for number in self.shown)


@dataclass
class Receiver:
    """The numbers that arrived, and the frames to pass up. MACHINE.md calls `start` S and `next` B."""

    window: int
    first: int
    arrived: set[int] = field(default_factory=set)
    stored: dict[int, int] = field(default_factory=dict)
    start: int = field(init=False)
    next: int = field(init=False)

    def __post_init__(self) -> None:
        self.start = self.next = self.first

    def data(self, number: int, frame: int) -> list[int]:
        """Takes a number with its frame, and returns the frames that are passed up."""
        if number not in self.arrived:
            self.arrived.add(number)
            self.stored[number] = frame
        self.start = max(self.start, number - self.window + 1)
        return list(self.pass_up())

    def request(self, start: int) -> list[int]:
        """Takes a BlockAckReq, and returns the frames that are passed up."""
        self.start = max(self.start, start)
        self.next = max(self.next, start)
        return list(self.pass_up())

    def pass_up(self) -> Iterator[int]:
        """Yields the frames of all numbers below B that were not passed up before."""
        while self.next in self.arrived:
            self.next += 1
        for number in sorted(self.stored):
            if number < self.next:
                yield self.stored.pop(number)

    def answer(self) -> BlockAck:
        """Returns the BlockAck."""
        numbers = range(self.start, self.start + self.window)
        return BlockAck(self.start, frozenset(self.arrived.intersection(numbers)))
