"""The flow queues and the overflow queues: MACHINE.md, The parts, Enqueueing a frame, and Leave."""
from collections import defaultdict
from dataclasses import dataclass, field

from wfdev.model.codel import Parameters, Queue, Take
from wfdev.model.frames import TIDS, Frame
from wfdev.model.rotation import Rotation
from wfdev.model.settings import Settings

Owner = tuple[int, int]  # a station and one of its TIDs


@dataclass
class Queues:
    """All queues by their number, and for each TID the rotation of the queues that it lists."""

    settings: Settings
    queues: defaultdict[int, Queue] = field(default_factory=lambda: defaultdict(Queue))
    rotations: defaultdict[Owner, Rotation] = field(default_factory=lambda: defaultdict(Rotation))
    owners: dict[int, Owner] = field(default_factory=dict)
    held: int = 0

    def frames(self, owner: Owner) -> int:
        """Returns how many frames are queued for a TID."""
        return sum(len(self.queues[number].frames) for number in self.rotations[owner].keys())

    def number_for(self, owner: Owner, flow: int) -> int:
        """Returns the number of the queue that takes a frame of a flow."""
        number = flow % self.settings.flows
        overflow = self.settings.flows + TIDS * owner[0] + owner[1]
        if self.owners.get(number, owner) != owner or self.stays_over(overflow, number):
            return overflow
        return number

    def stays_over(self, overflow: int, number: int) -> bool:
        """Returns whether `keep_order` is 1 and an overflow queue holds a frame of a flow queue."""
        frames = self.queues[overflow].frames if self.settings.keep_order else ()
        return any(frame.flow % self.settings.flows == number for frame in frames)

    def put(self, owner: Owner, frame: Frame) -> Frame | None:
        """Puts a frame into its queue, and returns the frame that is dropped for the limit, if any."""
        dropped = self.drop_longest() if self.held >= self.settings.limit else None
        number, rotation = self.number_for(owner, frame.flow), self.rotations[owner]
        self.queues[number].put(frame)
        self.held += 1
        if not rotation.lists(number):
            rotation.add(number)
            rotation.deficits[number] = self.settings.flow_quantum
            if self.settings.codel_reset:
                self.queues[number].codel.calm()
            self.owners[number] = owner
        return dropped

    def drop_longest(self) -> Frame:
        """Takes the head of the longest queue."""
        number = max(self.queues, key=lambda number: (self.queues[number].octets, -number))
        self.held -= 1
        return self.queues[number].pop()

    def take(self, owner: Owner, now: int, parameters: Parameters) -> tuple[Frame, list[Frame]]:
        """Takes a frame of a TID that has one queued. Returns it, and what CoDel dropped before it."""
        rotation = self.rotations[owner]
        number = self.pick(owner)
        take = Take(self.queues[number], now, parameters)
        frame = take.frame()
        rotation.deficits[number] -= frame.length
        self.held -= 1 + len(take.dropped)
        return frame, take.dropped

    def pick(self, owner: Owner) -> int:
        """Picks a queue of a TID that has a frame queued. A queue that leaves the lists loses its owner."""
        rotation = self.rotations[owner]
        before = set(rotation.keys())
        quantum = self.settings.flow_quantum
        number = rotation.pick(lambda _: quantum, lambda key: bool(self.queues[key].frames))
        assert number is not None, "a take of a TID without queued frames"
        for gone in before - set(rotation.keys()):
            del self.owners[gone]
        return number

    def purge(self, owner: Owner) -> list[Frame]:
        """Empties, resets and delists the queues that a TID lists. Returns their frames in order."""
        frames = self.flush(owner)
        for number in self.rotations[owner].keys():
            self.queues[number].codel = self.queues[number].codel.renewed()
            del self.owners[number]
        del self.rotations[owner]
        return frames

    def flush(self, owner: Owner) -> list[Frame]:
        """Empties the queues that a TID lists. Returns their frames in order."""
        frames: list[Frame] = []
        for number in sorted(self.rotations[owner].keys()):
            queue = self.queues[number]
            while queue.frames:
                frames.append(queue.pop())
        self.held -= len(frames)
        return frames
