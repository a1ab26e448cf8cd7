"""CoDel over one queue, by RFC 8289, section 5: MACHINE.md, CoDel."""
import math
from collections import deque
from dataclasses import dataclass, field

from wfdev.model.frames import Frame

MAX_PACKET = 2304
MOST_COUNT = 2**32 - 1


@dataclass(frozen=True)
class Parameters:
    """How long a frame may wait, and how long frames wait longer before a drop, in microseconds."""

    target: int
    interval: int


USUAL, SLOW = Parameters(20_000, 100_000), Parameters(50_000, 300_000)


@dataclass
class State:
    """CoDel's state of a queue, by the names of the RFC, and the number of frames that it dropped."""

    first_above: int = 0
    drop_next: int = 0
    count: int = 0
    last_count: int = 0
    dropping: bool = False
    dropped: int = 0

    def calm(self) -> None:
        """Ends the dropping, and forgets that frames waited too long. The other numbers stay."""
        self.first_above, self.dropping = 0, False

    def renewed(self) -> "State":
        """Returns the state after the station left: a new one with the same number of drops."""
        return State(dropped=self.dropped)


@dataclass
class Queue:
    """A queue of frames, the octets of their bodies, and CoDel's state."""

    frames: deque[Frame] = field(default_factory=deque)
    octets: int = 0
    codel: State = field(default_factory=State)

    def put(self, frame: Frame) -> None:
        """Puts a frame last."""
        self.frames.append(frame)
        self.octets += frame.length

    def pop(self) -> Frame:
        """Takes the head."""
        frame = self.frames.popleft()
        self.octets -= frame.length
        return frame


@dataclass
class Take:
    """A take from a queue at a time."""

    queue: Queue
    now: int
    parameters: Parameters
    dropped: list[Frame] = field(default_factory=list)
    ok: bool = False

    def look(self) -> Frame:
        """Pops the next frame of a queue that has one, and sets whether it may be dropped (`dodequeue`)."""
        state, frame = self.queue.codel, self.queue.pop()
        self.ok = False
        if self.now - frame.stamp < self.parameters.target or self.queue.octets <= MAX_PACKET:
            state.first_above = 0
        elif state.first_above == 0:
            state.first_above = self.now + self.parameters.interval
        else:
            self.ok = self.now >= state.first_above
        return frame

    def control_law(self, time: int) -> int:
        """Returns when the next drop after this time is due."""
        return time + math.isqrt(self.parameters.interval**2 // self.queue.codel.count)

    def frame(self) -> Frame:
        """Returns the frame that the take brings (`dequeue`); `dropped` has those that it dropped."""
        state, frame = self.queue.codel, self.look()
        if state.dropping:
            state.dropping = self.ok
            while state.dropping and self.now >= state.drop_next:
                self.drop(frame)
                state.count = min(state.count + 1, MOST_COUNT)
                frame = self.look()
                state.dropping = self.ok
                if self.ok:
                    state.drop_next = self.control_law(state.drop_next)
        elif self.ok:
            self.drop(frame)
            frame = self.look()
            self.begin_dropping()
        return frame

    def drop(self, frame: Frame) -> None:
        """Drops a frame."""
        self.dropped.append(frame)
        self.queue.codel.dropped = min(self.queue.codel.dropped + 1, MOST_COUNT)

    def begin_dropping(self) -> None:
        """Begins to drop, as fast as before if it dropped a short time ago."""
        state = self.queue.codel
        delta = state.count - state.last_count
        is_recent = self.now - state.drop_next < 16 * self.parameters.interval
        state.dropping = True
        state.count = delta if delta > 1 and is_recent else 1
        state.last_count = state.count
        state.drop_next = self.control_law(self.now)
