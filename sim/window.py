"""How the congestion window of TCP grows and shrinks. Another algorithm is another subclass of `Window`.

Windows are in frames, times in seconds.
"""
from __future__ import annotations

from abc import ABC, abstractmethod

FIRST_WINDOW = 10.0  # RFC 6928
LEAST_WINDOW = 2.0
LEAST_RISE, MOST_RISE = 0.004, 0.016  # RFC 9406: the rise of the round trip that ends slow start
SAMPLES = 8  # round trips that a round has before it is judged


class Window(ABC):
    """A congestion window: slow start below the threshold, and the algorithm's growth above it.

    Slow start ends at a loss, or when the round trip rises from one round to the next (RFC 9406, without its conservative phase).
    """

    def __init__(self) -> None:
        self.frames = FIRST_WINDOW
        self.threshold = float("inf")
        self.last_round = float("inf")  # the least round trip of the last round, and of this one
        self.this_round = float("inf")
        self.samples = 0

    def begin_round(self) -> None:
        """Notes that the first frame of a new round was acknowledged."""
        self.last_round, self.this_round, self.samples = self.this_round, float("inf"), 0

    def sample(self, round_trip: float) -> None:
        """Takes a round trip, and ends slow start if it has risen."""
        self.this_round = min(self.this_round, round_trip)
        self.samples += 1
        rise = min(max(self.last_round / 8, LEAST_RISE), MOST_RISE)
        if self.frames < self.threshold and self.samples >= SAMPLES and self.this_round >= self.last_round + rise:
            self.threshold = self.frames

    def acknowledged(self, now: float, round_trip: float) -> None:
        """Grows for one acknowledged frame."""
        if self.frames < self.threshold:
            self.frames += 1
        else:
            self.grow(now, round_trip)

    def lost(self) -> None:
        """Shrinks for the losses of one round trip."""
        self.threshold = self.frames = max(self.shrunk(), LEAST_WINDOW)

    def timed_out(self) -> None:
        """Starts again, since nothing was acknowledged for too long."""
        self.lost()
        self.frames = 1.0

    @abstractmethod
    def grow(self, now: float, round_trip: float) -> None:
        """Grows for one acknowledged frame above the threshold."""

    @abstractmethod
    def shrunk(self) -> float:
        """The window after a loss."""


class Reno(Window):
    """RFC 5681: one frame more for each round trip, and half after a loss."""

    def grow(self, now: float, round_trip: float) -> None:
        self.frames += 1 / self.frames

    def shrunk(self) -> float:
        return self.frames / 2


class Cubic(Window):
    """RFC 9438: growth is a cubic function of the time since the last loss, around the window at which that happened."""

    C = 0.4
    BETA = 0.7
    ALPHA = 3 * (1 - BETA) / (1 + BETA)

    def __init__(self) -> None:
        super().__init__()
        self.most = 0.0  # the window at the last loss
        self.since: float | None = None  # when the growth began
        self.plateau = 0.0  # seconds of growth until the window is `most`
        self.estimate = 0.0  # the window that Reno would have

    def begin(self, now: float) -> None:
        """Begins a period of growth (section 4.2)."""
        self.since = now
        self.most = max(self.most, self.frames)
        self.plateau = ((self.most - self.frames) / self.C) ** (1 / 3)
        self.estimate = self.frames

    def grow(self, now: float, round_trip: float) -> None:
        if self.since is None:
            self.begin(now)
        elapsed = now - (self.since or 0.0) - self.plateau
        self.estimate += (self.ALPHA if self.estimate < self.most else 1.0) / self.frames  # section 4.3
        if self.C * elapsed**3 + self.most < self.estimate:
            self.frames = max(self.frames, self.estimate)
            return
        target = self.C * (elapsed + round_trip) ** 3 + self.most
        target = min(max(target, self.frames), 1.5 * self.frames)
        self.frames += (target - self.frames) / self.frames  # sections 4.4 and 4.5

    def shrunk(self) -> float:
        self.since = None
        fast = self.frames < self.most  # fast convergence, section 4.7
        self.most = self.frames * (1 + self.BETA) / 2 if fast else self.frames
        return self.frames * self.BETA


WINDOWS: dict[str, type[Window]] = {"cubic": Cubic, "reno": Reno}
