"""The answers to calls and their lines: TRACE.md, Answers."""
from collections.abc import Iterable
from dataclasses import dataclass

from wfdev.model.frames import NUMBERS, Class, Fate
from wfdev.model.receiver import BlockAck


def spaced(words: Iterable[object]) -> str:
    """Returns words, each after a space."""
    return "".join(f" {word}" for word in words)


class Refused(Exception):
    """A call is refused for this reason, with its number if it has one."""

    def __init__(self, name: str, number: int | None = None) -> None:
        super().__init__(name)
        self.name = name
        self.number = number

    def __str__(self) -> str:
        return "refused " + self.name + ("" if self.number is None else f" {self.number}")


def refuse(name: str, is_so: bool, number: int | None = None) -> None:
    """Refuses the call if it is so."""
    if is_so:
        raise Refused(name, number)


@dataclass(frozen=True)
class Word:
    """An answer of one word: joined, set, slept, woken, stopped, started, marked, ack, begun, freed, ended."""

    word: str

    def __str__(self) -> str:
        return self.word


@dataclass(frozen=True)
class Number:
    """An answer of a word and a number: left, now, charged, flushed, held, queued, gdone."""

    word: str
    number: int

    def __str__(self) -> str:
        return f"{self.word} {self.number}"


@dataclass(frozen=True)
class Accepted:
    """The answer to an enqueue."""

    frame: int
    dropped: int | None

    def __str__(self) -> str:
        return f"accepted {self.frame}" + ("" if self.dropped is None else f" dropped {self.dropped}")


@dataclass(frozen=True)
class Send:
    """The answer to a pull: an aggregate or a plain frame as (frame, number), a batch without numbers, or a request
    with its start.
    """

    exchange: int
    station: int
    tid: int
    air: int
    data: tuple[tuple[int, int], ...]
    request: int | None
    batch: bool
    plain: bool
    more: bool
    eosp: bool

    def __str__(self) -> str:
        head = f"send {self.exchange} sta {self.station} tid {self.tid} air {self.air}"
        if self.request is not None:
            return f"{head} bar {self.request % NUMBERS}"
        bits = (" more" if self.more else "") + (" eosp" if self.eosp else "")
        if self.batch:
            return f"{head} batch{spaced(frame for frame, _ in self.data)}{bits}"
        pairs = spaced(f"{frame}:{number % NUMBERS}" for frame, number in self.data)
        return f"{head} {'plain' if self.plain else 'data'}{pairs}{bits}"


@dataclass(frozen=True)
class Released:
    """The answer to an arrival: the frames that are passed up."""

    frames: tuple[int, ...]

    def __str__(self) -> str:
        return "released" + spaced(self.frames)


@dataclass(frozen=True)
class Ceased:
    """The answer to a cease: how many frames are dropped, and those that are passed up."""

    dropped: int
    frames: tuple[int, ...]

    def __str__(self) -> str:
        return f"ceased {self.dropped}{spaced(self.frames)}"


@dataclass(frozen=True)
class Ba:
    """The answer to an answer."""

    block: BlockAck
    is_wide: bool

    def __str__(self) -> str:
        return f"ba {self.block.start % NUMBERS} {self.block.bits:0{64 if self.is_wide else 16}x}"


@dataclass(frozen=True)
class Done:
    """The answer to the end of an exchange."""

    acked: int
    waiting: int
    failed: int

    def __str__(self) -> str:
        return f"done acked {self.acked} waiting {self.waiting} failed {self.failed}"


@dataclass(frozen=True)
class Polled:
    """The answer to a poll."""

    access: Class

    def __str__(self) -> str:
        return f"polled {self.access}"


@dataclass(frozen=True)
class Triggered:
    """The answer to a trigger."""

    access: Class

    def __str__(self) -> str:
        return f"triggered {self.access}"


@dataclass(frozen=True)
class Reaped:
    """The answer to a reap."""

    frame: int
    fate: Fate

    def __str__(self) -> str:
        return f"reaped {self.frame} {self.fate}"


@dataclass(frozen=True)
class Beacon:
    """The answer to a beacon: its DTIM count, and whether it announces group frames."""

    count: int
    follows: bool

    def __str__(self) -> str:
        return f"beacon {self.count} {int(self.follows)}"


@dataclass(frozen=True)
class GroupSend:
    """The answer to a pull of a group frame: the frame, its number, its airtime, and the More Data bit."""

    frame: int
    number: int
    air: int
    more: bool

    def __str__(self) -> str:
        return f"gsend {self.frame} {self.number % NUMBERS} air {self.air}" + (" more" if self.more else "")


Answer = (
    Word
    | Number
    | Accepted
    | Send
    | Released
    | Ceased
    | Ba
    | Done
    | Polled
    | Triggered
    | Reaped
    | Beacon
    | GroupSend
    | Refused
)
