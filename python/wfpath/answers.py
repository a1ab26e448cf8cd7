"""The answers to calls. `str` of an answer is its line in a trace (docs/TRACE.md), without the line's end."""
from __future__ import annotations

from typing import NamedTuple

from ._base import WfError
from ._tables import AccessClass, Fate, ReplyStruct

CLASSES = tuple(AccessClass)
FATES = tuple(Fate)


class Accepted(NamedTuple):
    """An accepted frame. `dropped` is the id of the frame that was dropped because the flow queues were full,
    if any."""

    id: int
    dropped: int | None = None

    def __str__(self) -> str:
        return f"accepted {self.id}" if self.dropped is None else f"accepted {self.id} dropped {self.dropped}"


class Burst(NamedTuple):
    """The answers to the calls of a burst that were made, as the structs of include/wf.h, and why the next call
    was not made, if there is one."""

    replies: list[ReplyStruct]
    error: WfError | None


class Exchange(NamedTuple):
    """An exchange to send: an aggregate, a batch if `batch` is true, one frame without an agreement if `plain` is
    true, or a BlockAckReq if `request` is true.

    `air` is in microseconds. `ids` and `numbers` are the frames and their sequence numbers; in a batch, whose
    frames the device numbers, the numbers are 0. `start` is the start of the BlockAckReq. `more` says whether the
    station has more to be sent. `eosp` says whether it is the last exchange of a service period: its last frame
    has the EOSP bit.
    """

    number: int
    station: int
    tid: int
    air: int
    request: bool
    start: int
    more: bool
    ids: list[int]
    numbers: list[int]
    batch: bool = False
    plain: bool = False
    eosp: bool = False

    @property
    def transmissions(self) -> int:
        """The number of transmissions: one for each frame, or 1 for a BlockAckReq."""
        return 1 if self.request else len(self.ids)

    def __str__(self) -> str:
        data = "batch" if self.batch else "plain" if self.plain else "data"
        sent = f"bar {self.start}" if self.request else data
        frames = "".join(f" {one}" if self.batch else f" {one}:{at}" for one, at in zip(self.ids, self.numbers))
        bits = (" more" if self.more else "") + (" eosp" if self.eosp else "")
        return f"send {self.number} sta {self.station} tid {self.tid} air {self.air} {sent}{frames}{bits}"


class Done(NamedTuple):
    """The end of an exchange: how many of its frames are acknowledged, wait to be sent again, and are
    dropped."""

    acked: int
    waiting: int
    failed: int

    def __str__(self) -> str:
        return f"done acked {self.acked} waiting {self.waiting} failed {self.failed}"


class Reaped(NamedTuple):
    """A finished frame. `stamp` is the clock when it was accepted, `attempts` how often it was sent.

    `body` has its octets if they were asked for, and if the path has them.
    """

    id: int
    stamp: int
    tag: int
    flow: int
    station: int
    length: int
    source: bytes
    tid: int
    fate: Fate
    attempts: int
    body: bytes | None = None

    def __str__(self) -> str:
        return f"reaped {self.id} {self.fate.word}"


class Block(NamedTuple):
    """A station's BlockAck: bit n of `bits` is for the sequence number start + n, modulo 4096. `wide` says
    256 bits, not 64. If `ack` is true, it is an Ack, the answer to a plain exchange, and has no start and no
    bits."""

    start: int
    bits: int
    wide: bool
    ack: bool = False

    def __str__(self) -> str:
        if self.ack:
            return "ack"
        return f"ba {self.start} {self.bits:0{64 if self.wide else 16}x}"


class Ceased(NamedTuple):
    """The end of an agreement: how many frames were dropped, and the ids of those that the station passed up."""

    dropped: int
    ids: list[int]

    def __str__(self) -> str:
        return " ".join(["ceased", str(self.dropped), *map(str, self.ids)])


class Beacon(NamedTuple):
    """A beacon: its DTIM count, which is 0 for a DTIM beacon, and whether it announces group frames."""

    dtim_count: int
    follows: bool

    def __str__(self) -> str:
        return f"beacon {self.dtim_count} {int(self.follows)}"


class Group(NamedTuple):
    """A group frame: the number of its octets, its owner's tag, and its group address."""

    id: int
    length: int
    tag: int
    to: bytes

    def __str__(self) -> str:
        return f"gdone {self.id}"


class GroupSend(NamedTuple):
    """A group frame to send: its sequence number and its airtime in microseconds. `more` says whether a station
    sleeps and another group frame may go next. A path also gives the frame."""

    id: int
    number: int
    air: int
    more: bool
    frame: Group | None = None

    def __str__(self) -> str:
        return f"gsend {self.id} {self.number} air {self.air}" + (" more" if self.more else "")


class GroupCounts(NamedTuple):
    """How many group frames were accepted and sent, how many are queued or on the air (`flying`), and the airtime
    of those that were sent, in microseconds."""

    accepted: int
    sent: int
    queued: int
    flying: int
    air: int

    @property
    def held(self) -> int:
        """How many group frames are not sent yet."""
        return self.queued + self.flying


class Sent(NamedTuple):
    """The content of an open exchange, and its station."""

    station: int
    transmissions: int
    tid: int
    request: bool


class Tally(NamedTuple):
    """How many frames were accepted, and how many of them have each fate."""

    accepted: int
    acked: int
    overlimit: int
    codel: int
    retries: int
    left: int
    flushed: int
    ended: int

    @property
    def held(self) -> int:
        """How many frames are inside."""
        return self.accepted - sum(self[1:])


class Share(NamedTuple):
    """A station's airtime in a class since its join, in microseconds: its deficit, and its charges for
    exchanges and by `rx`."""

    deficit: int
    charged: int
    rx: int


class Codel(NamedTuple):
    """A queue: the octets of its bodies, and the state of CoDel in it (RFC 8289). If `dropping` is true, pulls
    drop frames: the next one from the time `drop_next` on, which follows from `drop_count`. `dropped` is the
    number of frames that CoDel dropped from the queue since the path was made, at most 4,294,967,295; frames
    that are dropped for another cause, such as the limit, do not count."""

    octets: int
    drop_next: int
    drop_count: int
    dropping: bool
    dropped: int
