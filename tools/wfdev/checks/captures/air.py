"""The packets on the air in the run of a trace, by the trace's calls and the answers that `wf replay` gives."""
import random
from collections import Counter
from collections.abc import Iterator, Sequence
from dataclasses import dataclass, field

from wfdev.checks.captures.model import ACK_KIND, BEACON_KIND, BLOCK_ACK_KIND, DATA_KIND, GROUP_KIND, REQUEST_KIND, Beacon, Packet
from wfdev.model import text
from wfdev.model.tim import tim

BASE, SOURCE, EVERYONE = (bytes.fromhex(one) for one in ("020000000000", "020000020000", "ffffffffffff"))
# The fields of a beacon between its Timestamp and its TIM: the interval, ESS, no SSID, and the rates of 6 to 54 Mbit/s.
BEACON_FIELDS = bytes.fromhex("6400" "0100" "0000" "01088c129824b048606c")
MICROSECONDS = 10**6
DURATION, PLAIN_DURATION = 48, 44  # of the SIFS, and a BlockAck or an Ack
BITS = ("more", "eosp")  # the last words of an answer `send`


def station(number: int) -> bytes:
    """Returns the address of a station."""
    return bytes.fromhex("02000001") + number.to_bytes(2, "big")


@dataclass(frozen=True)
class Frame:
    """A frame that was accepted: its flow and its length."""

    flow: int
    length: int


@dataclass(frozen=True)
class Sent:
    """How a frame is sent: its TID and number, the Retry, More Data and EOSP bits, and the Duration."""

    tid: int
    seq: int
    is_retry: bool
    has_more: bool
    ends_service: bool
    duration: int


def data(number: int, sent: Sent, frame: Frame) -> bytes:
    """Returns the octets of a data frame to a station."""
    head = bytes([DATA_KIND, 2 | 8 * sent.is_retry | 32 * sent.has_more, sent.duration, 0]) + station(number) + BASE + SOURCE
    head += (16 * sent.seq).to_bytes(2, "little") + bytes([sent.tid | 16 * sent.ends_service, 0])
    return head + bytes((frame.flow + at) % 256 for at in range(frame.length))


def request(number: int, tid: int, start: int) -> bytes:
    """Returns the octets of a BlockAckReq to a station."""
    return bytes([REQUEST_KIND, 0, DURATION, 0]) + station(number) + BASE + bytes([4, 16 * tid]) + (16 * start).to_bytes(2, "little")


def block_ack(number: int, tid: int, start: int, digits: str) -> bytes:
    """Returns the octets of a BlockAck of a station."""
    bits = int(digits, 16).to_bytes(len(digits) // 2, "little")
    head = bytes([BLOCK_ACK_KIND, 0, 0, 0]) + BASE + station(number) + bytes([4, 16 * tid])
    fragment = 4 if len(bits) > 8 else 0
    return head + (16 * start + fragment).to_bytes(2, "little") + bits


def ack() -> bytes:
    """Returns the octets of an Ack of a station."""
    return bytes([ACK_KIND, 0, 0, 0]) + BASE


def beacon(number: int, clock: int, said: Beacon) -> bytes:
    """Returns the octets of a beacon."""
    head = bytes([BEACON_KIND, 0, 0, 0]) + EVERYONE + BASE + BASE + (16 * (number % 4096)).to_bytes(2, "little")
    return head + clock.to_bytes(8, "little") + BEACON_FIELDS + tim(said.aids, said.count, said.period, said.group == 1)


def group(seq: int, has_more: bool, length: int) -> bytes:
    """Returns the octets of a group frame."""
    head = bytes([GROUP_KIND, 2 | 32 * has_more, 0, 0]) + EVERYONE + BASE + SOURCE + (16 * seq).to_bytes(2, "little")
    return head + bytes(at % 256 for at in range(length))


def period_of(trace: str) -> int:
    """Returns the DTIM period of a trace."""
    words = [word for line in trace.splitlines() if line.split()[:1] == ["cell"] for word in line.split()]
    return next((max(1, int(word.removeprefix("period="))) for word in words if word.startswith("period=")), 1)


def bss_of(call: Sequence[str]) -> str:
    """Returns the BSS of a call about group frames."""
    words = call[2:] if call[0] == "group" else call[1:]
    return words[0] if words else "0"


def calls_of(trace: str) -> list[list[str]]:
    """Returns the words of each call, without its caller."""
    lines = [line.split() for line in trace.splitlines() if line.strip() and not line.lstrip().startswith("#")]
    return [words[1:] if words[0].startswith("@") else words for words in lines if words[0] not in ("cell", "end")]


@dataclass
class Exchange:
    """An open exchange: its station and TID, its frames, and the indices of those that never went on the air."""

    station: int
    tid: int
    frames: list[str] = field(default_factory=list)
    unsent: set[int] = field(default_factory=set)


@dataclass
class Air:
    """The run of a trace: the clock, the accepted frames, the open exchanges, those frames that were sent in an exchange
    that ended, by BSS the lengths of group frames and how many sequence numbers these and beacons took, and the packets
    so far.
    `batches` has the numbers of each batch, `aids` the AIDs of each beacon, and `period` the DTIM period.
    """

    batches: dict[int, list[int]] = field(default_factory=dict)
    aids: list[list[int]] = field(default_factory=list)
    period: int = 1

    clock: int = 0
    frames: dict[str, Frame] = field(default_factory=dict)
    opened: dict[str, Exchange] = field(default_factory=dict)
    tried: set[str] = field(default_factory=set)
    groups: dict[tuple[str, str], int] = field(default_factory=dict)
    numbers: Counter[str] = field(default_factory=Counter)
    packets: list[Packet] = field(default_factory=list)

    def put(self, octets: bytes, said: Beacon | None = None) -> None:
        """Adds a packet at the time of the clock."""
        self.packets.append(Packet(self.clock // MICROSECONDS, self.clock % MICROSECONDS, octets, missing=0, beacon=said))

    def take_group(self, call: Sequence[str], answer: Sequence[str]) -> None:
        """Takes a call about group frames and its answer."""
        bss = bss_of(call)
        if answer[0] == "queued":
            self.groups[bss, answer[1]] = int(call[1])
        elif answer[0] == "beacon":
            said = Beacon(int(answer[1]), self.period, int(answer[2]), self.aids.pop(0))
            self.put(beacon(self.numbers[bss], self.clock, said), said)
            self.numbers[bss] += 1
        elif answer[0] == "gsend":
            self.put(group(self.numbers[bss] % 4096, answer[-1] == "more", self.groups[bss, answer[1]]))
            self.numbers[bss] += 1

    def send(self, answer: Sequence[str]) -> None:
        """Adds the packets of an answer `send`."""
        number, tid, bits = int(answer[3]), int(answer[5]), [word for word in answer[9:] if word in BITS]
        opened = self.opened[answer[1]] = Exchange(number, tid)
        if answer[8] == "bar":
            self.put(request(number, tid, int(answer[9])))
        sent = answer[9 : len(answer) - len(bits)] if answer[8] != "bar" else []
        numbers = self.batches[int(answer[1])] if answer[8] == "batch" else [int(one.split(":")[1]) for one in sent]
        for left, word, seq in zip(reversed(range(len(sent))), sent, numbers, strict=True):
            frame = word.split(":")[0]
            duration = PLAIN_DURATION if answer[8] == "plain" else DURATION
            ends = "eosp" in bits and left == 0
            has_more = "more" in bits or ("eosp" in bits and not ends)
            how = Sent(tid, seq % 4096, frame in self.tried, has_more, ends, duration)
            self.put(data(number, how, self.frames[frame]))
            opened.frames.append(frame)

    def take(self, call: Sequence[str], answer: Sequence[str]) -> None:
        """Takes a call and its answer."""
        if answer[0] == "now" and call[0] == "tick":
            self.clock = int(answer[1])
        elif answer[0] == "accepted":
            self.frames[answer[1]] = Frame(int(call[3]), int(call[4]))
        elif answer[0] == "send":
            self.send(answer)
        elif call[0] in ("group", "beacon", "gpull"):
            self.take_group(call, answer)
        elif answer[0] == "ba":
            opened = self.opened[call[1]]
            self.put(block_ack(opened.station, opened.tid, int(answer[1]), answer[2]))
        elif answer[0] == "ack":
            self.put(ack())
        elif answer[0] == "marked" and call[0] == "unsent":
            self.opened[call[1]].unsent.add(int(call[2]))
        elif answer[0] == "done":
            opened = self.opened.pop(call[1])
            self.tried.update(frame for at, frame in enumerate(opened.frames) if at not in opened.unsent)


def on_air(trace: str, answers: str) -> list[Packet]:
    """Returns the packets that go on the air."""
    octets = trace.encode("latin-1")
    air = Air(
        batches=text.batches(octets) if " batch " in answers else {},
        aids=text.beacons(octets) if "beacon " in answers else [],
        period=period_of(trace),
    )
    # (the answers end before the calls do after a fault, and go on with the summary)
    for call, answer in zip(calls_of(trace), map(str.split, answers.splitlines()), strict=False):
        air.take(call, answer)
    return air.packets


def agreement(draw: random.Random) -> str:
    """Returns a call by which an agreement of TID 0 begins or ends."""
    station = draw.randint(0, 2)
    window = draw.choice((1, 2, 64, 65, 256))
    return draw.choice((f"hold {station} 0", f"begin {station} 0 {window}", f"free {station} 0", f"cease {station} 0"))


def group_call(draw: random.Random) -> str:
    """Returns a call about group frames."""
    call = draw.choice((f"group {draw.randint(1, 300)}", f"group {draw.randint(1, 300)}", "beacon", "gpull", "gpull", "gdone"))
    return f"{call}{draw.choice(('', '', ' 0', ' 1'))}"


def service(draw: random.Random) -> Iterator[str]:
    """Yields calls about the service periods of a station."""
    station = draw.randint(0, 2)
    if draw.random() < 0.5:
        yield from (f"wake {station}", f"apsd {station} {draw.choice((2, 6, 15))} {draw.randint(0, 4)}", f"sleep {station}")
    yield f"trigger {station}"
    if draw.random() < 0.1:
        yield f"eosp {station}"


def exchanges(draw: random.Random, count: int) -> Iterator[str]:
    """Yields the calls of this many exchanges, which go out, arrive in part, are answered and end."""
    for exchange in range(count):
        for _ in range(draw.randint(exchange < 2, 4)):
            yield f"enq {draw.randint(0, 2)} {draw.choice((0, 0, 3, 5))} {draw.randint(0, 999)} {draw.randint(1, 90)}"
        yield draw.choice(("tick 7", "tick 999999", f"sleep {draw.randint(0, 2)}", f"wake {draw.randint(0, 2)}", "reap"))
        if draw.random() < 0.3:
            yield agreement(draw)
        yield from [group_call(draw) for _ in range(draw.choice((0, 0, 6)))]
        if draw.random() < 0.4:
            yield from service(draw)
        yield draw.choice(("pull be", "pull be", "pull vi"))
        for number in range(max(0, exchange - 1), exchange + 1):
            yield from [f"arrive {number} {index}" for index in range(4) if draw.random() < 0.6]
            yield f"answer {number}"
            yield f"done {number} {draw.choice(('heard', 'lost'))}"


def made_trace(seed: int) -> str:
    """Returns a generated trace of a few calls: stations join, frames come, and exchanges take place."""
    draw = random.Random(seed)
    groups = f" period={draw.choice((0, 1, 2, 5))} buffered={draw.choice((1, 9))}" if draw.random() < 0.5 else ""
    groups += draw.choice(("", "", " bsses=2"))
    lines = [f"cell attempts={draw.randint(1, 3)} agg={draw.choice((1, 4, 64))}{groups}"]
    for number in range(draw.randint(1, 3)):
        start, window = draw.randint(0, 4095), draw.choice((1, 2, 8, 64, 65, 256))
        is_plain = draw.random() < 0.3
        lines.append(f"plain {number} {start} 3" if is_plain else f"join {number} {window} {start} 3")
        lines += [f"bss {number} 1"] * draw.choice((0, 0, 1))
    lines += exchanges(draw, draw.randint(1, 5))
    return "\n".join([*lines, draw.choice(("end", "end", "stop"))]) + "\n"
