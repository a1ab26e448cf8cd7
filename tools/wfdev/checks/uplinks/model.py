"""A model of the uplink, written independently of the program: TIDs with and without agreements, airtime, the answer lines."""
from collections.abc import Iterable
from dataclasses import dataclass, field

LIMIT = 100_000  # microseconds that a hole is waited for
NUMBERS = 4096
HALF = 2048
TIDS = 8
MOST_BODY = 2304
BITS = {20: [26, 52, 78, 104, 156, 208, 234, 260], 40: [54, 108, 162, 216, 324, 432, 486, 540]}
QOS_DATA, QOS_NULL, BLOCK_ACK_REQ = 0x88, 0xC8, 0x84
REQUEST_OCTETS = 20
NARROW = 64  # the widest window whose BlockAck has 64 bits
SIFS = 16
CHECK = 4  # octets of the check sequence
KINDS = (QOS_DATA, QOS_NULL, 0xA4, 0xD4, BLOCK_ACK_REQ, 0x94)
LEAST_OCTETS = {QOS_DATA: 26, QOS_NULL: 26, 0xD4: 10}
BASE = bytes.fromhex("020000000000")
STATION = bytes.fromhex("02000001")


@dataclass(frozen=True)
class Rate:
    """A rate of HT: MCS, width in MHz, and whether the guard interval is short."""

    mcs: int
    mhz: int
    is_short: bool

    def __str__(self) -> str:
        return f"{self.mcs} {self.mhz} {'short' if self.is_short else 'long'}"


def control_time(octets: int) -> int:
    """Returns the microseconds of a control frame of these octets and a check sequence, at 24 Mbit/s."""
    return 20 + 4 * -(-(8 * (octets + CHECK) + 22) // 96)


ACK_TIME, REQUEST_TIME = control_time(10), control_time(REQUEST_OCTETS)
BLOCK_ACK_TIME = {False: control_time(28), True: control_time(52)}  # by whether it has 256 bits


def data_time(rate: Rate, octets: int) -> int:
    """Returns the microseconds of preamble and symbols of the data."""
    streams = 1 + rate.mcs // 8
    symbols = -(-(8 * octets + 22) // (streams * BITS[rate.mhz][rate.mcs % 8]))
    return 32 + 4 * streams + 4 * (-(-9 * symbols // 10) if rate.is_short else symbols)


@dataclass
class Board:
    """The scoreboard of one TID (IEEE 802.11-2012, 9.21.7.3 to 9.21.7.5): WinStartR, WinSizeR, and a bit for each number."""

    start: int
    size: int
    bits: int = 0

    def move(self, numbers: int) -> None:
        """Moves the window on."""
        self.start = (self.start + numbers) % NUMBERS
        self.bits >>= numbers

    def arrive(self, number: int) -> None:
        """Records a number that arrived."""
        ahead = (number - self.start) % NUMBERS
        if ahead >= HALF:
            return
        if ahead >= self.size:
            self.move(ahead + 1 - self.size)
        self.bits |= 1 << (number - self.start) % NUMBERS

    def ask(self, start: int) -> str:
        """Moves the window to the start of a request, unless it is before the window; returns the words of the BlockAck."""
        ahead = (start - self.start) % NUMBERS
        if ahead < HALF:
            self.move(ahead)
        return f"ba {self.start} {self.bits:0{64 if self.is_wide else 16}x}"

    @property
    def is_wide(self) -> bool:
        """Returns whether the BlockAck has 256 bits."""
        return self.size > NARROW


@dataclass
class Single:
    """A TID without an agreement: the number of the frame that was passed up last."""

    last: int | None = None

    def is_repeat(self, number: int, retry: bool) -> bool:
        """Returns whether a frame repeats the one before, whose number it then has; its number is now the last."""
        before, self.last = self.last, number
        return retry and before == number


@dataclass
class Tid:
    """The reordering of one TID of a station. Numbers grow without bound."""

    window: int
    next: int
    stored: dict[int, int] = field(default_factory=dict)
    since: int = 0

    def move(self, target: int, items: list[str]) -> None:
        """Passes up everything below the target, and all that follows without a hole."""
        gap = 0
        while self.next < target or self.next in self.stored:
            if self.next in self.stored:
                if gap:
                    items.append(self.gap_item(gap))
                items.append(f"{self.stored.pop(self.next)}:{self.next % NUMBERS}")
                gap = 0
            else:
                gap += 1
            self.next += 1
        if gap:
            items.append(self.gap_item(gap))

    def gap_item(self, gap: int) -> str:
        """Returns the item for this many missing numbers before the next."""
        return f"gap {(self.next - gap) % NUMBERS}+{gap}"

    def arrive(self, bits: int, name: int, now: int) -> list[str] | None:
        """Returns the items that an arrival passes up, or None if the frame is old."""
        number = self.next + (bits - self.next) % NUMBERS
        if number > self.next + HALF - 1 or number in self.stored:
            return None
        before, is_empty = self.next, not self.stored
        items: list[str] = []
        if number >= self.next + self.window:
            self.move(number + 1 - self.window, items)
        self.stored[number] = name
        self.move(self.next, items)
        if self.next != before or is_empty:
            self.since = now
        return items

    def ask(self, bits: int, now: int) -> list[str]:
        """Returns the items that the start of a request passes up."""
        items: list[str] = []
        ahead = (bits - self.next) % NUMBERS
        if 1 <= ahead < HALF:
            self.move(self.next + ahead, items)
            self.since = now
        return items

    def is_due(self, now: int) -> bool:
        """Returns whether a hole has been waited for long enough."""
        return bool(self.stored) and self.since + LIMIT <= now

    def give_up(self, now: int) -> list[str]:
        """Returns the items that are passed up when the first hole is given up."""
        items: list[str] = []
        self.move(min(self.stored), items)
        self.since = now
        return items


def refused_header(octets: bytes, kind: int) -> str | None:
    """Returns the refusal of the header of a frame that should be of this kind, if any."""
    if len(octets) < 2 or octets[0] % 4 or octets[0] not in KINDS:
        return "refused header"
    if len(octets) < LEAST_OCTETS.get(octets[0], 16):
        return "refused header"
    if octets[0] in (QOS_DATA, QOS_NULL):
        has_four_addresses = octets[1] & 3 == 3
        if has_four_addresses or octets[1] & 0xC4 or octets[22] & 15 or octets[24] & 0x80:
            return "refused header"
    return None if octets[0] == kind else "refused kind"


def refused_form(octets: bytes) -> str | None:
    """Returns the refusal of the form of a request, if any: 20 octets, Compressed Bitmap, not Multi-TID, fragment number 0."""
    is_request = len(octets) == REQUEST_OCTETS and octets[16] & 6 == 4 and octets[18] & 15 == 0
    return None if is_request else "refused form"


@dataclass
class Model:
    """The uplink of one access point."""

    now: int = 0
    rates: dict[int, Rate] = field(default_factory=dict)
    tids: dict[tuple[int, int], Tid] = field(default_factory=dict)
    boards: dict[tuple[int, int], Board] = field(default_factory=dict)
    singles: dict[tuple[int, int], Single] = field(default_factory=dict)
    frames: int = 0
    up: int = 0
    old: int = 0
    missing: int = 0

    def counted(self, items: Iterable[str]) -> str:
        """Counts the items, and returns them as they follow in a line."""
        said = ""
        for item in items:
            if item.startswith("gap"):
                self.missing += int(item.split("+")[1])
            else:
                self.up += 1
            said += f" {item}"
        return said

    def open(self, station: int, window: int, start: int) -> str:
        """Answers a line `open`."""
        if station > 255:
            return "refused bad-station"
        if not 1 <= window <= 256:
            return "refused bad-window"
        if start >= NUMBERS:
            return "refused bad-start"
        if station in self.rates:
            return "refused live"
        self.rates[station] = Rate(0, 20, False)
        for tid in range(TIDS):
            self.tids[station, tid] = Tid(window, start)
            self.boards[station, tid] = Board(start, window)
        return "opened"

    def plain(self, station: int) -> str:
        """Answers a line `plain`."""
        if station > 255:
            return "refused bad-station"
        if station in self.rates:
            return "refused live"
        self.rates[station] = Rate(0, 20, False)
        for tid in range(TIDS):
            self.singles[station, tid] = Single()
        return "opened"

    def rate(self, station: int, rate: Rate) -> str:
        """Answers a line `rate`."""
        if station not in self.rates:
            return "refused closed"
        self.rates[station] = rate
        return "set"

    def tick(self, by: int) -> str:
        """Answers a line `tick`."""
        self.now += by
        lines = [f"now {self.now}"]
        for (station, tid), held in sorted(self.tids.items(), key=lambda one: one[0]):
            if held.is_due(self.now):
                lines.append(f"up sta {station} tid {tid}" + self.counted(held.give_up(self.now)))
        return "\n".join(lines)

    def is_mine(self, octets: bytes) -> bool:
        """Returns whether the addresses are the access point's and an open station's."""
        station = int.from_bytes(octets[14:16], "big")
        return octets[4:10] == BASE and octets[10:14] == STATION and station in self.rates

    def refused(self, octets: bytes) -> str | None:
        """Returns the refusal of a frame, if any."""
        refusal = refused_header(octets, QOS_DATA)
        if refusal:
            return refusal
        if not octets[1] & 1 or not self.is_mine(octets):
            return "refused not-mine"
        if octets[24] % 16 >= TIDS:
            return "refused tid"
        return None if 1 <= len(octets) - 26 <= MOST_BODY else "refused length"

    def frame(self, octets: bytes) -> str:
        """Answers a line `frame`."""
        refusal = self.refused(octets)
        if refusal:
            return refusal
        key = int.from_bytes(octets[14:16], "big"), octets[24] % 16
        number = int.from_bytes(octets[22:24], "little") >> 4
        name, self.frames = self.frames, self.frames + 1
        if key in self.singles:
            is_repeat = self.singles[key].is_repeat(number, bool(octets[1] & 8))
            air = data_time(self.rates[key[0]], len(octets) + CHECK) + SIFS + ACK_TIME
            return self.told(key, air, None if is_repeat else [f"{name}:{number}"]) + " ack"
        self.boards[key].arrive(number)
        air = data_time(self.rates[key[0]], len(octets) + CHECK + 4) + SIFS + BLOCK_ACK_TIME[False]
        return self.told(key, air, self.tids[key].arrive(number, name, self.now))

    def told(self, key: tuple[int, int], air: int, items: list[str] | None) -> str:
        """Returns the line of what a TID passes up, or that a frame is returned."""
        line = f"up sta {key[0]} tid {key[1]} air {air}"
        if items is None:
            self.old += 1
            return line + " old"
        return line + self.counted(items)

    def refused_request(self, octets: bytes) -> str | None:
        """Returns the refusal of a request, if any."""
        refusal = refused_header(octets, BLOCK_ACK_REQ) or refused_form(octets)
        if refusal:
            return refusal
        if not self.is_mine(octets):
            return "refused not-mine"
        if octets[17] >> 4 >= TIDS:
            return "refused tid"
        key = int.from_bytes(octets[14:16], "big"), octets[17] >> 4
        return "refused not-agreed" if key in self.singles else None

    def bar(self, octets: bytes) -> str:
        """Answers a line `bar`."""
        refusal = self.refused_request(octets)
        if refusal:
            return refusal
        key = int.from_bytes(octets[14:16], "big"), octets[17] >> 4
        start = int.from_bytes(octets[18:20], "little") >> 4
        board = self.boards[key]
        air = REQUEST_TIME + SIFS + BLOCK_ACK_TIME[board.is_wide]
        return f"{self.told(key, air, self.tids[key].ask(start, self.now))} {board.ask(start)}"

    def totals(self) -> str:
        """Returns the last line."""
        held = sum(len(tid.stored) for tid in self.tids.values())
        return f"frames {self.frames} up {self.up} old {self.old} held {held} missing {self.missing}"
