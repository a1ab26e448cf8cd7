"""Plays a generated script on `wf uplink`, and compares each answer with that of a model written independently of it.

Frames are lost, repeated, overtake one another, jump past the window, go past number 4095, or are hostile octets; requests move
the window, or come late; ticks end just before a wait does, and at its end. Some stations have no agreement.
"""
import random
import subprocess
import sys
from collections.abc import Sequence
from dataclasses import dataclass, field
from pathlib import Path

from wfdev.checks.uplinks.model import LIMIT, NUMBERS, Model, Rate
from wfdev.harness.script import Difference, Script, expect

SCRIPT = Script("uplinks")
MOST_TICK = 10_000_000
OPENED = [(0, 64, 0), (1, 4, 10), (255, 256, 4090)]
PLAIN = [3, 4]
STATIONS = [0, 1, 2, 3, 4, 255]
TIDS = [0, 0, 3, 7]
RETRY = 8
JUMPS = (2046, 2047, 2048, 2049, -2048, -2047)


@dataclass(frozen=True)
class Event:
    """A line of the script, and the model's answer."""

    line: str
    answer: str


@dataclass
class Generator:
    """Makes events and has the model answer them."""

    draw: random.Random
    model: Model = field(default_factory=Model)
    sent: dict[tuple[int, int], int] = field(default_factory=dict)

    def number(self, key: tuple[int, int]) -> int:
        """Returns mostly the next number, sometimes an old one, one that overtakes, or one far away."""
        newest = self.sent.setdefault(key, self.draw.choice([0, 10, 4090]))
        kind = self.draw.random()
        if kind < 0.70:
            self.sent[key] += 1
        elif kind < 0.74:
            self.sent[key] += self.draw.choice([2, 5, 64, 2047])
        elif kind < 0.90:
            newest -= self.draw.randint(1, 8)
        elif kind < 0.96:
            newest += self.draw.randint(1, 8)
        else:
            newest += self.draw.choice(JUMPS)
        return newest % NUMBERS

    def frame(self) -> Event:
        """Returns a line `frame`."""
        key = self.draw.choice(STATIONS), self.draw.choice(TIDS)
        frame = bytearray.fromhex("88013000" "020000000000" "02000001" "0000" "020000020000" "0000" "0000" "00")
        frame[14:16] = key[0].to_bytes(2, "big")
        frame[22:24] = (16 * self.number(key)).to_bytes(2, "little")
        frame[24] = key[1]
        frame[1] |= self.draw.choice([0, RETRY])
        frame += bytes(self.draw.choice([0, 0, 0, 5, 23]))
        octets = self.damaged(frame)
        return Event(f"frame {octets.hex()}", self.model.frame(octets))

    def start(self, key: tuple[int, int]) -> int:
        """Returns the start of a request: mostly one of the last numbers or the next, sometimes one far away."""
        near = self.draw.random() < 0.95
        return (self.sent.get(key, 0) + self.draw.choice(range(-8, 3) if near else JUMPS)) % NUMBERS

    def bar(self) -> Event:
        """Returns a line `bar`."""
        key = self.draw.choice(STATIONS), self.draw.choice(TIDS)
        request = bytearray.fromhex("84000000" "020000000000" "02000001" "0000" "0400" "0000")
        request[14:16] = key[0].to_bytes(2, "big")
        request[17] = key[1] << 4
        request[18:20] = (16 * self.start(key)).to_bytes(2, "little")
        octets = self.damaged(request)
        return Event(f"bar {octets.hex()}", self.model.bar(octets))

    def damaged(self, frame: bytearray) -> bytes:
        """Returns a frame, which may be damaged."""
        if self.draw.random() < 0.04:
            frame[self.draw.randrange(len(frame))] ^= 1 << self.draw.randrange(8)
        if self.draw.random() < 0.02:
            del frame[self.draw.randrange(1, len(frame)) :]
        if self.draw.random() < 0.01:
            frame = bytearray(self.draw.randbytes(self.draw.randint(1, 50)))
        return bytes(frame)

    def tick(self) -> Event:
        """Returns a tick: often one that ends a wait, or ends just before."""
        waits = [tid.since + LIMIT - self.model.now for tid in self.model.tids.values() if tid.stored]
        ends = [wait - before for wait in waits for before in (0, 1) if 0 <= wait - before <= MOST_TICK]
        by = self.draw.choice([*ends, 0, 1, 1000, 20_000])
        return Event(f"tick {by}", self.model.tick(by))

    def open(self) -> Event:
        """Returns a line `open`, which may be refused."""
        station, window = self.draw.choice([0, 1, 2, 255, 256]), self.draw.choice([1, 4, 64, 256, 257, 0])
        start = self.draw.choice([0, 10, 4090, 4095, 4096])
        return Event(f"open {station} {window} {start}", self.model.open(station, window, start))

    def plain(self) -> Event:
        """Returns a line `plain`, which may be refused."""
        station = self.draw.choice([0, 2, 3, 4, 5, 255, 256])
        return Event(f"plain {station}", self.model.plain(station))

    def rate(self) -> Event:
        """Returns a line `rate`, which may be refused."""
        station = self.draw.choice([0, 1, 2, 3, 255, 7])
        rate = Rate(self.draw.randint(0, 15), self.draw.choice([20, 40]), self.draw.random() < 0.5)
        return Event(f"rate {station} {rate}", self.model.rate(station, rate))

    def event(self) -> Event:
        """Returns the next event."""
        kind = self.draw.random()
        if kind < 0.02:
            return self.open()
        if kind < 0.04:
            return self.rate()
        if kind < 0.05:
            return self.plain()
        if kind < 0.15:
            return self.tick()
        if kind < 0.25:
            return self.bar()
        return self.frame()


def script(seed: int, count: int) -> list[Event]:
    """Returns a script of this many events, after those that open stations, with its end."""
    made = Generator(random.Random(seed))
    events = [Event(f"open {station} {window} {start}", made.model.open(station, window, start)) for station, window, start in OPENED]
    events += [Event(f"plain {station}", made.model.plain(station)) for station in PLAIN]
    events += [made.event() for _ in range(count)]
    return [*events, Event("end", made.model.totals())]


def compare(program: Path, events: Sequence[Event]) -> None:
    """Plays the script and compares the answers."""
    given = "".join(event.line + "\n" for event in events)
    run = subprocess.run([program, "uplink"], input=given, capture_output=True, text=True, check=False)
    expect(f"the status, with '{run.stderr.strip()}' on standard error", run.returncode, 0)
    written = iter(run.stdout.splitlines())
    for number, event in enumerate(events, 1):
        for wanted in event.answer.splitlines():
            expect(f"line {number}, {event.line}", next(written, None), wanted)
    expect("what follows the last answer", next(written, None), None)


def main(words: Sequence[str] | None = None) -> int:
    """Plays the script and returns the exit status."""
    parser = SCRIPT.parser(__doc__)
    parser.add_argument("seed", nargs="?", type=int, default=1, help="the seed of the script (default: 1)")
    parser.add_argument("count", nargs="?", type=int, default=2_000, help="the number of events (default: 2000)")
    asked = parser.parse_args(words)
    events = script(asked.seed, asked.count)
    try:
        compare(SCRIPT.program().path, events)
    except Difference as difference:
        SCRIPT.fail(difference)
    SCRIPT.say(f"{len(events)} events: {events[-1].answer}")
    return 0


if __name__ == "__main__":
    sys.exit(main())
