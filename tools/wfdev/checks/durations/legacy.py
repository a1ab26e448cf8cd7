"""The rows of durations.d/legacy: the durations of OFDM and DSSS that ns-3 3.37 gives, each of one frame."""
import csv
from collections.abc import Callable, Iterator, Mapping, Sequence
from dataclasses import dataclass
from pathlib import Path

from wfdev.checks.durations import machine
from wfdev.checks.durations.rows import SCRIPT
from wfdev.model.rates import Dsss, Ofdm

FORMATS: Mapping[str, Callable[[int], Ofdm | Dsss]] = {"ofdm": Ofdm, "dsss": Dsss}
SPEEDS = range(256)
AROUND_A_BODY, MOST_BODY = 30, 2304  # octets of a frame's header and check sequence, and of the greatest body
PAUSE_AND_ACK = 16 + 28  # microseconds
CHARGED = 7  # the word of an answer `send`


@dataclass(frozen=True)
class Row:
    """A row: its file and line, the format, the speed as in a trace, the octets of the frame, kbit/s, and ns-3's nanoseconds."""

    place: str
    format: str
    speed: int
    octets: int
    kbps: int
    ns3_ns: int

    @property
    def words(self) -> str:
        """The row as the small program reads it."""
        return f"{self.format} {self.speed} 0 0 0 {self.octets}\n"

    @property
    def wanted(self) -> str:
        """The answer that the small program has to give."""
        return f"{self.kbps} {self.ns3_ns // 1000}"

    @property
    def body(self) -> int:
        """The length of the body of a frame with these octets."""
        return self.octets - AROUND_A_BODY


def read() -> Iterator[Row]:
    """Yields the rows."""
    path = SCRIPT.folder / "legacy" / "ns3.csv"
    with open(path, encoding="utf-8", newline="") as file:
        for number, cells in enumerate(csv.DictReader(file), 2):
            numbers = (int(cells[name]) for name in ("speed", "octets", "kbps", "ns3_ns"))
            yield Row(f"legacy/{path.name}:{number}", cells["format"], *numbers)


def faults(row: Row) -> Iterator[str]:
    """Yields what of a row differs from the reference machine."""
    rate = FORMATS[row.format](row.speed)
    if not rate.exists():
        yield f"{row.place}: the reference machine has no rate {row.format} {row.speed}"
    time = f"{rate.kbps} {1000 * rate.time(row.octets)}"
    if time != f"{row.kbps} {row.ns3_ns}":
        yield f"{row.place}: the reference machine has {time}; ns-3 has {row.kbps} {row.ns3_ns}"


def lines_of(rows: Sequence[Row]) -> Iterator[str]:
    """Yields the calls that send a frame of each row, to a station that joins for it."""
    yield "cell legacy=2 attempts=1"
    for exchange, row in enumerate(rows):
        yield from ("plain 0 0 3", f"rate 0 {row.format} {row.speed}", f"enq 0 0 0 {row.body}", "pull be")
        yield from (f"done {exchange} lost", "leave 0")


def unlike_charges(program: Path, rows: Sequence[Row]) -> Iterator[str]:
    """Yields the rows for which the program charges something else."""
    pulled = [row for row in rows if 1 <= row.body <= MOST_BODY]
    sent = [line.split() for line in machine.replayed(program, lines_of(pulled)) if line.startswith("send ")]
    if len(sent) != len(pulled):
        SCRIPT.fail(f"the program sends {len(sent)} exchanges at rates of OFDM and DSSS; expected {len(pulled)}")
    for row, words in zip(pulled, sent, strict=True):
        charged = row.ns3_ns // 1000 + PAUSE_AND_ACK
        if words[CHARGED] != str(charged):
            yield f"{row.place}: the program charges {words[CHARGED]}; expected {charged}"


def unlike_refusals(program: Path) -> Iterator[str]:
    """Yields the speeds of each format that the program refuses, and those that it wrongly takes."""
    rates = [(name, speed) for name in FORMATS for speed in SPEEDS]
    lines = ["cell legacy=2", "plain 0 0 3", *(f"rate 0 {name} {speed}" for name, speed in rates)]
    answers = machine.replayed(program, lines)[1 : len(rates) + 1]
    for (name, speed), answer in zip(rates, answers, strict=True):
        wanted = "set" if FORMATS[name](speed).exists() else "refused bad-rate"
        if answer != wanted:
            yield f"rate 0 {name} {speed}: the program answers {answer}; expected {wanted}"
