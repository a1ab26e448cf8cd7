"""The answers of a small program over wf_air, and the charges, refusals and rates of the built program."""
import itertools
import subprocess
from collections.abc import Iterable, Iterator, Sequence
from pathlib import Path
from typing import Protocol

from sim.rates import SIFS, WIDE_BLOCK_ACK, padded, parse_rate, subframe
from wfdev.checks.durations.rows import SCRIPT, Row
from wfdev.harness import trials

# The settings of the traces: the most frames and the longest data of an aggregate, and the frames of a trace.
AGG, CAP, ROOM, WINDOW, MOST_BODY = 256, 5400, 131_072, 256, 2304
CRATE = "wf_durations"
MCS, MHZ, STREAMS, GUARDS = range(18), range(256), range(10), (0, 400, 800, 1600, 3200)
CHARGED, FIRST_FRAME = 7, 9  # words of an answer `send`


def small_program(lines: Iterable[str]) -> list[str]:
    """Returns what the small program answers to these lines."""
    with trials.scratch(trials.crate_of(CRATE, SCRIPT.folder), trials.texts(SCRIPT.folder / CRATE)) as folder:
        words = ["rt", "try", "--steps", "1", "--seconds", "300"]
        done = subprocess.run(words, cwd=folder, input="".join(lines), capture_output=True, text=True, check=False)
    if "run=ended" not in done.stderr:
        SCRIPT.fail(f"the small program did not end: {done.stderr[-2000:]}")
    return done.stdout.splitlines()


class Asked(Protocol):
    """A row for the small program."""

    @property
    def place(self) -> str:
        """Its file and line."""

    @property
    def words(self) -> str:
        """The line that the small program reads."""

    @property
    def wanted(self) -> str:
        """The answer that it has to give."""


def unlike_small_program(rows: Sequence[Asked]) -> Iterator[str]:
    """Yields the rows on which the small program answers something else."""
    answers = small_program(row.words for row in rows)
    if len(answers) != len(rows):
        SCRIPT.fail(f"the small program gives {len(answers)} answers to {len(rows)} rows")
    for row, answer in zip(rows, answers, strict=True):
        if answer != row.wanted:
            yield f"{row.place}: the small program answers {answer}; expected {row.wanted}"


def bodies_of(octets: int) -> list[int] | None:
    """Returns bodies of frames whose aggregate has this many octets, or None if there are none."""
    bodies: list[int] = []
    while octets > subframe(MOST_BODY):
        long = padded(MOST_BODY)
        step = long if octets - long > subframe(0) else long - 36  # so that an octet of body is left
        bodies.append(min(step - subframe(0), MOST_BODY))
        octets -= step
    return [*bodies, octets - subframe(0)] if octets > subframe(0) else None


def bodies_to_pull(row: Row) -> list[int] | None:
    """Returns the bodies with which an exchange can have the octets of a row at its rate, or None."""
    bodies = bodies_of(row.octets)
    fits = row.is_of_machine and row.octets <= row.rate.most_octets and row.us <= CAP
    return bodies if fits and bodies is not None and len(bodies) <= AGG else None


def lines_of(row: Row, bodies: Sequence[int], exchange: int) -> Iterator[str]:
    """Yields the calls that send these bodies by one exchange, to a station that joins for it."""
    yield f"join 0 {WINDOW} 0 3"
    yield f"rate 0 {row.rate}"
    yield from (f"enq 0 0 0 {body}" for body in bodies)
    yield "pull be"
    yield f"done {exchange} lost"
    yield "leave 0"


def batches(rows: Iterable[tuple[Row, list[int]]]) -> Iterator[list[tuple[Row, list[int]]]]:
    """Yields the rows in parts for which one trace has room."""
    part: list[tuple[Row, list[int]]] = []
    frames = 0
    for row, bodies in rows:
        if frames + len(bodies) > ROOM:
            yield part
            part, frames = [], 0
        part.append((row, bodies))
        frames += len(bodies)
    yield part


def replayed(program: Path, lines: Iterable[str]) -> list[str]:
    """Returns the answers to the lines of a trace."""
    text = "\n".join([*lines, "end\n"])
    return subprocess.run([program, "replay"], input=text, capture_output=True, text=True, check=False).stdout.splitlines()


def unlike_charges(program: Path, rows: Iterable[tuple[Row, list[int]]]) -> Iterator[str]:
    """Yields the rows for which the program charges something else."""
    for part in batches(rows):
        lines = [f"cell agg={AGG} cap={CAP} room={ROOM} attempts=1"]
        for exchange, (row, bodies) in enumerate(part):
            lines += lines_of(row, bodies, exchange)
        sent = [line.split() for line in replayed(program, lines) if line.startswith("send ")]
        if len(sent) != len(part):
            SCRIPT.fail(f"the program sends {len(sent)} exchanges; expected {len(part)}")
        for (row, bodies), words in zip(part, sent, strict=True):
            charged, count = row.us + SIFS + WIDE_BLOCK_ACK, len(words) - FIRST_FRAME
            if words[CHARGED] != str(charged) or count != len(bodies):
                yield f"{row.place}: the program charges {words[CHARGED]} for {count} frames; expected {charged} for {len(bodies)}"


def texts_of_rates() -> Iterator[str]:
    """Yields rates as in a trace's line, and combinations of numbers that are no rates."""
    for mcs, mhz, guard in itertools.product(MCS, MHZ, ("long", "short")):
        yield f"{mcs} {mhz} {guard}"
        yield from (f"vht {mcs} {mhz} {guard} {streams}" for streams in STREAMS)
    for mcs, mhz, nanoseconds, streams in itertools.product(MCS, MHZ, GUARDS, STREAMS):
        yield f"he {mcs} {mhz} {nanoseconds} {streams}"


def unlike_refusals(program: Path) -> Iterator[str]:
    """Yields the rates that the program refuses, and the texts that it wrongly takes for a rate."""
    texts = list(texts_of_rates())
    answers = replayed(program, ["cell", "join 0 64 0 3", *(f"rate 0 {one}" for one in texts)])[1 : len(texts) + 1]
    for one, answer in zip(texts, answers, strict=True):
        wanted = "refused bad-rate" if parse_rate(one) is None else "set"
        if answer != wanted:
            yield f"rate 0 {one}: the program answers {answer}; expected {wanted}"
    SCRIPT.say(f"{len(texts)} combinations given to the program, {sum(parse_rate(one) is not None for one in texts)} of them rates")
