"""A run of `wf replay` with its trace read along: each answer is paired with its call as soon as the program
writes it."""
from __future__ import annotations

import collections
import contextlib
import dataclasses
import os
import subprocess
import threading
from collections.abc import Callable, Iterator

from .lines import Cutter, Line, Part, Trace

BLOCK = 1 << 16
# No answer has as many octets: one with 256 frames has some 4,000.
MOST_WRITTEN = 1 << 16
FAULT = b"fault line "


@dataclasses.dataclass(frozen=True)
class Headed:
    """The head of a trace that the program took."""

    line: Line


@dataclasses.dataclass(frozen=True)
class Answered:
    """A call and its answer."""

    line: Line
    answer: str


@dataclasses.dataclass(frozen=True)
class Faulted:
    """The fault of a trace, and its line, if the trace has that line."""

    line: Line | None
    text: str


@dataclasses.dataclass(frozen=True)
class Summed:
    """A line of the summary."""

    text: str


Event = Headed | Answered | Faulted | Summed


class Pairs:
    """Pairs the lines that a program writes with the lines that it read before."""

    def __init__(self) -> None:
        self.read: collections.deque[Line] = collections.deque()

    def add(self, lines: list[Line]) -> None:
        """Adds lines of the trace. Another thread than that of `events` may call this."""
        self.read.extend(lines)

    def events(self, written: bytes) -> Iterator[Event]:
        """Yields what a written line is. Every line that the program has read was added before."""
        text = written.decode("ascii", "backslashreplace")
        if written.startswith(FAULT):
            number = int(written.split()[2])
            yield from self._passed(number)
            yield Faulted(self.read.popleft() if self.read else None, text)
            return
        yield from self._passed()
        if self.read and self.read[0].part is Part.CALL:
            yield Answered(self.read.popleft(), text)
        else:
            yield Summed(text)

    def _passed(self, number: int | None = None) -> Iterator[Event]:
        """Removes the lines without an answer: those before the line of this number, or before the next call
        or the end."""
        while self.read and (
            self.read[0].number != number if number else self.read[0].part in (Part.SKIPPED, Part.HEAD)
        ):
            line = self.read.popleft()
            if line.part is Part.HEAD:
                yield Headed(line)


def write_all(number: int, octets: bytes) -> None:
    """Writes octets to a file by its number."""
    while octets:
        octets = octets[os.write(number, octets) :]


class Fed:
    """A program whose input this process reads too: each block is noted before the program gets it."""

    def __init__(
        self,
        words: list[str],
        source: int,
        note: Callable[[bytes], None],
        prepare: Callable[[], None],
        stderr: int | None,
    ) -> None:
        self.read_fault = False
        self._source = source
        self._note = note
        self._child = subprocess.Popen(
            words, stdin=subprocess.PIPE, stdout=subprocess.PIPE, stderr=stderr, bufsize=0, preexec_fn=prepare
        )
        threading.Thread(target=self._feed, daemon=True).start()

    def _feed(self) -> None:
        assert self._child.stdin is not None
        try:
            while block := os.read(self._source, BLOCK):
                self._note(block)
                write_all(self._child.stdin.fileno(), block)
            self._note(b"")
        except BrokenPipeError:
            pass
        except OSError:
            self.read_fault = True
            self._child.terminate()
        with contextlib.suppress(OSError):
            self._child.stdin.close()

    def blocks(self) -> Iterator[bytes]:
        """Yields what the program writes, as soon as it is there."""
        assert self._child.stdout is not None
        while block := os.read(self._child.stdout.fileno(), BLOCK):
            yield block

    def complaints(self) -> bytes:
        """Returns what the program wrote on standard error, if that is a pipe."""
        return self._child.stderr.read() if self._child.stderr else b""

    def wait(self) -> int:
        """Waits for the end of the program, and returns its status; of signal N it is -N."""
        return self._child.wait()


class Replay:
    """A replay of the trace on a file that is open for reading, by its number."""

    def __init__(self, program: str, source: int, prepare: Callable[[], None]) -> None:
        self._pairs = Pairs()
        self._cutter, self._trace = Cutter(), Trace()
        self.fed = Fed([program, "replay"], source, self._note, prepare, None)

    def _note(self, block: bytes) -> None:
        """Notes the lines that end in a block; an empty block is the end of the trace."""
        lines = self._cutter.cut(block) if block else self._cutter.rest()
        self._pairs.add([self._trace.line(octets) for octets in lines])

    def events(self) -> Iterator[list[Event]]:
        """Yields what the program has written, as soon as it is there."""
        cutter = Cutter(MOST_WRITTEN)
        for block in self.fed.blocks():
            yield [event for line in cutter.cut(block) for event in self._pairs.events(line)]
        yield [event for line in cutter.rest() for event in self._pairs.events(line)]
