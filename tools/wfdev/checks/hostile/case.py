"""Runs of one kind against one command, and whether each ended as it has to."""
import signal
import subprocess
from collections import Counter
from collections.abc import Collection, Sequence
from dataclasses import dataclass, field
from pathlib import Path
from typing import IO

from wfdev.harness.commands import Command, Status, is_line_of

SECONDS = 300


@dataclass(frozen=True)
class Subject:
    """A command of a program, and what it writes if nothing is wrong."""

    command: Command
    words: list[str]
    whole: bytes

    @property
    def given(self) -> bytes:
        """The small input of the command, which may be empty."""
        return self.command.given or b""

    @property
    def reads(self) -> bool:
        """Whether the command reads its input."""
        return self.command.given is not None


@dataclass(frozen=True)
class Ended:
    """How a run ended: its status, standard error and output."""

    status: int
    errors: bytes
    written: bytes


@dataclass
class Case:
    """Runs of one kind against one command."""

    subject: Subject
    kind: str
    good: int = 0
    bad: int = 0
    statuses: Counter[int] = field(default_factory=Counter)
    first_bad: str = ""

    def see(self, ended: Ended, allowed: Collection[int], whole: bytes | None = None, note: str = "") -> None:
        """Counts a run. It is good if its status is allowed, standard error fits the status, and the output is a prefix.

        The output has to be the whole text if the status says so. `whole` is another text than that of the small input, and
        `note` says under what conditions the program ran.
        """
        text = self.subject.whole if whole is None else whole
        is_steady = self.subject.command.is_steady
        is_prefix = not is_steady or text.startswith(ended.written)
        is_complete = ended.status != Status.DONE or not is_steady or ended.written == text
        has_line = ended.status < 0 or is_line_of(ended.status, ended.errors)
        is_good = ended.status in allowed and is_prefix and is_complete and has_line
        self.good, self.bad = self.good + is_good, self.bad + (not is_good)
        self.statuses[ended.status] += 1
        if not is_good and not self.first_bad:
            self.first_bad = f"{note}: {name_of(ended.status)}, {ended.errors[-200:]!r}".removeprefix(": ")

    def row(self) -> str:
        """Returns the runs as a row of a table."""
        said = ", ".join(f"{name_of(status)} ({count})" for status, count in sorted(self.statuses.items()))
        went = "well" if not self.bad else f"{self.bad} differ, first {self.first_bad}"
        return f"| `{self.subject.command.name}` | {self.kind} | {self.good + self.bad} | {said} | {went} |"


def name_of(status: int) -> str:
    """Returns a status as a number, or the name of the signal that ended the run."""
    return signal.Signals(-status).name if status < 0 else str(status)


def subject_of(program: Path, command: Command) -> Subject:
    """Returns a command of a program, with its whole output."""
    words = command.line(program)
    whole = subprocess.run(words, input=command.given or b"", capture_output=True, check=False, timeout=SECONDS).stdout
    return Subject(command, words, whole)


def run(words: Sequence[str], given: bytes = b"", stdout: int | IO[bytes] = subprocess.PIPE) -> Ended:
    """Runs a command line on an input."""
    done = subprocess.run(words, input=given, stdout=stdout, stderr=subprocess.PIPE, check=False, timeout=SECONDS)
    return Ended(done.returncode, done.stderr, done.stdout or b"")


def begin(words: Sequence[str], stdout: int = subprocess.PIPE) -> subprocess.Popen[bytes]:
    """Begins a run whose input is written piece by piece."""
    return subprocess.Popen(words, stdin=subprocess.PIPE, stdout=stdout, stderr=subprocess.PIPE, bufsize=0)


def give(child: subprocess.Popen[bytes], octets: bytes) -> None:
    """Writes to the input of a run, which may have closed it."""
    assert child.stdin is not None
    try:
        child.stdin.write(octets)
    except BrokenPipeError:
        pass


def end(child: subprocess.Popen[bytes]) -> Ended:
    """Closes the input of a run and waits until the run has ended."""
    assert child.stdin is not None and child.stderr is not None
    child.stdin.close()
    written = child.stdout.read() if child.stdout else b""
    errors = child.stderr.read()
    return Ended(child.wait(timeout=SECONDS), errors, written)
