"""The commands of the program, their small inputs, their statuses, and the line of each status on standard error."""
import enum
import re
import subprocess
from collections.abc import Mapping, Sequence
from dataclasses import dataclass
from pathlib import Path

from wfdev.repo import paths


class Status(enum.IntEnum):
    """The exit statuses of the program (docs/TRACE.md)."""

    DONE = 0
    USAGE = 1
    BAD_INPUT = 2
    READ_FAULT = 3
    WRITE_FAULT = 4
    NO_MEMORY = 5


LINES: Mapping[int, bytes] = {
    Status.BAD_INPUT: b"wf: the input has a fault: the last line of the output says which (see wf help faults)\n",
    Status.READ_FAULT: b"wf: read fault\n",
    Status.WRITE_FAULT: b"wf: write fault\n",
    Status.NO_MEMORY: b"wf: no memory\n",
}
# The output of these commands differs from run to run.
UNSTEADY = frozenset({"live"})
SESSION = b"ask 64 100\nto b 0\nto a 0\nend\n"
# A frame is reaped, and another is refused.
TRACE_END = b"reap\nenq 1 0 7 1500\nend\n"


@dataclass(frozen=True)
class Command:
    """A command of the program: its name, its words, and its small input, if it reads one."""

    name: str
    words: tuple[str, ...]
    given: bytes | None

    def line(self, program: Path) -> list[str]:
        """Returns the command line for a program."""
        return [str(program), *self.words]

    @property
    def is_steady(self) -> bool:
        """Whether each run writes the same."""
        return self.name not in UNSTEADY


def is_line_of(status: int, errors: bytes) -> bool:
    """Returns whether standard error has the line of a status and, for a fault in the input, at most one more line."""
    line = LINES.get(status, b"")
    more = errors.removeprefix(line)
    if status != Status.BAD_INPUT or not more:
        return errors == line
    return errors.startswith(line) and more.startswith(b"wf: ") and more.count(b"\n") == 1 and more.endswith(b"\n")


def all_of(program: Path, sizes: Mapping[str, Sequence[str]]) -> list[Command]:
    """Returns each command in the usage line of a program; `sizes` has the numbers that some of them need."""
    trace = (paths.EXAMPLES / "lost-acknowledgement.trace").read_bytes().removesuffix(b"end\n") + TRACE_END
    inputs = {
        "replay": trace,
        "replay --pcap": trace,
        "soak": None,
        "live": None,
        "session": SESSION,
        "uplink": (paths.EXAMPLES / "hole.uplink").read_bytes(),
        "frames": (paths.EXAMPLES / "five.pcap").read_bytes(),
    }
    usage = subprocess.run([program], stdin=subprocess.DEVNULL, capture_output=True, check=False).stderr.decode()
    found = re.findall(r"wf (\w+)(?: \[?(--\w+))?", usage)
    known = {name.strip() for word, option in found for name in (word, f"{word} {option}")}
    return [Command(name, (*name.split(), *sizes.get(name, ())), given) for name, given in inputs.items() if name in known]
