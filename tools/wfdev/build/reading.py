"""The words that read a file: `replay`, `frames`, `session` and `uplink` by the program, and `explain` and
`timeline`.

If a file is named, it is opened as standard input. Nothing that the script adds to the program's output is
proved. """
# ruff: noqa: PTH
from __future__ import annotations

import dataclasses
import os
import pathlib
import re
import stat
import subprocess

from wfdev.traces import captures, explain, runs, shown, timeline

from .children import ENDING, end_with_parent
from .files import write_whole
from .report import Failure, Notes, Refusal, complain, show, show_octets, write

PCAP, ECHO, JSON = "--pcap", "--echo", "--json"
OPTIONS: dict[str, tuple[str, ...]] = {
    "replay": (PCAP, ECHO, JSON), "frames": (), "session": (), "uplink": ()
}
READS = {
    "replay": "a trace",
    "frames": "a capture",
    "session": "a script",
    "uplink": "a script",
    "explain": "a trace",
    "timeline": "a trace",
}
INPUT = "-"
FAULT = 2
READ_FAULT = 3
TAIL = 200
PACKET_FAULT = re.compile(rb"(?:^|\n)fault packet (\d+) ([a-z-]+)\n$")
WRONG_TOPIC, RIGHT_TOPIC = b"wf help faults", b"wf help frames"


@dataclasses.dataclass(frozen=True)
class Request:
    """Words that were read: the command, its options, the name of the file, if any, and of the picture."""

    command: str
    options: frozenset[str]
    file: str | None
    target: str | None = None

    @property
    def program_words(self) -> list[str]:
        """The words that the program gets."""
        return [self.command, *([PCAP] if PCAP in self.options else [])]

    @property
    def is_for_program(self) -> bool:
        """Whether the program alone answers, so that it can replace this process."""
        needs_note = self.command == "frames" and not Notes.quiet
        return self.command in OPTIONS and not needs_note and self.options <= {PCAP}


def read(words: list[str]) -> Request:
    """Reads the words after which a file may be named. Raises Refusal if they are wrong."""
    command, *rest = words
    target = None
    if command == "timeline" and "-o" in rest:
        at = rest.index("-o")
        if at + 1 == len(rest):
            raise Refusal(
                "timeline: after -o the name of the picture is missing: ./wf timeline [FILE] [-o FILE.svg]",
                command,
            )
        target = rest[at + 1]
        del rest[at : at + 2]
    options = [word for word in rest if word.startswith("-") and word != INPUT]
    files = [word for word in rest if word not in options]
    known = OPTIONS.get(command, ())
    if len(files) > 1 or not set(options) <= set(known) or len(options) > len(set(options)):
        also = f", and the options {', '.join(known)}" if known else ""
        raise Refusal(f"{command} takes the name of one file{also}: ./wf {command} [FILE]", command)
    if PCAP in options and len(options) > 1:
        raise Refusal(f"{PCAP} writes a capture: it goes with neither {ECHO} nor {JSON}", command)
    return Request(command, frozenset(options), files[0] if files else None, target)


def open_input(request: Request) -> None:
    """Opens the file as standard input. Without a file standard input stays."""
    if request.file in (None, INPUT):
        return
    what = READS[request.command]
    hint = f"expected the name of {what}, or {what} on standard input: ./wf {request.command} < FILE"
    try:
        number = os.open(str(request.file), os.O_RDONLY)
    except (OSError, ValueError) as fault:
        raise Failure(f"{request.file}: {getattr(fault, 'strerror', None) or fault}; {hint}") from None
    if stat.S_ISDIR(os.fstat(number).st_mode):
        raise Failure(f"{request.file}: this is a folder; {hint}")
    os.dup2(number, 0)
    os.close(number)


def answer(request: Request, program: str) -> int:
    """Has the program read standard input, shows what it writes, and returns its status."""
    if request.command == "frames":
        return frames(program)
    if request.command == "timeline":
        return draw(program, request.target)
    return replay(program, view(request))


def view(request: Request) -> shown.View:
    """Returns the way to show a replay."""
    if request.command == "explain":
        return explain.Explain()
    if JSON in request.options:
        return shown.Json(has_calls=ECHO in request.options)
    return shown.Echo()


def replay(program: str, how: shown.View) -> int:
    """Replays the trace on standard input, and shows it as it goes on."""
    run = runs.Replay(program, 0, end_with_parent)
    for events in run.events():
        show(how.shown(events))
    show(how.ended())
    return status(run.fed)


def status(run: runs.Fed) -> int:
    """Returns the status of a run: the program's, or 128 + N if signal N stopped it."""
    ended = run.wait()
    if run.read_fault:
        complain("read fault")
        return READ_FAULT
    return ended if ended >= 0 else ENDING - ended


def draw(program: str, target: str | None) -> int:
    """Draws a timeline of the trace on standard input to a file, or to standard output."""
    run = runs.Replay(program, 0, end_with_parent)
    picture = timeline.Timeline()
    for events in run.events():
        picture.take(events)
    ended = status(run.fed)
    if target is None:
        show(picture.text())
    else:
        path = pathlib.Path(os.path.abspath(target))
        if not path.parent.is_dir() or path.is_dir():
            raise Failure(
                f"{target}: no picture can be written there; expected the name of a file in a folder that "
                "exists: -o FILE.svg"
            )
        write_whole(path, picture.text())
    return ended


def frames(program: str) -> int:
    """Lists a capture. After a fault, a line on standard error names the fault and the remedy."""
    head = bytearray()

    def note(block: bytes) -> None:
        head.extend(block[: captures.LOOKED_AT - len(head)])

    run = runs.Fed([program, "frames"], 0, note, end_with_parent, subprocess.PIPE)
    tail = b""
    for block in run.blocks():
        show_octets(block)
        tail = (tail + block)[-TAIL:]
    said = run.complaints()
    ended = status(run)
    fault = PACKET_FAULT.search(tail) if ended == FAULT else None
    if fault is None:
        write_octets(said)
        return ended
    write_octets(said.replace(WRONG_TOPIC, RIGHT_TOPIC))
    Notes.say(captures.explained(fault[2].decode(), int(fault[1]), bytes(head)))
    return ended


def write_octets(said: bytes) -> None:
    """Writes to standard error what the program wrote there."""
    if said:
        write(said.decode(errors="surrogateescape"))
