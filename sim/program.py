"""Which program decides, and a pipe to its `replay`."""
from __future__ import annotations

import contextlib
import os
import pathlib
import shutil
import subprocess
from collections.abc import Sequence
from typing import IO, TextIO

from .fields import Fault

FOLDER = pathlib.Path(__file__).resolve().parent  # of the bench
TOP = FOLDER.parent  # of the checkout, or of the installed package wfpath
SCRIPT = TOP / "wf" if (TOP / "wf").is_file() else None  # the script of the checkout
MOST_CALLS = (4294967295, 1048576)  # the greatest `calls` that some program takes, greatest first
BATCH = 512  # lines written before their answers are read: far less than a pipe holds, both ways


class OutOfCalls(Exception):
    """The program takes no more calls in this trace."""


def find() -> tuple[str, str] | None:
    """The kind of the program and its path, as `./wf which` says (proved, unproved or named); None if there is none.

    Without a checkout it is the one that WF_PROGRAM names, or the one on the PATH, which is called installed.
    """
    if SCRIPT is None:
        named = os.environ.get("WF_PROGRAM")
        path = shutil.which(named or "wf")
        return ("named" if named else "installed", path) if path else None
    done = subprocess.run([SCRIPT, "which"], stdout=subprocess.PIPE, stderr=subprocess.DEVNULL, text=True, check=False)
    kind, _, path = done.stdout.strip().partition(" ")
    return (kind, path) if done.returncode == 0 else None


def build() -> tuple[str, str] | None:
    """Has the unproved program built, and returns what `find` then does. Without a checkout, nothing is built."""
    if SCRIPT is None:
        return None
    subprocess.run([SCRIPT, "build", "--unproved"], check=False)
    return find()


def describe(kind: str, path: str, what: str = "program") -> str:
    """How a table names the program or the library: below the repository's top by its path there."""
    return f"the {kind} {what} {os.path.relpath(path, TOP) if pathlib.Path(path).is_relative_to(TOP) else path}"


def most_calls(path: str) -> int:
    """The most calls of one trace that this program takes."""
    said = ""
    for calls in MOST_CALLS:
        text = f"cell calls={calls}\nend\n"
        try:
            done = subprocess.run([path, "replay"], input=text, capture_output=True, text=True, check=False)
        except OSError as error:
            raise Fault(f"{path}: {error.strerror}") from None
        if done.returncode == 0:
            return calls
        said = (done.stdout + done.stderr).strip()
    raise Fault(f"{path} replay: refuses a trace without calls: {said}")


class Pipe:
    """A trace that is written while its answers are read: `ask` writes no batch before it has read all earlier answers."""

    def __init__(self, path: str, head: str, calls: int, copy: TextIO | None = None) -> None:
        self.path = path
        self.calls_left = calls
        self.calls = 0
        self.copy = copy
        try:
            pipe = subprocess.PIPE  # in a session of its own, so that Ctrl-C at a terminal ends the bench first
            self.process = subprocess.Popen([path, "replay"], stdin=pipe, stdout=pipe, start_new_session=True)
        except OSError as error:
            raise Fault(f"{path}: {error.strerror}") from None
        assert self.process.stdin and self.process.stdout
        self.stdin: IO[bytes] = self.process.stdin
        self.stdout: IO[bytes] = self.process.stdout
        self.write([head])

    def write(self, lines: Sequence[str]) -> None:
        text = "\n".join(lines) + "\n"
        if self.copy:
            self.copy.write(text)
        try:
            self.stdin.write(text.encode())
            self.stdin.flush()
        except BrokenPipeError:
            raise Fault(f"{self.path} replay: ended after call {self.calls}") from None

    def ask(self, lines: Sequence[str]) -> list[str]:
        """The answers to these calls, one each."""
        if len(lines) > self.calls_left:
            raise OutOfCalls
        self.calls_left -= len(lines)
        self.calls += len(lines)
        answers: list[str] = []
        readline = self.stdout.readline
        for first in range(0, len(lines), BATCH):
            batch = lines[first : first + BATCH]
            self.write(batch)
            answers += b"".join([readline() for _ in batch]).decode().split("\n")
            answers.pop()  # the text after the last end of a line
        if len(answers) < len(lines) or (answers and answers[-1].startswith("fault")):
            fault = answers[-1] if answers and answers[-1].startswith("fault") else "no answer"
            raise Fault(f"wf replay: stopped after call {self.calls}: {fault}")
        return answers

    def end(self) -> list[str]:
        """Ends the trace, and returns the summary's lines."""
        self.write(["end"])
        self.stdin.close()
        with self.stdout as answers:
            summary = answers.read().decode().splitlines()
        if self.process.wait() != 0:
            raise Fault(f"wf replay: status {self.process.returncode}")
        return summary

    def abandon(self) -> None:
        """Stops the program, whatever it does."""
        self.process.kill()
        for end in (self.stdin, self.stdout):
            with contextlib.suppress(OSError):
                end.close()
        self.process.wait()
