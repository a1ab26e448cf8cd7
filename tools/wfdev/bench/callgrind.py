"""Runs a program under callgrind and reads its profile."""
import re
import subprocess
from collections import Counter
from collections.abc import Sequence
from dataclasses import dataclass, field
from pathlib import Path
from typing import IO


@dataclass
class Profile:
    """Calls by caller and callee, and the instructions of each function: its own, and those of all that it calls."""

    calls: Counter[tuple[str, str]] = field(default_factory=Counter)
    own: Counter[str] = field(default_factory=Counter)
    below: Counter[str] = field(default_factory=Counter)

    def calls_of(self, name: str) -> int:
        """Returns how often a function was called."""
        return sum(count for (_, callee), count in self.calls.items() if callee == name)

    def callees(self) -> set[str]:
        """Returns all functions that were called."""
        return {callee for _, callee in self.calls}


class Reader:
    """Reads the lines of a file of callgrind."""

    def __init__(self) -> None:
        self.profile = Profile()
        self.names: dict[str, str] = {}
        self.caller = self.callee = ""
        self.is_cost_of_call = False

    def name_of(self, text: str) -> str:
        """Returns the name of `(NUMBER) NAME`, or of `(NUMBER)` if the name was given before."""
        number, _, name = text.partition(" ")
        return self.names.setdefault(number, name)

    def take(self, line: str) -> None:
        """Takes a line."""
        key, _, value = line.partition("=")
        if key == "fn":
            self.caller = self.name_of(value)
        elif key == "cfn":
            self.callee = self.name_of(value)
        elif key == "calls":
            self.profile.calls[self.caller, self.callee] += int(value.split()[0])
            self.is_cost_of_call = True
        elif self.caller and re.match(r"[+\-*\d]", line):
            counts = self.profile.below if self.is_cost_of_call else self.profile.own
            counts[self.caller] += int(line.split()[1])
            self.is_cost_of_call = False


def read(kept: Path) -> Profile:
    """Reads a file of callgrind."""
    reader = Reader()
    for line in kept.read_text(encoding="utf-8").splitlines():
        reader.take(line)
    return reader.profile


def run(words: Sequence[str | Path], kept: Path, stdin: int | IO[bytes] = subprocess.DEVNULL) -> str:
    """Runs a program under callgrind, which writes to this file, and returns callgrind's messages."""
    tool = ["valgrind", "--tool=callgrind", f"--callgrind-out-file={kept}"]
    done = subprocess.run(
        [*tool, *map(str, words)], stdin=stdin, stdout=subprocess.DEVNULL, stderr=subprocess.PIPE, text=True, errors="replace", check=False
    )
    if done.returncode:
        raise RuntimeError(f"{' '.join(map(str, words))} under callgrind ended with {done.returncode}: {done.stderr[-400:]}")
    return done.stderr
