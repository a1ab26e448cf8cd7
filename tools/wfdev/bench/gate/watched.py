"""Runs instead of rattle when bench/gate runs the gate: it runs rattle with the same words, passes on its output, and notes the cost.

A check or a build of a crate adds a record to the file GATE_RECORDS. For a check that reports each function, the record has the
processor seconds that were used up at each function's line: a function's seconds are the difference to the line before. Any other call
becomes rattle itself, which GATE_RATTLE names.
"""
import fcntl
import glob
import os
import re
import subprocess
import sys
import time
from collections.abc import Sequence
from dataclasses import dataclass
from pathlib import Path

from wfdev.bench.gate import records
from wfdev.bench.gate.records import Checked, Record
from wfdev.harness.script import words_of

CHECKED = re.compile(rb"^checked (\S+), \d+ of \d+$")
TICKS = os.sysconf("SC_CLK_TCK")
STDOUT, STDERR = 1, 2


@dataclass(frozen=True)
class Ran:
    """How rattle ended, its processor seconds, and those used up at each function's line."""

    status: int
    seconds: float
    functions: tuple[Checked, ...]


def used_by(process: str) -> float:
    """Returns the processor seconds of a process and of all that it started."""
    try:
        fields = Path(f"/proc/{process}/stat").read_text(encoding="ascii", errors="replace").rpartition(")")[2].split()
        listed = [Path(path).read_text(encoding="ascii") for path in glob.glob(f"/proc/{process}/task/*/children")]
    except OSError:
        return 0.0
    return sum(map(int, fields[11:15])) / TICKS + sum(used_by(child) for children in listed for child in children.split())


def run(rattle: str, words: Sequence[str]) -> Ran:
    """Runs rattle and passes on its output."""
    is_one = os.path.samestat(os.fstat(STDOUT), os.fstat(STDERR))
    child = subprocess.Popen([rattle, *words], stdout=subprocess.PIPE, stderr=subprocess.STDOUT if is_one else None)
    assert child.stdout is not None
    functions: list[Checked] = []
    for line in child.stdout:
        found = CHECKED.match(line.rstrip())
        if found:
            functions.append(Checked(found[1].decode(errors="replace"), round(used_by(str(child.pid)), 2)))
        else:
            os.write(STDOUT, line)
    _, status, usage = os.wait4(child.pid, 0)
    return Ran(os.waitstatus_to_exitcode(status), usage.ru_utime + usage.ru_stime, tuple(functions))


def note(record: Record) -> None:
    """Adds a record to the file."""
    with open(os.environ[records.RECORDS], "a", encoding="utf-8") as file:
        fcntl.flock(file, fcntl.LOCK_EX)
        file.write(record.line())


def main(words: Sequence[str] | None = None) -> int:
    """Runs rattle, adds the record, and returns the exit status."""
    given, rattle, at = words_of(words), os.environ[records.RATTLE], os.getcwd()
    crate = records.value_of(given, "--crate-name")
    if not crate or given[0] not in ("check", "build"):
        os.execv(rattle, [rattle, *given])
    kind, began = records.kind_of(given, at), time.monotonic()
    reports = records.can_report(given, kind)
    ran = run(rattle, [*given, *["--progress"] * reports])
    wall, functions = round(time.monotonic() - began, 2), ran.functions if reports else None
    note(Record(crate, kind, tuple(given), at, ran.status, round(ran.seconds, 2), wall, functions))
    if ran.status < 0:
        os.kill(os.getpid(), -ran.status)
    return ran.status


if __name__ == "__main__":
    sys.exit(main())
