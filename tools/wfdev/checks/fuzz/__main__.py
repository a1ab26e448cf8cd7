"""Draws traces, scripts and captures, valid and damaged, and compares what the program writes with models.

The models are wfdev.model, which is written from the pages in docs/ and RFC 8289, and those of checks/uplinks
and checks/captures. Output and status have to be equal, octet for octet. After a difference the check looks
for a short input that shows it too, writes this input to checks/out/fuzz, and prints both answers. Then it
leaves this subject out. Input number N of a run depends only on the seed and N.
"""
import itertools
import random
import subprocess
import sys
import time
from collections import Counter
from collections.abc import Sequence
from dataclasses import dataclass, field
from pathlib import Path

from wfdev.checks.fuzz import shrink, subjects
from wfdev.checks.fuzz.subjects import Ended, Subject
from wfdev.harness.script import Script
from wfdev.repo import paths

SCRIPT = Script("fuzz")
OUT = paths.CHECKS / "out" / "fuzz"
SHOWN = 12
LONGEST_RUN = 60  # seconds of one run of the program


def program_ended(program: Path, subject: Subject, octets: bytes) -> Ended:
    """Returns how the program ends."""
    command = [str(program), *subject.command]
    run = subprocess.run(command, input=octets, capture_output=True, timeout=LONGEST_RUN, check=False)
    return run.stdout, run.returncode


def differs(program: Path, subject: Subject, octets: bytes) -> bool:
    """Returns whether the program and the model end differently."""
    return program_ended(program, subject, octets) != subject.answer(octets)


def shown(ended: Ended, first: int) -> str:
    """Returns a few lines of an output from this one on, and the status."""
    lines = [line.decode("latin-1").encode("unicode_escape").decode() for line in ended[0].split(b"\n")]
    return "".join(f"    {line}\n" for line in lines[first : first + SHOWN]) + f"    (status {ended[1]})\n"


def report(program: Path, subject: Subject, octets: bytes, seed: str) -> None:
    """Shortens an input with a difference, writes it to a file, and prints both answers."""
    if subject.has_lines:
        octets = shrink.shortest(octets, lambda part: differs(program, subject, part))
    OUT.mkdir(parents=True, exist_ok=True)
    path = OUT / f"{subject.name.replace(' ', '-')}-{seed}.in"
    path.write_bytes(octets)
    found, wanted = program_ended(program, subject, octets), subject.answer(octets)
    pairs = zip(found[0].split(b"\n"), wanted[0].split(b"\n"), strict=False)
    first = next((at for at, (one, other) in enumerate(pairs) if one != other), 0)
    command = " ".join(subject.command)
    SCRIPT.say(f"{subject.name}: outputs differ from line {first + 1} on: wf {command} < {paths.shown(path)}")
    print(f"  the program:\n{shown(found, first)}  the model:\n{shown(wanted, first)}", end="", flush=True)


def order(only: str | None = None) -> list[Subject]:
    """Returns the subjects of a round, each as often as its share, or one alone."""
    drawn = [one for one in subjects.ALL if only in (None, one.name)]
    turns = [(turn / one.share, at) for at, one in enumerate(drawn) for turn in range(one.share)]
    return [drawn[at] for _, at in sorted(turns)]


@dataclass
class Tally:
    """How many inputs of each subject were compared, their lines, and the subjects with a difference."""

    inputs: Counter[str] = field(default_factory=Counter)
    lines: Counter[str] = field(default_factory=Counter)
    bad: set[str] = field(default_factory=set)


def compare(program: Path, seed: int, until: float, only: str | None = None) -> Tally:
    """Compares inputs, perhaps of one subject alone, until the time is up."""
    tally, round_of = Tally(), order(only)
    for number, subject in enumerate(itertools.cycle(round_of)):
        if time.monotonic() > until or len(tally.bad) == len({one.name for one in round_of}):
            break
        if subject.name in tally.bad:
            continue
        octets = subject.draw(random.Random(f"{seed} {number}"))
        tally.inputs[subject.name] += 1
        tally.lines[subject.name] += octets.count(b"\n") if subject.has_lines else 0
        if differs(program, subject, octets):
            tally.bad.add(subject.name)
            report(program, subject, octets, f"{seed}-{number}")
    return tally


def main(words: Sequence[str] | None = None) -> int:
    """Compares, and returns the exit status."""
    parser = SCRIPT.parser(__doc__)
    parser.add_argument("seconds", nargs="?", type=float, default=60, help="how long it draws (default: 60)")
    parser.add_argument("--seed", type=int, help="draws the inputs of an earlier run (default: the time)")
    names = [one.name for one in subjects.ALL]
    parser.add_argument("--only", choices=names, metavar="SUBJECT", help="draws the inputs of this subject alone")
    asked = parser.parse_args(words)
    seed = int(time.time()) if asked.seed is None else asked.seed
    program = SCRIPT.program().path
    SCRIPT.say(f"seed {seed}")
    tally = compare(program, seed, time.monotonic() + asked.seconds, asked.only)
    for name, count in tally.inputs.items():
        SCRIPT.say(f"{name}: {count} inputs with {tally.lines[name]} lines")
    total, lines = tally.inputs.total(), tally.lines.total()
    SCRIPT.say(f"{total} inputs with {lines} lines, {len(tally.bad)} subjects differ")
    return 1 if tally.bad else 0


if __name__ == "__main__":
    sys.exit(main())
