"""Runs the checks that `all` and `quick` name, one after the other, and prints a line for each."""
import datetime
import enum
import re
import shlex
import signal
import subprocess
import time
from collections import Counter
from collections.abc import Sequence
from dataclasses import dataclass

from wfdev.harness.script import Script
from wfdev.repo import paths

LOGS = paths.CHECKS / "out"
RESULTS = paths.CHECKS / "results"
MOST_SECONDS = 6 * 3600
SHOWN = 20
ABOUT = "Runs checks and prints a line for each: how it ended, its seconds, and its last line."


class Outcome(enum.Enum):
    """How a check ended."""

    PASSED = "passed"
    FAILED = "failed"
    SKIPPED = "skipped"


@dataclass(frozen=True)
class Check:
    """A script of checks/: its words for a short run and for a whole one, and whether the gate runs it."""

    name: str
    words: tuple[str, ...] = ()
    whole: tuple[str, ...] = ()
    quick: bool = False


@dataclass(frozen=True)
class Run:
    """A check that has run: the command, its status (None if it took too long), what it wrote, and its seconds."""

    command: str
    status: int | None
    said: str
    seconds: float


@dataclass(frozen=True)
class Request:
    """A request of the command line."""

    checks: list[Check]
    whole: bool
    strict: bool
    keep: bool
    lists: bool


ALL = [
    Check("self-tests", quick=True),
    Check("door", (), ("--whole",), quick=True),
    Check("types", quick=True),
    Check("style", quick=True),
    Check("diagram", ("--check",), ("--check",), quick=True),
    Check("modules", ("--check",), ("--check",), quick=True),
    Check("claims", quick=True),
    Check("table", quick=True),
    Check("links", quick=True),
    Check("help", quick=True),
    Check("worked", quick=True),
    Check("pages", quick=True),
    Check("sim", quick=True),
    Check("install", quick=True),
    Check("dist"),
    Check("c-library", quick=True),
    Check("python", quick=True),
    Check("kernel"),
    Check("part-trials", quick=True),
    Check("command-trials", quick=True),
    Check("durations"),
    Check("agreement-frames"),
    Check("sessions"),
    Check("session-calls", quick=True),
    Check("uplinks"),
    Check("captures"),
    Check("fuzz", ("60",), ("3600",)),
    Check("hostile"),
    Check("allocations"),
    Check("ns3"),
    Check("rotations"),
    Check("path-trials"),
    Check("meetings-on-threads"),
    Check("lives", ("30",)),
    Check("long-runs", ("60",)),
    Check("long-replay"),
    Check("freed"),
    Check("faults"),
    Check("edits"),
    Check("bugs"),
]


def command_of(check: Check, whole: bool) -> list[str]:
    """Returns the words that run a check."""
    return [f"checks/{check.name}", *(check.whole if whole else check.words)]


def run(check: Check, whole: bool) -> Run:
    """Runs a check."""
    command = command_of(check, whole)
    began = time.monotonic()
    status: int | None = None
    try:
        done = subprocess.run(
            command, cwd=paths.TOP, stdout=subprocess.PIPE, stderr=subprocess.STDOUT, timeout=MOST_SECONDS, check=False
        )
        status, said = done.returncode, done.stdout.decode(errors="replace")
    except subprocess.TimeoutExpired as late:
        said = (late.stdout or b"").decode(errors="replace") + f"{check.name}: not done after {MOST_SECONDS} seconds\n"
    return Run(shlex.join(command), status, said, time.monotonic() - began)


def outcome(check: Check, status: int | None, said: str) -> tuple[Outcome, str]:
    """Returns how a check ended, and its last line or why it was skipped."""
    last = (said.strip().splitlines() or ["no output"])[-1].removeprefix(f"{check.name}: ")
    skipped = re.search(rf"^{re.escape(check.name)}: skipped, since (.*)$", said, re.M)
    if status == 0 and skipped:
        return Outcome.SKIPPED, skipped[1]
    return (Outcome.PASSED if status == 0 else Outcome.FAILED), last


def keep(check: Check, done: Run) -> None:
    """Keeps what a check wrote, after the command, the day and the commit."""
    words = ["git", "log", "-1", "--format=%h of %cs"]
    commit = subprocess.run(words, cwd=paths.TOP, capture_output=True, text=True, check=False).stdout.strip()
    head = f"$ {done.command}\n(run on {datetime.date.today()} over commit {commit}, in {done.seconds:.0f} seconds)\n\n"
    RESULTS.mkdir(exist_ok=True)
    (RESULTS / f"{check.name}.txt").write_text(head + done.said, encoding="utf-8")


def request(script: Script, words: Sequence[str] | None, quick: bool) -> Request:
    """Reads the command line."""
    parser = script.parser(ABOUT)
    default = "those that the gate runs" if quick else "all"
    parser.add_argument("names", nargs="*", metavar="NAME", help=f"the checks to run (default: {default})")
    parser.add_argument("--whole", action="store_true", help="run the long checks at their whole length, for an hour and more")
    parser.add_argument("--strict", action="store_true", help="count a skipped check as a failed one")
    parser.add_argument("--keep", action="store_true", help="keep what each check wrote in checks/results")
    parser.add_argument("--list", action="store_true", help="print the command of each of these checks, and run none")
    given = parser.parse_args(words)
    known = {check.name for check in ALL}
    for name in given.names:
        if name not in known:
            parser.error(f"there is no check {name}; the checks are: {' '.join(sorted(known))}")
    checks = [check for check in ALL if (check.name in given.names if given.names else check.quick or not quick)]
    return Request(checks, given.whole, given.strict, given.keep, given.list)


def look_at(check: Check, asked: Request) -> Outcome:
    """Runs a check, keeps its log, prints its line, and returns how it ended."""
    done = run(check, asked.whole)
    (LOGS / f"{check.name}.log").write_text(done.said, encoding="utf-8")
    how, why = outcome(check, done.status, done.said)
    print(f"{check.name:20} {how.value:8} {done.seconds:6.0f} s   {why}", flush=True)
    if how is Outcome.FAILED:
        print("".join(f"    {line}\n" for line in done.said.splitlines()[-SHOWN:]), end="", flush=True)
    elif asked.keep and how is Outcome.PASSED:
        keep(check, done)
    return how


def main(script: Script, words: Sequence[str] | None = None, quick: bool = False) -> int:
    """Runs the checks and returns the exit status."""
    asked = request(script, words, quick)
    if asked.lists:
        signal.signal(signal.SIGPIPE, signal.SIG_DFL)
        print("\n".join(shlex.join(command_of(check, asked.whole)) for check in asked.checks))
        return 0
    LOGS.mkdir(exist_ok=True)
    counts = Counter(look_at(check, asked) for check in asked.checks)
    script.say(", ".join(f"{counts[how]} {how.value}" for how in Outcome))
    return 1 if counts[Outcome.FAILED] or (asked.strict and counts[Outcome.SKIPPED]) else 0
