"""Counts what the gate costs: processor seconds of each crate's proof, tests and must-fail edits, and of functions. It is no test.

  bench/gate [NAME ..]       runs `rt ci --anew [NAME ..]` on a fresh clone, keeps the figures in bench/out/gate.json, and prints the tables
  bench/gate --table FILE    prints the tables of such a file
  bench/gate --records FILE  takes what a run left in bench/out/gate.jsonl, a line for each check that ended, whether it is whole or not
  --page [PAGE]              also writes the tables as a page, docs/generated/gate.md if none is given

A whole run is a gate without anything kept. Only `rattle` is counted: neither `rt` itself, nor the programs and tests that run. The cost
is noted by bench/gate.d/watched, which runs instead of `rattle`; all else of `rt` is unchanged, including how many jobs it gives a check.
A function's seconds are those between two lines of a check with one job. Without names, the crates whose functions were not reported by a
check with one job are checked again, as long as one of them may have one of the most expensive functions; and the sums by crate are
written into bench/gate.seconds.
"""
import concurrent.futures
import os
import shutil
import subprocess
import sys
import tempfile
import time
from collections.abc import Mapping, Sequence
from dataclasses import dataclass, replace
from pathlib import Path

from wfdev.bench.gate import costs, records
from wfdev.bench.gate.records import Fault, Record
from wfdev.harness.script import Script
from wfdev.repo import crates, generated, paths

SCRIPT = Script("gate", paths.BENCH)
STAND_IN = SCRIPT.folder / "watched"
RECORDS = paths.BENCH_OUT / "gate.jsonl"
FIGURES = paths.BENCH_OUT / "gate.json"
LOG = paths.BENCH_OUT / "gate.log"
SECONDS = paths.BENCH / "gate.seconds"
HEAD = "# The processor seconds of each crate's proof, tests and must-fail edits in a gate that has nothing kept. By bench/gate.\n"
AS_RT = [sys.executable, "-P", "-m", "wfdev.bench.gate.as_rt"]
# The words of `rattle build` that `rattle check` does not take, and whether a value follows.
OF_BUILD = {"--statements": False, "-o": True, "--toolchain": True, "--backend": True}


@dataclass(frozen=True)
class Ended:
    """How a run of the gate ended, and its seconds by the clock, if they are known."""

    status: int
    wall: float | None


def say(text: object) -> None:
    """Reports how far the run is."""
    print(f"gate: {text}", file=sys.stderr, flush=True)


def output_of(*words: str) -> str:
    """Returns what a command writes."""
    return subprocess.run(words, cwd=paths.TOP, check=True, capture_output=True, text=True).stdout.strip()


def check_words(words: Sequence[str]) -> list[str]:
    """Returns the words of a check with one job that proves what a check or a build with these words does."""
    kept, before = ["check"], ""
    for word in words[1:]:
        if word not in OF_BUILD and not OF_BUILD.get(before, False):
            kept.append("1" if before == "--jobs" else word)
        before = word
    return kept


def check_again(record: Record, environment: Mapping[str, str]) -> Record | None:
    """Checks a crate again, and returns the record that reports its functions, or None."""
    if not os.path.isdir(record.at):
        return None
    before = len(records.read(RECORDS))
    words = [str(STAND_IN), *check_words(record.words)]
    subprocess.run(words, cwd=record.at, env=environment, stdout=subprocess.DEVNULL, stderr=subprocess.DEVNULL, check=False)
    found = [it for it in records.read(RECORDS)[before:] if it.crate == record.crate and it.functions and not it.status]
    # (only its functions count)
    return replace(found[0], seconds=0.0) if found else None


def reported_again(known: Sequence[Record], count: int, environment: Mapping[str, str]) -> list[Record]:
    """Returns records of further checks, one on each processor: of crates without functions that may have one of the costliest."""
    found: list[Record] = []
    left_out: set[str] = set()
    processors = os.cpu_count() or 1
    with concurrent.futures.ThreadPoolExecutor(processors) as pool:
        while batch := costs.some_unreported([*known, *found], count, left_out, processors):
            say(f"{', '.join(it.crate for it in batch)}: checked again, for the seconds of functions")
            for record, again in zip(batch, pool.map(lambda it: check_again(it, environment), batch), strict=True):
                if again is None:
                    say(f"{record.crate}: no check reports its functions, so these are left out")
                    left_out.add(record.crate)
                else:
                    found.append(again)
    return found


def prepared() -> dict[str, str]:
    """Empties the records, and returns the environment in which the stand-in notes them."""
    rt = shutil.which("rt")
    if rt is None:
        raise Fault("there is no rt")
    paths.BENCH_OUT.mkdir(exist_ok=True)
    RECORDS.write_bytes(b"")
    rattle = Path(os.path.realpath(rt)).parent / "rattle"
    return {**os.environ, records.WATCHED: str(STAND_IN), records.RECORDS: str(RECORDS), records.RATTLE: str(rattle)}


def count_gate(names: Sequence[str], count: int) -> Ended:
    """Runs the gate on a clone."""
    environment = prepared()
    with tempfile.TemporaryDirectory(prefix="gate-") as room:
        clone = f"{room}/clone"
        subprocess.run(["git", "clone", "-q", paths.TOP, clone], check=True)
        began = time.monotonic()
        with open(LOG, "wb") as log:
            words = [*AS_RT, "ci", "--anew", *names]
            done = subprocess.run(
                words, cwd=clone, env=environment, stdin=subprocess.DEVNULL, stdout=log, stderr=subprocess.STDOUT, check=False
            )
        wall = time.monotonic() - began
        said = LOG.read_text(encoding="utf-8", errors="replace").splitlines()
        say(said[-1] if said else "rt said nothing")
        if not names:
            known = records.read(RECORDS)
            records.write(RECORDS, [*known, *reported_again(known, count, environment)])
    return Ended(done.returncode, wall)


def figures_of(path: Path, names: Sequence[str], count: int, wall: float | None) -> costs.Figures:
    """Returns the figures of the records in a file."""
    lines = {name: crates.line_count(name) for name in crates.read()}
    about = costs.About(
        [*names], output_of("git", "describe", "--always", "--dirty"), output_of("rt", "version"), wall, os.cpu_count(), lines
    )
    return costs.figures(records.read(path), count, about)


def page_of(text: str, page: Path) -> None:
    """Writes the tables as a page, which may replace only a generated page."""
    if page.exists() and "<!-- Generated by" not in paths.read(page):
        raise Fault(f"{page} is not a generated page: name another, or none for {generated.GATE.path()}")
    page.parent.mkdir(parents=True, exist_ok=True)
    page.write_text(generated.GATE.text(text), encoding="utf-8")


def main(words: Sequence[str] | None = None) -> int:
    """Counts, prints the tables, and returns the exit status."""
    parser = SCRIPT.parser(__doc__)
    parser.add_argument("names", nargs="*", metavar="NAME", help="the crates to prove, with those below them (default: all)")
    parser.add_argument("--table", type=Path, metavar="FILE", help="a file of figures that a run kept")
    parser.add_argument("--records", type=Path, metavar="FILE", help="a file of records that a run left")
    parser.add_argument("--page", type=Path, nargs="?", const=generated.GATE.path(), help="a page to write with the tables")
    parser.add_argument("--functions", type=int, default=20, metavar="N", help="how many functions to show (default: 20)")
    given = parser.parse_args(words)
    try:
        ended = Ended(0, None) if given.table or given.records else count_gate(given.names, given.functions)
        path: Path = given.records or RECORDS
        kept = costs.read(given.table) if given.table else figures_of(path, given.names, given.functions, ended.wall)
        if not given.table:
            paths.BENCH_OUT.mkdir(exist_ok=True)
            FIGURES.write_text(kept.text(), encoding="utf-8")
        if ended.wall is not None and ended.status == 0 and not given.names:
            SECONDS.write_text(HEAD + costs.seconds_of(records.read(path), crates.read()), encoding="utf-8")
        text = costs.table(kept)
        if given.page:
            page_of(text, given.page)
    except (Fault, OSError, ValueError, KeyError, subprocess.CalledProcessError) as error:
        say(error)
        return 1
    print(text, end="")
    return ended.status


if __name__ == "__main__":
    sys.exit(main())
