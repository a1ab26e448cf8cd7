"""Tests the bench in simulated time, sim/.

  checks/sim            runs its tests, by the program that `./wf which` names; without one, those that need it are skipped
  checks/sim pictures   runs each scenario, a minute or two in all, and compares what it draws with docs/pictures
  checks/sim speed      runs each scenario of sim/speed over the machine, and prints the seconds of a processor that it takes: the
                        least of five runs, because other programs slow down some of them
"""
import filecmp
import functools
import subprocess
import sys
import tempfile
import time
from collections.abc import Callable, Sequence
from pathlib import Path

from wfdev.harness.script import Script
from wfdev.repo import paths, programs

from sim.measure import Result
from sim.models import choose
from sim.reading import read
from sim.runs import Job, find_program, run_one

SCRIPT = Script("sim")
LOOP = 10_000_000
RUNS = 5  # of each scenario whose speed is measured
PICTURES = paths.DOCS / "pictures"


def draw(folder: Path) -> None:
    """Draws the pictures of all scenarios."""
    for scenario in sorted((paths.TOP / "sim" / "scenarios").glob("*.toml")):
        words = [str(paths.SCRIPT), "sim", str(scenario), "--plot", str(folder)]
        subprocess.run(words, cwd=paths.TOP, env=programs.environment(), stdout=subprocess.DEVNULL, check=True)


def compare_pictures() -> int:
    """Draws all pictures, compares them with docs/pictures, and returns the exit status."""
    with tempfile.TemporaryDirectory(prefix="wf-pictures-") as folder:
        draw(Path(folder))
        names = {path.name for place in (PICTURES, Path(folder)) for path in place.glob("*.svg")}
        _, changed, missing = filecmp.cmpfiles(PICTURES, folder, sorted(names), shallow=False)
    for name in [*changed, *missing]:
        SCRIPT.say(f"docs/pictures/{name} differs from what is drawn")
    SCRIPT.say(f"{len(names)} pictures, {len(changed) + len(missing)} differ")
    return 1 if changed or missing else 0


def seconds_of(action: Callable[[], Result]) -> tuple[float, Result]:
    """Returns the seconds of a processor that an action takes, and its result."""
    began = time.process_time()
    result = action()
    return time.process_time() - began, result


def measure_speed() -> int:
    """Prints how long the scenarios of sim/speed take, next to an empty loop, and returns the exit status."""
    program = find_program(SCRIPT.say)
    began = time.process_time()
    for _ in range(LOOP):
        pass
    SCRIPT.say(f"{LOOP:,} turns of an empty loop take {time.process_time() - began:.2f} s")
    for file in sorted((paths.TOP / "sim" / "speed").glob("*.toml")):
        scenario = read(file)
        job = Job(scenario, choose("airtime"), program, round(1e6 * scenario.seconds))
        took, result = min((seconds_of(functools.partial(run_one, job)) for _ in range(RUNS)), key=lambda pair: pair[0])
        head = f"{scenario.title}: {scenario.seconds:g} s in {took:.2f} s, {scenario.seconds / took:.2f} a second"
        SCRIPT.say(f"{head}; {result.total:.0f} Mbit/s, {result.calls:,} calls, {sum(one.offered for one in result.flows):,} frames")
    return 0


def main(words: Sequence[str] | None = None) -> int:
    """Runs the tests, or compares the pictures, and returns the exit status."""
    parser = SCRIPT.parser(__doc__)
    parser.add_argument("what", nargs="?", choices=["pictures", "speed"], help="compare the pictures, or measure the speed, instead")
    what = parser.parse_args(words).what
    if what:
        return compare_pictures() if what == "pictures" else measure_speed()
    if SCRIPT.program_or_none() is None:
        SCRIPT.say("no program is as new as the sources, so tests of the machine are skipped (./wf build --unproved builds one)")
    command = [sys.executable, "-m", "unittest", "discover", "-s", "sim"]
    return subprocess.run(command, cwd=paths.TOP, env=programs.environment(), check=False).returncode


if __name__ == "__main__":
    sys.exit(main())
