"""Runs ns-3 with the library, and next to the bench of sim/.

  checks/ns3 path   airtime shares and delays over a path of the library in the device's place (examples/ns3)
  checks/ns3 wifi   the scenarios of checks/ns3.d over ns-3, with its own Wi-Fi and with a path, and over sim/
  checks/ns3        both

The library is the proved one that `./wf lib` left if it is as new as the sources, else the unproved one, which is built if
necessary. If ns-3 or a C++ compiler is missing, the check is skipped. It fails if the path does not share airtime evenly, or if
nothing arrives of a flow over it: ns-3's monitor knows a packet by its tag, so also if packets lose their tags. It also fails if
the bench gives a station another throughput than ns-3 does, by more than 10 %.
"""
import os
import re
import subprocess
import sys
import tempfile
from collections.abc import Sequence
from dataclasses import dataclass
from pathlib import Path

from wfdev.checks import ns3_wifi
from wfdev.harness.script import Script
from wfdev.repo import paths

from sim.runs import find_program

SCRIPT = Script("ns3")
PATH, WIFI = "path", "wifi"
MODULES = ["applications", "flow-monitor", "internet", "traffic-control", "wifi", "mobility", "network", "core"]
STRICT = ["-std=c++17", "-Wall", "-Wextra", "-Werror", "-O1"]
STATIONS = 3
MOST_APART = 2.0  # percent of the airtime; a run of six seconds has 0.1


@dataclass(frozen=True)
class Share:
    """The share of a station over the path: percent of the airtime, and kbit/s that arrived."""

    airtime: float
    arrived: float


def words_of_ns3(modules: Sequence[str]) -> list[str]:
    """Returns the compiler's words for ns-3."""
    # Only -L and -l: Debian's files also name others that its package does not bring.
    asked = ["pkg-config", "--cflags", "--libs-only-L", "--libs-only-l", *(f"ns3-{name}" for name in modules)]
    found = subprocess.run(asked, capture_output=True, text=True, check=False)
    if found.returncode:
        SCRIPT.skip("pkg-config knows no ns-3")
    return found.stdout.split()


def build(room: Path, source: Path, modules: Sequence[str], *words: str | Path) -> Path:
    """Builds a program, and returns its path."""
    built = room / source.stem
    compiler = os.environ.get("CXX", "c++")
    subprocess.run([compiler, *STRICT, source, *words, *words_of_ns3(modules), "-o", built], check=True)
    return built


def over_the_path(said: str) -> list[Share]:
    """Returns the shares in the first table."""
    rows = [re.split(r" +", line) for line in said.splitlines()[2 : 2 + STATIONS]]
    return [Share(float(row[2]), float(row[3])) for row in rows]


def run_path(room: Path, words: Sequence[str]) -> None:
    """Builds and runs the bench of examples/ns3 with these words."""
    library = SCRIPT.library()
    built = build(room, paths.EXAMPLES / "ns3" / "queues.cc", MODULES, "-I", paths.HEADER.parent, library)
    said = subprocess.run([built, *words], capture_output=True, text=True, check=True).stdout
    print(said, end="")
    shares = over_the_path(said)
    airtimes = [share.airtime for share in shares]
    if max(airtimes) - min(airtimes) > MOST_APART:
        SCRIPT.fail(f"the path gives the stations {airtimes} percent of the airtime")
    if min(share.arrived for share in shares) == 0:
        SCRIPT.fail(f"nothing arrived of a flow over the path: {[share.arrived for share in shares]} kbit/s")
    SCRIPT.say(f"the stations have the same airtime with {paths.shown(library)}")


def run_wifi(room: Path, names: Sequence[str]) -> int:
    """Builds ns-3's Wi-Fi, compares it with the bench, and returns the exit status."""
    library = SCRIPT.library()
    headers: list[str | Path] = ["-I", paths.HEADER.parent, "-I", paths.EXAMPLES / "ns3"]
    built = build(room, SCRIPT.folder / "wifi.cc", ns3_wifi.MODULES, *headers, library)
    program = find_program(SCRIPT.say) if SCRIPT.program_or_none() else None
    bad = ns3_wifi.compare_all(SCRIPT, built, program, names)
    SCRIPT.say(f"{bad} rows differ from ns-3's by more than {100 * ns3_wifi.MOST_APART:.0f} %")
    return 1 if bad else 0


def main(words: Sequence[str] | None = None) -> int:
    """Runs the check that the arguments name, and returns the exit status."""
    parser = SCRIPT.parser(__doc__)
    parser.add_argument("what", nargs="?", choices=[PATH, WIFI], help="one of the two")
    parser.add_argument("names", nargs="*", metavar="SCENARIO", help=f"with {WIFI}: only these")
    parser.add_argument("--seconds", metavar="N", help=f"with {PATH}: the simulated time")
    given = parser.parse_args(words)
    SCRIPT.require(os.environ.get("CXX", "c++"), "pkg-config")
    with tempfile.TemporaryDirectory(prefix="wf-ns3-") as folder:
        room = Path(folder)
        if given.what != WIFI:
            run_path(room, [f"--seconds={given.seconds}"] if given.seconds else [])
        return run_wifi(room, given.names) if given.what != PATH else 0


if __name__ == "__main__":
    sys.exit(main())
