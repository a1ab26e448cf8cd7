"""Runs the two programs that are in faults.d as text, and prints their tables.

`faults` runs each command over a source and a sink in memory that fail at each of their calls, and over each prefix of its
input. `octets` gives a receive half and a path octets that no station sends. A proof of these programs would take long and show
only that they are safe: they run next to a copy of the crates by `rt try`, which stops at a bad access or an overflow.
"""
import subprocess
import sys
from collections.abc import Sequence

from wfdev.harness import trials
from wfdev.harness.script import Script

SCRIPT = Script("faults")
PROGRAMS = ["faults", "octets"]
SECONDS = 3000
SHOWN = 20


def run(program: str) -> bool:
    """Runs one of the programs, prints its table, and returns whether all went well."""
    name = f"wf_try_{program}"
    crate, files = trials.crate_of(name, SCRIPT.folder), trials.texts(SCRIPT.folder / name)
    with trials.scratch(crate, files) as folder:
        words = ["rt", "try", "--seconds", str(SECONDS)]
        done = subprocess.run(words, cwd=folder, capture_output=True, text=True, check=False)
    print(done.stdout, end="", flush=True)
    if done.returncode:
        print("\n".join(done.stderr.splitlines()[-SHOWN:]))
    return done.returncode == 0


def main(words: Sequence[str] | None = None) -> int:
    """Runs the programs and returns the exit status."""
    parser = SCRIPT.parser(__doc__)
    parser.add_argument("programs", nargs="*", metavar="PROGRAM", help=f"what to run: {', '.join(PROGRAMS)} (default: both)")
    asked: list[str] = parser.parse_args(words).programs or PROGRAMS
    for program in asked:
        if program not in PROGRAMS:
            parser.error(f"there is no program {program}; the programs are: {', '.join(PROGRAMS)}")
    SCRIPT.require("rt")
    return SCRIPT.ended(sum(not run(program) for program in asked), "programs")


if __name__ == "__main__":
    sys.exit(main())
