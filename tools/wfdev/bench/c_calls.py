"""Counts the instructions of a call through C, by callgrind, in two drivers over the static library. It is no test.

  bench/c-calls         prints for each export its calls, and per call the instructions of all that it does, and its own
  bench/c-calls --page  writes the tables into docs/generated/c-calls.md too, between its two marks

The library is the proved one that `./wf lib` left if it is as new as the sources, else the unproved one, which is built if
necessary; the tables say which. The drivers are examples/c/driver.c, which copies bodies, and bench/c-calls.d/gather.c, which
does not. An export itself takes the path out of the handle, puts it back, and writes the answer as numbers. The run needs a C
compiler and valgrind, and takes a minute.
"""
import subprocess
import sys
from collections.abc import Iterator, Sequence
from pathlib import Path

from wfdev.bench import callgrind, marks, origin
from wfdev.harness.script import Script
from wfdev.repo import paths, programs

SCRIPT = Script("c-calls", paths.BENCH)
PAGE = paths.DOCS / "generated" / "c-calls.md"
DRIVERS = [paths.EXAMPLES / "c" / "driver.c", SCRIPT.folder / "gather.c"]
PREFIX = "wf_path_"
# The calls that each frame goes through, from its enqueue to its return.
FRAME = ("enqueue_bare", "pull", "header", "done_bits", "reap")


def counted(driver: Path, library: Path) -> callgrind.Profile:
    """Returns what callgrind counts in a run of a driver."""
    program, kept = paths.BENCH_OUT / driver.stem, paths.BENCH_OUT / f"c-calls-{driver.stem}.callgrind"
    subprocess.run(["cc", "-std=c99", "-O2", "-I", paths.HEADER.parent, driver, library, "-o", program], check=True)
    callgrind.run([program], kept)
    return callgrind.read(kept)


def table(driver: Path, profile: callgrind.Profile) -> Iterator[str]:
    """Yields the lines of the table of a driver."""
    yield f"In {paths.shown(driver)}:\n"
    yield "| Function | Calls | All | Itself |"
    yield "|---|---:|---:|---:|"
    for name in sorted(name for name in profile.callees() if name.startswith(PREFIX)):
        calls, alone = profile.calls_of(name), profile.own[name]
        yield f"| `{name}` | {calls:,} | {(alone + profile.below[name]) / calls:,.0f} | {alone / calls:,.0f} |"
    yield ""


def per_frame(profile: callgrind.Profile) -> str:
    """Returns the line that says what a frame takes in the driver that does not copy bodies."""
    names = [PREFIX + name for name in FRAME]
    frames, pulls = profile.calls_of(names[0]), profile.calls_of(names[1])
    total = sum(profile.own[name] + profile.below[name] for name in names)
    return f"A frame takes {total / frames:,.0f} instructions there over {', '.join(FRAME)}, in aggregates of {frames / pulls:.0f}.\n"


def tables(library: Path) -> str:
    """Returns the tables, after a line that says what they were made with."""
    kind = "proved" if library == programs.LIBRARY else "unproved"
    lines = [f"The {kind} library of {origin.sources()},", f"by {origin.tools()}.\n"]
    for driver in DRIVERS:
        profile = counted(driver, library)
        lines += table(driver, profile)
    return "\n".join([*lines, per_frame(profile)])


def main(words: Sequence[str] | None = None) -> int:
    """Counts, prints the tables, and returns the exit status."""
    parser = SCRIPT.parser(__doc__)
    parser.add_argument("--page", action="store_true", help="write the tables into docs/generated/c-calls.md too")
    given = parser.parse_args(words)
    SCRIPT.require("cc", "valgrind", "rt")
    paths.BENCH_OUT.mkdir(exist_ok=True)
    text = tables(SCRIPT.library())
    print(text, end="")
    if given.page:
        PAGE.write_text(marks.into(paths.read(PAGE), SCRIPT.name, text), encoding="utf-8")
    return 0


if __name__ == "__main__":
    sys.exit(main())
