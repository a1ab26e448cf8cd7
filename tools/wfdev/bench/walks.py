"""Counts the functions that one more line of a trace runs through, and how deep their calls are.

The program is built with nothing proved and nothing optimized, so that no call is inlined, and runs under callgrind twice: on a
trace, and on the same trace with one line more. This line runs through the functions that are called more often the second
time, from the program's loop to its answer. Only functions of this repository are counted: none of libraries, closures as part
of the function that they are in, and none that the compiler writes (drops and copies).
"""
import re
import sys
import tempfile
from collections import defaultdict
from collections.abc import Callable, Iterator, Mapping, Sequence, Set
from dataclasses import dataclass
from pathlib import Path

from wfdev.bench import callgrind
from wfdev.harness import unproved
from wfdev.harness.script import Script
from wfdev.repo import paths

SCRIPT = Script("walks", paths.BENCH)
LOOP = "wf_run_replay::runner::play"
PATH = "wf_path::path::Path::call"
DONE = "wf_path::path::Path::done_bits"
STATION = ["cell", "join 0 64 100 3"]
FRAME = "enq 0 0 7 1500"
FRAMES = [FRAME] * 90
# Two exchanges of 32 frames that arrived and were answered.
HEARD = [*(f"arrive {exchange} {index}" for exchange in (0, 1) for index in range(32)), "answer 0", "answer 1"]

Edges = Mapping[str, Set[str]]


@dataclass(frozen=True)
class Walk:
    """A line that is walked, as it is given first and again, the lines before it, and the path's function that it reaches."""

    name: str
    before: list[str]
    line: str
    again: str
    path: str = PATH


@dataclass(frozen=True)
class Length:
    """The functions that a line runs through, and the greatest depth of their calls."""

    functions: list[str]
    deep: int


WALKS = [
    Walk("enq", [*STATION, *[FRAME] * 3], FRAME, FRAME),
    Walk("pull", [*STATION, *FRAMES], "pull be", "pull be"),
    Walk("done", [*STATION, *FRAMES, "pull be", "pull be", *HEARD], "done 0 heard", "done 1 heard", DONE),
]


def profile_of(program: Path, lines: Sequence[str], folder: Path) -> callgrind.Profile:
    """Returns the profile of a replay of these lines."""
    trace, kept = folder / "trace", folder / "counted"
    trace.write_text("\n".join([*lines, "end", ""]), encoding="utf-8")
    with open(trace, "rb") as given:
        callgrind.run([program, "replay"], kept, given)
    return callgrind.read(kept)


def is_dropped(name: str) -> bool:
    """Returns whether the compiler wrote a function, to drop or to copy a value."""
    return "Destruct" in name or name.endswith("::drop") or "Clone" in name


def shown(name: str) -> str | None:
    """Returns the name of a function of this repository, for a closure that of the function that it is in; None for others."""
    if not name.startswith("wf") or is_dropped(name):
        return None
    closure = re.match(r"(wf\w*(?:::\w+)*)::fn::([\w:]+)::\w+(?:\+.*)?$", name)
    plain = f"{closure[1]}::{closure[2]}" if closure else name
    return re.sub(r"::<.*$", "", plain)


def below(edges: Edges, root: str) -> set[str]:
    """Returns all that a function calls, directly or not, except what only drops a value."""
    found: set[str] = set()
    waiting = [root]
    while waiting:
        name = waiting.pop()
        if name not in found:
            found.add(name)
            waiting += [called for called in edges.get(name, ()) if not is_dropped(called)]
    return found


def depth(edges: Edges, root: str, kept: Set[str]) -> int:
    """Returns how many functions of this repository are in the longest chain of calls from here."""
    deepest: dict[str, int] = {}

    def of(name: str, above: frozenset[str]) -> int:
        """Returns the depth from a function, below those that are above it."""
        if name in above:
            return 0
        if name not in deepest:
            more = max((of(called, above | {name}) for called in edges.get(name, ()) if called in kept), default=0)
            deepest[name] = more + (shown(name) is not None and "::fn::" not in name)
        return deepest[name]

    return of(root, frozenset())


def root_of(edges: Edges, name: str) -> str:
    """Returns a function by the beginning of its name."""
    found = [caller for caller in edges if re.sub(r"::<.*$", "", caller) == name]
    if len(found) != 1:
        SCRIPT.fail(f"{len(found)} functions are called {name}")
    return found[0]


def more_calls(before: callgrind.Profile, after: callgrind.Profile) -> Edges:
    """Returns the calls that are more in the second profile."""
    edges: dict[str, set[str]] = defaultdict(set)
    for (caller, called), times in after.calls.items():
        if times > before.calls[caller, called]:
            edges[caller].add(called)
    return edges


def length(edges: Edges, name: str) -> Length:
    """Returns how far a line goes from this function."""
    root = root_of(edges, name)
    kept = below(edges, root)
    functions = {found for it in kept if (found := shown(it)) is not None}
    return Length(sorted(functions), depth(edges, root, kept))


def rows(profile: Callable[[Sequence[str]], callgrind.Profile], with_names: bool) -> Iterator[str]:
    """Yields the rows of the table, and after each the names of the functions, if they are asked for."""
    for walk in WALKS:
        edges = more_calls(profile([*walk.before, walk.line]), profile([*walk.before, walk.line, walk.again]))
        whole, inner = length(edges, LOOP), length(edges, walk.path)
        crates = len({one.split("::")[0] for one in whole.functions})
        yield f"{walk.name:6} {len(whole.functions):9} {crates:7} {whole.deep:5} {len(inner.functions):28} {inner.deep:5}"
        if with_names:
            yield from (f"  {one}{' *' if one in inner.functions else ''}" for one in whole.functions)


def main(words: Sequence[str] | None = None) -> int:
    """Counts, prints the table, and returns the exit status."""
    parser = SCRIPT.parser(__doc__)
    parser.add_argument("--list", action="store_true", help="print the names of the functions")
    parser.add_argument("--program", type=Path, help="a program that is built already, without optimization")
    given = parser.parse_args(words)
    SCRIPT.require("valgrind")
    with tempfile.TemporaryDirectory(prefix="wf-walks-") as name:
        folder = Path(name)
        program: Path = given.program or folder / "wf.plain"
        if given.program is None:
            SCRIPT.require("rt")
            (folder / "made").mkdir()
            unproved.build_plain("wf", program, folder / "made")
        print("line   functions  crates  deep   of them in the path  deep")
        for row in rows(lambda lines: profile_of(program, lines, folder), given.list):
            print(row, flush=True)
    return 0


if __name__ == "__main__":
    sys.exit(main())
