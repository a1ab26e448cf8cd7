"""The folders and files of the checkout that this package belongs to."""
from pathlib import Path

TOP = Path(__file__).resolve().parents[3]
CRATES = TOP / "crates"
CRATE_LIST = TOP / "crates.txt"
CHECKS = TOP / "checks"
BENCH = TOP / "bench"
BENCH_OUT = BENCH / "out"
DOCS = TOP / "docs"
EXAMPLES = TOP / "examples"
HEADER = TOP / "include" / "wf.h"
SCRIPT = TOP / "wf"


def read(path: Path) -> str:
    """Returns the text of a file."""
    return path.read_text(encoding="utf-8")


def shown(path: Path) -> str:
    """Returns a path as a message shows it: relative to the checkout if it is in it."""
    return str(path.relative_to(TOP) if path.is_relative_to(TOP) else path)
