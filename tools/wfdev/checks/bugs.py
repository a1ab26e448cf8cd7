"""Tries wrong bodies that break what the proofs leave open: a check has to find each.

Each file bugs.d/NAME.edit has a wrong body in the form of the must-fail edits, with the path of the file from the top, and with
`\\n` for the end of a line. It has two lines more: `by` has the words of the check that finds it, and `says` a text of that
check's output. For each this copies the checkout to a scratch folder, edits the file there, builds what the check needs without
proofs, and runs the check, which has to fail. Before, each of the checks has to pass on the sources as they are. It prints a
line for each wrong body. A build takes a minute.
"""
import os
import re
import shlex
import shutil
import subprocess
import sys
import tempfile
from collections.abc import Sequence
from dataclasses import dataclass
from pathlib import Path

from wfdev.harness.script import Difference, Script
from wfdev.repo import paths

SCRIPT = Script("bugs")
FORM = re.compile(r"file: (.*)\nold: (.*)\nnew: (.*)\nby: (.*)\nsays: (.*)\n")
# What `./wf` builds for a check. Trials build what they need from the sources next to them.
PROGRAM = ("build", "--unproved")
BUILDS: dict[str, tuple[str, ...]] = {"c-library": ("lib", "--unproved"), "command-trials": ()}
LEFT_OUT = shutil.ignore_patterns(".git", "out", ".cache", "__pycache__")
SECONDS = 3600
SHOWN = 2000


@dataclass(frozen=True)
class Bug:
    """A wrong body: the file, the old and the new text, the words of the check that finds it, and what the check prints."""

    name: str
    file: str
    old: str
    new: str
    by: list[str]
    says: str

    def apply(self, top: Path) -> None:
        """Edits the file below a top. The old text has to be there once."""
        path = top / self.file
        text = paths.read(path)
        if text.count(self.old) != 1:
            raise Difference(f"{self.file}: expected once, found {text.count(self.old)} times: {self.old}")
        path.write_text(text.replace(self.old, self.new), encoding="utf-8")


def read(path: Path) -> Bug:
    """Reads a wrong body from its file."""
    parts = FORM.fullmatch(paths.read(path))
    if parts is None:
        SCRIPT.fail(f"{paths.shown(path)}: expected the lines file, old, new, by and says")
    file, old, new, by, says = parts.groups()
    return Bug(path.stem, file, old.replace("\\n", "\n"), new.replace("\\n", "\n"), shlex.split(by), says)


def bugs(folder: Path, names: Sequence[str]) -> list[Bug]:
    """Returns the wrong bodies of a folder that have these names, or all."""
    found = [read(path) for path in sorted(folder.glob("*.edit")) if not names or path.stem in names]
    if unknown := set(names) - {bug.name for bug in found}:
        SCRIPT.fail(f"{paths.shown(folder)} has no {', '.join(sorted(unknown))}")
    return found


def run(top: Path, script: str, words: Sequence[str]) -> tuple[int, str]:
    """Runs a script of a checkout, which uses its own program. Returns the status and what it prints."""
    known = {name: value for name, value in os.environ.items() if name not in ("WF_PROGRAM", "WF")}
    done = subprocess.run(
        [str(top / script), *words],
        cwd=top,
        env=known,
        stdin=subprocess.DEVNULL,
        stdout=subprocess.PIPE,
        stderr=subprocess.STDOUT,
        timeout=SECONDS,
        check=False,
    )
    return done.returncode, done.stdout.decode(errors="replace")


def check(by: Sequence[str], top: Path) -> tuple[int, str]:
    """Builds what a check needs, and runs it. Returns the status and what it prints."""
    name, *words = by
    if wanted := BUILDS.get(name, PROGRAM):
        status, said = run(top, "wf", wanted)
        if status:
            raise Difference(f"was not built:\n{said[-SHOWN:]}")
    return run(top, f"checks/{name}", words)


def passes(by: Sequence[str], top: Path = paths.TOP) -> None:
    """Runs a check on the sources of a checkout as they are. Raises Difference if it does not pass, or is skipped."""
    status, said = check(by, top)
    if status or "skipped, since" in said:
        raise Difference(f"checks/{shlex.join(by)} does not pass without a wrong body: it ends with {status}\n{said[-SHOWN:]}")


def look_for(bug: Bug, top: Path) -> str:
    """Runs the check of a wrong body. Returns its line on the wrong body."""
    status, said = check(bug.by, top)
    lines = [line for line in said.splitlines() if bug.says in line]
    if status == 0 or not lines:
        raise Difference(f"checks/{shlex.join(bug.by)} ends with {status}, and not with: {bug.says}\n{said[-SHOWN:]}")
    return lines[0]


def find(bug: Bug, top: Path = paths.TOP) -> str:
    """Returns the line of the check that finds a wrong body in a copy of a checkout. Raises Difference if it finds none."""
    with tempfile.TemporaryDirectory(prefix="wf-bugs-") as room:
        copy = Path(room) / "tree"
        shutil.copytree(top, copy, ignore=LEFT_OUT, symlinks=True)
        bug.apply(copy)
        return look_for(bug, copy)


def main(words: Sequence[str] | None = None) -> int:
    """Tries the wrong bodies and returns the exit status."""
    parser = SCRIPT.parser(__doc__)
    parser.add_argument("names", nargs="*", metavar="NAME", help="the wrong bodies to try (default: all)")
    names: list[str] = parser.parse_args(words).names
    SCRIPT.require("rt", "cc", "valgrind")
    known, bad = bugs(SCRIPT.folder, names), 0
    passed: set[tuple[str, ...]] = set()
    for bug in known:
        by = tuple(bug.by)
        try:
            if by not in passed:
                passes(by)
                passed.add(by)
            SCRIPT.say(f"{bug.name}: checks/{shlex.join(by)} says: {find(bug)}")
        except (Difference, subprocess.TimeoutExpired) as why:
            bad += 1
            SCRIPT.say(f"{bug.name}: {why}")
    SCRIPT.say(f"{len(known) - bad} of {len(known)} found")
    return 1 if bad else 0


if __name__ == "__main__":
    sys.exit(main())
