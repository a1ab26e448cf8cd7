"""Crates of trials that are in the folder of a check as text, and how `rt try` runs them next to a copy of the crates."""
import contextlib
import shutil
import subprocess
import tempfile
from collections.abc import Iterator, Mapping
from pathlib import Path

from wfdev.harness.script import Script
from wfdev.repo import crates, paths

SHOWN = 20


def texts(folder: Path) -> dict[str, Path]:
    """Returns the files of a crate that is here as text, by their names in src/: NAME.rt.txt is NAME.rt."""
    return {str(path.relative_to(folder)).removesuffix(".txt"): path for path in sorted(folder.rglob("*.rt.txt"))}


def crate_of(name: str, folder: Path) -> crates.Crate:
    """Returns the crate of this name in the file crates.lines of a check's folder."""
    return crates.read(folder / "crates.lines")[name]


@contextlib.contextmanager
def scratch(crate: crates.Crate, files: Mapping[str, Path]) -> Iterator[Path]:
    """Makes a copy of the crates that a crate of trials depends on, with the crate itself, which has these files.

    The value is the folder of the crate. A library that does not exist is a mistake in crates.lines, and rt reports it.
    """
    known = crates.read()
    with tempfile.TemporaryDirectory(prefix="wf-trials-") as folder:
        room = Path(folder)
        names = crates.below(known, crate.uses)
        for name in names:
            for part in crates.PARTS:
                if (paths.CRATES / name / part).is_dir():
                    shutil.copytree(paths.CRATES / name / part, room / "crates" / name / part)
        lines = [*(known[name].line() for name in names), crate.line()]
        (room / "crates.txt").write_text("".join(lines), encoding="utf-8")
        shutil.copy(paths.TOP / "HANDLES", room)
        for file, path in files.items():
            target = room / "crates" / crate.name / "src" / file
            target.parent.mkdir(parents=True, exist_ok=True)
            shutil.copy(path, target)
        subprocess.run(["git", "init", "-q", "."], cwd=room, check=True)
        yield room / "crates" / crate.name


def run(script: Script, name: str, seconds: int) -> int:
    """Runs the tests of a crate of trials and returns the exit status.

    The crates are text because a proof of them takes many minutes and shows only that they are safe. `rt try` runs
    them unproved, and stops at an index out of bounds, an overflow or a bad access.
    """
    script.require("rt")
    with scratch(crate_of(name, script.folder), texts(script.folder / name)) as folder:
        words = ["rt", "try", "--test", "--seconds", str(seconds)]
        said: list[str] = []
        with subprocess.Popen(words, cwd=folder, stdout=subprocess.PIPE, stderr=subprocess.STDOUT, text=True) as child:
            assert child.stdout is not None
            for line in child.stdout:
                said.append(line)
                if line.startswith("test ") and not line.startswith("test result"):
                    print(line, end="", flush=True)
    if any(line.startswith("test result: ok") for line in said):
        script.say("all trials passed")
        return 0
    print("".join(said[-SHOWN:]), end="")
    script.say("a trial failed")
    return 1
