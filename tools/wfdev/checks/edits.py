"""Tries the must-fail edits that the gate leaves out: crates/NAME/edits/*.edit, wrong bodies beyond those of crates/NAME/must-fail.

Each try costs a check of its crate, so the gate has the most telling ones, and the others are in the same form in edits/. This
copies the crates to a scratch folder, puts the others where the gate's are, and runs `rt must-fail` there. It prints a line for
each edit and ends with the status of that run.
"""
import os
import re
import shutil
import subprocess
import sys
import tempfile
from collections.abc import Sequence
from pathlib import Path

from wfdev.harness.script import Script
from wfdev.repo import paths

SCRIPT = Script("edits")
PARTS = ("src", "specs", "proofs", "c")
REPORT = re.compile(r"^rt: must-fail (\S+/\S+\.edit): (.*)$")
LONGEST = 160


def edits_of(crate: Path) -> list[Path]:
    """Returns the edits of a crate's folder that the gate leaves out."""
    return sorted((crate / "edits").glob("*.edit"))


def chosen(top: Path, names: Sequence[str]) -> list[Path]:
    """Returns the folders of these crates, or of all that have such edits. Fails if a given crate has none."""
    folders = [top / "crates" / name for name in names] or sorted((top / "crates").iterdir())
    for folder in folders if names else ():
        if not edits_of(folder):
            SCRIPT.fail(f"{folder.name} has no file crates/{folder.name}/edits/*.edit")
    return [folder for folder in folders if edits_of(folder)]


def link_or_copy(one: str, other: str) -> None:
    """Links a file, or copies it if that is impossible. rt removes a built library's files before it writes new ones."""
    try:
        os.link(one, other)
    except OSError:
        shutil.copy2(one, other)


def lay_out(top: Path, room: Path, tried: Sequence[Path]) -> None:
    """Copies the crates into a room, with the built libraries, and puts the edits of these crates where rt looks for them."""
    for folder in sorted((top / "crates").iterdir()):
        to = room / "crates" / folder.name
        to.mkdir(parents=True)
        for part in PARTS:
            if (folder / part).is_dir():
                shutil.copytree(folder / part, to / part)
        if (folder / "out" / "rlib").is_dir():
            shutil.copytree(folder / "out" / "rlib", to / "out" / "rlib", copy_function=link_or_copy)
    for folder in tried:
        shutil.copytree(folder / "edits", room / "crates" / folder.name / "must-fail")
    for name in ("crates.txt", "HANDLES"):
        shutil.copy2(top / name, room / name)
    subprocess.run(["git", "init", "-q", "."], cwd=room, check=True)


def shortened(line: str) -> str:
    """Returns a line on an edit in short, and any other unchanged."""
    found = REPORT.match(line)
    return f"edits: {found[1]}: {found[2][:LONGEST]}" if found else line


def try_all(room: Path, names: Sequence[str]) -> tuple[int, int]:
    """Runs `rt must-fail` for these crates, and prints what it says. Returns its status and how many edits it reported."""
    reported = 0
    with subprocess.Popen(
        ["rt", "must-fail", *names],
        cwd=room,
        stdin=subprocess.DEVNULL,
        stdout=subprocess.PIPE,
        stderr=subprocess.STDOUT,
        text=True,
        errors="replace",
    ) as child:
        assert child.stdout is not None
        for line in child.stdout:
            print(shortened(line.rstrip("\n")), flush=True)
            reported += REPORT.match(line.rstrip("\n")) is not None
    return child.returncode, reported


def main(words: Sequence[str] | None = None, top: Path = paths.TOP) -> int:
    """Tries the edits and returns the exit status."""
    parser = SCRIPT.parser(__doc__)
    parser.add_argument("crates", nargs="*", metavar="CRATE", help="the crates (default: all that have such edits)")
    names: list[str] = parser.parse_args(words).crates
    SCRIPT.require("rt")
    tried = chosen(top, names)
    if not tried:
        SCRIPT.skip("no crate has a file edits/*.edit")
    wanted = sum(len(edits_of(folder)) for folder in tried)
    with tempfile.TemporaryDirectory(prefix="wf-edits-") as folder:
        lay_out(top, Path(folder), tried)
        status, reported = try_all(Path(folder), [it.name for it in tried])
    SCRIPT.say(f"{reported} of {wanted} tried, {'all refused' if status == 0 else 'not all refused'}")
    return status or int(reported != wanted)


if __name__ == "__main__":
    sys.exit(main())
