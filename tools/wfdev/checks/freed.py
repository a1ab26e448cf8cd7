"""Checks what the proofs do not see: that each node of a frame is freed exactly once.

It builds tests, runs each under valgrind, and fails if one leaves memory or touches memory that is not its own. wf_tests is the
crate of proved tests; wf_part_trials and wf_command_trials are the rows of the checks of these names, and left_behind is a path
and a cell that are dropped with frames in each place, trials of path-trials.d: these are text, and are built as `rt try` runs
them. wf is the built program, which runs once for each command.
"""
import re
import subprocess
import sys
import tempfile
from collections.abc import Sequence
from dataclasses import replace
from pathlib import Path

from wfdev.harness import commands, trials, unproved
from wfdev.harness.script import Script
from wfdev.repo import paths

SCRIPT = Script("freed")
# The checks whose folders have the crates that are text.
TEXTS = {"wf_part_trials": Script("part-trials"), "wf_command_trials": Script("command-trials"), "left_behind": SCRIPT}
ALL = ["wf_tests", *TEXTS, "wf"]
TOOL = ["valgrind", "--leak-check=full", "--show-leak-kinds=all", "--errors-for-leak-kinds=all", "--error-exitcode=9"]
SIZES = {"soak": ["1", "20000", "agreements"], "live": ["1", "2", "50"]}
TRACE = SCRIPT.folder / "left-behind.trace"
SHOWN = 20


def look(name: str, words: Sequence[str], given: bytes = b"") -> bool:
    """Runs a program under valgrind, prints what it allocated, and returns whether it freed all of it once."""
    with tempfile.NamedTemporaryFile(mode="r", encoding="utf-8", errors="replace") as log:
        command = [*TOOL, f"--log-file={log.name}", *words]
        done = subprocess.run(command, input=given, stdout=subprocess.PIPE, stderr=subprocess.STDOUT, check=False)
        said = log.read()
    if done.returncode:
        print(said, end="")
        SCRIPT.say(f"{name}: ended with {done.returncode}")
        return False
    usage = re.search(r"total heap usage: (.*) bytes allocated", said)
    SCRIPT.say(f"{name}: {usage[1] if usage else '?'} octets")
    return True


def look_at_the_program() -> int:
    """Runs each command of the built program; a replay leaves frames in each place. Returns how many runs failed."""
    found = SCRIPT.program_or_none()
    if found is None:
        SCRIPT.say("no program is built, so wf is left out")
        return 0
    bad = 0
    for command in commands.all_of(found.path, SIZES):
        given = TRACE.read_bytes() if command.name.startswith("replay") else command.given
        command = replace(command, given=given)
        bad += not look(f"wf {' '.join(command.words)}", command.line(found.path), command.given or b"")
    return bad


def look_at_each(name: str, tests: Path) -> int:
    """Runs each test of a program of tests. Returns how many failed."""
    listed = subprocess.run([tests, "--list"], capture_output=True, text=True, check=True).stdout
    names = re.findall(r"^(.*): test$", listed, re.M)
    if not names:
        SCRIPT.say(f"{name}: there are no tests")
    return sum(not look(test, [str(tests), test]) for test in names) if names else 1


def look_at_tests(folder: Path) -> int:
    """Builds the proved tests of the crate in a folder and runs each. Returns how many failed."""
    done = subprocess.run(["rt", "test"], cwd=folder, stdout=subprocess.PIPE, stderr=subprocess.STDOUT, text=True, check=False)
    tests = folder / "out" / f"{folder.name}_tests"
    if done.returncode or not tests.exists():
        print("\n".join(done.stdout.splitlines()[-SHOWN:]))
        SCRIPT.say(f"{folder.name}: its tests were not built")
        return 1
    return look_at_each(folder.name, tests)


def files_of(crate: str) -> dict[str, Path]:
    """Returns the files of a crate that is text, by their names in src/."""
    files = trials.texts(TEXTS[crate].folder / crate)
    if crate == "left_behind":
        others = trials.texts(Script("path-trials").folder / "wf_path_trials")
        files |= {name: others[name] for name in ("faults.rt", "left_behind.rt")}
    return files


def look_at_texts(name: str) -> int:
    """Builds the tests of a crate that is text and runs each. Returns how many failed."""
    crate = trials.crate_of(name, TEXTS[name].folder)
    with trials.scratch(crate, files_of(name)) as folder, tempfile.TemporaryDirectory() as room:
        tests = Path(room) / "tests"
        try:
            unproved.build_tests(folder, tests, Path(room))
        except unproved.NotBuilt as why:
            SCRIPT.say(f"{name}: its tests were not built: {why}")
            return 1
        return look_at_each(name, tests)


def look_at(name: str) -> int:
    """Looks at one of ALL. Returns how many runs failed."""
    if name == "wf":
        return look_at_the_program()
    return look_at_texts(name) if name in TEXTS else look_at_tests(paths.CRATES / name)


def main(words: Sequence[str] | None = None) -> int:
    """Looks at all crates, or at those that are given, and returns the exit status."""
    parser = SCRIPT.parser(__doc__)
    parser.add_argument("names", nargs="*", metavar="NAME", help=f"what to look at: {', '.join(ALL)} (default: all)")
    names: list[str] = parser.parse_args(words).names or ALL
    for name in names:
        if name not in ALL:
            parser.error(f"there is no {name} to look at; the names are: {', '.join(ALL)}")
    SCRIPT.require("valgrind", "rt")
    bad = sum(map(look_at, names))
    if not bad:
        SCRIPT.say("all memory was freed, exactly once")
    return SCRIPT.ended(bad)


if __name__ == "__main__":
    sys.exit(main())
