"""Git's hook before a commit: the crates of the commit are formatted and proved, and no count of checks/style has grown.

Install it with `ln -s ../../checks/pre-commit .git/hooks/pre-commit`. It reads the files of the checkout, not those of
the index. If rt is missing, it says so and checks the rest.
"""
import shutil
import subprocess
import sys
from collections.abc import Iterable, Sequence
from pathlib import Path, PurePosixPath

from wfdev.harness.script import Script
from wfdev.repo import crates, paths

SCRIPT = Script("pre-commit")
SHOWN = 30


def git(*words: str) -> list[str]:
    """Returns the lines that git writes."""
    return subprocess.run(["git", *words], cwd=paths.TOP, capture_output=True, text=True, check=True).stdout.splitlines()


def touched(files: Iterable[str], known: crates.Crates) -> list[str]:
    """Returns the crates that these files belong to, lowest first."""
    parts = [PurePosixPath(path).parts for path in files]
    names = {part[1] for part in parts if len(part) > 2 and part[0] == "crates"}
    return [name for name in crates.below(known, known) if name in names]


def half_staged() -> list[str]:
    """Returns the sources of which the commit has only a part: the file that is checked differs from the committed one."""
    staged, changed = set(git("diff", "--cached", "--name-only")), set(git("diff", "--name-only"))
    return sorted(path for path in staged & changed if path.startswith("crates/"))


def sources_of(name: str) -> dict[Path, bytes]:
    """Returns a crate's sources with their octets."""
    return {path: path.read_bytes() for path in crates.files(name)}


def is_formatted(name: str) -> bool:
    """Returns whether `rt fmt` leaves the crate's files unchanged; if it does not, the files are restored."""
    before = sources_of(name)
    done = subprocess.run(["rt", "fmt"], cwd=paths.CRATES / name, capture_output=True, text=True, check=False)
    changed = [path for path, octets in sources_of(name).items() if octets != before.get(path)]
    for path in changed:
        path.write_bytes(before[path])
        SCRIPT.say(f"{path.relative_to(paths.TOP)} is not formatted: run rt fmt")
    if done.returncode:
        print(done.stdout + done.stderr)
    return not changed and done.returncode == 0


def is_proved(name: str) -> bool:
    """Returns whether `rt check` proves the crate."""
    done = subprocess.run(
        ["rt", "check"], cwd=paths.CRATES / name, stdout=subprocess.PIPE, stderr=subprocess.STDOUT, text=True, check=False
    )
    if done.returncode:
        print("\n".join(done.stdout.splitlines()[-SHOWN:]))
        SCRIPT.say(f"{name} is not proved")
    return done.returncode == 0


def main(words: Sequence[str] | None = None) -> int:
    """Checks the commit and returns the exit status."""
    parser = SCRIPT.parser(__doc__)
    parser.add_argument("crates", nargs="*", metavar="CRATE", help="crates to check instead of those of the commit")
    asked: list[str] = parser.parse_args(words).crates
    names = asked or touched(git("diff", "--cached", "--name-only", "--diff-filter=ACMRD"), crates.read())
    names = [name for name in names if (paths.CRATES / name).is_dir()]
    halves = half_staged()
    for path in halves:
        SCRIPT.say(f"only a part of {path} is in this commit: add all of it, or put the rest away (git stash -k)")
    bad = len(halves) + (subprocess.run([paths.CHECKS / "style", "--brief"], check=False).returncode != 0)
    if names and shutil.which("rt") is None:
        SCRIPT.say(f"there is no rt, so these crates are not checked: {' '.join(names)}")
    elif not bad:
        bad += sum(not is_formatted(name) for name in names)
        bad += 0 if bad else sum(not is_proved(name) for name in names)
    SCRIPT.say(f"{len(names)} crates, {bad} faults")
    return 1 if bad else 0


if __name__ == "__main__":
    sys.exit(main())
