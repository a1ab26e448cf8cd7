"""Runs the command lines of README.md and docs/, and compares the output, and the sources shown, with what the page shows.

A command line is in a block that begins with ```console, after `$ `. The lines after it are its standard output, and a line
`...` means any lines. A command with a tool that is missing is left out, with a message. The commands run at the top
of the repository by the program that `./wf which` names; if there is none, the check is skipped. A block after a line
<!-- PATH --> must be the whole file of that path. With given pages, each command without a built program takes a minute.
"""
import re
import shutil
import subprocess
import sys
from collections.abc import Iterator, Sequence
from dataclasses import dataclass
from pathlib import Path

from wfdev.harness.script import Script
from wfdev.repo import paths, programs

SCRIPT = Script("pages")
TOOLS = ["tshark", "text2pcap", "valgrind", "cc", "c++", "pkg-config", "rt", "python3"]
ANY = "..."


@dataclass(frozen=True)
class Example:
    """A command of a page, and the lines that it has to write."""

    command: str
    wanted: list[str]


def examples(text: str) -> Iterator[Example]:
    """Yields the commands of a page."""
    for block in re.findall(r"^```console\n(.*?)^```", text, re.M | re.S):
        for part in re.split(r"^\$ ", block, flags=re.M)[1:]:
            lines = part.splitlines()
            count = 1
            while lines[count - 1].endswith("\\"):
                count += 1
            yield Example("\n".join(lines[:count]), lines[count:])


def sources(text: str) -> list[tuple[Path, str]]:
    """Returns each file that a page shows whole, and what the page shows."""
    shown = re.findall(r"^<!-- (\S+) -->\n```\w*\n(.*?)^```", text, re.M | re.S)
    return [(paths.TOP / path, content) for path, content in shown]


def missing_tool(command: str, has_program: bool) -> str | None:
    """Returns a tool that a command needs and that is missing, if any."""
    if "./wf" in command and not has_program and shutil.which("rt") is None:
        return "built program, and no rt"
    named = [tool for tool in TOOLS if re.search(rf"(?<![\w./-]){re.escape(tool)}(?![\w./-])", command)]
    return next((tool for tool in named if shutil.which(tool) is None), None)


def fits(wanted: Sequence[str], written: Sequence[str]) -> bool:
    """Returns whether lines are those wanted, with any lines for `...`."""
    pattern = "".join(r"(?:.*\n)*" if line == ANY else re.escape(line) + "\n" for line in wanted)
    return re.fullmatch(pattern, "".join(line + "\n" for line in written)) is not None


def wrong_sources(page: Path) -> int:
    """Returns how many of the files that a page shows differ from the page."""
    wrong = [path for path, shown in sources(paths.read(page)) if paths.read(path) != shown]
    for path in wrong:
        print(f"{page.name}: {paths.shown(path)} differs from what the page shows")
    return len(wrong)


def run_all(page: Path, has_program: bool) -> tuple[int, int]:
    """Runs the commands of a page. Returns how many ran, and how many differ."""
    run = failed = 0
    for example in examples(paths.read(page)):
        missing = missing_tool(example.command, has_program)
        if missing:
            print(f"{page.name}: there is no {missing}, so this is not run: {example.command}")
            continue
        done = subprocess.run(
            ["bash", "-c", example.command], cwd=paths.TOP, env=programs.environment(), capture_output=True, text=True, check=False
        )
        written = done.stdout.splitlines()
        run += 1
        if not fits(example.wanted, written):
            failed += 1
            print("\n".join([f"{page.name}: {example.command}", "--- wanted", *example.wanted, "--- written", *written]))
    return run, failed


def main(words: Sequence[str] | None = None) -> int:
    """Runs the commands, prints what differs, and returns the exit status."""
    parser = SCRIPT.parser(__doc__)
    parser.add_argument("pages", nargs="*", type=Path, metavar="PAGE", help="the pages (default: README.md, docs/*.md and crates/*/README.md)")
    asked: list[Path] = parser.parse_args(words).pages
    program = SCRIPT.program_or_none() if asked else SCRIPT.program()
    run = failed = 0
    pages = [paths.TOP / "README.md", *sorted(paths.DOCS.glob("*.md")), *sorted(paths.CRATES.glob("*/README.md"))]
    for page in asked or pages:
        failed += wrong_sources(page)
        ran, differed = run_all(page, program is not None)
        run, failed = run + ran, failed + differed
    SCRIPT.say(f"{run} commands run, {failed} differences")
    return 1 if failed else 0


if __name__ == "__main__":
    sys.exit(main())
