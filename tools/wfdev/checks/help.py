"""Checks that the help is right: it has each call, setting and range of docs/TRACE.md and each command of README.md.

./wf prints the texts of the sources, and so does the built program; the version is equal to the file VERSION everywhere;
and the messages about faults have the events of the help, and the ranges of docs/TRACE.md. Settings and calls are
generated: see checks/table.
"""
import re
import subprocess
import sys
from collections.abc import Iterator, Mapping, Sequence
from pathlib import Path

from wfdev.harness.script import Script
from wfdev.repo import paths

SCRIPT = Script("help")
TEXTS = paths.CRATES / "wf_run" / "src" / "help" / "texts.rt"
FORMS = paths.CRATES / "wf" / "src" / "forms.rt"
PAGE = paths.DOCS / "TRACE.md"
TOPICS = ["replay", "soak", "live", "session", "uplink", "frames", "faults"]
MOST_COLUMNS = 95
SETTING = re.compile(r"^\| `(\w+)` \| \d+ \| (\d+)\.\.(\d+) \|", re.M)

Texts = Mapping[str, str]


def texts() -> dict[str, str]:
    """Returns the texts of the sources, by their names."""
    return dict(re.findall(r'^pub const (\w+): [^"]*"(.*?)^";$', paths.read(TEXTS), re.M | re.S))


def written(command: Path, words: Sequence[str]) -> tuple[str, int]:
    """Returns the output of a program with these arguments, and its status."""
    done = subprocess.run([command, *words], stdin=subprocess.DEVNULL, capture_output=True, text=True, check=False)
    return done.stdout, done.returncode


def unlike_pages(known: Texts) -> Iterator[str]:
    """Yields what pages say and the help does not."""
    page = paths.read(PAGE)
    for name, low, high in SETTING.findall(page):
        if f"{name}={low}..{high}" not in known["REPLAY"].split():
            yield f"REPLAY lacks the setting {name} with its range, {low}..{high}"
    calls = re.search(r"^\| Line \| Arguments.*?\n\n", page, re.M | re.S)
    for word in re.findall(r"`([a-z]+)", "".join(re.findall(r"^\|([^|]*)", calls[0] if calls else "", re.M))):
        if not re.search(rf"^  {word}\b", known["REPLAY"], re.M):
            yield f"REPLAY lacks the call {word}"
    for kind in re.findall(r"^\| `([a-z-]+)` \| ", page.partition("## Faults")[2], re.M):
        if not re.search(rf"^  {kind}  ", known["FAULTS"], re.M):
            yield f"FAULTS lacks the fault {kind}"
    for form in re.findall(r"^\| `wf ([^`]*)` \|", paths.read(paths.TOP / "README.md"), re.M):
        if not re.search(rf"^  wf {re.escape(form)}( <|  )", known["OVERVIEW"], re.M):
            yield f"OVERVIEW lacks the command {form}"


def forms() -> Iterator[tuple[str, list[str]]]:
    """Yields the forms of lines that messages about faults give, with the name of the command's text."""
    for name, listed in re.findall(r"^const (\w+): \[&\[u8\]; \d+\] = \[(.*?)^\];", paths.read(FORMS), re.M | re.S):
        yield name, re.findall(r'b"([^"]*)"', listed)


def unlike_faults(known: Texts) -> Iterator[str]:
    """Yields what messages about faults say and neither the help nor docs/TRACE.md says."""
    page = paths.read(PAGE)
    for name, listed in forms():
        lines = re.findall(r"^  ([a-z]+(?: (?:[A-Z]+|vht|he|air))*(?: \[[^\]]*\])?)(?:  .*)?$", known[name], re.M)
        if lines != listed:
            yield f"messages about faults list other forms than {name}: {sorted({*lines} ^ {*listed})}"
    for low, high in re.findall(r'b"(\d+) to (\d+)"', paths.read(FORMS)):
        if not re.search(rf"^\| `[a-z]+ .*\b{low}\.\.{high}\b", page, re.M):
            yield f"messages about faults give the range {low} to {high}, which docs/TRACE.md does not have"


def version_macros(header: str) -> list[str]:
    """Returns the values of the header's macros of the version."""
    names = ["WF_VERSION_MAJOR", "WF_VERSION_MINOR", "WF_VERSION_PATCH", "WF_VERSION"]
    return [value for name in names for value in re.findall(rf"^#define {name} (\S+)$", header, re.M)]


def unlike_version(known: Texts) -> Iterator[str]:
    """Yields the places that have another version than the file VERSION."""
    number = paths.read(paths.TOP / "VERSION").strip()
    if known["VERSION"] != f"wf {number}\n":
        yield f"the version of the sources is not {number}"
    if not re.search(rf"^## {re.escape(number)}\b", paths.read(paths.TOP / "CHANGELOG.md"), re.M):
        yield f"CHANGELOG.md has no heading for {number}"
    if version_macros(paths.read(paths.HEADER)) != [*number.split("."), f'"{number}"']:
        yield f"include/wf.h has another version than {number}"


def unlike_form(known: Texts) -> Iterator[str]:
    """Yields lines that a terminal would break, and text that is not plain."""
    for name, text in known.items():
        for line in text.splitlines():
            if len(line) > MOST_COLUMNS or "\\" in line or not line.isascii():
                yield f"{name} has a line that is not plain text of at most {MOST_COLUMNS} columns: {line}"


def unlike_program(known: Texts, program: Path, more: str) -> Iterator[str]:
    """Yields the arguments for which a program prints another text; `more` begins what may follow the whole help."""
    asked = [(["help"], "OVERVIEW"), (["--help"], "OVERVIEW"), (["--version"], "VERSION")]
    asked += [([name, "-h"], name.upper()) for name in TOPICS] + [(["help", name], name.upper()) for name in TOPICS]
    for question, name in asked:
        said, status = written(program, question)
        found = said.removesuffix("unproved build\n").partition(more)[0]
        if status != 0 or found.rstrip("\n") != known[name].rstrip("\n"):
            yield f"{program} {' '.join(question)} prints another text than {name}"


def main(words: Sequence[str] | None = None) -> int:
    """Compares, prints each fault, and returns the exit status."""
    SCRIPT.parser(__doc__).parse_args(words)
    known = texts()
    faults = [*unlike_pages(known), *unlike_faults(known), *unlike_version(known), *unlike_form(known)]
    faults += unlike_program(known, paths.SCRIPT, "\nThe script ./wf")
    program = SCRIPT.program_or_none()
    if program is not None:
        faults += unlike_program(known, program.path, "\0")
    else:
        SCRIPT.say("no program is built, so its help is not compared")
    for fault in faults:
        SCRIPT.say(fault)
    SCRIPT.say(f"{len(known)} texts, {len(faults)} faults")
    return 1 if faults else 0


if __name__ == "__main__":
    sys.exit(main())
