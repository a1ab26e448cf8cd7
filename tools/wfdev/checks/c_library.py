"""Builds the C programs of examples/c with the static library, runs them, and compares the library's answers with a replay.

First it reads the header alone, without a warning, as each standard from C89 to C23 and from C++98 to C++23, with gcc and with clang, if
they are installed and know the standard.

The library is the proved one that `./wf lib` left if it is as new as the sources, else the unproved one, which is built if
necessary. The programs are built without a warning: plainly, with the address and undefined-behaviour sanitizers, which also see
that all memory is freed, and, if they have threads, with the thread sanitizer. c-library.d has the program that calls the readers
on handles in memory that cannot be written, the one that compares frames with and without octets, and bursts with single calls,
and the one that counts and refuses requests for memory. The replay is by the program that `./wf which` names, and left out if there
is none.
"""
import re
import shutil
import subprocess
import sys
import tempfile
from collections.abc import Sequence
from dataclasses import dataclass
from pathlib import Path
from typing import IO

from wfdev.harness.script import Difference, Script
from wfdev.repo import paths

SCRIPT = Script("c-library")
SOURCES = paths.EXAMPLES / "c"
COMPILER = ["cc", "-std=c99", "-Wall", "-Wextra", "-Wconversion", "-pedantic", "-Werror", "-O1", "-pthread"]
SANITIZED = ("-g", "-fsanitize=address,undefined", "-fno-sanitize-recover=all")
THREADS = ("-g", "-fsanitize=thread")
# bare.c decides whether there is memory, and memory.c counts it.
WRAPPED = ("-Wl,--wrap=malloc",)
COUNTED = ("-Wl,--wrap=malloc,--wrap=realloc,--wrap=free",)
WARNINGS = ["-Wall", "-Wextra", "-pedantic", "-Wshadow", "-Wconversion", "-Wundef", "-Werror"]
# A standard may have an older name in an older compiler.
C_STANDARDS = [("c89",), ("c99",), ("c11",), ("c17",), ("c23", "c2x")]
CPP_STANDARDS = [("c++98",), ("c++03",), ("c++11",), ("c++14",), ("c++17",), ("c++20", "c++2a"), ("c++23", "c++2b")]
LANGUAGES = [("c", ("gcc", "clang"), C_STANDARDS), ("c++", ("g++", "clang++"), CPP_STANDARDS)]
SECONDS = 600
UNKNOWN = "?"  # what only receivers know: an answer, or the rest of one


@dataclass(frozen=True)
class Comparison:
    """A program of random calls: how many, and whether it gives an answer for each line of the replay."""

    name: str
    calls: int
    is_whole: bool


COMPARISONS = [Comparison("same", 1_000_000, True), Comparison("both", 200_000, False)]


@dataclass(frozen=True)
class Bench:
    """The folder of the programs, the library that they are built with, and the program that replays, if any."""

    folder: Path
    library: Path
    replay: Path | None

    def build(self, source: Path, more: Sequence[str] = (), kind: str = "") -> Path:
        """Builds a program with the library."""
        made = self.folder / (source.stem + kind)
        words = [*COMPILER, "-I", str(paths.HEADER.parent), *more, str(source), str(self.library), "-o", str(made)]
        subprocess.run(words, check=True)
        return made

    def compare(self, one: Comparison, program: Path, seed: int) -> None:
        """Compares the answers of random calls with those of the replay of their trace."""
        trace, answers = self.folder / "trace", self.folder / "answers"
        run([str(program), str(one.calls), str(seed), str(trace), str(answers)])
        if self.replay is None:
            SCRIPT.say("no program is built, so nothing is replayed")
            return
        with open(trace, "rb") as given:
            replayed = run([str(self.replay), "replay"], given).splitlines()
        said = paths.read(answers).splitlines()
        if len(said) > len(replayed) or (one.is_whole and len(said) < len(replayed)):
            raise Difference(f"{len(said)} lines of the library, {len(replayed)} of the replay")
        for place, (answer, other) in enumerate(zip(said, replayed, strict=False), 1):
            if not is_same(answer, other):
                raise Difference(f"line {place}: the library says '{answer}', the replay '{other}'")
        own = said.count(UNKNOWN)
        rest = f"; {own} answers of receivers are not compared" if own else ""
        SCRIPT.say(f"{program.name}, seed {seed}: {len(said) - own} lines are equal{rest}")


def is_same(answer: str, other: str) -> bool:
    """Returns whether an answer of the library equals that of the replay, up to the word UNKNOWN."""
    *known, last = answer.split(" ")
    return answer == other or (last == UNKNOWN and other.split(" ")[: len(known)] == known)


def run(words: Sequence[str], given: IO[bytes] | None = None) -> str:
    """Returns what a program writes. Raises Difference if it fails."""
    done = subprocess.run(words, stdin=given, capture_output=True, timeout=SECONDS, check=False)
    if done.returncode:
        said = (done.stdout + done.stderr).decode(errors="replace")
        raise Difference(f"{words[0]} ended with {done.returncode}: {said[-2000:]}")
    return done.stdout.decode()


def uncalled() -> list[str]:
    """Returns the functions of the header that no program calls."""
    text = "".join(paths.read(file) for file in [*sorted(SOURCES.glob("*.c")), SOURCES / "words.h"])
    names = set(re.findall(r"^\w+ (wf_\w+)\(", paths.read(paths.HEADER), re.M))
    return sorted(name for name in names if f"{name}(" not in text)


def unread() -> list[str]:
    """Returns the readers of the header that readers.c does not call."""
    text = paths.read(SCRIPT.folder / "readers.c")
    names = set(re.findall(r"^\w+ (wf_\w+)\(const struct wf_(?:path|cell) \*", paths.read(paths.HEADER), re.M))
    return sorted(name for name in names if f"{name}(" not in text)


def compiles(compiler: str, language: str, standard: str, source: str) -> str | None:
    """Compiles a text without output. Returns what the compiler says, or None if it does not know the standard."""
    words = [compiler, "-x", language, f"-std={standard}", *WARNINGS, "-fsyntax-only", "-I", str(paths.HEADER.parent), "-"]
    done = subprocess.run(words, input=source, capture_output=True, text=True, check=False)
    return None if done.returncode and re.search(r"-std=|invalid value", done.stderr) else done.stderr


def read_header() -> None:
    """Reads the header as each standard that the compilers know. Raises Difference if one gives a warning."""
    source = "#include <wf.h>\nint main(void) { return 0; }\n"
    read = []
    for language, compilers, standards in LANGUAGES:
        for compiler in filter(shutil.which, compilers):
            for names in standards:
                known = [(name, said) for name in names if (said := compiles(compiler, language, name, source)) is not None]
                if known and known[0][1]:
                    raise Difference(f"{compiler} -std={known[0][0]} says of wf.h:\n{known[0][1]}")
                read += [f"{compiler} {known[0][0]}"] if known else []
    SCRIPT.say(f"the header is read without a warning by {', '.join(read)}")


def run_programs(bench: Bench) -> None:
    """Builds and runs all programs."""
    for name in ("driver", "ring", "firmware", "reset", "wake", "addba", "misuse"):
        print(run([str(bench.build(SOURCES / f"{name}.c"))]), end="")
        run([str(bench.build(SOURCES / f"{name}.c", SANITIZED, "-sanitized"))])
    run([str(bench.build(SOURCES / "wake.c", THREADS, "-threads"))])
    print(run([str(bench.build(SCRIPT.folder / "readers.c", ["-D_DEFAULT_SOURCE"]))]), end="")
    print(run([str(bench.build(SCRIPT.folder / "bare.c", WRAPPED))]), end="")
    run([str(bench.build(SCRIPT.folder / "bare.c", (*SANITIZED, *WRAPPED), "-sanitized")), "20000", "2"])
    print(run([str(bench.build(SCRIPT.folder / "memory.c", COUNTED))]), end="")
    run([str(bench.build(SCRIPT.folder / "memory.c", (*SANITIZED, *COUNTED), "-sanitized"))])
    seed = 0
    for one in COMPARISONS:
        for more, kind in (((), ""), (SANITIZED, "-sanitized")):
            seed += 1
            bench.compare(one, bench.build(SOURCES / f"{one.name}.c", more, kind), seed)


def main(words: Sequence[str] | None = None) -> int:
    """Builds, runs, compares, and returns the exit status."""
    SCRIPT.parser(__doc__).parse_args(words)
    SCRIPT.require("cc")
    if uncalled():
        SCRIPT.fail(f"no program calls {' '.join(uncalled())}")
    if unread():
        SCRIPT.fail(f"readers.c does not call {' '.join(unread())}")
    try:
        read_header()
    except Difference as difference:
        SCRIPT.fail(difference)
    library, program = SCRIPT.library(), SCRIPT.program_or_none()
    try:
        with tempfile.TemporaryDirectory(prefix="wf-c-") as room:
            run_programs(Bench(Path(room), library, program.path if program else None))
    except Difference as difference:
        SCRIPT.fail(difference)
    SCRIPT.say(f"all went well with {paths.shown(library)}")
    return 0


if __name__ == "__main__":
    sys.exit(main())
