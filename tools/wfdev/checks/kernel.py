"""Looks at the library for a kernel module, and runs it in a freestanding program.

The library is the one that `./wf lib --kernel` or `./wf lib --kernel --unproved` left, or the second is
built. Its code needs only malloc, free, memcpy, memmove and memset. It uses no floating point and no vector
registers, no red zone, and no jump or call through a register. Each call of a path but make and free takes
less than 4,096 octets of stack, added up over all that it may call. kernel.d has a program without a C
library, which gcc and clang build with the library; it measures the stack that its calls take, and ends with
all memory free.
"""
import re
import shutil
import subprocess
import sys
import tempfile
from collections.abc import Mapping, Sequence
from dataclasses import dataclass
from pathlib import Path

from wfdev.harness.script import Difference, Script, expect
from wfdev.repo import paths, programs

SCRIPT = Script("kernel")
NEEDS = ["free", "malloc", "memcpy", "memmove", "memset"]
MOST_STACK = 4096
# These run in a driver's start and end, not under its lock.
ONCE = ("wf_path_make", "wf_path_free")
FLAGS = ["-std=gnu11", "-O1", "-ffreestanding", "-nostdlib", "-static", "-no-pie", "-fno-pic"]
FLAGS += ["-fno-stack-protector", "-mgeneral-regs-only"]
STRICT = ["-Wno-unused-command-line-argument", "-Wall", "-Wextra", "-pedantic", "-Werror"]
FUNCTION = re.compile(r"^[0-9a-f]+ <(.+?)>:\n(.*?)(?=^\n|\Z)", re.M | re.S)
FORBIDDEN = {
    "floating point or vector registers": re.compile(r"%[xyz]?mm\d|%st\b|\tf(?:ld|st|add|mul|init)"),
    "a jump or call through a register": re.compile(r"\t(?:jmp|call) +\*"),
    "the red zone": re.compile(r"\t(?!lea)\w+ .*-0x[0-9a-f]+\(%rsp\)"),
    "a frame of a size that is not constant": re.compile(
        r"\tsub +%r\w+,%rsp|\tlea +-0x[0-9a-f]+\(%rsp\),%r11"
    ),
}


@dataclass(frozen=True)
class Code:
    """A function: the octets of its frame with the return address, and what it calls."""

    frame: int
    calls: frozenset[str]


def run(words: Sequence[str | Path]) -> str:
    """Returns what a command writes. Raises Difference if it fails."""
    given = list(map(str, words))
    done = subprocess.run(given, capture_output=True, text=True, check=False)
    if done.returncode:
        raise Difference(f"{' '.join(given)} ended with {done.returncode}:\n{done.stdout}{done.stderr}"[:4000])
    return done.stdout


def code_of(body: str) -> Code:
    """Returns the facts about a function in its disassembly with relocations."""
    frame = 8 + 8 * len(re.findall(r"\tpush ", body))
    frame += sum(int(size, 16) for size in re.findall(r"\tsub +\$0x([0-9a-f]+),%rsp", body))
    named = re.findall(r"R_X86_64_\w+\s+(\S+?)(?:[-+]0x[0-9a-f]+)?$", body, re.M)
    direct = re.findall(r"\t(?:call|jmp) +[0-9a-f]+ <([^+>]+)>$", body, re.M)
    return Code(frame, frozenset(name.removeprefix(".text.") for name in [*named, *direct]))


def depth(name: str, known: Mapping[str, Code], above: tuple[str, ...] = ()) -> int:
    """Returns the most stack that a function takes with all that it may call."""
    if name in above:
        raise Difference(f"{name} calls itself: the stack that it takes has no bound")
    calls = [other for other in known[name].calls if other in known and other != name]
    return known[name].frame + max((depth(other, known, (*above, name)) for other in calls), default=0)


def look_at(library: Path) -> None:
    """Looks at the code of the library."""
    undefined = set(re.findall(r" U (\w+)", run(["nm", library])))
    defined = set(re.findall(r" T (\w+)", run(["nm", library])))
    expect("what the library needs", sorted(undefined - defined), NEEDS)
    bodies = dict(FUNCTION.findall(run(["objdump", "-dr", "--no-show-raw-insn", library])))
    for what, form in FORBIDDEN.items():
        found = [name for name, body in bodies.items() if form.search(body)]
        expect(f"functions that use {what}", found[:5], [])
    known = {name: code_of(body) for name, body in bodies.items()}
    depths = {name: depth(name, known) for name in known if re.fullmatch(r"wf_\w+", name)}
    exported = [name for name in depths if not name.startswith("wf_cell_") and name not in ONCE]
    most = max(exported, key=lambda name: depths[name])
    SCRIPT.say(f"{len(bodies)} functions need only {', '.join(NEEDS)}, and no floating point")
    once = ", ".join(f"{name} {depths[name]}" for name in ONCE)
    SCRIPT.say(f"stack: {once}; each other call at most {depths[most]} ({most})")
    expect(f"whether {most} takes less than {MOST_STACK} octets of stack", depths[most] < MOST_STACK, True)


def run_freestanding(library: Path, room: Path) -> None:
    """Builds the program with each compiler, and runs it."""
    for compiler in filter(shutil.which, ("gcc", "clang")):
        made = room / compiler
        files: list[str | Path] = ["-I", paths.HEADER.parent, SCRIPT.folder / "main.c", library, "-o", made]
        run([compiler, *FLAGS, *STRICT, *files])
        needed = re.findall(r"\(NEEDED\)", run(["readelf", "-d", made]))
        expect(f"what {made.name}'s program needs", needed, [])
        for line in run([made]).splitlines():
            SCRIPT.say(f"{compiler}: {line}")


def main(words: Sequence[str] | None = None) -> int:
    """Looks at the library, runs the program, and returns the exit status."""
    SCRIPT.parser(__doc__).parse_args(words)
    SCRIPT.require("nm", "objdump", "readelf")
    try:
        library = programs.kernel_library()
    except programs.NoLibrary as why:
        SCRIPT.skip(str(why))
    try:
        look_at(library)
        with tempfile.TemporaryDirectory(prefix="wf-kernel-") as room:
            run_freestanding(library, Path(room))
    except Difference as difference:
        SCRIPT.fail(difference)
    SCRIPT.say(f"all went well with {paths.shown(library)}")
    return 0


if __name__ == "__main__":
    sys.exit(main())
