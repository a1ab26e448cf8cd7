"""Builds a program or the static library from the sources as they are: optimized, and with no proof.

`rt try` compiles a program's module with checks of addresses and without optimization, links it and runs it. This module watches it: it
makes a folder of links to the kit in which the compiler and the linker are wrappers that keep their input and make nothing of it, and runs
`rt try` there. Then it makes the last call of the compiler and of the linker itself, optimized and without the checks. So the module is
compiled once. The program does what `rt try` does, some hundred times faster. Nothing is proved of it.
"""
from __future__ import annotations

import contextlib
import pathlib
import re
import shlex
import shutil
import sys
from collections.abc import Callable, Iterator, Sequence

from . import children, fresh, hints, kernel, snapshot
from .exports import calling_test, exports, with_exports
from .files import link_all, place
from .kit import Kit, find_kit
from .report import Failure

# Both wrappers keep the words and the input of a call.
KEEP = """#!/bin/bash
kept=$(mktemp -d {kept}/{tool}.XXXXXX)
printf '%s\\n' "$@" >"$kept/words"
cp module.bc input-* "$kept" 2>/dev/null
date +%s%N >"$kept/time"
"""
# The compiler gets a module without functions, for the same system, in place of the kept one.
COMPILER = """if [ -e module.bc ]; then
  for word in "$@"; do
    case $word in --target=*) system="target triple = \\"${{word#*=}}\\"" ;; esac
  done
  printf '%s\\n' "${{system:-}}" >module.bc
fi
exec {real} "$@"
"""
# The linker links nothing: `rt try` gets a program that does nothing.
LINKER = """out=; last=
for word in "$@"; do
  [ "$last" != -o ] || out=$word
  last=$word
done
printf '#!/bin/sh\\n' >"$out" && chmod +x "$out"
"""
WRAPPERS = {"clang": COMPILER, "ld.lld": LINKER}
# While it builds, `rt try` runs the prover beside, for hints on names. They do not matter here.
NO_PROVER = "#!/bin/sh\n"
Change = Callable[[str], str]


class Watched:
    """The calls of compiler and linker that `rt try` made."""

    def __init__(self, kit: Kit, room: pathlib.Path, crates: pathlib.Path) -> None:
        self.kit = kit
        self.room = room
        self.crates = crates
        self.kept = room / "kept"
        self.log = room / "said"
        self.optimized = room / "optimized.o"

    def last_call(self, tool: str, word: str) -> tuple[pathlib.Path, list[str]]:
        """Returns the folder and the words of a tool's last call that has this word."""
        calls = sorted(self.kept.glob(f"{tool}.*"), key=lambda call: int((call / "time").read_text(encoding="utf-8")))
        for call in reversed(calls):
            words = (call / "words").read_text(encoding="utf-8").splitlines()
            if word in words:
                return call, words
        raise Failure(f"'rt try' did not call {tool} with {word}")

    def run(self, tool: str, words: list[str], folder: pathlib.Path) -> None:
        """Runs a tool of the kit, which must succeed."""
        if children.run([self.kit.tool(tool), *words], folder, self.log) != 0:
            raise Failure(f"{tool} refused the call of 'rt try', changed to optimize")

    def compile_again(self, change: Change | None = None, level: str = "-O3", more: Sequence[str] = ()) -> None:
        """Compiles the module that `rt try` compiled last at this level, with more words; `change` changes its text before."""
        call, words = self.last_call("clang", "module.bc")
        words = [word for word in words if word != "-c" and not word.startswith(("-O", "-fsanitize="))]
        out, module = words.index("-o") + 1, words.index("module.bc")
        listed = self.room / "module.ll"
        words[out] = str(listed)
        self.run("clang", [*words, "-O0", "-S", "-emit-llvm"], call)
        text = listed.read_text(encoding="utf-8")
        if change:
            listed.write_text(change(text), encoding="utf-8")
            words[module] = str(listed)
        words[out] = str(self.optimized)
        self.run("clang", [*words, *self._hints(text), "-c", level, *more], call)

    def _hints(self, text: str) -> list[str]:
        """Returns the compiler's words for the functions that the sources mark `#[inline(never)]`. `rt try` leaves the marks out."""
        marked = hints.symbols(hints.never_inlined(self.crates), text)
        if not marked:
            return []
        listed = self.room / "never-inlined.csv"
        listed.write_text("".join(f"{name},noinline\n" for name in marked), encoding="utf-8")
        return ["-mllvm", f"-forceattrs-csv-path={listed}"]

    def link_again(self, out: pathlib.Path) -> None:
        """Links what `rt try` linked, with the optimized module instead of its own, and without the archive of the checks."""
        call, words = self.last_call("ld.lld", "input-0")
        if "--whole-archive" in words:
            del words[words.index("--whole-archive") : words.index("--no-whole-archive") + 1]
        words[words.index("input-0")] = str(self.optimized)
        words[words.index("-o") + 1] = str(out)
        self.run("ld.lld", words, call)


def make_frame(kit: Kit, room: pathlib.Path) -> pathlib.Path:
    """Makes a kit whose compiler and linker keep their input in the folder `kept`, and returns its `rt`."""
    frame, kept = room / "kit", room / "kept"
    kept.mkdir()
    link_all(kit.folder, frame, ("bin", "toolchain"))
    link_all(kit.folder / "bin", frame / "bin", (*kernel.COPIED, "rattle"))
    link_all(kit.folder / "toolchain", frame / "toolchain", ("bin",))
    link_all(kit.folder / "toolchain/bin", frame / "toolchain/bin", tuple(WRAPPERS))
    for name in kernel.COPIED:
        shutil.copy(kit.folder / "bin" / name, frame / "bin" / name)
    write_script(frame / "bin" / "rattle", NO_PROVER)
    for name, text in WRAPPERS.items():
        words = {"kept": shlex.quote(str(kept)), "tool": name, "real": shlex.quote(str(kit.tool(name)))}
        write_script(frame / "toolchain/bin" / name, (KEEP + text).format(**words))
    return frame / "bin/rt"


def write_script(path: pathlib.Path, text: str) -> None:
    """Writes a script that can be run."""
    path.write_text(text, encoding="utf-8")
    path.chmod(0o755)


@contextlib.contextmanager
def tried(crate: pathlib.Path, room: pathlib.Path, *words: str) -> Iterator[Watched]:
    """Runs `rt try` with these words on the crate in a folder. If its calls cannot be used, the failure has the end of its output."""
    watched = Watched(find_kit(), room, crate.parent)
    rt = make_frame(watched.kit, room)
    temporary = room / "temporary"
    temporary.mkdir()
    command = [sys.executable, "-B", str(rt), "try", "--steps", "1", *words]
    children.run(command, crate, watched.log, {"TMPDIR": str(temporary)})
    try:
        yield watched
    except Failure as why:
        raise Failure(why.why, children.last_lines(watched.log)) from None


def _sources_of(crate: pathlib.Path) -> dict[str, str]:
    """Returns the texts of a crate by their modules."""
    source = crate / "src"
    paths = {"::".join(["crate", *path.relative_to(source).with_suffix("").parts]): path for path in source.rglob("*.rt")}
    return {module: path.read_text(encoding="utf-8") for module, path in sorted(paths.items())}


def add_calling_test(crate: pathlib.Path) -> None:
    """Adds the test that calls every export to a copy of a crate."""
    test = calling_test(_sources_of(crate))
    with open(crate / "src" / "lib.rt", "a", encoding="utf-8") as file:
        file.write(test)


def archive(watched: Watched, out: pathlib.Path) -> None:
    """Makes a static library of the optimized module and of the code that calls malloc."""
    add_heap(watched.kit, watched.room, watched.log)
    watched.run("llvm-ar", ["rcs", str(out), watched.optimized.name, *heap_objects(watched.room)], watched.room)


def add_heap(kit: Kit, folder: pathlib.Path, log: pathlib.Path) -> None:
    """Extracts the code that calls malloc, realloc and free from the kit's library into a folder."""
    low = kit.folder / "c/liblibc_c.a"
    listed = folder / "listed"
    children.run([kit.tool("llvm-ar"), "t", low], folder, listed)
    names = [name for name in listed.read_text(encoding="utf-8").split() if name.startswith("heap")]
    if not names or children.run([kit.tool("llvm-ar"), "x", low, *names], folder, log) != 0:
        raise Failure(f"{low} has no heap object: README.md names the kit that these sources are built with")


def heap_objects(folder: pathlib.Path) -> list[str]:
    """Returns the names of what `add_heap` extracted."""
    return sorted(path.name for path in folder.glob("heap*"))


def build_program(crate: pathlib.Path, made: pathlib.Path, room: pathlib.Path, level: str = "-O3") -> None:
    """Builds the program of the crate in a folder."""
    with tried(crate, room) as watched:
        watched.compile_again(level=level)
        watched.link_again(made)


def build_library(crate: pathlib.Path, made: pathlib.Path, room: pathlib.Path) -> None:
    """Builds the static library of the crate in a folder, which is a copy: it gets one more test."""
    names = [name for _, name, _ in exports(_sources_of(crate))]
    add_calling_test(crate)
    with tried(crate, room, "--test") as watched:
        watched.compile_again(lambda text: with_exports(text, names), more=["-fPIC"])
        archive(watched, made)


def build_kernel_library(crate: pathlib.Path, made: pathlib.Path, room: pathlib.Path) -> None:
    """Builds the static library of the crate in a folder, which is a copy, for a kernel module."""
    names = [name for _, name, _ in exports(_sources_of(crate))]
    add_calling_test(crate)
    with tried(crate, room, "--test") as watched:
        watched.compile_again(lambda text: kernel.shaped(with_exports(text, names)), kernel.LEVEL, kernel.FLAGS)
        heap = kernel.compile_heap(watched.kit.tool("clang"), room, watched.log)
        watched.run("llvm-ar", ["rcs", str(made), watched.optimized.name, heap], room)


def build_tests(crate: pathlib.Path, made: pathlib.Path, room: pathlib.Path) -> None:
    """Builds the tests of the crate in a folder, as a program that lists them, or runs the one that it is given."""
    with tried(crate, room, "--test") as watched:
        watched.compile_again(level="-O1")
        watched.link_again(made)


def build(crate: str, out: pathlib.Path, room: pathlib.Path, level: str = "-O3") -> None:
    """Builds the program or the static library of a crate of this checkout into a file; `room` is an empty folder."""
    top, copy, made = pathlib.Path(fresh.TOP), room / "tree", room / "linked"
    snapshot.copy_sources(top, copy)
    folder = copy / "crates" / crate
    if re.search(rf"^{crate} staticlib", (copy / "crates.txt").read_text(encoding="utf-8"), re.M):
        build_library(folder, made, room)
    else:
        build_program(folder, made, room, level)
    out.parent.mkdir(parents=True, exist_ok=True)
    place(made, out)
