"""Installs program and library, moves them to another place, and builds programs outside the tree with them, in C and in C++.

The programs are built by pkg-config and by CMake, with the shared library and with the static one, and have to write the
expected text. `./wf install` takes the built program and the built library, whether they are proved or not. It has to print each file
that it installs, to replace them in a second run, and to obey DESTDIR. The shared library exports only the functions of the header,
and needs only the C library. `--library` installs the library alone. pkg-config and CMake know it as wf, and both say whether it is
proved. Without a program only the library is installed and tried. The check is skipped if no library is built from these sources.
"""
import os
import re
import shutil
import subprocess
import sys
import tempfile
from collections.abc import Mapping, Sequence
from dataclasses import dataclass
from pathlib import Path

from wfdev.harness.script import Difference, Script, expect
from wfdev.repo import paths, programs

SCRIPT = Script("install")
STRICT = ["-Wall", "-Wextra", "-pedantic", "-Werror", "-O1"]
SECONDS = 600
Variables = Mapping[str, str | Path]


@dataclass(frozen=True)
class Example:
    """A program outside the tree: its compiler with words, its source, and what it has to write."""

    name: str
    compiler: list[str]
    source: Path
    wanted: Path


@dataclass(frozen=True)
class Way:
    """A way to build by pkg-config: more words for the compiler, and the question for pkg-config."""

    name: str
    more: list[str]
    question: str


EXAMPLES = [
    Example("small", ["cc", "-std=c99", *STRICT], SCRIPT.folder / "small.c", SCRIPT.folder / "small.out"),
    Example("path", ["c++", "-std=c++17", *STRICT], paths.EXAMPLES / "c" / "path.cpp", paths.EXAMPLES / "c" / "path.out"),
]
WAYS = [
    Way("shared", [], "--libs"),
    Way("static", [], "--variable=archive"),
    Way("sanitized", ["-g", "-fsanitize=address,undefined", "-fno-sanitize-recover=all"], "--variable=archive"),
]


def run(words: Sequence[str | Path], folder: Path | None = None, variables: Variables | None = None) -> str:
    """Returns what a command writes. Raises Difference if it fails."""
    more = {name: str(value) for name, value in (variables or {}).items()}
    environment = {**programs.environment(), **more}
    done = subprocess.run(
        list(map(str, words)), cwd=folder, env=environment, capture_output=True, text=True, timeout=SECONDS, check=False
    )
    if done.returncode:
        line = " ".join(map(str, words))
        raise Difference(f"{line} ended with {done.returncode}:\n{done.stdout}{done.stderr}"[:4000])
    return done.stdout


def built_library() -> str:
    """Returns whether the library that is built from these sources is proved: yes or no. Skips the check if there is none."""
    words = [str(paths.SCRIPT), "which", "--library"]
    done = subprocess.run(words, env=programs.environment(), capture_output=True, text=True, check=False)
    if done.returncode:
        SCRIPT.skip("no library is built from these sources (./wf lib builds one)")
    return "yes" if done.stdout.startswith("proved ") else "no"


def files_below(folder: Path) -> list[str]:
    """Returns the names of the files below a folder."""
    return sorted(str(path.relative_to(folder)) for path in folder.rglob("*") if path.is_symlink() or path.is_file())


def installed(prefix: str | Path, where: Path, variables: Variables | None = None, more: Sequence[str] = ()) -> list[str]:
    """Installs, and returns the names of the files below the folder. Each must have been printed."""
    printed = run([paths.SCRIPT, "install", prefix, "--unproved", *more], variables=variables).splitlines()
    names = files_below(where)
    expect("the files that were printed", sorted(printed), sorted(str(where / name) for name in names))
    return names


def install_twice(room: Path) -> Path:
    """Installs into an empty folder, again, and below DESTDIR; then moves the first, and returns its place."""
    first, stage, header = room / "first", room / "stage", "include/wf.h"
    names = installed(first, first)
    (first / header).write_text("old\n", encoding="utf-8")
    expect("a second run", installed(first, first), names)
    expect("the header after a second run", (first / header).read_bytes(), paths.HEADER.read_bytes())
    expect("a run with DESTDIR", installed("/usr", stage / "usr", {"DESTDIR": stage}), names)
    return first.rename(room / "moved")


def install_library(room: Path, proved: str) -> Path:
    """Installs the library alone, and returns its place. pkg-config says whether it is proved."""
    prefix = room / "library"
    names = installed(prefix, prefix, more=["--library"])
    expect("files of a program beside the library alone", [name for name in names if name.startswith(("bin/", "share/bash"))], [])
    known = {"PKG_CONFIG_PATH": prefix / "lib" / "pkgconfig"}
    expect("what pkg-config says of the proof", run(["pkg-config", "--variable=proved", "wf"], variables=known).strip(), proved)
    SCRIPT.say(f"the library alone: {len(names)} files; proved: {proved}")
    return prefix


def needs(file: Path) -> str:
    """Returns which shared libraries a file needs."""
    return "needs " + ", ".join(re.findall(r"\(NEEDED\).*\[(.*)\]", run(["readelf", "-d", file])))


def look_at_library(prefix: Path) -> None:
    """Checks that the shared library exports the header's functions."""
    library = prefix / "lib" / "libwf.so"
    exported = re.findall(r" T (\w+)", run(["nm", "-D", "--defined-only", library]))
    declared = re.findall(r"^\w+ (wf_\w+)\(", paths.read(prefix / "include" / "wf.h"), re.M)
    expect("what the shared library exports", sorted(exported), sorted(declared))
    SCRIPT.say(f"libwf.so exports the {len(exported)} functions of the header; {needs(library)}")


def copy_sources(outside: Path) -> None:
    """Copies the sources outside the tree. There, they include the class of C++ from the prefix."""
    outside.mkdir()
    shutil.copy(SCRIPT.folder / "CMakeLists.txt", outside)
    for example in EXAMPLES:
        text = paths.read(example.source).replace('#include "path.hpp"', "#include <wf/path.hpp>")
        (outside / example.source.name).write_text(text, encoding="utf-8")


def try_program(made: Path, example: Example, kind: str, builder: str, variables: Variables | None = None) -> None:
    """Checks that a program needs the library of its kind, and writes what it has to."""
    expect(f"whether {made.name} needs the shared library", "libwf.so.1" in needs(made), kind == "shared")
    expect(f"what {made.name} by {builder} writes", run([made], variables=variables), paths.read(example.wanted))
    SCRIPT.say(f"{example.name}, {kind}, by {builder}: writes what is expected")


def version() -> str:
    """Returns the version of the sources."""
    return paths.read(paths.TOP / "VERSION").strip()


def by_pkg_config(prefix: Path, outside: Path) -> None:
    """Builds the programs with the words of pkg-config."""
    known = {"PKG_CONFIG_PATH": prefix / "lib" / "pkgconfig"}
    expect("the version of pkg-config", run(["pkg-config", "--modversion", "wf"], variables=known).strip(), version())
    for example in EXAMPLES:
        for way in WAYS:
            made = outside / f"{example.name}-{way.name}-by-pkg-config"
            words = " ".join([*example.compiler, *way.more, example.source.name])
            line = f"{words} $(pkg-config --cflags wf) $(pkg-config {way.question} wf) -o {made.name}"
            run(["sh", "-c", line], outside, known)
            try_program(made, example, way.name, "pkg-config", {"LD_LIBRARY_PATH": prefix / "lib"})


def by_cmake(prefix: Path, outside: Path, proved: str) -> None:
    """Builds the programs by CMake, with which they find the shared library. CMake says whether it is proved."""
    build = outside / "build"
    said = run(["cmake", "-S", outside, "-B", build, f"-DCMAKE_PREFIX_PATH={prefix}", "-DCMAKE_BUILD_TYPE=Release"])
    expect("what CMake says of the proof", re.findall(r"wf is proved: (\w+)", said), [proved])
    run(["cmake", "--build", build])
    for example in EXAMPLES:
        for kind in ("shared", "static"):
            try_program(build / f"{example.name}-{kind}", example, kind, "CMake")


def main(words: Sequence[str] | None = None) -> int:
    """Installs, builds, and returns the exit status."""
    SCRIPT.parser(__doc__).parse_args(words)
    SCRIPT.require("cc", "c++", "nm", "readelf", "pkg-config", "cmake")
    proved = built_library()
    has_program = SCRIPT.program_or_none() is not None
    try:
        with tempfile.TemporaryDirectory(prefix="wf-install-", dir=os.environ.get("TMPDIR")) as folder:
            room = Path(folder)
            prefix = install_library(room, proved)
            if has_program:
                prefix = install_twice(room)
                expect("the version of the program", run([prefix / "bin" / "wf", "--version"]).split()[:2], ["wf", version()])
            else:
                SCRIPT.say("no program is built from these sources, so only the library is installed")
            look_at_library(prefix)
            copy_sources(room / "outside")
            by_pkg_config(prefix, room / "outside")
            by_cmake(prefix, room / "outside", proved)
    except Difference as difference:
        SCRIPT.fail(difference)
    SCRIPT.say("all programs outside the tree were built and run")
    return 0


if __name__ == "__main__":
    sys.exit(main())
