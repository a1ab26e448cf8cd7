"""Makes the archives of `./wf dist` twice, unpacks them in empty folders, and runs the commands of README.md
there.

Both runs have to make the same octets, and all checksums have to be right. The unpacked sources run by the
unpacked program, without the kit. A program in C is built with the unpacked library, if there are a compiler
and pkg-config. Program and shared library need the C library alone; with the rights of root, the program and
that program in C also run in a root that has only what was unpacked and the C library. There Python imports
the package of the unpacked wheel, too, if pip can install it: that root has Python with its own library, and
no other package. The check is skipped if the program or the library that is built from these sources is not
proved; with --unproved it takes those that are not proved. """
import hashlib
import os
import re
import shutil
import subprocess
import sys
import sysconfig
import tempfile
from collections.abc import Iterator, Mapping, Sequence
from pathlib import Path

from wfdev.checks import pages
from wfdev.harness.script import Difference, Script, expect
from wfdev.repo import paths, programs

SCRIPT = Script("dist")
SUMS = "SHA256SUMS"
SECONDS = 1200
NEEDED = re.compile(r"\(NEEDED\) .*\[(.+)\]")
# What `ldd` prints of a library: its path.
LOADED = re.compile(r"(?:=> )?(/\S+) \(0x")
# Folders with tools of the system: the kit is not among them.
TOOLS = "/usr/local/bin:/usr/bin:/bin"
# Commands of the page that need more than was unpacked, or minutes.
LEFT_OUT = re.compile(r"^rt |\./wf (?:build|lib|install|dist|sim)\b")
SMALL = paths.CHECKS / "install.d"
# Parts of Python's library that the package does not need.
NOT_COPIED = ("site-packages", "dist-packages", "test", "tests", "__pycache__", "idlelib", "ensurepip", "config-*")
PULL = """
from wfpath import AccessClass, Path, library_path
with Path(stations=1) as path:
    path.join(0)
    path.enqueue(0, b"a packet", tag=7)
    print(library_path, path.pull(AccessClass.BE))
"""
PULLED = "send 0 sta 0 tid 0 air"


def run(words: Sequence[str | Path], folder: Path, variables: Mapping[str, str]) -> str:
    """Returns the output of a command. Raises Difference if it fails."""
    done = subprocess.run(
        list(
            map(str, words)
        ), cwd=folder, env=variables, capture_output=True, text=True, timeout=SECONDS, check=False
    )
    if done.returncode:
        raise Difference(
            f"{' '.join(map(str, words))} ended with {done.returncode}:\n{done.stdout}{done.stderr}"[:4000]
        )
    return done.stdout


def require_built(kinds: Sequence[str]) -> None:
    """Skips the check if the program or the library is not of one of these kinds."""
    for words, what in ((["which"], "program"), (["which", "--library"], "library")):
        done = subprocess.run(
            [paths.SCRIPT, *words], env=programs.environment(), capture_output=True, text=True, check=False
        )
        kind = done.stdout.partition(" ")[0]
        if kind not in kinds:
            SCRIPT.skip(
                f"no {'proved ' if kinds == ['proved'] else ''}{what} is built from these sources (./wf "
                "build and ./wf lib)"
            )


def make(folder: Path, flags: Sequence[str]) -> dict[str, bytes]:
    """Makes the archives in a folder, and returns the octets of all files by their names."""
    run([paths.SCRIPT, "--quiet", "dist", folder, *flags], paths.TOP, programs.environment())
    return {path.name: path.read_bytes() for path in folder.iterdir()}


def check_sums(folder: Path) -> int:
    """Checks the checksums that a folder lists, and returns how many they are."""
    lines = paths.read(folder / SUMS).splitlines()
    for line in lines:
        total, _, name = line.partition("  ")
        expect(f"the checksum of {name}", hashlib.sha256((folder / name).read_bytes()).hexdigest(), total)
    return len(lines)


def unpack(archive: Path, folder: Path) -> Path:
    """Unpacks an archive in a new folder, and returns the one folder that it has."""
    folder.mkdir()
    subprocess.run(["tar", "-xzf", archive, "-C", folder], check=True)
    (top,) = folder.iterdir()
    return top


def commands(page: str) -> Iterator[pages.Example]:
    """Yields the commands of a page: those with their output, and those in other blocks, whose output may be
    any."""
    yield from pages.examples(page)
    for block in re.findall(r"^```\n(.*?)^```", page, re.M | re.S):
        yield from (pages.Example(line, [pages.ANY]) for line in block.splitlines() if line)


def run_page(source: Path, variables: Mapping[str, str]) -> int:
    """Runs the commands of README.md at the top of the unpacked sources, and returns how many there are."""
    count = 0
    for example in commands(paths.read(source / "README.md")):
        if LEFT_OUT.search(example.command):
            continue
        written = run(["bash", "-c", example.command], source, variables)
        if not pages.fits(example.wanted, written.splitlines()):
            raise Difference(f"{example.command}: another output than README.md shows:\n{written}"[:4000])
        count += 1
    return count


def check_needed(files: Sequence[Path]) -> None:
    """Checks that these files need no library but the C library and its loader."""
    for file in files:
        found = NEEDED.findall(run(["readelf", "-d", file], file.parent, {**os.environ, "LC_ALL": "C"}))
        others = [name for name in found if not name.startswith(("libc.so", "ld-linux"))]
        expect(f"the libraries besides the C library that {file.name} needs", others, [])


def copy_with_libraries(file: Path, room: Path, root: Path) -> None:
    """Copies a program or a shared library, and those that the loader finds for it, to the same places below a root."""
    needed = LOADED.findall(run(["ldd", file], room, {**os.environ, "LC_ALL": "C"}))
    for one in [file, *map(Path, needed)]:
        copied = root / one.relative_to("/")
        copied.parent.mkdir(parents=True, exist_ok=True)
        shutil.copy(one, copied)


def copy_python(room: Path, root: Path) -> Path:
    """Copies this Python and its library to the same places below a root, and returns the path of the program."""
    program, library = Path(os.path.realpath(sys.executable)), Path(sysconfig.get_path("stdlib"))
    shutil.copytree(library, root / library.relative_to("/"), ignore=shutil.ignore_patterns(*NOT_COPIED), dirs_exist_ok=True)
    for file in [program, *sorted(library.glob("lib-dynload/_ctypes.*"))]:
        copy_with_libraries(file, room, root)
    return program


def pull_in_python(prefix: Path, room: Path, root: Path) -> str:
    """Installs the unpacked wheel below a root, makes a path in Python there and pulls an exchange. Returns a message about it."""
    pip = [sys.executable, "-m", "pip"]
    if subprocess.run([*pip, "--version"], capture_output=True, check=False).returncode:
        return ", and the wheel was not tried, since this Python has no pip"
    (wheel,) = (prefix / "python").glob("wfpath-*.whl")
    words = ["install", "--quiet", "--no-index", "--no-deps", "--disable-pip-version-check"]
    run([*pip, *words, "--target", root / "wheel", wheel], room, {**os.environ, "PIP_ROOT_USER_ACTION": "ignore"})
    program = copy_python(room, root)
    inside: list[str | Path] = ["chroot", root, program, "-c", PULL]
    written = run(inside, room, {"PATH": os.environ["PATH"], "PYTHONPATH": "/wheel"})
    if not re.fullmatch(rf"/wheel/wfpath/libwf(\.unproved)?\.so {PULLED} \d+ data 0:0\n", written):
        raise Difference(f"the package of the wheel wrote {written!r}; expected its library and {PULLED} ..")
    return " and a path in Python"


def run_in_empty_root(prefix: Path, room: Path) -> str:
    """Runs the program on the examples, and a program in C that was built, in a root that has only the
    unpacked files and the C library. Returns a message about it."""
    chroot = shutil.which("chroot")
    if os.geteuid() != 0 or chroot is None or shutil.which("ldd") is None:
        return "not run in an empty root, since that needs the rights of root, chroot and ldd"
    root = room / "empty"
    shutil.copytree(prefix, root / "usr", symlinks=True)
    for library in LOADED.findall(run(["ldd", prefix / "bin" / "wf"], room, {**os.environ, "LC_ALL": "C"})):
        copy_with_libraries(Path(library), room, root)
    traces = sorted(paths.EXAMPLES.glob("*.trace"))
    for trace in traces:
        inside: list[str | Path] = [chroot, root, "/usr/bin/wf", "replay"]
        done = subprocess.run(inside, input=trace.read_bytes(), capture_output=True, check=False)
        expect(f"{trace.name} in an empty root", done.stdout, trace.with_suffix(".out").read_bytes())
    ran = f"{len(traces)} traces"
    if (room / "small").is_file():
        shutil.copy(room / "small", root / "small")
        written = run([chroot, root, "/small"], room, {"LD_LIBRARY_PATH": "/usr/lib"})
        expect("what a program in C writes in an empty root", written, paths.read(SMALL / "small.out"))
        ran += " and the program in C"
    ran += pull_in_python(prefix, room, root)
    return f"{ran} run in an empty root"


def build_in_c(prefix: Path, room: Path, variables: Mapping[str, str]) -> str:
    """Builds and runs a small program with the unpacked library, and returns a message about it."""
    missing = [tool for tool in ("cc", "pkg-config") if shutil.which(tool, path=TOOLS) is None]
    if missing:
        return f"nothing was built in C, since there is no {missing[0]}"
    known = {
        **variables,
        "PKG_CONFIG_PATH": str(prefix / "lib" / "pkgconfig"),
        "LD_LIBRARY_PATH": str(prefix / "lib"),
    }
    line = (
        f"cc -std=c99 $(pkg-config --cflags wf) '{SMALL / 'small.c'}' $(pkg-config --libs wf) -o small && "
        "./small"
    )
    expect(
        "what a program in C writes", run(["bash", "-c", line], room, known), paths.read(SMALL / "small.out")
    )
    return "a program in C was built and run"


def try_archives(room: Path, flags: Sequence[str]) -> None:
    """Makes the archives, and tries what they have."""
    first = make(room / "first", flags)
    second = make(room / "second", flags)
    expect("the files that differ in a second run", [name for name in first if second.get(name) != first[name]], [])
    check_sums(room / "first")
    source, binary = sorted((name for name in first if name != SUMS), key=len)
    prefix = unpack(room / "first" / binary, room / "root")
    sources = unpack(room / "first" / source, room / "sources")
    count = check_sums(prefix)
    program = prefix / "bin" / "wf"
    variables = {
        "PATH": f"{program.parent}:{os.path.dirname(sys.executable)}:{TOOLS}",
        "HOME": str(room),
        "WF_PROGRAM": str(program),
    }
    example = paths.EXAMPLES / "one-frame"
    wanted = paths.read(example.with_suffix(".out"))
    expect(
        "the installed program", run(["bash", "-c", f"wf replay <'{example}.trace'"], room, variables), wanted
    )
    check_needed([program, prefix / "lib" / "libwf.so"])
    ran = run_page(sources, variables)
    SCRIPT.say(
        f"{binary}: {count} checksums, {ran} commands of README.md; {build_in_c(prefix, room, variables)}; "
        f"{run_in_empty_root(prefix, room)}"
    )


def main(words: Sequence[str] | None = None) -> int:
    """Makes and tries the archives, and returns the exit status."""
    parser = SCRIPT.parser(__doc__)
    parser.add_argument(
        "--unproved", action="store_true", help="take a program and a library that are not proved, too"
    )
    flags = ["--unproved"] if parser.parse_args(words).unproved else []
    SCRIPT.require("readelf", "cc")
    require_built(["proved", "unproved", "named"] if flags else ["proved"])
    try:
        with tempfile.TemporaryDirectory(prefix="wf-dist-") as folder:
            try_archives(Path(folder), flags)
    except Difference as difference:
        SCRIPT.fail(difference)
    return 0


if __name__ == "__main__":
    sys.exit(main())
