"""Runs the tests and examples of the Python package wfpath, and installs it with pip outside the tree.

The package's structs have the layout of the C compiler's. The tests compare random calls of a path and of a
cell with the replay of their trace by the program that `./wf which` names; that part is left out if there is
none. The installed package is also tried with the library that `./wf install` installs, and its bench
wfpath.sim has to print what docs/SIM.md says. The library is the one that the check c-library uses. mypy reads the package as Python 3.9, if it is
installed.
"""
import ast
import os
import re
import shutil
import subprocess
import sys
import tempfile
import venv
from collections.abc import Mapping, Sequence
from pathlib import Path

from wfdev import header, python_tables
from wfdev.harness.script import Difference, Script, expect
from wfdev.repo import paths

SCRIPT = Script("python")
PYTHON = paths.TOP / "python"
OLDEST = (3, 9)
SECONDS = 600
MYPY = ["mypy", "--strict", "--python-version", "3.9"]
EXAMPLE = re.compile(r"```python\n(.*?)```.*?```\n(.*?)```", re.S)


def run(
    words: Sequence[str | Path], folder: Path = PYTHON, variables: Mapping[str, str] | None = None
) -> str:
    """Returns what a command writes. Raises Difference if it fails."""
    environment = {**os.environ, "PYTHONDONTWRITEBYTECODE": "1", **(variables or {})}
    given = list(map(str, words))
    done = subprocess.run(
        given, cwd=folder, env=environment, capture_output=True, text=True, timeout=SECONDS, check=False
    )
    if done.returncode:
        raise Difference(f"{' '.join(given)} ended with {done.returncode}:\n{done.stdout}{done.stderr}"[-4000:])
    return done.stdout + done.stderr


def read_as_oldest() -> None:
    """Reads each module as the oldest Python that the package is for does."""
    for path in [*sorted((PYTHON / "wfpath").glob("*.py")), *sorted((PYTHON / "backend").glob("*.py"))]:
        ast.parse(paths.read(path), path.name, feature_version=OLDEST)
    if shutil.which("mypy"):
        said = run([*MYPY, "--package", "wfpath"], paths.TOP).strip()
        run([*MYPY, PYTHON / "backend" / "wfpath_build.py"], paths.TOP)
        SCRIPT.say(f"as Python 3.9: {said}")


def compare_layouts(room: Path, variables: Mapping[str, str]) -> None:
    """Compares the size of each struct and the place of each of its fields with those of the C compiler."""
    structs = [*header.structs(paths.read(paths.HEADER))]
    places = [(struct, field) for struct in structs for field in struct.fields]
    asked = [f"sizeof(struct wf_{struct.name})" for struct in structs]
    asked += [f"offsetof(struct wf_{struct.name}, {field.name})" for struct, field in places]
    lines = "".join(f'printf("%zu\\n", {one});\n' for one in asked)
    source = f"#include <stddef.h>\n#include <stdio.h>\n#include <wf.h>\nint main(void) {{\n{lines}return 0;\n}}\n"
    (room / "layouts.c").write_text(source, encoding="utf-8")
    run(["cc", "-I", paths.HEADER.parent, "-o", room / "layouts", room / "layouts.c"])
    names = {struct.name: f"t.{python_tables.camel(struct.name)}Struct" for struct in structs}
    parts = [f"ctypes.sizeof({names[struct.name]})" for struct in structs]
    parts += [f"{names[struct.name]}.{field.name}.offset" for struct, field in places]
    told = f"import ctypes\nfrom wfpath import _tables as t\nprint({', '.join(parts)}, sep='\\n')"
    expect("the layouts of the structs", run([sys.executable, "-c", told], variables=variables), run([room / "layouts"]))
    SCRIPT.say(f"{len(structs)} structs have the layout of C")


def run_tests(variables: Mapping[str, str]) -> None:
    """Runs the tests of the package."""
    said = run([sys.executable, "-m", "unittest", "discover", "-s", "tests", "-t", "."], variables=variables)
    ran = re.search(r"^Ran (\d+) tests?", said, re.M)
    count = int(ran[1]) if ran else 0
    expect("whether tests were run", count > 0, True)
    SCRIPT.say(f"tests: {count} run; {said.strip().splitlines()[-1]}")


def run_examples(variables: Mapping[str, str]) -> None:
    """Runs the examples: each writes the text that is next to it."""
    examples = sorted((PYTHON / "examples").glob("*.py"))
    for example in examples:
        wanted = paths.read(example.with_suffix(".out"))
        expect(f"what {example.name} writes", run([sys.executable, example], variables=variables), wanted)
    SCRIPT.say(f"{len(examples)} examples write what is expected")


def run_page(variables: Mapping[str, str]) -> None:
    """Runs the examples of the page: each prints the text that the page has after it."""
    page = paths.read(paths.DOCS / "PYTHON.md")
    examples = EXAMPLE.findall(page)
    if not examples or len(examples) != page.count("```python\n"):
        raise Difference("docs/PYTHON.md has no example, or one without its output")
    for place, (example, wanted) in enumerate(examples, 1):
        printed = run([sys.executable, "-c", example], variables=variables)
        expect(f"what example {place} of docs/PYTHON.md prints", printed, wanted)


def replay_example(program: Path) -> None:
    """Replays the trace that an example writes: each call gets its answer."""
    with open(PYTHON / "examples" / "cell_trace.out", "rb") as trace:
        done = subprocess.run([program, "replay"], stdin=trace, capture_output=True, check=False)
    expect("the status of the replay of cell_trace.out", done.returncode, 0)


def pip_install(room: Path, sources: Path, variables: Mapping[str, str] | None = None) -> tuple[Path, Path]:
    """Installs the package with pip into its own environment; returns its Python and its folder of packages."""
    venv.create(room / "place", with_pip=False, symlinks=True)
    target = next((room / "place" / "lib").glob("python*/site-packages"))
    words = [sys.executable, "-m", "pip", "install", "--quiet", "--no-index", "--no-deps"]
    run([*words, "--disable-pip-version-check", "--target", target, sources], room, variables)
    return room / "place" / "bin" / "python3", target


def run_bench(python: Path, room: Path, library: str) -> None:
    """Runs the example of the bench's page (docs/SIM.md), outside a checkout and without a program: the library
    decides."""
    found = re.search(r"```python\n(from wfpath\.sim import .*?)```.*?```\n(.*?)```", paths.read(paths.DOCS / "SIM.md"), re.S)
    if not found:
        raise Difference("docs/SIM.md has no example of wfpath.sim with its output")
    variables = {"PYTHONPATH": "", "PATH": str(room), "XDG_CACHE_HOME": str(room / "cache")}
    expect("what the example of docs/SIM.md prints", run([python, "-c", found[1]], room, variables), found[2])
    say = "from wfpath.sim.runs import find_program; print(find_program(lambda what: None).library)"
    expect("the library that decides in the bench", run([python, "-c", say], room, variables).strip(), library)


def install(room: Path) -> None:
    """Installs the package with pip from this checkout, and runs an example and the bench there."""
    python, target = pip_install(room, paths.TOP)
    say = "import wfpath; print(wfpath.library_path, wfpath.library_is_proved)"
    path, proved = run([python, "-c", say], room, {"PYTHONPATH": ""}).split()
    expect("where the installed package has its library", Path(path).parent, target / "wfpath")
    found = run([python, PYTHON / "examples" / "three_stations.py"], room, {"PYTHONPATH": ""})
    expect("what the example writes", found, paths.read(PYTHON / "examples" / "three_stations.out"))
    run_bench(python, room, path)
    SCRIPT.say(f"pip installed the package; its library is {'proved' if proved == 'True' else 'not proved'}")


def install_over_library(room: Path) -> None:
    """Installs the package from sources without a built library: pip takes the one that `./wf install` put below a
    folder that pkg-config knows."""
    prefix, sources = room / "prefix", room / "sources"
    run([paths.SCRIPT, "install", prefix, "--library", "--unproved"], paths.TOP)
    for name in ("python", "sim"):
        shutil.copytree(paths.TOP / name, sources / name, ignore=shutil.ignore_patterns("__pycache__"))
    for name in ("VERSION", "LICENSE-APACHE", "LICENSE-MIT", "pyproject.toml"):
        shutil.copy(paths.TOP / name, sources)
    python, target = pip_install(room, sources, {"PKG_CONFIG_PATH": str(prefix / "lib" / "pkgconfig")})
    path = run([python, "-c", "import wfpath; print(wfpath.library_path)"], room, {"PYTHONPATH": ""}).strip()
    expect("whether it is the installed library", Path(path).read_bytes(), (prefix / "lib" / "libwf.so").read_bytes())
    expect("where the package has its library", Path(path).parent, target / "wfpath")
    run_bench(python, room, path)
    SCRIPT.say("pip installed the package with the library of ./wf install")


def has_pip() -> bool:
    """Returns whether pip is there."""
    done = subprocess.run([sys.executable, "-m", "pip", "--version"], capture_output=True, check=False)
    return done.returncode == 0


def main(words: Sequence[str] | None = None) -> int:
    """Runs all, and returns the exit status."""
    SCRIPT.parser(__doc__).parse_args(words)
    SCRIPT.require("cc")
    library, program = SCRIPT.shared_library(), SCRIPT.program_or_none()
    variables = {"PYTHONPATH": str(PYTHON), "WFPATH_LIBRARY": str(library)}
    if program:
        variables["WF_PROGRAM"] = str(program.path)
    else:
        SCRIPT.say("no program is built, so nothing is replayed")
    try:
        read_as_oldest()
        with tempfile.TemporaryDirectory(prefix="wf-python-") as room:
            compare_layouts(Path(room), variables)
        run_tests(variables)
        run_examples(variables)
        run_page(variables)
        if program:
            replay_example(program.path)
        if has_pip():
            with tempfile.TemporaryDirectory(prefix="wf-python-") as room:
                install(Path(room))
            if shutil.which("pkg-config"):
                with tempfile.TemporaryDirectory(prefix="wf-python-") as room:
                    install_over_library(Path(room))
        else:
            SCRIPT.say("there is no pip, so nothing is installed")
    except Difference as difference:
        SCRIPT.fail(difference)
    SCRIPT.say(f"all went well with {paths.shown(library)}")
    return 0


if __name__ == "__main__":
    sys.exit(main())
