"""Builds the wheel of the package wfpath for pip, with the standard library only (PEP 517 and PEP 660).

The wheel contains the modules of python/wfpath, the bench of sim/ as wfpath.sim, and the shared library that
'./wf lib' built last from these sources. If there is none, it contains the library that './wf install' put
below a folder that pkg-config knows.

`python3 wfpath_build.py FOLDER LIBRARY NAME` writes the wheel with another library, which gets this name in
it. `./wf dist` does so.
"""
from __future__ import annotations

import base64
import hashlib
import os
import shutil
import subprocess
import sys
import sysconfig
import zipfile
from pathlib import Path

TOP = Path(__file__).resolve().parents[2]
PACKAGE = TOP / "python" / "wfpath"
BENCH = TOP / "sim"
# The files of the bench: its modules, the machine's settings, and the scenarios that come with it.
BENCH_FILES = ("*.py", "*.json", "baselines/*.py", "paper/*.toml", "scenarios/*.toml")
NAMES = {"yes": "libwf.so", "no": "libwf.unproved.so"}
FIRST_DAY = (1980, 1, 1, 0, 0, 0)
HOW = (
    "wfpath: no shared library libwf is built from these sources, and pkg-config knows none: './wf lib' builds "
    "one, and './wf lib --unproved' one with no proof, in a minute"
)
METADATA = """Metadata-Version: 2.1
Name: wfpath
Version: {version}
Summary: The transmit path of a Wi-Fi access point: a thin layer over the library libwf
License: MIT OR Apache-2.0
Requires-Python: >=3.9
Provides-Extra: figures
Requires-Dist: matplotlib; extra == "figures"
Provides-Extra: tables
Requires-Dist: pandas; extra == "tables"
"""
WHEEL = """Wheel-Version: 1.0
Generator: wfpath_build
Root-Is-Purelib: false
Tag: {tag}
"""


def version() -> str:
    """Returns the version of the sources."""
    return (TOP / "VERSION").read_text(encoding="utf-8").strip()


def output(words: list[str]) -> str:
    """Returns the output of a command without blanks at its ends, or nothing if it fails."""
    if shutil.which(words[0]) is None:
        return ""
    done = subprocess.run(words, stdout=subprocess.PIPE, stderr=subprocess.DEVNULL, check=False)
    return done.stdout.decode(errors="replace").strip() if done.returncode == 0 else ""


def built() -> Path | None:
    """Returns the shared library that is built from these sources."""
    archive = Path(output([str(TOP / "wf"), "which", "--library"]).partition(" ")[2])
    found = archive.parent / "shared" / archive.with_suffix(".so").name if archive.suffix == ".a" else None
    return found if found is not None and found.is_file() else None


def installed() -> tuple[Path, str] | None:
    """Returns the shared library that pkg-config knows, and the name that it gets in the package."""
    folder, proved = (output(["pkg-config", f"--variable={name}", "wf"]) for name in ("libdir", "proved"))
    path = Path(folder) / "libwf.so"
    return (path, NAMES[proved]) if folder and proved in NAMES and path.is_file() else None


def library() -> tuple[Path, str]:
    """Returns the shared library for the wheel, and its name there."""
    found = built()
    if found is not None:
        return found, found.name
    other = installed()
    if other is None:
        raise SystemExit(HOW)
    return other


def tag() -> str:
    """Returns the tag of the wheel: any Python 3 of this platform."""
    return "py3-none-" + sysconfig.get_platform().replace("-", "_").replace(".", "_")


def package_files(path: Path, name: str) -> dict[str, bytes]:
    """Returns the content of each file of the package, and of a library with its name there, by their names
    in the wheel."""
    modules = [path for path in sorted(PACKAGE.iterdir()) if path.suffix in (".py", ".typed")]
    files = {f"wfpath/{path.name}": path.read_bytes() for path in modules}
    parts = [part for form in BENCH_FILES for part in sorted(BENCH.glob(form))]
    files.update({f"wfpath/sim/{part.relative_to(BENCH)}": part.read_bytes() for part in parts})
    files[f"wfpath/{name}"] = path.read_bytes()
    return files


def row(name: str, content: bytes) -> str:
    """Returns the line of a file in the wheel's list."""
    digest = base64.urlsafe_b64encode(hashlib.sha256(content).digest()).decode().rstrip("=")
    return f"{name},sha256={digest},{len(content)}\n"


def write_wheel(folder: str, files: dict[str, bytes]) -> str:
    """Writes a wheel with these files, and returns its name."""
    info = f"wfpath-{version()}.dist-info"
    files[f"{info}/METADATA"] = METADATA.format(version=version()).encode()
    files[f"{info}/WHEEL"] = WHEEL.format(tag=tag()).encode()
    for name in ("LICENSE-APACHE", "LICENSE-MIT"):
        files[f"{info}/{name}"] = (TOP / name).read_bytes()
    rows = "".join(row(name, content) for name, content in files.items())
    files[f"{info}/RECORD"] = f"{rows}{info}/RECORD,,\n".encode()
    made = f"wfpath-{version()}-{tag()}.whl"
    with zipfile.ZipFile(os.path.join(folder, made), "w", zipfile.ZIP_DEFLATED) as wheel:
        for name, content in files.items():
            entry = zipfile.ZipInfo(name, FIRST_DAY)
            entry.external_attr = (0o100755 if name.endswith(".so") else 0o100644) << 16
            wheel.writestr(entry, content, zipfile.ZIP_DEFLATED)
    return made


def build_wheel(
    wheel_directory: str,
    config_settings: dict[str, object] | None = None,
    metadata_directory: str | None = None,
) -> str:
    """Writes the wheel of the package. pip calls this function."""
    return write_wheel(wheel_directory, package_files(*library()))


def build_editable(
    wheel_directory: str,
    config_settings: dict[str, object] | None = None,
    metadata_directory: str | None = None,
) -> str:
    """Writes a wheel that leads to the modules of this checkout. `pip install -e .` calls this function. The bench
    is then the package `sim`."""
    return write_wheel(wheel_directory, {"wfpath.pth": f"{PACKAGE.parent}\n{TOP}\n".encode()})


if __name__ == "__main__":
    print(write_wheel(sys.argv[1], package_files(Path(sys.argv[2]), sys.argv[3])))
