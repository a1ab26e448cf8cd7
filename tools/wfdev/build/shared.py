"""The shared library: linked from all of the static one, with only the header's functions visible."""
# ruff: noqa: PTH
from __future__ import annotations

import os
import pathlib
import re
import shlex
import shutil
import tempfile

from . import children, fresh
from .files import ASIDE, place, reason
from .report import Failure, Notes

TOP = pathlib.Path(fresh.TOP)
HEADER = TOP / "include" / "wf.h"
# The folder of the shared library next to the static one. In another folder, `-lwf` finds the static one.
FOLDER = "shared"
# The libraries that a shared library may need: the C library, and on some systems the loader, which belongs
# to it.
ALLOWED = re.compile(r"libc\.(so\.6|musl-.*\.so\.1)|ld-linux.*|ld-musl.*")


class NotLinked(Failure):
    """No shared library can be made."""


def version() -> str:
    """Returns the version of the sources."""
    return (TOP / "VERSION").read_text(encoding="utf-8").strip()


def exports() -> list[str]:
    """Returns the functions of the header."""
    return re.findall(r"^\w+ (wf_\w+)\(", HEADER.read_text(encoding="utf-8"), re.M)


def c_compiler() -> list[str]:
    """Returns the words that call the C compiler; it and readelf have to be there."""
    words = shlex.split(os.environ.get("CC") or "cc")
    for tool in (words[0], "readelf"):
        if shutil.which(tool) is None:
            wanted = "the shared library needs a C compiler (cc, or what CC names) and binutils"
            raise NotLinked(f"there is no {tool}: {wanted}")
    return words


def run(words: list[str], folder: pathlib.Path) -> str:
    """Returns the output of a tool, which must succeed. The folder is for its log."""
    log = folder / ".log"
    log.unlink(missing_ok=True)
    if children.run(words, folder, log) != 0:
        raise NotLinked(f"{words[0]} failed", children.last_lines(log, 5))
    said = log.read_text(encoding="utf-8", errors="replace")
    log.unlink()
    return said


def link(archive: pathlib.Path, made: pathlib.Path, compiler: list[str], room: pathlib.Path) -> list[str]:
    """Links a shared library from a static one; `room` is a folder for temporary files. Returns which
    libraries it needs."""
    major = version().partition(".")[0]
    script = room / ".exports"
    names = "".join(f"{name}; " for name in exports())
    script.write_text(f"WF_{major} {{ global: {names}local: *; }};\n", encoding="utf-8")
    words = ["-shared", f"-Wl,-soname,libwf.so.{major}"]
    words += ["-Xlinker", "--version-script", "-Xlinker", str(script)]
    words += ["-Wl,-z,defs,-z,relro,-z,now,-Bsymbolic-functions,--gc-sections"]
    words += ["-Wl,--whole-archive", str(archive), "-Wl,--no-whole-archive"]
    run([*compiler, *words, "-o", str(made)], room)
    script.unlink()
    return needed(made, room)


def needed(library: pathlib.Path, room: pathlib.Path) -> list[str]:
    """Returns which libraries a shared library needs: only the C library is allowed."""
    names = re.findall(r"\(NEEDED\).*\[(.*)\]", run(["readelf", "-d", str(library)], room))
    strange = [name for name in names if not ALLOWED.fullmatch(name)]
    if strange:
        raise NotLinked(f"the shared library needs {', '.join(strange)}: expected the C library only")
    return names


def path_of(archive: pathlib.Path) -> pathlib.Path:
    """Returns the path of the shared library of a static one in a checkout."""
    return archive.parent / FOLDER / archive.with_suffix(".so").name


def build(archive: pathlib.Path) -> None:
    """Makes the shared library of a static one in a checkout, for Python. If that fails, there is none, and a
    note says why."""
    target = path_of(archive)
    target.parent.mkdir(exist_ok=True)
    try:
        with tempfile.TemporaryDirectory(prefix=ASIDE, dir=target.parent) as folder:
            made = pathlib.Path(folder) / target.name
            link(archive, made, c_compiler(), pathlib.Path(folder))
            if not target.is_file() or target.read_bytes() != made.read_bytes():
                place(made, target)
            os.utime(target)
    except (Failure, OSError) as why:
        target.unlink(missing_ok=True)
        told = why.why if isinstance(why, Failure) else reason(why)
        Notes.say(f"no shared library was made, which Python needs: {told}")
