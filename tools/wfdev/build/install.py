"""The words `install` and `uninstall`.

All files are made in a folder inside PREFIX first, and moved to their places when everything was checked, so a run that fails changes
nothing. No file contains the name of PREFIX, so the folder may be moved.
"""
# ruff: noqa: PTH
from __future__ import annotations

import contextlib
import dataclasses
import os
import pathlib
import re
import shutil
import tempfile
from collections.abc import Iterator

from . import completions, fresh, manifest, shared
from .children import noted_signals, stop_if_asked
from .files import reason
from .manifest import Entry, Manifest
from .report import Failure, Notes, complain

TOP = pathlib.Path(fresh.TOP)
TEMPLATES = TOP / "tools" / "installed"
PROGRAM, LIBRARY = "program", "library"
COPIES = {
    LIBRARY: {
        "include/wf.h": shared.HEADER,
        "include/wf/path.hpp": TOP / "examples" / "c" / "path.hpp",
        "share/man/man3/wf.h.3": TOP / "man" / "wf.h.3",
    },
    PROGRAM: {
        "share/man/man1/wf.1": TOP / "man" / "wf.1",
        "share/bash-completion/completions/wf": completions.FOLDER / "wf.bash",
        "share/zsh/site-functions/_wf": completions.FOLDER / "_wf",
        "share/fish/vendor_completions.d/wf.fish": completions.FOLDER / "wf.fish",
    },
}
FILLED = {
    "lib/pkgconfig/wf.pc": TEMPLATES / "wf.pc",
    "lib/cmake/wf/wf-config.cmake": TEMPLATES / "wf-config.cmake",
    "lib/cmake/wf/wf-config-version.cmake": TEMPLATES / "wf-config-version.cmake",
}
TAKES_UNPROVED = "nothing was installed; './wf install PREFIX --unproved' installs what is not proved, too"
NO_LIBRARY = "install: no library is as new as the sources: './wf lib' proves and builds it, and './wf lib --unproved' builds it with no proof"
NOTHING_BUILT = (
    "install: no program and no library is as new as the sources: './wf build' and './wf lib' prove and build them, and with --unproved "
    "they build them with no proof"
)


@dataclasses.dataclass(frozen=True)
class Built:
    """A built file that is to be installed."""

    component: str
    kind: str
    path: pathlib.Path

    @property
    def name(self) -> str:
        """Its name below PREFIX."""
        return "bin/wf" if self.component == PROGRAM else "lib/libwf.a"


def built_files() -> list[Built]:
    """Returns the products that are built from these sources."""
    sources = fresh.Sources()
    named = os.environ.get("WF_PROGRAM")
    found = {PROGRAM: ("named", named) if named else fresh.find_program(sources), LIBRARY: fresh.find_library(sources)}
    return [Built(component, one[0], pathlib.Path(one[1])) for component, one in found.items() if one]


def chosen(takes_unproved: bool, only_library: bool) -> list[Built]:
    """Returns the products that are built from these sources, or the library alone; without the flag each has to be proved."""
    built = [one for one in built_files() if one.component == LIBRARY or not only_library]
    if not built:
        raise Failure(NO_LIBRARY if only_library else NOTHING_BUILT)
    for one in built:
        if one.kind != "proved" and not takes_unproved:
            raise Failure(f"install: {one.path} is not known to be proved; {TAKES_UNPROVED}")
    return built


class Stage:
    """A folder inside PREFIX in which all files are made before they go to their places."""

    def __init__(self, folder: pathlib.Path) -> None:
        self.folder = folder
        self.components: dict[str, str] = {}
        self.version = shared.version()
        self.major = self.version.partition(".")[0]

    def add(self, component: str, name: str) -> pathlib.Path:
        """Returns the path in the stage of a file with this name."""
        self.components[name] = component
        path = self.folder / name
        path.parent.mkdir(parents=True, exist_ok=True)
        return path

    def copy(self, component: str, name: str, source: pathlib.Path) -> None:
        """Copies a file."""
        stop_if_asked()
        shutil.copyfile(source, self.add(component, name))

    def fill(self, name: str, source: pathlib.Path, kind: str) -> None:
        """Makes a file from a template."""
        values = {"VERSION": self.version, "MAJOR": self.major, "PROVED": "yes" if kind == "proved" else "no"}
        text = re.sub(r"@(\w+)@", lambda found: values[found[1]], source.read_text(encoding="utf-8"))
        self.add(LIBRARY, name).write_text(text, encoding="utf-8")

    def finish(self) -> None:
        """Sets the permissions of all files."""
        for name in self.components:
            path = self.folder / name
            if not path.is_symlink():
                path.chmod(0o755 if name.startswith("bin/") or ".so." in name else 0o644)


def link(stage: Stage, archive: pathlib.Path, compiler: list[str]) -> list[str]:
    """Links the shared library in the stage, and returns which libraries it needs."""
    made = stage.add(LIBRARY, f"lib/libwf.so.{stage.version}")
    needs = shared.link(archive, made, compiler, stage.folder)
    stage.add(LIBRARY, f"lib/libwf.so.{stage.major}").symlink_to(made.name)
    stage.add(LIBRARY, "lib/libwf.so").symlink_to(f"libwf.so.{stage.major}")
    return needs


def fill(stage: Stage, built: list[Built]) -> None:
    """Makes all files in the stage."""
    compiler = shared.c_compiler() if any(one.component == LIBRARY for one in built) else []
    for one in built:
        stage.copy(one.component, one.name, one.path)
        for name, source in COPIES[one.component].items():
            stage.copy(one.component, name, source)
        if one.component == LIBRARY:
            for name, source in FILLED.items():
                stage.fill(name, source, one.kind)
            needs = link(stage, one.path, compiler)
            Notes.say(f"lib/libwf.so needs {', '.join(needs) or 'nothing'}")
    stage.finish()


def check_targets(prefix: pathlib.Path, names: list[str]) -> None:
    """Fails if one of these files cannot be put below a folder: nothing is replaced then."""
    for name in names:
        target = prefix / name
        if target.is_dir() and not target.is_symlink():
            raise Failure(f"install: {target} is a folder: expected a file or nothing; nothing was replaced")
        above = target.parent
        while not os.path.lexists(above):
            above = above.parent
        if not above.is_dir():
            raise Failure(f"install: {above} is a file: expected a folder or nothing; nothing was replaced")
        if not os.access(above, os.W_OK | os.X_OK):
            raise Failure(f"install: {above}: no file can be put there; nothing was replaced")


def make_folders(prefix: pathlib.Path, name: str) -> list[str]:
    """Makes the folder of a file, and returns the names of the folders that were missing."""
    missing = []
    folder = pathlib.PurePath(name).parent
    while str(folder) != "." and not (prefix / folder).is_dir():
        missing.append(str(folder))
        folder = folder.parent
    (prefix / name).parent.mkdir(parents=True, exist_ok=True)
    return missing


def merged(old: Manifest | None, stage: Stage) -> tuple[Manifest, list[str]]:
    """Returns the manifest after this installation, and the files of the same components that an earlier one put and this one does not."""
    new = Manifest(folders=set(old.folders) if old else set())
    for name, component in stage.components.items():
        new.entries[name] = Entry(name, component, manifest.content_sum(stage.folder / name))
    components, stale = set(stage.components.values()), []
    for name, entry in old.entries.items() if old else ():
        if name in new.entries:
            continue
        if entry.component in components:
            stale.append(name)
        else:
            new.entries[name] = entry
    return new, stale


def put(stage: Stage, prefix: pathlib.Path) -> list[str]:
    """Moves all files to their places, and returns their names."""
    names = sorted(stage.components)
    check_targets(prefix, [*names, manifest.NAME])
    old = manifest.read(prefix)
    new, stale = merged(old, stage)
    for name in [*names, manifest.NAME]:
        new.folders.update(make_folders(prefix, name))
    listed = stage.folder / ".manifest"
    listed.write_text(new.text(), encoding="utf-8")
    listed.chmod(0o644)
    os.replace(listed, prefix / manifest.NAME)
    for name in names:
        os.replace(stage.folder / name, prefix / name)
    for name in stale:
        if old and is_as_put(prefix / name, old.entries[name]):
            (prefix / name).unlink()
    return sorted([*names, manifest.NAME])


def is_as_put(path: pathlib.Path, entry: Entry) -> bool:
    """Returns whether a file is there and unchanged since it was installed."""
    return os.path.lexists(path) and not (path.is_dir() and not path.is_symlink()) and manifest.content_sum(path) == entry.sum


@contextlib.contextmanager
def made_folder(folder: pathlib.Path) -> Iterator[None]:
    """Makes a folder and those above it; if the work that follows fails, those that are empty are removed again."""
    missing = [one for one in [folder, *folder.parents] if not one.exists()]
    folder.mkdir(parents=True, exist_ok=True)
    try:
        yield
    except BaseException:
        for one in missing:
            with contextlib.suppress(OSError):
                one.rmdir()
        raise


def destination(prefix: str) -> pathlib.Path:
    """Returns the folder to write below: PREFIX, or DESTDIR/PREFIX."""
    path = pathlib.Path(os.path.abspath(prefix))
    staged = os.environ.get("DESTDIR")
    return pathlib.Path(os.path.abspath(staged)) / path.relative_to("/") if staged else path


def print_names(prefix: pathlib.Path, names: list[str]) -> None:
    """Prints files, a line each. The work is done, so a reader that left early is no fault."""
    with contextlib.suppress(BrokenPipeError):
        try:
            os.write(1, "".join(f"{prefix / name}\n" for name in names).encode(errors="surrogateescape"))
        except BrokenPipeError:
            raise
        except OSError as fault:
            complain(f"the names of the files could not be written: {fault.strerror}")


def install_below(target: pathlib.Path, built: list[Built]) -> list[str]:
    """Installs products below a folder, and returns the names of the files."""
    os.umask(0o022)
    try:
        with noted_signals(), made_folder(target), tempfile.TemporaryDirectory(prefix=".wf-install-", dir=target) as folder:
            stage = Stage(pathlib.Path(folder))
            fill(stage, built)
            return put(stage, target)
    except OSError as fault:
        raise Failure(f"install: {reason(fault)}") from None
    except shared.NotLinked as why:
        raise Failure(f"install: {why.why}", why.said) from None


def install(prefix: str, takes_unproved: bool, only_library: bool = False) -> int:
    """The word `install`."""
    built = chosen(takes_unproved, only_library)
    target = destination(prefix)
    print_names(target, install_below(target, built))
    for one in built:
        Notes.say(f"installed the {one.kind} {one.component}")
    for component, word in ((PROGRAM, "build"), (LIBRARY, "lib")):
        if component not in {one.component for one in built} and not only_library:
            Notes.say(f"no {component} is built from these sources, so none was installed ('./wf {word}' builds one)")
    return 0


def uninstall(prefix: str) -> int:
    """The word `uninstall`."""
    target = destination(prefix)
    found = manifest.read(target)
    if found is None:
        raise Failure(f"uninstall: there is no {target / manifest.NAME}: './wf install' put nothing below this folder")
    try:
        removed = remove(target, found)
    except OSError as fault:
        raise Failure(f"uninstall: {reason(fault)}") from None
    print_names(target, removed)
    return 0


def remove(prefix: pathlib.Path, found: Manifest) -> list[str]:
    """Removes the files of a manifest that are unchanged, then the manifest, then the folders that are empty."""
    removed = []
    for name, entry in sorted(found.entries.items()):
        path = prefix / name
        if not os.path.lexists(path):
            continue
        if not is_as_put(path, entry):
            complain(f"{path} was changed after it was installed: it is left")
            continue
        path.unlink()
        removed.append(name)
    (prefix / manifest.NAME).unlink()
    for name in sorted(found.folders, key=lambda one: -len(pathlib.PurePath(one).parts)):
        with contextlib.suppress(OSError):
            (prefix / name).rmdir()
    return [*removed, manifest.NAME]
