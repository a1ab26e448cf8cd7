"""The words `build` and `lib`: the products, the copy of the sources that each is built from, and the place of each."""
# ruff: noqa: PTH
from __future__ import annotations

import contextlib
import dataclasses
import os
import pathlib
import shlex
import shutil
import time
from collections.abc import Iterator

from . import cache, fresh, kernel, proved, shared, snapshot, unproved
from .children import noted_signals
from .files import lock, put, reason, temporary_folder, write_whole
from .kit import need_rt
from .report import Failure, Notes

TOP = pathlib.Path(fresh.TOP)
PROGRAM_CRATE = "wf"
LIBRARY_CRATE = "wf_c"
# Octets of temporary files that a build needs, with some to spare.
UNPROVED_NEEDS = 200 << 20
PROVED_NEEDS = 3 << 30
# A second copy of each built file: `rt ci` removes all that is in the folders of the crates.
KEPT = "out/built"
# The gate sets this variable to the checksum of the sources before its `rt ci`. A program that `rt ci` leaves has no record: it is kept in
# the cache only if this checksum shows that no source was changed meanwhile.
GATE = "WF_GATE"


@dataclasses.dataclass(frozen=True)
class Product:
    """A file that is built: its name below the top, its crate, whether it is proved, and whether it is for a kernel module."""

    name: str
    crate: str
    is_proved: bool
    is_kernel: bool = False

    @property
    def path(self) -> pathlib.Path:
        """The path of the file."""
        return TOP / self.name

    @property
    def kept_name(self) -> str:
        """The name of the second copy, below the top."""
        return f"{KEPT}/{os.path.basename(self.name)}"

    @property
    def log(self) -> pathlib.Path:
        """The path of the log of a build that failed."""
        return self.path.parent / "build.log"

    @property
    def is_library(self) -> bool:
        """Whether it is the static library."""
        return self.crate == LIBRARY_CRATE

    def cached(self, sources: str, kit: str) -> pathlib.Path | None:
        """Returns the path of its entry in the user's cache, which has proved files only."""
        shaping = kernel.SHAPING if self.is_kernel else ()
        return cache.path_of(os.path.basename(self.name), sources, kit, shaping) if self.is_proved else None

    def is_fresh(self) -> bool:
        """Returns whether the file is made from the sources as they are."""
        if self.is_kernel and not kernel.is_older_than(self.path):
            return False
        return fresh.Sources(str(TOP)).is_fresh(self.name, may_adopt=self == PROGRAM)


PROGRAM = Product(fresh.PROGRAM, PROGRAM_CRATE, True)
UNPROVED_PROGRAM = Product(fresh.UNPROVED_PROGRAM, PROGRAM_CRATE, False)
LIBRARY = Product(fresh.LIBRARY, LIBRARY_CRATE, True)
UNPROVED_LIBRARY = Product(fresh.UNPROVED_LIBRARY, LIBRARY_CRATE, False)
KERNEL_LIBRARY = Product(fresh.KERNEL_LIBRARY, LIBRARY_CRATE, True, is_kernel=True)
UNPROVED_KERNEL_LIBRARY = Product(fresh.UNPROVED_KERNEL_LIBRARY, LIBRARY_CRATE, False, is_kernel=True)


def build(product: Product) -> None:
    """Builds a file unless it is fresh. It is replaced only if the build succeeds."""
    if product.is_fresh():
        Notes.say(f"{product.name} is built from these sources already")
    else:
        need_rt()
        with _alone(product):
            if not _is_there(product):
                _build_anew(product)
    if GATE in os.environ:
        _cache_for_gate(product, os.environ[GATE])


def takes_earlier(product: Product) -> bool:
    """Puts a file in place if an earlier build made it from these sources, and returns whether it is fresh. Nothing is built."""
    with _alone(product):
        return _is_there(product)


@contextlib.contextmanager
def _alone(product: Product) -> Iterator[None]:
    """Holds the lock of the folder of a file."""
    try:
        with noted_signals(), lock(product.path.parent):
            yield
    except OSError as fault:
        raise Failure(reason(fault)) from None


def _is_there(product: Product) -> bool:
    """Returns whether a file is fresh, or an earlier build of it is put in place."""
    return product.is_fresh() or _take_kept(product) or _take_cached(product)


def _build_anew(product: Product) -> None:
    """Builds a file from a copy of the sources, puts it in place, and writes its record."""
    how = "every crate below it is proved first" if product.is_proved else "this takes about a minute; nothing is proved of it"
    Notes.say(f"building {product.name}: {how}")
    with temporary_folder(PROVED_NEEDS if product.is_proved else UNPROVED_NEEDS) as room:
        copy = room / "tree"
        log = room / "log" if product.is_proved else room / "watched" / "said"
        began = time.time()
        sources = snapshot.copy_sources(TOP, copy)
        kit = fresh.kit_identity()
        try:
            made = _make(product, copy, room, log)
        except Failure as why:
            raise Failure(f"{why.why}\n{product.name} is not built{_kept_log(log, product.log)}", why.said) from None
        record = fresh.Record(sources, kit, fresh.file_checksum(str(made)))
        # The date of the file is the time at which the sources were copied.
        put(made, product.path, record, began)
        _keep(made, TOP / product.kept_name, record, began)
        entry = product.cached(record.sources, record.kit)
        if entry is not None:
            cache.keep(made, entry, record)


def _keep(made: pathlib.Path, target: pathlib.Path, record: fresh.Record, when: float) -> None:
    """Keeps a second copy, if there is room for it."""
    with contextlib.suppress(OSError, Failure):
        target.parent.mkdir(parents=True, exist_ok=True)
        put(made, target, record, when)


def _take_kept(product: Product) -> bool:
    """Puts the second copy in place if it is made from the sources as they are, and returns whether it is."""
    kept = TOP / product.kept_name
    if product.is_kernel and not kernel.is_older_than(kept):
        return False
    if not fresh.Sources(str(TOP)).is_fresh(product.kept_name):
        return False
    record = fresh.read_record(str(kept))
    if record is None:
        return False
    put(kept, product.path, fresh.Record(record.sources, record.kit, record.made), kept.stat().st_mtime)
    Notes.say(f"{product.name}: an earlier build from the same sources is taken from {product.kept_name}")
    return True


def _take_cached(product: Product) -> bool:
    """Puts the entry of the user's cache in place if it is made from the sources as they are, and returns whether it is."""
    began = time.time()
    sources = fresh.Sources(str(TOP))
    entry = product.cached(sources.checksum(), sources.kit)
    if entry is None or not cache.take(entry, product.path, sources.checksum(), sources.kit, began):
        return False
    Notes.say(f"{product.name}: a proved build from the same sources is taken from {entry}")
    return True


def _cache_for_gate(product: Product, sources: str) -> None:
    """Keeps a proved file in the user's cache if its record has the checksum of the sources that the gate proved."""
    record = fresh.read_record(str(product.path))
    if record is None or record.sources != sources:
        return
    entry = product.cached(record.sources, record.kit)
    if entry is not None and cache.record_of(entry, record.sources, record.kit) is None:
        with noted_signals():
            cache.keep(product.path, entry, record)


def _make(product: Product, copy: pathlib.Path, room: pathlib.Path, log: pathlib.Path) -> pathlib.Path:
    """Makes the file from a copy of the sources, and returns its path."""
    if product.is_proved and product.is_library:
        return proved.build_library(copy, product.crate, log, product.is_kernel)
    if product.is_proved:
        return proved.build_program(copy, product.crate, TOP, log)
    watched, made = room / "watched", room / "made"
    watched.mkdir()
    crate = copy / "crates" / product.crate
    if product.is_kernel:
        unproved.build_kernel_library(crate, made, watched)
    elif product.is_library:
        unproved.build_library(crate, made, watched)
    else:
        unproved.build_program(crate, made, watched)
    return made


def _kept_log(log: pathlib.Path, target: pathlib.Path) -> str:
    """Keeps the log of a build that failed, and returns the words that name it."""
    try:
        shutil.copyfile(log, target)
    except OSError:
        return ""
    return f" (log: {os.path.relpath(target, TOP)})"


def program(is_proved: bool) -> None:
    """The word `build`."""
    build(PROGRAM if is_proved else UNPROVED_PROGRAM)


def program_to_answer() -> tuple[str, str]:
    """Returns whether the program that answers is proved, and its path, if none is built yet: the proved one is taken if an earlier build
    made it from the same sources; else the unproved one is built."""
    need_rt()
    if takes_earlier(PROGRAM):
        return "proved", str(PROGRAM.path)
    build(UNPROVED_PROGRAM)
    return "unproved", str(UNPROVED_PROGRAM.path)


def library(is_proved: bool) -> None:
    """The word `lib`: prints the library's path, writes a file for pkg-config next to it, and makes the shared library for Python."""
    product = LIBRARY if is_proved else UNPROVED_LIBRARY
    build(product)
    shared.build(product.path)
    write_whole(product.path.parent / "wf.pc", pkg_config(product))
    print(product.path, flush=True)
    words = ["cc", "-std=c99", f"-I{TOP / 'include'}", str(TOP / "examples" / "c" / "driver.c"), str(product.path)]
    Notes.say(f"to link an example and run it: {shlex.join(words)} && ./a.out")
    Notes.say(f"to install it: ./wf install PREFIX{'' if product.is_proved else ' --unproved'}")


def kernel_library(is_proved: bool) -> None:
    """The word `lib` with --kernel: prints the path of the library for a kernel module."""
    product = KERNEL_LIBRARY if is_proved else UNPROVED_KERNEL_LIBRARY
    build(product)
    print(product.path, flush=True)


def pkg_config(product: Product) -> str:
    """Returns the text of the file for pkg-config that names a library of this checkout."""
    version = (TOP / "VERSION").read_text(encoding="utf-8").strip()
    lines = [
        f"archive={_escaped(product.path)}",
        f"includedir={_escaped(TOP / 'include')}",
        f"proved={'yes' if product.is_proved else 'no'}",
        "",
        "Name: wf",
        "Description: The transmit path of a Wi-Fi access point",
        f"Version: {version}",
        "Cflags: -I${includedir}",
        "Libs: ${archive}",
    ]
    return "\n".join(lines) + "\n"


def _escaped(path: pathlib.Path) -> str:
    """Returns a path as pkg-config reads it."""
    return str(path).replace("\\", "\\\\").replace(" ", "\\ ")
