"""The shape of code that a kernel module can link: no floating point or vector registers, no red zone, no
jump tables, little stack.

`./wf lib --kernel` compiles the library for this shape. It needs malloc, free, memcpy, memmove and memset,
and nothing else.
"""
from __future__ import annotations

import pathlib
import re
import shlex
import shutil
import sys

from . import children, fresh
from .files import link_all
from .kit import Kit
from .report import Failure

TOOLS = pathlib.Path(__file__).resolve().parents[2]
# These look for the kit next to themselves, so links to them would lead to the kit itself.
COPIED = ("rt", "rtlib.py")
HEAP = pathlib.Path(fresh.TOP) / "examples" / "kernel" / "heap.c"
# The files that shape a library for a kernel module.
SHAPING = (HEAP, pathlib.Path(__file__), pathlib.Path(__file__).with_name("kernel_clang.py"))
LEVEL = "-O2"
SHAPE = ["-mgeneral-regs-only", "-mcmodel=kernel", "-fno-pic"]
# Calls of one path take less stack if the parts of a call are compiled into it.
FLAGS = [*SHAPE, "-mllvm", "-inline-threshold=5000"]
HEAP_FLAGS = [*SHAPE, "-mno-red-zone", "-ffreestanding", "-fno-stack-protector", "-O2"]
HEAP_FLAGS += ["--target=x86_64-unknown-linux-gnu", "-Wall", "-Wextra", "-Werror"]
FUNCTION_ATTRIBUTES = re.compile(r'^(attributes #\d+ = \{)(.*"target-cpu")', re.M)
ATTRIBUTES = 'noredzone "no-jump-tables"="true"'


def is_older_than(made: pathlib.Path) -> bool:
    """Returns whether a built file is there and no file that shapes it was changed since."""
    try:
        return max(path.stat().st_mtime for path in SHAPING) < made.stat().st_mtime
    except OSError:
        return made.exists()


def shaped(module: str) -> str:
    """Returns a module of LLVM whose functions use no red zone, no jump tables and no frame pointers. No flag
    of clang does this to a module."""
    module = module.replace('"frame-pointer"="all"', '"frame-pointer"="none"')
    text, count = FUNCTION_ATTRIBUTES.subn(rf"\1 {ATTRIBUTES}\2", module)
    if not count:
        raise Failure("the module that the kit compiled has no function attributes of the known form")
    return text


def compile_heap(clang: pathlib.Path, folder: pathlib.Path, log: pathlib.Path) -> str:
    """Compiles the code that calls malloc and free into a folder, and returns the name of the file."""
    if children.run([clang, *HEAP_FLAGS, "-c", HEAP, "-o", "heap.o"], folder, log) != 0:
        raise Failure(f"{HEAP.name} does not compile", children.last_lines(log))
    return "heap.o"


def make_frame(kit: Kit, frame: pathlib.Path) -> pathlib.Path:
    """Makes a folder of links to the kit in which clang compiles for this shape, and returns it."""
    link_all(kit.folder, frame, ("bin", "toolchain"))
    link_all(kit.folder / "bin", frame / "bin", COPIED)
    link_all(kit.folder / "toolchain", frame / "toolchain", ("bin",))
    link_all(kit.folder / "toolchain/bin", frame / "toolchain/bin", ("clang",))
    for name in COPIED:
        shutil.copy(kit.folder / "bin" / name, frame / "bin" / name)
    words = [sys.executable, "-P", "-m", "wfdev.build.kernel_clang", str(kit.tool("clang"))]
    wrapper = frame / "toolchain/bin/clang"
    text = f'#!/bin/sh\nPYTHONPATH={shlex.quote(str(TOOLS))} exec {shlex.join(words)} "$@"\n'
    wrapper.write_text(text, encoding="utf-8")
    wrapper.chmod(0o755)
    return frame
