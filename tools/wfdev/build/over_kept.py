"""Compiles the static library of a crate over libraries that `rt ci` left in a copy of the sources: `over_kept.py KIT [FLAG ..]`, in the
crate's folder. The flags are for the compiler.

`rt lib` compiles a static library only over libraries that it built itself, and proves all of them again. This script makes the same call
of the prover and compiler over what `rt ci` proved; the crate itself is proved by that call. Status 3 means that the kit does not have
the functions that the script calls.
"""
# ruff: noqa: PTH
from __future__ import annotations

import importlib.machinery
import importlib.util
import os
import sys
from types import ModuleType

OTHER_KIT = 3


def load(kit: str) -> ModuleType:
    """Returns the kit's module of commands."""
    loader = importlib.machinery.SourceFileLoader("rtlib", os.path.join(kit, "bin", "rtlib.py"))
    spec = importlib.util.spec_from_loader("rtlib", loader)
    assert spec is not None
    module = importlib.util.module_from_spec(spec)
    sys.modules["rtlib"] = module
    loader.exec_module(module)
    return module


def main(kit: str, flags: list[str]) -> int:
    """Compiles the crate of the current folder to out/libNAME.a."""
    sys.dont_write_bytecode = True
    try:
        commands = load(kit)
        commands.guarded()
        here = os.getcwd()
        crate = commands.Crate(here, commands.root_above(here), {})
        os.makedirs("out", exist_ok=True)
        status = crate.compile(flags, f"out/lib{crate.name}.a")
    except (AttributeError, TypeError, ImportError, OSError) as fault:
        print(f"over_kept: {fault}", file=sys.stderr)
        return OTHER_KIT
    return 1 if status else 0


if __name__ == "__main__":
    sys.exit(main(sys.argv[1], sys.argv[2:]))
