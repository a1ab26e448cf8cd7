"""Is `rt`, except that it runs the program that GATE_WATCHED names instead of rattle."""
import importlib.machinery
import importlib.util
import os
import shutil
import sys
from collections.abc import Sequence
from typing import Any

from wfdev.bench.gate import records
from wfdev.harness.script import words_of


def load(path: str) -> Any:
    """Returns the kit's command rt as a module: it is a script, and not part of this repository."""
    sys.dont_write_bytecode = True
    loader = importlib.machinery.SourceFileLoader("rt", path)
    spec = importlib.util.spec_from_loader("rt", loader)
    assert spec is not None
    made = importlib.util.module_from_spec(spec)
    loader.exec_module(made)
    return made


def main(words: Sequence[str] | None = None) -> int:
    """Runs rt with these words and returns the exit status."""
    found = shutil.which("rt")
    if found is None:
        sys.exit("gate: there is no rt")
    rt = load(os.path.realpath(found))
    os.environ[records.RATTLE], rt.rtlib.RATTLE = rt.rtlib.RATTLE, os.environ[records.WATCHED]
    return int(rt.main(words_of(words)) or 0)


if __name__ == "__main__":
    sys.exit(main())
