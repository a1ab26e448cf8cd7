"""Tests of the launchers in checks/ and bench/: all have one form, and each names a module that exists."""
import importlib.util
import os
import unittest
from collections.abc import Iterator
from pathlib import Path

from wfdev.repo import paths

FORM = """#!/bin/sh
top=$(dirname "$(readlink -f "$0")")/..
PYTHONPATH=$top/tools:$top exec python3 -P -m wfdev.{module} "$@"
"""


def launchers() -> Iterator[Path]:
    """Yields the executables of both folders."""
    for folder in (paths.CHECKS, paths.BENCH):
        yield from (path for path in sorted(folder.iterdir()) if path.is_file() and os.access(path, os.X_OK))


class Launchers(unittest.TestCase):
    def test_each_starts_the_module_of_its_name(self) -> None:
        for path in launchers():
            module = f"{path.parent.name}.{path.name.replace('-', '_')}"
            self.assertEqual(paths.read(path), FORM.format(module=module), path)
            self.assertIsNotNone(importlib.util.find_spec(f"wfdev.{module}"), path)

    def test_no_module_loads_a_script_or_changes_the_path(self) -> None:
        allowed = {"harness/unproved.py", "bench/gate/as_rt.py", "tests/test_launchers.py"}
        package = paths.TOP / "tools" / "wfdev"
        for path in package.rglob("*.py"):
            name = str(path.relative_to(package))
            text = paths.read(path)
            self.assertNotIn("sys.path." + "insert", text, name)
            if name not in allowed and not name.startswith("build/"):
                self.assertNotIn("SourceFileLoader", text, name)


if __name__ == "__main__":
    unittest.main()
