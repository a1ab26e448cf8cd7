"""The check door: tests the script ./wf by the cases of tools/wfdev/build/tests.

Without --whole nothing is compiled: program, library and kit are stand-ins. With --whole the program and the library are also built,
stopped and installed, which takes about ten minutes and needs rt. The modules of cases run side by side.
"""
from __future__ import annotations

import concurrent.futures
import os
import pathlib
import re
import subprocess
import sys

CASES = pathlib.Path(__file__).resolve().parent / "tests"
TOOLS = CASES.parents[2]


def run(module: str) -> tuple[int, str]:
    """Runs the cases of a module, and returns the status and the output."""
    words = [sys.executable, "-B", "-m", "unittest", f"wfdev.build.tests.{module}"]
    variables = {**os.environ, "PYTHONPATH": str(TOOLS)}
    done = subprocess.run(words, cwd=TOOLS, env=variables, stdout=subprocess.PIPE, stderr=subprocess.STDOUT, text=True, check=False)
    return done.returncode, done.stdout


def main(words: list[str]) -> int:
    """Runs all cases, and returns the status."""
    if words not in ([], ["--whole"]):
        print("usage: checks/door [--whole]", file=sys.stderr)
        return 2
    patterns = ["test_*.py", "whole_*.py"] if words else ["test_*.py"]
    modules = [path.stem for pattern in patterns for path in sorted(CASES.glob(pattern))]
    count = failed = 0
    with concurrent.futures.ThreadPoolExecutor() as pool:
        for module, (status, said) in zip(modules, pool.map(run, modules)):
            count += int((re.findall(r"^Ran (\d+) tests?", said, re.M) or ["0"])[0])
            failed += status != 0
            if status:
                print(f"{module}:\n{said}")
    print(f"door: {count} tests run, in {len(modules)} modules; {failed} modules failed")
    return 1 if failed or not count else 0
