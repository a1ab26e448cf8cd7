"""The origin of a measurement: the sources, the kit, the tools and the processor."""
import re
import subprocess
from pathlib import Path

from wfdev.repo import paths


def first_line(*words: str) -> str:
    """Returns the first line that a command writes, or that it is not known."""
    try:
        done = subprocess.run(words, capture_output=True, text=True, cwd=paths.TOP, check=True)
    except (OSError, subprocess.CalledProcessError):
        return f"{words[0]} of an unknown version"
    return done.stdout.strip().split("\n")[0]


def sources() -> str:
    """Returns the date of the last commit."""
    return f"the sources of {first_line('git', 'log', '-1', '--format=%cs')}"


def tools() -> str:
    """Returns the versions of the kit and of valgrind."""
    return f"{first_line('rt', 'version')} and {first_line('valgrind', '--version')}"


def processor() -> str:
    """Returns the name of the processor."""
    found = re.search(r"^model name\s*: (.*)$", Path("/proc/cpuinfo").read_text(encoding="utf-8"), re.M)
    return found[1] if found else "a processor without a name"
