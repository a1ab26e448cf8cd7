"""A small checkout for tests: the script and its package, a few sources, and stand-ins for the kit, the program and the library."""
from __future__ import annotations

import os
import pathlib
import shutil
import signal
import subprocess
import sys
import tempfile
import unittest

from wfdev.build import fresh

from . import stand_in_kit

TOP = pathlib.Path(fresh.TOP)
TEXTS = "crates/wf_run/src/help/texts.rt"
PROGRAM = "#!/bin/sh\necho program \"$@\"\n"
LIBRARY = "a library\n"
KIT = "rattle-kit-test"
# Folders with tools that tests need; a kit of this machine is not among them.
TOOLS = "/usr/bin:/bin"
BARE_PYTHON = "#!/bin/sh\nexec {} \"$@\"\n"


def hear_signals() -> None:
    """Ends what a job in the background inherits: a shell lets it ignore an interrupt, and nohup a hangup."""
    for number in (signal.SIGINT, signal.SIGHUP):
        signal.signal(number, signal.SIG_DFL)


class Checkout(unittest.TestCase):
    """A test over a checkout of its own, in self.top."""

    def setUp(self) -> None:
        room = tempfile.TemporaryDirectory(prefix="wf-door-")
        self.addCleanup(room.cleanup)
        self.room = pathlib.Path(room.name)
        self.top = self.room / "checkout"
        for folder in ("crates/wf/src", "crates/wf/out", "crates/wf_c/out", "crates/wf_run/src/help"):
            (self.top / folder).mkdir(parents=True)
        shutil.copytree(TOP / "tools/wfdev/build", self.top / "tools/wfdev/build", ignore=shutil.ignore_patterns("tests", "__pycache__"))
        shutil.copy(TOP / "tools/wfdev/__init__.py", self.top / "tools/wfdev")
        made = shutil.ignore_patterns("__pycache__")
        shutil.copytree(TOP / "tools/wfdev/traces", self.top / "tools/wfdev/traces", ignore=made)
        for name in ("tools/installed", "tools/completions", "include", "man"):
            shutil.copytree(TOP / name, self.top / name)
        (self.top / "examples/c").mkdir(parents=True)
        (self.top / "docs").mkdir()
        for name in ("wf", "VERSION", TEXTS, "examples/c/path.hpp", "docs/MACHINE.md"):
            shutil.copy(TOP / name, self.top / name)
        self.write("crates.txt", "low:\nwf: low\nwf_run:\nwf_c staticlib: low\n")
        self.write("HANDLES", "Handles allowed: none.\n")
        self.write("crates/wf/src/main.rt", "fn main() {}\n")
        self.write("crates/wf_c/src/lib.rt", "text\n")
        self.kit = self.room / "kit"
        self.tool("bin/python3", BARE_PYTHON.format(sys.executable))

    def write(self, name: str, text: str) -> pathlib.Path:
        """Writes a file of the checkout."""
        path = self.top / name
        path.parent.mkdir(parents=True, exist_ok=True)
        path.write_text(text, encoding="utf-8")
        return path

    def tool(self, name: str, text: str) -> pathlib.Path:
        """Makes a tool outside the checkout."""
        path = self.room / name
        path.parent.mkdir(parents=True, exist_ok=True)
        path.write_text(text, encoding="utf-8")
        path.chmod(0o755)
        return path

    def has_kit(self, rt: str = "#!/bin/sh\nexit 1\n") -> None:
        """Puts a kit on the path, whose rt is this script."""
        self.tool("kit/bin/rt", rt)
        (self.kit / "KIT-ID").write_text(f"{KIT}\n", encoding="utf-8")
        (self.room / "bin/rt").symlink_to(self.kit / "bin/rt")

    def has_whole_kit(self) -> None:
        """Puts a kit on the path that builds."""
        stand_in_kit.make(self.kit, KIT)
        (self.room / "bin/rt").symlink_to(self.kit / "bin/rt")

    def started(self, *words: str, **more: str) -> subprocess.Popen[str]:
        """Starts the script in its own group of processes, with no signal ignored."""
        return subprocess.Popen(
            [self.top / "wf", *words],
            env=self.variables(**more),
            stdin=subprocess.DEVNULL,
            stdout=subprocess.PIPE,
            stderr=subprocess.PIPE,
            text=True,
            start_new_session=True,
            preexec_fn=hear_signals,
        )

    def left(self) -> list[str]:
        """Returns the temporary files that are left, and what is left aside in the folders of built files."""
        found = [path for pattern in ("wf-build-*", "wf-sim-*", "rt-*") for path in self.room.glob(pattern)]
        return sorted(path.name for path in [*found, *self.top.glob("crates/*/out/.wf-new-*")])

    def variables(self, **more: str) -> dict[str, str]:
        """Returns the environment of the script."""
        return {"PATH": f"{self.room / 'bin'}:{TOOLS}", "HOME": str(self.room), "TMPDIR": str(self.room), **more}

    def asked(
        self, *words: str, script: str | pathlib.Path | None = None, given: bytes = b"", **more: str
    ) -> tuple[str, str, int]:
        """Returns what the script writes on both outputs, and its status; `given` is its standard input."""
        done = subprocess.run(
            [script or self.top / "wf", *words],
            env=self.variables(**more),
            input=given,
            capture_output=True,
            timeout=300,
            check=False,
        )
        return done.stdout.decode(errors="surrogateescape"), done.stderr.decode(), done.returncode

    def record(self, name: str) -> None:
        """Writes the record of a built file."""
        sources = fresh.Sources(str(self.top))
        path = str(self.top / name)
        fresh.write_record(path, fresh.Record(sources.checksum(), fresh.UNKNOWN, fresh.file_checksum(path)))

    def is_built(self, name: str, text: str) -> pathlib.Path:
        """Puts a built file there, with its record."""
        path = self.write(name, text)
        path.chmod(0o755)
        self.record(name)
        return path

    def has_program(self, name: str = fresh.UNPROVED_PROGRAM) -> pathlib.Path:
        """Puts a program there."""
        return self.is_built(name, PROGRAM)

    def has_library(self, name: str = fresh.UNPROVED_LIBRARY) -> pathlib.Path:
        """Puts a library there."""
        return self.is_built(name, LIBRARY)

    def is_root(self) -> bool:
        """Returns whether no permission stops this user."""
        return os.geteuid() == 0
