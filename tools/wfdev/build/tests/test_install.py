"""Installing: what is taken, where it goes, what becomes of a failure, and its way back."""
from __future__ import annotations

import os
import pathlib
import re
import shutil
import signal
import subprocess
import unittest

from wfdev.build import completions, fresh, install, manifest, shared

from .support import Checkout

PROGRAM_FILES = {
    "bin/wf",
    "share/man/man1/wf.1",
    "share/bash-completion/completions/wf",
    "share/zsh/site-functions/_wf",
    "share/fish/vendor_completions.d/wf.fish",
}
LIBRARY_FILES = {
    "include/wf.h",
    "include/wf/path.hpp",
    "lib/libwf.a",
    "lib/libwf.so",
    "lib/libwf.so.1",
    "lib/libwf.so.1.0.0",
    "lib/pkgconfig/wf.pc",
    "lib/cmake/wf/wf-config.cmake",
    "lib/cmake/wf/wf-config-version.cmake",
    "share/man/man3/wf.h.3",
}
ALL_FILES = PROGRAM_FILES | LIBRARY_FILES | {manifest.NAME}
COMPILER = """#!/bin/sh
out=; last=
for word in "$@"; do [ "$last" != -o ] || out=$word; last=$word; done
echo shared >"$out"
"""


def files_below(folder: pathlib.Path) -> set[str]:
    """Returns the names of the files and links below a folder."""
    return {str(path.relative_to(folder)) for path in folder.rglob("*") if path.is_symlink() or path.is_file()}


class Installing(Checkout):
    """Stand-ins for the compiler, and what the tests of both words use."""

    def setUp(self) -> None:
        super().setUp()
        self.prefix = self.room / "prefix"
        self.tool("bin/cc", COMPILER)
        self.tool("bin/readelf", "#!/bin/sh\necho ' (NEEDED) Shared library: [libc.so.6]'\n")

    def are_built(self) -> None:
        """Puts an unproved program and library there."""
        self.has_program()
        self.has_library()

    def installed(self, *words: str, **more: str) -> set[str]:
        """Installs, and returns the names that were printed, below the prefix."""
        told, why, status = self.asked("install", str(self.prefix), *words, script=None, given=b"", **more)
        self.assertEqual(status, 0, why)
        return {os.path.relpath(line, self.prefix) for line in told.splitlines()}


class Install(Installing):
    def test_each_file_is_printed_and_listed(self) -> None:
        self.are_built()
        names = self.installed("--unproved")
        self.assertEqual(names, ALL_FILES)
        self.assertEqual(files_below(self.prefix), names)
        found = manifest.read(self.prefix)
        assert found is not None
        self.assertEqual({*found.entries, manifest.NAME}, names)
        self.assertEqual((self.prefix / "bin/wf").stat().st_mode & 0o777, 0o755)
        self.assertEqual((self.prefix / "lib/libwf.a").stat().st_mode & 0o777, 0o644)

    def test_the_flag_may_be_on_either_side_of_the_folder(self) -> None:
        self.are_built()
        self.assertEqual(self.asked("install", "--unproved", str(self.prefix))[2], 0)
        self.assertTrue((self.prefix / "bin/wf").exists())

    def test_what_is_not_proved_is_installed_only_with_the_flag(self) -> None:
        self.are_built()
        told, why, status = self.asked("install", str(self.prefix))
        self.assertEqual((told, status), ("", 125))
        self.assertIn("is not known to be proved; nothing was installed; './wf install PREFIX --unproved' installs what is not proved, too", why)
        self.assertFalse(self.prefix.exists())

    def test_what_is_proved_is_installed_with_and_without_the_flag(self) -> None:
        self.has_program(fresh.PROGRAM)
        self.has_library(fresh.LIBRARY)
        flags: list[list[str]] = [[], ["--unproved"]]
        for words in flags:
            told, why, status = self.asked("install", str(self.prefix), *words)
            self.assertEqual(status, 0)
            self.assertIn("wf: installed the proved program\nwf: installed the proved library\n", why)
            self.assertIn("proved=yes\n", (self.prefix / "lib/pkgconfig/wf.pc").read_text(encoding="utf-8"))

    def test_nothing_is_installed_if_nothing_is_built(self) -> None:
        told, why, status = self.asked("install", str(self.prefix))
        self.assertEqual((told, status), ("", 125))
        self.assertIn("no program and no library is as new as the sources", why)

    def test_the_library_alone_and_the_program_alone(self) -> None:
        self.has_library()
        told, why, status = self.asked("install", str(self.prefix), "--unproved")
        self.assertEqual(status, 0)
        self.assertEqual(files_below(self.prefix), LIBRARY_FILES | {manifest.NAME})
        self.assertIn("installed the unproved library\n", why)
        self.assertIn("no program is built from these sources, so none was installed ('./wf build' builds one)\n", why)
        (self.top / fresh.UNPROVED_LIBRARY).unlink()
        self.has_program()
        self.tool("bin/cc", "#!/bin/sh\nexit 1\n")
        told, why, status = self.asked("install", str(self.prefix), "--unproved")
        self.assertEqual((len(told.splitlines()), status), (len(PROGRAM_FILES) + 1, 0))
        self.assertIn("no library is built", why)
        self.assertEqual(files_below(self.prefix), ALL_FILES)

    def test_the_library_alone_by_its_flag(self) -> None:
        self.has_program()
        told, why, status = self.asked("install", str(self.prefix), "--library")
        self.assertEqual((told, status), ("", 125))
        self.assertIn("no library is as new as the sources", why)
        self.has_library(fresh.LIBRARY)
        self.assertEqual(self.installed("--library"), LIBRARY_FILES | {manifest.NAME})
        self.assertEqual(files_below(self.prefix), LIBRARY_FILES | {manifest.NAME})
        self.assertEqual(self.installed("--unproved"), ALL_FILES)

    def test_pkg_config_and_cmake_say_whether_the_library_is_proved(self) -> None:
        self.are_built()
        self.installed("--unproved")
        self.assertIn("proved=no\n", (self.prefix / "lib/pkgconfig/wf.pc").read_text(encoding="utf-8"))
        self.assertIn("set(wf_PROVED no)", (self.prefix / "lib/cmake/wf/wf-config.cmake").read_text(encoding="utf-8"))
        if shutil.which("pkg-config"):
            words = ["pkg-config", "--variable=proved", "wf"]
            variables = {**os.environ, "PKG_CONFIG_PATH": str(self.prefix / "lib/pkgconfig")}
            self.assertEqual(subprocess.run(words, env=variables, capture_output=True, text=True, check=True).stdout, "no\n")

    def test_a_target_that_cannot_be_replaced_stops_it_before_the_first_file(self) -> None:
        self.are_built()
        for name, kind in (("lib/pkgconfig/wf.pc", "a folder"), ("share/wf/manifest", "a folder"), ("share/man", "a file")):
            shutil.rmtree(self.prefix, ignore_errors=True)
            (self.prefix / "bin").mkdir(parents=True)
            (self.prefix / "bin/wf").write_text("old", encoding="utf-8")
            if kind == "a folder":
                (self.prefix / name).mkdir(parents=True)
            else:
                (self.prefix / name).parent.mkdir(parents=True)
                (self.prefix / name).write_text("", encoding="utf-8")
            before = files_below(self.prefix)
            told, why, status = self.asked("install", str(self.prefix), "--unproved")
            self.assertEqual((told, status), ("", 125), name)
            self.assertIn(f"{self.prefix / name} is {kind}: expected", why)
            self.assertEqual(files_below(self.prefix), before)
            self.assertEqual((self.prefix / "bin/wf").read_text(encoding="utf-8"), "old")

    def test_a_linker_that_fails_leaves_everything(self) -> None:
        self.are_built()
        self.tool("bin/cc", "#!/bin/sh\necho no such word >&2\nexit 1\n")
        told, why, status = self.asked("install", str(self.prefix), "--unproved")
        self.assertEqual((told, status), ("", 125))
        self.assertIn("no such word\nwf: install: cc failed\n", why)
        self.assertFalse(self.prefix.exists())

    def test_a_compiler_that_is_missing(self) -> None:
        self.are_built()
        told, why, status = self.asked("install", str(self.prefix), "--unproved", CC="/nowhere/cc -O2")
        self.assertEqual((told, status), ("", 125))
        self.assertIn("there is no /nowhere/cc", why)

    def test_another_library_that_the_shared_one_needs_is_refused(self) -> None:
        self.are_built()
        self.tool("bin/readelf", "#!/bin/sh\necho ' (NEEDED) Shared library: [libm.so.6]'\n")
        self.assertIn("needs libm.so.6: expected the C library only", self.asked("install", str(self.prefix), "--unproved")[1])

    def test_a_running_program_is_replaced(self) -> None:
        self.are_built()
        self.installed("--unproved")
        (self.prefix / "bin/wf").write_bytes(pathlib.Path("/bin/sleep").read_bytes())
        with subprocess.Popen([self.prefix / "bin/wf", "30"]) as runs:
            self.installed("--unproved")
            runs.kill()
        self.assertIn("program", (self.prefix / "bin/wf").read_text(encoding="utf-8"))

    def test_a_reader_that_leaves_early_stops_nothing(self) -> None:
        self.are_built()
        line = f"'{self.top}/wf' install '{self.prefix}' --unproved | head -1; echo ${{PIPESTATUS[0]}}"
        for _ in range(3):
            done = subprocess.run(["bash", "-c", line], env=self.variables(), capture_output=True, text=True, check=False)
            self.assertEqual(done.stdout.splitlines()[1:], ["0"])
            self.assertNotIn("Error", done.stderr)
            self.assertEqual(files_below(self.prefix), ALL_FILES)

    def test_a_signal_leaves_nothing_aside(self) -> None:
        self.are_built()
        self.tool("bin/cc", f"#!/bin/sh\ntouch '{self.room}/links'\nexec sleep 30\n")
        child = self.started("install", str(self.prefix), "--unproved")
        for _ in range(400):
            if (self.room / "links").exists():
                break
            try:
                child.wait(0.02)
            except subprocess.TimeoutExpired:
                pass
        child.send_signal(signal.SIGTERM)
        told, why = child.communicate(timeout=120)
        self.assertEqual((told, child.returncode), ("", 128 + signal.SIGTERM), why)
        self.assertFalse(self.prefix.exists())


class Uninstall(Installing):
    def removed(self, **more: str) -> tuple[set[str], str]:
        """Uninstalls, and returns the names that were printed, and standard error."""
        told, why, status = self.asked("uninstall", str(self.prefix), script=None, given=b"", **more)
        self.assertEqual(status, 0, why)
        return {os.path.relpath(line, self.prefix) for line in told.splitlines()}, why

    def test_everything_goes_and_nothing_else(self) -> None:
        self.are_built()
        other = self.prefix / "share/man/man1/other.1"
        other.parent.mkdir(parents=True)
        other.write_text("", encoding="utf-8")
        names = self.installed("--unproved")
        self.assertEqual(self.removed(), (names, ""))
        self.assertEqual(files_below(self.prefix), {"share/man/man1/other.1"})
        folders = {str(path.relative_to(self.prefix)) for path in self.prefix.rglob("*") if path.is_dir()}
        self.assertEqual(folders, {"share", "share/man", "share/man/man1"})

    def test_a_changed_file_is_left_and_reported(self) -> None:
        self.are_built()
        self.installed("--unproved")
        (self.prefix / "include/wf.h").write_text("mine", encoding="utf-8")
        names, why = self.removed()
        self.assertNotIn("include/wf.h", names)
        self.assertIn(f"{self.prefix}/include/wf.h was changed after it was installed: it is left", why)
        self.assertEqual(files_below(self.prefix), {"include/wf.h"})

    def test_a_second_installation_removes_what_it_does_not_put(self) -> None:
        self.are_built()
        self.write("VERSION", "0.9.0\n")
        self.assertIn("lib/libwf.so.0.9.0", self.installed("--unproved"))
        self.write("VERSION", "1.0.0\n")
        self.installed("--unproved")
        self.assertEqual(files_below(self.prefix), ALL_FILES)
        self.removed()
        self.assertEqual(list(self.prefix.iterdir()), [])

    def test_below_destdir(self) -> None:
        self.are_built()
        stage = self.room / "stage"
        told = self.asked("install", "/usr", "--unproved", DESTDIR=str(stage))[0]
        self.assertEqual(set(told.splitlines()), {f"{stage}/usr/{name}" for name in ALL_FILES})
        self.assertEqual(self.asked("uninstall", "/usr", DESTDIR=str(stage))[2], 0)
        self.assertEqual(files_below(stage), set())

    def test_without_a_manifest_or_with_a_hostile_one_nothing_is_removed(self) -> None:
        told, why, status = self.asked("uninstall", str(self.prefix))
        self.assertEqual((told, status), ("", 125))
        self.assertIn("put nothing below this folder", why)
        victim = self.room / "victim"
        victim.write_text("", encoding="utf-8")
        listed = self.prefix / manifest.NAME
        listed.parent.mkdir(parents=True)
        for line in (f"file program {manifest.content_sum(victim)} ../victim", "folder ..", "other", "file a"):
            listed.write_text(f"{manifest.HEAD}\n{line}\n", encoding="utf-8")
            told, why, status = self.asked("uninstall", str(self.prefix))
            self.assertEqual((told, status), ("", 125), line)
            self.assertIn("this is no manifest", why)
        self.assertTrue(victim.exists())


class Sources(unittest.TestCase):
    def test_all_that_is_copied_is_there(self) -> None:
        for path in [*install.COPIES["library"].values(), *install.COPIES["program"].values(), *install.FILLED.values()]:
            self.assertTrue(path.is_file(), path)

    def test_each_call_of_a_path_is_a_method(self) -> None:
        text = install.COPIES["library"]["include/wf/path.hpp"].read_text(encoding="utf-8")
        for name in shared.exports():
            if name.startswith("wf_path_"):
                self.assertIn(f"{name}(", text)

    def test_templates_have_no_other_places_than_those_that_are_filled(self) -> None:
        for path in install.FILLED.values():
            self.assertLessEqual({*re.findall(r"@(\w+)@", path.read_text(encoding="utf-8"))}, {"VERSION", "MAJOR", "PROVED"})

    def test_the_c_library_may_be_needed_and_no_other(self) -> None:
        for name in ("libc.so.6", "ld-linux-x86-64.so.2", "libc.musl-x86_64.so.1"):
            self.assertTrue(shared.ALLOWED.fullmatch(name), name)
        for name in ("libm.so.6", "libgcc_s.so.1", "libc.so.60", "libpthread.so.0"):
            self.assertFalse(shared.ALLOWED.fullmatch(name), name)


class Completions(unittest.TestCase):
    def test_the_files_are_those_that_are_made(self) -> None:
        for path, text in completions.files().items():
            self.assertEqual(path.read_text(encoding="utf-8"), text, f"{path.name}: run python3 -m wfdev.build.completions in tools/")

    def completed(self, *words: str) -> list[str]:
        """Returns what bash offers for the last of these words."""
        line = f". '{completions.FOLDER}/wf.bash'; COMP_WORDS=(\"$@\"); COMP_CWORD=$(($# - 1)); _wf \"$1\"; "
        line += "printf '%s\\n' \"${COMPREPLY[@]}\""
        done = subprocess.run(["bash", "-c", line, "bash", *words], capture_output=True, text=True, check=True)
        return done.stdout.split()

    def test_bash(self) -> None:
        script = f"{fresh.TOP}/wf"
        self.assertEqual(self.completed("wf", "re"), ["replay"])
        self.assertEqual(self.completed("wf", "replay", "-"), ["--pcap"])
        self.assertEqual(self.completed("/usr/bin/wf", "b"), [])
        self.assertEqual(self.completed(script, "b"), ["build"])
        self.assertEqual(self.completed(script, "build", ""), ["--unproved"])
        self.assertEqual(self.completed(script, "help", "u"), ["uplink", "uninstall"])
        self.assertEqual(self.completed(script, "install", "--"), ["--unproved", "--library"])
        self.assertIn("--library", self.completed(script, "which", ""))

    def test_other_shells_read_their_files(self) -> None:
        for shell, words in (("zsh", ["-n"]), ("fish", ["--no-execute"])):
            if shutil.which(shell):
                path = completions.FOLDER / ("_wf" if shell == "zsh" else "wf.fish")
                subprocess.run([shell, *words, path], check=True)
