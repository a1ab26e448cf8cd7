"""Builds: they start from nothing, are stopped, meet full and read-only folders, and leave nothing behind."""
from __future__ import annotations

import os
import pathlib
import shutil
import signal
import subprocess
import sys
import time

from wfdev.build import builds, files, fresh
from wfdev.build.report import Failure

from .stand_in_kit import OUT
from .support import BARE_PYTHON, TOP, Checkout

COMPILED = "compiled"


def wait_for(path: pathlib.Path, text: str) -> None:
    """Waits until a file contains a text."""
    for _ in range(600):
        if path.exists() and text in path.read_text(encoding="utf-8"):
            return
        time.sleep(0.02)
    raise AssertionError(f"{path} does not contain {text}")


class Unproved(Checkout):
    def setUp(self) -> None:
        super().setUp()
        self.has_whole_kit()

    def test_without_a_program_the_unproved_one_is_built_once_and_answers(self) -> None:
        told, why, status = self.asked("replay")
        self.assertEqual(status, 0)
        self.assertRegex(told, "^compiled .*-O3.* replay\n$")
        self.assertIn("building crates/wf/out/wf.unproved: this takes about a minute", why)
        self.assertNotIn("-fsanitize", told)
        again, why, status = self.asked("replay")
        self.assertEqual((again, status), (told, 0))
        self.assertEqual(why, "wf: by a program that nothing is proved of ('./wf build' builds a proved one)\n")
        self.assertEqual(self.left(), [])

    def test_input_waits_while_the_program_is_built(self) -> None:
        self.tool("kit/toolchain/bin/clang", f"#!/bin/sh\n{OUT}printf '#!/bin/sh\\ncat\\n' >\"$out\"\n")
        line = f"(sleep 1; echo first; sleep 1; echo last) | '{self.top}/wf' replay"
        done = subprocess.run(["bash", "-c", line], env=self.variables(), capture_output=True, text=True, check=False)
        self.assertEqual((done.stdout, done.returncode), ("first\nlast\n", 0))

    def test_a_changed_source_has_it_built_again(self) -> None:
        log = self.room / "calls"
        for _ in range(2):
            self.assertEqual(self.asked("build", "--unproved", WF_TEST_LOG=str(log))[2], 0)
        self.assertEqual(log.read_text(encoding="utf-8").count("try"), 1)
        self.write("crates/wf/src/main.rt", "fn main() { }\n")
        self.assertIn("is built from these sources already", self.asked("build", "--unproved")[1] + self.asked("build", "--unproved")[1])
        self.assertEqual(self.asked("which")[2], 0)

    def test_sources_that_change_meanwhile_make_the_program_stale(self) -> None:
        child = self.started("build", "--unproved", WF_TEST_SLOW="1", WF_TEST_LOG=str(self.room / "calls"))
        wait_for(self.room / "calls", "try")
        source = self.write("crates/wf/src/main.rt", "fn main() { 1 }\n")
        child.communicate(timeout=120)
        self.assertEqual(child.returncode, 0)
        self.assertLess((self.top / fresh.UNPROVED_PROGRAM).stat().st_mtime, source.stat().st_mtime)
        self.assertEqual(self.asked("which")[2], 1)

    def test_temporary_files_in_a_folder_whose_name_has_spaces_and_quotes(self) -> None:
        folder = self.room / "a folder's \"name\" $x"
        folder.mkdir()
        self.assertEqual(self.asked("build", "--unproved", TMPDIR=str(folder))[2], 0)
        self.assertEqual(list(folder.iterdir()), [])

    def test_a_checkout_whose_name_has_spaces(self) -> None:
        moved = self.room / "a check'out $x"
        self.top.rename(moved)
        self.assertEqual(self.asked("replay", script=moved / "wf")[2], 0)
        told, _, status = self.asked("lib", "--unproved", script=moved / "wf")
        self.assertEqual((told, status), (f"{moved / fresh.UNPROVED_LIBRARY}\n", 0))

    def test_temporary_files_on_another_file_system_while_the_program_runs(self) -> None:
        shm = pathlib.Path("/dev/shm")
        if not os.access(shm, os.W_OK) or shm.stat().st_dev == self.top.stat().st_dev:
            self.skipTest("there is no second file system")
        path = self.is_built(fresh.UNPROVED_PROGRAM, "")
        path.unlink()
        path.write_bytes(pathlib.Path("/bin/sleep").read_bytes())
        path.chmod(0o755)
        with subprocess.Popen([path, "30"]) as runs:
            self.addCleanup(runs.kill)
            told, why, status = self.asked("build", "--unproved", TMPDIR=str(shm))
            self.assertEqual((told, status), ("", 0), why)
            runs.kill()
        self.assertIn(COMPILED, self.asked("replay")[0])

    def test_a_compiler_that_fails_leaves_the_old_program(self) -> None:
        path = self.has_program()
        before = path.read_bytes()
        self.write("HANDLES", "other\n")
        self.tool("kit/toolchain/bin/clang", "#!/bin/sh\necho no such module >&2\nexit 1\n")
        told, why, status = self.asked("build", "--unproved")
        self.assertEqual((told, status), ("", 125))
        self.assertIn("no such module", why)
        self.assertIn("crates/wf/out/wf.unproved is not built (log: crates/wf/out/build.log)", why)
        self.assertNotIn("Traceback", why)
        self.assertEqual(path.read_bytes(), before)
        self.assertEqual(self.left(), [])

    def test_two_builds_at_once_compile_once(self) -> None:
        log = self.room / "calls"
        both = [self.started("replay", WF_TEST_LOG=str(log), WF_TEST_SLOW="1") for _ in range(2)]
        for child in both:
            self.assertIn(COMPILED, child.communicate(timeout=300)[0])
            self.assertEqual(child.returncode, 0)
        self.assertEqual(log.read_text(encoding="utf-8").count("try"), 1)


class Signals(Checkout):
    def setUp(self) -> None:
        super().setUp()
        self.has_whole_kit()
        self.log = self.room / "calls"

    def stopped(self, number: int, to_group: bool, *words: str) -> str:
        """Starts a build that takes long, sends a signal, and returns what was written on standard error."""
        child = self.started(*words, WF_TEST_SLOW="37", WF_TEST_LOG=str(self.log))
        wait_for(self.log, "try")
        time.sleep(0.3)
        began = time.monotonic()
        (os.killpg if to_group else os.kill)(child.pid, number)
        told, why = child.communicate(timeout=120)
        self.assertLess(time.monotonic() - began, 30)
        self.assertEqual((told, child.returncode), ("", 128 + number), why)
        self.assertNotIn("Traceback", why)
        self.log.unlink()
        return why

    def no_compiler_runs(self) -> bool:
        """Returns whether no stand-in of a compiler runs, or none does soon."""
        for _ in range(100):
            running = subprocess.run(["ps", "-eo", "args"], capture_output=True, text=True, check=True).stdout
            if "sleep 37" not in running.splitlines():
                return True
            time.sleep(0.1)
        return False

    def test_children_end_temporary_files_go_and_the_status_names_the_signal(self) -> None:
        for number in (signal.SIGINT, signal.SIGTERM, signal.SIGHUP):
            for to_group in (False, True):
                self.stopped(number, to_group, "build", "--unproved")
                self.assertEqual(self.left(), [], (number, to_group))
                self.assertTrue(self.no_compiler_runs(), (number, to_group))
        self.assertEqual(self.asked("which")[2], 1)

    def test_an_answer_that_waits_for_its_program(self) -> None:
        self.stopped(signal.SIGTERM, False, "replay")
        self.stopped(signal.SIGINT, True, "replay")
        self.assertEqual(self.left(), [])

    def test_a_build_that_waits_for_another(self) -> None:
        first = self.started("build", "--unproved", WF_TEST_SLOW="37", WF_TEST_LOG=str(self.log))
        wait_for(self.log, "try")
        second = self.started("build", "--unproved")
        assert second.stderr is not None
        self.assertIn("another build runs in this checkout: waiting for it", second.stderr.readline())
        second.send_signal(signal.SIGTERM)
        self.assertEqual(second.communicate(timeout=120)[0], "")
        self.assertEqual(second.returncode, 128 + signal.SIGTERM)
        first.send_signal(signal.SIGTERM)
        first.communicate(timeout=120)
        self.assertEqual(first.returncode, 128 + signal.SIGTERM)


class Folders(Checkout):
    def setUp(self) -> None:
        super().setUp()
        self.has_whole_kit()

    def as_nobody(self, *words: str, **more: str) -> tuple[str, str, int]:
        """Returns what the script writes as another user."""
        new = subprocess.run(["/usr/bin/python3", "-c", "import tomllib"], capture_output=True, check=False)
        if not self.is_root() or new.returncode:
            self.skipTest("to become another user needs root, and a new Python in /usr/bin")
        for path in [self.room, *self.room.rglob("*")]:
            if not path.is_symlink():
                path.chmod(path.stat().st_mode | 0o055)
        temporary = self.room / "temporary"
        temporary.mkdir(exist_ok=True)
        temporary.chmod(0o777)
        self.tool("bin/python3", BARE_PYTHON.format("/usr/bin/python3"))
        command = ["setpriv", "--reuid=65534", "--regid=65534", "--clear-groups", str(self.top / "wf"), *words]
        variables = self.variables(TMPDIR=str(temporary), **more)
        done = subprocess.run(command, env=variables, stdin=subprocess.DEVNULL, capture_output=True, text=True, timeout=300, check=False)
        return done.stdout, done.stderr, done.returncode

    def test_another_user(self) -> None:
        told, why, status = self.as_nobody("replay")
        self.assertEqual((told, status), ("", 125))
        self.assertRegex(why, "crates/wf/out: Permission denied; a build writes there: use a checkout that you can write")
        self.assertNotIn("Traceback", why)
        self.has_program()
        self.assertEqual(self.as_nobody("replay")[::2], ("program replay\n", 0))

    def test_a_folder_that_cannot_be_made(self) -> None:
        (self.top / "crates/wf/out").rmdir()
        self.write("crates/wf/out", "a file\n")
        told, why, status = self.asked("build", "--unproved", WF_TEST_LOG=str(self.room / "calls"))
        self.assertEqual((told, status), ("", 125))
        self.assertIn("crates/wf/out", why)
        self.assertNotIn("Traceback", why)
        self.assertFalse((self.room / "calls").exists())

    def test_temporary_files_without_room(self) -> None:
        kept = builds.UNPROVED_NEEDS
        self.assertGreater(kept, 100 << 20)
        with self.assertRaisesRegex(Failure, "MB are free, and a build needs .* MB of temporary files"):
            with files.temporary_folder(1 << 62):
                pass

    def limited(self, octets: int) -> subprocess.CompletedProcess[str]:
        """Puts a file of 100,000 octets in place in a process whose files may have so many."""
        made = self.room / "made"
        made.write_bytes(b"x" * 100_000)
        code = (
            "import pathlib, resource, sys\n"
            "from wfdev.build import files\n"
            f"resource.setrlimit(resource.RLIMIT_FSIZE, ({octets}, {octets}))\n"
            "files.place(pathlib.Path(sys.argv[1]), pathlib.Path(sys.argv[2]))\n"
        )
        words = [sys.executable, "-c", code, str(made), str(self.top / fresh.UNPROVED_PROGRAM)]
        variables = {**os.environ, "PYTHONPATH": str(TOP / "tools")}
        return subprocess.run(words, env=variables, capture_output=True, text=True, check=False)

    def test_a_copy_that_fails_leaves_the_old_file_whole(self) -> None:
        path = self.has_program()
        before = path.read_bytes()
        done = self.limited(50_000)
        self.assertNotEqual(done.returncode, 0)
        self.assertIn("the file was not replaced", done.stderr)
        self.assertEqual(path.read_bytes(), before)
        self.assertEqual(self.left(), [])
        self.assertEqual(self.limited(200_000).returncode, 0)
        self.assertEqual(path.stat().st_size, 100_000)


class FullDisks(Checkout):
    """Folders of a few kilobytes, which root can mount."""

    def setUp(self) -> None:
        super().setUp()
        self.has_whole_kit()
        self.small = self.room / "small"
        self.small.mkdir()

    def mount(self, folder: pathlib.Path, size: str) -> None:
        """Mounts a small file system on a folder."""
        done = subprocess.run(["mount", "-t", "tmpfs", "-o", f"size={size}", "tmpfs", str(folder)], capture_output=True, check=False)
        if done.returncode:
            self.skipTest("a small file system cannot be mounted here")
        self.addCleanup(lambda: subprocess.run(["umount", str(folder)], check=True))

    def test_a_full_folder_of_temporary_files(self) -> None:
        self.mount(self.small, "1m")
        told, why, status = self.asked("build", "--unproved", TMPDIR=str(self.small))
        self.assertEqual((told, status), ("", 125))
        self.assertRegex(why, f"{self.small}: . MB are free, and a build needs .* MB of temporary files; make room, or set TMPDIR")
        self.assertEqual(list(self.small.iterdir()), [])

    def test_a_full_folder_of_built_files(self) -> None:
        out = self.top / "crates/wf/out"
        self.mount(out, "16k")
        path = self.has_program()
        before = path.read_bytes()
        self.write("HANDLES", "other\n")
        (out / "filler").write_bytes(b"x" * 4096)
        self.tool("kit/toolchain/bin/clang", f"#!/bin/sh\n{OUT}head -c 50000 /dev/zero >\"$out\"\n")
        told, why, status = self.asked("build", "--unproved")
        self.assertEqual((told, status), ("", 125), why)
        self.assertRegex(why, "No space left on device")
        self.assertNotIn("Traceback", why)
        self.assertEqual(path.read_bytes(), before)
        self.assertEqual(self.left(), [])
        self.assertEqual(self.asked("which")[2], 1)


class Proved(Checkout):
    """What is proved, in which order, and what becomes of a failure."""

    def setUp(self) -> None:
        super().setUp()
        lines = "# a comment\nlow: arrayvec\nleft: low\nright: low # another\nwf: left right\nwf_run:\nwf_c staticlib: low\n"
        self.write("crates.txt", lines)
        for name in ("low", "left", "right", "wf_c"):
            self.write(f"crates/{name}/src/lib.rt", "text\n")
        self.write("crates/left/must-fail/one.edit", "an edit\n")
        self.has_whole_kit()
        self.log = self.room / "calls"

    def calls(self) -> list[str]:
        """Returns the calls of rt, without those that ask where the kit is."""
        text = self.log.read_text(encoding="utf-8") if self.log.exists() else ""
        return [line for line in text.splitlines() if line not in ("doc", "ci")]

    def test_the_program_and_the_crates_below_it_are_proved_and_no_others(self) -> None:
        told, why, status = self.asked("build", WF_TEST_LOG=str(self.log))
        self.assertEqual((told, status), ("", 0), why)
        self.assertEqual(self.calls(), ["ci low left right wf"])
        self.assertIn("wf: proved wf, 0 left\n", why)
        self.assertIn("1 of 4 crates were proved by earlier runs of 'rt ci'", why)
        self.assertEqual(self.asked("which")[0], f"proved {self.top / fresh.PROGRAM}\n")
        self.assertEqual(self.asked("replay"), ("proved replay\n", "", 0))
        self.assertIn("is built from these sources already", self.asked("build")[1])
        self.assertEqual(self.left(), [])

    def test_the_library_is_compiled_over_what_was_proved(self) -> None:
        told, why, status = self.asked("lib", WF_TEST_LOG=str(self.log))
        path = self.top / fresh.LIBRARY
        self.assertEqual((told, status), (f"{path}\n", 0), why)
        self.assertEqual(self.calls(), ["ci low"])
        self.assertEqual(path.read_text(encoding="utf-8"), "proved libraryheap\n")
        self.assertIn("proved=yes\n", path.with_name("wf.pc").read_text(encoding="utf-8"))
        self.assertEqual(self.asked("which", "--library")[0], f"proved {path}\n")

    def test_the_library_for_a_kernel_module_has_a_heap_of_its_own(self) -> None:
        told, why, status = self.asked("lib", "--kernel", WF_TEST_LOG=str(self.log))
        path = self.top / fresh.KERNEL_LIBRARY
        self.assertEqual((told, status), (f"{path}\n", 0), why)
        self.assertEqual(self.calls(), ["ci low"])
        self.assertRegex(path.read_text(encoding="utf-8"), "proved library(?s:.*)-mgeneral-regs-only(?s:.*)heap.c")
        self.assertFalse(path.with_name("wf.pc").exists())
        self.assertIn("is built from these sources already", self.asked("lib", "--kernel")[1])

    def test_without_a_c_compiler_the_static_library_is_built_alone(self) -> None:
        told, why, status = self.asked("lib", "--unproved", CC="/nowhere/cc")
        self.assertEqual(status, 0)
        self.assertIn("no shared library was made, which Python needs: there is no /nowhere/cc", why)
        self.assertFalse((self.top / fresh.UNPROVED_LIBRARY).with_name("shared").joinpath("libwf.unproved.so").exists())

    def test_what_rt_ci_removed_is_taken_from_the_second_copy(self) -> None:
        for words in (["lib"], ["build"], ["lib", "--unproved"], ["build", "--unproved"]):
            self.assertEqual(self.asked(*words)[2], 0)
            for out in self.top.glob("crates/*/out"):
                shutil.rmtree(out)
            told, why, status = self.asked(*words, WF_TEST_LOG=str(self.log))
            self.assertEqual(status, 0)
            self.assertIn("an earlier build from the same sources is taken from out/built/", why)
            self.assertEqual(self.calls(), [])
        self.write("HANDLES", "other\n")
        self.assertIn("building", self.asked("build")[1])

    def test_a_kit_that_cannot_compile_over_it_uses_rt_lib(self) -> None:
        self.tool("kit/bin/rtlib.py", "")
        told, why, status = self.asked("lib", WF_TEST_LOG=str(self.log))
        self.assertEqual((told, status), ("", 125))
        self.assertEqual(self.calls(), ["ci low", "lib"])
        self.assertIn("wf_c is not proved", why)

    def test_a_crate_that_is_not_proved_ends_it(self) -> None:
        told, why, status = self.asked("build", WF_TEST_BAD="left")
        self.assertEqual((told, status), ("", 125))
        self.assertIn("a goal is open", why)
        self.assertIn("'rt ci': left did not pass\n", why)
        self.assertIn("crates/wf/out/wf is not built (log: crates/wf/out/build.log)", why)
        self.assertIn("a goal is open", (self.top / "crates/wf/out/build.log").read_text(encoding="utf-8"))
        self.assertEqual(self.asked("which")[2], 1)

    def test_the_unproved_library_says_so(self) -> None:
        told, why, status = self.asked("lib", "--unproved")
        path = self.top / fresh.UNPROVED_LIBRARY
        self.assertEqual((told, status), (f"{path}\n", 0), why)
        self.assertIn("proved=no\n", path.with_name("wf.pc").read_text(encoding="utf-8"))
        self.assertIn(f"archive={path}\n", path.with_name("wf.pc").read_text(encoding="utf-8"))
