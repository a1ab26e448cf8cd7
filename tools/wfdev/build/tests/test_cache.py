"""The user's cache: another checkout with the same sources takes a proved build from it, and nothing else is taken or kept."""
from __future__ import annotations

import os
import pathlib
import shutil

from wfdev.build import cache, fresh

from .support import Checkout

TAKEN = "a proved build from the same sources is taken from "
HEAP = "examples/kernel/heap.c"
NOT_KEPT = "no copy of this build is kept in the cache"


class Cached(Checkout):
    def setUp(self) -> None:
        super().setUp()
        self.has_whole_kit()
        self.write(HEAP, "")
        self.cache = self.room / ".cache" / cache.FOLDER
        self.log = self.room / "calls"

    def other(self, name: str = "other") -> pathlib.Path:
        """Makes another checkout with the same sources, in which nothing is built, and returns it."""
        made = shutil.ignore_patterns("out")
        shutil.copytree(self.top, self.room / name, ignore=made, symlinks=True)
        return self.room / name

    def said(self, *words: str, top: pathlib.Path | None = None, **more: str) -> str:
        """Returns the notes of words that succeed, in this checkout or in another one."""
        _, why, status = self.asked(*words, script=(top or self.top) / "wf", given=b"", **more)
        self.assertEqual(status, 0, why)
        self.assertNotIn("Traceback", why)
        return why

    def entries(self, name: str = "wf") -> list[pathlib.Path]:
        """Returns the built files in the cache of a product."""
        return sorted(path for path in self.cache.glob(f"{name}/*") if cache.KEY.fullmatch(path.name))

    def entry(self, name: str = "wf") -> pathlib.Path:
        """Returns the only built file in the cache of a product."""
        (only,) = self.entries(name)
        return only


class Taken(Cached):
    def test_a_checkout_with_the_same_sources_proves_nothing(self) -> None:
        other = self.other()
        for name, words in {fresh.PROGRAM: ["build"], fresh.LIBRARY: ["lib"], fresh.KERNEL_LIBRARY: ["lib", "--kernel"]}.items():
            self.assertIn("building", self.said(*words))
            why = self.said(*words, top=other, WF_TEST_LOG=str(self.log))
            product = os.path.basename(name)
            self.assertIn(f"wf: {name}: {TAKEN}{self.entry(product)}\n", why)
            self.assertEqual(why.count(TAKEN), 1)
            self.assertEqual((other / name).read_bytes(), (self.top / name).read_bytes())
            self.assertIn("is built from these sources already", self.said(*words, top=other))
        self.assertFalse(self.log.exists())
        self.assertEqual(self.asked("which", script=other / "wf")[0], f"proved {other / fresh.PROGRAM}\n")
        self.assertEqual(self.asked("replay", script=other / "wf"), ("proved replay\n", "", 0))
        self.assertIn(f"archive={other / fresh.LIBRARY}\n", (other / fresh.LIBRARY).with_name("wf.pc").read_text(encoding="utf-8"))
        self.assertEqual(self.left(), [])

    def test_a_command_without_a_program_is_answered_by_the_proved_one(self) -> None:
        other = self.other()
        self.said("build")
        told, why, status = self.asked("replay", script=other / "wf")
        self.assertEqual((told, status), ("proved replay\n", 0))
        self.assertEqual(why, f"wf: {fresh.PROGRAM}: {TAKEN}{self.entry()}\n")
        self.assertIn("building", self.said("build", "--unproved", top=other))

    def test_other_sources_and_another_kit_take_nothing(self) -> None:
        self.said("build")
        other = self.other()
        (other / "HANDLES").write_text("other\n", encoding="utf-8")
        self.assertNotIn(TAKEN, self.said("build", top=other))
        (self.kit / "KIT-ID").write_text("another kit\n", encoding="utf-8")
        self.assertNotIn(TAKEN, self.said("build", top=self.other("third")))
        self.assertEqual(len(self.entries()), 3)

    def test_a_library_for_a_kernel_module_of_another_shape_is_not_taken(self) -> None:
        self.said("lib", "--kernel")
        other = self.other()
        (other / HEAP).write_text("other\n", encoding="utf-8")
        self.assertNotIn(TAKEN, self.said("lib", "--kernel", top=other))

    def test_an_entry_that_is_damaged_is_replaced(self) -> None:
        self.said("build")
        entry, others = self.entry(), iter("abcdef")
        record = entry.with_name(entry.name + fresh.RECORD)
        whole = entry.read_bytes(), record.read_bytes()
        for path, content in ((entry, b"other"), (entry, b""), (entry, None), (record, b"\xff"), (record, None), (record, b"made -\n")):
            path.unlink()
            if content is not None:
                path.write_bytes(content)
            why = self.said("build", top=self.other(next(others)))
            self.assertNotIn(TAKEN, why)
            self.assertIn("building", why)
            self.assertEqual((entry.read_bytes(), record.read_bytes()), whole)

    def test_the_entry_of_another_product_is_not_taken(self) -> None:
        self.said("lib")
        library = self.entry("libwf.a")
        self.said("build")
        program = self.entry()
        for end in ("", fresh.RECORD):
            shutil.copy(f"{library}{end}", f"{program.with_name(library.name)}{end}")
            program.with_name(program.name + end).unlink()
        self.assertNotIn(TAKEN, self.said("build", top=self.other()))


class Kept(Cached):
    def test_an_unproved_build_is_not_kept(self) -> None:
        for word in ("build", "lib"):
            self.said(word, "--unproved", WF_GATE=fresh.Sources(str(self.top)).checksum())
        self.assertFalse(self.cache.exists())

    def test_a_build_that_fails_keeps_nothing(self) -> None:
        self.assertEqual(self.asked("build", WF_TEST_BAD="wf")[2], 125)
        self.assertFalse(self.cache.exists())

    def test_the_newest_four_of_each_product_stay(self) -> None:
        self.said("lib")
        aside = self.cache / "wf" / ".wf-new-old"
        for number in range(6):
            self.write("HANDLES", f"{number}\n")
            self.said("build")
            for back, path in enumerate(self.entries()):
                date = path.stat().st_mtime - 100
                os.utime(path, (date, date))
            aside.write_text("", encoding="utf-8")
            os.utime(aside, (1, 1))
        self.assertEqual(len(self.entries()), cache.NEWEST)
        self.assertEqual(len(list((self.cache / "wf").iterdir())), 2 * cache.NEWEST + 1)
        self.assertEqual(len(self.entries("libwf.a")), 1)
        for number, is_there in ((1, False), (2, True), (5, True)):
            other = self.other(f"other {number}")
            (other / "HANDLES").write_text(f"{number}\n", encoding="utf-8")
            self.assertEqual(TAKEN in self.said("replay", top=other), is_there, number)

    def test_nobody_else_may_write_there(self) -> None:
        self.said("build")
        self.assertEqual(self.cache.stat().st_mode & 0o777, 0o700)
        self.cache.chmod(0o770)
        why = self.said("build", top=self.other())
        self.assertNotIn(TAKEN, why)
        self.assertIn(f"wf: {NOT_KEPT} {self.cache}: expected a folder of this user, in which nobody else can write\n", why)

    def test_a_cache_that_cannot_be_written_is_a_note(self) -> None:
        file = self.room / "a file"
        file.write_text("", encoding="utf-8")
        self.assertIn(NOT_KEPT, self.said("build", XDG_CACHE_HOME=str(file)))
        self.assertEqual(self.asked("which")[2], 0)

    def test_where_the_cache_is(self) -> None:
        self.said("build", XDG_CACHE_HOME="relative")
        self.assertEqual(len(self.entries()), 1)
        for top in (self.other("a"), self.other("b")):
            why = self.said("build", top=top, XDG_CACHE_HOME=str(self.room / "x"))
        self.assertIn(f"{TAKEN}{self.room / 'x' / cache.FOLDER}", why)


class Gate(Cached):
    def setUp(self) -> None:
        super().setUp()
        self.write(fresh.PROGRAM, "#!/bin/sh\necho proved \"$@\"\n").chmod(0o755)
        self.sources = fresh.Sources(str(self.top)).checksum()

    def test_what_rt_ci_left_is_kept_if_the_gate_saw_the_same_sources_before(self) -> None:
        self.said("build", WF_GATE=self.sources)
        self.assertIn(TAKEN, self.said("build", top=self.other()))
        entry = self.entry()
        before = entry.stat()
        self.said("build", WF_GATE=self.sources)
        self.assertEqual(entry.stat(), before)

    def test_otherwise_it_is_not(self) -> None:
        self.said("build")
        self.said("build", WF_GATE="")
        self.said("build", WF_GATE=self.sources[::-1])
        self.assertFalse(self.cache.exists())

    def test_a_library_of_an_earlier_build_is_kept(self) -> None:
        self.said("lib")
        shutil.rmtree(self.cache)
        self.said("lib", WF_GATE=self.sources)
        self.assertEqual(len(self.entries("libwf.a")), 1)
