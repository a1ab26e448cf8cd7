"""A built file is fresh if it is made from the sources as they are, whatever their dates say."""
from __future__ import annotations

import os
import shutil
import subprocess
import time

from wfdev.build import fresh

from .support import KIT, TOP, Checkout

SOURCE = "crates/wf/src/main.rt"


class Fresh(Checkout):
    def which(self) -> tuple[str, int]:
        """Returns what `./wf which` prints, and its status."""
        told, _, status = self.asked("which")
        return told.replace(f"{self.top}/", ""), status

    def test_which_program_answers(self) -> None:
        told, why, status = self.asked("which")
        self.assertEqual((told, status), ("", 1))
        self.assertIn("no program is built", why)
        self.has_program()
        self.assertEqual(self.which(), (f"unproved {fresh.UNPROVED_PROGRAM}\n", 0))
        self.has_program(fresh.PROGRAM)
        self.assertEqual(self.which(), (f"proved {fresh.PROGRAM}\n", 0))
        self.assertEqual(self.asked("which", WF_PROGRAM="/a/b"), ("named /a/b\n", "", 0))

    def test_which_library_is_built(self) -> None:
        self.assertEqual(self.asked("which", "--library")[::2], ("", 1))
        path = self.has_library()
        self.assertEqual(self.asked("which", "--library")[::2], (f"unproved {path}\n", 0))

    def test_an_edited_source_with_an_old_date_is_noticed(self) -> None:
        self.has_program()
        self.assertEqual(self.which()[1], 0)
        time.sleep(0.1)
        self.assertEqual(self.which()[1], 0)
        path = self.write(SOURCE, "fn main() { }\n")
        os.utime(path, (978307200, 978307200))
        self.assertEqual(self.which(), ("", 1))
        self.assertEqual(self.asked("replay")[0], "")

    def test_an_edit_that_keeps_size_and_date_is_noticed(self) -> None:
        self.has_program()
        time.sleep(0.1)
        self.assertEqual(self.which()[1], 0)
        path = self.top / SOURCE
        before = path.stat()
        self.write(SOURCE, "fn mein() {}\n")
        os.utime(path, ns=(before.st_atime_ns, before.st_mtime_ns))
        self.assertEqual(path.stat().st_size, before.st_size)
        self.assertEqual(self.which(), ("", 1))
        self.assertEqual(self.asked("replay")[0], "")

    def test_a_date_in_the_future_changes_nothing(self) -> None:
        self.has_program()
        os.utime(self.top / SOURCE, (time.time() + 10800, time.time() + 10800))
        self.assertEqual(self.which()[1], 0)

    def test_an_edit_that_is_taken_back_changes_nothing(self) -> None:
        self.has_program()
        text = (self.top / SOURCE).read_text(encoding="utf-8")
        self.write(SOURCE, "other")
        self.assertEqual(self.which()[1], 1)
        self.write(SOURCE, text)
        self.assertEqual(self.which()[1], 0)

    def test_each_source_counts_and_other_files_do_not(self) -> None:
        self.has_program()
        for name in ("docs/page.md", "crates/wf/must-fail/one.edit", "crates/wf/src/.main.rt.swp", "crates/wf/src/main.rt~"):
            self.write(name, "new\n")
            self.assertEqual(self.which()[1], 0, name)
        for name in ("crates.txt", "HANDLES", "crates/wf/specs/Lib.antt", "crates/wf/proofs/Lib.antt", "crates/other/src/lib.rt"):
            self.write(name, "new\n")
            self.assertEqual(self.which()[1], 1, name)
            self.record(fresh.UNPROVED_PROGRAM)

    def test_a_removed_or_renamed_source_counts(self) -> None:
        path = self.write("crates/wf/src/more.rt", "text")
        self.has_program()
        path.rename(path.with_name("less.rt"))
        self.assertEqual(self.which()[1], 1)
        path.with_name("less.rt").rename(path)
        self.assertEqual(self.which()[1], 0)
        path.unlink()
        self.assertEqual(self.which()[1], 1)

    def test_another_program_or_none_in_its_place_is_noticed(self) -> None:
        path = self.has_program()
        path.write_text("#!/bin/sh\necho other\n", encoding="utf-8")
        self.assertEqual(self.which()[1], 1)
        path.write_text("", encoding="utf-8")
        self.assertEqual(self.which()[1], 1)

    def test_another_kit_is_noticed_and_no_kit_is_not(self) -> None:
        self.has_program()
        sources = fresh.Sources(str(self.top))
        path = str(self.top / fresh.UNPROVED_PROGRAM)
        fresh.write_record(path, fresh.Record(sources.checksum(), KIT, fresh.file_checksum(path)))
        self.assertEqual(self.which()[1], 0)
        self.has_kit()
        self.assertEqual(self.which()[1], 0)
        (self.kit / "KIT-ID").write_text("another kit\n", encoding="utf-8")
        self.assertEqual(self.which()[1], 1)

    def test_a_copied_checkout_is_fresh(self) -> None:
        self.has_program()
        other = self.room / "other"
        shutil.copytree(self.top, other)
        self.assertEqual(self.asked("which", script=other / "wf")[::2], (f"unproved {other / fresh.UNPROVED_PROGRAM}\n", 0))

    def test_what_rt_ci_left_is_taken_if_no_source_changed_since(self) -> None:
        time.sleep(0.05)
        path = self.write(fresh.PROGRAM, "#!/bin/sh\necho proved\n")
        path.chmod(0o755)
        self.assertEqual(self.which(), (f"proved {fresh.PROGRAM}\n", 0))
        self.assertIsNotNone(fresh.read_record(str(path)))
        os.utime(self.top / SOURCE, (978307200, 978307200))
        self.assertEqual(self.which()[1], 0)
        path.with_name("wf.record").unlink()
        self.assertEqual(self.which()[1], 1)

    def test_an_unproved_program_without_a_record_is_not_taken(self) -> None:
        self.write(fresh.UNPROVED_PROGRAM, "#!/bin/sh\n").chmod(0o755)
        self.assertEqual(self.which()[1], 1)

    def test_nothing_is_read_while_nothing_changes(self) -> None:
        self.has_program()
        time.sleep(0.1)
        self.assertEqual(self.which()[1], 0)
        self.tool("bin/python3", "#!/bin/sh\nexit 9\n")
        self.assertEqual(self.asked("replay")[::2], ("program replay\n", 0))
        self.write("crates/wf/src/new.rt", "")
        self.assertEqual(self.asked("replay")[2], 9)


class OfThisCheckout(Checkout):
    def test_a_checksum_takes_little_time(self) -> None:
        began = time.process_time()
        sources = fresh.Sources(str(TOP))
        self.assertEqual(len(sources.checksum()), 64)
        self.assertLess(time.process_time() - began, 1)
        self.assertGreater(len(sources.names), 1000)

    def test_the_quick_sum_is_made(self) -> None:
        done = subprocess.run(["bash", fresh.QUICK_SUM, str(TOP), "VERSION"], capture_output=True, text=True, check=False)
        self.assertRegex(done.stdout, "^[0-9a-f]{64}  -\n$")
