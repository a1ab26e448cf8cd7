"""The word `dist`: the content of the archives, a second run, and refusals. Compiler and products are
stand-ins."""
from __future__ import annotations

import hashlib
import os
import pathlib
import platform
import shutil
import subprocess
import tarfile
import zipfile

from wfdev.build import dist, fresh

from .support import TOP
from .test_install import ALL_FILES, Installing

SYSTEM = f"{platform.system().lower()}-{platform.machine()}"
WHEEL = f"python/wfpath-1.0.0-py3-none-{platform.system().lower()}_{platform.machine()}.whl"
SOURCE, BINARY, UNPROVED = "wf-1.0.0", f"wf-1.0.0-{SYSTEM}", f"wf-1.0.0-unproved-{SYSTEM}"


class Dist(Installing):
    def setUp(self) -> None:
        super().setUp()
        for name in dist.LICENCES:
            shutil.copy(TOP / name, self.top)
        made = shutil.ignore_patterns("__pycache__")
        shutil.copytree(TOP / "python", self.top / "python", ignore=made)
        self.folder = self.room / "dist"

    def made(self, *words: str, folder: pathlib.Path | None = None, **more: str) -> dict[str, bytes]:
        """Makes archives, and returns their octets by their names."""
        place = folder or self.folder
        told, said, status = self.asked("dist", str(place), *words, script=None, given=b"", **more)
        self.assertEqual(status, 0, said)
        self.assertEqual(sorted(told.splitlines()), sorted(str(path) for path in place.iterdir()))
        return {path.name: path.read_bytes() for path in place.iterdir()}

    def entries(self, name: str) -> dict[str, tarfile.TarInfo]:
        """Returns the entries of an archive; all are in one folder."""
        with tarfile.open(self.folder / f"{name}.tar.gz") as tar:
            found = tar.getmembers()
        self.assertEqual([entry.name for entry in found], sorted(entry.name for entry in found))
        self.assertTrue(all(entry.name.startswith(f"{name}/") for entry in found))
        self.assertEqual(
            {(entry.uid, entry.gid, entry.uname, entry.gname) for entry in found}, {(0, 0, "", "")}
        )
        return {entry.name.removeprefix(f"{name}/"): entry for entry in found}

    def unpack(self, name: str, folder: str) -> None:
        """Unpacks an archive into a new folder of the room."""
        (self.room / folder).mkdir()
        subprocess.run(["tar", "-xzf", self.folder / f"{name}.tar.gz", "-C", self.room / folder], check=True)

    def test_what_the_archives_have(self) -> None:
        self.are_built()
        made = self.made("--unproved", SOURCE_DATE_EPOCH="1000000000")
        self.assertEqual(set(made), {f"{SOURCE}.tar.gz", f"{UNPROVED}.tar.gz", "SHA256SUMS"})
        binary = self.entries(UNPROVED)
        self.assertEqual(set(binary), ALL_FILES | {"SHA256SUMS", *dist.LICENCES, WHEEL})
        self.assertEqual((binary["bin/wf"].mode, binary["include/wf.h"].mode), (0o755, 0o644))
        self.assertEqual(binary["lib/libwf.so"].linkname, "libwf.so.1")
        source = self.entries(SOURCE)
        self.assertIn("crates/wf/src/main.rt", source)
        self.assertEqual([name for name in source if "/out/" in name or "__pycache__" in name], [])
        self.assertEqual({entry.mtime for entry in [*binary.values(), *source.values()]}, {1_000_000_000})

    def test_the_wheel_has_the_shared_library_that_is_installed_and_says_that_it_is_not_proved(self) -> None:
        self.are_built()
        self.made("--unproved")
        self.unpack(UNPROVED, "root")
        place = self.room / "root" / UNPROVED
        with zipfile.ZipFile(place / WHEEL) as wheel:
            self.assertEqual(wheel.read("wfpath/libwf.unproved.so"), (place / "lib/libwf.so").read_bytes())
            self.assertIn("wfpath/__init__.py", wheel.namelist())

    def test_checksums_are_right(self) -> None:
        self.are_built()
        made = self.made("--unproved")
        for line in made.pop("SHA256SUMS").decode().splitlines():
            total, _, name = line.partition("  ")
            self.assertEqual(hashlib.sha256(made.pop(name)).hexdigest(), total)
        self.assertEqual(made, {})
        self.unpack(UNPROVED, "root")
        subprocess.run(
            ["sha256sum", "--quiet", "-c", "SHA256SUMS"], cwd=self.room / "root" / UNPROVED, check=True
        )

    def test_the_same_sources_make_the_same_archives(self) -> None:
        self.are_built()
        first = self.made("--unproved", SOURCE_DATE_EPOCH="1000000000")
        for path in self.top.rglob("*.rt"):
            os.utime(path, (5, 5))
        self.assertEqual(
            self.made("--unproved", folder=self.room / "second", SOURCE_DATE_EPOCH="1000000000"), first
        )
        self.unpack(SOURCE, "unpacked")
        self.assertFalse((self.room / "unpacked" / SOURCE / fresh.UNPROVED_PROGRAM).exists())

    def test_in_a_checkout_of_git_the_files_that_it_knows_at_the_time_of_the_commit(self) -> None:
        self.are_built()
        who = ["-c", "user.name=n", "-c", "user.email=e@example.org"]
        date = {"GIT_AUTHOR_DATE": "1234567890 +0000", "GIT_COMMITTER_DATE": "1234567890 +0000"}
        self.write(".gitignore", "out/\n")
        for words in (["init", "-q"], ["add", "-A"], [*who, "commit", "-q", "-m", "all"]):
            subprocess.run(["git", *words], cwd=self.top, env={**self.variables(), **date}, check=True)
        self.write("not known", "")
        self.made("--unproved")
        source = self.entries(SOURCE)
        self.assertNotIn("not known", source)
        self.assertIn("wf", source)
        self.assertEqual({entry.mtime for entry in source.values()}, {1_234_567_890})
        self.write("VERSION", "1.0.0\n\n")
        self.assertIn("changes that are not committed", self.asked("dist", str(self.folder), "--unproved")[1])

    def test_what_is_refused(self) -> None:
        self.assertIn(
            "dist: no program is built from these sources: './wf build' builds one", self.asked("dist")[1]
        )
        self.has_program(fresh.PROGRAM)
        self.assertIn(
            "dist: no library is built from these sources: './wf lib' builds one", self.asked("dist")[1]
        )
        self.has_library()
        told, said, status = self.asked("dist", str(self.folder))
        self.assertEqual((told, status), ("", 125))
        self.assertIn("is not known to be proved; './wf dist --unproved' takes what is not proved, too", said)
        self.assertFalse(self.folder.exists())
        self.assertEqual(self.asked("dist", "a", "b")[1:], ("usage: ./wf dist [FOLDER] [--unproved]\n", 1))

    def test_a_failure_keeps_the_earlier_archives(self) -> None:
        self.are_built()
        first = self.made("--unproved")
        self.tool("bin/cc", "#!/bin/sh\necho no >&2\nexit 1\n")
        self.assertEqual(self.asked("dist", str(self.folder), "--unproved")[2], 125)
        self.assertEqual({path.name: path.read_bytes() for path in self.folder.iterdir()}, first)

    def test_proved_products_without_a_folder_go_to_out(self) -> None:
        self.has_program(fresh.PROGRAM)
        self.has_library(fresh.LIBRARY)
        told, said, status = self.asked("dist")
        self.assertEqual((said.splitlines()[1:], status), ([], 0))
        self.assertIn(str(self.top / "out/dist" / f"{BINARY}.tar.gz"), told.splitlines())
