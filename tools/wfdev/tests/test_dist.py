"""Tests of checks/dist: the commands that it takes from a page, and checksums that are wrong."""
import tempfile
import unittest
from pathlib import Path

from wfdev.checks import dist
from wfdev.harness.script import Difference
from wfdev.repo import paths

PAGE = """Text with `./wf help`.

```
./wf replay < examples/one-frame.trace
rt ci
```

```console
$ ./wf replay < examples/weights.trace
...
last
```
"""


class Dist(unittest.TestCase):
    def test_commands_of_a_page(self) -> None:
        found = list(dist.commands(PAGE))
        wanted = ["./wf replay < examples/weights.trace", "./wf replay < examples/one-frame.trace", "rt ci"]
        self.assertEqual([one.command for one in found], wanted)
        self.assertEqual([one.wanted for one in found], [["...", "last"], ["..."], ["..."]])

    def test_commands_that_need_the_kit_or_minutes_are_left_out(self) -> None:
        for command in ("rt ci", "./wf build", "./wf lib --unproved", "./wf sim x.toml", "./wf install PREFIX"):
            self.assertTrue(dist.LEFT_OUT.search(command), command)
        for command in ("./wf replay < x", "./wf help build", "./wf explain x"):
            self.assertFalse(dist.LEFT_OUT.search(command), command)

    def test_the_readme_has_commands_to_run(self) -> None:
        found = [one.command for one in dist.commands(paths.read(paths.TOP / "README.md"))]
        self.assertGreaterEqual(len([one for one in found if not dist.LEFT_OUT.search(one)]), 1)

    def test_checksums(self) -> None:
        with tempfile.TemporaryDirectory() as name:
            folder = Path(name)
            (folder / "file").write_bytes(b"abc")
            total = "ba7816bf8f01cfea414140de5dae2223b00361a396177a9cb410ff61f20015ad"
            (folder / dist.SUMS).write_text(f"{total}  file\n", encoding="utf-8")
            self.assertEqual(dist.check_sums(folder), 1)
            (folder / "file").write_bytes(b"abd")
            self.assertRaises(Difference, dist.check_sums, folder)


if __name__ == "__main__":
    unittest.main()
