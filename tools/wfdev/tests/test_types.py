"""Tests of checks/types and of the count of functions without types."""
import tempfile
import unittest
from pathlib import Path

from wfdev.checks import python_files, types
from wfdev.repo import paths


class Packages(unittest.TestCase):
    def test_the_listed_packages_exist(self) -> None:
        known = types.packages()
        self.assertIn("wfdev", [package.name for package in known if package.strict])
        for package in known:
            self.assertTrue((paths.TOP / package.path / "__init__.py").is_file(), package.name)


class Annotations(unittest.TestCase):
    def unannotated(self, text: str) -> list[str]:
        """Returns the functions of a text that lack a type."""
        with tempfile.TemporaryDirectory() as room:
            path = Path(room) / "a.py"
            path.write_text(text, encoding="utf-8")
            return [name for _, name in python_files.unannotated(path)]

    def test_parameters_and_results_need_types(self) -> None:
        text = "def a(x): pass\ndef b(x: int): pass\ndef c() -> int: pass\ndef d(*x, y: int) -> int: pass\n"
        self.assertEqual(self.unannotated(text), ["a", "b", "d"])

    def test_self_needs_none(self) -> None:
        self.assertEqual(self.unannotated("class A:\n    def a(self) -> None: pass\n    def b(self, x) -> None: pass\n"), ["b"])

    def test_scripts_are_known_by_their_first_line(self) -> None:
        self.assertTrue(python_files.is_python(paths.TOP / "tools" / "wfdev" / "checks" / "types.py"))
        self.assertFalse(python_files.is_python(paths.CHECKS / "types"))
        self.assertFalse(python_files.is_python(paths.CHECKS / "style.counts"))


if __name__ == "__main__":
    unittest.main()
