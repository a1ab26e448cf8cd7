"""Tests of checks/help: texts that differ from the pages."""
import unittest
from collections.abc import Iterable

from wfdev.checks import help
from wfdev.repo import paths


def changed(name: str, old: str, new: str) -> dict[str, str]:
    """Returns the texts of the sources with one text changed."""
    known = help.texts()
    assert old in known[name], (name, old)
    return {**known, name: known[name].replace(old, new)}


def first(faults: Iterable[str]) -> str:
    """Returns the first fault, or nothing."""
    return next(iter(faults), "")


class Faults(unittest.TestCase):
    """Each kind of fault is found."""

    def test_texts_are_read(self) -> None:
        self.assertEqual(set(help.texts()), {"VERSION", "USAGE", "OVERVIEW", *map(str.upper, help.TOPICS)})

    def test_range(self) -> None:
        self.assertIn("stations", first(help.unlike_pages(changed("REPLAY", "stations=1..256", "stations=1..255"))))

    def test_call(self) -> None:
        self.assertIn("reap", first(help.unlike_pages(changed("REPLAY", "  reap\n", ""))))

    def test_fault(self) -> None:
        self.assertIn("range", first(help.unlike_pages(changed("FAULTS", "  range  ", "  rnge   "))))

    def test_command(self) -> None:
        self.assertIn("session", first(help.unlike_pages(changed("OVERVIEW", "  wf session", "  wf"))))

    def test_version(self) -> None:
        self.assertIn("version", first(help.unlike_version(changed("VERSION", "1.0.0", "1.0.1"))))

    def test_version_of_the_header(self) -> None:
        header = paths.read(paths.HEADER)
        self.assertEqual(help.version_macros(header)[3], f'"{".".join(help.version_macros(header)[:3])}"')
        self.assertEqual(help.version_macros(header.replace("WF_VERSION_MINOR 0", "WF_VERSION_MINOR 1"))[1], "1")

    def test_long_line(self) -> None:
        self.assertIn("SOAK", first(help.unlike_form(changed("SOAK", "Reads nothing.", "Reads nothing." + 90 * "."))))


if __name__ == "__main__":
    unittest.main()
