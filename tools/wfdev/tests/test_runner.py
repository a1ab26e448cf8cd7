"""Tests of wfdev.checks.runner and wfdev.harness.trials: how the end of a check is reported, and where its files are."""
import contextlib
import io
import os
import tempfile
import unittest
from pathlib import Path

from wfdev.checks import runner
from wfdev.checks.runner import Check, Outcome
from wfdev.harness import trials
from wfdev.harness.script import Script
from wfdev.repo import crates, paths


class Outcomes(unittest.TestCase):
    def test_the_last_line_of_a_passed_check_is_told(self) -> None:
        self.assertEqual(runner.outcome(Check("worked"), 0, "x\nworked: 3 runs\n"), (Outcome.PASSED, "3 runs"))

    def test_a_skipped_check_says_why(self) -> None:
        said = "sessions: skipped, since there is no tshark\n"
        self.assertEqual(runner.outcome(Check("sessions"), 0, said), (Outcome.SKIPPED, "there is no tshark"))

    def test_a_status_that_is_not_zero_is_a_failure(self) -> None:
        self.assertEqual(runner.outcome(Check("ns3"), 1, "ns3: skipped, since x\n")[0], Outcome.FAILED)
        self.assertEqual(runner.outcome(Check("ns3"), None, ""), (Outcome.FAILED, "no output"))

    def test_each_check_is_a_script_of_this_folder(self) -> None:
        for check in runner.ALL:
            self.assertTrue(os.access(paths.CHECKS / check.name, os.X_OK), check.name)

    def test_each_script_of_this_folder_is_a_check(self) -> None:
        others = {"all", "quick", "pre-commit"}
        scripts = {path.name for path in paths.CHECKS.iterdir() if path.is_file() and os.access(path, os.X_OK)}
        self.assertEqual({check.name for check in runner.ALL}, scripts - others)

    def test_commands_are_listed_and_not_run(self) -> None:
        written = io.StringIO()
        with contextlib.redirect_stdout(written):
            self.assertEqual(runner.main(Script("all"), ["--list", "--whole", "fuzz", "modules"]), 0)
        self.assertEqual(written.getvalue(), "checks/modules --check\nchecks/fuzz 3600\n")

    def test_each_check_stands_in_the_readme(self) -> None:
        page = paths.read(paths.CHECKS / "README.md")
        for check in runner.ALL:
            self.assertIn(f"\n- `{check.name}`: ", page)


class Texts(unittest.TestCase):
    def test_names_of_texts_are_those_in_src(self) -> None:
        with tempfile.TemporaryDirectory() as name:
            folder = Path(name)
            (folder / "driven").mkdir()
            (folder / "lib.rt.txt").touch()
            (folder / "driven" / "pair.rt.txt").touch()
            (folder / "notes.txt").touch()
            self.assertEqual(sorted(trials.texts(folder)), ["driven/pair.rt", "lib.rt"])

    def test_trials_name_crates_that_are_there(self) -> None:
        known = crates.read()
        for lines in paths.CHECKS.glob("*.d/crates.lines"):
            for crate in crates.read(lines).values():
                missing = [name for name in crate.uses if name.startswith("wf_") and name not in known]
                self.assertEqual(missing, [], lines)


if __name__ == "__main__":
    unittest.main()
