"""Tests of bench/gate: the sums of the records of a run, and the words of rattle."""
import json
import tempfile
import unittest
from pathlib import Path

from wfdev.bench.gate import __main__ as gate
from wfdev.bench.gate import costs, records
from wfdev.bench.gate.costs import About
from wfdev.bench.gate.records import Checked, Column, Fault, Kind, Record


def record(crate: str, kind: Kind, seconds: float, *functions: tuple[str, float], word: str = "check", status: int = 0) -> Record:
    """Returns a record as the stand-in for rattle writes it."""
    reported = tuple(Checked(name, used) for name, used in functions) if records.can_report([word], kind) else None
    return Record(crate, kind, (word,), "/", status, seconds, 0.0, reported)


RUN = [
    record("low", Kind.PROOF, 40, word="build"),
    record("low", Kind.SEED, 30, ("low::f", 12), ("low::g", 30)),
    record("low", Kind.SEED, 5),
    record("low", Kind.EDITS, 10, status=1),
    record("low", Kind.TESTS, 50, word="build"),
    record("top", Kind.PROOF, 20, ("top::main", 18)),
    record("top", Kind.BUILD, 1, word="build"),
    record("laws", Kind.PROOF, 25, word="build"),
]
ABOUT = About(names=["top"], commit="c0ffee", kit="kit 1", lines={"low": 9})


def unreported(run: list[Record], count: int, left_out: frozenset[str] = frozenset()) -> str | None:
    """Returns the crate that is checked again."""
    found = costs.unreported(run, count, left_out)
    return found.crate if found else None


class Costs(unittest.TestCase):
    """The sums of the records of a run."""

    def test_each_kind_has_its_column(self) -> None:
        crates = costs.of_crates(RUN)
        self.assertEqual(crates["low"].kept(), {"proof": 40, "tests": 50, "edits": 45, "tried": 1})
        self.assertEqual(crates["top"].kept(), {"proof": 21, "tests": 0, "edits": 0, "tried": 0})

    def test_a_function_has_the_seconds_since_the_line_before(self) -> None:
        functions = {(it.crate, it.name): it.seconds for it in costs.of_functions(RUN)}
        self.assertEqual(functions, {("low", "low::f"): 7, ("low", "low::g"): 18, ("top", "top::main"): 18})

    def test_a_crate_is_checked_again_while_it_may_count(self) -> None:
        self.assertEqual(unreported(RUN, 20), "laws")
        self.assertEqual(unreported(RUN, 1), "laws")
        self.assertIsNone(unreported(RUN, 20, frozenset({"laws"})))
        self.assertIsNone(unreported([*RUN, record("laws", Kind.PROOF, 0, ("laws::law", 24))], 20))
        many = [(f"low::{number}", 60.0 * number) for number in range(3)]
        self.assertIsNone(unreported([*RUN, record("low", Kind.PROOF, 0, *many)], 2))

    def test_the_table(self) -> None:
        text = costs.table(costs.figures(RUN, 2, ABOUT))
        self.assertIn("Processor seconds of `rt ci --anew top`, by `bench/gate`, at c0ffee, with kit 1:\n", text)
        self.assertIn("\nproofs 86, tests 50, 1 tries", text)
        self.assertIn("| low | 9 | 40 | 50 | 45 | 135 |\n| laws |  | 25 | 0 | 0 | 25 |\n| top |", text)
        self.assertTrue(text.endswith("| `top::main` | 18 |\n| `low::g` | 18 |\n"))

    def test_the_clock_is_shown_if_it_is_known(self) -> None:
        self.assertEqual(costs.by_the_clock(About([], "", "", None, 4)), "")
        self.assertEqual(costs.by_the_clock(About([], "", "", 1790, 4)), ", and 30 by the clock on 4 processors")

    def test_the_seconds_of_each_crate(self) -> None:
        self.assertEqual(costs.seconds_of(RUN, ["top", "new", "low"]), "top 21\nlow 135\n")

    def test_figures_that_were_kept_give_the_same_table(self) -> None:
        figures = costs.figures(RUN, 2, ABOUT)
        with tempfile.TemporaryDirectory() as room:
            kept = Path(room) / "gate.json"
            kept.write_text(figures.text(), encoding="utf-8")
            self.assertEqual(costs.table(costs.read(kept)), costs.table(figures))

    def test_no_records(self) -> None:
        with tempfile.TemporaryDirectory() as room, self.assertRaises(Fault):
            records.read(Path(room) / "none")
        with self.assertRaises(Fault):
            costs.table(costs.figures([], 1, ABOUT))


class Records(unittest.TestCase):
    """The file of records."""

    def test_what_is_written_is_read_back(self) -> None:
        with tempfile.TemporaryDirectory() as room:
            path = Path(room) / "records"
            records.write(path, RUN)
            self.assertEqual(records.read(path), RUN)

    def test_columns_are_the_sums_of_kinds(self) -> None:
        self.assertEqual({*records.COLUMN_OF}, {*Kind})
        self.assertEqual({*records.COLUMN_OF.values()}, {*Column})

    def test_a_line_is_a_json_object(self) -> None:
        self.assertEqual(json.loads(RUN[1].line())["functions"], [["low::f", 12], ["low::g", 30]])


class Page(unittest.TestCase):
    """The page of the tables."""

    def test_only_a_generated_page_is_replaced(self) -> None:
        with tempfile.TemporaryDirectory() as room:
            page = Path(room) / "gate.md"
            gate.page_of("old\n", page)
            gate.page_of("new\n", page)
            self.assertTrue(page.read_text(encoding="utf-8").endswith("\nnew\n"))
            page.write_text("# By hand\n", encoding="utf-8")
            with self.assertRaises(Fault):
                gate.page_of("new\n", page)


class Words(unittest.TestCase):
    """The words that rattle is given."""

    def test_a_check_instead_of_a_build(self) -> None:
        words = ["build", "--crate-name", "low", "--statements", "-o", "out/low.rlib", "--toolchain", "kit", "--jobs", "2", "src/lib.rt"]
        self.assertEqual(gate.check_words(words), ["check", "--crate-name", "low", "--jobs", "1", "src/lib.rt"])

    def test_which_calls_report_functions(self) -> None:
        for words, kind, reports in [
            (["check", "--jobs", "1"], Kind.SEED, True),
            (["check"], Kind.PROOF, True),
            (["check", "--jobs", "2"], Kind.SEED, False),
            (["check", "--jobs", "1"], Kind.EDITS, False),
            (["build", "--jobs", "1"], Kind.PROOF, False),
        ]:
            self.assertEqual(records.can_report(words, kind), reports)

    def test_what_a_call_is_for(self) -> None:
        for words, at, kind in [
            (["build", "--crate-checked", "x"], "/clone/crates/low", Kind.BUILD),
            (["check", "--incremental", "/tmp/rt-edits-1-a/seed"], "/tmp/rt-edit-1-b", Kind.SEED),
            (["check", "--incremental", "/tmp/rt-edits-1-a/3"], "/tmp/rt-edit-1-b", Kind.EDITS),
            (["check"], "/tmp/rt-edit-1-b", Kind.EDITS),
            (["build", "--test"], "/clone/crates/low", Kind.TESTS),
            (["build"], "/clone/crates/low", Kind.PROOF),
        ]:
            self.assertEqual(records.kind_of(words, at), kind)


if __name__ == "__main__":
    unittest.main()
