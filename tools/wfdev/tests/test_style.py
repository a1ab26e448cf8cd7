"""Tests of checks/style and wfdev.repo.sources: each counter on a source with what it counts, and with what it lets pass."""
import unittest
from collections.abc import Callable, Iterator, Set
from pathlib import Path

from wfdev.checks import counters, style
from wfdev.checks.counters import Corpus
from wfdev.repo import sources
from wfdev.repo.sources import Source


def code(text: str, crate: str = "one", name: str = "src/lib.rt", is_test: bool = False) -> Source:
    """Returns a source of a crate."""
    return Source(crate, Path(f"crates/{crate}/{name}"), text, is_test)


def found(
    counter: Callable[[Corpus], Iterator[str]], *files: Source, modules: Set[tuple[str, str]] = frozenset()
) -> list[list[str]]:
    """Returns what a counter finds: the place, and what it has."""
    return [at.split(": ", 1) for at in counter(Corpus(files, modules))]


class Lines(unittest.TestCase):
    def test_wide_lines_are_counted_imports_apart(self) -> None:
        source = code("ghost use A.{" + "x, " * 60 + "y};\n" + "z" * 111 + "\n" + "z" * 110 + "\n")
        self.assertEqual([at for at, _ in found(counters.rt_lines_over_110, source)], ["crates/one/src/lib.rt:2"])
        self.assertEqual(found(counters.antt_lines_over_110, source), [])

    def test_only_clauses_are_clauses(self) -> None:
        source = code("    requires wide { " + "x" * 160 + " }\n    ensures { x }\n    let wide = " + "x" * 160 + ";\n")
        self.assertEqual(len(found(counters.clauses_over_160, source)), 1)


class Imports(unittest.TestCase):
    def unused(self, text: str, kind: str = "antt") -> list[str]:
        name = "src/lib.rt" if kind == "rt" else "proofs/Facts.antt"
        return [name for _, name in found(counters.unused_imports, code(text, name=name))]

    def test_a_name_has_to_stand_behind_the_imports(self) -> None:
        self.assertEqual(self.unused("use A.{one, two, one-two}\none : two\n-- one-two\n"), ["one-two"])

    def test_a_name_brought_in_by_another_name_is_that_one(self) -> None:
        self.assertEqual(self.unused("use A.{old as fresh, past as gone}\nuse B as goal\nx = fresh old\n"), ["gone", "goal"])

    def test_an_operator_stands_for_its_symbols(self) -> None:
        text = "use A.{◌+◌, ◌-◌, [], if◌then◌else◌, ◌^◌}\nx = if y then a + b else []\n"
        self.assertEqual(self.unused(text), ["◌-◌", "◌^◌"])

    def test_code_may_bring_in_a_trait_for_its_methods(self) -> None:
        text = "use one::{Speaks, Sink};\nuse std::{\n    Given,\n    Taken,\n};\npub trait Sink {}\nfn f(x: Given) {}\n"
        self.assertEqual(self.unused(text, "rt"), ["Speaks", "Taken"])

    def test_what_is_handed_on_is_used(self) -> None:
        self.assertEqual(self.unused("pub use one::{Speaks, Sink};\nuse super::*;\n", "rt"), [])


class Names(unittest.TestCase):
    def test_definitions_of_two_crates(self) -> None:
        first = code("abbrev pub told : ℕ\npub record World : Type 0 where\n  pub told_too : ℕ\n", "one", "specs/A.antt")
        second = code("unfoldable pub told : ℕ\npub told_too : ℕ\n", "two", "specs/B.antt")
        self.assertEqual([what for _, what in found(counters.names_in_two_crates, first, second)], ["told: one two"])


class LookIns(unittest.TestCase):
    PAGE = """# Modules

- low, proofs/Kept/Books: books, and
  what low, proofs/Other: has
- low, proofs/Shown:
"""

    def look_ins(self, line: str) -> list[str]:
        modules = counters.modules_for_others(self.PAGE)
        return [what for _, what in found(counters.look_ins, code(line, "high"), code("", "low"), modules=modules)]

    def test_only_named_modules_of_the_repository_are_open(self) -> None:
        self.assertEqual(self.look_ins("use Rattle.low.proofs.Kept.Books.{x}"), [])
        self.assertEqual(self.look_ins("use Rattle.low.proofs.Kept.Books.Deep.{x}"), [])
        self.assertEqual(self.look_ins("ghost use Rattle.low.proofs.Kept.{x};"), ["low, proofs/Kept"])
        self.assertEqual(self.look_ins("use Rattle.low.proofs.Shown.{x}"), [])
        self.assertEqual(self.look_ins("use Rattle.low.proofs.Other.{x}"), ["low, proofs/Other"])
        self.assertEqual(self.look_ins("use Rattle.low.proofs.some.Type.TheSendSync.{the_send}"), [])
        self.assertEqual(self.look_ins("use Rattle.high.proofs.Own.{x}"), [])
        self.assertEqual(self.look_ins("use Rattle.std.proofs.Common.{x}"), [])


class HandProofs(unittest.TestCase):
    def test_a_crate_of_histories_has_none(self) -> None:
        hand = [code("x", crate, f"proofs/{name}") for crate in ("wf_cell", "wf_c") for name in ("step/Proof.antt", "step/Answers.antt")]
        self.assertEqual([at for at, _ in found(counters.hand_proofs, *hand)], ["crates/wf_cell/proofs/step/Proof.antt:1"])


class Code(unittest.TestCase):
    TEXT = """fn long(x: u32) -> u32
    requires small { x < 2 }
{
%s}

fn law()
    ensures { x };

#[cfg(test)]
mod tests {
    fn long_too() {
%s        unreachable!();
    }
}
""" % ("    let _x = 1;\n" * 41, "        let _x = 1;\n" * 41)

    def test_long_functions_are_those_of_code(self) -> None:
        self.assertEqual([what for _, what in found(counters.long_functions, code(self.TEXT))], ["long: 41 lines"])

    def test_written_rows_are_not_counted(self) -> None:
        rows = "    // begin rows: a script writes these lines\n" + "    row();\n" * 41 + "    // end rows\n"
        self.assertEqual(found(counters.long_functions, code("fn table()\n{\n" + rows + "}\n")), [])

    def test_tests_may_say_unreachable(self) -> None:
        self.assertEqual(found(counters.unreachable, code(self.TEXT)), [])
        self.assertEqual(len(found(counters.unreachable, code("fn f() {\n    unreachable!()\n}\n"))), 1)

    def test_a_let_that_nothing_reads_wants_a_word(self) -> None:
        text = "fn f() {\n    // its range\n    let _x = x;\n    let _y = y; // its range\n    let _z = z;\n    let _ = w;\n}\n"
        self.assertEqual([at for at, _ in found(counters.unread_lets, code(text))], ["crates/one/src/lib.rt:5"])

    def test_a_trace_of_a_test_in_one_string(self) -> None:
        text = 'const T: &str = "' + "x" * 170 + '";\n'
        self.assertEqual(len(found(counters.long_test_literals, code(text, is_test=True))), 1)
        self.assertEqual(found(counters.long_test_literals, code(text)), [])

    def test_files_behind_cfg_test_are_tests(self) -> None:
        root = Path("src")
        files = dict.fromkeys([root / "lib.rt", root / "rows.rt", root / "rows" / "few.rt", root / "code.rt"], "")
        files[root / "lib.rt"] = "#[cfg(test)]\nmod rows;\nmod code;\n"
        self.assertEqual(sources.test_files(files), {root / "rows.rt", root / "rows" / "few.rt"})


class Judging(unittest.TestCase):
    def test_more_fails_and_fewer_asks_to_be_written_down(self) -> None:
        counts = {"grown": style.Found(2, ["a", "b"]), "fallen": style.Found(0, []), "same": style.Found(1, ["a"])}
        verdicts = style.judge(counts, style.parse("grown 1\nfallen 2\nsame 1\n"))
        judged = {it.name: (it.line, it.has_grown) for it in verdicts}
        self.assertEqual(judged["grown"], ("2, more than 1", True))
        self.assertIn("checks/style --write", judged["fallen"][0])
        self.assertEqual(judged["same"], ("1", False))


if __name__ == "__main__":
    unittest.main()
