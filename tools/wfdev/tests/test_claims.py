"""Tests of checks/claims, on a small tree that they write."""
import contextlib
import io
import tempfile
import unittest
from pathlib import Path

from wfdev.checks.claims import __main__ as script
from wfdev.checks.claims.page import NO_CLAIMS
from wfdev.checks.claims.tree import Result, Tree, check

SOURCE = """//! A gate.
pub struct Gate<M: Machine> {
    table: M,
}

impl<M: Machine> Model for Gate<M> {
    ghost invariant = { λ g. IsSized g };
}

impl<M: Machine + Drop> Gate<M> {
    /// A call.
    pub fn call<R: Wait>(
        &self,
        rt: &R,
    ) -> Result<M::Reply, Spent>
        requires own { IsOf self.now }
        ensures seen { OnOk result
            (λ r. r ≡ r) }
        // The quota was used up.
        ensures* spent { OnErr result }
    {
        let inner = || ensures hidden { true };
        Ok(inner)
    }

    fn private(&self)
        ensures secret { true }
    {
    }
}

impl<'a, R: Wait> Desk for GateDesk<'a, R> {
    fn left(&self) -> u32
        ensures left { true }
    {
        0
    }
}

pub trait Machine {
    fn room(&self) -> u64
        ensures room { true };

    fn step(&mut self)
        ensures past { true };
}

/// A law.
pub fn law()
    ensures { Law }
{}
"""
MORE = """pub fn more()
    ensures seen { true }
    ensures held { IsOf }
    ensures kept { true }
{}

pub trait Machine {
    fn step(&mut self)
        ensures past { true };
}
"""
SPECS = """pub record Law (h : History) : Type 0 where
  pub near : ⊤

abbrev pub IsOf : Type 0
IsOf = ⊤

-- a gate
abbrev pub IsSized : Type 0
IsSized = IsOf

-- IsOf stands in a comment
abbrev pub Lone : Type 0
Lone = ⊤
"""


class Claims(unittest.TestCase):
    """Citations of places, in a tree of one crate."""

    def setUp(self) -> None:
        room = tempfile.TemporaryDirectory()
        self.addCleanup(room.cleanup)
        self.top = Path(room.name)
        for name, text in {"src/gate.rt": SOURCE, "src/more.rt": MORE, "specs/Seats.antt": SPECS}.items():
            path = self.top / "crates" / "wf_gate" / name
            path.parent.mkdir(parents=True, exist_ok=True)
            path.write_text(text, encoding="utf-8")

    def looked(self, page: str) -> Result:
        """Returns what a look at a page finds."""
        return check(page, Tree(self.top))

    def faults(self, *places: str) -> list[str]:
        """Returns the faults of a page that has one claim, with these places."""
        return self.looked("# Page\n\n## Part\n\n- claim\n" + "".join(f"  - {it}\n" for it in places)).faults

    def test_what_is_there_is_well(self) -> None:
        self.assertEqual(self.faults(
            "wf_gate, gate.rt: `Gate::call` ensures `seen`, `spent`",
            "wf_gate, gate.rt: `Machine::step`, `Machine::step` ensure `past`",
            "wf_gate, gate.rt: `GateDesk::left` ensures `left`",
            "wf_gate, gate.rt: `Gate` keeps `invariant`: `IsOf`",
            "wf_gate, gate.rt: `law`: `Law.near`",
            "wf_gate, more.rt: `more` ensures `held`: `IsOf`; `kept`",
        ), [])

    def test_a_condition_is_no_promise(self) -> None:
        self.assertIn("has no clause own", self.faults("wf_gate, gate.rt: `Gate::call` ensures `own`")[0])

    def test_what_stands_in_a_body_is_no_clause(self) -> None:
        self.assertIn("has no clause hidden", self.faults("wf_gate, gate.rt: `Gate::call` ensures `hidden`")[0])

    def test_a_private_function_carries_no_claim(self) -> None:
        faults = self.faults("wf_gate, gate.rt: `Gate::private` ensures `secret`")
        self.assertIn("no public function Gate::private", faults[0])

    def test_each_function_needs_each_clause(self) -> None:
        self.assertEqual(
            self.faults("wf_gate, gate.rt: `Gate::call`, `Machine::step` ensure `seen`"),
            ["line 6: Machine::step of wf_gate has no clause seen"],
        )

    def test_an_unnamed_clause_is_asked_for_by_its_word(self) -> None:
        self.assertIn("(unnamed)", self.faults("wf_gate, gate.rt: `Gate::call`")[0])

    def test_a_wrong_crate_function_clause_definition_field_or_file(self) -> None:
        for place, said in {
            "wf_none, gate.rt: `law`": "there is no crate wf_none",
            "wf_gate, gate.rt: `flaw`": "no public function flaw",
            "wf_gate, gate.rt: `GateDesk::left` ensures `right`": "GateDesk::left of wf_gate has no clause right",
            "wf_gate, gate.rt: `law`: `Lore`": "there is no definition Lore",
            "wf_gate, gate.rt: `law`: `Law.far`": "there is no definition Law.far",
            "wf_gate, lib.rt: `law`": "it names lib.rt, but its functions are in gate.rt",
            "wf_gate, gate.rt: `law` ensures `Law`": "no clause",
        }.items():
            self.assertIn(said, "\n".join(self.faults(place)))

    def test_a_place_has_one_file(self) -> None:
        place = "wf_gate, gate.rt: `Gate::call`, `more` ensure `seen`"
        self.assertEqual(self.faults(place), ["line 6: it names gate.rt, but its functions are in gate.rt, more.rt"])

    def test_functions_of_one_name_are_told_apart_by_their_file(self) -> None:
        self.assertEqual(self.faults(
            "wf_gate, gate.rt: `Machine::step` ensures `past`",
            "wf_gate, more.rt: `Machine::step` ensures `past`",
        ), [])

    def test_a_definition_of_which_the_clause_does_not_speak(self) -> None:
        for place, said in {
            "wf_gate, gate.rt: `law`: `IsOf`": "its clauses do not use IsOf",
            "wf_gate, gate.rt: `Gate` keeps `invariant`: `Lone`": "its clauses do not use Lone",
        }.items():
            self.assertEqual(self.faults(place), [f"line 6: {said}"])

    def test_what_is_no_place(self) -> None:
        for place in (
            "wf_gate, gate.rt: law",
            "wf_gate, gate.rt:",
            "wf_gate: `law`",
            "wf_gate, gate.rt: `law` ensures what it says",
            "wf_gate, gate.rt: `Gate::call` ensures `seen`, spent",
            "wf_gate, gate.rt: `Gate::call` ensures `seen`,",
        ):
            self.assertEqual(len(self.faults(place)), 1, place)
            self.assertIn("line 6: not the form of a place", self.faults(place)[0])

    def test_a_claim_without_a_place(self) -> None:
        self.assertEqual(self.faults(), ["line 5: a claim without a place"])
        page = "## Part\n\n- one\n  of two lines\n- two\n  - wf_gate, gate.rt: `law`\n\n- three\n"
        result = self.looked(page)
        self.assertEqual(result.faults, ["line 3: a claim without a place", "line 8: a claim without a place"])
        self.assertEqual((result.claims, result.files), (3, {6: ["gate.rt"]}))

    def test_a_wrapped_place_is_read_to_its_end(self) -> None:
        for wrapped in (
            "wf_gate, gate.rt: `Gate::call` ensures `seen`,\n    `lost`",
            "wf_gate, gate.rt: `Gate::call`\n    ensures\n    `seen`, `lost`",
            "wf_gate, gate.rt: `Gate::call` ensures `seen`,\n`lost`",
        ):
            self.assertEqual(self.faults(wrapped), ["line 6: Gate::call of wf_gate has no clause lost"])
            self.assertEqual(self.faults(wrapped.replace("lost", "spent")), [])

    def test_lists_that_make_no_claims_need_no_places(self) -> None:
        lists = [f"## {name}\n\n- words\n  - more\n" for name in sorted(NO_CLAIMS)]
        self.assertEqual(self.looked("# Page\n\n- words\n\n" + "".join(lists)), Result())

    def test_a_crate_that_only_the_text_names(self) -> None:
        self.assertEqual(self.looked("Of wf_gate and of wf_gone, in `wf_def_*`.").faults, ["there is no crate wf_gone"])

    def written(self, place: str) -> tuple[int, str, str]:
        """The status and the words of a run with --write, and what it left of a page of this place."""
        page = self.top / "docs" / "PROOFS.md"
        page.parent.mkdir()
        page.write_text(f"## Part\n\n- a\n  - {place}\n\nText.\n", encoding="utf-8")
        with contextlib.redirect_stdout(io.StringIO()) as said:
            status = script.main([str(self.top), "--write"])
        return status, said.getvalue(), page.read_text(encoding="utf-8")

    def test_files_are_put_in(self) -> None:
        status, said, page = self.written("wf_gate, old.rt: `law`:\n    `Law.near`")
        self.assertEqual((status, said), (0, "claims: 1 claims, 1 places, 0 faults\n"))
        self.assertEqual(page, "## Part\n\n- a\n  - wf_gate, gate.rt: `law`:\n    `Law.near`\n\nText.\n")

    def test_no_file_is_put_in_where_there_are_two(self) -> None:
        place = "wf_gate, old.rt: `Gate::call`, `more` ensure `seen`"
        status, _, page = self.written(place)
        self.assertEqual(status, 1)
        self.assertIn(place, page)


if __name__ == "__main__":
    unittest.main()
