"""Tests of bench/walks: the functions that one line more runs through are found."""
import tempfile
import unittest
from pathlib import Path

from wfdev.bench import callgrind, walks

COUNTED = """fn=(1) wf_run_replay::runner::play::<#1>
0 5
cfn=(2) wf_path::path::Path::call
calls=3 0
0 9
fn=(2)
cfn=(3) wf_path::fn::Path::ask::find+FnMut::call_mut
calls=3 0
cfn=(4) wf_path::Destruct++none::drop::<i8>
calls=3 0
fn=(4)
cfn=(5) wf_queue_parts::chain::chain::Chain::pop_front
calls=3 0
fn=(3)
cfn=(6) arrayvec::array_vec::ArrayVec::push::<i8>
calls=6 0
"""


class Walks(unittest.TestCase):
    def setUp(self) -> None:
        with tempfile.TemporaryDirectory() as room:
            counted = Path(room) / "counted"
            counted.write_text(COUNTED, encoding="utf-8")
            self.calls = callgrind.read(counted).calls
        self.edges: dict[str, set[str]] = {}
        for caller, called in self.calls:
            self.edges.setdefault(caller, set()).add(called)

    def test_calls_are_read(self) -> None:
        self.assertEqual(self.calls["wf_run_replay::runner::play::<#1>", "wf_path::path::Path::call"], 3)
        self.assertEqual(len(self.calls), 5)

    def test_names_are_shown_without_their_types(self) -> None:
        self.assertEqual(walks.shown("wf_run_replay::runner::play::<#1>"), "wf_run_replay::runner::play")
        self.assertEqual(walks.shown("wf_path::fn::Path::ask::find+FnMut::call_mut"), "wf_path::Path::ask")
        self.assertIsNone(walks.shown("arrayvec::array_vec::ArrayVec::push::<i8>"))
        self.assertIsNone(walks.shown("wf_path::Destruct++none::drop::<i8>"))

    def test_what_only_drops_is_left_out(self) -> None:
        loop = walks.root_of(self.edges, walks.LOOP)
        kept = walks.below(self.edges, loop)
        self.assertNotIn("wf_queue_parts::chain::chain::Chain::pop_front", kept)
        self.assertEqual(len(kept), 4)

    def test_depth_counts_functions_of_this_repository(self) -> None:
        loop = walks.root_of(self.edges, walks.LOOP)
        self.assertEqual(walks.depth(self.edges, loop, walks.below(self.edges, loop)), 2)


if __name__ == "__main__":
    unittest.main()
