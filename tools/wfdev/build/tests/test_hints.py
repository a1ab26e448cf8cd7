"""Hints on inlining: the functions that sources mark, and their symbols in a module."""
from __future__ import annotations

import pathlib
import tempfile
import unittest

from wfdev.build.hints import Marked, module_of, never_inlined, symbols

SOURCE = """\
/// Reads.
#[inline(never)]
#[tactic(auto)]
pub fn read<S: Source>(source: &mut S) {}

impl Plays for Stage {
    // Not here.
    fn open() {}

    #[inline(never)]
    fn close() {}
}
"""
MODULE = """\
define internal void @"wf_run::input::read::<#98d0>"(ptr %a0) #0 {
  call void @"wf_run::input::StagePlays::open"()
define internal void @"wf_run::input::StagePlays::close"() #0 {
define internal void @"wf_run::input::StagePlays::closed"() #0 {
define internal void @read() #0 {
"""


class Hints(unittest.TestCase):
    def test_marked_functions_are_found_by_module_and_name(self) -> None:
        with tempfile.TemporaryDirectory() as folder:
            source = pathlib.Path(folder, "wf_run/src/input.rt")
            source.parent.mkdir(parents=True)
            source.write_text(SOURCE, encoding="utf-8")
            self.assertEqual(never_inlined(pathlib.Path(folder)), [Marked("wf_run::input", "read"), Marked("wf_run::input", "close")])

    def test_the_root_of_a_crate_has_no_module(self) -> None:
        self.assertEqual(module_of(pathlib.PurePath("wf/src/main.rt")), "wf")
        self.assertEqual(module_of(pathlib.PurePath("wf/src/help/words.rt")), "wf::help::words")

    def test_symbols_have_their_types_and_no_others_are_taken(self) -> None:
        marked = [Marked("wf_run::input", "read"), Marked("wf_run::input", "close")]
        self.assertEqual(symbols(marked, MODULE), ["wf_run::input::StagePlays::close", "wf_run::input::read::<#98d0>"])
        self.assertEqual(symbols([], MODULE), [])


if __name__ == "__main__":
    unittest.main()
