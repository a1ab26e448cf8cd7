"""The test that calls every export of a static library, and the names that the exports get."""
from __future__ import annotations

import re
import unittest

from wfdev.build import exports
from wfdev.build.report import Failure

from .support import TOP

SOURCES = {
    "crate::one": """
#[repr(C)]
#[derive(Clone, Copy)]
pub struct Pair {
    /// What it is.
    pub low: u32,
    pub all: [u64; 4],
}

#[unsafe(no_mangle)]
pub extern "C" fn wf_ask(
    alloc: Global,
    path: &mut PathSlot,
    by: u32,
    pair: &Pair,
    out: &mut [u8],
) -> i32
    requires open { is_some path.old.value ≡ true }
{
    0
}
""",
}


class Exports(unittest.TestCase):
    def test_exports_are_found_with_the_types_of_their_arguments(self) -> None:
        kinds = ["Global", "&mut PathSlot", "u32", "&Pair", "&mut [u8]"]
        self.assertEqual(list(exports.exports(SOURCES)), [("crate::one", "wf_ask", kinds)])

    def test_each_is_called_with_zeros(self) -> None:
        test = exports.calling_test(SOURCES).splitlines()
        self.assertIn("use crate::one::Pair;", test)
        self.assertIn("let mut value1: PathSlot = PathSlot::empty(rt.alloc());", test)
        self.assertIn("let value2: Pair = Pair { low: 0, all: [0; 4] };", test)
        self.assertIn("let _ = wf_ask(rt.alloc(), &mut value1, 0, &value2, &mut value3);", test)
        self.assertIn("value1.end();", test)

    def test_exports_are_the_functions_of_the_header(self) -> None:
        source = TOP / "crates" / "wf_c" / "src"
        sources = {str(path): path.read_text(encoding="utf-8") for path in source.rglob("*.rt")}
        header = (TOP / "include" / "wf.h").read_text(encoding="utf-8")
        found = sorted(name for _, name, _ in exports.exports(sources))
        self.assertEqual(found, sorted(re.findall(r"^\w+ (wf_\w+)\(", header, re.M)))

    def test_exports_get_their_own_names(self) -> None:
        text = 'define internal i32 @"a::b::wf_ask"(ptr %a0) #0 {\ncall i32 @"a::b::wf_ask"(ptr %1)\ndefine i32 @main() {\n'
        wanted = "define i32 @wf_ask(ptr %a0) #0 {\ncall i32 @wf_ask(ptr %1)\ndefine internal i32 @main() {\n"
        self.assertEqual(exports.with_exports(text, ["wf_ask"]), wanted)
        with self.assertRaises(Failure):
            exports.with_exports(text, ["wf_other"])
