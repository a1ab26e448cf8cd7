"""Tests of the modules of python/wfpath that tools/tables writes, and of what is read from the header."""
import unittest

from wfdev import header, python_tables
from wfdev.header import Member
from wfdev.python_tables import Named
from wfdev.repo import paths

TEXT = paths.read(paths.HEADER)
ROWS = [python_tables.Row("stations", 1, 256, 16, 16, "station numbers")]
MORE = """struct wf_pair {
  struct wf_share both[2]; /* the old one
                            * and the new one */
  int64_t left;
};

/* Returns a number (as before). */
uint64_t wf_path_pair(const struct wf_path *path, const uint8_t bits[32], struct wf_pair *pair,
                      uint8_t *out);
"""


class Header(unittest.TestCase):
    """What the header declares."""

    def test_a_struct_and_a_function(self) -> None:
        *_, pair = header.structs(TEXT + MORE)
        self.assertEqual(pair.fields[0], Member("struct wf_share", "both", "2", "the old one and the new one"))
        *_, function = header.functions(TEXT + MORE)
        self.assertEqual((function.name, function.returns), ("wf_path_pair", "uint64_t"))
        self.assertEqual([one.kind for one in function.arguments][:2], ["const struct wf_path *", "const uint8_t"])
        self.assertEqual(function.arguments[1].length, "32")

    def test_an_argument_of_another_form(self) -> None:
        with self.assertRaisesRegex(ValueError, "'int' is no argument of the known form"):
            list(header.arguments("int"))
        self.assertEqual(list(header.arguments("void")), [])

    def test_an_enum(self) -> None:
        self.assertEqual([row.name for row in header.enum(TEXT, "wf_class")], ["BK", "BE", "VI", "VO"])
        self.assertRaises(KeyError, header.enum, TEXT, "wf_none")


class Modules(unittest.TestCase):
    """What is written for Python."""

    def test_structs_and_functions(self) -> None:
        text = python_tables.tables_module(TEXT + MORE, ROWS)
        self.assertIn('    _fields_ = [\n        ("both", ShareStruct * 2),\n        ("left", ctypes.c_int64),\n', text)
        self.assertIn("    both: ctypes.Array[ShareStruct]\n", text)
        self.assertIn('"wf_path_pair": (', text)
        self.assertIn("            ctypes.c_char_p,\n            ctypes.POINTER(PairStruct),\n", text)
        self.assertIn('    stations: int = 16\n    """Station numbers [1..256]."""\n', text)

    def test_errors(self) -> None:
        refusals = {14: Named("open", "count"), 25: Named("debt", "deficit"), 35: Named("held", ""), 1: Named("bad-station", "")}
        text = python_tables.errors_module(TEXT, refusals)
        self.assertIn("class Open(Refused):\n", text)
        self.assertIn('class Held(Refused):\n', text)
        self.assertIn('    field = "deficit"\n', text)
        self.assertIn('    field = "count"\n', text)
        self.assertEqual(text.count("    field = "), 2)
        self.assertIn("class WrongTid(BlockError):\n", text)
        self.assertRegex(text, r'class Held\(Refused\):\n.*\n\n    code = 35\n    word = "held"\n')
        self.assertIn("class NoMemory(WfError):\n", text)

    def test_each_line_fits(self) -> None:
        for text in (python_tables.tables_module(TEXT, ROWS), python_tables.errors_module(TEXT, {})):
            self.assertLessEqual(max(map(len, text.splitlines())), 120)


if __name__ == "__main__":
    unittest.main()
