"""Cases of tools/manual and of the pages that it makes."""
import importlib.machinery
import importlib.util
import pathlib
import re
import shutil
import subprocess
import sys
import unittest


def load():
    """The script as a module."""
    sys.dont_write_bytecode = True
    path = pathlib.Path(__file__).resolve().parent.parent.parent / "tools" / "manual"
    loader = importlib.machinery.SourceFileLoader("tools_manual", str(path))
    made = importlib.util.module_from_spec(importlib.util.spec_from_loader("tools_manual", loader))
    loader.exec_module(made)
    return made


MANUAL = load()
MADE = {path.name: text for path, text in MANUAL.pages().items()}
HEADER = MANUAL.HEADER.read_text(encoding="utf-8")


class Pages(unittest.TestCase):
    def test_pages_in_the_tree_are_those_that_are_made(self):
        for path, text in MANUAL.pages().items():
            self.assertEqual(path.read_text(encoding="utf-8"), text, f"{path.name}: run tools/manual")

    def test_each_function_struct_and_code_of_the_header_has_its_place(self):
        page = MADE["wf.h.3"]
        functions = re.findall(r"^\w+ (wf_\w+)\(", HEADER, re.M)
        self.assertEqual(re.findall(r"^\\fB\w+ (wf_\w+)\(", page, re.M), functions)
        structs = re.findall(r"^struct (wf_\w+) {", HEADER, re.M)
        self.assertEqual(re.findall(r"^\\fBstruct (\w+)\\fR$", page, re.M), structs)
        codes = re.findall(r"^enum wf_code {.*?^};", HEADER, re.M | re.S)[0]
        self.assertEqual(re.findall(r"^\\fB(WF_\w+)\\fR \(", page, re.M), re.findall(r"^\s+(WF_\w+) = ", codes, re.M))

    def test_each_command_and_call_has_its_place(self):
        page = MADE["wf.1"]
        for command in MANUAL.COMMANDS:
            self.assertIn(f'.SH "THE COMMAND {command.upper()}"\n', page)
        for call in ("enq S TID FLOW LENGTH", "reap", "open S W START"):
            self.assertIn(f"\n.TP\n\\fB{call}\\fR\n", page)

    def test_tools_for_pages_warn_of_nothing(self):
        for path in MANUAL.pages():
            for words in (["mandoc", "-Tlint", "-Wwarning"], ["groff", "-man", "-ww", "-z", "-Tutf8"]):
                if shutil.which(words[0]):
                    done = subprocess.run([*words, path], capture_output=True, text=True, check=False)
                    self.assertEqual((done.returncode, done.stdout + done.stderr), (0, ""), words[0])


class Parts(unittest.TestCase):
    def test_what_could_be_a_request_is_none(self):
        self.assertEqual(MANUAL.plain(".a -b 'c\\"), "\\&.a \\-b \\(aqc\\e")

    def test_words_in_backquotes_are_bold(self):
        self.assertEqual(MANUAL.prose("a `b` c"), "a \\fBb\\fR c")

    def test_rows_go_on_below(self):
        self.assertEqual(MANUAL.rows(["  one  what", "       it is", "  two"]), [["one", "what it is"], ["two", ""]])

    def test_a_code_without_words_has_those_above_it(self):
        text = "enum wf_code {\n  WF_OK = 0,\n  /* more */\n  WF_A = 1, /* a\n   b */\n  /* made: 100 */\n  WF_B = 100\n};"
        self.assertEqual([line for line in MANUAL.codes(text) if not line.startswith(("\\fB", ".TP"))],
                         ["well", ".PP", "More:", "a b", "made: 100"])


if __name__ == "__main__":
    unittest.main()
