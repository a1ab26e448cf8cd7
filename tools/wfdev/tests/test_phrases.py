"""Tests of wfdev.checks.phrases: which text of a file is prose, and which phrases are found in it."""
import re
import unittest
from pathlib import Path

from wfdev.checks import phrases
from wfdev.checks.phrases import Kind, Phrase


def prose(name: str, text: str) -> list[str]:
    """Returns the lines of a file that have prose."""
    return [line.strip() for line in phrases.prose(Path(name), text).split("\n") if line.strip()]


class Prose(unittest.TestCase):
    def test_a_page_without_code_tables_and_names(self) -> None:
        text = "One `told` word.\n\n```sh\ntold\n```\n| told |\n\nTwo.\n"
        self.assertEqual(prose("docs/X.md", text), ["One X word.", "Two."])

    def test_comments_of_code_and_proofs(self) -> None:
        self.assertEqual(prose("a.rt", "/// One.\nlet told = 1;\n    // Two.\n//! Three.\n"), ["One.", "Two.", "Three."])
        self.assertEqual(prose("a.antt", "-- One.\ntold : Nat\n"), ["One."])

    def test_comments_of_c(self) -> None:
        self.assertEqual(prose("a.h", "/* One,\n * two. */\nint told;\n// Three.\n"), ["One,", "two.", "Three."])

    def test_comments_and_doc_comments_of_scripts(self) -> None:
        text = '"""One."""\nTOLD = "told"\n\n\ndef f() -> None:\n    """Two."""\n    # Three.\n'
        self.assertEqual(prose("a.py", text), ["One.", "Two.", "Three."])
        self.assertEqual(prose("checks/a", "#!/usr/bin/env python3\n" + text), ["One.", "Two.", "Three."])
        self.assertEqual(prose("wf", "#!/bin/sh\n# One.\ntold=1\n"), ["One."])

    def test_texts_of_the_help(self) -> None:
        text = 'pub const A: &str = "One.\nTwo.\n";\nfn told() {}\n'
        self.assertEqual(prose(str(phrases.HELP), text), ["One.", "Two."])

    def test_lines_keep_their_numbers(self) -> None:
        text = phrases.prose(Path("a.rt"), "let x = 1;\n\n// It stands behind.\n")
        found = list(phrases.odd_in(text, [Phrase(re.compile("behind"), "after")]))
        self.assertEqual(found, [(3, "'behind': after")])


class Phrases(unittest.TestCase):
    def test_the_list_finds_what_it_is_for(self) -> None:
        listed = phrases.listed()
        odd = ["It stands in a file.", "Want of memory", "The rows behind it", "Of each, one.", "one. That what is, is", "at the\nmost"]
        for text in odd:
            self.assertTrue(list(phrases.odd_in(text, listed)), text)

    def test_plain_sentences_have_none(self) -> None:
        listed = phrases.listed()
        text = "Returns the number of frames in the window. If the queue is empty, the call returns None. Of course it can fail."
        self.assertEqual(list(phrases.odd_in(text, listed)), [])

    def test_kinds_of_files(self) -> None:
        kinds = {"README.md": Kind.PAGES, "a.antt": Kind.PROOFS, "x.hpp": Kind.C, "checks/all": Kind.SCRIPTS, "a.toml": None}
        self.assertEqual({name: phrases.kind_of(Path(name)) for name in kinds}, kinds)

    def test_a_rate_is_per_thousand_words(self) -> None:
        self.assertEqual(phrases.Tally(2000, ["a", "b", "c"]).rate, 1.5)
        self.assertEqual(phrases.Tally().rate, 0)


if __name__ == "__main__":
    unittest.main()
