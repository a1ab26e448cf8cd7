"""Tests of checks/modules: which proof modules it lists, what it says of each, and what it finds wrong."""
import tempfile
import unittest
from pathlib import Path

from wfdev.checks import modules
from wfdev.checks.modules import Module
from wfdev.repo import generated


class Modules(unittest.TestCase):
    def setUp(self) -> None:
        kept = tempfile.TemporaryDirectory()
        self.addCleanup(kept.cleanup)
        self.top = Path(kept.name)
        self.put("crates.txt", "# parts: what runs\nwf_low:\nwf_high: wf_low\n")
        self.put("crates/wf_low/proofs/Lib.antt", "-- The proofs.\npub mod Sums\nmod Own\npub mod Idle\n")
        self.put("crates/wf_low/proofs/Sums.antt", "-- Sums of lists, and\n-- what a longer list has. More of it.\nuse A\n")
        self.put("crates/wf_low/proofs/Idle.antt", "use A\n")
        self.put("crates/wf_high/proofs/Lemmas.antt", "use Rattle.wf_low.proofs.Sums.{more}\n")

    def put(self, name: str, text: str) -> None:
        path = self.top / name
        path.parent.mkdir(parents=True, exist_ok=True)
        path.write_text(text, encoding="utf-8")

    def test_public_modules_are_described_by_their_first_sentence(self) -> None:
        sums = Module("wf_low", "Sums", "Sums of lists, and what a longer list has")
        self.assertEqual(modules.described(self.top), [Module("wf_low", "Idle", ""), sums])

    def test_a_module_without_a_word_or_a_user_and_an_old_page_are_told(self) -> None:
        told = "\n".join(modules.faults(self.top, modules.described(self.top)))
        self.assertIn("wf_low, proofs/Idle: add a comment", told)
        self.assertIn("wf_low, proofs/Idle: no other crate", told)
        self.assertIn("is out of date", told)
        self.assertNotIn("Sums: no", told)

    def test_a_long_item_is_wrapped_and_no_word_is_cut(self) -> None:
        text = " ".join(["twelve-bit"] * 20)
        lines = Module("wf_low", "Sums", text).item().splitlines()
        self.assertEqual([len(line) for line in lines], [110, 100, 34])
        self.assertEqual(lines[0].partition(": ")[0], "- wf_low, proofs/Sums")
        self.assertEqual("\n".join(lines).partition(": ")[2].replace("\n  ", " "), text)

    def test_a_page_with_the_list_is_up_to_date_and_no_other_is(self) -> None:
        found = [module for module in modules.described(self.top) if module.name == "Sums"]
        sums = "- wf_low, proofs/Sums: Sums of lists, and what a longer list has\n"
        generated.MODULES.write(sums, self.top)
        self.assertEqual(list(modules.faults(self.top, found)), [])
        for listed in ("", sums + "- wf_low, proofs/Own: not public\n", sums * 2):
            generated.MODULES.write(listed, self.top)
            self.assertEqual(len(list(modules.faults(self.top, found))), 1)

    def test_the_list_has_an_item_for_each_module(self) -> None:
        sums = "- wf_low, proofs/Sums: Sums of lists, and what a longer list has\n"
        self.assertEqual(modules.body(modules.described(self.top)), "- wf_low, proofs/Idle:\n" + sums)


if __name__ == "__main__":
    unittest.main()
