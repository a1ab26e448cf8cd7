"""The settings of the machine come from settings.json, which tools/tables writes, and nothing else has a list."""
from __future__ import annotations

import re
import unittest

from sim.models import bounds, choose
from sim.program import TOP
from sim.settings import parse, presets, settings

from .support import ONE_STATION, scenario

SOURCE = """[
    {"name": "flow_quantum", "least": 64, "most": 65535, "standard": 300, "device": 300, "about": "octets per flow visit"},
    {"name": "calls", "least": 1, "most": 4294967295, "standard": 1048576, "device": 1048576, "about": "calls of a history"}
]"""


class Settings(unittest.TestCase):
    def test_the_form_of_the_source(self) -> None:
        found = parse(SOURCE)
        self.assertEqual(list(found), ["flow_quantum", "calls"])
        self.assertEqual((found["flow_quantum"].least, found["flow_quantum"].greatest, found["flow_quantum"].standard), (64, 65535, 300))
        self.assertEqual((found["calls"].greatest, found["calls"].standard), (4294967295, 1048576))

    def test_they_are_those_of_the_help(self) -> None:
        text = (TOP / "crates/wf_run/src/help/texts.rt").read_text(encoding="utf-8")
        said = re.search(r"^Settings: ((?:\w+=\d+\.\.\d+\s)+)", text, re.M)
        assert said
        ours = [f"{one.name}={one.least}..{one.greatest}" for one in settings().values()]
        self.assertEqual(said[1].split(), ours)

    def test_a_comparison_takes_them(self) -> None:
        self.assertEqual(set(settings()) - set(bounds()), {"stations"})
        self.assertIn("charge", bounds())


class Presets(unittest.TestCase):
    def test_each_value_is_in_its_range(self) -> None:
        for name, preset in presets().items():
            for key, value in preset.items():
                self.assertTrue(settings()[key].least <= value <= settings()[key].greatest, (name, key))

    def test_the_page_has_each_setting(self) -> None:
        page = (TOP / "docs" / "TRACE.md").read_text(encoding="utf-8")
        words = [f"{key}={value}" for key, value in presets()["device"].items()]
        heads = [set(line.split()) for line in page.splitlines() if line.startswith("cell ")]
        self.assertTrue({"cell", *words} in heads)
        for word in words:
            self.assertIn(f"\n- `{word}`: ", page)

    def test_a_preset_replaces_settings_and_is_replaced(self) -> None:
        one = scenario(ONE_STATION + "[machine]\ndebt = 5\nlimit = 9\n")
        changed = one.with_settings(choose("airtime:device:keep_order=0").settings)
        self.assertEqual((changed.air.inflight, changed.settings["debt"], changed.settings["keep_order"]), (4, 20_000, 0))
        self.assertEqual((changed.settings["limit"], one.air.inflight), (9, 2))
        self.assertEqual(choose("airtime:device:keep_order=0").label, "airtime device keep_order=0")


if __name__ == "__main__":
    unittest.main()
