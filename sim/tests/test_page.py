"""docs/SIM.md has every key of a scenario."""
from __future__ import annotations

import re
import tomllib
import unittest

from sim.fields import Fault, Table
from sim.models import NAMES
from sim.program import TOP
from sim.reading import KINDS, from_table

PAGE = (TOP / "docs" / "SIM.md").read_text(encoding="utf-8")
GOOD = {
    "Top": "zzzzzz = 1\nseconds = 1\n[[station]]\nname = 'a'\n[[flow]]\nstation = 'a'\nmbit = 1\n",
    "`[[station]]`": "seconds = 1\n[[station]]\nname = 'a'\nzzzzzz = 1\n[[flow]]\nstation = 'a'\nmbit = 1\n",
    "`[[flow]]`": "seconds = 1\n[[station]]\nname = 'a'\n[[flow]]\nstation = 'a'\nmbit = 1\nzzzzzz = 1\n",
    "`[[bss]]`": "seconds = 1\n[[bss]]\nzzzzzz = 1\n[[station]]\nname = 'a'\n[[flow]]\nstation = 'a'\nmbit = 1\n",
    **{
        f"`[{name}]`": f"seconds = 1\n[[station]]\nname = 'a'\n[[flow]]\nstation = 'a'\nmbit = 1\n[{name}]\nzzzzzz = 1\n"
        for name in ("air", "models", "plot")
    },
}
ELSEWHERE = {  # keys that the page has in other tables, or in the list below the table
    "Top": {"station", "machine", "models", "air", "flow", "plot", "bss"},
    "`[[flow]]`": {*KINDS, "burst"},
}


def known(text: str) -> set[str]:
    """The keys that a table with an unknown key might have, by the message about that key."""
    try:
        from_table(Table("x.toml", "", tomllib.loads(text)), "x")
    except Fault as fault:
        return set(str(fault).rpartition("expected one of ")[2].split(", "))
    raise AssertionError("the key is known")


def on_the_page(head: str) -> set[str]:
    """The keys in the first column of a table of the page."""
    rows = re.search(rf"^\| {re.escape(head)} \|.*\n\|[-|]*\n((?:\|.*\n)*)", PAGE, re.M)
    assert rows, head
    return {key for row in rows[1].splitlines() for key in re.findall(r"`(\w+)`", row.split("|")[1])}


class Keys(unittest.TestCase):
    def test_each_table(self) -> None:
        for head, text in GOOD.items():
            self.assertEqual(on_the_page(head), known(text) - ELSEWHERE.get(head, set()), head)

    def test_the_kinds_of_flows_and_the_paths(self) -> None:
        for name in (*KINDS, "burst", "delay_ms", "congestion", *NAMES):
            self.assertRegex(PAGE, rf"`{name}\b")


if __name__ == "__main__":
    unittest.main()
