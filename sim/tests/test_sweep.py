"""Sweeps: how they are read, what they change, and a grid as a command."""
from __future__ import annotations

import contextlib
import io
import pathlib
import tempfile
import tomllib
import unittest

from sim.cli import main
from sim.fields import Fault
from sim.sweep import Point, parse, parse_all, points, split, value_of

from .support import ONE_STATION

TWO = ONE_STATION.replace("seconds = 1", "seconds = 0.05") + '[[station]]\ncount = 2\n[[flow]]\nstation = "station 1"\nevery_ms = 10\n'


def grid(*words: str) -> list[Point]:
    """The points of these sweeps of two stations."""
    return points("two.toml", tomllib.loads(TWO), parse_all(words))


class Words(unittest.TestCase):
    def test_values(self) -> None:
        self.assertEqual(split('0,[1, 2],"a,b",{ x = 1, y = 2 }'), ["0", "[1, 2]", '"a,b"', "{ x = 1, y = 2 }"])
        self.assertEqual([value_of(word) for word in ("0.1", "true", "7 20 long", '"x"')], [0.1, True, "7 20 long", "x"])

    def test_targets(self) -> None:
        self.assertEqual(parse("station.a.b c.loss=0,1").name, "a.b c")
        for target in ("machine.limit", "seconds", "flow.bulk to slow.tid", "air.cw"):
            self.assertEqual(parse(f"{target}=1").target, target)

    def test_refusals(self) -> None:
        for word in ("x", "station.loss=1", "station..loss=1", "air.=1", "a.b=1", "seconds=", "seconds=1,,2", "=1"):
            with self.assertRaisesRegex(Fault, "expected station.NAME.KEY=VALUE"):
                parse(word)
        with self.assertRaisesRegex(Fault, "a value is given twice"):
            parse("seconds=1,1")
        with self.assertRaisesRegex(Fault, "seconds: two sweeps have this key"):
            parse_all(["seconds=1", "seconds=2"])
        with self.assertRaisesRegex(Fault, "more than 10000 points"):
            numbers = ",".join(map(str, range(101)))
            grid(f"air.slot={numbers}", f"air.difs={numbers}")


class Grids(unittest.TestCase):
    def test_a_grid(self) -> None:
        found = grid("station.a.loss=0,0.1", "machine.limit=5,6,7")
        self.assertEqual(len(found), 6)
        self.assertEqual(found[1].parameters, {"station.a.loss": "0", "machine.limit": "6"})
        self.assertEqual((found[5].scenario.stations[0].loss, found[5].scenario.settings["limit"]), (0.1, 7))

    def test_names_that_the_file_does_not_give(self) -> None:
        self.assertEqual([one.weight for one in grid("station.station 1.weight=3")[0].scenario.stations], [1, 3, 3])
        self.assertEqual(grid("flow.every_ms.tid=6")[0].scenario.flows[1].tid, 6)
        self.assertEqual(grid("flow.mbit to a.mbit=2")[0].scenario.flows[0].every, 6000)

    def test_rates_need_no_quotes(self) -> None:
        self.assertEqual([str(point.scenario.stations[0].rate) for point in grid("station.a.rate=7 20 long,15 20 short")], ["7 20 long", "15 20 short"])

    def test_mistakes(self) -> None:
        with self.assertRaisesRegex(Fault, 'station.b.loss: this scenario has no station of the name "b"'):
            grid("station.b.loss=1")
        with self.assertRaisesRegex(Fault, r"--sweep station.a.loss=5: two.toml: \[\[station\]\] 1: loss = 5"):
            grid("station.a.loss=5")
        with self.assertRaisesRegex(Fault, 'air.cv=5: two.toml: .air.: unknown key "cv": expected one of difs'):
            grid("air.cv=5")

    def test_the_command(self) -> None:
        with tempfile.TemporaryDirectory() as folder:
            file = pathlib.Path(folder, "two.toml")
            file.write_text(TWO, encoding="utf-8")
            words = [str(file), "--compare", "fifo", "--sweep", "station.a.weight=1,2", "--keep", f"{folder}/kept", "--processes", "1"]
            for shown in ("wf sim: 2 of 2 runs: station.a.weight=2, fifo, seed 1", "wf sim: 2 of 2 runs"):
                with contextlib.redirect_stdout(io.StringIO()) as out, contextlib.redirect_stderr(io.StringIO()) as err:
                    self.assertEqual(main(words), 0)
                self.assertIn(shown, err.getvalue())
        self.assertRegex(out.getvalue(), r"\nstation.a.weight  path +Jain")
        self.assertIn("== station.a.weight=1, fifo ==", out.getvalue())


if __name__ == "__main__":
    unittest.main()
