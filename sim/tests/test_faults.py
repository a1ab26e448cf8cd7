"""Every mistake of a scenario file: reported with the file, the table, the key and the expected value."""
from __future__ import annotations

import pathlib
import tempfile
import tomllib
import unittest

from sim.fields import Fault, Table, shown
from sim.models import choose, choose_all
from sim.reading import from_table, read

STATION = '[[station]]\nname = "a"\n'
FLOW = '[[flow]]\nstation = "a"\nmbit = 1\n'
TOP = "seconds = 10\n"
GOOD = TOP + STATION + FLOW
KINDS = "flood_mbit, mbit, every_ms, poisson_per_s, backlog, ping_ms, voip, tcp, web"
SECOND = '[[flow]]\nstation = "a"\n'

FAULTS = [  # a file's text, and what is reported after the file's name
    (STATION + FLOW, "seconds is missing: expected a number from 0.001 to 86400"),
    ("seconds = 0\n" + STATION + FLOW, "seconds = 0: expected a number from 0.001 to 86400"),
    ("seconds = true\n" + STATION + FLOW, "seconds = true: expected a number from 0.001 to 86400"),
    ("seconds = nan\n" + STATION + FLOW, "seconds = nan: expected a number from 0.001 to 86400"),
    ("warmup = 11\n" + GOOD, "warmup = 11: expected a number from 0 to 10"),
    ("seed = 1.5\n" + GOOD, "seed = 1.5: expected a whole number from 0 to 9223372036854775807"),
    ("seed = -5\n" + GOOD, "seed = -5: expected a whole number from 0 to 9223372036854775807"),
    ("title = 1\n" + GOOD, "title = 1: expected a text of printable characters"),
    ('title = "\\u001b[31mred"\n' + GOOD, 'title = "\\u001b[31mred": expected a text of printable characters'),
    ('note = "two\\nlines"\n' + GOOD, 'note = "two\\nlines": expected a text of printable characters'),
    ('compare = "fifo"\n' + GOOD, 'compare = "fifo": expected a list of texts'),
    ("second = 1\n" + GOOD, 'unknown key "second": did you mean seconds?'),
    (
        "xyz = 1\n" + GOOD,
        'unknown key "xyz": expected one of seconds, bss, station, flow, title, note, warmup, seed, machine, models, air, compare, plot',
    ),
    ("air = 1\n" + GOOD, "air = 1: expected a table [air]"),
    ("station = 1\n" + TOP + FLOW, "station = 1: expected tables [[station]]"),
    (TOP + FLOW, "station is missing: expected a table [[station]]"),
    (TOP + STATION, "flow is missing: expected a table [[flow]]"),
    ("flow = []\n" + TOP + STATION, "the file has no flow: expected a table [[flow]]"),
    ("station = []\n" + TOP + FLOW, "the file has 0 stations: expected 1 to 256"),
    (TOP + STATION + "count = 200\n" + "[[station]]\ncount = 57\n" + FLOW, "the file has 257 stations: expected 1 to 256"),
    (GOOD + "[air]\naccess = -1\n", "[air]: access = -1: expected a whole number from 0 to 10000"),
    (GOOD + "[air]\naccess = 102\ncw = 15\n", "[air]: access = 102: expected no fixed access next to cw"),
    (GOOD + "[air]\ncw = 1024\n", "[air]: cw = 1024: expected a whole number from 0 to 1023"),
    (GOOD + "[air]\ncharge_access = 1\n", "[air]: charge_access = 1: expected true or false"),
    (GOOD + "[air]\ninflight = 9\n", "[air]: inflight = 9: expected a whole number from 1 to 8"),
    (GOOD + "[air]\nin_flight = 1\n", '[air]: unknown key "in_flight": did you mean inflight?'),
    (GOOD + "[machine]\nlimit = 0\n", "[machine]: limit = 0: expected a whole number from 1 to 65535"),
    (GOOD + "[machine]\ncharge = 65536\n", "[machine]: charge = 65536: expected a whole number from 0 to 65535"),
    (
        GOOD + "[machine]\ncharge = 4000\n[air]\ncharge_access = true\n",
        "[machine]: charge = 4000: expected at least 4225, the longest exchange with its access, since charge_access is true",
    ),
    (
        GOOD + "[machine]\ncharge = 4000\n[[station]]\ncharge_error = 0.1\n",
        "[machine]: charge = 4000: expected at least 4225, the longest exchange with its access, since measured airtime has an error",
    ),
    (GOOD + "[[station]]\ncharge_bias = -1\n", "[[station]] 2: charge_bias = -1: expected a number from -0.99 to 10"),
    (GOOD + "[machine]\nlimits = 1\n", '[machine]: unknown key "limits": did you mean limit?'),
    (GOOD + "[machine]\ninflight = 1\n", "[machine]: inflight = 1: expected no such key here: write it in [air]"),
    (
        TOP + STATION + "count = 3\n" + FLOW + "[machine]\nstations = 2\n",
        "[machine]: stations = 2: expected at least 3, the stations of this file",
    ),
    (GOOD + "[models]\nqueue = 0\n", "[models]: queue = 0: expected a whole number from 1 to 1000000"),
    (GOOD + "[models]\nbufer = 1\n", '[models]: unknown key "bufer": did you mean buffer?'),
    (GOOD + '[plot]\npictures = ["delays"]\n', '[plot]: pictures = ["delays"]: expected a list of some of airtime, throughput, delay, time'),
    (GOOD + '[plot]\nflows = ["b"]\n', '[plot]: flows = ["b"]: expected a list of some of mbit, mbit to a'),
    (GOOD + "[plot]\ncolour = 1\n", '[plot]: unknown key "colour": expected one of pictures, flows'),
    (GOOD + '[[station]]\nname = "a"\n', "[[station]] 2: the name 'a' is taken by a station above: expected another name"),
    (
        TOP + '[[station]]\nname = "a 1"\n[[station]]\nname = "a"\ncount = 2\n' + FLOW,
        "[[station]] 2: the name 'a 1' is taken by a station above: expected another name",
    ),
    (
        TOP + STATION + 'count = 2\n[[station]]\nname = "a 1"\n' + FLOW,
        "[[station]] 2: the name 'a 1' is taken by a station above: expected another name",
    ),
    (GOOD + '[[station]]\nname = " "\n', '[[station]] 2: name = " ": expected a text of printable characters'),
    (GOOD + "[[station]]\ncount = 0\n", "[[station]] 2: count = 0: expected a whole number from 1 to 256"),
    (
        GOOD + '[[station]]\nrate = "15 20"\n',
        '[[station]] 2: rate = "15 20": expected a rate as in a trace, such as "15 20 short", "vht 9 80 short 2", "he 11 80 800 2", "ofdm 54" or "dsss 2"',
    ),
    (GOOD + "[[station]]\nweight = 17\n", "[[station]] 2: weight = 17: expected a whole number from 1 to 16"),
    (GOOD + "[[station]]\nwindow = 0\n", "[[station]] 2: window = 0: expected a whole number from 1 to 256"),
    (GOOD + "[[station]]\nloss = 5\n", "[[station]] 2: loss = 5: expected a number from 0 to 1"),
    (GOOD + '[[station]]\nack_loss = "0"\n', '[[station]] 2: ack_loss = "0": expected a number from 0 to 1'),
    (GOOD + "[[station]]\njoin = 11\n", "[[station]] 2: join = 11: expected a number from 0 to 10"),
    (GOOD + "[[station]]\njoin = 5\nleave = 4\n", "[[station]] 2: leave = 4: expected a number from 5 to 10"),
    (GOOD + "[[station]]\npoll_ms = 0\n", "[[station]] 2: poll_ms = 0: expected a number from 1 to 60000"),
    (
        GOOD + "[[station]]\nspeed = 1\n",
        '[[station]] 2: unknown key "speed": expected one of name, count, join, leave, rate, weight, window, loss, ack_loss, rates, sleeps, poll_ms, charge_bias, charge_error, offload, agreements, apsd, max, bss',
    ),
    (GOOD + "[[station]]\nrates = 1\n", "[[station]] 2: rates = 1: expected tables [[rates]]"),
    (GOOD + "[[station]]\nrates = [{ at = 1 }]\n", "[[station]] 2 [[rates]] 1: rate is missing: expected a text of printable characters"),
    (
        GOOD + '[[station]]\nrate = "ofdm 54"\nrates = [{ at = 3, rate = "1 20 long" }]\n',
        "[[station]] 2: some rates are of OFDM or DSSS: expected all or none, since a change of the rate ends no agreement",
    ),
    (
        GOOD + '[[station]]\nrate = "ofdm 54"\nwindow = 3\n',
        "[[station]] 2: window = 3: expected no window, since a station at a rate of OFDM or DSSS has no agreements",
    ),
    (
        GOOD + '[[station]]\nrate = "dsss 2"\nagreements = "join"\n',
        '[[station]] 2: agreements = "join": expected no agreements, since a station at a rate of OFDM or DSSS has no agreements',
    ),
    (
        GOOD + '[[station]]\nrate = "dsss 2"\n[machine]\nlegacy = 1\n',
        "[machine]: legacy = 1: expected at least 2, since a station has a rate of DSSS",
    ),
    (
        GOOD + '[[station]]\nrate = "ofdm 6"\n[machine]\nlegacy = 0\n',
        "[machine]: legacy = 0: expected at least 1, since a station has a rate of OFDM",
    ),
    (
        GOOD + '[[station]]\nleave = 2\nrates = [{ at = 3, rate = "1 20 long" }]\n',
        "[[station]] 2 [[rates]] 1: at = 3: expected a number from 0 to 2",
    ),
    (GOOD + "[[station]]\nsleeps = [{ from = 3, to = 2 }]\n", "[[station]] 2 [[sleeps]] 1: to = 2: expected a number from 3 to 10"),
    (GOOD + "[[station]]\nsleeps = [{ from = 3 }]\n", "[[station]] 2 [[sleeps]] 1: to is missing: expected a number from 3 to 10"),
    (
        GOOD + "[[station]]\nsleeps = [{ from = 3, to = 5 }, { from = 4, to = 6 }]\n",
        "[[station]] 2: sleeps overlap: expected each `from` at or after the `to` before it",
    ),
    (GOOD + "[[flow]]\nmbit = 1\n", "[[flow]] 2: station is missing: expected a text of printable characters"),
    (GOOD + '[[flow]]\nstation = "b"\nmbit = 1\n', '[[flow]] 2: station = "b": expected a station of this file, one of a'),
    (GOOD + SECOND, f"[[flow]] 2: its kind is missing: expected exactly one of {KINDS}"),
    (GOOD + SECOND + "mbit = 1\nevery_ms = 1\n", f"[[flow]] 2: mbit and every_ms are given: expected exactly one of {KINDS}"),
    (GOOD + SECOND + "voip = 5\n", "[[flow]] 2: voip = 5: expected true, or no such key"),
    (GOOD + SECOND + "voip = false\n", "[[flow]] 2: voip = false: expected true, or no such key"),
    (GOOD + SECOND + 'tcp = "bbr"\n', '[[flow]] 2: tcp = "bbr": expected one of cubic, reno'),
    (GOOD + SECOND + 'tcp = "reno"\ndelay_ms = -1\n', "[[flow]] 2: delay_ms = -1: expected a number from 0 to 10000"),
    (
        GOOD + SECOND + 'tcp = "reno"\nsize = 60\n',
        "[[flow]] 2: size = 60: expected octets from 61 to 2304, or a list of pairs [octets, weight]",
    ),
    (GOOD + SECOND + 'web = "huge"\n', '[[flow]] 2: web = "huge": expected small, large, or [octets, requests]'),
    (GOOD + SECOND + "web = [2, 3]\n", "[[flow]] 2: web = [2, 3]: expected small, large, or [octets, requests]"),
    (GOOD + SECOND + "web = [2, true]\n", "[[flow]] 2: web = [2, true]: expected small, large, or [octets, requests]"),
    (GOOD + FLOW + 'direction = "left"\n', '[[flow]] 2: direction = "left": expected one of down, up'),
    (
        GOOD + FLOW + 'direction = "up"\necho = true\n',
        "[[flow]] 2: echo = true: expected no echo of a flow with direction up",
    ),
    (
        GOOD + SECOND + 'tcp = "reno"\necho = true\n',
        f'[[flow]] 2: unknown key "echo": expected one of to, station, {KINDS}, start, stop, name, tid, size, offset_ms, octets, delay_ms, direction',
    ),
    (GOOD + FLOW + "tid = 8\n", "[[flow]] 2: tid = 8: expected a whole number from 0 to 7"),
    (GOOD + FLOW + "size = 2305\n", "[[flow]] 2: size = 2305: expected octets from 1 to 2304, or a list of pairs [octets, weight]"),
    (GOOD + FLOW + "size = []\n", "[[flow]] 2: size = []: expected octets from 1 to 2304, or a list of pairs [octets, weight]"),
    (GOOD + FLOW + "size = [[9]]\n", "[[flow]] 2: size = [[9]]: expected octets from 1 to 2304, or a list of pairs [octets, weight]"),
    (GOOD + FLOW + "size = [[9, 0]]\n", "[[flow]] 2: size = [[9, 0]]: expected octets from 1 to 2304, or a list of pairs [octets, weight]"),
    (GOOD + FLOW + "start = -1\n", "[[flow]] 2: start = -1: expected a number from 0 to 10"),
    (GOOD + FLOW + "start = 2\nstop = 1\n", "[[flow]] 2: stop = 1: expected a number from 2 to 10"),
    (GOOD + FLOW + "offset_ms = -1\n", "[[flow]] 2: offset_ms = -1: expected a number from 0 to 60000"),
    (GOOD + FLOW + "burst = 0\n", "[[flow]] 2: burst = 0: expected a whole number from 1 to 65535"),
    (GOOD + FLOW + 'echo = "yes"\n', '[[flow]] 2: echo = "yes": expected true or false'),
    (
        GOOD + FLOW + "window = 3\n",
        f'[[flow]] 2: unknown key "window": expected one of to, station, {KINDS}, start, stop, name, tid, size, offset_ms, burst, direction, echo',
    ),
    (GOOD + SECOND + "mbit = 0\n", "[[flow]] 2: mbit = 0: expected a number from 0.001 to 100000"),
    (GOOD + SECOND + "flood_mbit = 1e9\n", "[[flow]] 2: flood_mbit = 1e+09: expected a number from 0.001 to 100000"),
    (GOOD + SECOND + "every_ms = 0\n", "[[flow]] 2: every_ms = 0: expected a number from 0.001 to 3600000"),
    (GOOD + SECOND + "poisson_per_s = 0\n", "[[flow]] 2: poisson_per_s = 0: expected a number from 0.001 to 1000000"),
    (GOOD + SECOND + "backlog = 0\n", "[[flow]] 2: backlog = 0: expected a whole number from 1 to 65535"),
]

CHOICES = [
    ("codel", 'unknown path "codel": expected one of fifo, fq_codel, fq_mac, one_list, airtime'),
    ("airtime:stations=1", '"airtime:stations=1": unknown setting "stations": expected one of flows, limit, '),
    ("fifo:device", '"fifo:device": device has settings of the machine: expected it after airtime alone'),
    ("airtime:limit=1:device", '"airtime:limit=1:device": unknown setting "device": expected one of flows, limit, '),
    ("airtime:limit", 'limit = "": expected a whole number from 1 to 65535'),
    ("airtime:limit=0", 'limit = "0": expected a whole number from 1 to 65535'),
    ("airtime:limit=1:limit=2", '"airtime:limit=1:limit=2": limit is given twice'),
    ("fifo:buffer=0", 'buffer = "0": expected a whole number from 1 to 1000000'),
]


class Faults(unittest.TestCase):
    def test_a_good_file(self) -> None:
        self.assertEqual(len(from_table(Table("x.toml", "", tomllib.loads(GOOD)), "x").flows), 1)

    def test_each_fault(self) -> None:
        for text, said in FAULTS:
            with self.subTest(said):
                with self.assertRaises(Fault) as caught:
                    from_table(Table("x.toml", "", tomllib.loads(text)), "x")
                self.assertEqual(str(caught.exception), f"x.toml: {said}")

    def test_a_rate_of_thousands_of_digits(self) -> None:
        with self.assertRaisesRegex(Fault, r'rate = "999.*\.\.: expected a rate'):
            from_table(Table("x.toml", "", tomllib.loads(TOP + f'[[station]]\nname = "a"\nrate = "{"9" * 5000} 20 long"\n' + FLOW)), "x")

    def test_a_long_or_a_deep_value_is_cut(self) -> None:
        self.assertLess(len(shown("x" * 5000)), 70)
        self.assertLess(len(shown([["y" * 50]] * 50)), 70)
        self.assertNotIn("\x1b", shown(["\x1b"]))
        self.assertNotIn("\x9b", shown("\x9b"))

    def test_what_to_compare(self) -> None:
        for text, said in CHOICES:
            with self.assertRaises(Fault) as caught:
                choose(text)
            self.assertTrue(str(caught.exception).startswith(said), caught.exception)
        self.assertEqual(choose("airtime:limit=600:agg=1").label, "airtime limit=600 agg=1")
        self.assertEqual(choose("fifo:queue=50:buffer=500").label, "fifo queue=50 buffer=500")

    def test_a_path_is_compared_once(self) -> None:
        with self.assertRaisesRegex(Fault, "--compare: fq_mac is given twice: expected each path once"):
            choose_all(["fq_mac", "fq_mac"], "--compare")
        self.assertEqual(len(choose_all(["airtime", "airtime:limit=600"], "--compare")), 2)
        with self.assertRaisesRegex(Fault, 'x.toml: compare: unknown path "nobody"'):
            choose_all(["nobody"], "x.toml: compare")
        with self.assertRaisesRegex(Fault, "x.toml: compare: there is no path"):
            choose_all([], "x.toml: compare")


class Files(unittest.TestCase):
    def setUp(self) -> None:
        folder = tempfile.TemporaryDirectory()
        self.addCleanup(folder.cleanup)
        self.file = pathlib.Path(folder.name, "x.toml")

    def refused(self, octets: bytes, said: str) -> None:
        self.file.write_bytes(octets)
        with self.assertRaisesRegex(Fault, rf"x\.toml: {said}"):
            read(self.file)

    def test_no_file(self) -> None:
        with self.assertRaisesRegex(Fault, r"x\.toml: No such file"):
            read(self.file)

    def test_what_is_no_toml(self) -> None:
        self.refused(b"seconds = \n", r"is not TOML that can be read: Invalid value \(at line 1")
        self.refused(b"\xff", "is not TOML that can be read")
        self.refused(b"a = " + b"9" * 5000, "is not TOML that can be read: .*digits")
        self.refused(b"a = " + b"[" * 5000 + b"]" * 5000, "is not TOML that can be read: its values are nested too deeply")

    def test_a_byte_order_mark_and_lines_of_windows(self) -> None:
        self.file.write_bytes(b"\xef\xbb\xbf" + GOOD.replace("\n", "\r\n").encode())
        self.assertEqual(read(self.file).name, "x")


if __name__ == "__main__":
    unittest.main()
