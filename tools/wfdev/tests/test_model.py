"""Tests of wfdev.model on the worked rows, on the traces of examples, and on the rows of durations."""
import csv
import itertools
import random
import unittest
from collections.abc import Callable
from dataclasses import dataclass

from wfdev.checks import worked
from wfdev.checks.durations import legacy
from wfdev.checks.fuzz import scripts, subjects, traces
from wfdev.checks.fuzz.subjects import Ended
from wfdev.model.answers import Answer, Beacon, GroupSend, Number, Polled, Send, Triggered, Word
from wfdev.model.calls import LINES
from wfdev.model.frames import CLASS_OF, Class, Frame
from wfdev.model.grammar import Call, read
from wfdev.model.group import Group
from wfdev.model.machine import Machine
from wfdev.model.rates import LOWEST, Bounds, Format, MimoRate, Ofdm, octets_alone
from wfdev.model.session import End, Session
from wfdev.model.settings import RANGES, Settings
from wfdev.model.stations import Mode, Station
from wfdev.model.text import Player, replay
from wfdev.model.tim import tim
from wfdev.repo import paths

COMMANDS: dict[tuple[str, ...], Callable[[bytes], Ended]] = {
    ("replay",): subjects.replay,
    ("replay", "--pcap"): subjects.replay_pcap,
    ("frames",): subjects.frames,
    ("session",): scripts.session,
    ("uplink",): scripts.uplink,
}
LEAST_ROWS, LEAST_SENDS = 200, 50
GROUP_CALLS = ("group 9", "beacon", "gpull", "gdone", "group 9 1", "beacon 1", "gpull 1", "gdone 1", "bss 0 1", "bss 1 0")
MOST_HT_MCS = 15


class Worked(unittest.TestCase):
    def test_rows_are_as_worked_out(self) -> None:
        count = 0
        for row in worked.rows():
            answer = COMMANDS.get(tuple(row.command))
            if answer:
                with self.subTest(row.name):
                    written, status = answer(worked.octets_of(worked.ROWS / f"{row.name}.in"))
                    self.assertEqual(status, row.status)
                    self.assertTrue(worked.is_as_wanted(row, written), written[-500:])
                    count += 1
        self.assertGreater(count, LEAST_ROWS)

    def test_examples_are_as_they_say(self) -> None:
        for trace in sorted(paths.EXAMPLES.glob("*.trace")):
            with self.subTest(trace.name):
                written, status = replay(trace.read_bytes())
                self.assertEqual(written, paths.read(trace.with_suffix(".out")))
                self.assertEqual(status, int(worked.octets_of(trace.with_suffix(".status")) or 0))


class Rates(unittest.TestCase):
    def test_times_are_those_of_the_rows(self) -> None:
        for path in sorted((paths.CHECKS / "durations.d").glob("*.csv")):
            for row in csv.DictReader(paths.read(path).splitlines()):
                mcs, mhz, guard, streams = (int(row[name]) for name in ("mcs", "mhz", "guard_ns", "streams"))
                rate = MimoRate(Format(row["format"]), mcs, mhz, guard, streams)
                if rate.form is not Format.HT or mcs <= MOST_HT_MCS:
                    self.assertTrue(rate.exists(), rate)
                    self.assertEqual(rate.kbps, int(row["kbps"]), rate)
                    self.assertEqual(rate.time(int(row["octets"])), int(row["us"]), rate)

    def test_times_of_ofdm_and_dsss_are_those_of_ns3(self) -> None:
        self.assertEqual([fault for row in legacy.read() for fault in legacy.faults(row)], [])
        self.assertFalse(Ofdm(7).exists())

    def test_a_frame_of_any_length_fits_alone(self) -> None:
        self.assertTrue(Bounds(agg=1, octets=8191, rate=LOWEST, cap=3000).fits([2304]))


class Agreements(unittest.TestCase):
    def test_a_number_is_far_above_the_last_acknowledged_one(self) -> None:
        session = Session(1, 100)
        self.assertEqual([session.is_far(number) for number in (2146, 2147)], [False, True])
        session.add(Frame(0, 1, 0, 0))
        session.end(100, End.ACKNOWLEDGED, 10)
        self.assertEqual([session.is_far(number) for number in (2147, 2148)], [False, True])

    def test_a_tid_without_an_agreement_needs_no_request(self) -> None:
        held = Station(0, 1, 4095, 3, 1, mode=Mode.PLAIN)
        session = held.sessions[0]
        session.fail(session.add(Frame(0, 1, 0, 0)))
        self.assertTrue(session.request_is_due())
        held.catch_up_if_plain(0)
        self.assertFalse(session.request_is_due())
        self.assertEqual(held.receivers[0].data(4096, 7), [7])

    def test_the_octets_of_a_frame_alone(self) -> None:
        rates = (LOWEST, MimoRate(Format.VHT, 0, 20, 800, 1), MimoRate(Format.HE, 0, 20, 800, 1))
        self.assertEqual([octets_alone(rate, 100, 8) for rate in rates], [138, 142, 142])


class Grouped(unittest.TestCase):
    def test_the_count_runs_from_the_period(self) -> None:
        group = Group(Settings(period=3, buffered=1))
        counts: list[int] = []
        for _ in range(4):
            group.beacon()
            counts.append(group.count)
        self.assertEqual(counts, [2, 1, 0, 2])
        self.assertEqual(Group(Settings()).period, 1)

    def test_airtimes(self) -> None:
        for overhead, length, air in ((0, 1, 64), (0, 2304, 3136), (32, 1, 108), (32, 2304, 3176)):
            group = Group(Settings(overhead=overhead, buffered=1))
            group.accept(length)
            self.assertEqual(group.time(group.pull()), air)

    def test_the_bit_is_in_the_control_octet(self) -> None:
        self.assertEqual(tim([], 0, 2, True).hex(), "050400020100")
        self.assertEqual(tim([21], 0, 2, True).hex(), "050400020320")
        self.assertEqual(tim([21], 1, 2).hex(), "050401020220")

    def test_the_laws_hold_in_random_histories(self) -> None:
        for seed in range(20):
            self.keep_laws(random.Random(seed), 300)

    def keep_laws(self, draw: random.Random, calls: int) -> None:
        """Makes random calls, and asserts the laws of the group frames of each BSS after each."""
        settings = Settings(
            stations=3, period=draw.choice((0, 1, 2, 3)), buffered=draw.choice((1, 2, 8)), bsses=draw.choice((0, 1, 2, 3))
        )
        machine = Machine(settings)
        answers = [list[Answer]() for _ in machine.groups]
        for _ in range(calls):
            bss = draw.randrange(len(machine.groups))
            usual = [f"{word} {bss}" for word in ("group 100", "beacon", "gpull", "gdone")] * 4
            after = {"join": " 64 0 3", "bss": f" {bss}"}
            other = draw.choice(("sleep", "wake", "sleep", "wake", "leave", "join", "bss"))
            call = read(draw.choice([*usual, f"{other} {draw.randrange(3)}{after.get(other, '')}"]).split(), LINES)
            slept, before = machine.sleeps(bss), [repr(group) for group in machine.groups]
            answer = machine.step(call)
            is_about = call.name in ("group", "beacon", "gpull", "gdone")
            changed = [at for at, group in enumerate(machine.groups) if repr(group) != before[at]]
            self.assertLessEqual(set(changed), {bss} if is_about else set())
            if is_about:
                answers[bss].append(answer)
                self.keep_counts(machine.groups[bss], settings, answers[bss])
                self.keep_answer(machine.groups[bss], answers[bss], slept)

    def keep_answer(self, group: Group, answers: list[Answer], slept: bool) -> None:
        """Asserts what the latest answer about a BSS says."""
        answer = answers[-1]
        if isinstance(answer, Beacon):
            self.assertEqual(answer.follows, group.may_go(True))
        if isinstance(answer, GroupSend):
            self.assertEqual(answer.more, slept and group.may_go(True))
            if slept:
                self.keep_dtim(answers, answer)

    def keep_counts(self, group: Group, settings: Settings, answers: list[Answer]) -> None:
        """Asserts that the counts add up, and that frames go in order, with rising numbers."""
        self.assertEqual(group.accepted, group.sent + group.held)
        self.assertLessEqual(len(group.queued), settings.buffered)
        sends = [one for one in answers if isinstance(one, GroupSend)]
        self.assertEqual([one.frame for one in sends], list(range(len(sends))))
        numbered = [one for one in answers if isinstance(one, Beacon | GroupSend)]
        told = [(at, one.number) for at, one in enumerate(numbered) if isinstance(one, GroupSend)]
        self.assertTrue(all(at == number for at, number in told))

    def keep_dtim(self, answers: list[Answer], sent: GroupSend) -> None:
        """Asserts that the latest beacon announced the group frame, and that the frame came before it."""
        beacons = [at for at, one in enumerate(answers) if isinstance(one, Beacon)]
        beacon = answers[beacons[-1]]
        self.assertEqual(beacon, Beacon(0, follows=True))
        self.assertLess(answers.index(Number("queued", sent.frame)), beacons[-1])

    def test_calls_about_bsses_leave_the_answers_of_all_others(self) -> None:
        for seed in range(5):
            draw = random.Random(seed)
            head, *lines = traces.made(draw, 150).decode().splitlines()
            others = [line for line in lines[:-1] if not {"group", "beacon", "gpull", "gdone", "bss"} & set(line.split()[:2])]
            mixed = list(itertools.chain.from_iterable((line, draw.choice(GROUP_CALLS)) for line in others))
            self.assertEqual(self.played(head, others), self.played(head, mixed)[::2])

    def played(self, head: str, lines: list[str]) -> list[str]:
        """Returns the answers to the lines of a trace."""
        player = Player()
        player.play(head.encode())
        return [player.play(line.encode()) for line in lines]


@dataclass
class Sleeper:
    """What the calls about one station and their answers say of it: `sent` counts the frames of its service period."""

    classes: frozenset[Class] = frozenset()
    most: int = 0
    asleep: bool = False
    credit: Class | None = None
    sent: int | None = None

    @property
    def polled(self) -> frozenset[Class]:
        """The classes that its polls may name."""
        return frozenset(Class.__members__.values()) - self.classes or self.classes


class Served(unittest.TestCase):
    """The laws of service periods in random histories, which are told by the calls and answers alone."""

    def test_the_laws_hold_in_random_histories(self) -> None:
        for seed in range(60):
            self.keep_laws(traces.made(random.Random(seed), 250).decode().splitlines())
        self.assertGreater(self.sends, LEAST_SENDS)

    def setUp(self) -> None:
        self.sends = 0
        self.known: dict[int, Sleeper] = {}

    def keep_laws(self, lines: list[str]) -> None:
        """Plays a trace, and asserts the laws after each call."""
        self.known, player = {}, Player()
        player.play(lines[0].encode())
        machine = player.machine
        assert machine is not None
        for line in lines[1:-1]:
            call = read(line.split(), LINES, has_callers=True)
            before = self.parts(machine)
            answer = machine.step(call)
            if call.name in ("apsd", "trigger", "eosp"):
                self.assertEqual(before, self.parts(machine))
            if isinstance(answer, Send):
                self.keep_send(answer)
            else:
                self.hear(call, answer)

    def parts(self, machine: Machine) -> list[object]:
        """Returns what calls about service periods leave as it is."""
        stations = [(held.sessions, held.receivers, held.charged, held.turns) for held in machine.stations.values()]
        return [machine.now, repr(stations), repr(machine.queues), repr([one.deficits for one in machine.rotations.values()])]

    def keep_send(self, sent: Send) -> None:
        """Asserts that an exchange to a sleeping station is due to a poll or to a service period."""
        one, access = self.known[sent.station], CLASS_OF[sent.tid]
        is_served = one.sent is not None and access in one.classes
        self.assertTrue(not one.asleep or is_served or one.credit is access)
        self.assertTrue(is_served or not sent.eosp)
        if not is_served:
            self.assertTrue(not one.asleep or len(sent.data) <= 1)
            one.credit = None
            return
        assert one.sent is not None
        self.sends += 1
        one.sent += len(sent.data)
        self.assertTrue(one.most == 0 or one.sent <= one.most)
        is_last = sent.request is None and (not sent.more or one.sent == one.most != 0)
        self.assertEqual(sent.eosp, is_last)
        one.credit = None if one.credit is access else one.credit
        one.sent = None if sent.eosp else one.sent

    def hear(self, call: Call, answer: Answer) -> None:
        """Takes in the answer to another call."""
        if answer == Word("joined"):
            self.known[int(str(call.values[0]))] = Sleeper()
        one = self.known.get(int(str(call.values[0]))) if call.values and str(call.values[0]).isdigit() else None
        if one is None:
            return
        if isinstance(answer, Polled):
            self.assertIn(answer.access, one.polled)
            one.credit = answer.access
        elif isinstance(answer, Triggered):
            self.assertIsNone(one.sent)
            self.assertIn(answer.access, one.classes)
            one.sent = 0
        elif answer == Word("ended"):
            self.assertIsNotNone(one.sent)
            one.sent = None
        elif answer == Word("set") and call.name == "apsd":
            self.assertFalse(one.asleep)
            number, one.most = (int(str(value)) for value in call.values[1:])
            one.classes = frozenset(access for place, access in enumerate(Class.__members__.values()) if number >> place & 1)
        elif answer in (Word("slept"), Word("woken")):
            one.asleep, one.credit, one.sent = answer == Word("slept"), None, None


class Settled(unittest.TestCase):
    def test_standard_values_are_in_their_ranges(self) -> None:
        self.assertTrue(all(getattr(Settings(), name) in values for name, values in RANGES.items()))

    def test_the_table_of_the_page_has_the_same_settings(self) -> None:
        told: dict[str, list[str]] = {}
        for line in paths.read(paths.DOCS / "TRACE.md").splitlines():
            name, *cells = (cell.strip(" `") for cell in line.strip("|").split("|"))
            if name in RANGES:
                told[name] = cells[:2]
        for name, values in RANGES.items():
            self.assertEqual(told[name], [str(getattr(Settings(), name)), f"{values[0]}..{values[-1]}"], name)


class Announced(unittest.TestCase):
    def test_the_bitmap_is_cut_at_both_ends(self) -> None:
        self.assertEqual(tim([]).hex(), "050400010000")
        self.assertEqual(tim([1]).hex(), "050400010002")
        self.assertEqual(tim([31, 33]).hex(), "0506000102" + "008002")
        self.assertEqual(tim([256]).hex(), "05040001" + "20" + "01")


if __name__ == "__main__":
    unittest.main()
