"""Tests of the class Cell: its calls and its faults."""
from __future__ import annotations

import unittest

from wfpath import AccessClass, CallKind, Cell, Rate, errors


class Calls(unittest.TestCase):
    """A cell of two stations, with a short history."""

    def setUp(self) -> None:
        self.cell = Cell(stations=2, calls=12, charge=5000)
        self.addCleanup(self.cell.close)

    def test_an_exchange(self) -> None:
        cell = self.cell
        cell.join(1, window=128)
        cell.set_rate(1, Rate.he(11, streams=2, guard=1600))
        cell.caller = 7
        cell.enqueue(1, b"one", flow=5)
        cell.enqueue(1, 200)
        exchange = cell.pull(AccessClass.BE)
        self.assertEqual((exchange.ids, exchange.numbers), ([0, 1], [0, 1]))
        self.assertEqual(cell.arrive(0, 1), [])
        self.assertEqual(cell.arrive(0, 0), [0, 1])
        self.assertEqual(str(cell.answer(0)), "ba 0 " + "0" * 63 + "3")
        self.assertEqual(cell.done(0, True, 1234), (2, 0, 0))
        self.assertEqual([frame.body for frame in cell.reap_all(body=True)], [b"one", bytes(200)])
        self.assertEqual((len(cell), cell.room), (12, 0))
        self.assertEqual(
            list(cell.trace())[1:-1],
            ["join 1 128 0 3 1", "rate 1 he 11 80 1600 2", "@7 enq 1 0 5 3", "@7 enq 1 0 0 200"]
            + ["@7 pull be", "@7 arrive 0 1", "@7 arrive 0 0", "@7 answer 0", "@7 done 0 heard air 1234"]
            + ["@7 reap", "@7 reap", "@7 reap"],
        )

    def test_a_full_history_refuses_each_call(self) -> None:
        for _ in range(12):
            self.cell.tick(1)
        cell = self.cell
        for call in (lambda: cell.tick(1), lambda: cell.enqueue(0, 1), cell.reap, lambda: cell.pull(1)):
            with self.assertRaises(errors.HistoryFull):
                call()
        self.assertEqual((len(self.cell), self.cell.room, bool(self.cell)), (12, 0, True))
        self.assertEqual(self.cell.entry(11).kind, CallKind.TICK)
        with self.assertRaises(errors.HistoryFull):
            self.cell.reap_all()
        with self.assertRaises(errors.BadIndex):
            self.cell.entry(12)

    def test_a_refused_call_is_an_entry(self) -> None:
        with self.assertRaises(errors.NoExchange):
            self.cell.done(3, False)
        with self.assertRaises(errors.Idle):
            self.cell.pull(AccessClass.VO)
        self.assertIsNone(self.cell.try_pull(AccessClass.VO))
        entries = [str(self.cell.entry(place)) for place in range(3)]
        self.assertEqual(entries, ["done 3 lost", "pull vo", "pull vo"])

    def test_marks_and_a_flush(self) -> None:
        cell = self.cell
        cell.join(0)
        for _ in range(3):
            cell.enqueue(0, 100)
        cell.pull(AccessClass.BE, frames=2)
        cell.unsent(0, 0)
        cell.give_up(0, 1)
        with self.assertRaises(errors.Marked):
            cell.arrive(0, 0)
        self.assertEqual(cell.done(0, False), (0, 1, 1))
        self.assertEqual(cell.flush(0, 0), 2)
        self.assertEqual([frame.fate.word for frame in (cell.reap(), cell.reap())], ["retries", "flushed"])
        lines = [str(cell.entry(place)) for place in (5, 6, 9)]
        self.assertEqual(lines, ["unsent 0 0", "giveup 0 1", "flush 0 0"])

    def test_a_batch_and_a_weight(self) -> None:
        cell = self.cell
        cell.join_offload(0)
        for _ in range(2):
            cell.enqueue(0, 100)
        self.assertEqual(cell.pull(AccessClass.BE).batch, True)
        self.assertEqual(cell.arrive(0, 1), [])
        with self.assertRaises(errors.Nothing):
            cell.answer(0)
        self.assertEqual(cell.done(0, True), (1, 0, 1))
        cell.set_weight(0, 2)
        self.assertEqual([frame.fate.word for frame in (cell.reap(), cell.reap())], ["retries", "acked"])
        self.assertEqual([str(cell.entry(place)) for place in (0, 7)], ["offload 0 3 1", "weight 0 2"])

    def test_an_agreement_that_begins_and_ends(self) -> None:
        with Cell(stations=1, calls=40) as cell:
            cell.plain(0, start=5)
            for _ in range(4):
                cell.enqueue(0, 100)
            self.assertEqual(str(cell.pull(AccessClass.BE))[-10:], " plain 0:5")
            self.assertEqual(cell.hold(0, 0), 6)
            self.assertEqual(cell.arrive(0, 0), [0])
            answer = cell.answer(0)
            self.assertEqual((answer.ack, str(answer)), (True, "ack"))
            with self.assertRaises(errors.Open):
                cell.begin(0, 0, 8)
            cell.done(0, True)
            cell.begin(0, 0, 8)
            self.assertEqual(cell.pull(AccessClass.BE).ids, [1, 2, 3])
            self.assertEqual(cell.arrive(1, 1), [])
            self.assertEqual(str(cell.answer(1)), "ba 6 0000000000000002")
            cell.done(1, True)
            ceased = cell.cease(0, 0)
            self.assertEqual((ceased, str(ceased)), ((2, [2]), "ceased 2 2"))
            cell.free(0, 0)
            self.assertEqual([frame.fate.word for frame in cell.reap_all()], ["acked", "acked", "ended", "ended"])
            lines = [line for line in cell.trace() if line.split()[0] in ("plain", "hold", "begin", "cease", "free")]
            self.assertEqual(lines, ["plain 0 5 3 1", "hold 0 0", "begin 0 0 8", "begin 0 0 8", "cease 0 0", "free 0 0"])

    def test_group_frames(self) -> None:
        with Cell(stations=1, buffered=1, calls=40) as cell:
            self.assertEqual(cell.group(1000), 0)
            with self.assertRaises(errors.Buffered):
                cell.group(1)
            self.assertEqual(cell.beacon(), (0, True))
            self.assertEqual(str(cell.group_pull()), "gsend 0 1 air 1396")
            self.assertEqual(cell.group_done(), 0)
            for length in (0, 2305):
                with self.assertRaises(errors.BadCall):
                    cell.group(length)
            self.assertEqual(list(cell.trace())[1:-1], ["group 1000", "group 1", "beacon", "gpull", "gdone"])

    def test_several_bsses(self) -> None:
        with Cell(stations=1, bsses=2, buffered=1, calls=40) as cell:
            cell.join(0)
            cell.set_bss(0, 1)
            self.assertEqual([cell.group(1000), cell.group(1000, 1)], [0, 0])
            cell.sleep(0)
            self.assertEqual(str(cell.group_pull()), "gsend 0 0 air 1396")
            with self.assertRaises(errors.Idle):
                cell.group_pull(1)
            self.assertEqual(cell.beacon(1), (0, True))
            self.assertEqual(str(cell.group_pull(1)), "gsend 0 1 air 1396")
            self.assertEqual([cell.group_done(), cell.group_done(1)], [0, 0])
            with self.assertRaises(errors.BadBss):
                cell.beacon(2)
            with self.assertRaises(errors.Asleep):
                cell.set_bss(0, 0)
            lines = ["bss 0 1", "group 1000", "group 1000 1", "sleep 0", "gpull", "gpull 1", "beacon 1", "gpull 1"]
            lines += ["gdone", "gdone 1", "beacon 2", "bss 0 0"]
            self.assertEqual(list(cell.trace())[2:-1], lines)

    def test_service_periods(self) -> None:
        with Cell(stations=1, calls=40) as cell:
            cell.join(0)
            cell.apsd(0, 1 << AccessClass.VO, 2)
            cell.sleep(0)
            cell.enqueue(0, 100, tid=6)
            self.assertEqual(cell.trigger(0), AccessClass.VO)
            self.assertEqual(str(cell.pull(AccessClass.VO)), "send 0 sta 0 tid 6 air 256 data 0:0 eosp")
            with self.assertRaises(errors.Nothing):
                cell.end_service(0)
            lines = ["apsd 0 8 2", "sleep 0", "enq 0 6 0 100", "trigger 0", "pull vo", "eosp 0"]
            self.assertEqual(list(cell.trace())[2:-1], lines)

    def test_numbers_that_do_not_fit_are_errors(self) -> None:
        cell = self.cell
        for call in (lambda: cell.arrive(0, 65536), lambda: cell.done(-1, True), lambda: cell.rx(0, 4, 1)):
            with self.assertRaises(ValueError):
                call()
        for call in (lambda: cell.set_bss(0, 256), lambda: cell.group(1, 256), lambda: cell.beacon(-1)):
            with self.assertRaises(ValueError):
                call()
        for call in (lambda: cell.plain(0, 65536), lambda: cell.hold(0, 256), lambda: cell.begin(0, 0, 65536)):
            with self.assertRaises(ValueError):
                call()
        with self.assertRaises(ValueError):
            self.cell.caller = 65536

    def test_a_closed_cell_refuses_every_call(self) -> None:
        self.cell.close()
        with self.assertRaisesRegex(ValueError, "the cell is closed"):
            len(self.cell)


if __name__ == "__main__":
    unittest.main()
