"""Tests of the class Path: its calls and its faults."""
from __future__ import annotations

import copy
import ctypes
import pickle
import unittest
from collections.abc import Callable
from pathlib import Path as File

from wfpath import (
    GREATEST_BODY,
    RANGES,
    AccessClass,
    BlockError,
    CallKind,
    Codel,
    Fate,
    Group,
    Outcome,
    Path,
    Rate,
    Refused,
    Settings,
    WfError,
    errors,
)
from wfpath import _tables as tables
from wfpath._handle import C
from wfpath.raw import Call

BE = AccessClass.BE
BROADCAST = bytes([255] * 6)
# The package has these from the tables, or calls them when a handle is made, closed or loaded.
NOT_CALLED = {"wf_code_name", "wf_kind_name", "wf_fate_name", "wf_setting_name", "wf_settings_standard", "wf_settings_device"}
NOT_CALLED |= {"wf_version", "wf_path_make", "wf_path_free", "wf_cell_make", "wf_cell_free"}


class Calls(unittest.TestCase):
    """A path of two stations."""

    def setUp(self) -> None:
        self.path = Path(stations=2, charge=5000)
        self.addCleanup(self.path.close)

    def block_ack(self, exchange: int, start: int, bits: int) -> bytes:
        """Returns the octets of a compressed BlockAck to an exchange of TID 0."""
        frame = self.path.mpdu(exchange, 0)
        head = bytes((0x94, 0, 0, 0)) + frame[10:16] + frame[4:10] + bytes((4, 0))
        return head + (start << 4).to_bytes(2, "little") + bits.to_bytes(8, "little")

    def test_a_frame_comes_back_with_its_tag_and_body(self) -> None:
        path = self.path
        path.join(0)
        path.set_rate(0, Rate.ht(7, short_guard=True))
        source = b"\x0a\0\0\0\0\7"
        self.assertEqual(path.enqueue(0, b"hello", flow=3, tag=2**64 - 1, source=source), (0, None))
        exchange = path.pull(BE)
        self.assertEqual(str(exchange), "send 0 sta 0 tid 0 air 92 data 0:0")
        self.assertEqual(path.mpdu(0, 0)[26:], b"hello")
        self.assertEqual(path.done_octets(0, self.block_ack(0, 0, 1), 300), (1, 0, 0))
        frame = path.reap(body=True)
        self.assertEqual((frame.tag, frame.body, frame.source), (2**64 - 1, b"hello", source))
        self.assertEqual((frame.fate, frame.attempts), (Fate.ACKED, 1))
        self.assertEqual(path.share(0, BE).charged, 300)
        self.assertIsNone(path.try_pull(BE))
        self.assertIsNone(path.try_reap())

    def test_a_number_is_a_body_of_zeros(self) -> None:
        self.path.join(1)
        self.path.enqueue(1, GREATEST_BODY)
        self.path.pull(BE)
        self.assertEqual(self.path.mpdu(0, 0)[26:], bytes(GREATEST_BODY))
        for length in (0, GREATEST_BODY + 1, 2**40):
            with self.assertRaises(errors.BadLength):
                self.path.enqueue(1, length)

    def test_a_frame_without_octets_has_a_header_and_no_body(self) -> None:
        path = self.path
        path.join(0)
        path.reserve(2)
        self.assertEqual(path.enqueue_bare(0, 1500, flow=3, tag=9), (0, None))
        path.pull(BE)
        with self.assertRaises(errors.NoBody):
            path.mpdu(0, 0)
        self.assertEqual((len(path.header(0, 0)), path.frame_tag(0, 0)), (26, 9))
        path.done_bits(0, 0, 1)
        frame = path.reap(body=True)
        self.assertEqual((frame.tag, frame.length, frame.body, frame.fate), (9, 1500, None, Fate.ACKED))
        for length in (0, GREATEST_BODY + 1):
            with self.assertRaises(errors.BadLength):
                path.enqueue_bare(0, length)
        with self.assertRaises(ValueError):
            path.enqueue_bare(0, 2**16)

    def test_a_burst_stops_at_the_first_that_is_no_call(self) -> None:
        calls = [Call(kind) for kind in (CallKind.JOIN, CallKind.LEAVE, CallKind.ARRIVE, CallKind.TICK)]
        calls[0].struct.window, calls[0].struct.weight, calls[1].struct.station = 64, 1, 1
        made = self.path.burst(calls)
        self.assertEqual([reply.refusal for reply in made.replies], [0, errors.NoStation.code])
        self.assertIsInstance(made.error, errors.BadCall)
        self.assertTrue(self.path.live(0))
        self.assertEqual(self.path.burst([]), ([], None))

    def test_a_refusal_is_an_exception_of_its_class(self) -> None:
        self.path.join(0)
        self.path.enqueue(0, 100)
        self.path.pull(BE)
        with self.assertRaises(errors.Open) as caught:
            self.path.leave(0)
        self.assertEqual((caught.exception.number, caught.exception.line), (1, "refused open 1"))
        self.assertEqual(str(caught.exception), "open: the station has 1 open exchanges")
        with self.assertRaises(errors.BadStation):
            self.path.join(2)
        with self.assertRaises(errors.NoStation):
            self.path.queued(1, 0)
        with self.assertRaises(Refused):
            self.path.tick(10_000_001)
        while self.path.share(0, BE).deficit > -934_000:
            self.path.rx(0, BE, 65535)
        with self.assertRaises(errors.Debt) as debt:
            self.path.rx(0, BE, 65535)
        self.assertEqual(debt.exception.number, self.path.share(0, BE).deficit)

    def test_octets_that_are_no_block_ack_leave_the_exchange_open(self) -> None:
        self.path.join(0)
        self.path.enqueue(0, 100)
        self.path.pull(BE)
        octets = self.block_ack(0, 0, 1)
        with self.assertRaises(errors.BlockLength):
            self.path.done_octets(0, octets[:-1])
        with self.assertRaises(BlockError):
            self.path.done_octets(0, bytes(28))
        self.assertEqual(self.path.open_count, 1)

    def test_an_exchange_ends_by_outcomes(self) -> None:
        path = self.path
        path.join(0)
        for tag in range(4):
            path.enqueue(0, 100, tag=tag)
        self.assertEqual(path.pull(BE).numbers, [0, 1, 2, 3])
        outcomes = (Outcome.ACKED, Outcome.RETRY, Outcome.UNSENT, Outcome.GAVE_UP)
        for given, kind in ((outcomes[:3], errors.BadIndex), ((0, 1, 2, 4), errors.BadOutcome)):
            with self.assertRaises(kind):
                path.done_each(0, given)
        self.assertEqual(path.done_each(0, outcomes, 300), (1, 2, 1))
        again = path.pull(BE)
        self.assertEqual((again.number, again.ids), (1, [1, 2]))
        path.done_each(1, [Outcome.ACKED] * 2)
        tries = {frame.tag: (frame.fate, frame.attempts) for frame in path.reap_all()}
        acked = {0: (Fate.ACKED, 1), 1: (Fate.ACKED, 2), 2: (Fate.ACKED, 1)}
        self.assertEqual(tries, {**acked, 3: (Fate.RETRIES, 1)})

    def test_a_batch_ends_by_outcomes(self) -> None:
        path = self.path
        path.join_offload(0, exponent=2, weight=4)
        for tag in range(4):
            path.enqueue(0, 100, tag=tag)
        batch = path.pull(BE)
        self.assertEqual((batch.batch, batch.ids, batch.numbers), (True, [0, 1, 2, 3], [0] * 4))
        self.assertEqual(str(batch), f"send 0 sta 0 tid 0 air {batch.air} batch 0 1 2 3")
        outcomes = (Outcome.RETRY, Outcome.ACKED, Outcome.UNSENT, Outcome.GAVE_UP)
        self.assertEqual(path.done_each(0, outcomes), (1, 1, 2))
        again = path.pull(BE)
        self.assertEqual((again.request, again.ids), (False, [2]))
        self.assertEqual(path.done_each(1, [Outcome.RETRY]), (0, 0, 1))
        fates = {frame.tag: (frame.fate, frame.attempts) for frame in path.reap_all()}
        self.assertEqual(fates, {tag: (Fate.ACKED if tag == 1 else Fate.RETRIES, 1) for tag in range(4)})
        for call in (lambda: path.join_offload(1, 4), lambda: path.join_offload(1, weight=17)):
            with self.assertRaises((errors.BadExponent, errors.BadWeight)):
                call()
        with self.assertRaises(errors.Live):
            path.join_offload(0)

    def test_frames_without_an_agreement_go_one_at_a_time(self) -> None:
        path = self.path
        path.plain(0, start=4095, exponent=2, weight=4)
        for tag in range(3):
            path.enqueue(0, 100, tag=tag)
        first = path.pull(BE)
        self.assertEqual((first.plain, first.ids, first.numbers), (True, [0], [4095]))
        self.assertEqual(str(first), f"send 0 sta 0 tid 0 air {first.air} plain 0:4095")
        self.assertEqual((path.flying(0, 0), path.waiting(0, 0), path.drained(0, 0)), (1, 0, False))
        self.assertFalse(path.can_pull(BE))
        self.assertEqual(path.done_ack(0, False), (0, 1, 0))
        self.assertEqual((path.flying(0, 0), path.waiting(0, 0), path.drained(0, 0)), (0, 1, False))
        self.assertEqual(path.pull(BE).numbers, [4095])
        self.assertEqual(path.done_ack(1, True, 300), (1, 0, 0))
        self.assertTrue(path.drained(0, 0))
        self.assertEqual(path.pull(BE).numbers, [0])
        path.give_up(2, 0)
        with self.assertRaises(errors.Marked):
            path.done_ack(2, True)
        self.assertEqual(path.done_lost(2), (0, 0, 1))
        fates = {frame.tag: (frame.fate, frame.attempts) for frame in path.reap_all()}
        self.assertEqual(fates, {0: (Fate.ACKED, 2), 1: (Fate.RETRIES, 1)})
        for call in (lambda: path.plain(1, 4096), lambda: path.plain(1, 0, 4), lambda: path.plain(1, weight=0)):
            with self.assertRaises((errors.BadStart, errors.BadExponent, errors.BadWeight)):
                call()
        with self.assertRaises(errors.Live):
            path.plain(0)

    def test_an_agreement_begins_when_its_tid_is_drained(self) -> None:
        path = self.path
        path.plain(0)
        for tag in range(4):
            path.enqueue(0, 100, tag=tag)
        path.pull(BE)
        self.assertEqual(path.hold(0, 0), 1)
        with self.assertRaises(errors.Held):
            path.hold(0, 0)
        with self.assertRaises(errors.Open) as opened:
            path.begin(0, 0, 64)
        path.done_ack(0, False)
        with self.assertRaises(errors.Waits) as waits:
            path.begin(0, 0, 64)
        self.assertEqual((opened.exception.number, waits.exception.number), (1, 1))
        path.done_ack(path.pull(BE).number, True)
        self.assertTrue(path.drained(0, 0) and not path.can_pull(BE))
        path.begin(0, 0, 64)
        with self.assertRaises(errors.Agreed):
            path.hold(0, 0)
        aggregate = path.pull(BE)
        self.assertEqual((aggregate.plain, aggregate.ids, aggregate.numbers), (False, [1, 2, 3], [1, 2, 3]))
        with self.assertRaises(errors.BadIndex):
            path.done_ack(aggregate.number, True)

    def test_an_agreement_ends_and_its_waiting_frames_are_dropped(self) -> None:
        path = self.path
        path.join(0, start=7)
        for tag in range(4):
            path.enqueue(0, 100, tag=tag)
        path.pull(BE, frames=3)
        with self.assertRaises(errors.Open):
            path.cease(0, 0)
        self.assertEqual(path.done_bits(0, 7, 0b010), (1, 2, 0))
        self.assertEqual(path.cease(0, 0), 2)
        with self.assertRaises(errors.NotAgreed):
            path.cease(0, 0)
        self.assertFalse(path.can_pull(BE))
        path.free(0, 0)
        for call in (lambda: path.free(0, 0), lambda: path.begin(0, 0, 64)):
            with self.assertRaises(errors.NotHeld):
                call()
        last = path.pull(BE)
        self.assertEqual((last.plain, last.ids, last.numbers), (True, [3], [10]))
        fates = {frame.tag: frame.fate for frame in path.reap_all()}
        self.assertEqual(fates, {0: Fate.ENDED, 1: Fate.ACKED, 2: Fate.ENDED})
        self.assertEqual((path.tally().ended, path.tally().held), (2, 1))
        path.join_offload(1)
        with self.assertRaises(errors.Offloaded):
            path.hold(1, 0)

    def test_a_weight_is_set(self) -> None:
        path = self.path
        path.join(0, weight=4)
        quantum = path.settings.quantum
        self.assertEqual(path.share(0, BE).deficit, 4 * quantum)
        path.set_weight(0, 1)
        self.assertEqual(path.share(0, BE).deficit, quantum)
        path.set_weight(0, 16)
        self.assertEqual(path.share(0, BE).deficit, quantum)
        for call in (lambda: path.set_weight(0, 17), lambda: path.set_weight(1, 1)):
            with self.assertRaises((errors.BadWeight, errors.NoStation)):
                call()

    def test_a_mark_comes_before_the_bits(self) -> None:
        path = self.path
        path.join(0)
        for _ in range(2):
            path.enqueue(0, 100)
        path.pull(BE)
        path.unsent(0, 0)
        path.give_up(0, 1)
        for call in (lambda: path.unsent(0, 1), lambda: path.cancel(0), lambda: path.done_each(0, (0, 0))):
            with self.assertRaises(errors.Marked):
                call()
        self.assertEqual(path.done_bits(0, 0, 0b01), (0, 1, 1))
        self.assertEqual(path.pull(BE).ids, [0])
        path.unsent(1, 0)
        with self.assertRaises(errors.NoAnswer):
            path.done_bits(1, 0, 0b01)
        self.assertEqual(path.done_lost(1), (0, 1, 0))

    def test_an_exchange_is_cancelled_and_its_tid_flushed(self) -> None:
        path = self.path
        path.join(0)
        for _ in range(3):
            path.enqueue(0, 100)
        path.pull(BE, frames=2)
        self.assertEqual(path.flush(0, 0), 1)
        self.assertEqual(path.cancel(0), (0, 2, 0))
        self.assertEqual((path.share(0, BE).charged, path.waiting(0, 0)), (1, 2))
        self.assertEqual((path.flush(0, 0), path.waiting(0, 0)), (2, 0))
        self.assertEqual([(frame.fate, frame.attempts) for frame in path.reap_all()], [(Fate.FLUSHED, 0)] * 3)
        self.assertEqual((path.tally().flushed, path.tally().held), (3, 0))
        with self.assertRaises(errors.BadTid):
            path.flush(0, 8)

    def test_numbers_that_do_not_fit_are_errors(self) -> None:
        self.path.join(0)
        for call in (
            lambda: self.path.enqueue(65536, 1),
            lambda: self.path.enqueue(-1, 1),
            lambda: self.path.enqueue(0, 1, tid=256),
            lambda: self.path.enqueue(0, 1, flow=2**32),
            lambda: self.path.enqueue(0, 1, tag=-1),
            lambda: self.path.pull(4),
            lambda: self.path.tick(2**32),
            lambda: self.path.done_lost(2**64),
            lambda: self.path.set_base(b"12345"),
            lambda: self.path.enqueue(0, 1, source=b"1"),
            lambda: self.path.done_bits(0, 0, bytes(33)),
            lambda: self.path.done_each(0, [256]),
            lambda: self.path.unsent(0, 65536),
            lambda: self.path.flush(0, 256),
            lambda: self.path.join_offload(0, 256),
            lambda: self.path.set_weight(0, 256),
            lambda: self.path.plain(0, 65536),
            lambda: self.path.hold(0, 256),
            lambda: self.path.begin(0, 0, 65536),
            lambda: self.path.free(65536, 0),
            lambda: self.path.cease(0, -1),
            lambda: self.path.done_ack(-1, True),
            lambda: self.path.set_aid(0, 65536),
            lambda: self.path.set_bss(65536, 0),
            lambda: self.path.set_bss(0, 256),
            lambda: self.path.set_bss_address(256, bytes(6)),
            lambda: self.path.set_bss_address(0, b"12345"),
            lambda: self.path.tim(bss=-1),
            lambda: self.path.tim(256),
            lambda: self.path.group(BROADCAST, 1, 0, 256),
            lambda: self.path.beacon(256),
            lambda: self.path.group_pull(-1),
            lambda: self.path.group_header(bytes(6), 256),
            lambda: self.path.group_done(256),
            lambda: self.path.group_counts(256),
            lambda: self.path.group(b"12345", 1),
            lambda: self.path.group(BROADCAST, 65536),
            lambda: self.path.group(BROADCAST, 1, -1),
            lambda: self.path.group_header(b"1"),
            lambda: self.path.apsd(0, 256),
            lambda: self.path.apsd(0, 0, 256),
            lambda: self.path.trigger(65536),
            lambda: self.path.end_service(-1),
            lambda: self.path.octets(0, 256),
            lambda: self.path.codel(2**32),
            lambda: self.path.pending(0, 4),
        ):
            with self.assertRaises(ValueError):
                call()
        with self.assertRaises(OverflowError):
            self.path.done_bits(0, 0, 2**256)

    def test_addresses(self) -> None:
        self.path.set_base(b"\0\0\x5e\0\x53\1")
        self.path.set_address(1, b"\0\0\x5e\0\x53\2")
        self.assertEqual((self.path.base, self.path.address(1)), (b"\0\0\x5e\0\x53\1", b"\0\0\x5e\0\x53\2"))
        self.assertEqual(self.path.address(0), b"\2\0\0\1\0\0")
        with self.assertRaises(errors.BadAddress):
            self.path.set_base(b"\1\0\0\0\0\0")

    def test_stations_of_two_bsses(self) -> None:
        with Path(stations=2, bsses=2) as path:
            bss = b"\0\0\x5e\0\x53\3"
            path.set_bss_address(1, bss)
            path.set_aid(1, 9)
            for station in range(2):
                path.join(station)
                path.set_bss(station, station)
                path.enqueue(station, 100)
            heads = [path.header(path.pull(BE).number, 0) for _ in range(2)]
            self.assertEqual([head[10:16] for head in heads], [path.base, bss])
            for station in range(2):
                path.sleep(station)
                path.enqueue(station, 100)
            # The bits of the AIDs 1 and 9, from the first octet that is not 0 on.
            self.assertEqual([path.tim()[5:], path.tim(bss=1)[4:]], [b"\2", b"\0\0\2"])
            self.assertEqual(path.tim(bss=2), b"\5\4\0\1\0\0")
            self.assertEqual(path.tim(2, 3, True, bss=1), b"\5\5\2\3\1\0\2")
            for aid in (0, 2008):
                with self.assertRaises(errors.BadAid):
                    path.set_aid(1, aid)

    def test_what_is_refused_of_a_bss(self) -> None:
        path = self.path
        path.join(0)
        with self.assertRaises(errors.BadAddress):
            path.set_bss_address(0, b"\1\0\0\0\0\0")
        calls: list[Callable[[], object]] = [
            lambda: path.set_bss_address(1, b"\1\0\0\0\0\0"),
            lambda: path.set_bss(0, 1),
            lambda: path.group(BROADCAST, 100, bss=1),
            lambda: path.beacon(1),
            lambda: path.group_pull(1),
            lambda: path.group_header(bytes(6), 1),
            lambda: path.group_done(1),
            lambda: path.group_counts(1),
        ]
        for call in calls:
            with self.assertRaises(errors.BadBss):
                call()
        with self.assertRaises(errors.NoStation):
            path.set_bss(1, 0)
        path.sleep(0)
        with self.assertRaises(errors.Asleep):
            path.set_bss(0, 0)

    def test_each_bss_has_its_own_group_frames(self) -> None:
        with Path(stations=2, bsses=2, buffered=2, period=2) as path:
            for station in range(2):
                path.join(station)
                path.set_bss(station, station)
            path.sleep(1)
            bss = b"\0\0\x5e\0\x53\3"
            path.set_bss_address(1, bss)
            self.assertEqual([path.group(BROADCAST, 100, bss=one) for one in (0, 1, 1)], [0, 0, 1])
            # No station of BSS 0 sleeps, so its group frame goes at once.
            self.assertEqual(str(path.group_pull()), "gsend 0 0 air 196")
            with self.assertRaises(errors.Idle):
                path.group_pull(1)
            self.assertEqual([str(path.beacon(1)) for _ in range(2)], ["beacon 1 0", "beacon 0 1"])
            self.assertEqual(str(path.group_pull(1)), "gsend 0 2 air 196 more")
            self.assertEqual([path.group_header(bss, one)[10:16] for one in range(2)], [path.base, bss])
            self.assertEqual(path.group_done(1), Group(0, 100, 0, BROADCAST))
            self.assertEqual([path.group_counts(one)[:4] for one in range(2)], [(1, 0, 0, 1), (2, 1, 1, 0)])

    def test_group_frames_wait_for_a_dtim_beacon(self) -> None:
        with Path(stations=1, buffered=2, period=2) as path:
            path.join(0)
            path.sleep(0)
            self.assertEqual([path.group(BROADCAST, 300, tag=7), path.group(b"\1\0\x5e\0\0\1", 100)], [0, 1])
            with self.assertRaises(errors.Buffered) as full:
                path.group(BROADCAST, 1)
            self.assertEqual(full.exception.line, "refused buffered 2")
            self.assertEqual([str(path.beacon()) for _ in range(2)], ["beacon 1 0", "beacon 0 1"])
            self.assertEqual(path.tim(0, 2, True), b"\5\4\0\2\1\0")
            sent = path.group_pull()
            self.assertEqual(str(sent), "gsend 0 2 air 464 more")
            self.assertEqual(sent.frame, Group(0, 300, 7, BROADCAST))
            source = b"\0\0\x5e\0\x53\5"
            wanted = b"\x08\x22\0\0" + BROADCAST + path.base + source + b"\x20\0"
            self.assertEqual(path.group_header(source), wanted)
            with self.assertRaises(errors.Flying):
                path.group_pull()
            self.assertEqual(path.group_counts(), (2, 0, 1, 1, 0))
            self.assertEqual(path.group_done(), sent.frame)
            self.assertEqual(path.group_counts().air, 464)
            path.beacon()
            with self.assertRaises(errors.Idle):
                path.group_pull()
            for call in (path.group_done, lambda: path.group_header(source)):
                with self.assertRaises(errors.Nothing):
                    call()
            with self.assertRaises(errors.BadAddress):
                path.group(source, 100)
            with self.assertRaises(errors.BadLength):
                path.group(BROADCAST, 0)
            path.wake(0)
            self.assertEqual(path.group_pull().frame, Group(1, 100, 0, b"\1\0\x5e\0\0\1"))

    def test_a_service_period_has_the_frames_of_its_classes(self) -> None:
        path, vo, vi = self.path, AccessClass.VO, AccessClass.VI
        path.join(0)
        path.apsd(0, 1 << vi | 1 << vo, 2)
        path.sleep(0)
        for tid in (6, 6, 6, 4):
            path.enqueue(0, 100, tid=tid)
        self.assertEqual((path.tim(), path.in_service(0)), (b"\5\4\0\1\0\0", False))
        with self.assertRaises(errors.Nothing):
            path.poll(0)
        self.assertEqual((path.trigger(0), path.in_service(0)), (vo, True))
        self.assertEqual(str(path.pull(vo)), "send 0 sta 0 tid 6 air 420 data 0:0 1:1 more eosp")
        # The TID and the EOSP bit share an octet, which only the last frame of the service period has with both.
        self.assertEqual([path.header(0, index)[24] for index in range(2)], [6, 6 + 16])
        self.assertFalse(path.in_service(0) or path.in_service(1) or path.in_service(70_000))
        self.assertIsNone(path.try_pull(vi))
        path.done_lost(0)
        self.assertEqual(path.trigger(0), vo)
        sent = path.pull(vi)
        self.assertEqual((sent.ids, sent.more, sent.eosp), ([3], True, False))
        self.assertTrue(path.in_service(0))

    def test_a_service_period_ends_without_frames(self) -> None:
        path = self.path
        path.join(0)
        with self.assertRaises(errors.BadClasses):
            path.apsd(0, 16)
        path.apsd(0, 15)
        with self.assertRaises(errors.Awake):
            path.trigger(0)
        path.sleep(0)
        with self.assertRaises(errors.Asleep):
            path.apsd(0, 15)
        with self.assertRaises(errors.Nothing):
            path.trigger(0)
        path.enqueue(0, 100)
        self.assertEqual(path.trigger(0), BE)
        with self.assertRaises(errors.Polled):
            path.trigger(0)
        path.flush(0, 0)
        path.end_service(0)
        self.assertFalse(path.in_service(0))
        with self.assertRaises(errors.Nothing):
            path.end_service(0)

    def test_the_readers(self) -> None:
        path = self.path
        path.join(0)
        path.sleep(0)
        path.enqueue(0, 100, tid=6)
        self.assertEqual(path.queued(0, 6), 1)
        self.assertEqual(path.waiting(0, 6), 0)
        self.assertEqual(path.tim()[0], 5)
        self.assertEqual(path.poll(0), AccessClass.VO)
        self.assertTrue(path.can_pull(AccessClass.VO))
        self.assertTrue(path.live(0) and not path.live(1) and not path.live(70000))
        self.assertIn(path.listed(0, AccessClass.VO), (1, 2))
        path.advance(5_000_000_000)
        self.assertEqual((path.now, path.exchanges, path.has_small_counts), (5_000_000_000, 0, True))
        self.assertEqual(path.tally(), (1, 0, 0, 0, 0, 0, 0, 0))
        self.assertEqual(path.leave(0), 1)
        self.assertEqual([frame.fate.word for frame in path.reap_all()], ["left"])


    def test_the_queues(self) -> None:
        path = self.path
        path.join(0)
        for length in range(1000, 1008):
            path.enqueue(0, length, tid=5, flow=1024 + 3)
        self.assertEqual((path.octets(0, 5), path.octets(0, 4)), (sum(range(1000, 1008)), 0))
        airs = []
        # The target and the interval at a rate below 12 Mbit/s: CoDel drops the second frame.
        for wait in (50_000, 300_000):
            path.tick(wait)
            airs.append(path.pull(AccessClass.VI, frames=1).air)
        self.assertEqual(path.octets(0, 5), sum(range(1003, 1008)))
        self.assertEqual(path.codel(3), Codel(path.octets(0, 5), 650_000, 1, True, 1))
        self.assertEqual(path.codel(1024 + 15), Codel(0, 0, 0, False, 0))
        self.assertEqual((path.pending(0, AccessClass.VI), path.pending(0, BE)), (sum(airs), 0))
        with self.assertRaises(errors.BadIndex):
            path.codel(1024 + 16)
        with self.assertRaises(errors.BadTid):
            path.octets(0, 8)
        with self.assertRaises(errors.NoStation):
            path.pending(1, BE)


class Handles(unittest.TestCase):
    """Making and closing."""

    def test_a_closed_path_refuses_every_call(self) -> None:
        with Path() as path:
            path.join(0)
        for call in (path.tally, path.try_reap, lambda: path.pull(1), lambda: path.join(1), lambda: path.now):
            with self.assertRaisesRegex(ValueError, "the path is closed"):
                call()
        path.close()

    def test_settings(self) -> None:
        standard, struct = Settings(), tables.SettingsStruct()
        C.wf_settings_standard(struct)
        for name in RANGES:
            self.assertEqual(getattr(standard, name), getattr(struct, name), name)
        C.wf_settings_device(struct)
        for name in tables.RANGES:
            self.assertEqual(getattr(Settings.device(), name), getattr(struct, name), name)
        for place, (name, (least, most)) in enumerate(RANGES.items(), 1):
            for value in (least - 1, most + 1, 2**40):
                with self.assertRaisesRegex(errors.BadSetting, name) as caught:
                    Path(Settings(**{name: value}))
                self.assertEqual((caught.exception.place, caught.exception.code), (place, 100 + place))
        with self.assertRaises(TypeError):
            Path(color=1)
        with Path(Settings(stations=3), flows=8) as path:
            self.assertEqual((path.settings.stations, path.settings.flows), (3, 8))

    def test_a_path_is_not_copied(self) -> None:
        with Path() as path:
            for way in (copy.copy, copy.deepcopy, pickle.dumps):
                with self.assertRaisesRegex(TypeError, "a path cannot be copied"):
                    way(path)

    def test_each_function_of_the_header_is_called(self) -> None:
        modules = File(tables.__file__).parent.glob("[!_]*.py")
        text = "".join(module.read_text(encoding="utf-8") for module in modules)
        missing = [name for name in tables.FUNCTIONS if name not in text and name not in NOT_CALLED]
        self.assertEqual(missing, [], "a class of wfpath has no method for these functions of include/wf.h")

    def test_words(self) -> None:
        """The words of the package are those of the library."""
        name = ctypes.create_string_buffer(16)
        for code, kind in errors.ERRORS.items():
            C.wf_code_name(code, name)
            self.assertEqual((kind.code, kind.word), (code, name.value.decode()))
            self.assertTrue(issubclass(kind, WfError) and kind.about)
        for number in tables.Kind:
            C.wf_kind_name(number, name)
            self.assertEqual(number.word, name.value.decode())
        for fate in Fate:
            C.wf_fate_name(fate, name)
            self.assertEqual(fate.word, name.value.decode())
        for place, setting in enumerate(RANGES, 1):
            C.wf_setting_name(place, name)
            self.assertEqual(setting, name.value.decode())


if __name__ == "__main__":
    unittest.main()
