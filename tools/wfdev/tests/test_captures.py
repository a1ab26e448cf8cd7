"""Tests of the model in checks/captures."""
import unittest

from wfdev.build import texts
from wfdev.checks.captures import air, model, readers


class Listing(unittest.TestCase):
    def test_five_packets(self) -> None:
        self.assertEqual(
            model.listing(model.capture(model.FIVE)),
            [
                "0 0 len 40 data tid 7 seq 100",
                "0 1976 len 28 ba tid 0 start 100",
                "2 100 len 20 bar tid 5 start 4095",
                "2 148 len 52 ba tid 3 start 100",
                "3 0 len 10 other",
                "packets 5",
            ],
        )

    def test_the_most_octets_are_those_of_the_help(self) -> None:
        self.assertIn(f"within the first {model.MOST} octets", texts.text("FAULTS"))

    def test_faults_of_the_header(self) -> None:
        whole = model.header()
        cases = {
            whole[:23]: "short",
            b"\0" + whole[1:]: "magic",
            whole[:4] + b"\3" + whole[5:]: "version",
            whole[:20] + b"\1" + whole[21:]: "link",
        }
        for octets, fault in cases.items():
            self.assertEqual(model.listing(octets), [f"fault packet 0 {fault}"])

    def test_faults_of_packets(self) -> None:
        whole = model.capture(model.FIVE[:1])
        self.assertEqual(model.listing(whole[:-1]), ["fault packet 1 short"])
        self.assertEqual(model.listing(whole + bytes(15), 7)[-1], "fault packet 8 short")
        long = model.Packet(0, 0, bytes(model.LONGEST + 1)).packed("<")
        self.assertEqual(model.listing(model.header() + long), ["fault packet 1 long"])

    def test_a_trace_goes_on_the_air(self) -> None:
        trace = "cell\njoin 0 64 7 3\nenq 0 0 5 2\ntick 1000001\npull be\nend\n"
        answers = "joined\naccepted 0\nnow 1000001\nsend 0 sta 0 tid 0 air 100 data 0:7\n"
        (packet,) = air.on_air(trace, answers)
        self.assertEqual((packet.seconds, packet.fraction, packet.octets[-2:]), (1, 1, b"\5\6"))
        self.assertEqual(model.name_of(packet.octets), "data tid 0 seq 7")

    def test_a_frame_without_an_agreement_and_its_ack(self) -> None:
        trace = "cell\nplain 0 7 3\nenq 0 0 5 2\npull be\narrive 0 0\nanswer 0\nend\n"
        answers = "joined\naccepted 0\nsend 0 sta 0 tid 0 air 124 plain 0:7\nreleased 0\nack\n"
        frame, ack = air.on_air(trace, answers)
        self.assertEqual((frame.octets[2], ack.octets), (44, model.ACK))
        self.assertEqual(readers.numbers_of(frame.octets), [0, 7, None, None, None])
        self.assertEqual(readers.numbers_of(ack.octets), [None] * 5)
        self.assertEqual(readers.numbers_of(model.REQUEST), [None, None, 5, 4095, 0])

    def test_a_beacon_and_a_group_frame(self) -> None:
        trace = "cell stations=30 period=2 buffered=2\njoin 20 64 0 3\nsleep 20\nenq 20 0 0 9\ngroup 2\nbeacon\ntick 7\nbeacon\ngpull\nend\n"
        answers = "joined\nslept\naccepted 0\nqueued 0\nbeacon 1 0\nnow 7\nbeacon 0 1\ngsend 0 2 air 64\n"
        first, second, group = air.on_air(trace, answers)
        self.assertEqual(model.name_of(first.octets), "beacon seq 0 count 1 period 2 group 0")
        self.assertEqual(model.name_of(second.octets), "beacon seq 1 count 0 period 2 group 1")
        self.assertEqual(second.beacon, model.Beacon(0, 2, 1, [21]))
        self.assertEqual((second.octets[24:32], second.octets[48:]), (b"\7" + bytes(7), b"\5\4\0\2\3\x20"))
        self.assertEqual(model.name_of(group.octets), "group seq 2")
        self.assertEqual((group.octets[:4], group.octets[-2:]), (b"\x08\2\0\0", b"\0\1"))
        self.assertEqual(readers.numbers_of(group.octets), [None, 2, None, None, None])

    def test_each_bss_has_its_own_numbers_and_stations(self) -> None:
        trace = "cell bsses=2 buffered=1\njoin 0 64 0 3\nbss 0 1\nsleep 0\nenq 0 0 0 9\nbeacon\nbeacon\nbeacon 1\ngroup 2\ngroup 3 1\ngpull\nend\n"
        answers = "joined\nset\nslept\naccepted 0\nbeacon 0 0\nbeacon 0 0\nbeacon 0 0\nqueued 0\nqueued 0\ngsend 0 2 air 64\n"
        *_, second, other, group = air.on_air(trace, answers)
        self.assertEqual(second.beacon, model.Beacon(0, 1, 0, []))
        self.assertEqual(other.beacon, model.Beacon(0, 1, 0, [1]))
        self.assertEqual(model.name_of(other.octets), "beacon seq 0 count 0 period 1 group 0")
        self.assertEqual((model.name_of(group.octets), len(group.octets)), ("group seq 2", 26))

    def test_the_last_frame_of_a_service_period(self) -> None:
        trace = "cell\njoin 0 64 0 3\napsd 0 8 2\nsleep 0\n" + "enq 0 6 0 9\n" * 3 + "trigger 0\npull vo\nend\n"
        answers = "joined\nset\nslept\n" + "".join(f"accepted {n}\n" for n in range(3)) + "triggered vo\n"
        answers += "send 0 sta 0 tid 6 air 156 data 0:0 1:1 more eosp\n"
        first, last = air.on_air(trace, answers)
        self.assertEqual((first.octets[24:26], last.octets[24:26]), (b"\x06\0", b"\x16\0"))
        self.assertEqual((first.octets[1], last.octets[1]), (0x22, 0x22))
        self.assertEqual(model.name_of(last.octets), "data tid 6 seq 1")

    def test_a_beacon_without_a_whole_tim_is_another_frame(self) -> None:
        whole = air.beacon(0, 0, model.Beacon(0, 1, 0, []))
        for octets in (whole[:-1], whole[:48], whole[:30], bytes([0x80])):
            self.assertEqual(model.name_of(octets), "other")


if __name__ == "__main__":
    unittest.main()
