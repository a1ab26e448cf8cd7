"""Rates and airtimes against the worked numbers of docs/MACHINE.md and README.md."""
from __future__ import annotations

import unittest

from sim.rates import Rate, charge, padded, parse_rate, subframe


def rate(text: str) -> Rate:
    """The rate of a text that is one."""
    found = parse_rate(text)
    assert found
    return found


class Rates(unittest.TestCase):
    def test_one_frame_at_the_lowest_rate(self) -> None:
        # README, "A first trace": 1534 octets are 473 symbols of 26 bits; 36 + 1892, 16 and 32.
        self.assertEqual(charge(rate("0 20 long"), subframe(1500), 64), 1976)

    def test_a_wide_session_has_a_longer_block_ack(self) -> None:
        self.assertEqual(charge(rate("0 20 long"), subframe(1500), 65), 1984)

    def test_short_guard_interval(self) -> None:
        # 12294 bits are 24 symbols of 520; 4*ceil(9*24/10) = 88; the preamble of two streams is 40.
        self.assertEqual(rate("15 20 short").data_time(subframe(1500)), 128)

    def test_kilobits(self) -> None:
        # The fastest of VHT has 24,960 bits in 3.6 microseconds; that of HE 130,666 of 130,666 2/3 in 13.6.
        wanted = {
            "0 20 long": 6500,
            "15 20 short": 144_444,
            "15 40 short": 300_000,
            "vht 9 160 short 8": 6_933_333,
            "he 0 20 3200 1": 7312,
            "he 11 160 800 8": 9_607_794,
        }
        self.assertEqual({text: rate(text).kbit for text in wanted}, wanted)

    def test_times_of_vht_and_he(self) -> None:
        # The first is 18,726 bits of 26 with one encoder: 40 and 4 times 721. The last two have 8166 bits, and 8166 2/3 by the tables.
        wanted = {
            ("vht 0 20 long 1", 2338): 2924,
            ("vht 9 80 short 2", 1538): 60,
            ("vht 7 160 long 4", 1163): 56,
            ("vht 7 160 long 4", 1164): 60,
            ("he 0 20 3200 1", 2338): 2628,
            ("he 11 80 800 2", 1538): 64,
            ("he 11 160 800 4", 65_535): 188,
            ("he 11 80 800 1", 6122): 139,
        }
        self.assertEqual({(text, octets): rate(text).data_time(octets) for text, octets in wanted}, wanted)

    def test_a_frame_of_ofdm_or_dsss(self) -> None:
        # 1530 octets are 12,262 bits with SERVICE and the tail: 511 symbols of 24, or 57 of 216. 44 are SIFS and the Ack.
        wanted = {"ofdm 6": 2064, "ofdm 54": 248, "dsss 2": 12_432, "dsss 22": 1305}
        self.assertEqual({text: charge(rate(text), subframe(1500), 1) for text in wanted}, {text: time + 44 for text, time in wanted.items()})
        self.assertEqual([rate(text).kbit for text in ("ofdm 6", "ofdm 54", "dsss 2", "dsss 11")], [6000, 54_000, 1000, 5500])

    def test_octets_within_is_the_most(self) -> None:
        texts = [f"{mcs} 20 {guard}" for mcs in range(16) for guard in ("long", "short")]
        texts += [f"vht {mcs} 80 {guard} 1" for mcs in range(10) for guard in ("long", "short")]
        texts += [f"he {mcs} 160 {guard} 7" for mcs in range(12) for guard in (800, 1600, 3200)]
        for one in map(rate, texts):
            most = one.octets_within(4000)
            self.assertLessEqual(one.data_time(most), 4000)
            self.assertGreater(one.data_time(most + 1), 4000)

    def test_how_many_rates_there_are(self) -> None:
        widths = (20, 40, 80, 160)
        vht = [f"vht {mcs} {mhz} {guard} {streams}" for mcs in range(11) for mhz in widths for guard in ("long", "short") for streams in range(10)]
        he = [f"he {mcs} {mhz} {guard} {streams}" for mcs in range(13) for mhz in widths for guard in (400, 800, 1600, 3200) for streams in range(10)]
        self.assertEqual([sum(parse_rate(text) is not None for text in texts) for texts in (vht, he)], [620, 1152])

    def test_padding(self) -> None:
        self.assertEqual([padded(1500), subframe(1500), padded(1502)], [1536, 1534, 1536])

    def test_texts_that_are_no_rate(self) -> None:
        for text in (
            *("", "15", "16 20 short", "7 80 long", "7 20 brief", "-1 20 long", "7 20 long x", "ht 7 20 long", "7 20 800"),
            *("vht", "vht 9 20 short 2", "vht 9 80 800 2", "vht 9 80 short", "vht 9 80 short 9", "vht 9 80 short 2 2"),
            *("9" * 5000 + " 20 long", "٧ 20 long"),
            *("ofdm", "ofdm 7", "ofdm 54 20", "ofdm -6", "ofdm 6.0", "dsss", "dsss 1", "dsss 5.5", "dsss 54"),
            *("he", "he 11 160 400 4", "he 11 160 short 4", "he 12 160 800 4", "he 11 160 800 0", "he 11 160 -800 4"),
        ):
            self.assertIsNone(parse_rate(text), text)
        for text in ("15 20 short", "vht 9 20 short 3", "he 11 160 3200 8", "ofdm 54", "dsss 11"):
            self.assertEqual(str(parse_rate(text)), text)


if __name__ == "__main__":
    unittest.main()
