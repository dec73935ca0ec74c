"""What a receiver reports. The expected values are worked out by hand from RFC 3550, 6.4.1, A.3 and A.8."""

import copy
import pickle
import unittest

from rtp_wire import BadField, ReceptionReport, ReceptionStatistics


class Reports(unittest.TestCase):
    def test_late_ones_and_duplicates(self) -> None:
        # four were due at first, and seven then; a number below the first one's changes nothing of that
        statistics = ReceptionStatistics()
        self.assertIsNone(statistics.report())
        for number in (10, 11, 13, 13, 9):
            statistics.record(number, 0, 0)
        self.assertEqual((statistics.received, repr(statistics)), (5, "ReceptionStatistics(received=5)"))
        self.assertEqual(statistics.report(), ReceptionReport(0, -1, 13, 0))
        self.assertIsNone(statistics.report())
        statistics.record(20, 0, 0)
        self.assertEqual(statistics.report(), ReceptionReport(219, 5, 20, 0))

    def test_cycles(self) -> None:
        # the rollovers are those since the first packet
        statistics = ReceptionStatistics()
        statistics.record(196613, 0, 0)
        statistics.record(196615, 0, 0)
        self.assertEqual(statistics.report(), ReceptionReport(85, 1, 7, 0))
        statistics.record(262144, 0, 0)
        self.assertEqual(statistics.report(), ReceptionReport(255, 65529, 65536, 0))

    def test_jitter(self) -> None:
        # transit times of 100, 130 and 110 ticks, while the timestamps roll over: 30, and then 30 + 20 - 2 sixteenths
        statistics = ReceptionStatistics()
        statistics.record(1, 4294967040, arrival=4294967140)
        statistics.record(2, 4294967200, arrival=34)
        statistics.record(3, timestamp=64, arrival=174)
        self.assertEqual(statistics.report(), ReceptionReport(0, 0, 3, 3))

    def test_copies_are_apart(self) -> None:
        statistics = ReceptionStatistics()
        statistics.record(5, 6, 70)
        statistics.record(9, 8, 90)
        for other in (copy.copy(statistics), pickle.loads(pickle.dumps(statistics))):
            self.assertEqual(other, statistics)
            other.record(11, 12, 13)
            self.assertNotEqual(other, statistics)
            self.assertEqual(other.report(), ReceptionReport(146, 4, 11, 6))
        self.assertEqual(statistics.received, 2)
        self.assertNotEqual(statistics, None)
        self.assertRaises(TypeError, hash, statistics)

    def test_blocks(self) -> None:
        block = "0000002c40fffffe00010008000000011234567800010000"
        report = ReceptionReport(64, -2, 65544, 1)
        self.assertEqual(report.block(44, 0x12345678, 65536).hex(), block)
        self.assertEqual(report.block(44).hex(), block[:32] + 16 * "0")

    def test_what_does_not_fit(self) -> None:
        statistics = ReceptionStatistics()
        for row in ((1 << 64, 0, 0), (0, 1 << 32, 0), (0, 0, 1 << 32), (-1, 0, 0)):
            self.assertRaises(BadField, statistics.record, *row)
        self.assertEqual(statistics, ReceptionStatistics())
        report = ReceptionReport(1, 2, 3, 4)
        for name, value in (("fraction_lost", 256), ("cumulative_lost", 8388608), ("jitter", 1 << 32)):
            self.assertRaisesRegex(BadField, name, report._replace(**{name: value}).block, 44)
        self.assertRaisesRegex(BadField, "cumulative_lost", report._replace(cumulative_lost=-8388609).block, 44)
        self.assertRaisesRegex(BadField, "delay", report.block, 44, 0, 1 << 32)


if __name__ == "__main__":
    unittest.main()
